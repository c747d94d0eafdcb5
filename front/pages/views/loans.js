// An office's loans, a hundred at a time, or by status where one is chosen. By the desk's lists those of a status stand
// two hundred on a page, and the active ones are shown first.
import {button, card, element, emptyState, fill, link, spinner} from "../shared/elements.js";
import {session} from "../shared/session.js";
import {ACTIVE, asTree, clientName, loan, loansOf, numberOf, offices, total} from "../shared/desk.js";
import {hasLists, isLastPage, stageAfter} from "../shared/lists.js";
import {say, showCount} from "../shared/words.js";
import {amount, day, officeChoice, pageHead, row, statusBadge, table} from "../shared/tables.js";
import {choiceField} from "../shared/forms.js";

const QUIET = "btn btn-sm btn-outline-secondary";
const AT_ONCE = 100;
const STATUSES = [100, 200, 300, 400, 500, 600, 601, 700];

export async function loans(page, office = session.office, chosen = null, after = "0") {
    const number = Number(office);
    const [tree, isListed] = await Promise.all([offices().then(asTree), hasLists()]);
    const status = chosen ?? (isListed ? String(ACTIVE) : "all");
    const place = element("div", {}, spinner(say("loading")));
    const choice = officeChoice({tree, value: number, label: say("office"), onchange: (other) => go(other, status)});
    const statuses = choiceField({
        label: say("status"),
        value: status,
        onchange: () => go(number, statuses.input.value),
        choices: [["all", say("status.all")], ...STATUSES.map((one) => [String(one), say(`status.${one}`)])],
    });
    statuses.node.className = "";
    fill(
        page, pageHead({title: say("loans.title")}),
        element("div", {class: "filters d-print-none"}, choice, statuses.node), card(null, place));
    if (isListed && status !== "all") {
        await showStage(place, number, status, Number(after));
        return;
    }
    const list = (await loansOf(number)).filter((one) => status === "all" || one.status === Number(status)).reverse();
    await showFrom(place, list, 0);
}

function go(office, status) {
    location.hash = `#/loans/${office}/${status}`;
}

async function showStage(place, office, status, after) {
    const list = await stageAfter(office, status, after);
    const to = (first, words) => link(`#/loans/${office}/${status}/${first}`, words, {class: QUIET});
    const turns = [
        after > 0 && to(0, say("loans.first")), !isLastPage(list) && to(numberOf(list.at(-1).loan), say("next"))
    ].filter(Boolean);
    const pages = element("div", {class: "pager"}, turns);
    const shown = list.length === 0 ? emptyState(say("loans.none")) : stageTable(list, status);
    fill(place, shown, turns.length > 0 && pages);
}

// on which day a loan came to its status, where the desk keeps that
const DAYS = {100: null, 200: "loans.approved-on", 400: null, 500: null};

function stageTable(list, status) {
    const words = DAYS[status] === undefined ? "loan.paid-out" : DAYS[status];
    const client = (one) =>
        [link(`#/client/${one.client}`, one.name), " ", element("span", {class: "text-muted"}, one.client)];
    const since = (one) => (words === null ? [] : [one.day === null ? "–" : day(one.day)]);
    const rows = list.map((one) => row([
                              {head: link(`#/loan/${one.loan}`, one.loan)}, client(one), one.product, ...since(one),
                              amount(one.principal)
                          ]));
    const columns = [
        {words: say("loan")}, {words: say("client")}, {words: say("product")},
        ...(words === null ? [] : [{words: say(words)}]), {words: say("principal"), kind: "number"}
    ];
    return table({caption: say("loans.title"), columns, rows}).node;
}

async function showFrom(place, list, first) {
    if (list.length === 0) {
        fill(place, emptyState(say("loans.none")));
        return;
    }
    fill(place, spinner(say("loading")));
    const told = await Promise.all(list.slice(first, first + AT_ONCE).map(async ({loan: account}) => {
        const one = await loan(account);
        return {...one, name: await clientName(one.client)};
    }));
    fill(place, loanTable(told, say("loans.title")), pager(place, list, first));
}

export function loanTable(told, caption, isNamed = true) {
    const rows =
        told.map((one) => row([
                     {head: link(`#/loan/${one.loan}`, one.loan)}, isNamed && link(`#/client/${one.client}`, one.name),
                     statusBadge(one.status), amount(one.principal), amount(total(one.outstanding))
                 ].filter((cell) => cell !== false)));
    const columns = [
        {words: say("loan")}, isNamed && {words: say("client")}, {words: say("status")},
        {words: say("principal"), kind: "number"}, {words: say("left-to-pay"), kind: "number"}
    ].filter((column) => column !== false);
    return table({caption, columns, rows}).node;
}

function pager(place, list, first) {
    const last = Math.min(first + AT_ONCE, list.length);
    const words = say("loans.shown", {first: showCount(first + 1), last: showCount(last), all: showCount(list.length)});
    const turn = (to) => () => showFrom(place, list, to);
    return element(
        "div", {class: "pager"}, element("span", {class: "text-muted"}, words),
        first > 0 && button(say("previous"), turn(first - AT_ONCE), {class: QUIET}),
        last < list.length && button(say("next"), turn(last), {class: QUIET}));
}
