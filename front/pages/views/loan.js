// A loan: how it stands, its schedule, its graph, its entries, and what may be done with it.
import {alertBox, button, card, element, emptyState, fill, link} from "../shared/elements.js";
import {Problem, readIfThere} from "../shared/api.js";
import {showRefusal} from "../shared/refusals.js";
import {renewDay, session} from "../shared/session.js";
import * as desk from "../shared/desk.js";
import {daysBetween} from "../shared/days.js";
import {sum} from "../shared/money.js";
import {say, sayCount, showCount, showMoney, showPercent, showStep} from "../shared/words.js";
import {
    amount,
    amountOrDash,
    capital,
    day,
    facts,
    figure,
    figures,
    overdueBadge,
    pageHead,
    row,
    statusBadge,
    table
} from "../shared/tables.js";
import {balanceSteps} from "../shared/graphs.js";
import {hasLists, learnStaff, loansOfListed, staffWords} from "../shared/lists.js";
import {changeTable, changesOfLoan} from "./changes.js";
import {loanActions, mayReverse, reverseEntry} from "./loan-actions.js";
import {listedLoans} from "./client.js";
import {previewNodes, previewOf} from "./preview.js";

const WAITING = [100, 200];

export async function loan(page, account) {
    const told = await readLoan(account);
    const again = () => loan(page, account);
    const actions = loanActions(told, again).map(({words, run, isGrave}, i) => button(words, run, {
                                                     class: `btn ${
                                                         isGrave     ? "btn-outline-danger" :
                                                             i === 0 ? "btn-primary" :
                                                                       "btn-outline-primary"}`,
                                                 }));
    const statement = link(`#/statement/${account}`, say("way.statement"), {class: "btn btn-outline-secondary"});
    const changes = element("div", {class: "mt-3"});
    fill(
        page, head(told, [...actions, statement]), warning(told), sums(told),
        element(
            "div", {class: "row g-3"}, element("div", {class: "col-12 col-lg-5"}, card(say("loan.terms"), terms(told))),
            element("div", {class: "col-12 col-lg-7"}, card(say("loan.graph"), graph(told)))),
        told.day && element("div", {class: "mt-3"}, card(say("loan.balances"), balances(told))),
        element("div", {class: "mt-3"}, planned(told)),
        told.others && element("div", {class: "mt-3"}, card(say("loan.others"), othersOf(told))),
        element("div", {class: "mt-3"}, card(say("loan.entries"), entryTable(told, again))), changes);
    showChanges(changes, account);
}

// Who did what, where the desk tells it, once the rest of the page is there. Where it can't be told the rest stays.
async function showChanges(place, account) {
    try {
        const changes = await changesOfLoan(account);
        await learnStaff((changes ?? []).map(({staff}) => staff));
        const caption = say("changes.title");
        fill(place, changes && card(caption, changeTable(changes, {caption})));
    } catch (problem) {
        showRefusal(place, problem, () => showChanges(place, account));
    }
}

// all that is shown of a loan, read at one time
export async function readLoan(account) {
    const isWritten = desk.isAccount(account ?? "");
    const [one] = await Promise.all([isWritten ? readIfThere(`/loans/${account}`) : null, renewDay()]);
    if (one === null) {
        throw new Problem({fault: "F4"});
    }
    window.dispatchEvent(new Event("desk-day"));
    const isMade = one.day !== null;  // before it is paid out a loan has neither schedule nor entries
    const isWaiting = WAITING.includes(one.status) && await hasLists();
    const [name, product, office, instalments, entries, preview, others] = await Promise.all([
        desk.clientName(one.client), desk.product(one.product), desk.officeNamed(desk.officeOf(account)),
        isMade ? desk.schedule(account) : [], isMade ? desk.entries(account) : [], isWaiting ? previewOf(one) : null,
        isWaiting ? loansOfListed(one.client) : null
    ]);
    await learnStaff(entries.map((entry) => entry.staff));
    const since = desk.openSince(instalments);
    const overdue = one.status === desk.ACTIVE && since !== null ? Math.max(0, daysBetween(since, session.day)) : 0;
    return {...one, name, terms: product, office, instalments, entries, since, overdue, preview, others};
}

// The schedule, or before it is made what it would be.
function planned(told) {
    return told.preview === null ?
        card(say("loan.schedule"), scheduleTable(told)) :
        card(say("preview.title"), previewNodes(told.preview, session.day, true));
}

// what a client has of other loans while one of theirs waits
export function othersOf({loan: account, others}, isNarrow = false) {
    return listedLoans(others.filter((one) => one.loan !== account), isNarrow) ?? emptyState(say("loan.no-others"));
}

function head(told, actions) {
    const office = desk.officeOf(told.loan);
    const officeWords = told.office ? `${office} ${told.office.name}` : String(office);
    return pageHead({
        title: say("loan.title", {loan: told.loan}),
        badge: statusBadge(told.status),
        actions,
        trail: [[officeWords, `#/loans/${office}`], [told.name, `#/client/${told.client}`]],
    });
}

function warning(told) {
    if (told.overdue === 0) {
        return null;
    }
    const {principal, all} = desk.overdueOf(told.instalments, told.entries, session.day);
    return alertBox(
        "danger", element("strong", {}, sayCount("overdue", told.overdue)), " · ",
        say("loan.overdue-sum", {amount: showMoney(all)}), ` · ${say("overdue.principal")} ${showMoney(principal)}`);
}

function sums(told) {
    const over = BigInt(told.overpaid) > 0n ? figure(say("overpaid"), showMoney(told.overpaid), {isAlarming: true}) :
        BigInt(told.refunded) > 0n          ? figure(say("refunded"), showMoney(told.refunded)) :
                                              null;
    const written = desk.total(told.written_off);
    return figures(
        figure(say("principal"), showMoney(told.principal)),
        figure(say("left-to-pay"), showMoney(desk.total(told.outstanding)), {isAlarming: told.overdue > 0}),
        figure(say("paid"), showMoney(desk.total(told.paid))),
        over ??
            (written > 0n ?
                 figure(say("written-off"), showMoney(written), {isAlarming: true}) :
                 firstOpen(told)));
}

// The first instalment with something left to pay: since when it is overdue, or when it falls due.
function firstOpen(told) {
    const open = told.instalments.find(desk.isOpen);
    if (!open) {
        return figure(say("loan.next-due"), "–");
    }
    return told.overdue > 0 ?
        figure(say("overdue-since"), day(open.due), {more: showMoney(open.outstanding), isAlarming: true}) :
        figure(say("loan.next-due"), showMoney(open.outstanding), {more: day(open.due)});
}

function terms(told) {
    const product = told.terms;
    return facts([
        [say("client"), link(`#/client/${told.client}`, told.name), ` ${told.client}`],
        [say("product"), `${told.product} ${product.name}`],
        [say("method"), say(`method.${product.method}`)],
        [say("rate"), `${showPercent(product.rate)} ${say("rate.yearly")}`],
        [say("periods"), `${showCount(told.periods)}, ${showStep(product)}`],
        [say("strategy"), say(`strategy.${product.strategy}`)],
        [say("loan.paid-out"), told.day ? day(told.day) : "–"],
        BigInt(told.disbursement_fee) > 0n && [say("loan.disbursement-fee"), showMoney(told.disbursement_fee)],
    ].filter((fact) => fact !== false));
}

function balances(told) {
    const columns = [
        {words: say("loan.portion")}, {words: say("paid"), kind: "number"}, {words: say("waived"), kind: "number"},
        {words: say("written-off"), kind: "number"}, {words: say("left-to-pay"), kind: "number"}
    ];
    const rows = ["principal", "interest", "fees", "penalties"].map(
        (name) => row([
            {head: capital(say(`portion.${name}`))},
            ...["paid", "waived", "written_off", "outstanding"].map((group) => amountOrDash(told[group][name]))
        ]));
    return table({caption: say("loan.balances"), columns, rows}).node;
}

// what is outstanding of the principal: as it was planned, and as the entries that stand made it
export function balancePoints(told) {
    const steps = (moves) => {
        let left = BigInt(told.principal);
        return [
            {day: told.day, cents: left}, ...moves.map(([on, cents]) => ({day: on, cents: (left -= BigInt(cents))}))
        ];
    };
    const planned = steps(told.instalments.map((one) => [one.due, one.principal]));
    const paid =
        told.entries.filter((entry) => !entry.reversed)
            .map(
                (entry) =>
                    [entry.day,
                     sum(entry.shares.filter(({portion}) => portion === "principal").map(({amount: cents}) => cents))])
            .filter(([, cents]) => cents > 0n)
            .sort(
                ([one], [other]) =>
                    (one < other     ? -1 :
                         one > other ? 1 :
                                       0));
    const real = steps(paid);
    const end = told.status === desk.ACTIVE && session.day > real.at(-1).day ?
        [{day: session.day, cents: real.at(-1).cents}] :
        [];
    return {planned, real: [...real, ...end]};
}

function graph(told) {
    if (told.day === null) {
        return emptyState(say("loan.no-schedule"));
    }
    return balanceSteps({...balancePoints(told), words: say("loan.graph")});
}

function scheduleTable(told) {
    if (told.instalments.length === 0) {
        return emptyState(say("loan.no-schedule"));
    }
    const portions = ["principal", "interest", "fees", "penalties"];
    const rows = told.instalments.map(
        (one) => row(
            [
                {head: one.number}, day(one.due), ...portions.map((name) => amountOrDash(one[name])),
                amount(desk.total(one)), amountOrDash(one.outstanding), stateOf(one)
            ],
            {class: isLate(one) ? "row-late" : null}));
    const totals = portions.map((name) => sum(told.instalments.map((one) => one[name])));
    const foot = row(
        [
            {head: say("all")}, "", ...totals.map(amountOrDash), amount(sum(totals)),
            amountOrDash(sum(told.instalments.map((one) => one.outstanding))), ""
        ],
        {class: "fw-semibold"});
    const columns = [
        {words: say("instalment.short")}, {words: say("due")},
        ...portions.map((name) => ({words: say(`portion.${name}`), kind: "number"})),
        {words: say("owed"), kind: "number"}, {words: say("left-to-pay"), kind: "number"},
        {words: say("state"), isWide: true}
    ];
    return table({caption: say("loan.schedule"), columns, rows, foot}).node;
}

function isLate(instalment) {
    return desk.isOpen(instalment) && instalment.due < session.day;
}

export function stateOf(instalment) {
    if (isLate(instalment)) {
        return overdueBadge(daysBetween(instalment.due, session.day));
    }
    if (!desk.isOpen(instalment)) {
        return element("span", {class: "badge status-closed"}, say("instalment.settled"));
    }
    const isToday = instalment.due === session.day;
    return element(
        "span", {class: `badge ${isToday ? "status-waiting" : "status-ended"}`},
        say(isToday ? "instalment.today" : "instalment.later"));
}

function entryTable(told, again) {
    if (told.entries.length === 0) {
        return emptyState(say("loan.no-entries"));
    }
    const rows = told.entries.map((entry) => entryRow(told, entry, again));
    const columns = [
        {words: say("instalment.short")}, {words: say("day")}, {words: say("kind")},
        {words: say("amount"), kind: "number"}, {words: say("entry.shares"), isWide: true}, {words: say("receipt")},
        {words: say("staff")}, {words: say("entry.action"), isHidden: true}
    ];
    return table({caption: say("loan.entries"), columns, rows}).node;
}

function entryRow(told, entry, again) {
    const kind = element(
        "span", {}, say(`kind.${entry.kind}`), entry.portion && ` (${say(`portion.${entry.portion}`)})`,
        entry.instalment !== null && ` · ${say("instalment.of", {number: entry.instalment})}`,
        entry.reversed && [" ", element("span", {class: "badge status-ended"}, say("entry.reversed"))]);
    const undo = mayReverse(told, entry) && button(say("entry.reverse"), () => reverseEntry(told, entry, again), {
                     class: "btn btn-sm btn-outline-danger d-print-none",
                     "aria-label": say("entry.reverse.number", {number: entry.entry}),
                 });
    return row(
        [
            {head: entry.entry}, day(entry.day), kind, amount(entry.amount), shareList(entry), entry.receipt ?? "–",
            staffWords(entry.staff), undo
        ],
        {class: entry.reversed ? "row-reversed" : null});
}

export function shareList(entry) {
    if (entry.shares.length === 0) {
        return element("span", {class: "text-muted"}, "–");
    }
    const byInstalment = Map.groupBy ? Map.groupBy(entry.shares, ({instalment}) => instalment) : grouped(entry.shares);
    return element(
        "ul", {class: "shares"},
        [...byInstalment].map(
            ([number, shares]) => element(
                "li", {}, `${say("instalment.of", {number})}: `,
                shares.map(({portion, amount: cents}) => `${say(`portion.${portion}`)} ${showMoney(cents)}`)
                    .join(", "))));
}

function grouped(shares) {
    const groups = new Map();
    for (const share of shares) {
        groups.set(share.instalment, [...(groups.get(share.instalment) ?? []), share]);
    }
    return groups;
}
