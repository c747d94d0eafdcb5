// A receipt on the spot: what this phone knows of one payment of a round, to show, to share and to print.
import {alertBox, button, card, element, emptyState, fill, link} from "../shared/elements.js";
import {institution} from "../shared/institution.js";
import {textOfCents} from "../shared/money.js";
import {facts, pageHead} from "../shared/tables.js";
import {note} from "../shared/dialogs.js";
import {say, showDated, showDay, showMoney} from "../shared/words.js";
import {codeOf} from "./kept-code.js";
import {leftAfter, shownOf} from "./kept-left.js";

const SENT = ["entered", "repeated"];
const ENTERED = {entered: "yes", typed: "no", unknown: "unknown"};  // as the code says it

// The payments of a line that were taken with this phone: each with its receipt's number, its cents, what was left to
// pay before it, and its state: entered, typed, or unknown where it was sent and no reply came.
export function ownPayments({payments, results, receipt, cents, owed, isSent}) {
    const entered = payments.filter((one) => !one.reversed && SENT.includes(results[one.receipt])).map((one) => ({
        number: one.receipt, cents: one.amount, before: one.before ?? null, state: "entered"
    }));
    const state = isSent ? "unknown" : "typed";
    return cents === null ? entered : [...entered, {number: receipt, cents, before: owed, state}];
}

// what is left for certain after a payment: what was left before it, less what is paid; and what is paid beyond that
function certainAfter({cents, before}) {
    return cents > before ? {left: 0n, over: cents - before} : {left: before - cents, over: 0n};
}

// What is left after a payment as the desk will say it, with all that it says of it, or else what is certain.
async function tellAfter(round, line, payment) {
    const payments = ownPayments(line);
    const upTo = payments.slice(0, payments.findIndex(({number}) => number === payment.number) + 1);
    const told = await leftAfter(round, line.account ?? line.packed, upTo);
    const isTold = told !== null && !told.fault;
    return isTold ? shownOf(told, round.day) : {...certainAfter(payment), fault: told?.fault ?? null};
}

export function receiptAddress({office, day}, loan, number) {
    return `#/kept/${office}/${day}/receipt/${loan}/${number}`;
}

// Links to the receipts of a line. begin: called before one is shown, so that what was typed last is on it.
export function receiptLinks(round, line, begin) {
    return ownPayments(line).filter(({before}) => before !== null).map(({number, cents}) => {
        const href = receiptAddress(round, line.loan, number);
        const onclick = async (event) => {
            event.preventDefault();
            await begin();
            location.hash = href;
        };
        const label = say("slip.of", {client: line.name, amount: showMoney(cents)});
        return link(href, say("receipt"), {class: "slip-link", "aria-label": label, onclick});
    });
}

export async function showReceipt(page, round, loan, number) {
    const line = round.lines.find((one) => one.loan === loan);
    const payment = line && ownPayments(line).find((one) => one.number === number && one.before !== null);
    const trail = [
        [say("kept.title"), "#/kept"],
        [say("kept.round", {day: showDay(round.day)}), `#/kept/${round.office}/${round.day}`]
    ];
    if (!payment) {
        fill(page, pageHead({title: say("receipt"), trail}), card(null, emptyState(say("slip.none"))));
        return;
    }
    const told = {round, line, ...payment, ...(await tellAfter(round, line, payment))};
    const slip = slipNode(told);
    const share = () => navigator.share({title: say("receipt"), text: plainWords(told)}).catch(tellUnshared);
    const actions = [
        navigator.share && button(say("slip.share"), share, {class: "btn btn-primary"}),
        button(say("slip.print-roll"), () => print(slip, "roll")), button(say("slip.print-a6"), () => print(slip, "a6"))
    ];
    const head = pageHead({title: say("receipt"), trail, actions});
    head.classList.add("d-print-none");
    fill(page, head, slip);
    showCode(slip, told);
}

// Closing the phone's own choice of whom to share with is no fault.
function tellUnshared(problem) {
    if (problem.name !== "AbortError") {
        console.error(problem);
        note(say("slip.not-shared"));
    }
}

function print(slip, paper) {
    slip.dataset.paper = paper;
    window.print();
}

// what stands on a receipt, each with its words
function pairsOf(told) {
    const {round, line, number, cents, before, over} = told;
    return [
        [say("office"), `${round.office} ${round.officeName}`], [say("loan"), line.loan], [say("client"), line.name],
        [say("day"), showDay(round.day)], [say("slip.before"), showMoney(before)],
        [say("round.paid"), showMoney(cents)], ...leftPairs(told), over > 0n && [say("overpaid"), showMoney(over)],
        [say("slip.number"), number]
    ].filter(Boolean);
}

// Where the desk's own source told it: what it is made of, and what comes next.
function leftPairs({left, portions, due, next}) {
    if (portions === undefined) {
        return [[say("slip.left"), showMoney(left)]];
    }
    const parts = portions.map(([name, cents]) => `${say(`portion.${name}`)}\u00a0${showMoney(cents)}`);
    return [
        [say("left-to-pay"), showMoney(left)], parts.length > 1 && [say("slip.parts"), parts.join(" · ")],
        due > 0n && [say("slip.due"), showMoney(due)],
        next && [say("slip.next"), `${showDay(next.due)} · ${showMoney(next.outstanding)}`]
    ].filter(Boolean);
}

function stateWords({state}) {
    return say(`slip.${state}`);
}

function knownWords({round, portions}) {
    const known = say("slip.known", {time: showDated(round.taken)});
    return portions === undefined ? known : `${known} ${say("slip.worked-out")}`;
}

// what the desk would answer to a payment that isn't entered
function faultWords({fault, state}) {
    return fault && state !== "entered" ? say("slip.fault", {why: say(`refusal.${fault}.what`)}) : null;
}

function plainWords(told) {
    const lines = pairsOf(told).map(([words, value]) => `${words}: ${value}`);
    const more = [stateWords(told), faultWords(told), knownWords(told)].filter(Boolean);
    return [institution.name, say("receipt"), ...lines, ...more].join("\n");
}

// What the code carries: a name and a value a line, the same in each language; amounts as in a sheet, the day as
// 2024-03-31.
function codeText({round, line, number, cents, before, left, over, state}) {
    const pairs = {
        receipt: number, institution: institution.name, office: `${round.office} ${round.officeName}`, loan: line.loan,
        client: line.name, day: round.day, before: textOfCents(before), paid: textOfCents(cents),
        left: textOfCents(left), ...(over > 0n ? {overpaid: textOfCents(over)} : {}), entered: ENTERED[state]
    };
    return Object.entries(pairs).map(([name, value]) => `${name}: ${value}`).join("\n");
}

function slipNode(told) {
    const pairs = pairsOf(told).map(
        ([words, value]) => [words, words === say("round.paid") ? element("strong", {}, value) : value]);
    return element(
        "article", {class: "sheet slip", "data-paper": "a6"}, element("p", {class: "h6 mb-1"}, institution.name),
        element("p", {class: "h5"}, say("receipt")), facts(pairs),
        element("p", {class: told.state === "entered" ? "slip-state" : "slip-state slip-waits"}, stateWords(told)),
        faultWords(told) && alertBox("warning", faultWords(told)),
        element("p", {class: "slip-known"}, knownWords(told)), element("div", {class: "slip-code"}));
}

async function showCode(slip, told) {
    const place = slip.querySelector(".slip-code");
    try {
        fill(place, await codeOf(codeText(told), say("slip.code")));
    } catch (problem) {
        console.error(problem);
        fill(place, alertBox("info", say("slip.no-code")));
    }
}
