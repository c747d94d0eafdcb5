// What a line of a round becomes: once it was entered, as it is read again, and for one payment more.
import {entries as readEntries, loan as readLoan} from "../shared/desk.js";
import {learnStaff} from "../shared/lists.js";
import {knownOf} from "../shared/repayments.js";
import {session} from "../shared/session.js";
import {nextReceipt, paymentsOf} from "./round-receipts.js";

const ENTRY = ["kind", "day", "amount", "instalment", "portion", "reversed", "receipt"];

// The loan and its entries as the desk told them, and what it told of the balances: a phone without a network works out
// of them what a payment leaves (kept-left.js).
export function accountOf({product, principal, periods, day, status, outstanding, overpaid}, entries) {
    const bare = (one) => Object.fromEntries(ENTRY.map((name) => [name, one[name]]));
    return {product, principal, periods, day, entries: entries.map(bare), told: {...outstanding, overpaid, status}};
}

// A line that was entered shows what it is now, as far as this page knows.
export function settleLine(line) {
    const {receipt, cents, result, known} = line;
    const over = cents > line.owed ? cents - line.owed : 0n;
    line.results[receipt] = result;
    const payment = {receipt, amount: cents, staff: session.staff, reversed: false, before: line.owed};
    line.payments.push(...paymentsOf(line, [payment]));
    line.owed -= cents - over;
    line.due = line.due > cents ? line.due - cents : 0n;
    line.known = {...known, entries: known.entries + 1, owed: line.owed, overpaid: known.overpaid + over};
    Object.assign(line, {isFurther: false, text: "", cents: null, result: null});
}

// The desk doesn't tell what was left to pay before a payment: what this page knew of it stays.
export function withBefore(payments, known) {
    const before = new Map(known.map((one) => [one.receipt, one.before]));
    return payments.map((one) => ({...one, before: before.get(one.receipt)}));
}

// Of a line that a list told, what the list doesn't tell: the entries, and so what this round has of the loan already.
// It is read before the line is typed into, taken along, or sent. A payment that somebody else entered meanwhile keeps
// its receipt, so that what was typed is told as a repetition of it or as another amount, and never entered beside it.
export function completeLine(line) {
    if (line.account === null) {
        line.completing ??= complete(line).finally(() => (line.completing = null));
    }
    return line.completing;
}

async function complete(line) {
    await renewLine(line);
    const hasStanding = line.payments.some(({reversed}) => !reversed);
    if (line.text !== "") {
        line.isFurther = hasStanding;
        line.receipt = hasStanding ? line.receipt : nextReceipt(line, line.payments);
    }
}

// reads again what the round has of a loan
export async function renewLine(line) {
    const [told, entries] = await Promise.all([readLoan(line.loan), readEntries(line.loan)]);
    line.payments = withBefore(paymentsOf(line, entries), line.payments);
    await learnStaff(line.payments.map(({staff}) => staff));
    line.known = knownOf(told, entries);
    line.account = accountOf(told, entries);
    const paid = line.owed - line.known.owed;
    line.owed = line.known.owed;
    line.due = line.due > paid ? line.due - paid : 0n;
    if (line.text === "") {
        line.receipt = nextReceipt(line, line.payments);
    }
}

// The next receipt, for one payment more of this loan in this round.
export function beginFurther(line) {
    line.receipt = nextReceipt(line, line.payments);
    line.isFurther = true;
    line.result = null;
}
