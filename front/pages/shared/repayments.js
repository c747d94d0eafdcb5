// Repayments before they are sent: what speaks against one, so that it is asked once more.
import {element} from "./elements.js";
import * as desk from "./desk.js";
import {learnStaff, staffWords} from "./lists.js";
import {say, showDay, showMoney} from "./words.js";
import {facts} from "./tables.js";

export const OLD_DAYS = 7;  // a repayment that lies further back needs a reason

// What is known of a loan's account: a later reading tells by its entries whether it is still so.
export function knownOf(told, entries) {
    return {
        entries: entries.length,
        reversed: entries.filter(({reversed}) => reversed).length,
        owed: desk.total(told.outstanding),
        overpaid: BigInt(told.overpaid)
    };
}

async function knownNow(loan, entries, known) {
    const isSame = entries.length === known.entries &&
        entries.filter(({reversed}) => reversed).length === known.reversed;
    return isSame ? known : knownOf(await desk.loan(loan), entries);
}

// asked: a repayment that is to be sent; known: what the page knows of the account. Answers null, or what speaks
// against it with the figures before and after. A receipt that the loan has already is no doubt: nothing is entered
// twice by it.
export async function doubtsOf({loan, amount, day, receipt}, known) {
    const entries = await desk.entries(loan);
    if (entries.some((entry) => entry.receipt === receipt)) {
        return null;
    }
    const {owed, overpaid} = await knownNow(loan, entries, known);
    const cents = BigInt(amount);
    const over = cents > owed ? cents - owed : 0n;
    const paid = entries.filter(({kind, reversed}) => kind === "repayment" && !reversed);
    const isNew = (entry) => entry.entry > known.entries;
    const isEqual = (entry) => BigInt(entry.amount) === cents && entry.day === day;
    await learnStaff(paid.map((entry) => entry.staff));
    const doubts = [
        over > 0n && say("doubt.above", {amount: showMoney(cents), owed: showMoney(owed)}),
        ...paid.filter(isNew).map((entry) => say("doubt.since", wordsOf(entry))),
        ...paid.filter((entry) => !isNew(entry) && isEqual(entry)).map((entry) => say("doubt.same", wordsOf(entry)))
    ].filter(Boolean);
    const figures = {left: [owed, owed - cents + over], overpaid: [overpaid, overpaid + over]};
    return doubts.length === 0 ? null : {doubts, ...figures};
}

function wordsOf({amount, day, staff, entry}) {
    return {amount: showMoney(amount), day: showDay(day), staff: staffWords(staff), number: entry};
}

// the doubts in words, and the figures before and after
export function doubtWords({doubts, left, overpaid}) {
    const change = ([before, then]) => `${showMoney(before)} → ${showMoney(then)}`;
    const figures = [[say("left-to-pay"), change(left)], overpaid[1] > 0n && [say("overpaid"), change(overpaid)]];
    return [doubts.map((words) => element("p", {class: "mb-2"}, words)), facts(figures.filter(Boolean))];
}
