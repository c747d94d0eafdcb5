// What a round reads: the loans of which something is due by its day, and what the round has of any loan already.
import {
    ACTIVE,
    CLOSED,
    OVERPAID,
    clientName,
    entries as readEntries,
    isOpen,
    lastDays,
    loan as readLoan,
    loansOf,
    openSince,
    schedule,
    total
} from "../shared/desk.js";
import {dueBy, hasLists, learnStaff, ofStatus} from "../shared/lists.js";
import {daysBetween, LAST_DAY} from "../shared/days.js";
import {sum} from "../shared/money.js";
import {draftsOf, endDraft, NO_DRAFT} from "../shared/drafts.js";
import {isAskedFor} from "../shared/institution.js";
import {knownOf} from "../shared/repayments.js";
import {nextReceipt, paymentsOf} from "./round-receipts.js";
import {accountOf} from "./round-state.js";

const MANY_CLOSED = 200;  // closed loans that are looked at unasked

// Answers the lines, how many loans have too little due to be asked for, and the loans that have no line: null where
// they are still to be listed.
export async function readRound(office, day) {
    return (await hasLists()) ? readListed(office, day) : readOneByOne(office, day);
}

// By the desk's lists: what is due stands in them, with the last entry. Of a loan that has an entry of the round's day
// or a later one the entries are read, since the round may have a payment of it; of the others once their line is typed
// into.
async function readListed(office, day) {
    const drafts = draftsOf(office, day);
    const due = await dueBy(office, day);
    const small = due.filter((one) => !isAskedFor(total(one.due))).length;
    const shown = due.filter((one) => isAskedFor(total(one.due)) || drafts.has(one.loan));
    const listed = shown.map((one) => {
        const place = {office, day, loan: one.loan};
        const isTouched = drafts.has(one.loan) || (one.last !== null && one.last.day >= day);
        return isTouched ? readWhole(place, drafts.get(one.loan)) : lineOf(place, one);
    });
    const isShown = (loan) => shown.some((one) => one.loan === loan);
    const further = [...drafts].filter(([loan]) => !isShown(loan))
                        .map(([loan, draft]) => readWhole({office, day, loan}, draft));
    return {lines: await Promise.all([...listed, ...further]), small, others: null};
}

function lineOf(place, {client, name, oldest, due, left}) {
    return {
        ...place,
        client,
        name,
        since: oldest,
        days: Math.max(0, daysBetween(oldest, place.day)),
        due: total(due),
        owed: BigInt(left),
        known: null,
        account: null,
        payments: [],
        isFurther: false,
        results: {},
        ...NO_DRAFT,
        receipt: nextReceipt(place, [])
    };
}

async function readWhole(place, draft) {
    return readLine(place, (await schedule(place.loan)).filter((one) => isOpen(one) && one.due <= place.day), draft);
}

async function readOneByOne(office, day) {
    const drafts = draftsOf(office, day);
    const list = await loansOf(office);
    let small = 0;
    const read = await Promise.all(list.map(async ({loan, status}) => {
        if (status !== ACTIVE && !drafts.has(loan)) {
            return null;
        }
        const instalments = (await schedule(loan)).filter((one) => isOpen(one) && one.due <= day);
        const due = sum(instalments.map((one) => one.outstanding));
        small += due > 0n && !isAskedFor(due) ? 1 : 0;
        const draft = drafts.get(loan);
        return isAskedFor(due) || draft ? readLine({office, day, loan}, instalments, draft) : null;
    }));
    const lines = read.filter((line) => line !== null);
    const others = list.filter(({loan}) => !lines.some((line) => line.loan === loan));
    return {lines, small, others};
}

async function readLine(place, instalments, draft) {
    const [told, entries] = await Promise.all([readLoan(place.loan), readEntries(place.loan)]);
    const since = openSince(instalments);
    const payments = paymentsOf(place, entries);
    await learnStaff(payments.map(({staff}) => staff));
    const known = knownOf(told, entries);
    const isEntered = entries.some(
        ({receipt, amount, reversed}) => !reversed && receipt === draft?.receipt && BigInt(amount) === draft.cents);
    if (isEntered) {
        endDraft(place);  // its reply was lost, or another entered the same payment of this round
    }
    const kept = isEntered || draft === undefined ? NO_DRAFT : draft;
    return {
        ...place,
        client: told.client,
        name: await clientName(told.client),
        since,
        days: since === null ? 0 : Math.max(0, daysBetween(since, place.day)),
        due: sum(instalments.map((one) => one.outstanding)),
        owed: known.owed,
        known,
        account: accountOf(told, entries),
        payments,
        isFurther: kept.text !== "",
        results: {},
        ...kept,
        receipt: kept.receipt ?? nextReceipt(place, payments),
    };
}

// Looks for what this round has of the loans that have no line: they were paid in it and are no longer due. Of a closed
// loan the last day of an entry doesn't change, and is kept, so that it isn't looked at again for a later round.
// Answers those that were not looked at, since there are many: all closed ones of an office that the desk lists.
export async function readOthers(made, found) {
    const others = made.others ?? await othersListed(made);
    const unknown = others.filter(({loan, status}) => status === CLOSED && lastDays(made.office).of(loan) >= made.day);
    const left = made.others === null && unknown.length > MANY_CLOSED ? unknown : [];
    await lookAt({...made, others: others.filter((one) => !left.includes(one))}, found);
    return left;
}

// The loans without a line that may have a payment of the round: of the active ones those with an entry of its day or a
// later one, and what is overpaid or closed.
async function othersListed({office, day, lines}) {
    const ofEach = async (status) => (await ofStatus(office, status)).map(({loan}) => ({loan, status}));
    const [active, ...ended] = await Promise.all([dueBy(office, LAST_DAY), ofEach(OVERPAID), ofEach(CLOSED)]);
    const paid = active.filter(({last}) => last !== null && last.day >= day).map(({loan}) => ({loan, status: ACTIVE}));
    return [...paid, ...ended.flat()].filter(({loan}) => !lines.some((line) => line.loan === loan));
}

export async function lookAt({office, day, others}, found) {
    const last = lastDays(office);
    const wanted = others.filter(
        ({loan, status}) => [ACTIVE, OVERPAID].includes(status) || (status === CLOSED && last.of(loan) >= day));
    await Promise.all(wanted.map(async ({loan, status}) => {
        const place = {office, day, loan};
        const entries = await readEntries(loan);
        if (status === CLOSED) {
            last.keep(loan, entries.map((entry) => entry.day).sort().at(-1) ?? "");
        }
        if (paymentsOf(place, entries).some(({reversed}) => !reversed)) {
            found(await readLine(place, [], undefined));
        }
    }));
    last.end();
}
