// What the desk tells of all loans of a day pack, and their entries, by few messages.
import {pause, Problem, readLoans} from "../shared/api.js";
import {dayOfNumber} from "../shared/days.js";
import {nextReceipt} from "./round-receipts.js";

const MOST_LOANS = 1000;  // of one message: the front takes no more
const MOST_LETTERS = 8000;  // of one message: the front takes a line of 8 kB

// How a message names loans, which are in order: of each office the number of the first one, and how much further that
// of each next one is. 0002-000001, 0002-000017 and 0003-000005 are 2:1.16&3:5.
export function spelled(loans) {
    let last = {office: 0, number: 0};
    const named = (loan) => {
        const [office, number] = loan.split("-").map(Number);
        const words = office === last.office ? `.${number - last.number}` : `&${office}:${number}`;
        last = {office, number};
        return words;
    };
    return loans.map(named).join("").slice(1);
}

// The entries of a loan, as the front tells them: a list of entries, and of texts of repayments that stand. Of each of
// these it has how much its amount is more than that of the one before it in these texts, by how many days it is later,
// and an r where its receipt is that of a round of its day: 5000,19800,r;,7,r;-1,7
export function entriesOf(loan, told) {
    const round = {office: Number(loan.slice(0, 4)), loan};
    let [amount, number] = [0, 0];
    const repayment = (steps) => {
        const [more, later, mark] = steps.split(",");
        amount += Number(more);
        number += Number(later);
        const day = dayOfNumber(number);
        const receipt = mark === "r" ? nextReceipt({...round, day}, []) : null;
        return {kind: "repayment", day, amount, instalment: null, portion: null, reversed: false, receipt};
    };
    return told.flatMap((part) => (typeof part === "string" ? part.split(";").map(repayment) : part));
}

// so many of the first loans as one message can name, in its order
function ofOneMessage(loans) {
    for (let most = loans.length;; most = Math.floor(most * 0.9)) {
        const asked = loans.slice(0, most).sort();
        const message = `/played?${spelled(asked)}`;
        if (message.length <= MOST_LETTERS) {
            return {asked, message};
        }
    }
}

const BYTES_OF_A_LOAN = 150;  // as long as none has come
const UNTIL_COUNTED = 100;  // milliseconds, after which the browser has told the bytes of what came

async function counted(left) {
    await pause(UNTIL_COUNTED);
    return left();
}

// Of loans, those first that are wanted first, what the desk tells of each, and its entries as the front tells them, by
// number. left: how many messages and bytes there is room for. One message comes after another, since the front holds a
// whole one in its memory. What one had no room for is asked for first by the next, which names no more than there was
// room for. A pack without accounts is better than none: where a desk is too slow to tell them, or the front is an older
// one, those that came are all. tell: is called once one has come.
export async function readAccounts(loans, left, tell) {
    const all = new Map();
    let wanted = loans;
    let mostOfOne = MOST_LOANS;
    let bytesOfOne = BYTES_OF_A_LOAN;
    let room = await counted(left);
    const count = () => Math.min(mostOfOne, Math.floor(room.bytes / bytesOfOne));
    try {
        while (wanted.length > 0 && room.messages > 0 && count() > 0) {
            const {asked, message} = ofOneMessage(wanted.slice(0, count()));
            const {told, beyond} = await readLoans(message, asked) ?? {told: [], beyond: asked};
            tell();
            told.forEach(([loan, its]) => all.set(loan, its));
            const isLeft = new Set([...beyond, ...wanted.slice(asked.length)]);
            wanted = wanted.filter((loan) => isLeft.has(loan));
            mostOfOne = beyond.length > 0 ? asked.length - beyond.length : mostOfOne;
            const before = room;
            room = await counted(left);
            bytesOfOne = Math.max(1, before.bytes - room.bytes) / Math.max(1, told.length);
        }
    } catch (problem) {
        if (!(problem instanceof Problem)) {
            throw problem;
        }
        console.warn("not all accounts are in the pack", problem);
    }
    return all;
}
