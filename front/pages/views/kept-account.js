// What is left of a loan, and what a payment leaves, as the desk will say it: pages.wasm is the source by which the
// desk works it out, compiled another way (front/core) and compared with the program (bench/pages-wasm). It wants a
// browser with memory64.
import {dayOfNumber, numberOfDay} from "../shared/days.js";

// Choices are named by their place, from 1.
const METHODS = ["flat", "declining-equal-principal", "declining-equal-instalments"];
const FREQUENCIES = ["weeks", "months"];
const STRATEGIES = [
    "mifos-standard-strategy", "principal-interest-penalties-fees-order-strategy",
    "interest-principal-penalties-fees-order-strategy", "due-first-by-portion"
];
const WAYS = ["flat", "percent-of-amount", "percent-of-interest", "percent-of-amount-and-interest"];
const KINDS = ["repayment", "fee", "penalty", "waiver", "write-off", "refund"];
export const PORTIONS = ["penalties", "fees", "interest", "principal"];

// where the structs of front/core/heap.c lie, from `places` on
const [LOAN, PAYMENT, TOLD, ROWS, ENTRIES] = [0, 56, 72, 120, 5880];
const [ROW, ENTRY] = [16, 32];
const MOST_ENTRIES = 9999;
const IS_TOLD = 100;

function placeIn(list, name) {
    return list.indexOf(name) + 1;
}

function numberOf(day) {
    return Number(day.replaceAll("-", ""));
}

// The places may have moved: memory that grows has another buffer.
function viewOf({memory, places}) {
    return new DataView(memory.buffer, Number(places()));
}

function put32(view, place, numbers) {
    numbers.forEach((number, i) => view.setUint32(place + 4 * i, number, true));
}

function putLoan(view, {principal, periods, day}, {charge, ...terms}) {
    view.setBigUint64(LOAN, BigInt(principal), true);
    view.setBigUint64(LOAN + 8, BigInt(charge?.value ?? 0), true);
    put32(view, LOAN + 16, [
        charge ? placeIn(WAYS, charge.calc) : 0, placeIn(METHODS, terms.method), terms.rate,
        placeIn(FREQUENCIES, terms.frequency), terms.every, terms.principal_grace, terms.interest_grace,
        placeIn(STRATEGIES, terms.strategy), periods, numberOf(day)
    ]);
}

function putEntries(view, entries) {
    entries.forEach(({kind, day, amount, instalment, portion, reversed}, i) => {
        const place = ENTRIES + ENTRY * i;
        view.setBigUint64(place, BigInt(amount), true);
        put32(view, place + 8, [
            numberOf(day), placeIn(KINDS, kind), instalment ?? 0, portion ? placeIn(PORTIONS, portion) : 0,
            reversed ? 1 : 0, 0
        ]);
    });
}

function putPayment(view, {amount, day, businessDay}) {
    view.setBigUint64(PAYMENT, BigInt(amount), true);
    put32(view, PAYMENT + 8, [numberOf(day), numberOf(businessDay)]);
}

function toldOf(view, {day}) {
    const cents = (place) => view.getBigUint64(place, true);
    const number = (place) => view.getUint32(place, true);
    const started = numberOfDay(day);
    const row = (place) =>
        ({number: number(place + 8), due: dayOfNumber(started + number(place + 12)), outstanding: cents(place)});
    return {
        outstanding: Object.fromEntries(PORTIONS.map((name, i) => [name, cents(TOLD + 8 * i)])),
        overpaid: cents(TOLD + 32),
        status: number(TOLD + 40),
        instalments: Array.from({length: number(TOLD + 44)}, (_, i) => row(ROWS + ROW * i))
    };
}

// Of bytes that this browser can run answers what tells of accounts, else null. A trap throws, and then nothing more is
// told by it.
export async function coreOf(bytes) {
    if (!WebAssembly.validate(bytes)) {
        return null;
    }
    const {exports} = (await WebAssembly.instantiate(bytes)).instance;
    const tell = (loan, terms, entries, call) => {
        if (entries.length > MOST_ENTRIES) {
            return null;
        }
        putLoan(viewOf(exports), loan, terms);
        putEntries(viewOf(exports), entries);
        const answer = call(entries.length);
        if (answer === IS_TOLD) {
            return toldOf(viewOf(exports), loan);
        }
        return answer === 0 ? null : {fault: `F${answer}`};
    };
    return {
        // what is left of a loan with these entries, or null where it can't be told
        stands: (loan, terms, entries) => tell(loan, terms, entries, exports.stands),
        // What a payment leaves; { fault } where the desk would refuse it; null where it can't be told.
        after: (loan, terms, entries, payment) => tell(loan, terms, entries, (count) => {
            putPayment(viewOf(exports), payment);
            return exports.after(count);
        })
    };
}
