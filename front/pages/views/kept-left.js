// What a payment leaves of a loan, as the desk will say it, worked out on this phone. Where this browser can't, or
// where what it works out of the loan's entries isn't what the desk told, the phone shows what is certain instead.
import {charge, product} from "../shared/desk.js";
import {sum} from "../shared/money.js";
import {coreOf, PORTIONS} from "./kept-account.js";

const TERMS = ["method", "rate", "frequency", "every", "principal_grace", "interest_grace", "strategy"];

function only(names, thing) {
    return Object.fromEntries(names.map((name) => [name, thing[name]]));
}

// The terms of the products of loans, by number. known: those that needn't be read. reading: how the others are.
export async function termsOf(lines, known = {}, reading = {product, charge}) {
    const numbers = [...new Set(lines.map(({account}) => account?.product).filter(Boolean))];
    const read = async (number) => {
        if (known[number]) {
            return [number, known[number]];
        }
        const told = await reading.product(number);
        const taken = told.instalment_charge ? await reading.charge(told.instalment_charge) : null;
        return [number, {...only(TERMS, told), charge: taken && only(["calc", "value"], taken)}];
    };
    return Object.fromEntries(await Promise.all(numbers.map(read)));
}

let beginning = null;

// A file that didn't come is asked for again; a browser that can't run it stays one.
function core() {
    beginning ??= begin().catch((problem) => {
        console.error(problem);
        beginning = null;
        return null;
    });
    return beginning;
}

async function begin() {
    const reply = await fetch(new URL("../pages.wasm", import.meta.url));
    if (!reply.ok) {
        throw new Error(`pages.wasm: ${reply.status}`);
    }
    return coreOf(await reply.arrayBuffer());
}

function isAsTold({outstanding, overpaid, status}, told) {
    return PORTIONS.every((name) => outstanding[name] === BigInt(told[name])) &&
        overpaid === BigInt(told.overpaid) && status === told.status;
}

function latest(days) {
    return [...days].sort().at(-1);
}

// payments: those of the phone, in their order up to the one that is asked about, each with its receipt's number and
// its cents. Answers what is left after it, { fault } where the desk would refuse it, or null where it can't be told.
export async function leftAfter({terms, day, businessDay}, account, payments) {
    const its = terms?.[account?.product];
    const running = its ? await core() : null;
    if (!running) {
        return null;
    }
    try {
        return played(running, its, account, {day, businessDay, payments});
    } catch (problem) {  // a trap: what ran is dropped whole
        console.error(problem);
        beginning = null;
        return null;
    }
}

function played(running, terms, account, {day, businessDay, payments}) {
    const {entries} = account;
    if (!isAsTold(running.stands(account, terms, entries) ?? {outstanding: {}}, account.told)) {
        console.warn("what the entries come to isn't what the desk told");
        return null;
    }
    const entered = entries.findIndex(({receipt}) => receipt === payments.at(-1).number);
    if (entered >= 0) {  // as it stood once this one was entered
        return running.stands(account, terms, entries.slice(0, entered + 1));
    }
    const open = payments.filter(({number}) => !entries.some(({receipt}) => receipt === number));
    const by = latest([day, businessDay, ...entries.map((one) => one.day)]);
    let told = null;
    const all = [...entries];
    for (const {cents} of open) {
        told = running.after(account, terms, all, {amount: cents, day, businessDay: by});
        if (told === null || told.fault) {
            return told;
        }
        all.push({kind: "repayment", day, amount: cents, instalment: null, portion: null, reversed: false});
    }
    return told;
}

// of what is told: all that is left, what of it is due by a day, and the instalment that comes next, if one does
export function shownOf({outstanding, overpaid, instalments}, day) {
    const open = instalments.filter((one) => one.outstanding > 0n);
    return {
        left: sum(Object.values(outstanding)),
        over: overpaid,
        portions: PORTIONS.map((name) => [name, outstanding[name]]).filter(([, cents]) => cents > 0n).reverse(),
        due: sum(open.filter((one) => one.due <= day).map((one) => one.outstanding)),
        next: open.find((one) => one.due > day) ?? null
    };
}
