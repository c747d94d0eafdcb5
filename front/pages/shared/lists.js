// Lists of the desk: many things by one request. The program has them where it is started with `--lists`; where it
// hasn't, the pages ask for one thing after another.
import {Problem, look, read} from "./api.js";
import {session} from "./session.js";
import {numberOf} from "./desk.js";
import {plain} from "./words.js";

const KEPT_AS = "has-lists";
const LOANS_OF_A_PAGE = 200;
const PAGES_AT_ONCE = 4;
const DENSE_PAGES_AT_ONCE = 8;  // where they begin is sure, and those behind the end are empty
export const CLIENTS_OF_A_PAGE = 500;
export const MOST_FOUND = 50;

let probing = null;

// whether the desk has lists: asked once a session
export function hasLists() {
    if (session.office === 0) {
        return Promise.resolve(false);  // nobody is known to be signed in
    }
    probing ??= probe().catch((problem) => {
        probing = null;
        throw problem;
    });
    return probing;
}

async function probe() {
    const kept = sessionStorage.getItem(KEPT_AS);
    if (kept !== null) {
        return kept === "yes";
    }
    try {
        keepStaff(session.office, (await read(`/lists/staff/${session.office}`)).staff);
    } catch (problem) {
        if (problem.fault !== "F5") {
            throw problem;
        }
        sessionStorage.setItem(KEPT_AS, "no");
        return false;
    }
    sessionStorage.setItem(KEPT_AS, "yes");
    return true;
}

// A program that was put back to one without lists since is asked without them from the next try on.
async function listed(asking) {
    try {
        return await asking;
    } catch (problem) {
        if (problem.fault === "F5") {
            sessionStorage.setItem(KEPT_AS, "no");
            probing = null;
            throw new Problem({front: "down"});
        }
        throw problem;
    }
}

// clients

// up to 500 clients of an office with numbers above one
export async function clientsAfter(office, after, reading = read) {
    return (await listed(reading(`/lists/clients/${office}/${after}`))).clients;
}

// all of them, several pages at a time
export function clientsAtOnce(office, after, reading) {
    return pagesAtOnce(after, CLIENTS_OF_A_PAGE, (from) => clientsAfter(office, from, reading), ({client}) => numberOf(client));
}

async function find(office, part) {
    return (await listed(look("/lists/find", {office, part}))).clients;
}

// Up to 50 clients of an office that have what is wanted in their name, or as their number or a loan's. Where nobody
// has all of it as it stands, those who have each word of it.
export async function findClients(office, wanted) {
    const whole = await find(office, wanted);
    const words = wanted.split(/\s+/);
    if (whole.length > 0 || words.length === 1) {
        return whole;
    }
    const longest = words.reduce((one, other) => (other.length > one.length ? other : one));
    return (await find(office, longest)).filter(({name}) => words.every((word) => plain(name).includes(plain(word))));
}

export async function loansOfListed(client) {
    return (await listed(read(`/lists/loans/${client}`))).loans;
}

// loans, 200 at a time; whenMore is told all that came so far

async function allPages(first, readAfter, whenMore) {
    const lines = [];
    for (let after = first;;) {
        const page = await readAfter(after);
        lines.push(...page);
        if (page.length < LOANS_OF_A_PAGE) {
            return lines;
        }
        whenMore(lines);
        after = numberOf(page.at(-1).loan);
    }
}

// All lines of a list, several pages at a time. Each page begins where the one before it ends if numbers are as dense as
// in the last one, and a little before where they lie apart. One that begins behind that end is not taken: the next
// pages begin at the end.
async function pagesAtOnce(first, most, readAfter, numberIn) {
    const lines = new Map();
    for (let [reached, step, count] = [first, 0, 1];; count = step === most ? DENSE_PAGES_AT_ONCE : PAGES_AT_ONCE) {
        const places = Array.from({length: count}, (_, i) => reached + i * step);
        const pages = await Promise.all(places.map(readAfter));
        for (const [i, page] of pages.entries()) {
            if (places[i] > reached) {
                break;
            }
            page.forEach((line) => lines.set(numberIn(line), line));
            if (page.length < most) {
                return [...lines.values()];
            }
            reached = numberIn(page.at(-1));
            step = Math.max(most, Math.floor(0.9 * (reached - places[i])));
        }
    }
}

// up to 200 active loans of an office, with numbers above one, of which something is due by a day and not settled
export async function dueAfter(office, day, after, reading) {
    return (await listed(reading(`/lists/due/${office}/${day}/${after}`))).due;
}

// all of them
export function dueBy(office, day, whenMore = () => {}, reading = read) {
    return allPages(0, (after) => dueAfter(office, day, after, reading), whenMore);
}

// the same, several pages at a time
export function dueByAtOnce(office, day, reading) {
    return pagesAtOnce(
        0, LOANS_OF_A_PAGE, (after) => dueAfter(office, day, after, reading), ({loan}) => numberOf(loan));
}

// The same behind its first page, all at once. active: all active loans, which tell since when something is due of each,
// and so where the pages begin. A page reaches the beginning of the next one, also where a loan fell due meanwhile.
export async function dueBehind(first, active, office, day, reading) {
    if (isLastPage(first)) {
        return first;
    }
    const end = numberOf(first.at(-1).loan);
    const numbers = active.filter(({oldest}) => oldest <= day).map(({loan}) => numberOf(loan)).filter((one) => one > end);
    const starts = [end, ...numbers.filter((_, i) => i % LOANS_OF_A_PAGE === LOANS_OF_A_PAGE - 1)];
    const pages = await Promise.all(starts.map((start, i) => dueBetween(start, starts[i + 1] ?? Infinity, office, day, reading)));
    return [first, ...pages].flat();
}

async function dueBetween(start, end, office, day, reading) {
    const lines = [];
    for (let after = start;;) {
        const page = await dueAfter(office, day, after, reading);
        lines.push(...page.filter(({loan}) => numberOf(loan) <= end));
        if (isLastPage(page) || numberOf(page.at(-1).loan) >= end) {
            return lines;
        }
        after = numberOf(page.at(-1).loan);
    }
}

// up to 200 loans of a status
export async function stageAfter(office, status, after) {
    return (await listed(read(`/lists/stages/${office}/${status}/${after}`))).loans;
}

// all loans of a status
export function ofStatus(office, status, whenMore = () => {}) {
    return allPages(0, (after) => stageAfter(office, status, after), whenMore);
}

export function isLastPage(loans) {
    return loans.length < LOANS_OF_A_PAGE;
}

// staff: names never change, so they are kept; one who was entered since is looked for once more

const staffLists = new Map();

function keepStaff(office, list) {
    const names = new Map(list.map(({staff, name}) => [staff, name]));
    staffLists.set(office, names);
    return list;
}

export async function staffOf(office) {
    return keepStaff(office, (await listed(read(`/lists/staff/${office}`))).staff);
}

async function namesOf(office, wanted) {
    const known = staffLists.get(office);
    if (known === undefined || (known.size > 0 && wanted.some((staff) => !known.has(staff)))) {
        try {
            await staffOf(office);
        } catch (problem) {
            if (problem.fault !== "F4") {
                throw problem;
            }
            staffLists.set(office, new Map());  // an office above one's own
        }
    }
    return staffLists.get(office);
}

// Learns the names of members of staff, as far as one sees their offices.
export async function learnStaff(staff) {
    if (await hasLists()) {
        const offices = [...new Set(staff.map(officeOfStaff))];
        const learn = (office) => namesOf(office, staff.filter((one) => officeOfStaff(one) === office));
        await Promise.all(offices.map(learn));
    }
}

function officeOfStaff(staff) {
    return Number(staff.split("/")[0]);
}

// a member of staff with the name, where it was learnt
export function staffWords(staff) {
    const name = staffLists.get(officeOfStaff(staff))?.get(staff);
    return name === undefined ? staff : `${name} (${staff})`;
}

// what a loan would be that is submitted, and paid out on a day
export function preview({product, principal, periods, day}) {
    return listed(read(`/lists/schedule/${product}/${principal}/${periods}/${day}`));
}
