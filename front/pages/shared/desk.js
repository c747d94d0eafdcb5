// What the pages read from the desk. Names of clients, the terms of loans, charges and products never change, so they
// are kept for the session.
import {read, readIfThere} from "./api.js";
import {session} from "./session.js";

const LOANS_OF_A_PAGE = 100;
const READ_AHEAD = 4;

export const ACTIVE = 300;
export const CLOSED = 600;
export const OVERPAID = 700;

function keptList(name) {
    return JSON.parse(sessionStorage.getItem(name) ?? "[]");
}

function keepList(name, list) {
    try {
        sessionStorage.setItem(name, JSON.stringify(list));
    } catch {
        // the browser's room for the session is full: the list is read again next time
    }
}

// accounts: 0005-000012 is the twelfth of office 5

export function accountOf(office, number) {
    return `${String(office).padStart(4, "0")}-${String(number).padStart(6, "0")}`;
}

export function officeOf(account) {
    return Number(account.slice(0, 4));
}

export function numberOf(account) {
    return Number(account.slice(5));
}

export function isReceipt(text) {
    return /^[\u0021-\u007e]{1,40}$/.test(text);
}

// A spreadsheet that opens a sheet of results would compute it.
export function isFormula(receipt) {
    return /^[=+@-]/.test(receipt);
}

export function isAccount(text) {
    return /^\d{4}-\d{6}$/.test(text) && officeOf(text) > 0 && numberOf(text) > 0;
}

// offices

let officeList = null;

export async function offices(isFresh = false) {
    if (officeList === null || isFresh) {
        officeList = (await read("/offices")).offices;
    }
    return officeList;
}

export async function officeNamed(number) {
    return (await offices()).find((office) => office.number === number) ?? null;
}

// the offices that the reader sees as a tree: each with how deep it lies, its own before those below it
export function asTree(list) {
    const isTop = (office) => !list.some((other) => other.number === office.parent);
    const below = (office, depth) =>
        [{...office, depth},
         ...list.filter((other) => other.parent === office.number).flatMap((other) => below(other, depth + 1)),
    ];
    return list.filter(isTop).flatMap((office) => below(office, 0));
}

// Reads things that are numbered from 1 without gaps, a few ahead, up to the first that is not there, and adds them to
// the list.
export async function readOn(list, readOne, whenMore = () => {}) {
    for (;;) {
        const numbers = Array.from({length: READ_AHEAD}, (_, i) => list.length + 1 + i);
        const things = await Promise.all(numbers.map(readOne));
        const end = things.indexOf(null);
        list.push(...(end < 0 ? things : things.slice(0, end)));
        whenMore(list);
        if (end >= 0) {
            return list;
        }
    }
}

// clients

const clientLists = new Map();

function clientList(office) {
    if (!clientLists.has(office)) {
        clientLists.set(office, keptList(`clients-${office}`));
    }
    return clientLists.get(office);
}

const readingClients = new Map();

// the names of an office's clients by number; whenMore is told the list as it grows
export function clientsOf(office, whenMore = () => {}) {
    const list = clientList(office);
    whenMore(list);
    const readOne = async (number) => (await readIfThere(`/clients/${accountOf(office, number)}`))?.name ?? null;
    const before = readingClients.get(office) ?? Promise.resolve();
    const reading = before.catch(() => {})
                        .then(() => readOn(list, readOne, whenMore))
                        .finally(() => keepList(`clients-${office}`, list));
    readingClients.set(office, reading);
    return reading;
}

const clientNames = new Map();

export function clientName(account) {
    const name = clientList(officeOf(account))[numberOf(account) - 1];
    if (name !== undefined) {
        return Promise.resolve(name);
    }
    if (!clientNames.has(account)) {
        const reading = read(`/clients/${account}`).then((client) => client.name);
        reading.catch(() => clientNames.delete(account));
        clientNames.set(account, reading);
    }
    return clientNames.get(account);
}

// loans

// one page of an office's loans, each with its number and its status
export async function loansAfter(office, after) {
    return (await read(`/offices/${office}/loans/${after}`)).loans;
}

// all loans of an office, each with its number and its status
export async function loansOf(office) {
    const loans = [];
    for (let after = 0;;) {
        const page = await loansAfter(office, after);
        loans.push(...page);
        if (page.length < LOANS_OF_A_PAGE) {
            return loans;
        }
        after = numberOf(page.at(-1).loan);
    }
}

export function loan(account) {
    return read(`/loans/${account}`);
}

export async function schedule(account) {
    return (await read(`/loans/${account}/schedule`)).instalments;
}

export async function entries(account) {
    return (await read(`/loans/${account}/entries`)).entries;
}

const ownerLists = new Map();

function ownerList(office) {
    if (!ownerLists.has(office)) {
        ownerLists.set(office, keptList(`owners-${office}`));
    }
    return ownerLists.get(office);
}

// whose loan it is; it never changes
async function ownerOf(account) {
    const owners = ownerList(officeOf(account));
    const place = numberOf(account) - 1;
    owners[place] ??= numberOf((await loan(account)).client);
    return owners[place];
}

// the loans of a client, each with its number and its status
export async function loansOfClient(client) {
    const office = officeOf(client);
    const loans = await loansOf(office);
    const owners = await Promise.all(loans.map(({loan: account}) => ownerOf(account)));
    keepList(`owners-${office}`, ownerList(office));
    return loans.filter((_, i) => owners[i] === numberOf(client));
}

// The last day of an office's closed loans' entries, as far as it was looked up: it doesn't change while they are
// closed.
export function lastDays(office) {
    const days = keptList(`last-days-${office}`);
    return {
        of: (account) => days[numberOf(account) - 1] ?? "9999",  // it may be any day
        keep: (account, day) => (days[numberOf(account) - 1] = day),
        end: () => keepList(`last-days-${office}`, days)
    };
}

// charges and products

const catalogue = {
    charges: [],
    products: []
};

export function charges() {
    return readOn(catalogue.charges, (number) => readIfThere(`/charges/${number}`));
}

// Products are read anew where they must tell whether they are retired.
export async function products(isFresh = false) {
    if (isFresh) {
        catalogue.products = [];
    }
    return readOn(catalogue.products, (number) => readIfThere(`/products/${number}`));
}

export async function product(number) {
    return catalogue.products[number - 1] ?? read(`/products/${number}`);
}

export async function charge(number) {
    return catalogue.charges[number - 1] ?? read(`/charges/${number}`);
}

// what an account comes to

export function total(portions) {
    return ["principal", "interest", "fees", "penalties"].reduce((all, name) => all + BigInt(portions[name]), 0n);
}

const PORTIONS = ["penalties", "fees", "interest", "principal"];

// what is outstanding of each portion of an instalment: what is owed, less what the entries that stand settle of it
export function outstandingPortions(instalment, entryList) {
    const left = Object.fromEntries(PORTIONS.map((name) => [name, BigInt(instalment[name])]));
    for (const share of entryList.flatMap((entry) => entry.shares)) {
        if (share.instalment === instalment.number) {
            left[share.portion] -= BigInt(share.amount);
        }
    }
    return left;
}

// what is past due of the instalments that were due before a day: of principal, and in all
export function overdueOf(instalments, entryList, day) {
    const late = instalments.filter((one) => isOpen(one) && one.due < day);
    return {
        principal: late.reduce((all, one) => all + outstandingPortions(one, entryList).principal, 0n),
        all: late.reduce((all, one) => all + BigInt(one.outstanding), 0n)
    };
}

export function isOpen(instalment) {
    return BigInt(instalment.outstanding) > 0n;
}

// the earliest due day on which anything is outstanding, or null
export function openSince(instalments) {
    return instalments.filter(isOpen).map(({due}) => due).sort()[0] ?? null;
}

// A text of 27 characters at most that no other repayment of the office has: who took the money, the business day,
// eight characters by chance.
function makeReceipt() {
    const letters = "ABCDEFGHJKLMNPQRSTUVWXYZ23456789";
    const chance = crypto.getRandomValues(new Uint8Array(8));
    const end = [...chance].map((byte) => letters[byte % letters.length]).join("");
    return `${session.staff.replace("/", ".")}-${session.day.replaceAll("-", "")}-${end}`;
}

function receiptKey(account) {
    return `receipt ${session.staff} ${account}`;
}

// The receipt for the next repayment of a loan. It stays the same until a repayment with it was answered: whoever gives
// up after a lost reply, and enters the repayment once more, does not enter it twice.
export function nextReceipt(account) {
    const key = receiptKey(account);
    const receipt = localStorage.getItem(key) ?? makeReceipt();
    localStorage.setItem(key, receipt);
    return receipt;
}

// A receipt that is sent is the next one until it is answered, whoever made it.
export function keepReceipt(account, receipt) {
    localStorage.setItem(receiptKey(account), receipt);
}

export function endReceipt(account) {
    localStorage.removeItem(receiptKey(account));
}
