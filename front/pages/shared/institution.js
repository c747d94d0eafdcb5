// What the institution tells of itself, in a file of the front: its name; the coin that proposed amounts are rounded up
// to; the least that is asked for; its coins and notes, all in cents; and whether a sheet must end in its total.
// Without the file amounts are proposed as they are due, and coins and notes are 1, 2 and 5 of each size.
import {institutionFile} from "./api.js";

export const institution = {
    name: "microloan",
    coin: 1n,
    leastDue: 1n,
    asksTotal: false,
    cash: [100_000, 50_000, 20_000, 10_000, 5000, 2000, 1000, 500, 200, 100, 50, 20, 10, 5].map(BigInt),
};
const KEPT_AS = "institution";

function centsOr(value, otherwise) {
    return Number.isSafeInteger(value) && value > 0 ? BigInt(value) : otherwise;
}

export async function learnInstitution() {
    const told = await institutionFile();
    localStorage.setItem(KEPT_AS, JSON.stringify(told));
    take(told);
}

// what it told this browser last, where nothing answers
export function recallInstitution() {
    take(JSON.parse(localStorage.getItem(KEPT_AS) ?? "{}"));
}

function take(told) {
    if (typeof told.name === "string" && told.name.trim() !== "") {
        institution.name = told.name.trim();
    }
    institution.coin = centsOr(told.coin, institution.coin);
    institution.leastDue = centsOr(told.least_due, institution.leastDue);
    institution.asksTotal = told.sheet_total === true;
    const isCash = (one) => Number.isSafeInteger(one) && one > 0;
    if (Array.isArray(told.cash) && told.cash.length > 0 && told.cash.every(isCash)) {
        institution.cash = [...new Set(told.cash)].sort((one, other) => other - one).map(BigInt);
    }
}

// What is proposed where so much is due: rounded up to the coin, but not above what is left to pay.
export function proposed(due, left) {
    const {coin} = institution;
    const rounded = ((due + coin - 1n) / coin) * coin;
    return rounded > left ? left : rounded;
}

export function isAskedFor(due) {
    return due >= institution.leastDue;
}
