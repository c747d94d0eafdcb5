// Amounts as the reader's locale writes them. They are whole cents, kept as BigInt: no floating point is used anywhere.
// Reading is the inverse of writing: a text with marks between its groups is an amount only where writing that amount
// sets the marks at the same places. What can't be read for certain is no amount.

export const LEAST = 1n;
export const MOST = 1_000_000_000_000n;

const MOST_DIGITS = 15;
const SPACES = " \u00a0\u202f\u2009";
const APOSTROPHES = "'\u2019";
// marks of direction, which some locales and some programs put round figures
const DIRECTIONS = /[\u061c\u200e\u200f]/g;
// digits that are typed where the locale's script is theirs, beside 0 to 9 and those that the locale writes itself
const DIGITS = [
    "arab", "arabext", "beng", "deva", "gujr", "guru", "khmr", "knda", "laoo", "mlym", "mymr", "orya", "tamldec",
    "telu", "thai", "tibt"
];

// How a locale writes numbers in one kind of digits: the ten digits, the marks, and units with their groups.
function writing(locale, numberingSystem) {
    const units = new Intl.NumberFormat(locale, {useGrouping: "always", numberingSystem});
    const parts = new Intl.NumberFormat(locale, {minimumFractionDigits: 2, useGrouping: "always", numberingSystem})
                      .formatToParts(1234567.89);
    const mark = (type, otherwise) => parts.find((part) => part.type === type)?.value ?? otherwise;
    const bare = new Intl.NumberFormat(locale, {useGrouping: false, numberingSystem});
    return {
        digits: Array.from({length: 10}, (_, digit) => bare.format(digit)),
        group: mark("group", ""),
        decimal: mark("decimal", "."),
        writeUnits: (value) => units.format(value),
    };
}

// whether digits belong to the script that a language is written in
function isOfScript(digit, script) {
    try {
        return new RegExp(`\\p{scx=${script}}`, "u").test(digit);
    } catch {
        return false;  // the script has no name of its own in Unicode: "Jpan" is several
    }
}

function writingsOf(locale) {
    const own = new Intl.NumberFormat(locale).resolvedOptions().numberingSystem;
    const script = new Intl.Locale(locale).maximize().script ?? "Latn";
    const names = [...new Set(["latn", own, ...(script === "Latn" ? [] : DIGITS)])];
    return names.map((name) => ({name, ...writing(locale, name)}))
        .filter(({name, digits}) => name === "latn" || name === own || isOfScript(digits[0], script));
}

// the digits 0 to 9 of a text in these digits, or null where it has anything else
function plainDigits(text, digits) {
    const plain = [...text].map((one) => digits.indexOf(one));
    return plain.length === 0 || plain.includes(-1) ? null : plain.join("");
}

// Between groups stands the locale's own mark, or always a space; before the decimals the locale's own mark, or a point
// where the locale doesn't group by points.
function readAs({digits, group, decimal, writeUnits}, text) {
    const decimals = group === "." ? decimal : `${decimal}.`;
    const place = [...text].findLastIndex((one) => decimals.includes(one));
    const isSplit = place >= 0 && digits.includes([...text][place + 1]);
    const whole = isSplit ? [...text].slice(0, place).join("") : text;
    const cents = isSplit ? plainDigits([...text].slice(place + 1).join(""), digits) : "";
    const marks = SPACES + (APOSTROPHES.includes(group) ? APOSTROPHES : group);
    const used = new Set([...whole].filter((one) => marks.includes(one)));
    const units = plainDigits([...whole].filter((one) => !used.has(one)).join(""), digits);
    if (units === null || units.length > MOST_DIGITS || cents === null || cents.length > 2 || used.size > 1) {
        return null;
    }
    const [mark] = used;
    const written = mark === undefined ? whole : writeUnits(BigInt(units)).replaceAll(group, mark);
    return written === whole ? BigInt(units) * 100n + BigInt(cents.padEnd(2, "0")) : null;
}

// Amounts are written in the digits 0 to 9, and read in those of the locale and its script too.
export function moneyFor(locale) {
    const writings = writingsOf(locale);
    const {decimal} = writings[0];
    const units = new Intl.NumberFormat(locale, {useGrouping: true, numberingSystem: "latn"});
    return {
        format(cents) {
            const value = BigInt(cents);
            const size = value < 0n ? -value : value;
            const text = units.format(size / 100n) + decimal + String(size % 100n).padStart(2, "0");
            return value < 0n ? `-${text}` : text;
        },
        // the cents, or null where the text is no amount
        parse(text) {
            const bare = text.replace(DIRECTIONS, "").trim();
            return writings.map((one) => readAs(one, bare)).find((cents) => cents !== null) ?? null;
        },
    };
}

// "666.67", as the report of arrears and the collection sheets write units of money, in cents; null where it is no such
// text
export function centsOfText(text) {
    const found = /^(\d+)(?:\.(\d{1,2}))?$/.exec(text);
    return found ? BigInt(found[1]) * 100n + BigInt((found[2] ?? "").padEnd(2, "0")) : null;
}

// the text of a collection sheet, whatever the reader's locale
export function textOfCents(cents) {
    const value = BigInt(cents);
    return `${value / 100n}.${String(value % 100n).padStart(2, "0")}`;
}

// so many hundredths of a percent of an amount, to the nearest cent, and to the even one at a tie
export function percentageOf(cents, hundredths) {
    const [whole, rest] = [(cents * hundredths) / 10_000n, (cents * hundredths) % 10_000n];
    const isUp = rest > 5000n || (rest === 5000n && whole % 2n === 1n);
    return isUp ? whole + 1n : whole;
}

export function sum(amounts) {
    return amounts.reduce((total, amount) => total + BigInt(amount), 0n);
}
