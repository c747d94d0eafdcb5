// The day pack, as it is read and written: sealed by the phone's PIN, and what of it a round or a page shows.
import {keptPin} from "../shared/kept.js";
import {accountOf} from "../shared/desk.js";
import {daysBetween} from "../shared/days.js";
import {NO_DRAFT} from "../shared/drafts.js";
import {isAskedFor} from "../shared/institution.js";
import {sum} from "../shared/money.js";
import {plain} from "../shared/words.js";
import {lock, Locked, seal, unseal} from "./kept-pin.js";
import {entriesOf} from "./pack-accounts.js";
import {keepSealedPack, PACK, sealedPack} from "./pack-record.js";
import {nextReceipt} from "./round-receipts.js";

const CENTS = ["due", "later", "owed"];

// A line's account is a text within the text: thousands of them are opened with the pack, and few are looked at.
function asKept(name, value) {
    if (name === "account" && typeof value === "object") {
        return value && JSON.stringify(value);
    }
    return typeof value === "bigint" ? String(value) : value;
}

// A line's account, or null where the pack has none. Pages of 1.8 kept it as it is.
function accountIn({loan, account}) {
    const its = typeof account === "string" ? JSON.parse(account) : account;
    return its ? {...its, entries: entriesOf(loan, its.entries)} : null;
}

// of how many lines the pack has no account: a receipt says of these what is left for certain
export function withoutAccount(lines) {
    return lines.filter(({account}) => !account).length;
}

// Keeps a pack in place of the one before, while the PIN isn't changed. Locks where it was changed in another window:
// this one has the key of the PIN before.
export async function keepPack(pack) {
    const sealed = await seal(PACK, JSON.stringify(pack, asKept));
    await navigator.locks.request(`kept ${PACK}`, async () => {
        if ((await keptPin())?.mark !== sealed.mark) {
            lock();
            throw new Locked("another PIN");
        }
        await keepSealedPack({taken: pack.taken, sealed});
    });
}

// whether there is a pack that the phone's PIN opens: one that was sealed by another PIN can't be read any more
export async function hasPack() {
    const [record, pin] = await Promise.all([sealedPack(), keptPin()]);
    return record !== undefined && record.sealed.mark === pin?.mark;
}

// the pack, or null where there is none that the phone's PIN opens
export async function readPack() {
    if (!(await hasPack())) {
        return null;
    }
    try {
        const text = await unseal(PACK, (await sealedPack()).sealed);
        return JSON.parse(text, (name, value) => (CENTS.includes(name) ? BigInt(value) : value));
    } catch (problem) {
        if (problem instanceof Locked) {
            throw problem;
        }
        console.error(problem);
        return null;
    }
}

export function officeIn(pack, number) {
    return pack?.offices.find((office) => office.number === Number(number)) ?? null;
}

// the names of an office's clients by account
export function namesIn(office) {
    return new Map((office?.clients ?? []).map((name, i) => [accountOf(office.number, i + 1), name]));
}

// Whether no day is known of what falls due later: the desk tells the first one, and that is an older one here.
function isUndated({businessDay}, {since, later}) {
    return since <= businessDay && later > 0n;
}

// What is due of a line by a day. An instalment that falls due after the pack's business day is the only one of its
// loan until the pack's end. Where its day isn't known it counts on the last day alone.
export function dueOn(pack, line, day) {
    const isLaterDue = isUndated(pack, line) ? day >= pack.until : line.since <= day;
    return isLaterDue ? line.due + line.later : line.due;
}

// Of how many loans more may be due by a day than is counted. The day of an instalment that is due after one of the
// business day is the last day, since instalments lie at least a week apart.
export function undatedOn(pack, office, day) {
    const isWithin = day > pack.businessDay && day < pack.until;
    const isOverdue = ({since}) => since < pack.businessDay;
    return isWithin ? office.lines.filter((line) => isOverdue(line) && isUndated(pack, line)).length : 0;
}

// the lines of an office of which something is asked for by a day, each with what is due by then
export function linesOn(pack, office, day) {
    return office.lines.map((line) => ({...line, due: dueOn(pack, line, day)})).filter(({due}) => isAskedFor(due));
}

// A line of a round of the pack: of its loan nothing is known but what is in the pack. seen: how many entries of the
// loan the pack knows of. packed: its account as the pack has it, where it does; the desk's is read before it is sent.
export function roundLine(pack, place, line) {
    const {loan, client, name, since, owed, last} = line;
    return {
        ...place,
        loan,
        client,
        name,
        since,
        days: Math.max(0, daysBetween(since, place.day)),
        due: dueOn(pack, line, place.day),
        owed,
        seen: last?.entry ?? 0,
        known: null,
        account: null,
        packed: accountIn(line),
        payments: [],
        isFurther: false,
        results: {},
        ...NO_DRAFT,
        receipt: nextReceipt({...place, loan}, []),
        typed: null,
        isSent: false
    };
}

// The round of an office and a day, as it is kept on the phone.
export function roundFrom(pack, office, day) {
    const place = {office: office.number, day};
    const asked = office.lines.filter((line) => isAskedFor(dueOn(pack, line, day)));
    const lines = asked.map((line) => roundLine(pack, place, line));
    const {taken, businessDay, until, by, mayEnter} = pack;
    const products = pack.products.filter(({retired}) => !retired);
    const undated = {count: undatedOn(pack, office, day), until};
    const own = {officeName: office.name, taken, businessDay, by, products, mayEnter};
    return {...place, ...own, isOfPack: true, undated, terms: pack.terms ?? {}, lines};
}

// what is due by a day, in all
export function dueInAll(lines) {
    return sum(lines.map(({due}) => due));
}

// Finds clients of an office by what is wanted: account and name of those who have each word of it in their name or
// their number. All of them where nothing is wanted.
export function clientFinder(office) {
    const all = [...namesIn(office)].map(([client, name]) => ({client, name, text: `${plain(name)} ${client}`}));
    return (wanted) => {
        const parts = plain(wanted).split(/\s+/).filter((part) => part !== "");
        return all.filter(({text}) => parts.every((part) => text.includes(part)));
    };
}
