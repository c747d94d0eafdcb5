// Rounds that are kept on this phone, as they are read and written: sealed, each as a whole, one change after another,
// whichever window makes it.
import {dropRound, idOf, keepRound, keptRound, keptRounds} from "../shared/kept.js";
import {sum} from "../shared/money.js";
import {changePin, seal, unseal} from "./kept-pin.js";
import {PACK, sealedPack} from "./pack-record.js";
import {withBefore} from "./round-state.js";

const CENTS = ["due", "owed", "cents", "overpaid", "amount", "before"];  // the members that are whole cents
const PAYMENT = ["receipt", "amount", "staff", "reversed", "number", "before"];
const LINE = [
    "loan", "client", "name", "since", "days", "due", "owed", "known", "account", "payments", "results", "text",
    "cents", "typed", "touched", "receipt", "collector", "why", "result", "isFurther", "isSent", "seen",
    "packed"
];
const TYPED = ["text", "cents", "typed", "touched", "receipt", "collector", "why", "result", "isFurther", "isSent"];

function only(names, thing) {
    return Object.fromEntries(names.filter((name) => name in thing).map((name) => [name, thing[name]]));
}

function bareLine(line) {
    const payments = line.payments.map((one) => ({...only(PAYMENT, one), amount: BigInt(one.amount)}));
    return {...only(LINE, line), payments};
}

function textOf(round) {
    return JSON.stringify(round, (_, value) => (typeof value === "bigint" ? String(value) : value));
}

function roundOf(text) {
    return JSON.parse(text, (name, value) => (CENTS.includes(name) && value !== null ? BigInt(value) : value));
}

function isTyped({text}) {
    return text !== "";
}

function isSaid({text, why}) {
    return text !== "" || why !== "";
}

function isSent({results}) {
    return Object.keys(results).length > 0;
}

async function open(record) {
    return record && roundOf(await unseal(record.id, record.sealed));
}

// Whether a draft is to become a request and hasn't yet. visit: what became of a note; one of no client stays here.
export function isWaiting({kind, client, account, visit = null}) {
    return kind === "note" ? client !== "none" && visit === null : account === null;
}

// how much of a round is not sent: its lines, and its drafts that are to become requests
export function countsOf({lines, drafts = []}) {
    const waiting = lines.filter(isTyped);
    const open = drafts.filter(isWaiting);
    return {
        count: waiting.length + open.length,
        cents: sum(waiting.map(({cents}) => cents ?? 0n)),
        since: Math.min(...waiting.map(({typed}) => typed), ...open.map(({made}) => made))
    };
}

async function close(round) {
    const id = idOf(round);
    return {id, ...countsOf(round), sealed: await seal(id, textOf(round))};
}

// change: is handed the round, or undefined where none is kept, and answers what it becomes, or undefined where nothing
// is to be kept
function changed(id, change) {
    return navigator.locks.request(`kept ${id}`, async () => {
        const round = change(await open(await keptRound(id)));
        if (round !== undefined) {
            await keepRound(await close(round));
        }
        return round;
    });
}

// What was sent of a line before. A line of the day pack knows of no payments: those that are known stay.
function withSent(line, {results, payments, receipt}) {
    const isBare = line.account === null && payments.length > 0;
    const known = isBare ? {payments, receipt} : {payments: withBefore(line.payments, payments)};
    return {...line, results, ...known};
}

// Takes a round along, with what was typed into it. What was typed on this phone before and isn't sent stays typed, but
// for what the desk has by now.
export function takeRound(round) {
    const isEntered = (line, {receipt, cents}) =>
        line.payments.some((one) => !one.reversed && one.receipt === receipt && BigInt(one.amount) === cents);
    const withTyped = (line, before) => {
        const isKept = before !== undefined && isSaid(before) && !isEntered(line, before);
        return isKept ? {...line, ...only(TYPED, before)} : line;
    };
    const taken = (line, before) =>
        bareLine(before === undefined ? line : withSent(withTyped(line, before), before));
    return changed(idOf(round), (before) => {
        const old = new Map(before?.lines.map((line) => [line.loan, line]));
        const lines = round.lines.map((line) => taken(line, old.get(line.loan)));
        const isMissing = ({loan}) => !lines.some((line) => line.loan === loan);
        const gone = [...old.values()].filter((line) => isMissing(line) && (isSaid(line) || isSent(line)));
        const terms = {...before?.terms, ...round.terms};
        return {...round, terms, drafts: before?.drafts ?? [], cash: before?.cash ?? {}, lines: [...lines, ...gone]};
    });
}

// Keeps what was typed into lines. What is sent meanwhile, or was entered, isn't typed over.
export function keepTyped(round, lines) {
    const fresh = new Map(lines.map((line) => [line.loan, line]));
    const now = (line) => {
        const typed = fresh.get(line.loan);
        return typed === undefined || line.isSent || typed.receipt !== line.receipt ? line :
                                                                                     {...line, ...only(TYPED, typed)};
    };
    return changed(idOf(round), (kept) => kept && {...kept, lines: kept.lines.map(now)});
}

// Changes one line as it is kept by now. change: is handed it with its round's office and day, and answers what it
// becomes, or null where it stays. Answers that; undefined where there is no such line any more.
export async function changeLine({office, day}, loan, change) {
    let made = undefined;
    await changed(idOf({office, day}), (kept) => {
        const line = kept?.lines.find((one) => one.loan === loan);
        made = line && change({...line, office, day});
        return made ? {...kept, lines: kept.lines.map((one) => (one === line ? bareLine(made) : one))} : undefined;
    });
    return made;
}

// Adds a line to a round that is kept, unless it has one of its loan.
export function addLine(round, line) {
    const hasIt = ({lines}) => lines.some(({loan}) => loan === line.loan);
    return changed(idOf(round), (kept) => kept && !hasIt(kept) ? {...kept, lines: [...kept.lines, bareLine(line)]} :
                                                                undefined);
}

// what is kept of a round beside its lines
export function changeRound(round, change) {
    return changed(idOf(round), (kept) => kept && {...kept, ...change(kept)});
}

export async function readRound(id) {
    return open(await keptRound(id));
}

export async function readRounds() {
    const records = await keptRounds();
    return Promise.all(records.map(async (record) => ({...record, ...(await open(record))})));
}

// Seals all rounds and the day pack by another PIN, while nobody changes one. Answers whether the PIN before is right.
export async function sealAnew(before, pin) {
    const names = [PACK, ...(await keptRounds()).map(({id}) => id)];
    const within = async (left) => (left.length === 0 ?
        changePin(before, pin, await keptRounds(), await sealedPack()) :
        navigator.locks.request(`kept ${left[0]}`, () => within(left.slice(1))));
    return within(names);
}

export function forgetRound(id) {
    return navigator.locks.request(`kept ${id}`, () => dropRound(id));
}
