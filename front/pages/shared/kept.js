// What is kept on this phone for a time without a network: rounds that were taken along, with what was typed into
// them. The content of a round is sealed by the phone's PIN (views/kept-pin.js). In clear stand its office and day, and
// how much of it is not sent, since when: each page tells that without the PIN.
import {KeptDatabase} from "./kept-database.js";
import {sum} from "./money.js";
import {say, sayCount, showMoment, showMoney} from "./words.js";

const ONLY = "only";
const database = new KeptDatabase("microloan-kept", ["pin", "rounds"]);

const tellers = new Set();
const windows = new BroadcastChannel("kept");  // all windows of this browser share what is kept
windows.addEventListener("message", ({data}) => tellers.forEach((tell) => tell(data)));

// tell: is handed the id of a round that was changed, in this window or another one. Answers what ends it.
export function whenKeptChanges(tell) {
    tellers.add(tell);
    return () => tellers.delete(tell);
}

// places: of the records that it may change, or null for all
async function changeAndTell(id, places, work) {
    await database.change(places, work);
    tellWindows(id);
}

// id: the round that was changed; "" where it may be any
export function tellWindows(id = "") {
    windows.postMessage(id);
    tellers.forEach((tell) => tell(id));
}

export function idOf({office, day}) {
    return `${office} ${day}`;
}

// what the PIN is tried by, or undefined where none was chosen
export function keptPin() {
    return database.within("readonly", ({pin}) => pin.get(ONLY));
}

export function keepPin(record) {
    return changeAndTell("", [["pin", ONLY]], ({pin}) => pin.add(record, ONLY));
}

export function keptRounds() {
    return database.within("readonly", ({rounds}) => rounds.getAll());
}

export function keptRound(id) {
    return database.within("readonly", ({rounds}) => rounds.get(id));
}

// What was sealed by another PIN than the one that holds by now isn't kept: nobody could open it.
export function keepRound(record) {
    return changeAndTell(record.id, [["rounds", record.id]], ({pin, rounds}) => {
        const asked = pin.get(ONLY);
        asked.onsuccess = () =>
            asked.result?.mark === record.sealed.mark ? rounds.put(record, record.id) : asked.transaction.abort();
        return asked;
    });
}

// another PIN, and all rounds as it seals them: all of it or nothing
export function keepAnew(record, records) {
    return changeAndTell("", null, ({pin, rounds}) => {
        records.forEach((one) => rounds.put(one, one.id));
        return pin.put(record, ONLY);
    });
}

export function dropRound(id) {
    return changeAndTell(id, [["rounds", id]], ({rounds}) => rounds.delete(id));
}

// the PIN, and all that it sealed
export function dropAll() {
    return changeAndTell("", null, ({pin, rounds}) => {
        rounds.clear();
        return pin.clear();
    });
}

// What this window does with what is kept: the bar of each page tells it.
const phone = {isLocked: true, isSending: false};

export function tellPhone(change) {
    Object.assign(phone, change);
    window.dispatchEvent(new Event("kept-phone"));
}

const BY_ITSELF = "kept-by-itself";

// whether what waits is sent without a press, once there is a network
export function sendsByItself() {
    return localStorage.getItem(BY_ITSELF) !== "no";
}

export function sendByItself(isWished) {
    localStorage.setItem(BY_ITSELF, isWished ? "yes" : "no");
    window.dispatchEvent(new Event("kept-phone"));
}

// How much of rounds is not sent, and since when; null where all of it is.
export function waitingOf(rounds) {
    const waiting = rounds.filter(({count}) => count > 0);
    return waiting.length === 0 ? null : {
        count: waiting.reduce((all, {count}) => all + count, 0),
        cents: sum(waiting.map(({cents}) => cents)),
        since: Math.min(...waiting.map(({since}) => since))
    };
}

// the same in words, with where it is; rejects where the browser keeps nothing
export async function keptWords(hasDesk) {
    const waiting = waitingOf(await keptRounds());
    const words = () => [wordsOfWaiting(waiting), phoneWords(hasDesk)].filter(Boolean).join(" · ");
    return waiting && {href: "#/kept", words: words()};
}

// what becomes of it by itself, where something does
function phoneWords(hasDesk) {
    if (phone.isSending) {
        return say("sending");
    }
    return hasDesk && phone.isLocked && sendsByItself() ? say("kept.locked") : null;
}

export function wordsOfWaiting({count, cents, since}) {
    return sayCount("kept.waiting", count, {amount: showMoney(cents), since: showMoment(since)});
}
