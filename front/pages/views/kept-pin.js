// The PIN of this phone, and what it seals. A key is made of the PIN by PBKDF2 over SHA-256, and seals by AES-256 in
// GCM, each text under its own name. The key is in memory alone and no script can read it; it is gone once the page is,
// and after some minutes without a touch.
import {keepAnew, keepPin, keptPin, tellPhone} from "../shared/kept.js";
import {dropPack, keepSealedPack, PACK} from "./pack-record.js";

const ROUNDS = 600_000;  // of PBKDF2, for each try of a PIN
const SALT_BYTES = 16;
const NONCE_BYTES = 12;
const IDLE_MILLISECONDS = 5 * 60_000;
const LOOK_MILLISECONDS = 5000;
const CHECK = "pin";  // the name of the text that tells whether a PIN is right

export const LEAST_LETTERS = 6;
export const MOST_LETTERS = 64;

const lockers = new Set();
let key = null;
let mark = undefined;  // which PIN the key is of: each has another one
let touched = 0;

// whether this browser can seal: only at an address that is safe, by https or on the same machine
export function canSeal() {
    return globalThis.isSecureContext && globalThis.crypto?.subtle !== undefined && navigator.locks !== undefined;
}

async function keyOf(pin, {salt, rounds}) {
    const typed = new TextEncoder().encode(pin.normalize("NFC"));
    const bare = await crypto.subtle.importKey("raw", typed, "PBKDF2", false, ["deriveKey"]);
    const way = {name: "PBKDF2", hash: "SHA-256", salt, iterations: rounds};
    return crypto.subtle.deriveKey(way, bare, {name: "AES-GCM", length: 256}, false, ["encrypt", "decrypt"]);
}

function way(name, nonce) {
    return {name: "AES-GCM", iv: nonce, additionalData: new TextEncoder().encode(name)};
}

async function sealBy(key, name, text) {
    const nonce = crypto.getRandomValues(new Uint8Array(NONCE_BYTES));
    return {nonce, data: await crypto.subtle.encrypt(way(name, nonce), key, new TextEncoder().encode(text))};
}

async function unsealBy(key, name, {nonce, data}) {
    return new TextDecoder().decode(await crypto.subtle.decrypt(way(name, nonce), key, data));
}

export class Locked extends Error {}

function keyInUse() {
    lockIfIdle();
    if (key === null) {
        throw new Locked("locked");
    }
    return key;
}

export async function seal(name, text) {
    return {...(await sealBy(keyInUse(), name, text)), mark};
}

// Locks where the PIN was changed in another window: this one has the key of the PIN before.
export async function unseal(name, sealed) {
    const own = keyInUse();
    if (sealed.mark !== mark) {
        lock();
        throw new Locked("another PIN");
    }
    return unsealBy(own, name, sealed);
}

export function isLocked() {
    lockIfIdle();
    return key === null;
}

// a new PIN as it is kept, and its key
async function made(pin) {
    const way = {salt: crypto.getRandomValues(new Uint8Array(SALT_BYTES)), rounds: ROUNDS, mark: crypto.randomUUID()};
    const fresh = await keyOf(pin, way);
    return {record: {...way, check: await sealBy(fresh, CHECK, "")}, fresh};
}

export async function choosePin(pin) {
    const {record, fresh} = await made(pin);
    await keepPin(record);
    use(fresh, record);
}

// the key of a PIN, or null where it is wrong
async function rightKey(pin, record) {
    const tried = await keyOf(pin, record);
    try {
        await unsealBy(tried, CHECK, record.check);
        return tried;
    } catch {
        return null;
    }
}

// Answers whether the PIN is right. A wrong one changes nothing.
export async function unlock(pin) {
    const record = await keptPin();
    const tried = await rightKey(pin, record);
    if (tried !== null) {
        use(tried, record);
    }
    return tried !== null;
}

// Seals all rounds by another PIN, and the day pack after them, if there is one: where that ends in between, or has no
// room, the pack is gone, and is taken along anew. Answers whether the PIN before is right: a wrong one changes
// nothing. Nobody else may change a round or the pack meanwhile (kept-rounds.js).
export async function changePin(before, pin, records, pack) {
    const record = await keptPin();
    const old = await rightKey(before, record);
    if (old === null) {
        return false;
    }
    const next = await made(pin);
    const anew = async (name, one) => {
        const text = await unsealBy(old, name, one.sealed);
        return {...one, sealed: {...(await sealBy(next.fresh, name, text)), mark: next.record.mark}};
    };
    await keepAnew(next.record, await Promise.all(records.map((one) => anew(one.id, one))));
    use(next.fresh, next.record);
    if (pack !== undefined) {
        await anew(PACK, pack).then(keepSealedPack).catch(dropPack).catch(console.error);
    }
    return true;
}

function use(fresh, record) {
    key = fresh;
    mark = record.mark;
    touch();
    tellPhone({isLocked: false});
}

export function lock() {
    key = null;
    tellPhone({isLocked: true});
    lockers.forEach((tell) => tell());
}

// tell: is called once it is locked. Answers what ends it.
export function whenLocked(tell) {
    lockers.add(tell);
    return () => lockers.delete(tell);
}

// A line that was sent and answered counts as a touch too: a round isn't locked in the middle of its sending.
export function touch() {
    touched = Date.now();
}

// A clock that was set back counts as long idle too.
function lockIfIdle() {
    const idle = Date.now() - touched;
    if (key !== null && (idle > IDLE_MILLISECONDS || idle < 0)) {
        lock();
    }
}

// A touch counts only while it isn't locked by then: a phone may have slept in between.
function onTouch() {
    lockIfIdle();
    touch();
}

for (const kind of ["keydown", "pointerdown", "wheel"]) {
    window.addEventListener(kind, onTouch, {passive: true, capture: true});
}
document.addEventListener("visibilitychange", lockIfIdle);
setInterval(lockIfIdle, LOOK_MILLISECONDS);
