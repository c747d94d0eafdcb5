// Notes of visits to a client. They are kept by the front, and an older one has no place for them.
import {askFront} from "./api.js";

export const MOST_LETTERS = 1000;

// A note has a key, which is made once: by it the front keeps the note once, however often it is sent.
export function newKey() {
    const bytes = crypto.getRandomValues(new Uint8Array(16));
    return [...bytes].map((byte) => byte.toString(16).padStart(2, "0")).join("");
}

// what came of it: "entered" or "repeated", or null where the front has no place for it
export async function noteVisit(client, {key, day, text}) {
    return (await askFront("POST", `/visits/${client}`, {key, day, text}))?.visit ?? null;
}

// all notes of a client, the newest last, or null where the front has no place for them
export async function visitsOf(client) {
    return (await askFront("GET", `/visits/${client}`))?.visits ?? null;
}
