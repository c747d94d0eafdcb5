// What the sign-in answers. A refusal is a word of the front, or a number or a word of the engine.

export class Refused extends Error {}

async function answered(path, members, method) {
    try {
        const reply = await fetch(path, {
            method,
            headers: {"X-Desk": "1"},
            credentials: "same-origin",
            cache: "no-store",
            body: members && new URLSearchParams(members),
        });
        return {isDone: reply.ok, text: await reply.text()};
    } catch {
        throw new Refused("lost");
    }
}

function readJson(text) {
    try {
        return JSON.parse(text);
    } catch {
        return null;
    }
}

// the reply's members, or its text where it is no JSON
export async function asked(path, members, method = "POST") {
    const {isDone, text} = await answered(path, members, method);
    const read = readJson(text);
    if (!isDone || (read?.error && read.result !== 1)) {
        throw new Refused(String(read?.front ?? read?.refused ?? read?.error ?? "other"));
    }
    return read ?? text;
}

// Signs in. Where a code is asked for, the token with which it is sent; the engine hands it out in a page of its own.
export async function signIn(user, password) {
    const reply = await asked("/session", {user, password});
    if (typeof reply !== "string") {
        return null;
    }
    const page = new DOMParser().parseFromString(reply, "text/html");
    return page.querySelector("input[name=token]")?.value ?? null;
}

// After a wrong code the engine asks for another one in its page, and has begun no session.
export async function sendCode(user, token, code) {
    const reply = await asked("/session/code", {user, token, code});
    if (typeof reply === "string") {
        throw new Refused("96");
    }
}
