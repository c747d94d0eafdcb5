// Sends requests to the desk. One queue for the whole page sends at most four at once.

const MOST_AT_ONCE = 4;
const MOST_TOGETHER = 8;
const MOST_MILLISECONDS = 45_000;  // without a byte of a reply
const WAITS_BETWEEN_TRIES = [300, 1000, 2000];
const NOTHING_DONE = ["origin", "large", "password", "left", "log", "reader", "visit", "full", "disk"];

// Why a request did not succeed. `fault` is the desk's refusal (F1 to F20), `front` the front's, both null where no
// reply came.
export class Problem extends Error {
    constructor({fault = null, front = null, status = 0}) {
        super(fault ?? front ?? "lost");
        this.fault = fault;
        this.front = front;
        this.status = status;
    }

    // whether it is not known that the request was refused: it may have been carried out
    get isLost() {
        return this.fault === "F20" ||
            (this.fault === null && !NOTHING_DONE.includes(this.front));
    }

    // whether nothing answered at all
    get hasNoReply() {
        return this.fault === null && this.front === null && this.status === 0;
    }
}

const libraries = new Map();

// Loads a library of Debian's packages once the first page needs it.
export function loadLibrary(src) {
    if (!libraries.has(src)) {
        libraries.set(src, new Promise((onload, refuse) => {
            const onerror = () => {
                libraries.delete(src);
                refuse(new Problem({}));
            };
            document.head.append(Object.assign(document.createElement("script"), {src, onload, onerror}));
        }));
    }
    return libraries.get(src);
}

// the messages that this page has sent so far, and the bytes that came, as they came
export const traffic = {messages: 0, bytes: 0};

new PerformanceObserver((list) => {
    const fetched = list.getEntries().filter(({initiatorType}) => initiatorType === "fetch");
    traffic.bytes += fetched.reduce((bytes, {transferSize}) => bytes + transferSize, 0);
}).observe({type: "resource"});

let running = 0;
let waiting = [];  // writings before readings

// The page is marked while it asks for something.
function count(more) {
    running += more;
    document.documentElement.toggleAttribute("data-asking", running > 0);
}

// Each waits for its turn in the order of asking, but a writing doesn't wait behind readings.
function turn(isReading) {
    if (running < MOST_AT_ONCE) {
        count(1);
        return Promise.resolve();
    }
    return new Promise((go, refuse) => {
        const place = isReading ? waiting.length : waiting.filter((one) => !one.isReading).length;
        waiting.splice(place, 0, {go, refuse, isReading});
    });
}

async function inTurn(isReading, send) {
    await turn(isReading);
    try {
        return await send();
    } finally {
        const next = waiting.shift();
        if (next) {
            next.go();
        } else {
            count(-1);
        }
    }
}

// Gives up the readings of a page that is left and that were not sent yet, so that they don't hold up the next page.
export function leavePage() {
    waiting.filter(({isReading}) => isReading).forEach(({refuse}) => refuse(new Problem({front: "left"})));
    waiting = waiting.filter(({isReading}) => !isReading);
}

export function pause(milliseconds) {
    return new Promise((go) => setTimeout(go, milliseconds));
}

// JSON in which a number of more digits than a Number can hold is kept as a text of its digits
export function readJson(text) {
    const isString = (part) => part.startsWith("\"");
    return JSON.parse(text.replace(/"(?:[^"\\]|\\.)*"|-?\d{16,}/g, (part) => (isString(part) ? part : `"${part}"`)));
}

// Runs a clock that ends a request where nothing comes for too long. tell: says that something came.
function patience(ending) {
    let clock = null;
    const stop = () => clearTimeout(clock);
    const tell = () => {
        stop();
        clock = setTimeout(() => ending.abort(), MOST_MILLISECONDS);
    };
    tell();
    return {tell, stop};
}

// the text of a reply; tell: is called with each part of it
async function textOf(reply, tell) {
    const reader = reply.body?.getReader();
    const decoder = new TextDecoder();
    let text = "";
    for (;;) {
        const {done, value} = await reader?.read() ?? {done: true};
        if (done) {
            return text + decoder.decode();
        }
        tell();
        text += decoder.decode(value, {stream: true});
    }
}

async function fetchOnce(method, url, body) {
    const isWriting = method !== "GET";
    const headers = isWriting ? {"X-Desk": "1", "Content-Type": "application/json"} : {};
    const ending = new AbortController();
    const {tell, stop} = patience(ending);
    traffic.messages += 1;
    try {
        const reply = await fetch(url, {
            method,
            headers,
            cache: "no-store",
            credentials: "same-origin",
            signal: ending.signal,
            body: body === undefined ? undefined : JSON.stringify(body),
        });
        return {status: reply.status, text: await textOf(reply, tell)};
    } catch {
        throw new Problem({});
    } finally {
        stop();
    }
}

function judged({status, text}) {
    let body;
    try {
        body = readJson(text);
    } catch {
        throw new Problem({front: status === 401 ? "password" : null, status});
    }
    if (status >= 200 && status < 300) {
        return {status, body};
    }
    throw new Problem({fault: body.fault ?? null, front: body.front ?? null, status});
}

// Chromium sends no request from a page whose address has a password in it unless the address is given without one.
function send(method, path, body, isReading = method === "GET") {
    return inTurn(isReading, async () => judged(await fetchOnce(method, location.origin + path, body)));
}

async function tryAgain(once) {
    for (const wait of WAITS_BETWEEN_TRIES) {
        try {
            return await once();
        } catch (problem) {
            if (!(problem instanceof Problem) || !problem.isLost) {
                throw problem;
            }
        }
        await pause(wait);
    }
    return once();
}

// the body of the reply; a reading may be sent again, since it changes nothing
export async function read(path) {
    return (await tryAgain(() => send("GET", `/api${path}`))).body;
}

// the same of a reading that has a body
export async function look(path, body) {
    return (await tryAgain(() => send("POST", `/api${path}`, body, true))).body;
}

// Readings by one message, each with a reply of its own. Null where the front is an older one, without such a message.
async function severalOnce(message) {
    const reply = await inTurn(true, () => fetchOnce("GET", location.origin + message));
    if (reply.status === 404) {
        return null;
    }
    const valueOf = (part) => part.loan === undefined ? judged(part).body : part;  // the front tells loans by itself
    const parts = await Promise.allSettled(judged(reply).body.map(async (part) => valueOf(part)));
    const lost = parts.find(({reason}) => reason instanceof Problem && reason.isLost);
    if (lost !== undefined) {
        throw lost.reason;
    }
    return parts;
}

const together = [];  // readings that wait for others of this moment
let isByOne = false;  // an older front is asked for one after the other

async function sendTogether(asked) {
    const paths = asked.map(({path}) => path);
    const parts = isByOne || paths.length < 2 ? null : await tryAgain(() => severalOnce(`/several?${paths.join("&")}`));
    isByOne ||= parts === null && paths.length > 1;
    asked.forEach(({path, found, refuse}, i) => {
        const {status, value, reason} = parts?.[i] ?? {status: "fulfilled", value: read(path)};
        status === "fulfilled" ? found(value) : refuse(reason);
    });
}

// The same as `read`. What is asked for at one moment goes by few messages, and comes once all of one message is there.
export function readTogether(path) {
    return new Promise((found, refuse) => {
        together.push({path, found, refuse});
        setTimeout(() => {
            const asked = together.splice(0, MOST_TOGETHER);
            sendTogether(asked).catch((problem) => asked.forEach((one) => one.refuse(problem)));
        });
    });
}

// What the front tells of loans by one message, each as [loan, {loan, entries}], without those that aren't seen. And
// those for which it had no room. Null where the front is an older one.
export async function readLoans(message, loans) {
    const parts = await tryAgain(() => severalOnce(message));
    return parts && {
        told: loans.map((loan, i) => [loan, parts[i].value]).filter(([, value]) => value !== undefined),
        beyond: loans.filter((_, i) => parts[i].reason?.front === "large")
    };
}

// the body of the reply, or null where the thing isn't there or isn't seen
export async function readIfThere(path, reading = read) {
    try {
        return await reading(path);
    } catch (problem) {
        if (problem.fault === "F4") {
            return null;
        }
        throw problem;
    }
}

// a request that may change something, sent once
export function change(method, path, body) {
    return send(method, `/api${path}`, body);
}

// A repayment with its receipt may be sent again: what was entered is not entered twice, and is answered with status
// 200.
export function repay(loan, repayment) {
    return tryAgain(() => change("POST", `/loans/${loan}/repayments`, repayment));
}

function judgedIfKnown(reply) {
    try {
        return judged(reply).body;
    } catch (problem) {
        if (problem.status === 404 && problem.fault === null) {
            return null;
        }
        throw problem;
    }
}

// The body of the reply to a message that is the front's own, which may be sent again. Null where the front is an older
// one that doesn't know it.
export function askFront(method, path, body) {
    const once = () => fetchOnce(method, location.origin + path, body);
    return tryAgain(async () => judgedIfKnown(await inTurn(method === "GET", once)));
}

// What the pages begin with. A browser that says there is no network isn't asked again and again.
async function firstRead(path) {
    const once = () => send("GET", path);
    return (await (navigator.onLine ? tryAgain(once) : once())).body;
}

export function whoAmI() {
    return firstRead("/me");
}

export function institutionFile() {
    return firstRead("/institution.json");
}
