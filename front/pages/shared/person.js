// What a person does with their own sign-in, at the top of each page: lock, sign out, own password. Only where the
// front has sessions: with Basic the browser keeps the password, and nothing ends it.
import {button, element, link} from "./elements.js";
import {say} from "./words.js";

const LOCK_KEY = "F8";
const IDLE_MILLISECONDS = 15 * 60_000;  // the front ends a session after 20 minutes
const windows = new BroadcastChannel("sign-in");  // all windows of this browser have one session

// To the sign-in, from where the same place is reached again. What was typed and is kept in the browser stays its
// person's.
function leave(place) {
    location.replace(`/sign-in.html${place}`);
}

async function endSession() {
    try {
        await fetch("/session/end", {method: "POST", headers: {"X-Desk": "1"}, keepalive: true});
    } catch {
        // the page is left in any case, and the session ends by itself
    }
    windows.postMessage("ended");
}

async function lock() {
    await endSession();
    leave(location.hash);
}

async function signOut() {
    await endSession();
    sessionStorage.clear();
    leave("");
}

// Goes to the sign-in where there is one. With Basic the browser itself asks, and the page stays.
export async function leaveForSignIn() {
    const reply = await fetch("/me");
    const hasPage = reply.status === 401 && !reply.headers.has("WWW-Authenticate");
    if (hasPage) {
        leave(location.hash);
    }
    return hasPage;
}

function lockWhenIdle() {
    let clock = 0;
    const begin = () => {
        clearTimeout(clock);
        clock = setTimeout(lock, IDLE_MILLISECONDS);
    };
    for (const kind of ["keydown", "pointerdown", "wheel"]) {
        window.addEventListener(kind, begin, {passive: true});
    }
    begin();
}

// A page that the browser kept, and shows again on the way back, is loaded anew: its person may be signed out.
function watch() {
    window.addEventListener("pageshow", (event) => event.persisted && location.reload());
    windows.addEventListener("message", () => leave(location.hash));
    window.addEventListener("keydown", (event) => {
        if (event.key === LOCK_KEY && !event.ctrlKey && !event.altKey && !event.metaKey) {
            event.preventDefault();
            lock();
        }
    });
    lockWhenIdle();
}

export function ownActs({hasSession}) {
    if (!hasSession) {
        return [];
    }
    watch();
    const item = "dropdown-item rounded px-3 py-2";
    const way = (hash, key) => element("li", {}, link(`/sign-in.html${hash}`, say(key), {class: item}));
    const out = element("li", {}, button(say("own.out"), signOut, {class: item, id: "sign-out"}));
    const list = element(
        "ul", {class: "list-unstyled position-absolute end-0 mt-1 mb-0 p-1 bg-white border rounded shadow own-list"},
        way("#password", "own.password"), way("#code", "own.code"), way("#people", "own.people"), out);
    const small = "btn btn-sm btn-outline-light";
    return element(
        "div", {class: "d-flex gap-1"},
        button(say("own.lock"), lock, {class: small, id: "lock", title: say("own.lock.key")}),
        element(
            "details", {class: "position-relative", id: "own-acts"},
            element("summary", {class: small}, say("own.acts")), list));
}
