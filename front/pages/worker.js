// Keeps the pages, so that they open without a network: their files and the libraries, and nothing that the desk or the
// sign-in answers. What is no file of the pages goes its way as if this worker weren't there.
// `lay-pages` puts in place of the words between two @ where the files lie, and which they are.

const FILES = "@FILES@";
const NAMES = "@NAMES@".split(" ");
const LIBRARIES = ["/lib/bootstrap/css/bootstrap.min.css", "/lib/dsv/d3-dsv.min.js", "/lib/qrcode/qrcode.js"];
const PAGES = {"/": "index.html", "/sign-in.html": "sign-in.html"};
const PATIENCE = 4000;  // milliseconds that a page or a library may take, before what is kept is shown
const VERSIONS = 2;     // kept at once, since a page of the version before may still be open

// All of them or none: until then the version before is what opens without a network.
async function keepAll() {
    const cache = await caches.open(FILES);
    try {
        await cache.addAll([...NAMES.map((name) => `${FILES}/${name}`), ...LIBRARIES]);
    } catch (problem) {
        await caches.delete(FILES);
        throw problem;
    }
}

async function forgetOlder() {
    const versions = (await caches.keys()).filter((name) => name.startsWith("/files/"));
    const older = versions.slice(0, -VERSIONS);
    await Promise.all(older.map((name) => caches.delete(name)));
    await clients.claim();
}

// what this version keeps, else what the one before kept
async function kept(what) {
    const own = await caches.match(what, {cacheName: FILES, ignoreVary: true});
    return own ?? caches.match(what, {ignoreVary: true});
}

function tooLate() {
    return new Promise((_, refuse) => setTimeout(refuse, PATIENCE));
}

// A file below its sum never changes.
async function keptOrFresh(request) {
    return (await kept(request)) ?? fetch(request);
}

// What the front has now, so that an upgrade shows at once and who isn't signed in is led to the sign-in. What is kept
// where no reply comes in time, or one that is no page.
async function freshOrKept(request, name) {
    const other = await kept(name);
    if (other === undefined) {
        return fetch(request);
    }
    try {
        const fresh = await Promise.race([fetch(request), tooLate()]);
        return fresh.ok || fresh.type === "opaqueredirect" ? fresh : other;
    } catch {
        return other;
    }
}

self.addEventListener("install", (event) => {
    self.skipWaiting();
    event.waitUntil(keepAll());
});

self.addEventListener("activate", (event) => event.waitUntil(forgetOlder()));

self.addEventListener("fetch", (event) => {
    const {request} = event;
    const {origin, pathname} = new URL(request.url);
    if (request.method !== "GET" || origin !== location.origin) {
        return;
    }
    if (request.mode === "navigate" && pathname in PAGES) {
        event.respondWith(freshOrKept(request, `${FILES}/${PAGES[pathname]}`));
    } else if (pathname.startsWith("/files/")) {
        event.respondWith(keptOrFresh(request));
    } else if (pathname.startsWith("/lib/")) {
        event.respondWith(freshOrKept(request, pathname));
    }
});
