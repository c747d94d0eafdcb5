// A database of this browser for what is kept on a phone, with a copy of each record in the browser's other store.
// Chromium writes on behind a record that a flat battery or a kill cut short. At the next start it finds the database
// broken, and empties it. A database that is made anew is filled from the copies.
const CACHE = "kept";
const STRICT = {durability: "strict"};  // it is on the disk before it counts as kept

// An address that isn't safe has no such store: there no copies are kept.
function hasCopies() {
    return globalThis.caches !== undefined && navigator.locks !== undefined;
}

// whether there is a database of this name that can be read
async function isThere(name) {
    try {
        return (await indexedDB.databases()).some((one) => one.name === name);
    } catch {
        return false;
    }
}

function isBytes(value) {
    return value instanceof ArrayBuffer || value instanceof Uint8Array;
}

// a record as a form: its bytes as files, and the rest as JSON
function formOf(record) {
    const form = new FormData();
    let count = 0;
    const shown = (_, value) => {
        if (isBytes(value)) {
            form.append("bytes", new Blob([value]));
            return {$bytes: count++};
        }
        return typeof value === "bigint" ? {$cents: String(value)} : value;
    };
    form.append("record", JSON.stringify(record, shown));
    return form;
}

async function recordOf(form) {
    const bytes = await Promise.all(form.getAll("bytes").map((file) => file.arrayBuffer()));
    const meant = (_, value) => {
        if (value?.$bytes !== undefined) {
            return new Uint8Array(bytes[value.$bytes]);
        }
        return value?.$cents === undefined ? value : BigInt(value.$cents);
    };
    return JSON.parse(form.get("record"), meant);
}

export class KeptDatabase {
    #opening = null;

    constructor(name, stores) {
        this.name = name;
        this.stores = stores;
    }

    // work: is handed the stores by name, and answers a request. Answers what that came to, once all of it stands.
    async within(mode, work) {
        const transaction = (await this.#opened()).transaction(this.stores, mode, STRICT);
        const asked = work(Object.fromEntries(this.stores.map((name) => [name, transaction.objectStore(name)])));
        return new Promise((done, refuse) => {
            transaction.oncomplete = () => done(asked.result);
            transaction.onabort = () => refuse(transaction.error ?? new Error("not kept"));
        });
    }

    // The same of a change, whose copies stand then too. places: the store and the key of each record that it may
    // change, or null for all of them.
    async change(places, work) {
        const answer = await this.within("readwrite", work);
        await this.#renewCopies(places);
        return answer;
    }

    #opened() {
        this.#opening ??= this.#open();
        this.#opening.catch(() => this.#forget());
        return this.#opening;
    }

    // The next use opens it anew.
    #forget() {
        this.#opening = null;
    }

    async #open() {
        const copies = hasCopies() && !(await isThere(this.name)) ? await this.#readCopies().catch(() => []) : [];
        let isNew = false;
        const database = await new Promise((done, refuse) => {
            const asked = indexedDB.open(this.name, 1);
            asked.onupgradeneeded = () => {
                isNew = true;
                this.stores.forEach((store) => asked.result.createObjectStore(store));
                copies.forEach(({store, key, record}) => asked.transaction.objectStore(store).put(record, key));
            };
            asked.onsuccess = () => done(asked.result);
            asked.onerror = () => refuse(asked.error);
        });
        database.onclose = () => this.#forget();  // the browser ended it, as where the disk is full
        if (!isNew) {
            setTimeout(() => this.#renewCopies(null));
        }
        return database;
    }

    // Brings copies to what the database has by now, whichever window changed it. What is kept counts as kept without a
    // copy too.
    async #renewCopies(places) {
        if (!hasCopies()) {
            return;
        }
        try {
            await navigator.locks.request(`copies ${this.name}`, async () => {
                for (const [store, key] of places ?? await this.#allPlaces()) {
                    await this.#renewCopy(store, key);
                }
            });
        } catch (problem) {
            console.error(problem);
        }
    }

    // A copy that can't be renewed goes, so that none is older than what it is a copy of.
    async #renewCopy(store, key) {
        const cache = await caches.open(CACHE);
        const address = `/kept/${[this.name, store, key].map(encodeURIComponent).join("/")}`;
        const record = await this.within("readonly", (stores) => stores[store].get(key));
        const put = () => cache.put(address, new Response(formOf(record)));
        await (record === undefined ? cache.delete(address) : put().catch(() => cache.delete(address)));
    }

    // the store and the key of each record, and of each that there is a copy of
    async #allPlaces() {
        const keysOf = (store) => this.within("readonly", (stores) => stores[store].getAllKeys());
        const placesOf = async (store) => (await keysOf(store)).map((key) => [store, key]);
        const kept = await Promise.all(this.stores.map(placesOf));
        return [...kept.flat(), ...(await this.#listCopies()).map(({store, key}) => [store, key])];
    }

    async #listCopies() {
        if (!(await caches.has(CACHE))) {
            return [];
        }
        const requests = await (await caches.open(CACHE)).keys();
        const placed = requests.map((request) => {
            const [, , name, store, key] = new URL(request.url).pathname.split("/").map(decodeURIComponent);
            return {name, store, key, request};
        });
        return placed.filter(({name}) => name === this.name);
    }

    // those that can be read
    async #readCopies() {
        const read = async ({store, key, request}) => {
            const copy = await caches.match(request, {cacheName: CACHE});
            return {store, key, record: await recordOf(await copy.formData())};
        };
        const copies = await Promise.allSettled((await this.#listCopies()).map(read));
        return copies.filter(({status}) => status === "fulfilled").map(({value}) => value);
    }
}
