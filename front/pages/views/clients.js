// An office's clients, found by name as one types; a new client.
import {button, card, element, emptyState, fill, freshId, link, spinner} from "../shared/elements.js";
import {change, readIfThere} from "../shared/api.js";
import {may, OFFICER, session} from "../shared/session.js";
import {accountOf, asTree, clientsOf, isAccount, numberOf, offices} from "../shared/desk.js";
import {clientsAfter, CLIENTS_OF_A_PAGE, findClients, hasLists, MOST_FOUND} from "../shared/lists.js";
import {findIn} from "../shared/find-box.js";
import {plain, say, showCount} from "../shared/words.js";
import {countOrDash, officeChoice, pageHead, row, table} from "../shared/tables.js";
import {ask, note} from "../shared/dialogs.js";
import {nameField} from "../shared/forms.js";
import {keptWriting, Writing} from "../shared/writing.js";
import {showRefusal} from "../shared/refusals.js";

const SHOWN_AT_MOST = 100;
const MOST_PAGES = 2000;  // of 500 clients: an office has at most 999,999

export async function clients(page, office = session.office, after = "0") {
    const number = Number(office);
    const tree = asTree(await offices());
    const own = tree.find((one) => one.number === number);
    const name = own ? `${own.number} ${own.name}` : String(number);
    const actions = may(OFFICER) && own ?
        [button(say("client.new"), () => newClient(number, name), {class: "btn btn-primary"})] :
        [];
    const choice = officeChoice({
        tree,
        value: number,
        label: say("office"),
        onchange: (other) => {
            location.hash = `#/clients/${other}`;
        }
    });
    const id = freshId("find");
    const search = element("input", {class: "form-control", type: "search", id, autocomplete: "off"});
    const finder = element("div", {}, element("label", {class: "form-label", "for": id}, say("clients.find")), search);
    const place = element("div", {}, spinner(say("loading")));
    fill(
        page, pageHead({title: say("clients.title"), actions}), element("div", {class: "filters"}, choice, finder),
        card(null, place));
    await ((await hasLists()) ? showListed : showOneByOne)({place, search, office: number, after: Number(after)});
}

// by the desk's lists: 500 clients, and those that are found

async function showListed({place, search, office, after}) {
    const lines = await clientsAfter(office, after);
    const show = () => showLines(place, lines, lines.length === 0 ? emptyState(say("clients.none")) : null, pager());
    const pager = () => {
        const to = (first) => link(`#/clients/${office}/${first}`, say(first < after ? "previous" : "next"), PAGER);
        const range = {first: showCount(after + 1), last: showCount(after + lines.length)};
        return element(
            "div", {class: "pager"}, element("span", {class: "text-muted"}, say("clients.shown", range)),
            after > 0 && to(Math.max(0, after - CLIENTS_OF_A_PAGE)),
            lines.length === CLIENTS_OF_A_PAGE && to(numberOf(lines.at(-1).client)));
    };
    findIn(search, {
        none: show,
        find: (wanted) => findClients(isAccount(wanted) ? Number(wanted.slice(0, 4)) : office, wanted),
        found: (list) => showLines(place, list, emptyState(say("clients.not-found")), foundCount(list)),
        failed: (problem) => showRefusal(place, problem, show),
    });
    show();
}

const PAGER = {class: "btn btn-sm btn-outline-secondary"};

function foundCount(list) {
    const more = list.length >= MOST_FOUND && ` ${say("clients.more", {count: showCount(MOST_FOUND)})}`;
    const words = say("clients.found", {found: showCount(list.length)});
    return element("p", {class: "text-muted mt-2 mb-0", role: "status"}, words, more);
}

function showLines(place, lines, empty, foot) {
    const rows = lines.map((line) => row([
                               {head: link(`#/client/${line.client}`, line.name)},
                               element("span", {class: "amount"}, line.client), countOrDash(line.waiting),
                               countOrDash(line.active), countOrDash(line.overdue, true)
                           ]));
    const columns = [
        {words: say("client")}, {words: say("number")}, {words: say("clients.waiting"), kind: "number"},
        {words: say("loans.active"), kind: "number"}, {words: say("clients.overdue"), kind: "number"}
    ];
    fill(place, rows.length === 0 ? empty : table({caption: say("clients.title"), columns, rows}).node, foot);
}

// one client after another, where the desk has no lists

async function showOneByOne({place, search, office}) {
    let known = [];
    let isWhole = false;
    const show = () => {
        if (isAccount(search.value.trim())) {
            showNumbered(place, search).catch((problem) => showRefusal(place, problem, show));
        } else {
            showFound(place, office, known, search.value, isWhole);
        }
    };
    search.addEventListener("input", show);
    await clientsOf(office, (list) => {
        known = list;
        show();
    });
    isWhole = true;
    show();
}

function found(office, list, wanted) {
    const parts = plain(wanted).split(/\s+/).filter((part) => part !== "");
    return list.map((name, i) => ({name, number: i + 1})).filter(({name, number}) => {
        const text = `${plain(name)} ${accountOf(office, number)}`;
        return parts.every((part) => text.includes(part));
    });
}

// A whole number, as it is shown and printed, finds its client in whatever office.
async function showNumbered(place, search) {
    const account = search.value.trim();
    const told = await readIfThere(`/clients/${account}`);
    if (search.value.trim() === account) {
        fill(place, told === null ? emptyState(say("clients.not-found")) : clientTable([[account, told.name]]));
    }
}

function clientTable(pairs) {
    const rows = pairs.map(
        ([account, name]) =>
            row([{head: link(`#/client/${account}`, name)}, element("span", {class: "amount"}, account)]));
    const columns = [{words: say("client")}, {words: say("number")}];
    return table({caption: say("clients.title"), columns, rows}).node;
}

function showFound(place, office, list, wanted, isWhole) {
    const all = found(office, list, wanted);
    const pairs = all.slice(0, SHOWN_AT_MOST).map(({name, number}) => [accountOf(office, number), name]);
    const count = element(
        "p", {class: "text-muted mt-2 mb-0", role: "status"},
        isWhole ? say("clients.count", {found: showCount(all.length), all: showCount(list.length)}) : say("loading"),
        all.length > SHOWN_AT_MOST && ` ${say("clients.more", {count: showCount(SHOWN_AT_MOST)})}`);
    if (pairs.length === 0 && isWhole) {
        fill(place, emptyState(say(list.length === 0 ? "clients.none" : "clients.not-found")), count);
    } else {
        fill(place, clientTable(pairs), count);
    }
}

async function newClient(office, officeName) {
    const made = await ask({
        title: say("client.new"),
        text: say("client.new.what", {office: officeName}),
        action: say("client.enter"),
        fields: {name: nameField({label: say("name")})},
        send: keptWriting(({name: chosen}) => clientWriting(office, chosen)),
    });
    if (made !== null) {
        note(say("client.entered", {client: made.client}));
        location.hash = `#/client/${made.client}`;
    }
}

// What tells later that the client was entered is one of this name with a number past those that were there before.
export function clientWriting(office, name) {
    return new Writing({
        before: async () => ((await hasLists()) ? lastClient(office) : (await clientsOf(office)).length),
        send: async () => (await change("POST", "/clients", {office, name})).body,
        find: async (count) => ((await hasLists()) ? findNew(office, name, count) : findAmong(office, name, count)),
    });
}

// The highest number of an office's clients, who are numbered without gaps.
async function lastClient(office) {
    let [low, high] = [0, null];  // pages below `low` are full, that at `high` is empty
    while (low !== high) {
        const place = high === null ? Math.min(low * 2, MOST_PAGES - 1) : Math.floor((low + high) / 2);
        const page = await clientsAfter(office, place * CLIENTS_OF_A_PAGE);
        if (page.length > 0 && page.length < CLIENTS_OF_A_PAGE) {
            return numberOf(page.at(-1).client);
        }
        [low, high] = page.length === 0 ? [low, place] : [place + 1, high];
    }
    return low * CLIENTS_OF_A_PAGE;
}

async function findNew(office, name, count) {
    return (await clientsAfter(office, count)).find((line) => line.name === name) ?? null;
}

async function findAmong(office, name, count) {
    const list = await clientsOf(office);
    const place = list.indexOf(name, count);
    return place < 0 ? null : {client: accountOf(office, place + 1)};
}
