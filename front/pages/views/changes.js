// What the journal tells: by which requests it is read, and each change in words, who sent it, and when.
import {element, link} from "../shared/elements.js";
import {read, readJson} from "../shared/api.js";
import {hasLists, staffWords} from "../shared/lists.js";
import {hasWords, say, sayCount, showDated, showDay, showMoney} from "../shared/words.js";
import {day, row, table} from "../shared/tables.js";

const NO_JOURNAL = "has-no-journal";
export const CHANGES_OF_A_PAGE = 200;

const MOMENT = /^(\d{4}-\d{2}-\d{2}T\d{2}:\d{2}:\d{2}(?:Z|[+-]\d{2}:\d{2})),/;
const ON_LOAN = /^\/loans\/\d{4}-\d{6}\/([a-z-]+)$/;
const ON_ENTRY = /^\/loans\/\d{4}-\d{6}\/entries\/0*(\d+)\/reverse$/;

// whether it was learnt in this session that the desk tells of no journal
export function lacksJournal() {
    return sessionStorage.getItem(NO_JOURNAL) !== null;
}

// Changes, or null where the desk tells of none: it keeps no journal, or is of a version that doesn't tell it. What is
// asked about has to be there.
async function changesAt(path) {
    if (lacksJournal() || !(await hasLists())) {
        return null;
    }
    try {
        return (await read(path)).changes;
    } catch (problem) {
        if (!["F4", "F5"].includes(problem.fault)) {
            throw problem;
        }
        sessionStorage.setItem(NO_JOURNAL, "yes");
        return null;
    }
}

// all changes of a loan, the first one first
export function changesOfLoan(account) {
    return changesAt(`/lists/history/${account}`);
}

// up to 200 changes of an office with a place above one
export function changesAfter(office, place) {
    return changesAt(`/lists/journal/${office}/${place}`);
}

// The last page of an office's changes, and after which place it begins. How many there are isn't told, so pages
// further on are looked at until one is empty, then those between. It begins where it ended last in this session,
// unless changes were moved to an archive since.
export async function lastChanges(office) {
    const keptAs = `last-changes-${office}`;
    const pageAt = (page) => changesAfter(office, page * CHANGES_OF_A_PAGE);
    let [page, end] = [Number(sessionStorage.getItem(keptAs)), Infinity];
    let changes = await pageAt(page);
    if (page > 0 && changes?.length === 0) {
        [page, end, changes] = [0, page, await pageAt(0)];
    }
    for (let reach = 1; changes?.length === CHANGES_OF_A_PAGE && page + 1 < end; reach *= 4) {
        const further = Math.min(page + reach, Math.floor((page + end) / 2));
        const found = await pageAt(further);
        [page, changes, end] = found.length > 0 ? [further, found, end] : [page, changes, further];
    }
    sessionStorage.setItem(keptAs, page);
    return {after: page * CHANGES_OF_A_PAGE, changes};
}

// what was done by these paths, or by what is sent to a loan, in words that the body fills in
const DONE = {
    "/offices": ({number, name}) => say("made.office", {office: `${number} ${name}`}),
    "/staff": ({name, role}) => say("made.staff", {name, role: say(`role.${role}`)}),
    "/clients": ({name}) => say("made.client", {name}),
    "/loans": ({client, product, principal, periods}) =>
        sayCount("made.loan", periods, {client, product, amount: showMoney(principal)}),
    "disburse": ({day: on}) => say("done.disburse", {day: showDay(on)}),
    "repayments": ({amount, day: on, receipt}) => {
        const words = say("done.repayments", {amount: showMoney(amount), day: showDay(on)});
        return receipt === undefined || receipt === null ? words : `${words}, ${say("done.receipt", {receipt})}`;
    },
    "fees": ({charge, due}) => say("done.fees", {charge, day: showDay(due)}),
    "penalties": ({instalment}) => say("done.penalties", {instalment: say("instalment.of", {number: instalment})}),
    "waivers": ({instalment, portion}) => say(
        "done.waivers",
        {portion: say(`portion.${portion}`), instalment: say("instalment.of", {number: instalment})}),
};

// the members of a body; none where it is no JSON, as a body that nobody reads may be
function membersOf(body) {
    try {
        return Object(readJson(body));
    } catch {
        return {};
    }
}

// what was done; what these pages have no words for stands as it was sent
function changeWords({method, path, body}) {
    const [, number] = ON_ENTRY.exec(path) ?? [];
    const [, act = path] = ON_LOAN.exec(path) ?? [];
    if (Object.hasOwn(DONE, act)) {
        return DONE[act](membersOf(body));
    }
    const asSent = `${method} ${path} ${body}`;
    return number ? say("done.reverse", {number}) : hasWords(`done.${act}`) ? say(`done.${act}`) : asSent;
}

// what was done, and what was typed with it that the desk doesn't ask for
function doneCell(change) {
    const typed = membersOf(change.body);
    const given = ["collector", "reason"].filter((name) => typeof typed[name] === "string" && typed[name] !== "");
    const line = (name) => element("div", {class: "text-muted"}, say(`done.${name}`, typed));
    return [changeWords(change), given.map(line)];
}

// When it was sent: the front tells the time, and the address after it. Another remark stands as it was told.
function momentOf({told}) {
    const moment = Date.parse(MOMENT.exec(told)?.[1]);
    return Number.isNaN(moment) ? told || "–" : showDated(moment);
}

// changes: of an office each with its loan too, and with when it was sent where that was told of any
export function changeTable(changes, {caption, hasLoans = false}) {
    const isTold = changes.some(({told}) => told !== "");
    const loanCell = (account) => (account === null ? "–" : link(`#/loan/${account}`, account));
    const rows = changes.map((change) => row([
                                 {head: change.number}, day(change.day), ...(isTold ? [momentOf(change)] : []),
                                 staffWords(change.staff), ...(hasLoans ? [loanCell(change.loan)] : []),
                                 doneCell(change)
                             ]));
    const columns = [
        {words: say("instalment.short")}, {words: say("day")}, ...(isTold ? [{words: say("changes.sent")}] : []),
        {words: say("changes.by")}, ...(hasLoans ? [{words: say("loan")}] : []),
        {words: say("changes.what"), isWide: true}
    ];
    return table({caption, columns, rows}).node;
}
