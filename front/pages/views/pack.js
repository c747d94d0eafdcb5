// The day pack: what an officer takes along in the morning by one press, and finds here without a network: office by
// office all active loans, what falls due of them within a week and what is left to pay, and all clients.
import {alertBox, button, card, element, emptyState, fill, freshId, link} from "../shared/elements.js";
import {dayOfNumber, numberOfDay} from "../shared/days.js";
import {idOf, keptRound, keptRounds} from "../shared/kept.js";
import {ask} from "../shared/dialogs.js";
import {showRefusal} from "../shared/refusals.js";
import {session} from "../shared/session.js";
import {amount, amountOrDash, day as dayCell, facts, pageHead, row, table} from "../shared/tables.js";
import {say, sayCount, showAge, showCount, showDay, showMoment, showMoney} from "../shared/words.js";
import {showLocked} from "./kept-asking.js";
import {canSeal, isLocked, lock, Locked, whenLocked} from "./kept-pin.js";
import {addLine, readRound, takeRound} from "./kept-rounds.js";
import {
    clientFinder,
    dueInAll,
    dueOn,
    hasPack,
    linesOn,
    namesIn,
    officeIn,
    readPack,
    roundFrom,
    roundLine,
    undatedOn,
    withoutAccount
} from "./pack-kept.js";
import {dropPack} from "./pack-record.js";
import {takingCard} from "./pack-taking.js";
import {visitsPart} from "./visits.js";

const SHOWN_AT_MOST = 50;
const QUIET = {class: "btn btn-outline-secondary"};

export async function pack(page, officeText, client) {
    const show = async () => {
        try {
            await showPack(page, officeText, client, show);
        } catch (problem) {
            if (!(problem instanceof Locked)) {
                showRefusal(page, problem, show);
            }
        }
    };
    const end = whenLocked(() => (page.isConnected ? show() : end()));
    await show();
}

async function showPack(page, officeText, client, show) {
    const isThere = canSeal() && (await hasPack());
    if (isThere && isLocked()) {
        showLocked(page, await keptRounds(), show, {title: say("pack.title"), words: say("pack.here")});
        return;
    }
    const kept = isThere ? await readPack() : null;
    const office = officeIn(kept, officeText);
    if (office === null) {
        await showOffices(page, kept, show);
    } else if (client === undefined) {
        showOffice(page, kept, office);
    } else {
        showClient(page, kept, office, client);
    }
}

// when it was taken along and on which business day: each page that shows something of it tells so
function ageLine({taken, businessDay, by}) {
    const words = say("pack.age", {time: showMoment(taken), age: showAge(taken), day: showDay(businessDay), by});
    return element("p", {class: "kept-age"}, words);
}

// All offices of the pack, and taking it along where there is a desk.

async function showOffices(page, kept, show) {
    const actions = kept === null ? [] : [
        button(say("pin.lock"), lock, QUIET),
        button(say("kept.remove"), () => remove(show), {class: "btn btn-outline-danger"})
    ];
    const taking = session.staff === "" ? noDesk(kept) : await takingCard(kept, show);
    fill(
        page, pageHead({title: say("pack.title"), trail: [[say("kept.title"), "#/kept"]], actions}),
        kept && [ageLine(kept), card(null, officeTable(kept), accountNote(kept.offices.flatMap(({lines}) => lines)))],
        element("div", {class: "mt-3"}, taking));
}

function noDesk(kept) {
    return kept === null ? alertBox("info", say("pack.none")) : null;
}

function officeTable(kept) {
    const rows = kept.offices.map((office) => {
        const [now, soon] = [kept.businessDay, kept.until].map((day) => linesOn(kept, office, day));
        return row([
            {head: link(`#/pack/${office.number}`, `${office.number} ${office.name}`)}, amountOrDash(dueInAll(now)),
            amountOrDash(dueInAll(soon)), {number: showCount(office.clients.length)}
        ]);
    });
    const columns = [
        {words: say("office")}, {words: say("pack.due", {day: showDay(kept.businessDay)}), kind: "number"},
        {words: say("pack.due", {day: showDay(kept.until)}), kind: "number"},
        {words: say("clients.title"), kind: "number"}
    ];
    return table({caption: say("pack.title"), columns, rows}).node;
}

async function remove(show) {
    const removed = await ask({
        title: say("kept.remove"),
        text: say("pack.remove.what"),
        action: say("kept.remove"),
        isGrave: true,
        send: dropPack
    });
    if (removed !== null) {
        await show();
    }
}

// one office: the rounds of the week, and its clients

function showOffice(page, kept, office) {
    const search = element("input", {class: "form-control", type: "search", id: freshId("find"), autocomplete: "off"});
    const place = element("div", {class: "mt-2"});
    const label = element("label", {class: "form-label", "for": search.id}, say("pack.find"));
    const find = clientFinder(office);
    const show = () => showClients(place, kept, office, find(search.value));
    search.addEventListener("input", show);
    fill(
        page, pageHead({title: `${office.number} ${office.name}`, trail: trailOf()}), ageLine(kept),
        card(say("pack.rounds"), roundTable(kept, office), undatedNote(kept, office), accountNote(office.lines)),
        element("div", {class: "mt-3"}, card(say("clients.title"), label, search, place)));
    show();
}

function trailOf(office) {
    const trail = [[say("kept.title"), "#/kept"], [say("pack.title"), "#/pack"]];
    return office === undefined ? trail : [...trail, [`${office.number} ${office.name}`, `#/pack/${office.number}`]];
}

function roundTable(kept, office) {
    const first = numberOfDay(kept.businessDay);
    const count = numberOfDay(kept.until) - first + 1;
    const days = Array.from({length: count}, (_, i) => dayOfNumber(first + i));
    const rows = days.map((day) => [day, linesOn(kept, office, day)])
                     .filter(([, lines]) => lines.length > 0)
                     .map(([day, lines]) => row([
                         {head: roundHead(kept, office, day)}, {number: showCount(lines.length)},
                         amount(dueInAll(lines))
                     ]));
    const columns = [
        {words: say("day")}, {words: say("loans.title"), kind: "number"}, {words: say("round.due"), kind: "number"}
    ];
    return rows.length === 0 ? emptyState(say("round.none")) : table({caption: say("pack.rounds"), columns, rows}).node;
}

function roundHead(kept, office, day) {
    const open = button(say("pack.open"), () => openRound(kept, office, day), {
        class: "btn btn-sm btn-outline-primary ms-3", "aria-label": `${say("pack.open")}: ${showDay(day)}`
    });
    return element("div", {class: "d-flex justify-content-between align-items-center"}, dayCell(day), open);
}

// what isn't counted on the days between
function undatedNote(kept, office) {
    const count = undatedOn(kept, office, dayOfNumber(numberOfDay(kept.businessDay) + 1));
    const words = () => sayCount("pack.undated", count, {day: showDay(kept.until)});
    return count > 0 && element("p", {class: "text-muted mt-2 mb-0"}, words());
}

// of which loans the phone can't tell what the desk will say
function accountNote(lines) {
    const count = withoutAccount(lines);
    return count > 0 && element("p", {class: "text-muted mt-2 mb-0"}, sayCount("pack.no-account", count));
}

// A round that is on the phone already stays as it is: more may be known of it than the pack has. One that came from an
// older pack of the same person is read from this one, with all that was typed into it and sent.
async function keptOrMade(kept, office, day) {
    const id = idOf({office: office.number, day});
    const before = (await keptRound(id)) && (await readRound(id));
    if (before === undefined || (before.isOfPack && before.taken < kept.taken && before.by === kept.by)) {
        await takeRound(roundFrom(kept, office, day));
    }
}

async function openRound(kept, office, day) {
    await keptOrMade(kept, office, day);
    location.hash = `#/kept/${office.number}/${day}`;
}

function showClients(place, kept, office, all) {
    const owing = new Map();
    for (const line of office.lines) {
        owing.set(line.client, [...(owing.get(line.client) ?? []), line]);
    }
    const rows = all.slice(0, SHOWN_AT_MOST).map(({client, name}) => {
        const lines = owing.get(client) ?? [];
        const due = lines.map((line) => ({due: dueOn(kept, line, kept.until)}));
        return row([
            {head: link(`#/pack/${office.number}/${client}`, name)}, element("span", {class: "amount"}, client),
            amountOrDash(dueInAll(due))
        ]);
    });
    const columns = [
        {words: say("client")}, {words: say("number")},
        {words: say("pack.due", {day: showDay(kept.until)}), kind: "number"}
    ];
    const words = say("clients.count", {found: showCount(all.length), all: showCount(office.clients.length)});
    const more = all.length > SHOWN_AT_MOST && ` ${say("clients.more", {count: showCount(SHOWN_AT_MOST)})}`;
    fill(
        place, rows.length === 0 ? emptyState(say("clients.not-found")) :
                                   table({caption: say("clients.title"), columns, rows}).node,
        element("p", {class: "text-muted mt-2 mb-0", role: "status"}, words, more));
}

// One client, with all active loans. The title begins with the number, since the browser keeps its beginning in its
// history, in clear (app.js).
function showClient(page, kept, office, client) {
    const name = namesIn(office).get(client);
    const lines = office.lines.filter((line) => line.client === client);
    const loans = lines.map((line) => card(
        `${say("loan")} ${line.loan}`, facts(pairsOf(kept, line)),
        element("div", {class: "page-actions"}, payButton(kept, office, line))));
    const none = say(name === undefined ? "clients.not-found" : "pack.no-loan");
    const actions = name === undefined ? [] : [
        kept.mayEnter && draftButton(kept, office, client, "loan"), draftButton(kept, office, client, "note")
    ];
    fill(
        page, pageHead({title: client, badge: name, trail: trailOf(office), actions}), ageLine(kept),
        loans.length === 0 ? card(null, emptyState(none)) : loans,
        name !== undefined && session.staff !== "" && visitsPart(client, true));
}

// leads to the loan's line in the round of the pack's day, which gets one where nothing is due
function payButton(kept, office, line) {
    const place = {office: office.number, day: kept.businessDay};
    return button(say("do.repayment"), async () => {
        await keptOrMade(kept, office, place.day);
        await addLine(place, roundLine(kept, place, line));
        location.hash = `#/kept/${place.office}/${place.day}/pay/${line.loan}`;
    }, QUIET);
}

// leads to the drafts of the round of the pack's day, and there to one about this client
function draftButton(kept, office, client, kind) {
    return button(say(`draft.${kind}`), async () => {
        await keptOrMade(kept, office, kept.businessDay);
        location.hash = `#/kept/${office.number}/${kept.businessDay}/drafts/${client}/${kind}`;
    });
}

function pairsOf(kept, line) {
    const {businessDay, until} = kept;
    return [
        [say(line.since > businessDay ? "slip.next" : "due-since"), showDay(line.since)],
        [say("pack.due", {day: showDay(businessDay)}), showMoney(dueOn(kept, line, businessDay))],
        [say("pack.due", {day: showDay(until)}), showMoney(dueOn(kept, line, until))],
        [say("left-to-pay"), showMoney(line.owed)], line.last && [say("pack.last"), showDay(line.last.day)]
    ].filter(Boolean);
}
