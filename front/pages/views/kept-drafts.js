// Drafts of a round: a new client, an application, a note of a visit. They are kept on this phone, and become requests
// once a person sends them.
import {alertBox, button, card, element, emptyState, fill, link} from "../shared/elements.js";
import {ask, note} from "../shared/dialogs.js";
import {choiceField, nameField, noteField} from "../shared/forms.js";
import {idOf, whenKeptChanges} from "../shared/kept.js";
import {refusalBox} from "../shared/refusals.js";
import {session} from "../shared/session.js";
import {facts, pageHead} from "../shared/tables.js";
import {newKey} from "../shared/visits.js";
import {say, showCount, showDay, showMoment, showMoney} from "../shared/words.js";
import {loanFields} from "./client.js";
import {ageOf} from "./kept.js";
import {changeDraft, sendDraft} from "./kept-draft-sending.js";
import {changeRound, isWaiting, readRound} from "./kept-rounds.js";
import {namesIn, officeIn, readPack} from "./pack-kept.js";

// client, kind: whom a draft of that kind is asked for at once, where a page of the day pack leads here
export async function showDrafts(page, round, client, kind) {
    const place = element("div", {class: "drafts"});
    const names = namesIn(officeIn(await readPack(), round.office));
    const made = {round, place, answers: new Map(), names, asked: names.has(client) ? client : null};
    const mayEnter = round.mayEnter !== false;
    const actions = [
        mayEnter && button(say("client.new"), () => newClient(made)),
        mayEnter && button(say("draft.loan"), () => newLoan(made)), button(say("draft.note"), () => newNote(made))
    ];
    const trail = [
        [say("kept.title"), "#/kept"],
        [say("kept.round", {day: showDay(round.day)}), `#/kept/${round.office}/${round.day}`]
    ];
    fill(
        page, pageHead({title: say("drafts.title"), trail, actions}), element("p", {class: "kept-age"}, ageOf(round)),
        element("p", {}, say("drafts.what")), place);
    const end = whenKeptChanges(() => (place.isConnected ? renew(made).catch(() => {}) : end()));
    show(made);
    if (made.asked !== null && kind === "note") {
        newNote(made);
    } else if (made.asked !== null && mayEnter) {
        newLoan(made);
    }
}

async function renew(made) {
    made.round = await readRound(idOf(made.round)) ?? made.round;
    show(made);
}

function show(made) {
    const drafts = made.round.drafts ?? [];
    const cards = [...drafts].reverse().map((draft) => draftCard(made, draft));
    fill(made.place, cards.length === 0 ? card(null, emptyState(say("drafts.none"))) : cards);
}

// clients

// Whom a draft may be about: the clients of the round, those that are drafts themselves, and who is asked for.
function clientChoices({round, names, asked}) {
    const ofRound = round.lines.filter(({client}) => client).map(({client, name}) => [client, name]);
    const known = [...ofRound, ...(asked === null ? [] : [[asked, names.get(asked)]])];
    const listed = known.map(([client, name]) => [client, `${name} · ${client}`]);
    const fresh = (round.drafts ?? []).filter(({kind}) => kind === "client").map(({id, name}) => [id, name]);
    return [...new Map([...fresh, ...listed])].sort(([, one], [, other]) => one.localeCompare(other));
}

function clientWords({round, names}, client) {
    const name = round.lines.find((one) => one.client === client)?.name ?? names.get(client);
    const draft = (round.drafts ?? []).find(({id}) => id === client);
    return name ? `${name} · ${client}` : draft?.name ?? (client === "none" ? "–" : client);
}

const NOTED = ["entered", "repeated"];  // what became of a note that is on its client's page

function asTyped(words) {
    return element("div", {class: "as-typed"}, words);
}

// The notes of a round: of which client, their words, and what became of each that is to be sent. names: of the day
// pack's clients.
export function notesOf(round, names) {
    const notes = (round.drafts ?? []).filter(({kind}) => kind === "note");
    const told = (draft) => !isStaying(draft) && element("div", {class: "note-told"}, noteWords(draft));
    return notes.map((draft) => [clientWords({round, names}, draft.client), asTyped(draft.words), told(draft)]);
}

// whether a note stays on this phone: it is of no client, or the front has no place for it
function isStaying({client, visit}) {
    return client === "none" || visit === "stays";
}

function noteWords(draft) {
    if (isStaying(draft)) {
        return say("draft.stays");
    }
    const unsure = draft.isSent ? "visits.unknown" : "draft.waits";
    return say(NOTED.includes(draft.visit) ? `visits.${draft.visit}` : unsure);
}

// making them

async function add(made, draft) {
    const fresh = {id: crypto.randomUUID(), made: Date.now(), account: null, isSent: false, ...draft};
    await changeRound(made.round, (kept) => ({drafts: [...(kept.drafts ?? []), fresh]}));
}

function newClient(made) {
    const text = say("draft.client.what", {office: `${made.round.office} ${made.round.officeName}`});
    return ask({
        title: say("client.new"), text, action: say("draft.keep"), fields: {name: nameField({label: say("name")})},
        send: ({name}) => add(made, {kind: "client", name})
    });
}

async function newLoan(made) {
    const choices = clientChoices(made);
    if ((made.round.products ?? []).length === 0 || choices.length === 0) {
        note(say("draft.no-product"));
        return;
    }
    const client = choiceField({label: say("client"), choices, value: made.asked, wide: true});
    const fields = {client, ...loanFields(made.round.products)};
    await ask({
        title: say("draft.loan"), text: say("draft.loan.what"), action: say("draft.keep"), fields,
        send: ({product, ...values}) => add(made, {kind: "loan", ...values, product: Number(product)})
    });
}

function newNote(made) {
    const choices = [["none", "–"], ...clientChoices(made)];
    const fields = {
        client: choiceField({label: say("client"), choices, value: made.asked ?? "none", wide: true}),
        words: noteField({label: say("draft.words")})
    };
    return ask({
        title: say("draft.note"), text: say("draft.note.what"), action: say("draft.keep"), fields,
        send: ({client, words}) => add(made, {kind: "note", client, words, key: newKey(), visit: null})
    });
}

// showing them

function titleOf({kind}) {
    return say(kind === "client" ? "client.new" : `draft.${kind}`);
}

function pairsOf(made, draft) {
    const product = (made.round.products ?? []).find((one) => one.product === draft.product);
    const pairs = {
        client: () => [[say("name"), draft.name]],
        loan: () => [
            [say("client"), clientWords(made, draft.client)],
            [say("product"), `${draft.product} ${product?.name ?? ""}`], [say("principal"), showMoney(draft.principal)],
            [say("periods"), showCount(draft.periods)]
        ],
        note: () => [[say("client"), clientWords(made, draft.client)], [say("draft.words"), asTyped(draft.words)]]
    };
    return [...pairs[draft.kind](), [say("draft.made"), showMoment(draft.made)]];
}

function draftCard(made, draft) {
    const answer = element("div", {"aria-live": "polite"}, made.answers.get(draft.id) ?? []);
    const actions = [
        maySend(draft) && button(say("draft.send"), () => send(made, draft.id), {
            class: "btn btn-primary", disabled: session.staff === "" || made.isSending
        }),
        draft.kind === "note" && navigator.share && button(say("slip.share"), () => share(made, draft)),
        button(say("round.drop"), () => drop(made, draft), {class: "btn btn-outline-danger", disabled: made.isSending})
    ];
    const node = card(
        titleOf(draft), facts(pairsOf(made, draft)),
        element("p", {class: "fw-semibold mb-2"}, stateOf(made, draft)), answer,
        element("div", {class: "page-actions"}, actions));
    node.classList.add("mb-3", "draft");
    return node;
}

// A note that the front had no place for may be sent once more: the front may be another one by then.
function maySend(draft) {
    return isWaiting(draft) || (draft.client !== "none" && draft.visit === "stays");
}

function noteState({round}, draft) {
    const account = (round.drafts ?? []).find(({id}) => id === draft.client)?.account ?? draft.client;
    const words = noteWords(draft);
    return NOTED.includes(draft.visit) ? link(`#/client/${account}`, words) : words;
}

// what became of a draft
function stateOf(made, draft) {
    const {kind, account, isSent} = draft;
    if (kind === "note") {
        return noteState(made, draft);
    }
    if (account !== null) {
        const [key, place] = kind === "client" ? ["client.entered", "client"] : ["loan.submitted", "loan"];
        return link(`#/${place}/${account}`, say(key, {[place]: account}));
    }
    return say(isSent ? "draft.unknown" : "draft.waits");
}

function share(made, draft) {
    const text = pairsOf(made, draft).map(([words, value]) => `${words}: ${value.textContent ?? value}`);
    navigator.share({title: titleOf(draft), text: text.join("\n")}).catch(() => {});
}

async function drop(made, draft) {
    await ask({
        title: say("round.drop"), text: [say("draft.drop.what"), facts(pairsOf(made, draft))],
        action: say("round.drop"), isGrave: true,
        send: () => changeRound(
            made.round, (kept) => ({drafts: kept.drafts.filter(({id}) => id !== draft.id)}))
    });
}

// sending them

// isSure: whether a person said that it is another one than those that stand
async function send(made, id, isSure = false) {
    made.isSending = true;
    made.answers.delete(id);
    show(made);
    try {
        const told = await sendDraft(made.round, id, isSure);
        const isBusy = told === null;
        made.answers.set(id, isBusy ? alertBox("info", say("kept.sends-already")) : alikeBox(made, id, told.alike));
    } catch (problem) {
        made.answers.set(id, refusalBox(problem));
    } finally {
        made.isSending = false;
        await renew(made);
    }
}

// What stands already and is alike: it may be the same, or another one.
function alikeBox(made, id, alike) {
    if (alike.length === 0) {
        return null;
    }
    const isSame = async (account) => {
        made.answers.delete(id);
        await changeDraft(made.round, id, () => ({account}));
    };
    const lines = alike.map(({account, words}) => element(
        "div", {class: "page-actions mb-2 align-items-center"}, element("span", {}, words),
        button(say("draft.same"), () => isSame(account), {class: "btn btn-outline-primary"})));
    const sure = button(say("draft.sure"), () => send(made, id, true), {class: "btn btn-danger"});
    return alertBox("warning", element("p", {class: "fw-semibold"}, say("draft.alike")), lines, sure);
}
