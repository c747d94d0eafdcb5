// A draft becomes a request. The desk gives clients and loans no receipt, so what was sent and has no answer is looked
// for before it is sent again, and not sent again while it may still be on its way. A note of a visit has a key.
import {Problem} from "../shared/api.js";
import {accountOf, clientsOf, loan as readLoan, loansOfClient} from "../shared/desk.js";
import {findClients, hasLists, loansOfListed} from "../shared/lists.js";
import {idOf} from "../shared/kept.js";
import {Told} from "../shared/refusals.js";
import {newKey, noteVisit} from "../shared/visits.js";
import {plain, say, showMoment, showMoney} from "../shared/words.js";
import {loanWriting} from "./client.js";
import {clientWriting} from "./clients.js";
import {changeRound, readRound} from "./kept-rounds.js";
import {withoutOther} from "./kept-sending.js";

const ON_ITS_WAY = 150_000;  // milliseconds: the front waits 60 s for a place in the queue, and 60 s for the answer
const OPEN = [100, 200, 300];  // the statuses of a loan that is asked for or runs

export async function changeDraft(round, id, change) {
    const changed = (draft) => (draft.id === id ? {...draft, ...change(draft)} : draft);
    await changeRound(round, (kept) => ({drafts: kept.drafts.map(changed)}));
}

// Sends a draft unless something alike stands. isSure: also then. Answers { alike }: what stands, where it was not
// sent; or null where a sending runs already. It throws what it was refused by.
export function sendDraft(round, id, isSure) {
    return withoutOther(async () => {
        const kept = await readRound(idOf(round));
        const draft = kept.drafts.find((one) => one.id === id);
        if (draft.kind === "note") {
            await sendNote(kept, draft);
            return {alike: []};
        }
        const asked = askedOf(kept, draft);
        const writing = draft.kind === "client" ? clientWriting(kept.office, asked.name) : loanWriting(asked);
        if (draft.isSent && await isFound(kept, draft, writing)) {
            return {alike: []};
        }
        const alike = isSure ? [] : await alikeOf(kept.office, draft.kind, asked);
        if (alike.length === 0) {
            await sendNow(kept, id, writing);
        }
        return {alike};
    });
}

// Of which client a draft is. That may be a draft too, which has to be entered first.
function clientOf(round, draft) {
    const drafted = round.drafts.find(({id}) => id === draft.client);
    if (drafted && drafted.account === null) {
        throw new Told(say("draft.client-first"), say("draft.client-first.do", {client: drafted.name}));
    }
    return drafted?.account ?? draft.client;
}

// what is asked of the desk
function askedOf(round, draft) {
    if (draft.kind === "client") {
        return {name: draft.name};
    }
    const {product, principal, periods} = draft;
    return {client: clientOf(round, draft), product, principal, periods};
}

// Sends a note, which is marked as sent first, with its key. Where the front has no place for it, it stays here.
async function sendNote(round, draft) {
    const client = clientOf(round, draft);
    const key = draft.key ?? newKey();  // older pages gave it none
    await changeDraft(round, draft.id, () => ({key, isSent: true}));
    try {
        const visit = await noteVisit(client, {key, day: round.day, text: draft.words});
        await changeDraft(round, draft.id, () => ({visit: visit ?? "stays", isSent: visit !== null}));
    } catch (problem) {
        if (problem instanceof Problem && !problem.isLost) {
            await changeDraft(round, draft.id, () => ({isSent: draft.isSent}));
        }
        throw problem;
    }
}

function accountIn(body) {
    return body.loan ?? body.client;
}

// Looks for what was sent before. Where it isn't there it may be sent again, once it can't be on its way any more.
async function isFound(round, {id, seen, sentAt}, writing) {
    const found = await writing.find(seen);
    if (found !== null) {
        await changeDraft(round, id, () => ({account: accountIn(found)}));
        return true;
    }
    const again = sentAt + ON_ITS_WAY;
    if (Date.now() < again && Date.now() >= sentAt) {
        throw new Told(say("draft.on-its-way"), say("draft.on-its-way.do", {time: showMoment(again)}));
    }
    return false;
}

async function sendNow(round, id, writing) {
    const seen = await writing.before();
    await changeDraft(round, id, () => ({isSent: true, seen, sentAt: Date.now()}));
    let body = null;
    try {
        body = await writing.send();
    } catch (problem) {
        if (!(problem instanceof Problem) || !problem.isLost) {
            await changeDraft(round, id, () => ({isSent: false}));
            throw problem;
        }
        const sent = {id, seen, sentAt: Date.now()};
        await isFound(round, sent, writing);
        return;
    }
    await changeDraft(round, id, () => ({account: accountIn(body)}));
}

async function clientsLike(office, name) {
    if (await hasLists()) {
        return findClients(office, name);
    }
    return (await clientsOf(office)).map((one, i) => ({name: one, client: accountOf(office, i + 1)}));
}

// the loans of a client that are asked for or run
async function loansIn(client) {
    const isOpen = ({status}) => OPEN.includes(status);
    if (await hasLists()) {
        return (await loansOfListed(client)).filter(isOpen);
    }
    return Promise.all((await loansOfClient(client)).filter(isOpen).map(({loan}) => readLoan(loan)));
}

// what stands and is alike: clients of that name in that office; loans of that sum and client that are asked for or run
async function alikeOf(office, kind, asked) {
    if (kind === "client") {
        return (await clientsLike(office, asked.name))
            .filter(({name}) => plain(name).trim() === plain(asked.name).trim())
            .map(({name, client}) => ({account: client, words: `${client} ${name}`}));
    }
    return (await loansIn(asked.client)).filter(({principal}) => BigInt(principal) === BigInt(asked.principal))
        .map(({loan, principal, status}) => ({
                 account: loan, words: `${loan} · ${showMoney(principal)} · ${say(`status.${status}`)}`
             }));
}
