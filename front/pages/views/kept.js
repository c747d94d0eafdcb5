// What is kept on this phone: the rounds that were taken along, and each of them.
import {button, card, element, emptyState, fill, link} from "../shared/elements.js";
import {idOf, keptRounds, waitingOf, whenKeptChanges, wordsOfWaiting} from "../shared/kept.js";
import {showRefusal} from "../shared/refusals.js";
import {say, sayCount, showAge, showDay, showMoment} from "../shared/words.js";
import {pageHead} from "../shared/tables.js";
import {askNewPin, showLocked} from "./kept-asking.js";
import {showCash} from "./kept-cash.js";
import {showDrafts} from "./kept-drafts.js";
import {isLocked, lock, Locked, whenLocked} from "./kept-pin.js";
import {readRound, readRounds} from "./kept-rounds.js";
import {showReceipt} from "./kept-receipt.js";
import {byItselfChoice, showKeptRound} from "./kept-round.js";

// what is shown of a round, by a word of the address: #/kept/2/2024-03-31/cash
const PARTS = {receipt: showReceipt, cash: showCash, drafts: showDrafts};

export async function kept(page, office, day, name, ...rest) {
    const part = Object.hasOwn(PARTS, name) ? PARTS[name] : showKeptRound;
    const show = async () => {
        try {
            await showKept(page, idOf({office, day}), show, (round) => part(page, round, ...rest));
        } catch (problem) {
            if (!(problem instanceof Locked)) {
                showRefusal(page, problem, show);
            }
        }
    };
    const end = whenLocked(() => (page.isConnected ? show() : end()));
    await show();
}

async function showKept(page, id, show, showRound) {
    const records = await keptRounds();
    if (records.length === 0) {
        const head = pageHead({title: say("kept.title"), actions: [packLink()]});
        fill(page, head, card(null, emptyState(say("kept.none"))));
    } else if (isLocked()) {
        showLocked(page, records, show);
    } else if (records.some((record) => record.id === id)) {
        page.classList.remove("page-round");
        await showRound(await readRound(id));
    } else {
        await showList(page, show);
    }
}

async function showList(page, show) {
    const rounds = await readRounds();
    const quiet = {class: "btn btn-outline-secondary"};
    const actions = [packLink(), button(say("pin.change"), askNewPin, quiet), button(say("pin.lock"), lock, quiet)];
    fill(page, pageHead({title: say("kept.title"), actions}), byItselfChoice(), rounds.map(roundCard));
    const end = whenKeptChanges(() => {
        end();
        return page.isConnected && page.querySelector(".kept-list") !== null && show();
    });
}

function packLink() {
    return link("#/pack", say("pack.title"), {class: "btn btn-outline-primary"});
}

function roundCard(round) {
    const waiting = waitingOf([round]);
    const title = link(`#/kept/${round.office}/${round.day}`, say("kept.round", {day: showDay(round.day)}));
    return element(
        "div", {class: "kept-list mb-3"},
        card(
            null, element("h2", {class: "h6"}, title, ` · ${nameOf(round)}`),
            element("p", {class: "mb-1"}, ageOf(round)),
            element("p", {class: "mb-0 fw-semibold"}, waiting ? wordsOfWaiting(waiting) : say("kept.all-sent"))));
}

export function nameOf({office, officeName, lines}) {
    return `${office} ${officeName} · ${sayCount("kept.lines", lines.length)}`;
}

// when it was taken along, by the clock of this phone, and on which business day
export function ageOf({taken, businessDay}) {
    return say("kept.age", {time: showMoment(taken), age: showAge(taken), day: showDay(businessDay)});
}
