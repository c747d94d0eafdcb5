// A round on this phone: typed into without a network, and sent where there is one. A line that was sent can't be
// changed until its answer is known: with its receipt it is entered once, however often it is sent.
import {alertBox, button, card, element, fill, freshId, link, spinner} from "../shared/elements.js";
import {renewDay, session} from "../shared/session.js";
import {idOf, sendByItself, sendsByItself, waitingOf, whenKeptChanges, wordsOfWaiting} from "../shared/kept.js";
import {sum} from "../shared/money.js";
import {ask} from "../shared/dialogs.js";
import {refusalBox} from "../shared/refusals.js";
import {textField} from "../shared/forms.js";
import {pageHead} from "../shared/tables.js";
import {say, sayCount, showDay, showMoney} from "../shared/words.js";
import {ageOf, nameOf} from "./kept.js";
import {lock as lockPhone} from "./kept-pin.js";
import {receiptLinks} from "./kept-receipt.js";
import {changeLine, countsOf, forgetRound, isWaiting, keepTyped, readRound} from "./kept-rounds.js";
import {completeLines, isBeingSent, isSendingAnywhere, sendAsked, whenSendingChanges} from "./kept-sending.js";
import {arrangement, moreWords} from "./round.js";
import {lineTable} from "./round-lines.js";
import {askBefore} from "./round-sheet.js";
import {beginFurther} from "./round-state.js";

const LOOK_MILLISECONDS = 3000;

// The line as it is shown: what was sent and has no answer says so, whatever ended the page that sent it, unless it is
// on its way still.
function shownLine({office, day}, line, isRunning = false) {
    const isSending = line.isSent && line.result === null && (isRunning || isBeingSent({office, day}, line.loan));
    const result = line.isSent && !isSending ? line.result ?? "lost" : line.result;
    return {...line, office, day, result, isLocked: line.isSent, isSending};
}

// loan: whose line one came for, or undefined
export function showKeptRound(page, round, loan) {
    const lines = round.lines.map((line) => shownLine(round, line));
    const made = {page, round, lines, changed: new Set(), keeping: Promise.resolve(), version: 0};
    made.table = lineTable(made.lines, {
        isEarly: false,
        keep: (line) => typeLine(made, line),
        change: () => showState(made),
        further: (line) => payFurther(made, line),
        receipts: (line) => receiptLinks(round, line, () => made.keeping)
    });
    made.collector = textField({label: say("round.collector"), hint: say("round.collector.hint")});
    made.parts = {
        summary: element("div", {role: "status"}),
        trouble: element("div", {"aria-live": "assertive"}),
        propose: button(say("round.propose"), () => made.table.propose()),
        enter: button("", () => enterLines(made), {class: "btn btn-primary round-enter"}),
    };
    const way = `#/kept/${round.office}/${round.day}`;
    const quiet = {class: "btn btn-outline-secondary"};
    const actions = [
        link(`${way}/cash`, say("cash.title"), quiet), link(`${way}/drafts`, draftWords(round), quiet),
        button(say("pin.lock"), lockPhone, quiet),
        button(say("kept.remove"), () => remove(made), {class: "btn btn-outline-danger"})
    ];
    page.classList.add("page-round");
    const {summary, trouble, propose, enter} = made.parts;
    const end = element(
        "div", {class: "round-end d-print-none"}, summary, element("div", {class: "page-actions"}, propose, enter));
    const title = say("kept.round", {day: showDay(round.day)});
    fill(
        page, pageHead({title, trail: [[say("kept.title"), "#/kept"]], actions}),
        element("p", {class: "mb-1 fw-semibold"}, nameOf(round)), element("p", {class: "kept-age"}, ageOf(round)),
        undatedNote(round), senderNote(made), byItselfChoice(), arrangement(made), card(null, made.table.node), trouble,
        end);
    followOthers(made);
    showState(made);
    const meant = lines.find((line) => line.loan === loan);
    if (meant !== undefined) {
        made.table.focus(meant);
    }
}

// how many drafts wait, beside the word
function draftWords({drafts = []}) {
    const waiting = drafts.filter(isWaiting).length;
    return waiting === 0 ? say("drafts.title") : `${say("drafts.title")} (${waiting})`;
}

// what isn't counted in a round of the day pack
function undatedNote({undated}) {
    const words = () => sayCount("pack.undated", undated.count, {day: showDay(undated.until)});
    return undated?.count > 0 && alertBox("info", words());
}

// whether what waits is sent without a press
export function byItselfChoice() {
    const id = freshId("by-itself");
    const box = element("input", {
        type: "checkbox",
        id,
        class: "form-check-input mt-0",
        checked: sendsByItself(),
        onchange: () => sendByItself(box.checked)
    });
    const words = element("span", {}, say("kept.by-itself"));
    return element("label", {class: "by-itself d-print-none", "for": id}, box, words);
}

// whether there is a desk, in whose name is sent, and whether the round's day has come
function senderNote({round}) {
    if (session.staff === "") {
        const look = () => window.dispatchEvent(new Event("desk-begin"));
        const again = button(say("without.again"), look, {class: "btn btn-sm btn-outline-secondary ms-2"});
        return alertBox("info", say("kept.no-network"), again);
    }
    const isOther = round.by !== `${session.user} ${session.staff}`;
    return [
        isOther && alertBox("warning", say("kept.other", {by: round.by, user: session.user, staff: session.staff})),
        round.day > session.day && alertBox("info", say("kept.early", {day: showDay(session.day)}))
    ];
}

function readyLines({lines}) {
    return lines.filter((line) => line.cents !== null);
}

function showState(made) {
    const {lines, round, isSending, parts} = made;
    const typed = readyLines(made);
    const isThere = session.staff !== "" && round.day <= session.day;
    parts.enter.textContent = sayCount("round.enter", typed.length);
    parts.enter.disabled = typed.length === 0 || isSending || !isThere;
    parts.propose.disabled = isSending;
    fill(
        parts.summary, element("div", {class: "fw-semibold"}, say("round.sum", {
            due: showMoney(sum(lines.map((line) => line.due))),
            typed: showMoney(sum(typed.map((line) => line.cents))),
        })),
        element("div", {class: "round-more"}, moreWords(lines, typed)));
}

// Keeps a line: one writing at a time, and the next one has all that was changed meanwhile. Answers whether it is kept.
function keep(made, line) {
    made.version += 1;
    made.changed.add(line);
    made.keeping = made.keeping.then(() => keepChanged(made));
    return made.keeping;
}

async function keepChanged(made) {
    const lines = [...made.changed];
    if (lines.length === 0) {
        return true;
    }
    made.changed.clear();
    made.isWriting = true;
    try {
        await keepTyped(made.round, lines);
        return true;
    } catch (problem) {
        console.error(problem);
        lines.forEach((line) => made.changed.add(line));
        fill(made.parts.trouble, alertBox("danger", say("kept.not-kept")));
        return false;
    } finally {
        made.isWriting = false;
        made.version += 1;
        if (made.isBehind && made.changed.size === 0) {
            takeOver(made).catch(() => {});
        }
    }
}

function typeLine(made, line) {
    line.collector = line.text === "" ? "" : made.collector.input.value.trim();
    line.typed = line.text === "" ? null : line.typed ?? Date.now();
    line.touched = Date.now();
    return keep(made, line);
}

// What was changed by a sending, or in another window of this browser, is shown here. While a sending runs it is looked
// for its end too: a window that is gone tells nobody.
function followOthers(made) {
    const ends = [
        whenKeptChanges((id) => ["", idOf(made.round)].includes(id) && follow()),
        whenSendingChanges(() => follow())
    ];
    let isFollowing = false;
    let isLate = false;  // changed again while it was looked
    let looking = null;
    const follow = async () => {
        isLate = isFollowing;
        if (!made.table.node.isConnected) {
            ends.forEach((end) => end());
        } else if (!isFollowing) {
            isFollowing = true;
            await takeOver(made).catch(() => {});  // it was locked meanwhile
            isFollowing = false;
            clearTimeout(looking);
            looking = made.isSending ? setTimeout(follow, LOOK_MILLISECONDS) : null;
            return isLate && follow();
        }
    };
    follow();
}

// What was typed here while it was read is never put back by what was read: then it is read again, once that is kept.
async function takeOver(made) {
    const {version} = made;
    const [kept, isRunning] = await Promise.all([readRound(idOf(made.round)), isSendingAnywhere()]);
    const isTyped = made.isWriting || made.changed.size > 0;
    made.isBehind = isTyped || made.version !== version;
    if (made.isBehind) {
        return isTyped ? undefined : takeOver(made);
    }
    if (kept?.taken !== made.round.taken) {
        location.hash = "#/kept";
        return;
    }
    for (const line of made.lines) {
        Object.assign(line, shownLine(kept, kept.lines.find(({loan}) => loan === line.loan), isRunning));
        made.table.show(line);
    }
    made.isSending = isRunning;
    showState(made);
}

async function enterLines(made) {
    const {trouble} = made.parts;
    const lines = readyLines(made);
    fill(trouble);
    hold(made, lines, true);
    try {
        await made.keeping;
        await renewDay();
        window.dispatchEvent(new Event("desk-day"));
        fill(trouble, spinner(say("checking")));
        await completeLines(made.round, lines);
        await takeOver(made);
        hold(made, lines, true);
        const reason = await askBefore(lines);
        fill(trouble);
        const sent = reason === null ? {problem: null} : await sendAsked(made.round, lines, reason);
        fill(trouble, wordsAfter(sent));
    } catch (problem) {
        fill(trouble, refusalBox(problem));
    } finally {
        hold(made, lines, false);
        await takeOver(made).catch(() => {});
    }
}

function wordsAfter(sent) {
    if (sent === null) {
        return alertBox("info", say("kept.sends-already"));
    }
    return sent.problem?.isLost || sent.problem?.front === "password" ?
        [alertBox("warning", say("round.stopped")), refusalBox(sent.problem)] :
        [];
}

// What is about to be sent can't be typed over, nor what has no answer yet.
function hold(made, lines, isSending) {
    made.isSending = isSending;
    for (const line of lines) {
        line.isLocked = isSending || line.isSent;
        made.table.show(line);
    }
    showState(made);
}

async function payFurther(made, line) {
    await made.keeping;
    await changeLine(made.round, line.loan, (kept) => {
        const further = {...kept, touched: Date.now()};
        beginFurther(further);
        return further;
    });
    await takeOver(made);
    made.table.focus(line);
}

// What is lost is told first.
async function remove({round, lines}) {
    const waiting = waitingOf([countsOf(await readRound(idOf(round)) ?? {lines})]);
    const lost = waiting && alertBox("danger", say("pin.lost", {lost: wordsOfWaiting(waiting)}));
    const removed = await ask({
        title: say("kept.remove"),
        text: [lost, say("kept.remove.what", {day: showDay(round.day)})],
        action: say("kept.remove"),
        isGrave: true,
        send: () => forgetRound(idOf(round))
    });
    if (removed !== null) {
        location.hash = "#/kept";
    }
}
