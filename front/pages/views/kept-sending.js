// Sends what waits on this phone, one line after another: by a press, and by itself where there is a desk and the phone
// is unlocked. One sending runs at a time in a browser, whichever window began it.
import {daysBetween} from "../shared/days.js";
import {Problem} from "../shared/api.js";
import {idOf, keptRounds, sendsByItself, tellPhone, tellWindows} from "../shared/kept.js";
import {doubtsOf, OLD_DAYS} from "../shared/repayments.js";
import {note} from "../shared/dialogs.js";
import {refusalLine, Told} from "../shared/refusals.js";
import {renewDay, session} from "../shared/session.js";
import {say} from "../shared/words.js";
import {isLocked, Locked, touch} from "./kept-pin.js";
import {changeLine, readRound} from "./kept-rounds.js";
import {sendLine} from "./round-sheet.js";
import {completeLine, renewLine, settleLine} from "./round-state.js";

const LOCK = "kept sending";
const UNKNOWN = ["lost", "F20"];  // what comes of a line that may have been entered all the same
const LOOK_MILLISECONDS = 3000;
const REST_MILLISECONDS = 20_000;  // since a line was typed last, before it is sent by itself
const PAUSES = [5000, 15_000, 60_000];  // milliseconds after a loss, and the next ones
const LOOK_FOR_DESK = 15_000;

const tellers = new Set();
let now = null;  // the round that is being sent by this window, and which of its loans

// tell: is called whenever a sending begins, goes on to another line, or ends. Answers what ends it.
export function whenSendingChanges(tell) {
    tellers.add(tell);
    return () => tellers.delete(tell);
}

function tellNow(place) {
    now = place;
    tellPhone({isSending: place !== null});
    tellers.forEach((tell) => tell());
}

// whether this window is sending this line
export function isBeingSent({office, day}, loan) {
    return now !== null && now.id === idOf({office, day}) && now.loan === loan;
}

// whether a sending runs, in whatever window of this browser
export async function isSendingAnywhere() {
    return (await navigator.locks.query()).held.some(({name}) => name === LOCK);
}

// Does something that sends, unless a sending runs already. Answers what it came to, or null where one runs. Its end is
// told once another may begin.
export async function withoutOther(work) {
    let isOwn = false;
    try {
        return await navigator.locks.request(LOCK, {ifAvailable: true}, (own) => {
            isOwn = own !== null;
            return isOwn ? work() : null;
        });
    } finally {
        if (isOwn) {
            tellNow(null);
            tellWindows();
        }
    }
}

// Sends lines of a round by a press, once a person has answered what speaks against them. What was changed since stays.
// Answers { problem }: what ended it early, or null; or null where a sending runs already.
export function sendAsked(round, lines, reason) {
    return withoutOther(async () => {
        for (const {loan, cents} of lines) {
            const problem = await sendOne(round, loan, reason, (line) => line.cents === cents);
            if (endsAll(problem)) {
                return {problem};
            }
        }
        return {problem: null};
    });
}

function endsAll(problem) {
    return problem !== null && (problem.isLost || problem.front === "password");
}

// A line is marked as sent before it goes, so that no stop leaves one that was sent and looks as if it weren't.
// Answers the problem with it, or null.
async function sendOne({office, day}, loan, reason, isMeant) {
    const place = {office, day};
    const mark = (line) => (line.cents !== null && isMeant(line) ? {...line, isSent: true, result: null} : null);
    const line = await changeLine(place, loan, mark).catch(tellNotKept);
    if (!line) {
        return null;
    }
    tellNow({id: idOf(place), loan});
    const problem = await sendLine(line, reason);
    tellNow({id: idOf(place), loan: null});
    await changeLine(place, loan, (kept) => answered(kept, line.result)).catch(tellNotKept);
    if (line.result === "entered") {
        touch();
    }
    if (["repeated", "F15"].includes(line.result)) {  // what stands was entered by somebody else, or before
        await renew(place, loan).catch(() => {});
    }
    return problem;
}

// Nothing is sent that can't be marked as sent.
function tellNotKept(problem) {
    console.error(problem);
    throw problem instanceof Locked ? problem : new Told(say("kept.not-kept"), say("kept.not-kept.do"));
}

// what a line becomes once its answer is known
function answered(kept, result) {
    const line = {...kept, result, isSent: UNKNOWN.includes(result)};
    if (["entered", "repeated"].includes(result)) {
        settleLine(line);
        line.typed = null;
    }
    return line;
}

async function renew(place, loan) {
    await lookAtLine(place, loan, renewLine);
}

// look: reads what the desk has of a line's loan. What was typed meanwhile stays as it is.
async function lookAtLine(place, loan, look) {
    const round = await readRound(idOf(place));
    const line = {...round.lines.find((one) => one.loan === loan), ...place};
    await look(line);
    const {payments, known, account, owed, due, receipt, isFurther} = line;
    return changeLine(place, loan, (kept) => (kept.isSent || kept.text !== line.text ? null : {
        ...kept, payments, known, account, owed, due, receipt, isFurther
    }));
}

// Reads what the day pack didn't have of lines, before they are sent: what the round has of each loan already. What was
// entered since the pack was taken along is asked about, as of any other round.
export async function completeLines({office, day}, lines) {
    const bare = lines.filter(({account, isSent}) => account === null && !isSent);
    await Promise.all(bare.map(({loan}) => lookAtLine({office, day}, loan, completeSince).catch(tellUnlessHidden)));
}

async function completeSince(line) {
    await completeLine(line);
    line.known = {...line.known, entries: Math.min(line.known.entries, line.seen)};
}

// A loan that isn't there to be seen is told so by sending.
function tellUnlessHidden(problem) {
    if (!(problem instanceof Problem && problem.fault === "F4")) {
        throw problem;
    }
    return null;
}

// by itself

let isLooking = false;
let losses = 0;
let waitUntil = 0;  // these by the time since the page began: the clock may be set
let lookedForDesk = -LOOK_FOR_DESK;

// Where something waits the desk is looked for, also if it is sent by a press alone: without the desk there is none.
async function look() {
    if (isLooking || isLocked() || !navigator.onLine || performance.now() < waitUntil) {
        return;
    }
    isLooking = true;
    try {
        const waiting = (await keptRounds()).filter(({count}) => count > 0);
        if (waiting.length > 0 && session.staff === "") {
            lookForDesk();
        } else if (sendsByItself()) {
            await sendWaiting(waiting);
        }
    } catch (problem) {
        console.error(problem);
        putOff();
    } finally {
        isLooking = false;
    }
}

function lookForDesk() {
    if (performance.now() > lookedForDesk + LOOK_FOR_DESK) {
        lookedForDesk = performance.now();
        window.dispatchEvent(new Event("desk-look"));
    }
}

function putOff() {
    waitUntil = performance.now() + PAUSES[Math.min(losses, PAUSES.length - 1)];
    losses += 1;
}

async function sendWaiting(waiting) {
    for (const {id} of waiting) {
        const round = await readRound(id);
        const lines = round && mayBeSent(round) ? round.lines.filter(isReady) : [];
        if (lines.length > 0 && !(await isSendingAnywhere())) {
            const {problem} = (await withoutOther(() => sendUnasked(round, lines))) ?? {problem: null};
            if (endsAll(problem)) {
                putOff();
                tellSignedOut(problem);
                return;
            }
            losses = 0;
        }
    }
}

function tellSignedOut(problem) {
    if (problem.front === "password") {
        note(refusalLine(problem));
    }
}

// Whose round it is sends it by itself, once its day has come, and as long as nobody has to say why so late.
export function mayBeSent({by, day}) {
    return by === `${session.user} ${session.staff}` && day <= session.day && daysBetween(day, session.day) <= OLD_DAYS;
}

// A line that is at rest: not being typed, and not refused. One that has no answer yet is sent again.
function isReady({loan, cents, result, touched, isSent}) {
    const rested = Date.now() - (touched ?? 0);
    const isTyped = document.activeElement?.dataset.loan === loan || (rested >= 0 && rested < REST_MILLISECONDS);
    return cents !== null && (isSent || (result === null && !isTyped));
}

// the same lines, each with what the desk has of its loan
async function completed(round, lines) {
    await completeLines(round, lines);
    const kept = await readRound(idOf(round));
    return lines.map(({loan}) => kept.lines.find((line) => line.loan === loan)).filter(isReady);
}

async function sendUnasked(round, lines) {
    try {
        await renewDay();
        window.dispatchEvent(new Event("desk-day"));
        for (const line of mayBeSent(round) ? await completed(round, lines) : []) {
            const problem = await sendUnlessDoubtful(round, line);
            if (endsAll(problem)) {
                return {problem};
            }
        }
        return {problem: null};
    } catch (problem) {
        if (problem instanceof Problem) {
            return {problem};
        }
        throw problem;
    }
}

// What is to be asked once more waits for a person's press; what was sent before was asked then.
async function sendUnlessDoubtful(round, line) {
    const {loan, cents, receipt, known, isSent} = line;
    const asked = {loan, amount: cents, day: round.day, receipt};
    const doubt = isSent ? null : await doubtsOf(asked, known).catch(tellUnlessHidden);
    const isMeant = (kept) => kept.cents === cents;
    if (doubt !== null) {
        await changeLine(round, loan, (kept) => (isMeant(kept) && !kept.isSent ? {...kept, result: "doubt"} : null));
        return null;
    }
    return sendOne(round, loan, "", isMeant);
}

function goOn() {
    losses = 0;
    waitUntil = 0;
}

window.addEventListener("online", goOn);
setInterval(look, LOOK_MILLISECONDS);
