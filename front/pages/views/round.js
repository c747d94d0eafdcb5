// A round of collections: what is due in an office by a day, loan by loan, and the repayments of the round.
import {alertBox, button, card, element, emptyState, fill, freshId, link, spinner} from "../shared/elements.js";
import {renewDay, session} from "../shared/session.js";
import {asTree, offices} from "../shared/desk.js";
import {isDay} from "../shared/days.js";
import {sum} from "../shared/money.js";
import {draftsOf, endDraft, keepDraft, NO_DRAFT, throwAway, whenDraftsChange} from "../shared/drafts.js";
import {idOf, keptRounds} from "../shared/kept.js";
import {say, sayCount, showCount, showDay, showMoney} from "../shared/words.js";
import {officeChoice, pageHead} from "../shared/tables.js";
import {choiceField, dayField, textField} from "../shared/forms.js";
import {ask} from "../shared/dialogs.js";
import {refusalBox} from "../shared/refusals.js";
import {lineTable, sumsByCollector} from "./round-lines.js";
import {lookAt, readOthers, readRound} from "./round-reading.js";
import {nextReceipt} from "./round-receipts.js";
import {askBefore, saveSheet, sendLines, sheetCard, tally} from "./round-sheet.js";
import {beginFurther, completeLine, renewLine, settleLine} from "./round-state.js";
import {canSeal} from "./kept-pin.js";
import {takeAlong} from "./kept-taking.js";

export async function round(page, officeText, dayText) {
    const [list] = await Promise.all([offices(), renewDay()]);
    window.dispatchEvent(new Event("desk-day"));
    const office = Number(officeText ?? session.office);
    const day = isDay(dayText ?? "") ? dayText : session.day;
    const go = (otherOffice, otherDay) => {
        location.hash = `#/round/${otherOffice}/${otherDay}`;
    };
    const choice =
        officeChoice({tree: asTree(list), value: office, label: say("office"), onchange: (other) => go(other, day)});
    const dayChoice = dayField({label: say("round.day"), value: day, hint: ""});
    dayChoice.node.className = "";
    dayChoice.input.addEventListener("change", () => isDay(dayChoice.input.value) && go(office, dayChoice.input.value));
    const place = element("div", {}, spinner(say("round.looking")));
    const actions = element("div", {class: "page-actions d-print-none"});
    const named = list.find((one) => one.number === office);
    fill(
        page, pageHead({title: say("round.title"), actions}),
        element("p", {class: "d-none d-print-block"}, `${office} ${named?.name ?? ""} · ${showDay(day)}`),
        element("div", {class: "filters d-print-none"}, choice, dayChoice.node), place,
        element("div", {class: "mt-3 d-print-none"}, sheetCard()));
    const names = {office, officeName: named?.name ?? "", day};
    const made = {place, actions, ...names, isEarly: day > session.day, ...(await readRound(office, day))};
    showRound(made);
    await noteKept(made);
    await addOthers(made);
}

// A round that is on this phone too is told of: what was typed there is entered from there.
async function noteKept({place, office, day}) {
    const id = idOf({office, day});
    const kept = await keptRounds().catch(() => []);
    if (kept.some((record) => record.id === id)) {
        const small = {class: "btn btn-sm btn-outline-secondary ms-2"};
        const way = link(`#/kept/${office}/${day}`, say("kept.title"), small);
        place.before(alertBox("info", say("kept.here"), way));
    }
}

// What was typed in another tab is shown in this one as long as the page is there.
function followDrafts(made) {
    const end = whenDraftsChange((changed) => {
        if (!made.place.isConnected) {
            end();
        } else if (changed === null || (changed.office === made.office && changed.day === made.day)) {
            takeDrafts(made, changed?.loan);
        }
    });
}

function takeDrafts(made, loan) {
    const drafts = draftsOf(made.office, made.day);
    const isMeant = (line) => (loan === undefined || line.loan === loan) && !line.isWriting && !line.isLocked;
    for (const line of made.lines.filter(isMeant)) {
        const draft = drafts.get(line.loan);
        const isGone = draft === undefined && line.text !== "";
        Object.assign(line, draft ?? NO_DRAFT, {receipt: draft?.receipt ?? nextReceipt(line, line.payments)});
        made.table.show(line);
        if (isGone) {  // entered or thrown away in another tab
            renew(made, line).catch(() => {});
        }
    }
    showState(made);
}

// A line that is about to be typed into shows what this round has of it already.
async function begin(made, line) {
    if (line.account === null) {
        await completeLine(line);
        made.table.show(line);
        showState(made);
    }
}

async function renew(made, line) {
    await renewLine(line);
    made.table.show(line);
    showState(made);
}

// Keeps a line in the browser. This tab isn't told of what it wrote itself.
function keep(made, line) {
    line.isWriting = true;
    try {
        keepDraft(line, line);
    } catch {
        fill(made.parts.trouble, alertBox("danger", say("round.not-kept")));
    } finally {
        line.isWriting = false;
    }
}

function keepTyped(made, line) {
    line.collector = line.text === "" ? "" : made.collector.input.value.trim();
    keep(made, line);
}

function showRound(made) {
    const {place, actions, lines, office, day, isEarly} = made;
    if (lines.length === 0) {
        fill(actions);
        fill(place, card(null, emptyState(say("round.none"))), smallNote(made));
        return;
    }
    made.table = lineTable(lines, {
        isEarly,
        keep: (line) => keepTyped(made, line),
        change: () => showState(made),
        begin: (line) => begin(made, line),
        further: (line) => payFurther(made, line)
    });
    made.collector = textField({label: say("round.collector"), hint: say("round.collector.hint")});
    const quiet = {class: "btn btn-outline-secondary"};
    made.parts = {
        summary: element("div", {role: "status"}),
        trouble: element("div", {"aria-live": "assertive"}),
        propose: button(say("round.propose"), () => made.table.propose(), {disabled: isEarly}),
        enter: button("", () => enterLines(made, readyLines(made)), {class: "btn btn-primary round-enter"}),
        drop: button(say("round.drop"), () => dropAll(made), {class: "btn btn-outline-danger"}),
    };
    fill(
        actions, button(say("print"), () => window.print(), quiet),
        button(say("round.save"), () => saveSheet(lines, `${office}-${day}`), quiet),
        canSeal() && button(say("kept.take"), () => made.isSending || takeCompleted(made), quiet),
        canSeal() && link("#/pack", say("pack.title"), quiet));
    const {summary, trouble, propose, enter, drop} = made.parts;
    fill(
        place, isEarly && alertBox("info", say("round.early", {day: showDay(session.day)})), arrangement(made),
        card(null, made.table.node), smallNote(made), trouble,
        element(
            "div", {class: "round-end d-print-none"}, summary,
            element("div", {class: "page-actions"}, drop, propose, enter)));
    followDrafts(made);
    showState(made);
}

async function takeCompleted(made) {
    await Promise.all(made.lines.map(completeLine));
    await takeAlong(made);
}

function smallNote({small}) {
    return small > 0 && element("p", {class: "text-muted mt-2 mb-0"}, sayCount("round.small", small));
}

// what is looked for, in which order, and who collected
export function arrangement(made) {
    const id = freshId("find");
    const search = element("input", {class: "form-control", type: "search", id, autocomplete: "off"});
    const order = choiceField({
        label: say("round.order"),
        choices: ["loan", "name", "overdue"].map((name) => [name, say(`order.${name}`)]),
        onchange: () => made.arrange()
    });
    made.arrange = () => made.table.arrange(order.input.value, search.value);
    search.addEventListener("input", made.arrange);
    order.node.className = "";
    made.collector.node.className = "";
    const find = element("div", {}, element("label", {class: "form-label", "for": id}, say("round.find")), search);
    return element("div", {class: "filters d-print-none"}, find, order.node, made.isEarly ? null : made.collector.node);
}

// What this round has of loans that are no longer due is looked for once its lines are shown, which stay where that
// fails.
async function addOthers(made) {
    const found = (line) => {
        made.lines.push(line);
        if (made.table === undefined) {
            showRound(made);
        } else {
            made.table.add(line);
            showState(made);
        }
    };
    try {
        offerClosed(made, await readOthers(made, found), found);
    } catch (problem) {
        if (made.table === undefined) {
            throw problem;
        }
        fill(made.parts.trouble, refusalBox(problem));
    }
}

// Many closed loans are looked at where somebody asks for it.
function offerClosed(made, others, found) {
    if (others.length > 0) {
        const look = button(say("round.closed", {count: showCount(others.length)}), () => {
            look.disabled = true;
            return lookAt({...made, others}, found).then(() => look.remove());
        }, {class: "btn btn-sm btn-outline-secondary mt-2 d-print-none"});
        made.place.append(look);
    }
}

function readyLines({lines}) {
    return lines.filter((line) => line.cents !== null);
}

// Sends lines once what speaks against them was asked. Each is kept in the browser until it is entered.
async function enterLines(made, lines) {
    const {trouble} = made.parts;
    fill(trouble);
    lock(made, lines, true);
    let problem = null;
    try {
        await Promise.all(lines.map(completeLine));
        const reason = await askBefore(lines);
        problem = reason === null ? null : await sendLines(lines, reason, (line) => tell(made, line));
    } finally {
        lock(made, lines, false);
    }
    fill(trouble, problem && alertBox("warning", say("round.stopped")));
}

// What is about to be sent can't be typed over.
function lock(made, lines, isSending) {
    made.isSending = isSending;
    for (const line of lines) {
        line.isLocked = isSending;
        made.table.show(line);
    }
    showState(made);
}

function tell(made, line) {
    if (["entered", "repeated"].includes(line.result)) {
        settle(line);
    } else {
        keep(made, line);
    }
    if (["repeated", "F15"].includes(line.result ?? line.results[line.receipt])) {
        renew(made, line).catch(() => {});  // what stands was entered by somebody else, or before
    }
    made.table.show(line);
    showState(made);
}

// What was entered is no draft any more.
function settle(line) {
    settleLine(line);
    line.isWriting = true;
    endDraft(line);
    line.isWriting = false;
}

// An amount that was refused since another stands is sent at once.
async function payFurther(made, line) {
    beginFurther(line);
    if (line.cents === null) {
        made.table.show(line);
        made.table.focus(line);
    } else {
        keep(made, line);
        await enterLines(made, [line]);
    }
}

function showState(made) {
    const {lines, isEarly, isSending, parts} = made;
    const {enter, propose, summary, drop} = parts;
    const typed = readyLines(made);
    const isTyped = lines.some((line) => line.text !== "");
    enter.textContent = sayCount("round.enter", typed.length);
    enter.disabled = typed.length === 0 || isEarly || isSending;
    propose.disabled = isEarly || isSending;
    drop.hidden = !isTyped;
    drop.disabled = isSending;
    fill(
        summary, element("div", {class: "fw-semibold"}, say("round.sum", {
            due: showMoney(sum(lines.map((line) => line.due))),
            typed: showMoney(sum(typed.map((line) => line.cents))),
        })),
        element("div", {class: "round-more"}, moreWords(lines, typed)));
}

// what stands of the round, what came of sending, and who collected how much of what is typed
export function moreWords(lines, typed) {
    const standing = lines.flatMap(({payments}) => payments.filter(({reversed}) => !reversed));
    const amount = showMoney(sum(standing.map((one) => one.amount)));
    return [
        standing.length > 0 && sayCount("round.standing", standing.length, {amount}),
        tally(lines.flatMap(({results, result}) => [...Object.values(results), result])),
        ...sumsByCollector(typed).map(([name, cents]) => `${name} ${showMoney(cents)}`)
    ].filter(Boolean).join(" · ");
}

// Throws away what was typed and not entered, once a person says so.
async function dropAll(made) {
    const typed = made.lines.filter((line) => line.text !== "");
    await ask({
        title: say("round.drop"),
        text: sayCount("round.drop.what", typed.length, {
            amount: showMoney(sum(typed.map(({cents}) => cents ?? 0n))),
            day: showDay(made.day)
        }),
        action: say("round.drop"),
        isGrave: true,
        send: async () => throwAway(made.office, made.day)
    });
}
