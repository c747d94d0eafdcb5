// Today: the business day, the offices with their loans and arrears, and what waits for a decision.
import {alertBox, button, card, element, emptyState, fill, link, spinner} from "../shared/elements.js";
import {change, read} from "../shared/api.js";
import {HEAD_OFFICE, may, renewDay, session} from "../shared/session.js";
import {asTree, loansOf, offices} from "../shared/desk.js";
import {hasLists, ofStatus} from "../shared/lists.js";
import {centsOfText} from "../shared/money.js";
import {daysBetween, LAST_DAY, dayOfNumber, numberOfDay} from "../shared/days.js";
import {say, showCount, showDay, showMoney, showPercent} from "../shared/words.js";
import {figure, figures, pageHead, row, table} from "../shared/tables.js";
import {ask, note} from "../shared/dialogs.js";
import {unsentLines} from "../shared/drafts.js";
import {dayField} from "../shared/forms.js";
import {Writing} from "../shared/writing.js";
import {showRefusal} from "../shared/refusals.js";
import {barsOf, classBars, CLASSES} from "../shared/graphs.js";

const SOON = 7;
const FAR = 31;

export async function today(page) {
    const [report] = await Promise.all([read("/reports/arrears"), renewDay()]);
    const known = await offices();
    const list = known.length === report.offices.length ? known : await offices(true);  // one was opened since
    window.dispatchEvent(new Event("desk-day"));
    const tree = asTree(list);
    const actions = [
        link("#/takings", say("takings.title"), {class: "btn btn-outline-primary"}),
        may(HEAD_OFFICE) && button(say("day.move"), () => moveDay(page), {class: "btn btn-primary"})
    ];
    const waits = element("div", {}, spinner(say("today.looking")));
    fill(
        page, pageHead({title: say("today.title", {day: showDay(session.day)}), actions}), sums(report.all),
        element(
            "div", {class: "row g-3"},
            element("div", {class: "col-12 col-lg-7 order-lg-2"}, card(say("today.bars"), bars(tree, report))),
            element("div", {class: "col-12 col-lg-5"}, card(say("today.waits"), waits))),
        element("div", {class: "mt-3"}, card(say("today.offices"), officeTable(tree, report))));
    showWaiting(waits, list, report).catch((problem) => showRefusal(waits, problem, () => today(page)));
}

function sums(all) {
    const atRisk = centsOfText(all.par30);
    return figures(
        figure(say("loans.active"), showCount(all.loans)),
        figure(say("outstanding.principal"), showMoney(centsOfText(all.outstanding))),
        figure(say("par30"), showPercent(atRisk), {isAlarming: atRisk >= 1000n, more: say("par30.what")}),
        figure(say("overdue.sum"), showMoney(overdueOf(all))));
}

// of no line, as of an office that was opened since, nothing is overdue
function overdueOf(line) {
    return CLASSES.reduce((all, name) => all + centsOfText(line?.[name] ?? "0"), 0n);
}

function bars(tree, report) {
    const made = barsOf(tree, report);
    return made.length === 0 ? emptyState(say("today.no-loans")) : classBars(made, say("today.bars"));
}

function officeTable(tree, report) {
    const lines = new Map(report.offices.map((line) => [line.office, line]));
    const rows = tree.map((office) => {
        const line = lines.get(office.number);
        const name = element(
            "span", {class: `level-${office.depth}`},
            link(`#/loans/${office.number}`, `${office.number} ${office.name}`));
        return row([
            {head: name}, {number: showCount(line?.loans ?? 0)},
            {number: showMoney(centsOfText(line?.outstanding ?? "0.00"))}, {number: showMoney(overdueOf(line))},
            {number: showPercent(centsOfText(line?.par30 ?? "0.00"))}
        ]);
    });
    const columns = [
        {words: say("office")}, {words: say("loans.active"), kind: "number"},
        {words: say("outstanding.principal"), kind: "number"}, {words: say("overdue.sum"), kind: "number"},
        {words: say("par30"), kind: "number"}
    ];
    return table({caption: say("today.offices"), columns, rows}).node;
}

const WAITING = [100, 200, 700];
const MANY = 300;  // active loans, from which on three lists are fewer requests than a hundred loans by each

// which loans wait, office by office
async function loansToLookAt(office, report, isListed) {
    const active = report.offices.find((line) => line.office === office.number)?.loans ?? 0;
    if (!isListed || active < MANY) {
        return loansOf(office.number);
    }
    const ofEach = async (status) => (await ofStatus(office.number, status)).map(({loan}) => ({loan, status}));
    return (await Promise.all(WAITING.map(ofEach))).flat();
}

async function showWaiting(place, list, report) {
    const isListed = await hasLists();
    const loansIn = async (office) => ({office, loans: await loansToLookAt(office, report, isListed)});
    const found = await Promise.all(list.map(loansIn));
    const waiting = (status) =>
        found.map(({office, loans}) => ({office, count: loans.filter((loan) => loan.status === status).length}))
            .filter(({count}) => count > 0);
    fill(
        place, waitingList(say("today.to-approve"), waiting(100), 100),
        waitingList(say("today.to-pay-out"), waiting(200), 200),
        waitingList(say("today.to-refund"), waiting(700), 700));
}

function waitingList(words, offices, status) {
    const all = offices.reduce((sum, {count}) => sum + count, 0);
    const items = offices.map(
        ({office, count}) => element(
            "li", {}, link(`#/loans/${office.number}/${status}`, `${office.number} ${office.name}`),
            ` (${showCount(count)})`));
    const heading = element("h3", {class: "h6 mb-1"}, `${words}: `, element("span", {class: "amount"}, showCount(all)));
    return element("div", {class: "waiting"}, heading, all > 0 && element("ul", {class: "waiting-offices"}, items));
}

// Asks for the new business day. Past a week it is asked again, past a month the day has to be typed a second time.
async function moveDay(page) {
    const next = dayOfNumber(numberOfDay(session.day) + 1);
    const fields = {day: dayField({label: say("day.new"), value: next, least: next, most: LAST_DAY})};
    const chosen = await ask({
        title: say("day.move"),
        text: [unsentWarning(await offices()), say("day.now", {day: showDay(session.day)}), say("day.what")],
        fields,
        action: say("day.move"),
        send: async ({day}) => (daysBetween(session.day, day) > SOON ? {day} : {...(await setDay(day)), day}),
    });
    if (chosen === null) {
        return;
    }
    const moved = chosen.isSet ? chosen : await askAgain(chosen.day);
    if (moved !== null) {
        note(say("day.moved", {day: showDay(moved.day)}));
        await today(page);
    }
}

// What was typed into rounds in this browser and not sent is told before the day moves on.
function unsentWarning(list) {
    const lines = unsentLines(list);
    const items = lines.map(({words}) => element("li", {}, words));
    return lines.length > 0 && alertBox("warning", say("day.unsent"), element("ul", {class: "mb-0"}, items));
}

function askAgain(day) {
    const days = daysBetween(session.day, day);
    const isFar = days > FAR;
    const warning = alertBox("warning", say("day.far", {count: showCount(days), day: showDay(day)}));
    const typed = dayField({label: say("day.again"), hint: say("day.again.hint")});
    const same = {...typed, read: () => sameDay(typed, day)};
    return ask({
        title: say("day.sure"),
        text: [warning, say("day.back")],
        fields: isFar ? {again: same} : {},
        action: say("day.move"),
        isGrave: true,
        send: async () => ({...(await setDay(day)), day}),
    });
}

function sameDay(typed, day) {
    const judged = typed.read();
    if (judged.wrong === undefined && judged.value !== day) {
        const wrong = say("day.again.wrong");
        typed.input.classList.add("is-invalid");
        typed.node.querySelector(".invalid-feedback").textContent = wrong;
        return {wrong};
    }
    return judged;
}

async function setDay(day) {
    const writing = new Writing({
        send: () => change("PUT", "/business-day", {day}),
        find: async () => ((await renewDay()) === day ? {day} : null),
    });
    await writing.attempt();
    session.day = day;
    return {isSet: true};
}
