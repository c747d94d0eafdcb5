// Cash: what was paid in and paid out at an office on a business day, by person, as the journal tells it; what each of
// them counted beside it; and a sheet for two signatures.
import {button, card, element, emptyState, fill, freshId, spinner} from "../shared/elements.js";
import {Problem, read} from "../shared/api.js";
import {amountField, countedOf, countFields, gapWords, sizePairs} from "./counting.js";
import {FIRST_DAY, isDay, LAST_DAY} from "../shared/days.js";
import {asTree, offices} from "../shared/desk.js";
import {institution} from "../shared/institution.js";
import {hasLists, learnStaff, staffWords} from "../shared/lists.js";
import {sum} from "../shared/money.js";
import {session} from "../shared/session.js";
import {facts, officeChoice, pageHead, row, table} from "../shared/tables.js";
import {readMoney, say, showCount, showDated, showDay, showMoney} from "../shared/words.js";

export async function takings(page, office = session.office, day = session.day) {
    const number = Number(office);
    const tree = asTree(await offices());
    const found = tree.find((one) => one.number === number);
    if (found === undefined || !isDay(day)) {
        throw new Problem({fault: "F4"});
    }
    const place = element("div", {}, spinner(say("loading")));
    const print = button(say("print"), () => window.print(), {class: "btn btn-primary"});
    const head = pageHead({title: say("takings.title"), trail: [[say("way.today"), "#/today"]], actions: [print]});
    const go = (other, on) => (location.hash = `#/takings/${other}/${on}`);
    const choice = officeChoice({tree, value: number, label: say("office"), onchange: (other) => go(other, day)});
    head.classList.add("d-print-none");
    fill(
        page, head, element("p", {class: "text-muted d-print-none"}, say("takings.what")),
        element("div", {class: "filters d-print-none"}, choice, dayChoice(day, (on) => go(number, on))), place);
    const lines = await takingsOf(number, day);
    if (lines === null) {
        return fill(place, card(null, emptyState(say("journal.none"))));
    }
    await learnStaff(lines.map(({staff}) => staff));
    showTakings(place, {office: found, day, lines, ...keptCounts(number, day)});
}

function dayChoice(day, whenChosen) {
    const id = freshId("day");
    const input = element("input", {class: "form-control", type: "date", id, min: FIRST_DAY, max: LAST_DAY, value: day});
    input.addEventListener("change", () => isDay(input.value) && whenChosen(input.value));
    return element("div", {}, element("label", {class: "form-label", "for": id}, say("business-day")), input);
}

// The takings of an office on a day, or null where the desk tells of none: it keeps no journal, or is of a version that
// doesn't tell them.
async function takingsOf(office, day) {
    try {
        return (await hasLists()) ? (await read(`/lists/takings/${office}/${day}`)).takings : null;
    } catch (problem) {
        if (!["F4", "F5"].includes(problem.fault)) {
            throw problem;
        }
        return null;
    }
}

// what was counted is kept for the session: by person, the cash at the start of the day and the count
function keptCounts(office, day) {
    const keptAs = `takings-${office}-${day}`;
    return {keptAs, counted: JSON.parse(sessionStorage.getItem(keptAs) ?? "{}")};
}

function showTakings(place, made) {
    if (made.lines.length === 0) {
        return fill(place, card(null, emptyState(say("takings.none", {day: showDay(made.day)}))));
    }
    made.sheet = element("article", {class: "sheet handover mt-3"});
    made.fields = element("div", {class: "cash"});
    const people = made.lines.map(({staff}) => staff);
    const id = freshId("person");
    const select = element(
        "select", {class: "form-select", id, onchange: () => showFields(made, select.value)},
        people.map((staff) => element("option", {value: staff}, staffWords(staff))));
    const who = element("div", {class: "filters"}, element(
        "div", {}, element("label", {class: "form-label", "for": id}, say("takings.person")), select));
    const form = card(say("cash.count"), who, element("p", {}, say("takings.type")), made.fields);
    form.classList.add("d-print-none");
    const own = people.includes(session.staff) ? session.staff : people[0];
    select.value = own;
    fill(place, form, made.sheet);
    showFields(made, own);
    showSheet(made);
}

function countOf(made, staff) {
    return made.counted[staff] ??= {start: "", counts: {}, other: ""};
}

function showFields(made, staff) {
    const cash = countOf(made, staff);
    const whenTyped = () => {
        sessionStorage.setItem(made.keptAs, JSON.stringify(made.counted));
        showSheet(made);
    };
    const take = (text) => {
        cash.start = text;
        return text === "" || readMoney(text) !== null;
    };
    const attributes = {inputmode: "decimal"};
    const start = amountField({words: say("takings.start"), value: cash.start, attributes, take, whenTyped});
    fill(made.fields, start, countFields(cash, whenTyped));
}

// of a person: what the desk knows, what was there before, and what was counted; null for what can't be read
function figuresOf(made, line) {
    const cash = countOf(made, line.staff);
    const start = cash.start === "" ? 0n : readMoney(cash.start);
    const reversed = BigInt(line.out_reversed.sum) - BigInt(line.in_reversed.sum);
    const moved = BigInt(line.paid_in.sum) - BigInt(line.paid_out.sum) + reversed;
    const hasCount = cash.other !== "" || Object.values(cash.counts).some((text) => text !== "0");
    const expected = start === null ? null : start + moved;
    const counted = hasCount ? countedOf(cash) : null;
    const gap = expected === null || counted === null ? null : counted - expected;
    return {start, reversed, expected, counted, gap, turns: line.in_reversed.count + line.out_reversed.count};
}

function moneyOr(cents) {
    return cents === null ? "–" : showMoney(cents);
}

function moneyOf(cents, count) {
    return count === 0 ? "–" : `${showMoney(cents)} (${showCount(count)})`;
}

function takingRow(made, line) {
    const {start, reversed, expected, counted, gap, turns} = figuresOf(made, line);
    const cells = [
        moneyOr(start), moneyOf(line.paid_in.sum, line.paid_in.count), moneyOf(line.paid_out.sum, line.paid_out.count),
        moneyOf(reversed, turns), moneyOr(expected), moneyOr(counted),
        element("span", {class: gap === null || gap === 0n ? "" : "cash-gap"}, gapWords(gap))
    ];
    return row([{head: staffWords(line.staff)}, ...cells.map((number) => ({number}))]);
}

function sumRow(made) {
    const all = made.lines.map((line) => figuresOf(made, line));
    const sumOf = (name) => {
        const cents = all.map((one) => one[name]);
        return cents.includes(null) ? null : sum(cents);
    };
    const part = (name) => {
        const [cents, counts] = ["sum", "count"].map((key) => made.lines.map((line) => line[name][key]));
        return moneyOf(sum(cents), counts.reduce((one, other) => one + other, 0));
    };
    const turns = all.reduce((one, other) => one + other.turns, 0);
    const cells = [
        moneyOr(sumOf("start")), part("paid_in"), part("paid_out"), moneyOf(sumOf("reversed"), turns),
        moneyOr(sumOf("expected")), moneyOr(sumOf("counted")), gapWords(sumOf("gap"))
    ];
    return row([{head: say("all")}, ...cells.map((number) => ({number}))], {class: "fw-semibold"});
}

// the sheet, as it is printed
function showSheet(made) {
    const {office, day, lines, sheet} = made;
    const words = ["takings.start", "takings.paid-in", "takings.paid-out", "takings.reversed", "cash.expected",
        "cash.counted", "cash.gap"];
    const columns = [{words: say("takings.person")}, ...words.map((key) => ({words: say(key), kind: "number"}))];
    const rows = lines.map((line) => takingRow(made, line));
    const counts = lines.map(({staff}) => [staff, sizePairs(countOf(made, staff))]).filter(([, pairs]) => pairs.length > 0);
    const title = say("takings.sheet", {day: showDay(day)});
    fill(
        sheet, element("p", {class: "h6 mb-1"}, institution.name), element("p", {class: "h5"}, title),
        facts([[say("office"), `${office.number} ${office.name}`], [say("takings.at"), showDated(Date.now())]]),
        table({caption: title, columns, rows, foot: sumRow(made)}).node,
        counts.map(([staff, pairs]) => [element("p", {class: "h6 mt-3"}, staffWords(staff)), facts(pairs)]),
        element(
            "div", {class: "sign"}, element("div", {}, say("takings.signed-counter")),
            element("div", {}, say("takings.signed-checker"))));
}
