// What a loan would be, before anybody agrees to it: what is handed over, what is paid back, and its effective yearly
// rate with all charges. The desk works it out, and enters nothing.
import {element, emptyState, fill} from "../shared/elements.js";
import {hasLists, preview} from "../shared/lists.js";
import {sum} from "../shared/money.js";
import {session} from "../shared/session.js";
import {refusalLine} from "../shared/refusals.js";
import {readMoney, say, showCount, showDay, showMoney, showPercent} from "../shared/words.js";
import {amount, amountOrDash, capital, day, facts, row, table} from "../shared/tables.js";

const MOMENT = 200;          // milliseconds without a change, after which the desk is asked
const MOST_RATE = 13764083;  // hundredths of a percent, the greatest that is told
const PORTIONS = ["principal", "interest", "fees"];

// What a loan that waits would be if it were paid out on the business day; null where the desk has no lists, or no such
// loan can be made any more.
export async function previewOf({product, principal, periods}) {
    if (!(await hasLists())) {
        return null;
    }
    try {
        return await preview({product, principal, periods, day: session.day});
    } catch (problem) {
        if (["F4", "F7", "F8"].includes(problem.fault)) {
            return null;
        }
        throw problem;
    }
}

// the figures of a preview, and its schedule below them
export function previewNodes(told, onDay, isOpen = false) {
    const summary = element("summary", {class: "preview-more"}, say("loan.schedule"));
    const schedule = element("details", {open: isOpen}, summary, scheduleTable(told));
    return [
        element("p", {class: "text-muted mb-2"}, say("preview.what", {day: showDay(onDay)})), facts(figuresOf(told)),
        schedule
    ];
}

function figuresOf(told) {
    const all = (name) => showMoney(sum(told.instalments.map((one) => one[name])));
    const rate = told.rate === null ? say("preview.above", {rate: showPercent(MOST_RATE)}) : showPercent(told.rate);
    return [
        [say("preview.handed"), element("strong", {}, showMoney(told.handed_over))],
        BigInt(told.kept) > 0n && [say("preview.kept"), showMoney(told.kept)],
        [say("periods"), showCount(told.instalments.length)], [capital(say("portion.interest")), all("interest")],
        [capital(say("portion.fees")), all("fees")], [say("preview.owed"), showMoney(told.owed)],
        [say("preview.rate"), element("strong", {class: "preview-rate"}, rate)]
    ].filter(Boolean);
}

function scheduleTable({instalments}) {
    if (instalments.length === 0) {
        return emptyState(say("loan.no-schedule"));
    }
    const all = (one) => sum(PORTIONS.map((name) => one[name]));
    const rows = instalments.map((one, i) => row([
                                     {head: i + 1}, day(one.due), ...PORTIONS.map((name) => amountOrDash(one[name])),
                                     amount(all(one))
                                 ]));
    const totals = PORTIONS.map((name) => amountOrDash(sum(instalments.map((one) => one[name]))));
    const foot = row([{head: say("all")}, "", ...totals, amount(sum(instalments.map(all)))], {class: "fw-semibold"});
    const columns = [
        {words: say("instalment.short")}, {words: say("due")},
        ...PORTIONS.map((name) => ({words: say(`portion.${name}`), kind: "number"})),
        {words: say("owed"), kind: "number"}
    ];
    return table({caption: say("preview.title"), columns, rows, foot}).node;
}

// The preview of what is chosen in some inputs, anew where one changes. chosen: answers what to ask for, or null where
// something is missing or outside its range.
export function livePreview(inputs, chosen) {
    const node = element("div", {class: "preview", role: "status"});
    let last = null;
    let clock = 0;
    const show = async () => {
        const asked = chosen();
        const text = JSON.stringify(asked);
        if (text === last) {
            return;
        }
        last = text;
        const nodes = asked === null ? [] : await shownOf(asked);
        if (last === text) {
            fill(node, nodes);
        }
    };
    const later = () => {
        clearTimeout(clock);
        clock = setTimeout(show, MOMENT);
    };
    inputs.forEach((input) => ["input", "change"].forEach((name) => input.addEventListener(name, later)));
    show();
    return node;
}

async function shownOf(asked) {
    try {
        return previewNodes(await preview(asked), asked.day);
    } catch (problem) {
        return element("p", {class: "text-muted mb-0"}, refusalLine(problem));
    }
}

// A part of a form for a new loan that shows what it would be: it is no field, and has no value.
export function previewField(fields, open) {
    const {product, principal, periods} = fields;
    const chosen = () => {
        const terms = open.find((one) => String(one.product) === product.input.value);
        const cents = readMoney(principal.input.value);
        const count = /^\d{1,3}$/.test(periods.input.value.trim()) ? Number(periods.input.value) : 0;
        const isWithin = cents !== null && cents >= BigInt(terms.min_principal) &&
            cents <= BigInt(terms.max_principal) && count >= terms.min_periods && count <= terms.max_periods;
        return isWithin ? {product: terms.product, principal: Number(cents), periods: count, day: session.day} : null;
    };
    const inner = livePreview([product.input, principal.input, periods.input], chosen);
    return {node: element("div", {class: "col-12"}, inner), input: inner, read: () => ({value: undefined})};
}
