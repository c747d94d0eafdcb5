// The lines of a round: each loan with what is due, what the round has of it already, the amount typed in, and what
// came of it.
import {button, element, fill, freshId, link} from "../shared/elements.js";
import {LEAST, MOST, sum} from "../shared/money.js";
import {staffWords} from "../shared/lists.js";
import {proposed} from "../shared/institution.js";
import {plain, readMoney, say, showMoney} from "../shared/words.js";
import {amount, day, overdueBadge, row, table} from "../shared/tables.js";
import {selectOnFocus} from "../shared/forms.js";
import {resultNode} from "./round-sheet.js";

const REASONS = ["absent", "promised", "refused", "other"];

const ORDERS = {
    name: (one, other) => one.name.localeCompare(other.name) || one.loan.localeCompare(other.loan),
    loan: (one, other) => one.loan.localeCompare(other.loan),
    overdue: (one, other) => other.days - one.days || one.loan.localeCompare(other.loan),
};

// desk: { isEarly, keep(line), change(), further(line), receipts(line), begin(line) }: what the round does where a line
// was changed or is to be paid again, the links to its receipts, where it has such, and what it does before a line is
// typed into.
export function lineTable(lines, desk) {
    const columns = [
        {words: say("loan")}, {words: say("client")}, {words: say("due-since")},
        {words: say("round.due"), kind: "number"}, {words: say("left-to-pay"), kind: "number"},
        {words: say("round.paid"), kind: "number"}, {words: say("round.not-paid")}, {words: say("round.result")}
    ];
    const shown = new Map();
    const add = (line) => {
        shown.set(line, lineRow(line, desk));
        return shown.get(line).tr;
    };
    const rows = lines.map(add);
    const {node, body} = table({caption: say("round.title"), columns, rows, kind: "round-lines"});
    body.addEventListener("keydown", (event) => goOn(event, body));
    return {
        node,
        add: (line) => body.append(add(line)),
        show: (line) => shown.get(line).show(),
        focus: (line) => shown.get(line).focus(),
        propose: () => lines.filter((line) => line.text === "" && line.due > 0n && isOpen(line) && line.why === "")
                           .forEach((line) => shown.get(line).type(showMoney(proposed(line.due, line.owed)))),
        // what was typed is always shown, whatever is looked for
        arrange(order, wanted) {
            const parts = plain(wanted).split(/\s+/).filter((part) => part !== "");
            const isWanted = (line) =>
                line.text !== "" || parts.every((part) => `${plain(line.name)} ${line.loan}`.includes(part));
            const focused = document.activeElement;
            [...lines].sort(ORDERS[order]).forEach((line) => {
                shown.get(line).tr.hidden = !isWanted(line);
                body.append(shown.get(line).tr);
            });
            if (body.contains(focused)) {
                focused.focus();
            }
        },
    };
}

// whether a payment may be typed: not where the round has one of this loan, unless a further one was asked for
export function isOpen(line) {
    return line.isFurther || line.payments.every(({reversed}) => reversed);
}

// The key Enter leads from one amount to the next, and from the last to what enters them.
function goOn(event, body) {
    if (event.key !== "Enter" || !event.target.matches(".paid-field")) {
        return;
    }
    event.preventDefault();
    const fields = [...body.querySelectorAll("tr:not([hidden]) .paid-field:not([readonly])")];
    (fields[fields.indexOf(event.target) + 1] ?? document.querySelector(".round-enter"))?.focus();
}

export function centsOf(text) {
    const cents = readMoney(text);
    return cents !== null && cents >= LEAST && cents <= MOST ? cents : null;
}

function paidField(line) {
    const input = element("input", {
        class: "form-control form-control-sm amount paid-field",
        type: "text",
        inputmode: "decimal",
        autocomplete: "off",
        enterkeyhint: "next",
        id: freshId("paid"),
        "data-loan": line.loan,
        "aria-label": say("round.paid.by", {client: line.name, loan: line.loan}),
    });
    selectOnFocus(input);
    return input;
}

function reasonChoice(line) {
    const choices = [["", "–"], ...REASONS.map((name) => [name, say(`why.${name}`)])];
    return element(
        "select", {
            class: "form-select form-select-sm why-field",
            "aria-label": say("round.why.by", {client: line.name, loan: line.loan})
        },
        choices.map(([name, words]) => element("option", {value: name}, words)));
}

function lineRow(line, desk) {
    const input = paidField(line);
    const why = reasonChoice(line);
    const [since, due, owed] = [element("span"), element("span"), element("span")];
    const result = element("div", {class: "line-result", "aria-live": "polite"});
    const receipt = element("span", {class: "receipt"});
    const show = () => {
        showField(line, desk, input, why);
        fill(since, sinceNodes(line));
        due.textContent = showMoney(line.due);
        owed.textContent = showMoney(line.owed);
        receipt.textContent = isOpen(line) ? line.receipt : "";
        result.replaceChildren(...resultNodes(line, desk));
    };
    const type = (text) => {
        Object.assign(line, {text, cents: text === "" ? null : centsOf(text), result: null});
        line.why = text === "" ? line.why : "";
        desk.keep(line);
        show();
        desk.change();
    };
    input.addEventListener("focus", () => desk.begin?.(line));
    input.addEventListener("input", () => type(input.value.trim()));
    why.addEventListener("change", () => {
        line.why = why.value;
        type(why.value === "" ? line.text : "");
    });
    show();
    const tr = row([
        {head: link(`#/loan/${line.loan}`, line.loan)}, element("span", {class: "line-client"}, line.name), since,
        {number: due}, {number: owed}, {number: input}, why, [result, receipt]
    ]);
    return {tr, show, type, focus: () => input.focus()};
}

function showField(line, desk, input, why) {
    if (input.value.trim() !== line.text) {
        input.value = line.text;
    }
    const isWrong = line.text !== "" && line.cents === null;
    input.classList.toggle("is-invalid", isWrong);
    input.setAttribute("aria-invalid", String(isWrong));
    input.readOnly = desk.isEarly || line.isLocked || !isOpen(line);
    why.value = line.why;
    why.disabled = input.readOnly;
}

function sinceNodes({since, days, due}) {
    return since === null || due === 0n ? "–" : [day(since), days > 0 && [" ", overdueBadge(days)]];
}

// what stands of this loan in the round, and what came of sending
function resultNodes(line, desk) {
    const standing = line.payments.filter(({reversed}) => !reversed);
    const paid = standing.map(
        (one) => element(
            "div", {class: "line-paid", "data-result": line.results[one.receipt] ?? "standing"},
            say(line.results[one.receipt] === "entered" ? "round.entered" : "round.entered-by", {
                amount: showMoney(one.amount),
                staff: staffWords(one.staff)
            })));
    const isRefused = line.result !== null && line.result.startsWith("F");
    const words = line.cents !== null && isRefused ? say("round.further-with", {amount: showMoney(line.cents)}) :
                                                     say("round.further");
    const mayAdd =
        standing.length > 0 && line.owed > 0n && !desk.isEarly && (!isOpen(line) || line.result === "F15");
    const further = mayAdd &&
        button(words, () => desk.further(line), {class: "btn btn-sm btn-outline-primary", disabled: line.isLocked});
    const wrong = line.text !== "" && line.cents === null &&
        element("div", {class: "line-refusal"}, say("field.money.wrong", {example: showMoney(123456n)}));
    const result = line.isSending ? say("sending") : ofLine(line.result);
    return [...paid, result, wrong, further, ...(desk.receipts?.(line) ?? [])].filter(Boolean);
}

function ofLine(result) {
    const other = () => element("span", {class: "line-refusal", "data-result": "F15"}, say("round.other-amount"));
    return result === "F15" ? other() : resultNode(result);
}

// by whom how much was collected of what the lines have, where somebody is named
export function sumsByCollector(lines) {
    const names = [...new Set(lines.map(({collector}) => collector).filter((name) => name !== ""))];
    const sumOf = (name) => sum(lines.filter((line) => line.collector === name).map(({cents}) => cents ?? 0n));
    return names.map((name) => [name, sumOf(name)]);
}
