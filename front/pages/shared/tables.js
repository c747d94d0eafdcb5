// Tables, badges and figures that several pages show.
import {element, freshId} from "./elements.js";
import {say, sayCount, showCount, showDay, showMoney} from "./words.js";

// columns: { words, kind, isHidden, isWide }: kind "number" is set right; a wide one has a line of its own on a phone.
// rows, foot: made by `row`. On a phone each row becomes a block in which every cell stands behind its column's words;
// the roles keep it a table for a screen reader.
export function table({caption, columns, rows, foot, kind = ""}) {
    const titled = columns.map((column) => ({...column, words: capital(column.words)}));
    const head = titled.map(
        ({words, kind, isHidden}) => element(
            "th", {scope: "col", role: "columnheader", class: classOf(kind)},
            isHidden ? element("span", {class: "visually-hidden"}, words) : words));
    const body = element("tbody", {role: "rowgroup"}, rows);
    const made = element(
        "table", {class: `table table-hover align-middle mb-0 ${kind}`, role: "table"},
        element("caption", {class: "visually-hidden"}, caption),
        element("thead", {role: "rowgroup"}, element("tr", {role: "row"}, head)), body,
        foot && element("tfoot", {role: "rowgroup"}, foot));
    for (const line of [...rows, foot].filter(Boolean)) {
        titled.forEach((column, i) => markCell(line.cells[i], column));
    }
    return {
        node: element("div", {class: "table-scroll", tabindex: "0", role: "region", "aria-label": caption}, made),
        body
    };
}

function markCell(cell, {words, isHidden, isWide}) {
    cell.setAttribute("data-words", isHidden ? "" : words);
    cell.classList.toggle("wide", isWide === true);
    cell.classList.toggle("is-number", cell.tagName === "TH" && /^\d+$/.test(cell.textContent));
}

// "principal" stands in small letters within a sentence, and begins a heading with a capital
export function capital(words) {
    return words.charAt(0).toLocaleUpperCase() + words.slice(1);
}

function classOf(kind) {
    return kind === "number" ? "text-end" : null;
}

// cells: a text or a node, or { number: .. } for one that is set right, or { head: .. } for the one that names the row
export function row(cells, attributes) {
    return element("tr", {role: "row", ...attributes}, cells.map(cell));
}

function cell(content) {
    if (content?.head !== undefined) {
        return element("th", {scope: "row", role: "rowheader"}, content.head);
    }
    if (content?.number !== undefined) {
        return element("td", {class: "text-end amount", role: "cell"}, content.number);
    }
    return element("td", {role: "cell"}, content);
}

export function amount(cents) {
    return {number: showMoney(cents)};
}

// 0 as a dash, so that what is there stands out
export function amountOrDash(cents) {
    return BigInt(cents) === 0n ? {number: element("span", {class: "text-muted"}, "–")} : amount(cents);
}

// how many there are, 0 as a dash; marked where it is one too many
export function countOrDash(count, isGrave = false) {
    const words = count === 0 ? element("span", {class: "text-muted"}, "–") : showCount(count);
    return {number: count > 0 && isGrave ? element("span", {class: "badge status-grave"}, words) : words};
}

const STATUS_COLOURS = {
    100: "waiting",
    200: "approved",
    300: "active",
    400: "ended",
    500: "ended",
    600: "closed",
    601: "grave",
    700: "over"
};

export function statusBadge(status) {
    return element("span", {class: `badge status-${STATUS_COLOURS[status] ?? "ended"}`}, say(`status.${status}`));
}

export function overdueBadge(days) {
    return element("span", {class: "badge status-grave"}, sayCount("overdue", days));
}

export function day(text) {
    return element("time", {datetime: text, class: "text-nowrap"}, showDay(text));
}

// figures with their words below each other: [[words, node]]
export function facts(pairs) {
    const rows = pairs.map(
        ([words, ...content]) => element("div", {class: "fact"}, element("dt", {}, words), element("dd", {}, content)));
    return element("dl", {class: "facts"}, rows);
}

export function figure(words, value, {isAlarming = false, more} = {}) {
    return element(
        "div", {class: "col-6 col-lg-3"},
        element(
            "div", {class: `key-figure${isAlarming ? " key-figure-alarming" : ""}`},
            element("div", {class: "key-figure-words"}, words),
            element("div", {class: "key-figure-value amount"}, value),
            more && element("div", {class: "key-figure-more"}, more)));
}

export function figures(...made) {
    return element("div", {class: "row g-2 g-md-3 mb-3"}, made);
}

// the page's title with its trail above it, and what may be done on its right: buttons, or the place for them
export function pageHead({title, trail = [], actions = [], badge}) {
    const steps = trail.map(([words, href]) => element("li", {class: "breadcrumb-item"}, element("a", {href}, words)));
    const list = steps.length > 0 &&
        element("nav", {"aria-label": say("trail")}, element("ol", {class: "breadcrumb mb-1"}, steps));
    const heading = element("h1", {class: "h3 mb-0", tabindex: "-1", id: "title"}, title, badge && [" ", badge]);
    const buttons = actions instanceof Node ? actions : element("div", {class: "page-actions d-print-none"}, actions);
    return element("header", {class: "page-head"}, element("div", {}, list, heading), buttons);
}

// an office to choose among those that the reader sees
export function officeChoice({tree, value, label, onchange}) {
    const id = freshId("office");
    const indent = (depth) => "\u00a0\u00a0\u00a0".repeat(depth);
    const options = tree.map(
        ({number, name, depth}) =>
            element("option", {value: number, selected: number === value}, `${indent(depth)}${number} ${name}`));
    const select =
        element("select", {class: "form-select", id, onchange: () => onchange(Number(select.value))}, options);
    return element("div", {}, element("label", {class: "form-label", "for": id}, label), select);
}
