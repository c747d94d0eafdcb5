// The hand-over in the evening: the cash, counted by coin and note, against what was taken in a round with this phone,
// and a sheet for two signatures.
import {alertBox, button, card, element, fill} from "../shared/elements.js";
import {institution} from "../shared/institution.js";
import {idOf, whenKeptChanges} from "../shared/kept.js";
import {sum} from "../shared/money.js";
import {facts, pageHead} from "../shared/tables.js";
import {readMoney, say, sayCount, showCount, showDated, showDay, showMoney} from "../shared/words.js";
import {notesOf} from "./kept-drafts.js";
import {ownPayments} from "./kept-receipt.js";
import {changeRound, readRound} from "./kept-rounds.js";
import {namesIn, officeIn, readPack} from "./pack-kept.js";

const MOST = 99_999;  // of one coin or note

// what was taken with this phone in a round: how many payments and cents are entered, and how many wait to be sent
export function takenOf(lines) {
    const payments = lines.flatMap(ownPayments);
    const part = (isWanted) => {
        const wanted = payments.filter(({state}) => (state === "entered") === isWanted);
        return {count: wanted.length, cents: sum(wanted.map(({cents}) => cents))};
    };
    return {entered: part(true), waiting: part(false), unread: lines.filter(isUnread).length};
}

function isUnread({text, cents}) {
    return text !== "" && cents === null;
}

// The cents of a count: counts by coin or note, and what else there is as an amount. Null where it can't be read.
function countedOf({counts = {}, other = ""}) {
    const cents = Object.entries(counts).map(([size, text]) => (isCount(text) ? BigInt(size) * BigInt(text) : null));
    const more = other === "" ? 0n : readMoney(other);
    return cents.includes(null) || more === null ? null : sum([...cents, more]);
}

function isCount(text) {
    return /^\d{1,5}$/.test(text) && Number(text) <= MOST;
}

export async function showCash(page, round) {
    const names = namesIn(officeIn(await readPack(), round.office));
    const made = {round, names, cash: {counts: {}, other: "", ...round.cash}, keeping: Promise.resolve()};
    made.sheet = element("article", {class: "sheet handover", "data-paper": "a4"});
    made.trouble = element("div", {"aria-live": "assertive", class: "d-print-none"});
    const fields = [...institution.cash.map((size) => sizeField(made, size)), otherField(made)];
    const print = (paper) => {
        show(made);  // with the moment of printing
        made.sheet.dataset.paper = paper;
        window.print();
    };
    const head = pageHead({
        title: say("cash.title"),
        trail: [
            [say("kept.title"), "#/kept"],
            [say("kept.round", {day: showDay(round.day)}), `#/kept/${round.office}/${round.day}`]
        ],
        actions: [button(say("cash.print-a4"), () => print("a4")), button(say("slip.print-a6"), () => print("a6"))]
    });
    head.classList.add("d-print-none");
    const form = card(say("cash.count"), element("p", {}, say("cash.what")), element("div", {class: "cash"}, fields));
    form.classList.add("d-print-none", "mb-3");
    fill(page, head, form, made.trouble, made.sheet);
    const end = whenKeptChanges(() => (made.sheet.isConnected ? renew(made).catch(() => {}) : end()));
    show(made);
}

// What was sent meanwhile is shown as entered; what is counted is this page's.
async function renew(made) {
    made.round = await readRound(idOf(made.round)) ?? made.round;
    show(made);
}

function countField(made, words, value, attributes, take) {
    const input = element("input", {
        class: "form-control amount", type: "text", autocomplete: "off", value, "aria-label": words, ...attributes
    });
    input.addEventListener("input", () => {
        input.classList.toggle("is-invalid", !take(input.value.trim()));
        keep(made);
        show(made);
    });
    return element("label", {class: "cash-line"}, element("span", {class: "amount"}, words), input);
}

function sizeField(made, size) {
    const {counts} = made.cash;
    const take = (text) => {
        counts[size] = text === "" ? "0" : text;
        return isCount(counts[size]);
    };
    const value = counts[size] === "0" ? "" : counts[size] ?? "";
    return countField(made, showMoney(size), value, {inputmode: "numeric", maxlength: 5}, take);
}

function otherField(made) {
    const take = (text) => {
        made.cash.other = text;
        return text === "" || readMoney(text) !== null;
    };
    return countField(made, say("cash.other"), made.cash.other, {inputmode: "decimal"}, take);
}

// one writing after another, each with all that was typed by then
function keep(made) {
    made.keeping = made.keeping.then(async () => {
        try {
            await changeRound(made.round, () => ({cash: made.cash}));
            fill(made.trouble);
        } catch (problem) {
            console.error(problem);
            fill(made.trouble, alertBox("danger", say("kept.not-kept")));
        }
    });
}

// the sheet, as it is printed
function show({round, names, cash, sheet}) {
    const {entered, waiting, unread} = takenOf(round.lines);
    const expected = entered.cents + waiting.cents;
    const counted = countedOf(cash);
    const gap = counted === null ? null : counted - expected;
    const figures = [
        [say("cash.entered"), `${showMoney(entered.cents)} (${sayCount("cash.payments", entered.count)})`],
        [say("cash.waiting"), `${showMoney(waiting.cents)} (${sayCount("cash.payments", waiting.count)})`],
        [say("cash.expected"), element("strong", {}, showMoney(expected))],
        [say("cash.counted"), element("strong", {}, counted === null ? "–" : showMoney(counted))],
        [say("cash.gap"), element("strong", {class: gap === 0n ? "" : "cash-gap"}, gapWords(gap))]
    ];
    fill(
        sheet, element("p", {class: "h6 mb-1"}, institution.name), element("p", {class: "h5"}, say("cash.title")),
        facts([
            [say("office"), `${round.office} ${round.officeName}`], [say("round.day"), showDay(round.day)],
            [say("cash.by"), round.by], [say("cash.at"), showDated(Date.now())]
        ]),
        facts(sizePairs(cash)), facts(figures),
        unread > 0 && element("p", {class: "cash-gap"}, sayCount("cash.unread", unread)),
        noteNodes(notesOf(round, names)),
        element(
            "div", {class: "sign"}, element("div", {}, say("cash.signed-giver")),
            element("div", {}, say("cash.signed-taker"))));
}

// The desk has no place for notes of visits: they go to the office on this sheet.
function noteNodes(notes) {
    return notes.length > 0 && [element("p", {class: "h6 mt-3"}, say("cash.notes")), facts(notes)];
}

function gapWords(gap) {
    if (gap === null) {
        return "–";
    }
    const size = showMoney(gap < 0n ? -gap : gap);
    return gap === 0n ? say("cash.agrees", {amount: size}) :
                        say(gap < 0n ? "cash.missing" : "cash.beyond", {amount: size});
}

// of each coin and note that there is: how many, and what they come to
function sizePairs({counts, other}) {
    const there = institution.cash.filter((size) => isCount(counts[size] ?? "") && Number(counts[size]) > 0);
    const pairs = there.map((size) => {
        const count = BigInt(counts[size]);
        return [`${showCount(count)} × ${showMoney(size)}`, showMoney(size * count)];
    });
    const more = readMoney(other);
    return more !== null && more > 0n ? [...pairs, [say("cash.other"), showMoney(more)]] : pairs;
}
