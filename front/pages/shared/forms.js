// Fields of forms. Each has a label, says its range, and reads its value or says what is wrong with it.
import {element, freshId} from "./elements.js";
import {LEAST, MOST} from "./money.js";
import {FIRST_DAY, LAST_DAY, isDay} from "./days.js";
import {isFormula, isReceipt} from "./desk.js";
import {MOST_LETTERS as MOST_OF_A_NOTE} from "./visits.js";
import {readMoney, say, showCount, showDay, showMoney} from "./words.js";

const MOST_LETTERS = 200;

// judge: answers { value } or { wrong: words } for the text of the input
function field({label, input, hint, judge, wide}) {
    const id = freshId("field");
    input.id = id;
    const wrong = element("div", {class: "invalid-feedback", id: `${id}-wrong`});
    const help = hint && element("div", {class: "form-text", id: `${id}-help`}, hint);
    input.setAttribute("aria-describedby", `${id}-wrong${help ? ` ${id}-help` : ""}`);
    const node = element(
        "div", {class: wide ? "col-12" : "col-12 col-sm-6"}, element("label", {class: "form-label", "for": id}, label),
        input, wrong, help);
    return {
        node,
        input,
        help,
        read() {
            const judged = judge(input.value);
            input.classList.toggle("is-invalid", judged.wrong !== undefined);
            input.setAttribute("aria-invalid", String(judged.wrong !== undefined));
            wrong.textContent = judged.wrong ?? "";
            return judged;
        },
    };
}

function textInput(attributes) {
    return element(
        "input", {class: "form-control", type: "text", autocomplete: "off", spellcheck: "false", ...attributes});
}

// What stands in a field is selected once the field has the focus, so that typing replaces it. A press of the mouse
// sets the caret only after the field got the focus.
export function selectOnFocus(input) {
    let isFirstPress = false;
    input.addEventListener("focus", () => input.select());
    input.addEventListener("pointerdown", () => {
        isFirstPress = document.activeElement !== input;
    });
    input.addEventListener("click", () => {
        if (isFirstPress && input.selectionStart === input.selectionEnd) {
            input.select();
        }
        isFirstPress = false;
    });
}

function isName(text) {
    return [...text].length >= 1 && [...text].length <= 100 && !/[\u0000-\u001f\u007f]/.test(text);
}

export function textField({label, hint}) {
    return field({label, input: textInput({maxlength: MOST_LETTERS}), hint, judge: (text) => ({value: text.trim()})});
}

// A note of several lines. What can't be seen is a space.
export function noteField({label}) {
    const input = element("textarea", {class: "form-control", rows: 5, maxlength: MOST_OF_A_NOTE});
    const range = {least: showCount(1), most: showCount(MOST_OF_A_NOTE)};
    const judge = (typed) => {
        const value = typed.replace(/[\u0000-\u0009\u000b-\u001f\u007f-\u009f]/g, " ").trim();
        return value === "" ? {wrong: say("field.note.wrong", range)} : {value};
    };
    return field({label, input, hint: say("draft.words.hint", range), judge, wide: true});
}

// what is not shown as it is typed, and kept by no browser
export function passwordField({label, hint, least, most}) {
    const judge = (text) => {
        const length = [...text].length;
        return length >= least && length <= most ? {value: text} : {wrong: say("field.length", {least, most})};
    };
    return field({label, input: textInput({type: "password", autocomplete: "off"}), hint, judge, wide: true});
}

export function nameField({label, value = ""}) {
    const judge = (text) => (isName(text.trim()) ? {value: text.trim()} : {wrong: say("field.name.wrong")});
    return field({label, input: textInput({value, maxlength: 200}), hint: say("field.name.hint"), judge, wide: true});
}

// range: the least and the most cents; a function where they are known only as the field is read
export function moneyField({label, value = null, range = () => [LEAST, MOST], hint}) {
    const input =
        textInput({inputmode: "decimal", class: "form-control amount", value: value === null ? "" : showMoney(value)});
    selectOnFocus(input);
    const judge = (text) => {
        const cents = readMoney(text);
        const [least, most] = range().map(BigInt);
        if (cents === null) {
            return {wrong: say("field.money.wrong", {example: showMoney(123456n)})};
        }
        return cents < least || cents > most ? {wrong: moneyRange(range())} : {value: Number(cents)};
    };
    return field({label, input, hint: hint ?? moneyRange(range()), judge});
}

export function moneyRange([least, most]) {
    return say("field.range", {least: showMoney(least), most: showMoney(most)});
}

// a percentage with two decimals, in hundredths of a percent
export function percentField({label, value = null, least, most}) {
    const hint = say("field.percent", {least: showMoney(least), most: showMoney(most)});
    return moneyField({label, value, range: () => [least, most], hint});
}

export function numberField({label, value = "", range, hint}) {
    const input = textInput({inputmode: "numeric", value});
    const judge = (text) => {
        const [least, most] = range();
        const isWhole = /^\d{1,9}$/.test(text.trim());
        const number = Number(text);
        return isWhole && number >= least && number <= most ? {value: number} : {wrong: numberRange(range())};
    };
    return field({label, input, hint: hint ?? numberRange(range()), judge});
}

export function numberRange([least, most]) {
    return say("field.range", {least: showCount(least), most: showCount(most)});
}

export function dayField({label, value = "", least = FIRST_DAY, most = LAST_DAY, hint}) {
    const input = element("input", {class: "form-control", type: "date", min: least, max: most, value});
    const range = say("field.range", {least: showDay(least), most: showDay(most)});
    const judge = (text) => (isDay(text) && text >= least && text <= most ? {value: text} : {wrong: range});
    return field({label, input, hint: hint ?? range, judge});
}

// choices: pairs of a value and its words
export function choiceField({label, choices, value, hint, onchange, wide}) {
    const options = choices.map(([name, words]) => element("option", {value: name, selected: name === value}, words));
    const input = element("select", {class: "form-select", onchange}, options);
    const judge = (text) => (text === "" ? {wrong: say("field.choice.wrong")} : {value: text});
    return field({label, input, hint, judge, wide});
}

// a choice among numbers, of which one stands for none
export function numberChoiceField(options) {
    const made = choiceField(options);
    return {...made, read: () => ({value: made.input.value === "none" ? null : Number(made.input.value)})};
}

export function receiptField({label, value}) {
    const judge = (text) => {
        const receipt = text.trim();
        if (isFormula(receipt)) {
            return {wrong: say("field.receipt.formula")};
        }
        return isReceipt(receipt) ? {value: receipt} : {wrong: say("field.receipt.wrong")};
    };
    return field({label, input: textInput({value}), hint: say("field.receipt.hint"), judge, wide: true});
}

// why something is done: it goes along with the request, and into the log of the front
export function reasonField({isNeeded = () => true} = {}) {
    const judge = (text) => {
        const value = text.trim();
        const isGood = [...value].length <= MOST_LETTERS && !/[\u0000-\u001f\u007f]/.test(value);
        return isGood && (value !== "" || !isNeeded()) ? {value} : {wrong: say("field.reason.wrong")};
    };
    return field({label: say("reason"), input: textInput({}), hint: say("field.reason.hint"), judge, wide: true});
}

// the values of all fields by name, or null where one of them is wrong; the first wrong one gets the focus
export function readAll(fields) {
    const judged = Object.entries(fields).map(([name, made]) => [name, made, made.read()]);
    const wrong = judged.find(([, , {wrong: words}]) => words !== undefined);
    if (wrong) {
        wrong[1].input.focus();
        return null;
    }
    return Object.fromEntries(judged.map(([name, , {value}]) => [name, value]));
}
