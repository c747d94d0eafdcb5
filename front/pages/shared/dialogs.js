// Questions before something is done, and short notes afterwards. A question belongs to the page that asks it: Back
// closes it and changes nothing else, and nothing is sent once the page is gone.
import {alertBox, button, element, fill, freshId} from "./elements.js";
import {NotDone, NotKnown} from "./writing.js";
import {refusalBox, refusalLine} from "./refusals.js";
import {readAll} from "./forms.js";
import {say} from "./words.js";

// Not a `<dialog>`: a phone's Back would close it also while something is sent, and it would lie over the notes.
function dialogNode({title, form}) {
    const id = freshId("dialog");
    const heading = element("h1", {class: "modal-title fs-5", id}, title);
    const away = button("", giveUp, {class: "btn-close", "aria-label": say("close")});
    const content =
        element("div", {class: "modal-content"}, element("div", {class: "modal-header"}, heading, away), form);
    const inner = element(
        "div", {class: "modal-dialog modal-dialog-centered modal-dialog-scrollable modal-fullscreen-sm-down"}, content);
    const attributes = {role: "dialog", tabindex: "-1", "aria-labelledby": id, "aria-modal": "true"};
    return element("div", {class: "modal show", ...attributes}, inner);
}

function busyText(isBusy, words) {
    const turning = isBusy && element("span", {class: "spinner-border spinner-border-sm me-2", "aria-hidden": "true"});
    return [turning, words];
}

function dialogParts({text, fields, action, isGrave}) {
    const trouble = element("div", {"aria-live": "assertive"});
    const submit = element("button", {type: "submit", class: `btn ${isGrave ? "btn-danger" : "btn-primary"}`}, action);
    const cancel = button(say("cancel"), giveUp, {class: "btn btn-outline-secondary"});
    const words = [text].flat().filter(Boolean);
    const body = element(
        "div", {class: "modal-body"}, words.map((part) => element("div", {class: "mb-3"}, part)),
        element("div", {class: "row g-3"}, Object.values(fields).map(({node}) => node)), trouble);
    const form = element(
        "form", {novalidate: true, class: "dialog-form"}, body,
        element("div", {class: "modal-footer"}, cancel, submit));
    return {trouble, submit, cancel, form};
}

const NOTE_TIME = 6000;                        // milliseconds that a note is there
const desk = document.getElementById("desk");  // the whole page, which can't be reached while a dialog is open
let shown = null;                              // the dialog that is open

// Asks before something is done. text: what it does, in words. fields: by name. send: is handed their values, and
// carries it out. check: is handed them first, and answers null, or { doubts, action } where it is to be asked once
// more. Answers what `send` answered, or null where the reader thought better of it, or left the page. A refusal is
// shown in the dialog, which stays open. It can't be closed while something is sent.
export async function ask({title, text = [], fields = {}, action, isGrave = false, check = async () => null, send}) {
    const parts = dialogParts({text, fields, action, isGrave});
    const node = dialogNode({title, form: parts.form});
    const asker = document.activeElement;
    const dialog = {node, title, fields, action, isGrave, check, send, ...parts, place: location.hash, result: null};
    listen(dialog);
    history.pushState({isDialog: true}, "");
    shown = dialog;
    await new Promise((end) => open(Object.assign(dialog, {end})));
    if (shown === dialog) {  // not closed by Back, and the page is still there
        shown = null;
        await stepBack();
    }
    node.remove();
    desk.inert = false;
    desk.style.paddingInlineEnd = "";
    asker?.focus({preventScroll: true});
    return dialog.isGone ? null : dialog.result;
}

// The page keeps its width though its scroll bar is gone meanwhile.
function open({node, form, isGrave, cancel, submit}) {
    desk.style.paddingInlineEnd = `${window.innerWidth - document.documentElement.clientWidth}px`;
    desk.inert = true;
    document.body.append(node);
    (form.querySelector("input, select, textarea") ?? (isGrave ? cancel : submit)).focus();
}

function listen(dialog) {
    const {form, fields} = dialog;
    form.addEventListener("submit", (event) => {
        event.preventDefault();
        const values = dialog.isBusy || dialog.isClosed ? null : readAll(fields);
        if (values !== null) {
            checkAndSend(dialog, values);
        }
    });
    form.addEventListener("input", () => dialog.isBusy || fill(dialog.trouble));
}

function close(dialog) {
    dialog.isClosed = true;
    dialog.end();
}

// what Cancel, the cross and the key Escape do
function giveUp() {
    if (shown !== null && !shown.isBusy) {
        close(shown);
    }
}

// goes back over the entry in the browser's history that the dialog was opened with
function stepBack() {
    return new Promise((done) => {
        window.addEventListener("popstate", done, {once: true});
        history.back();
    });
}

// Back closes the dialog, but for one that is sending: its entry in the history is made again.
function whenBack() {
    if (shown === null) {
        return;
    }
    if (location.hash !== shown.place) {
        leaveDialog();
    } else if (shown.isBusy) {
        history.pushState({isDialog: true}, "");
    } else {
        const dialog = shown;
        shown = null;
        close(dialog);
    }
}

// Closes the dialog of a page that is gone. What it is sending already is told of in a note.
export function leaveDialog() {
    if (shown !== null) {
        const dialog = shown;
        shown = null;
        dialog.isGone = true;
        dialog.isBusy = false;
        close(dialog);
    }
}

export function followHistory() {
    window.addEventListener("popstate", whenBack);
    window.addEventListener("keydown", whenKey);
    if (history.state?.isDialog) {  // the page was loaded anew while a dialog was open
        history.back();
    }
}

function whenKey(event) {
    if (event.key === "Escape") {
        giveUp();
    } else if (event.key === "Tab" && shown !== null) {
        keepInside(event);
    }
}

// The key Tab goes round within the dialog.
function keepInside(event) {
    const inside = [...shown.node.querySelectorAll("button, input, select, textarea")].filter((one) => !one.disabled);
    const [from, to] = event.shiftKey ? [inside[0], inside.at(-1)] : [inside.at(-1), inside[0]];
    if (document.activeElement === from) {
        event.preventDefault();
        to.focus();
    }
}

async function checkAndSend(dialog, values) {
    const doubt = await busyWith(dialog, say("checking"), () => dialog.check(values));
    if (doubt === undefined || dialog.isGone) {
        return;
    }
    if (doubt === null) {
        await sendNow(dialog, values);
    } else {
        showDoubt(dialog, values, doubt);
    }
}

// Asks once more, beside the fields: the button that carries it out all the same is another one, so that the key Enter
// in a field asks again and sends nothing.
function showDoubt(dialog, values, {doubts, action}) {
    const sure = button(
        action, () => dialog.isBusy || dialog.isClosed || sendNow(dialog, values), {class: "btn btn-danger"});
    fill(dialog.trouble, alertBox("warning doubt", doubts, element("div", {class: "mt-2"}, sure)));
    (dialog.form.querySelector("input") ?? sure).focus();
    sure.scrollIntoView({block: "nearest"});
}

async function sendNow(dialog, values) {
    const done = await busyWith(dialog, say("sending"), async () => (await dialog.send(values)) ?? {});
    if (done === undefined) {
        return;
    }
    dialog.result = done;
    if (dialog.isGone) {
        note(`${dialog.title}: ${say("left.done")}`);
    } else {
        close(dialog);
    }
}

// What the work comes to, or undefined where it is refused: then the dialog tells why, and stays open.
async function busyWith(dialog, words, work) {
    const {submit, trouble} = dialog;
    fill(trouble);
    dialog.isBusy = true;
    submit.disabled = true;
    fill(submit, busyText(true, words));
    let after = dialog.action;
    try {
        return await work();
    } catch (problem) {
        fill(trouble, element("div", {class: "mt-3"}, refusalBox(problem)));
        after = wordsAfter(problem, dialog.action);
        if (dialog.isGone) {
            note(`${dialog.title}: ${refusalLine(problem)}`);
        }
        return undefined;
    } finally {
        dialog.isBusy = false;
        submit.disabled = false;
        fill(submit, busyText(false, after));
    }
}

function wordsAfter(problem, action) {
    if (problem instanceof NotKnown && !problem.isBlind) {
        return say("look-again");
    }
    return problem instanceof NotDone || problem instanceof NotKnown ? say("send-again") : action;
}

function noteStack() {
    const known = document.getElementById("notes");
    if (known) {
        return known;
    }
    const stack = element("div", {id: "notes", class: "toast-container position-fixed p-2", "aria-live": "polite"});
    document.body.append(stack);
    return stack;
}

// tells in a corner of the page that something was done, in place of what was told before
export function note(...words) {
    const away = button("", () => node.remove(), {class: "btn-close me-2 m-auto", "aria-label": say("close")});
    const body = element("div", {class: "d-flex"}, element("div", {class: "toast-body"}, words), away);
    const node = element("div", {class: "toast note show", role: "status"}, body);
    noteStack().replaceChildren(node);
    removeLater(node);
}

// A note stays longer while a pointer or the focus is on it.
function removeLater(node) {
    setTimeout(() => (node.matches(":hover, :focus-within") ? removeLater(node) : node.remove()), NOTE_TIME);
}
