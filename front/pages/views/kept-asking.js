// Asks for the PIN of this phone: a new one, the one that was chosen, and what is done where it is forgotten.
import {alertBox, button, card, element, fill} from "../shared/elements.js";
import {dropAll, keptPin, keptRounds, waitingOf, wordsOfWaiting} from "../shared/kept.js";
import {ask, note} from "../shared/dialogs.js";
import {passwordField, readAll} from "../shared/forms.js";
import {refusalBox, Told} from "../shared/refusals.js";
import {say, sayCount, showDay} from "../shared/words.js";
import {pageHead} from "../shared/tables.js";
import {choosePin, isLocked, LEAST_LETTERS, lock, MOST_LETTERS, unlock} from "./kept-pin.js";
import {sealAnew} from "./kept-rounds.js";
import {dropPack, sealedPack} from "./pack-record.js";

function pinField(label, hint) {
    return passwordField({label, hint, least: LEAST_LETTERS, most: MOST_LETTERS});
}

async function tryPin({pin}) {
    if (!(await unlock(pin))) {
        throw new Told(say("pin.wrong"), say("pin.wrong.do"));
    }
}

async function makePin({pin, again}) {
    if (pin !== again) {
        throw new Told(say("pin.differ"), say("pin.differ.do"));
    }
    await choosePin(pin);
}

async function changeTo({before, pin, again}) {
    if (pin !== again) {
        throw new Told(say("pin.differ"), say("pin.differ.do"));
    }
    if (!(await sealAnew(before, pin))) {
        throw new Told(say("pin.wrong"), say("pin.wrong.do"));
    }
}

// another PIN in place of the one that was chosen
export async function askNewPin() {
    const fields = {
        before: pinField(say("pin.before")),
        pin: pinField(say("pin.new"), say("pin.hint", {least: LEAST_LETTERS})),
        again: pinField(say("pin.again"))
    };
    const text = [say("pin.change.what"), say("pin.forgotten.what")];
    if ((await ask({title: say("pin.change"), text, fields, action: say("pin.change"), send: changeTo})) !== null) {
        note(say("pin.changed"));
    }
}

// Answers whether what is kept can be read, once the PIN was asked for where it has to be.
export async function openByPin() {
    if ((await keptPin()) === undefined) {
        lock();
        const fields = {
            pin: pinField(say("pin.new"), say("pin.hint", {least: LEAST_LETTERS})),
            again: pinField(say("pin.again"))
        };
        const text = [say("pin.what"), say("pin.forgotten.what")];
        return (await ask({title: say("pin.choose"), text, fields, action: say("pin.choose"), send: makePin})) !== null;
    }
    if (!isLocked()) {
        return true;
    }
    const fields = {pin: pinField(say("pin"))};
    return (await ask({title: say("pin.ask"), fields, action: say("pin.open"), send: tryPin})) !== null;
}

// all that is on this phone, in words
function allWords(records) {
    const waiting = waitingOf(records);
    return [sayCount("kept.rounds", records.length), waiting && wordsOfWaiting(waiting)].filter(Boolean).join(" · ");
}

// The page as long as it is locked. again: shows it anew once it is open. words: what is on this phone.
export function showLocked(page, records, again, {title = say("kept.title"), words = allWords(records)} = {}) {
    const field = pinField(say("pin"));
    field.node.className = "mb-3";
    const trouble = element("div", {"aria-live": "assertive"});
    const open = element("button", {type: "submit", class: "btn btn-primary"}, say("pin.open"));
    const form = element("form", {novalidate: true, class: "pin-form"}, field.node, trouble, open);
    form.addEventListener("submit", async (event) => {
        event.preventDefault();
        const values = open.disabled ? null : readAll({pin: field});
        if (values === null) {
            return;
        }
        open.disabled = true;
        fill(trouble);
        try {
            await tryPin(values);
            await again();
        } catch (problem) {
            fill(trouble, refusalBox(problem));
            field.input.select();
        } finally {
            open.disabled = false;
        }
    });
    const forgotten = button(say("pin.forgotten"), () => forget(again), {class: "btn btn-outline-danger mt-3"});
    fill(page, pageHead({title}), card(null, element("p", {}, words), form), forgotten);
    field.input.focus();
}

// What is lost is told first, round by round.
async function forget(again) {
    const records = await keptRounds();
    const days = records.map(({id, ...counts}) => {
        const [office, day] = id.split(" ");
        const waiting = waitingOf([counts]);
        const words = waiting ? wordsOfWaiting(waiting) : say("kept.all-sent");
        return element("li", {}, `${office} · ${showDay(day)}: ${words}`);
    });
    const list = element("ul", {class: "mb-0"}, days);
    const lost = records.length > 0 && [
        alertBox("danger", say("pin.lost", {lost: allWords(records)}), list),
        element("p", {class: "mb-0"}, say("pin.lost.do"))
    ];
    const hasPack = (await sealedPack()) !== undefined;
    const done = await ask({
        title: say("pin.forgotten"),
        text: [lost, hasPack && say("pack.lost")],
        action: say("pin.lose"),
        isGrave: true,
        send: async () => {
            lock();
            await Promise.all([dropAll(), dropPack()]);
        }
    });
    if (done !== null) {
        note(say("pin.lost.done"));
        await again();
    }
}
