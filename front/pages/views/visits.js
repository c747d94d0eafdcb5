// The visits to a client, as they were noted, and a note of one more.
import {button, card, element, emptyState, fill} from "../shared/elements.js";
import {ask, note} from "../shared/dialogs.js";
import {dayField, noteField} from "../shared/forms.js";
import {showRefusal, Told} from "../shared/refusals.js";
import {session} from "../shared/session.js";
import {day as dayCell} from "../shared/tables.js";
import {newKey, noteVisit, visitsOf} from "../shared/visits.js";
import {say} from "../shared/words.js";

// The part of a page with the visits to a client. It stays empty where the front has no place for them. isBeside: also
// where nothing answers, as on a page that a phone shows without a network.
export function visitsPart(client, isBeside = false) {
    const place = element("div", {class: "mt-3"});
    show(place, client, isBeside);
    return place;
}

async function show(place, client, isBeside = false) {
    try {
        const visits = await visitsOf(client);
        fill(place, visits && visitsCard(place, client, visits));
    } catch (problem) {
        if (!isBeside || !problem.hasNoReply) {
            showRefusal(place, problem, () => show(place, client));
        }
    }
}

function visitsCard(place, client, visits) {
    const newestFirst = [...visits].reverse().sort((one, other) => other.day.localeCompare(one.day));
    const list = element("ul", {class: "visits"}, newestFirst.map(visitLine));
    const add = button(say("visits.note"), () => noteOne(place, client));
    return card(
        say("visits.title"), visits.length === 0 ? emptyState(say("visits.none")) : list,
        element("div", {class: "page-actions mt-3 d-print-none"}, add));
}

function visitLine({day, user, staff, text}) {
    const head = element("div", {class: "visit-head"}, dayCell(day), ` · ${user} · ${staff}`);
    return element("li", {}, head, element("div", {class: "as-typed"}, text));
}

// The same words are sent with the same key: those of which no reply came are kept once.
function keptOnce(client) {
    const keys = new Map();
    return async (values) => {
        const words = JSON.stringify(values);
        keys.set(words, keys.get(words) ?? newKey());
        const visit = await noteVisit(client, {...values, key: keys.get(words)});
        if (visit === null) {
            throw new Told(say("refusal.F5.what"), say("refusal.F5.do"));  // a front of before, since the page was read
        }
        return visit;
    };
}

async function noteOne(place, client) {
    const fields = {
        day: dayField({label: say("visits.day"), value: session.day}),
        text: noteField({label: say("draft.words")})
    };
    const visit = await ask({
        title: say("draft.note"),
        text: say("visits.what"),
        action: say("visits.keep"),
        fields,
        send: keptOnce(client)
    });
    if (visit !== null) {
        note(say("visits.kept"));
        await show(place, client);
    }
}
