// What was done in an office, as its journal tells: the last page first, each with the latest change at the top.
import {card, element, emptyState, fill, link, spinner} from "../shared/elements.js";
import {Problem} from "../shared/api.js";
import {session} from "../shared/session.js";
import {asTree, offices} from "../shared/desk.js";
import {learnStaff} from "../shared/lists.js";
import {CHANGES_OF_A_PAGE, changeTable, changesAfter, lastChanges} from "./changes.js";
import {say, showCount} from "../shared/words.js";
import {officeChoice, pageHead} from "../shared/tables.js";

const QUIET = "btn btn-sm btn-outline-secondary";

// after: the place before the first change of the page; the last page is shown where it is none
export async function journal(page, office = session.office, after) {
    const number = Number(office);
    const tree = asTree(await offices());
    if (!tree.some((one) => one.number === number)) {
        throw new Problem({fault: "F4"});
    }
    const place = element("div", {}, spinner(say("loading")));
    const go = (other) => (location.hash = `#/journal/${other}`);
    const choice = officeChoice({tree, value: number, label: say("office"), onchange: go});
    fill(
        page, pageHead({title: say("journal.title"), trail: [[say("people.title"), `#/people/${number}`]]}),
        element("p", {class: "text-muted"}, say("journal.what")),
        element("div", {class: "filters d-print-none"}, choice), card(null, place));
    const shown = /^\d{1,9}$/.test(after) ?
        {after: Number(after), changes: await changesAfter(number, Number(after))} :
        await lastChanges(number);
    await learnStaff((shown.changes ?? []).map(({staff}) => staff));
    fill(place, changesOf(number, shown));
}

function changesOf(office, {after, changes}) {
    if (changes === null) {
        return emptyState(say("journal.none"));
    }
    const to = (place, key) => link(`#/journal/${office}${place}`, say(key), {class: QUIET});
    const [first, last] = [changes[0], changes.at(-1)].map((change) => showCount(change?.number ?? 0));
    const turns = [
        changes.length > 0 && element("span", {class: "text-muted"}, say("journal.shown", {first, last})),
        after > 0 && to(`/${Math.max(0, after - CHANGES_OF_A_PAGE)}`, "journal.earlier"),
        changes.length === CHANGES_OF_A_PAGE &&
            [to(`/${after + CHANGES_OF_A_PAGE}`, "journal.later"), to("", "journal.last")]
    ];
    const list = changes.length === 0 ?
        emptyState(say("journal.empty")) :
        changeTable([...changes].reverse(), {caption: say("journal.title"), hasLoans: true});
    return [list, element("div", {class: "pager"}, turns)];
}
