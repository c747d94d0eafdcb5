// The box in the bar: it finds a client or a loan by name or number, over all offices that one sees.
import {element, fill, link} from "./elements.js";
import {readIfThere} from "./api.js";
import {session} from "./session.js";
import {isAccount, officeOf, offices} from "./desk.js";
import {findClients} from "./lists.js";
import {refusalLine} from "./refusals.js";
import {say, sayCount} from "./words.js";

const MOMENT = 200;  // milliseconds
const MOST_LETTERS = 100;
const AT_ONCE = 4;  // offices
const SHOWN = 20;

// What is looked for as one types: the desk is asked once nothing was typed for a moment, and only the last question
// counts.
// none: shows what stands there where nothing is looked for. find: asks for what is typed, and is told how to learn
// whether it still counts. found: shows what came of it.
export function findIn(input, {none, find, found, failed}) {
    let clock = 0;
    let last = "";
    const ask = async (wanted) => {
        try {
            const list = await find(wanted, () => last === wanted);
            if (last === wanted) {
                found(list, wanted);
            }
        } catch (problem) {
            if (last === wanted) {
                problem.fault === "F4" ? found([], wanted) : failed(problem);
            }
        }
    };
    input.maxLength = MOST_LETTERS;
    input.addEventListener("input", () => {
        const wanted = input.value.trim();
        if (wanted === last) {
            return;
        }
        last = wanted;
        clearTimeout(clock);
        if (wanted === "") {
            none();
        } else {
            clock = setTimeout(() => ask(wanted), MOMENT);
        }
    });
}

export function findBox() {
    const input = element("input", {
        class: "form-control form-control-sm",
        type: "search",
        id: "find-all",
        autocomplete: "off",
        placeholder: say("find.all"),
        "aria-controls": "find-list"
    });
    const list = element("div", {class: "find-list", id: "find-list", role: "status", hidden: true});
    const close = () => {
        list.hidden = true;
    };
    const open = (...parts) => {
        fill(list, parts);
        list.hidden = false;
    };
    findIn(input, {
        none: close,
        find: findEverywhere,
        found: (found) => open(found.length === 0 ? quiet(say("clients.not-found")) : found.map(resultOf)),
        failed: (problem) => open(quiet(refusalLine(problem))),
    });
    input.addEventListener("focus", () => {
        list.hidden = input.value.trim() === "" || list.childElementCount === 0;
    });
    const form = element(
        "form", {class: "find-box", role: "search"},
        element("label", {class: "visually-hidden", "for": "find-all"}, say("find.all")), input, list);
    form.addEventListener("submit", (event) => {
        event.preventDefault();
        list.querySelector("a")?.click();
    });
    form.addEventListener("keydown", (event) => {
        if (event.key === "Escape") {
            close();
        }
    });
    form.addEventListener("focusout", (event) => form.contains(event.relatedTarget) || close());
    list.addEventListener("pointerdown", (event) => event.preventDefault());  // else a press would close it first
    list.addEventListener("click", (event) => event.target.closest("a") && close());
    return form;
}

function quiet(words) {
    return element("p", {class: "mb-0 p-2"}, words);
}

function resultOf({client, name, overdue, active, loan, office}) {
    const where = loan === undefined ? client : `${say("loan")} ${loan}`;
    const state = overdue > 0 ? sayCount("find.overdue", overdue) : active > 0 ? sayCount("find.active", active) : "";
    return link(
        loan === undefined ? `#/client/${client}` : `#/loan/${loan}`,
        [
            element("span", {class: "find-name"}, name),
            element("span", {class: "find-more"}, [where, office, state].filter(Boolean).join(" · "))
        ],
        {class: "find-result"});
}

// A number is that of a client, and may be that of a loan too.
async function findNumbered(account) {
    const [clients, loan] =
        await Promise.all([findClients(officeOf(account), account), readIfThere(`/loans/${account}`)]);
    const owner = loan && clients.find(({client}) => client === loan.client);
    return [...clients, ...(owner ? [{loan: account, name: owner.name}] : [])];
}

// One's own office first, then the others, a few at a time, until there are enough.
async function findEverywhere(wanted, isWanted) {
    if (isAccount(wanted)) {
        return findNumbered(wanted);
    }
    const others = (await offices()).filter(({number}) => number !== session.office);
    const all = [{number: session.office, name: ""}, ...others];
    const found = [];
    for (let i = 0; i < all.length && found.length < SHOWN && isWanted(); i += AT_ONCE) {
        const some = all.slice(i, i + AT_ONCE);
        const lists = await Promise.all(some.map(({number}) => findClients(number, wanted)));
        found.push(...lists.flatMap((list, place) => list.map((one) => ({...one, office: some[place].name}))));
    }
    return found.slice(0, SHOWN);
}
