// Refusals in words, each with what to do.
import {button, element, fill, alertBox, link} from "./elements.js";
import {Problem} from "./api.js";
import {NotDone, NotKnown} from "./writing.js";
import {hasWords, say} from "./words.js";

// What a page found itself, in its own words: what it is, and what to do.
export class Told extends Error {
    constructor(what, todo) {
        super(what);
        this.todo = todo;
    }
}

const KINDS = [
    "origin", "down", "large", "busy", "password", "log", "many", "slow", "reader", "visit", "full", "disk"
];

function keyOf(problem) {
    if (problem.fault !== null && hasWords(`refusal.${problem.fault}.what`)) {
        return `refusal.${problem.fault}`;
    }
    return KINDS.includes(problem.front) ? `front.${problem.front}` : "front.lost";
}

// what was refused, and what to do about it
export function inWords(problem) {
    if (problem instanceof Told) {
        return {what: problem.message, todo: problem.todo, mark: ""};
    }
    if (problem instanceof NotDone) {
        return {what: say("front.not-done.what"), todo: say("front.not-done.do"), mark: markOf(problem.problem)};
    }
    if (problem instanceof NotKnown) {
        const key = problem.isBlind ? "front.blind" : "front.not-known";
        return {what: say(`${key}.what`), todo: say(`${key}.do`), mark: markOf(problem.problem)};
    }
    if (problem instanceof Problem) {
        const key = keyOf(problem);
        return {what: say(`${key}.what`), todo: say(`${key}.do`), mark: markOf(problem)};
    }
    console.error(problem);
    return {what: say("front.page.what"), todo: say("front.page.do"), mark: ""};
}

function markOf(problem) {
    return problem.fault ?? "";
}

export function refusalBox(problem) {
    const {what, todo, mark} = inWords(problem);
    const heading = element("strong", {}, what);
    const number = mark && element("span", {class: "badge text-bg-light border ms-2"}, mark);
    return alertBox("danger", element("p", {class: "mb-1"}, heading, number), element("p", {class: "mb-0"}, todo));
}

export function refusalLine(problem) {
    const {what, todo, mark} = inWords(problem);
    return `${mark ? `${mark}: ` : ""}${what} ${todo}`;
}

// Shows in this place what went wrong with a reading, and lets it be tried again. What is kept on this phone opens also
// where nothing answers.
export function showRefusal(place, problem, again) {
    const box = refusalBox(problem);
    const small = "btn btn-sm btn-outline-danger mt-2 me-2";
    if (again) {
        box.append(button(say("again"), again, {class: small}));
    }
    if (problem instanceof Problem && problem.isLost) {
        box.append(link("#/kept", say("kept.title"), {class: small}));
    }
    fill(place, box);
}
