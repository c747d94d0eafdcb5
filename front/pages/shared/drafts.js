// What was typed into rounds and is not entered yet. It is kept in the browser, line by line, until it is entered or
// thrown away by a person's own word: nothing is given up for its age. Tabs of one browser share it, and each writes
// only the lines that were typed there.
import {sum} from "./money.js";
import {readMoney, sayCount, showDay, showMoney} from "./words.js";

const START = "unsent";

function keyOf({office, day, loan}) {
    return `${START} ${office} ${day} ${loan}`;
}

function placeOf(key) {
    const [start, office, day, loan] = key.split(" ");
    return start === START ? {office: Number(office), day, loan} : null;
}

// A draft has the text that was typed, its cents or null where it is no amount, the receipt that it is sent with, who
// collected it, what came of sending it, and why nothing was paid.
function kept() {
    return Object.keys(localStorage).map((key) => ({key, ...placeOf(key)})).filter(({loan}) => loan !== undefined);
}

export const NO_DRAFT = {
    text: "",
    cents: null,
    receipt: null,
    collector: "",
    result: null,
    why: ""
};

// What was typed counts as the cents that it was read as then, also where the reader's locale is another one now. What
// can't be read is still told of.
function readDraft(key) {
    const written = localStorage.getItem(key);
    try {
        const draft = {...NO_DRAFT, ...JSON.parse(written)};
        const cents = draft.cents === null ? null : BigInt(draft.cents);
        const isSame = cents === null || readMoney(draft.text) === cents;
        return {...draft, cents, text: isSame ? draft.text : showMoney(cents)};
    } catch {
        return {...NO_DRAFT, text: written};
    }
}

// by loan
export function draftsOf(office, day) {
    const own = kept().filter((one) => one.office === office && one.day === day);
    return new Map(own.map(({loan, key}) => [loan, readDraft(key)]));
}

// What was typed and not entered before rounds belonged to an office and a day: such a line has the receipt that it may
// have been sent with.
function adopt(key) {
    const [, staff, office, day] = key.split(" ");
    const {turn = 1, lines = {}} = JSON.parse(localStorage.getItem(key));
    for (const [loan, {text, result}] of Object.entries(lines)) {
        if (text !== "" && !["entered", "repeated"].includes(result)) {
            const start = `${staff.replace("/", ".")}-${day.replaceAll("-", "")}-${loan.slice(5)}`;
            const receipt = turn === 1 ? start : `${start}-${turn}`;
            keepDraft({office, day, loan}, {text, cents: readMoney(text), receipt, collector: "", result, why: ""});
        }
    }
    localStorage.removeItem(key);
}

export function adoptOlder() {
    for (const key of Object.keys(localStorage).filter((one) => /^round \S+ \d+ [\d-]{10}$/.test(one))) {
        try {
            adopt(key);
        } catch (problem) {
            console.error(key, problem);  // it stays where it is
        }
    }
}

const tellers = new Set();

// tell: is handed the place of a draft that was changed, { office, day, loan }, here or in another tab. Answers what
// ends it.
export function whenDraftsChange(tell) {
    tellers.add(tell);
    return () => tellers.delete(tell);
}

window.addEventListener("storage", ({key}) => {
    const place = key === null ? null : placeOf(key);
    if (key === null || place !== null) {
        tellers.forEach((tell) => tell(place));
    }
});

// Throws where the browser has no room, or keeps nothing.
export function keepDraft(place, {text, cents, receipt, collector, result, why}) {
    const isEmpty = text === "" && why === "";
    if (isEmpty) {
        localStorage.removeItem(keyOf(place));
    } else {
        const draft = {text, cents: cents === null ? null : String(cents), receipt, collector, result, why};
        localStorage.setItem(keyOf(place), JSON.stringify(draft));
    }
    tellers.forEach((tell) => tell(place));
}

export function endDraft(place) {
    localStorage.removeItem(keyOf(place));
    tellers.forEach((tell) => tell(place));
}

// the rounds of which something was typed and not entered: how many lines, and what they come to
function unsentRounds() {
    const rounds = new Map();
    for (const {office, day, key} of kept()) {
        const {text, cents} = readDraft(key);
        if (text !== "") {
            const name = `${day} ${office}`;
            const known = rounds.get(name) ?? {office, day, lines: 0, cents: 0n};
            rounds.set(name, {office, day, lines: known.lines + 1, cents: sum([known.cents, cents ?? 0n])});
        }
    }
    return [...rounds.keys()].sort().map((name) => rounds.get(name));
}

// the same in words, for the offices of a list, each with where it is; all of them by number where there is no list
export function unsentLines(list) {
    const names = new Map(list?.map(({number, name}) => [number, name]));
    const isTold = ({office}) => list === null || names.has(office);
    return unsentRounds().filter(isTold).map(({office, day, lines, cents}) => ({
        href: `#/round/${office}/${day}`,
        words: sayCount("unsent", lines, {
            day: showDay(day),
            office: names.get(office) ?? office,
            amount: showMoney(cents)
        })
    }));
}

export function throwAway(office, day) {
    draftsOf(office, day).forEach((draft, loan) => endDraft({office, day, loan}));
}
