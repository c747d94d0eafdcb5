// Takes a day along: of some offices all active loans, what falls due of them within a week and what is left to pay,
// their accounts and clients, and the products. Names and terms never change, so those of the pack before aren't read
// again. What is asked for at one moment goes by one message.
import {alertBox, button, card, element, fill, freshId} from "../shared/elements.js";
import {Problem, readIfThere, readTogether, traffic} from "../shared/api.js";
import {asTree, numberOf, offices, readOn, total} from "../shared/desk.js";
import {dayOfNumber, daysBetween, LAST_DAY, numberOfDay} from "../shared/days.js";
import {note} from "../shared/dialogs.js";
import {isAskedFor} from "../shared/institution.js";
import {clientsAtOnce, dueAfter, dueBehind, dueByAtOnce, hasLists} from "../shared/lists.js";
import {refusalBox} from "../shared/refusals.js";
import {may, OFFICER, renewDay, session} from "../shared/session.js";
import {say} from "../shared/words.js";
import {openByPin} from "./kept-asking.js";
import {termsOf} from "./kept-left.js";
import {canSeal, Locked, touch} from "./kept-pin.js";
import {readAccounts} from "./pack-accounts.js";
import {keepPack, officeIn} from "./pack-kept.js";
import {accountOf} from "./round-state.js";

const DAYS = 7;  // how far ahead
const MOST_MESSAGES = 12;  // of a press that takes up to 3,000 loans along; one of them may ask for terms of products
const MOST_BYTES = 290_000;  // some more come, since it isn't known before what a message takes
const LOANS_OF_THESE = 3000;  // more of them may take more, in proportion

// The names of an office's clients, by number. The last one that is known is read again: where it has another name, the
// desk is another one, and nothing that was known counts.
async function clientsFrom(office, known) {
    const names = known.slice(0, -1);
    const more = await clientsAtOnce(office, names.length, readTogether);
    const isOther = names.length < known.length && more[0]?.name !== known.at(-1);
    return isOther ? clientsFrom(office, []) : [...names, ...more.map(({name}) => name)];
}

// The same names as the lines of loans have them: else what was known is of another desk.
async function clientsBeside(office, clients, known, lines) {
    const isOther = lines.some(({client, name}) => known[numberOf(client) - 1] !== undefined &&
        known[numberOf(client) - 1] !== name);
    return isOther ? clientsFrom(office, []) : clients;
}

const NOTHING = {now: 0n, soon: 0n};

// What is due of each loan by the business day, and by the pack's end. A payment that is entered as this is read may
// stand in one list and not yet in the other.
function dueOfEach(now, soon, day) {
    const dueNow = new Map(now.map(({loan, due}) => [loan, total(due)]));
    return new Map(soon.map(({loan, oldest, due}) => {
        const all = total(due);
        const told = oldest > day ? 0n : dueNow.get(loan) ?? 0n;
        return [loan, {now: told > all ? all : told, soon: all}];
    }));
}

async function officePack({number, name}, day, until, known) {
    const days = [day, until];
    const firstPages = Promise.all(days.map((last) => dueAfter(number, last, 0, readTogether)));
    const [firsts, active, read] = await Promise.all(
        [firstPages, dueByAtOnce(number, LAST_DAY, readTogether), clientsFrom(number, known)]);
    const [now, soon] =
        await Promise.all(days.map((last, i) => dueBehind(firsts[i], active, number, last, readTogether)));
    const dueOf = dueOfEach(now, soon, day);
    const clients = await clientsBeside(number, read, known, active);
    const lines = active.map(({loan, client, name, oldest, left, last}) => {
        const {now, soon} = dueOf.get(loan) ?? NOTHING;
        return {loan, client, name, since: oldest, due: now, later: soon - now, owed: BigInt(left), last};
    });
    return {number, name, clients, lines};
}

// Whether the desk is that of the pack before: there are clients that were known, and they are the same.
function isSameDesk(before, packed) {
    const known = packed.map(({number, clients}) => [officeIn(before, number)?.clients ?? [], clients])
                      .filter(([names]) => names.length > 0);
    return known.length > 0 && known.every(([names, clients]) => names.every((name, i) => name === clients[i]));
}

// Products by number, from those that are known on. One that was retired since is told by the desk once its draft is
// sent.
function productsFrom(known) {
    return readOn([...known], (number) => readIfThere(`/products/${number}`, readTogether));
}

// All loans, those first that a round of the week asks for: what is due by the business day, what falls due within the
// week, and the others. Of each of these those first that fall due nearest to the business day.
function nearestFirst(lines, day) {
    const rank = ({due, later}) => (isAskedFor(due) ? 0 : isAskedFor(due + later) ? 1 : 2);
    const distance = ({since}) => Math.abs(daysBetween(since, day));
    const ranked = lines.map((line) => ({line, rank: rank(line), distance: distance(line)}));
    ranked.sort((one, other) => one.rank - other.rank || one.distance - other.distance);
    return ranked.map(({line}) => line);
}

// Gives lines the accounts of their loans, by which this phone works out what a payment leaves, as far as a press has
// room for them. begun: the traffic before it. Where something was entered between two readings a line has none. What
// comes counts as a touch: the phone isn't locked before it is kept.
async function giveAccounts(lines, begun) {
    const share = Math.max(1, lines.length / LOANS_OF_THESE);
    const left = () => ({
        messages: Math.floor(MOST_MESSAGES * share) - 1 - (traffic.messages - begun.messages),
        bytes: MOST_BYTES * share - (traffic.bytes - begun.bytes)
    });
    const told = await readAccounts(lines.map(({loan}) => loan), left, touch);
    for (const line of lines.filter(({loan}) => told.has(loan))) {
        const {loan, entries} = told.get(line.loan);
        line.account = total(loan.outstanding) === line.owed ? {...accountOf(loan, []), entries} : null;
    }
}

// the terms of the loans' products: those that were known stay
function termsOfLines(lines, known, products) {
    return termsOf(lines, known, {
        product: (number) => products[number - 1] ?? readTogether(`/products/${number}`),
        charge: (number) => readTogether(`/charges/${number}`)
    });
}

// Reads what a pack of these offices has. before: the one that was taken along before, or null. Where the business day
// moves meanwhile it is a pack of the day before, and says so.
async function readDay(offices, before) {
    const taken = Date.now();
    const begun = {...traffic};
    const day = await renewDay();
    window.dispatchEvent(new Event("desk-day"));
    const until = dayOfNumber(Math.min(numberOfDay(day) + DAYS, numberOfDay(LAST_DAY)));
    const mayEnter = may(OFFICER);
    const known = before?.products ?? [];
    const [more, ...packed] = await Promise.all([
        mayEnter ? productsFrom(known) : [],
        ...offices.map((office) => officePack(office, day, until, officeIn(before, office.number)?.clients ?? []))
    ]);
    const isKnown = known.length === 0 || isSameDesk(before, packed);
    const products = isKnown || !mayEnter ? more : await productsFrom([]);
    const lines = packed.flatMap((office) => office.lines);
    await giveAccounts(nearestFirst(lines, day), begun);
    const terms = await termsOfLines(lines, isKnown ? before?.terms : {}, products);
    return {
        taken, businessDay: day, until, by: `${session.user} ${session.staff}`, mayEnter, products, terms, offices: packed
    };
}

// the offices to choose from, and the press that takes them along
export async function takingCard(before, show) {
    if (!canSeal()) {
        return alertBox("info", say("pack.unsafe"));
    }
    if (!(await hasLists())) {
        return alertBox("info", say("pack.no-lists"));
    }
    const list = await offices();
    const chosen = before?.offices.map(({number}) => number) ?? [session.office];
    const boxes = asTree(list).map((office) => officeBox(office, chosen.includes(office.number)));
    const trouble = element("div", {"aria-live": "assertive"});
    let isTaking = false;
    const take = async () => {
        if (!isTaking) {
            isTaking = true;
            await takeChosen({before, boxes, press, trouble, show}).finally(() => (isTaking = false));
        }
    };
    const press = button(say("pack.take"), take, {class: "btn btn-primary"});
    return card(
        say(before === null ? "pack.take" : "pack.take-anew"), element("p", {}, say("pack.what")),
        element(
            "fieldset", {}, element("legend", {class: "form-label h6"}, say("offices")), boxes.map(({node}) => node)),
        trouble, element("div", {class: "page-actions mt-3"}, press));
}

function officeBox(office, checked) {
    const id = freshId("pack-office");
    const box = element("input", {type: "checkbox", id, class: "form-check-input mt-0", checked});
    const indent = "\u00a0\u00a0\u00a0".repeat(office.depth);
    const words = element("span", {}, `${indent}${office.number} ${office.name}`);
    return {office, box, node: element("label", {class: "by-itself", "for": id}, box, words)};
}

async function takeChosen({before, boxes, press, trouble, show}) {
    const chosen = boxes.filter(({box}) => box.checked).map(({office}) => office);
    fill(trouble);
    if (chosen.length === 0) {
        fill(trouble, alertBox("warning", say("pack.choose")));
        return;
    }
    if (!(await openByPin())) {
        return;
    }
    navigator.storage?.persist?.();  // so that no browser clears it away where its room gets short
    press.disabled = true;
    press.textContent = say("loading");
    try {
        await keepPack(await readDay(chosen, before));
    } catch (problem) {
        fill(trouble, wordsAfter(problem));
        return;
    } finally {
        press.disabled = false;
        press.textContent = say("pack.take");
    }
    await show();
    note(say("pack.taken"));
}

// Where it was locked meanwhile the page asks for the PIN in place of this.
function wordsAfter(problem) {
    if (problem instanceof Problem) {
        return refusalBox(problem);
    }
    console.error(problem);
    return problem instanceof Locked ? null : alertBox("danger", say("kept.not-kept"));
}
