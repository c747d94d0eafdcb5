// What a loan's client need no longer pay: portions of one instalment, of all, or everything but principal.
import {button, card, element, emptyState, fill, spinner} from "../shared/elements.js";
import {change, Problem} from "../shared/api.js";
import {may, MANAGER} from "../shared/session.js";
import {outstandingPortions} from "../shared/desk.js";
import {say, showMoney} from "../shared/words.js";
import {amount, capital, day, pageHead} from "../shared/tables.js";
import {reasonField} from "../shared/forms.js";
import {readLoan} from "./loan.js";
import {severalLines} from "./several.js";

const PORTIONS = ["interest", "fees", "penalties"];

export async function waivers(page, account) {
    if (!may(MANAGER)) {
        throw new Problem({fault: "F3"});
    }
    const told = await readLoan(account);
    const place = element("div", {}, spinner(say("loading")));
    fill(
        page, pageHead({
            title: say("waivers.title", {loan: account}),
            trail: [[told.name, `#/client/${told.client}`], [say("loan.title", {loan: account}), `#/loan/${account}`]]
        }),
        element("p", {}, say("do.waiver.what", {loan: account, client: told.name})), card(null, place));
    const lines = linesOf(told);
    if (lines.length === 0) {
        fill(place, emptyState(say("do.waiver.none")));
        return;
    }
    const reason = reasonField();
    const columns = [
        {words: say("instalment")}, {words: say("due")}, {words: say("loan.portion")},
        {words: say("left-to-pay"), kind: "number"}
    ];
    const made = severalLines(
        {caption: say("waivers.title", {loan: account}), columns, lines, fields: {reason}, action: "waivers.send"});
    made.choose(() => false);
    const there = PORTIONS.filter((name) => lines.some(({portion}) => portion === name));
    const pick = (words, isWanted) => button(words, () => made.choose(isWanted), {class: "btn btn-outline-secondary"});
    fill(
        place, element(
            "div", {class: "page-actions mb-3"}, pick(say("waivers.all"), () => true),
            there.map((name) => pick(capital(say(`portion.${name}`)), ({portion}) => portion === name))),
        element("div", {class: "row mb-3"}, reason.node), made.node);
}

function linesOf(told) {
    return told.instalments.flatMap(
        (one) => Object.entries(outstandingPortions(one, told.entries))
                     .filter(([portion, cents]) => PORTIONS.includes(portion) && cents > 0n)
                     .map(([portion, cents]) => {
                         const words = say(`portion.${portion}`);
                         const body = {instalment: one.number, portion};
                         return {
                             portion,
                             name: `${say("instalment.of", {number: one.number})} · ${words} ${showMoney(cents)}`,
                             cells: [{head: one.number}, day(one.due), words, amount(cents)],
                             send: ({reason}) => change("POST", `/loans/${told.loan}/waivers`, {...body, reason})
                         };
                     }));
}
