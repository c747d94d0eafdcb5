// The penalties of all overdue instalments of an office: of those that have none yet, and whose product has a charge.
import {card, element, emptyState, fill, link, spinner} from "../shared/elements.js";
import {change, Problem} from "../shared/api.js";
import {may, OFFICER, renewDay, session} from "../shared/session.js";
import {
    ACTIVE,
    charge as readCharge,
    clientName,
    entries as readEntries,
    isOpen,
    loan as readLoan,
    loansOf,
    officeNamed,
    product as readProduct,
    schedule
} from "../shared/desk.js";
import {hasLists} from "../shared/lists.js";
import {listedOverdue} from "./arrears.js";
import {daysBetween} from "../shared/days.js";
import {percentageOf} from "../shared/money.js";
import {say, showCount} from "../shared/words.js";
import {amount, day, pageHead} from "../shared/tables.js";
import {severalLines} from "./several.js";

export async function penalties(page, number) {
    if (!may(OFFICER)) {
        throw new Problem({fault: "F3"});
    }
    const [office] = await Promise.all([officeNamed(Number(number)), renewDay()]);
    if (office === null) {
        throw new Problem({fault: "F4"});
    }
    const words = `${office.number} ${office.name}`;
    const title = say("penalties.title", {office: words});
    const place = element("div", {}, spinner(say("loading")));
    const trail = [[say("way.arrears"), "#/arrears"], [words, `#/arrears/${office.number}`]];
    fill(page, pageHead({title, trail}), element("p", {}, say("penalties.what")), card(null, place));
    const lines = await linesOf(office.number);
    const columns = [
        {words: say("loan")}, {words: say("client")}, {words: say("instalment.short")}, {words: say("due")},
        {words: say("overdue.days"), kind: "number"}, {words: say("charge")}, {words: say("amount"), kind: "number"}
    ];
    fill(
        place, lines.length === 0 ? emptyState(say("penalties.none")) :
                                    severalLines({caption: title, columns, lines, action: "penalties.send"}).node);
}

// The loans to look at: by the desk's lists those that are overdue, else all that are active.
async function accountsOf(office) {
    if (await hasLists()) {
        return (await listedOverdue(office, () => {})).map(({account}) => account).sort();
    }
    return (await loansOf(office)).filter(({status}) => status === ACTIVE).map(({loan}) => loan);
}

async function linesOf(office) {
    return (await Promise.all((await accountsOf(office)).map(linesOfLoan))).flat();
}

async function linesOfLoan(account) {
    const late = (await schedule(account)).filter((one) => isOpen(one) && one.due < session.day);
    if (late.length === 0) {
        return [];
    }
    const [told, entries] = await Promise.all([readLoan(account), readEntries(account)]);
    const {overdue_charge: number} = await readProduct(told.product);
    if (number === null) {
        return [];
    }
    const [charge, name] = await Promise.all([readCharge(number), clientName(told.client)]);
    const has = (one) =>
        entries.some(({kind, reversed, instalment}) => kind === "penalty" && !reversed && instalment === one.number);
    return late.filter((one) => !has(one)).map((one) => lineOf(told, name, charge, one));
}

function lineOf({loan}, client, charge, one) {
    return {
        name: `${loan} · ${say("instalment.of", {number: one.number})}`,
        cells: [
            {head: link(`#/loan/${loan}`, loan)}, client, one.number, day(one.due),
            {number: showCount(daysBetween(one.due, session.day))}, charge.name, amount(amountOf(charge, one))
        ],
        send: () => change("POST", `/loans/${loan}/penalties`, {instalment: one.number})
    };
}

// What the charge comes to: of principal and interest of the instalment as they were scheduled, whatever has been paid.
function amountOf({calc, value}, {principal, interest}) {
    const bases = {
        "percent-of-amount": BigInt(principal),
        "percent-of-interest": BigInt(interest),
        "percent-of-amount-and-interest": BigInt(principal) + BigInt(interest)
    };
    return calc === "flat" ? BigInt(value) : percentageOf(bases[calc], BigInt(value));
}
