// Arrears: the report as a table and as a graph, and an office's overdue loans.
import {card, element, emptyState, fill, link, spinner, button} from "../shared/elements.js";
import {read} from "../shared/api.js";
import {may, OFFICER, renewDay, session} from "../shared/session.js";
import {
    ACTIVE,
    asTree,
    clientName,
    entries,
    loan,
    loansOf,
    offices,
    openSince,
    overdueOf,
    schedule,
    total
} from "../shared/desk.js";
import {dueBy, hasLists} from "../shared/lists.js";
import {centsOfText, sum} from "../shared/money.js";
import {dayOfNumber, daysBetween, FIRST_DAY, numberOfDay} from "../shared/days.js";
import {say, showCount, showDay, showPercent} from "../shared/words.js";
import {amount, day, pageHead, row, table} from "../shared/tables.js";
import {barsOf, classBars, CLASS_COLOURS, CLASSES} from "../shared/graphs.js";

export async function arrears(page, number) {
    const [list, report] = await Promise.all([offices(), read("/reports/arrears"), renewDay()]);
    window.dispatchEvent(new Event("desk-day"));
    const tree = asTree(list);
    const office = number && list.find((one) => one.number === Number(number));
    if (office) {
        return officeArrears(page, office, report);
    }
    const made = barsOf(tree, report);
    const graph = made.length === 0 ? emptyState(say("today.no-loans")) : classBars(made, say("arrears.graph"));
    const print = button(say("print"), () => window.print(), {class: "btn btn-outline-secondary"});
    fill(
        page, pageHead({title: say("arrears.title", {day: showDay(session.day)}), actions: [print]}),
        element("p", {class: "text-muted"}, say("arrears.what")), card(say("arrears.graph"), graph),
        element("div", {class: "mt-3"}, card(say("arrears.table"), reportTable(tree, report))));
}

function lineCells(line) {
    return [
        {number: showCount(line.loans)}, ...["outstanding", ...CLASSES].map((name) => amount(centsOfText(line[name]))),
        {number: showPercent(centsOfText(line.par30))}
    ];
}

function reportTable(tree, report) {
    const lines = new Map(report.offices.map((line) => [line.office, line]));
    const rows = tree.filter(({number}) => lines.has(number))
                     .map((office) => row([
                              {
                                  head: element(
                                      "span", {class: `level-${office.depth}`},
                                      link(`#/arrears/${office.number}`, `${office.number} ${office.name}`))
                              },
                              ...lineCells(lines.get(office.number))
                          ]));
    const foot = row([{head: say("all")}, ...lineCells(report.all)], {class: "fw-semibold"});
    const columns = [
        {words: say("office")}, {words: say("loans.active"), kind: "number"},
        {words: say("outstanding.principal"), kind: "number"},
        ...CLASSES.map((name) => ({words: say(`class.${name}`), kind: "number"})), {words: say("par30"), kind: "number"}
    ];
    return table({caption: say("arrears.table"), columns, rows, foot}).node;
}

async function officeArrears(page, office, report) {
    const line = report.offices.find((one) => one.office === office.number);
    const place = element("div", {}, spinner(say("loading")));
    const title = say("arrears.office", {office: `${office.number} ${office.name}`});
    const penalties = link(`#/penalties/${office.number}`, say("penalties.way"), {class: "btn btn-outline-primary"});
    fill(
        page,
        pageHead({title, trail: [[say("way.arrears"), "#/arrears"]], actions: may(OFFICER) ? [penalties] : []}),
        line && card(null, table({
                               caption: title,
                               rows: [row([{head: `${office.number} ${office.name}`}, ...lineCells(line)])],
                               columns: [
                                   {words: say("office")}, {words: say("loans.active"), kind: "number"},
                                   {words: say("outstanding.principal"), kind: "number"},
                                   ...CLASSES.map((name) => ({words: say(`class.${name}`), kind: "number"})),
                                   {words: say("par30"), kind: "number"}
                               ],
                           }).node),
        element("div", {class: "mt-3"}, card(say("arrears.loans"), place)));
    const isListed = await hasLists();
    const show = (overdue) =>
        fill(place, overdue.length === 0 ? emptyState(say("arrears.none")) : overdueTable(overdue, isListed));
    const more = (overdue) => {
        show(overdue);
        place.append(spinner(say("loading")));
    };
    show(isListed ? await listedOverdue(office.number, more) : await overdueLoans(office.number));
}

// The same by the desk's lists, which tell in place of the outstanding principal all that is left to pay. Overdue is
// what was due before the business day. More than 200 loans come one page after the other.
export async function listedOverdue(office, whenMore) {
    if (session.day === FIRST_DAY) {
        return [];
    }
    const before = dayOfNumber(numberOfDay(session.day) - 1);
    const lines = (list) => list.map(({loan: account, name, client, oldest, due, left}) => ({
        account,
        name,
        client,
        since: oldest,
        days: daysBetween(oldest, session.day),
        overdue: {principal: BigInt(due.principal), all: total(due)},
        remaining: BigInt(left)
    })).sort((one, other) => other.days - one.days);
    return lines(await dueBy(office, before, (list) => whenMore(lines(list))));
}

// the active loans of an office of which something is overdue, the longest overdue first
async function overdueLoans(office) {
    const active = (await loansOf(office)).filter(({status}) => status === ACTIVE);
    const seen = await Promise.all(active.map(async ({loan: account}) => {
        const instalments = await schedule(account);
        const since = openSince(instalments);
        const days = since === null ? 0 : daysBetween(since, session.day);
        if (days <= 0) {
            return null;
        }
        const [told, entryList] = await Promise.all([loan(account), entries(account)]);
        const overdue = overdueOf(instalments, entryList, session.day);
        const remaining = BigInt(told.outstanding.principal);
        return {account, since, days, client: told.client, overdue, remaining, name: await clientName(told.client)};
    }));
    return seen.filter((one) => one !== null).sort((one, other) => other.days - one.days);
}

function classOf(days) {
    return days <= 30 ? "c1_30" : days <= 60 ? "c31_60" : days <= 90 ? "c61_90" : "over_90";
}

function dot(name) {
    const mark = element("span", {class: "class-dot", "aria-hidden": "true"});
    mark.style.backgroundColor = CLASS_COLOURS[name];
    return mark;
}

// overdue: each with what remains of it: all that is left to pay where it was listed, else the outstanding principal
function overdueTable(overdue, isListed) {
    const rows = overdue.map((one) => row([
                                 {head: link(`#/loan/${one.account}`, one.account)}, one.name, day(one.since),
                                 {number: [dot(classOf(one.days)), showCount(one.days)]}, amount(one.overdue.principal),
                                 amount(one.overdue.all), amount(one.remaining)
                             ]));
    const foot = row(
        [
            {head: say("all")}, "", "", "", amount(sum(overdue.map((one) => one.overdue.principal))),
            amount(sum(overdue.map((one) => one.overdue.all))), amount(sum(overdue.map(({remaining}) => remaining)))
        ],
        {class: "fw-semibold"});
    const columns = [
        {words: say("loan")}, {words: say("client")}, {words: say("overdue-since")},
        {words: say("overdue.days"), kind: "number"}, {words: say("overdue.principal"), kind: "number"},
        {words: say("overdue.all"), kind: "number"},
        {words: say(isListed ? "left-to-pay" : "outstanding.principal"), kind: "number"}
    ];
    return table({caption: say("arrears.loans"), columns, rows, foot}).node;
}
