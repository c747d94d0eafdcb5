// A statement of one loan on A4, for print.
import {button, element, fill} from "../shared/elements.js";
import {institution} from "../shared/institution.js";
import {session} from "../shared/session.js";
import * as desk from "../shared/desk.js";
import {sum} from "../shared/money.js";
import {say, showCount, showDay, showMoney, showPercent, showStep} from "../shared/words.js";
import {amount, amountOrDash, day, facts, pageHead, row, statusBadge, table} from "../shared/tables.js";
import {readLoan, shareList, stateOf} from "./loan.js";

export async function statement(page, account) {
    const told = await readLoan(account);
    const office = desk.officeOf(account);
    const print = button(say("print"), () => window.print(), {class: "btn btn-primary"});
    const head = pageHead({
        title: say("statement.title", {loan: account}),
        actions: [print],
        trail: [[told.name, `#/client/${told.client}`], [say("loan.title", {loan: account}), `#/loan/${account}`]],
    });
    fill(
        page, head,
        element(
            "article", {class: "sheet"},
            element(
                "div", {class: "sheet-head"},
                element(
                    "div", {}, element("strong", {}, institution.name),
                    ` · ${told.office?.name ?? ""} · ${say("office")} ${office}`),
                element("div", {class: "text-end"}, say("statement.day", {day: showDay(session.day)}))),
            element("p", {class: "h5 d-none d-print-block"}, say("statement.title", {loan: account})),
            element("div", {class: "sheet-columns"}, facts(left(told)), facts(right(told))),
            element("h2", {class: "h6 mt-3"}, say("loan.schedule")), scheduleTable(told),
            element("h2", {class: "h6 mt-3"}, say("loan.entries")), entryTable(told),
            element(
                "div", {class: "sign"}, element("div", {}, say("statement.signed-client")),
                element("div", {}, say("statement.signed-staff")))));
}

function left(told) {
    return [
        [say("client"), told.name], [say("client.number"), told.client], [say("loan"), told.loan],
        [say("product"), told.terms.name], [say("status"), statusBadge(told.status)],
        [say("loan.paid-out"), told.day ? showDay(told.day) : "–"]
    ];
}

function right(told) {
    return [
        [say("principal"), showMoney(told.principal)],
        [say("rate"), `${showPercent(told.terms.rate)} ${say("rate.yearly")}`],
        [say("periods"), `${showCount(told.periods)}, ${showStep(told.terms)}`],
        [say("paid"), showMoney(desk.total(told.paid))],
        [say("left-to-pay"), element("strong", {}, showMoney(desk.total(told.outstanding)))],
        BigInt(told.disbursement_fee) > 0n && [say("loan.disbursement-fee"), showMoney(told.disbursement_fee)],
        BigInt(told.overpaid) > 0n && [say("overpaid"), showMoney(told.overpaid)],
        BigInt(told.refunded) > 0n && [say("refunded"), showMoney(told.refunded)]
    ].filter((fact) => fact !== false);
}

function scheduleTable(told) {
    if (told.instalments.length === 0) {
        return element("p", {}, say("loan.no-schedule"));
    }
    const rows =
        told.instalments.map((one) => row([
                                 {head: one.number}, day(one.due), amount(one.principal), amountOrDash(one.interest),
                                 amountOrDash(BigInt(one.fees) + BigInt(one.penalties)), amount(desk.total(one)),
                                 amountOrDash(one.outstanding), stateOf(one)
                             ]));
    const columns = [
        {words: say("instalment.short")}, {words: say("due")}, {words: say("portion.principal"), kind: "number"},
        {words: say("portion.interest"), kind: "number"}, {words: say("statement.charges"), kind: "number"},
        {words: say("owed"), kind: "number"}, {words: say("left-to-pay"), kind: "number"}, {words: say("state")}
    ];
    return table({caption: say("loan.schedule"), columns, rows}).node;
}

function entryTable(told) {
    if (told.day === null) {
        return element("p", {}, say("loan.no-entries"));
    }
    const standing = told.entries.filter((entry) => !entry.reversed);
    const {first, after} = balances(told.instalments, standing);
    const rows = [
        row([day(told.day), say("loan.pay-out"), "–", "", amount(told.principal), amount(first)]),
        ...after.map(({entry, left}) => {
            const kind = say(`kind.${entry.kind}`);
            const cells = [day(entry.day), kind, entry.receipt ?? "–", shareList(entry), amount(entry.amount)];
            return row([...cells, amount(left)]);
        })
    ];
    const repaid = sum(standing.filter(({kind}) => kind === "repayment").map((entry) => entry.amount));
    const foot = row([{head: say("statement.repaid")}, "", "", "", amount(repaid), ""], {class: "fw-semibold"});
    const columns = [
        {words: say("day")}, {words: say("kind")}, {words: say("receipt")}, {words: say("entry.shares")},
        {words: say("amount"), kind: "number"}, {words: say("left-to-pay"), kind: "number"}
    ];
    return table({caption: say("loan.entries"), columns, rows, foot}).node;
}

// What was left to pay once the loan was paid out, and after each entry in the order in which they count: a fee and a
// penalty add to it, and what an entry settles is taken off.
export function balances(instalments, standing) {
    const added = (entry) => (["fee", "penalty"].includes(entry.kind) ? BigInt(entry.amount) : 0n);
    const first = sum(instalments.map(desk.total)) - sum(standing.map(added));
    let left = first;
    const inOrder = [...standing].sort((one, other) => one.day.localeCompare(other.day) || one.entry - other.entry);
    const after = inOrder.map((entry) => {
        left += added(entry) - sum(entry.shares.map(({amount: cents}) => cents));
        return {entry, left};
    });
    return {first, after};
}
