// What may be done with a loan, by its status and the reader's role. Each is asked before it is sent.
import {change, repay} from "../shared/api.js";
import {MANAGER, OFFICER, TELLER, may, session} from "../shared/session.js";
import * as desk from "../shared/desk.js";
import {element} from "../shared/elements.js";
import {daysBetween, isDay} from "../shared/days.js";
import {percentageOf, sum} from "../shared/money.js";
import {isAskedFor, proposed} from "../shared/institution.js";
import {doubtsOf, doubtWords, knownOf, OLD_DAYS} from "../shared/repayments.js";
import {say, showDay, showMoney, showPercent} from "../shared/words.js";
import {ask, note} from "../shared/dialogs.js";
import {choiceField, dayField, moneyField, reasonField, receiptField} from "../shared/forms.js";
import {keptWriting, Writing} from "../shared/writing.js";
import {othersOf} from "./loan.js";
import {livePreview, previewNodes} from "./preview.js";

const SEALS = ["write-off", "refund"];

// each with its words, how to run it, and whether it is grave
export function loanActions(told, again) {
    const made = [];
    const offer = (rank, status, name, run, isGrave = false) => {
        if (may(rank) && told.status === status) {
            made.push({words: say(`do.${name}`), run: () => run(told, again), isGrave});
        }
    };
    offer(MANAGER, 100, "approve", approve);
    offer(MANAGER, 100, "reject", reject, true);
    offer(OFFICER, 100, "withdraw", stepTo("withdraw", 400, true), true);
    offer(MANAGER, 200, "disburse", disburse);
    offer(MANAGER, 200, "undo-approval", stepTo("undo-approval", 100));
    offer(TELLER, 300, "repayment", enterRepayment);
    offer(OFFICER, 300, "fee", enterFee);
    offer(OFFICER, 300, "penalty", enterPenalty);
    offer(MANAGER, 300, "waiver", enterWaiver);
    offer(MANAGER, 300, "write-off", enterWriteOff, true);
    offer(MANAGER, 700, "refund", enterRefund);
    return made;
}

// Asks, sends, tells that it was done and shows the loan anew. It is shown anew where nothing was done too: another may
// have changed it meanwhile. Where `send` answers words as `told`, these are told.
async function carryOut({name, told, again, values = {}, fields = {}, isGrave = false, text = [], check, send}) {
    const all = {loan: told.loan, client: told.name, ...values};
    const done = await ask({
        title: say(`do.${name}`),
        text: [say(`do.${name}.what`, all), ...text],
        fields,
        isGrave,
        action: say(`do.${name}`),
        check,
        send
    });
    if (done !== null) {
        note(done.told ?? say(`do.${name}.done`, all));
    }
    await again();
    document.getElementById("title")?.focus({preventScroll: true});
}

// the fields, and one for the reason, which is asked for where the day lies more than a week back
function withReason(fields) {
    const {input} = fields.day;
    const isOld = () => daysBetween(input.value || session.day, session.day) > OLD_DAYS;
    const reason = reasonField({isNeeded: isOld});
    const showReason = () => {
        reason.node.hidden = !isOld();
    };
    input.addEventListener("input", showReason);
    input.addEventListener("change", showReason);
    showReason();
    return {...fields, reason};
}

function withoutEmpty({reason, ...values}) {
    return reason === "" ? values : {...values, reason};
}

// a step to another status

function stepTo(step, status, isGrave = false) {
    return (told, again) => {
        const writing = stepWriting(told, step, status);
        const values = {amount: showMoney(told.principal)};
        return carryOut({name: step, told, again, values, isGrave, send: () => writing.attempt()});
    };
}

// Whoever approves sees what the loan would be, and what else the client has.
function approve(told, again) {
    const text = [
        told.preview && previewNodes(told.preview, session.day),
        told.others && [element("h2", {class: "h6"}, say("loan.others")), othersOf(told, true)]
    ].filter(Boolean);
    const writing = stepWriting(told, "approve", 200);
    const values = {amount: showMoney(told.principal)};
    return carryOut({name: "approve", told, again, values, text, send: () => writing.attempt()});
}

function reject(told, again) {
    const send = keptWriting(({reason}) => stepWriting(told, "reject", 500, {reason}));
    const values = {amount: showMoney(told.principal)};
    return carryOut({name: "reject", told, again, values, isGrave: true, fields: {reason: reasonField()}, send});
}

function stepWriting(told, step, status, body) {
    return new Writing({
        send: () => change("POST", `/loans/${told.loan}/${step}`, body),
        find: async () => {
            const now = await desk.loan(told.loan);
            return now.status === status || (status === desk.ACTIVE && now.day !== null) ? now : null;
        },
    });
}

async function disburse(told, again) {
    const fields = withReason({
        day: dayField(
            {label: say("loan.paid-out"), value: session.day, most: session.day, hint: say("do.disburse.hint")})
    });
    const text = told.preview === null ? await feeWords(told) : [payOutPreview(told, fields.day.input)];
    const send = keptWriting((values) => stepWriting(told, "disburse", desk.ACTIVE, withoutEmpty(values)));
    const sendAndTell = async (values) => {
        await send(values);
        const now = await desk.loan(told.loan).catch(() => null);
        return {told: now === null ? say("do.disburse.done", {loan: told.loan, handed: "–"}) : handedOverInFact(now)};
    };
    const values = {amount: showMoney(told.principal)};
    await carryOut({name: "disburse", told, again, fields, values, text, send: sendAndTell});
}

// what is paid out on the chosen day, by the desk
function payOutPreview({product, principal, periods}, input) {
    const chosen = () => (isDay(input.value) ? {product, principal, periods, day: input.value} : null);
    return livePreview([input], chosen);
}

async function feeWords(told) {
    const charge = told.terms.disbursement_charge;
    return charge === null ? [] : [handedOver(told, await desk.charge(charge))];
}

// What is kept as the fee of a pay-out, and what is handed over: known before it only where the fee isn't counted of
// the interest, which the schedule has that is made at the pay-out.
function handedOver(told, charge) {
    const words = {charge: charge.name, percent: showPercent(charge.value)};
    if (["percent-of-interest", "percent-of-amount-and-interest"].includes(charge.calc)) {
        return say("do.disburse.fee-later", {...words, of: say(`calc.${charge.calc}`)});
    }
    const principal = BigInt(told.principal);
    const fee = charge.calc === "flat" ? BigInt(charge.value) : percentageOf(principal, BigInt(charge.value));
    return say("do.disburse.fee", {...words, fee: showMoney(fee), handed: showMoney(principal - fee)});
}

function handedOverInFact({loan, principal, disbursement_fee: fee}) {
    const handed = showMoney(BigInt(principal) - BigInt(fee));
    const words = {loan, fee: showMoney(fee), handed};
    return say(BigInt(fee) > 0n ? "do.disburse.done-fee" : "do.disburse.done", words);
}

// a repayment: its receipt is made before it is sent, so it may be sent again

function enterRepayment(told, again) {
    const due = sum(told.instalments.filter((one) => one.due <= session.day).map((one) => one.outstanding));
    const next = BigInt(told.instalments.find(desk.isOpen)?.outstanding ?? 0);
    const owed = desk.total(told.outstanding);
    const fields = withReason({
        amount: moneyField({
            label: say("amount"),
            value: proposed(due > 0n && isAskedFor(due) ? due : next, owed),
            hint: say("do.repayment.hint", {due: showMoney(due), owed: showMoney(owed)})
        }),
        day: dayField({label: say("do.repayment.day"), value: session.day, least: told.day, most: session.day}),
        receipt: receiptField({label: say("receipt"), value: desk.nextReceipt(told.loan)}),
    });
    const known = knownOf(told, told.entries);
    const check = async (values) => asked(await doubtsOf({loan: told.loan, ...values}, known), values);
    return carryOut({name: "repayment", told, again, fields, check, send: (values) => sendRepayment(told, values)});
}

function asked(doubt, {amount}) {
    return doubt && {doubts: doubtWords(doubt), action: say("do.repayment.sure", {amount: showMoney(amount)})};
}

async function sendRepayment({loan}, repayment) {
    desk.keepReceipt(loan, repayment.receipt);
    try {
        await repay(loan, withoutEmpty(repayment));
    } catch (problem) {
        if (problem.fault === "F15") {
            desk.endReceipt(loan);
        }
        throw problem;
    }
    desk.endReceipt(loan);
    const now = await desk.loan(loan).catch(() => null);  // it is entered, whether or not this reading succeeds
    const left = now === null ? "–" : showMoney(desk.total(now.outstanding));
    const words = {loan, amount: showMoney(repayment.amount), receipt: repayment.receipt, left};
    return {told: say("do.repayment.done", words)};
}

// other entries: what tells later that one was entered is a new entry of this kind

function entryWriting(told, {path, body, kind, isSame = () => true}) {
    return new Writing({
        before: async () => (await desk.entries(told.loan)).length,
        send: () => change("POST", `/loans/${told.loan}/${path}`, body),
        find: async (count) => {
            const made = (await desk.entries(told.loan)).slice(count);
            return made.find((entry) => entry.kind === kind && entry.staff === session.staff && isSame(entry)) ?? null;
        },
    });
}

async function enterFee(told, again) {
    const dueCharges = (await desk.charges()).filter(({kind}) => kind === "due-date");
    if (dueCharges.length === 0) {
        note(say("do.fee.none"));
        return;
    }
    const fields = {
        charge: choiceField({
            label: say("charge"),
            choices: dueCharges.map((one) => [String(one.charge), `${one.charge} ${one.name}: ${chargeWords(one)}`])
        }),
        due: dayField({label: say("do.fee.due"), value: session.day, least: told.day, hint: say("do.fee.hint")}),
    };
    const send = keptWriting(
        ({charge, due}) => entryWriting(told, {path: "fees", kind: "fee", body: {charge: Number(charge), due}}));
    await carryOut({name: "fee", told, again, fields, send});
}

export function chargeWords({calc, value}) {
    return calc === "flat" ? showMoney(value) : `${showPercent(value)} ${say(`calc.${calc}`)}`;
}

async function enterPenalty(told, again) {
    const hasPenalty = (number) =>
        told.entries.some((entry) => entry.kind === "penalty" && !entry.reversed && entry.instalment === number);
    const late = told.instalments.filter((one) => desk.isOpen(one) && one.due < session.day && !hasPenalty(one.number));
    if (told.terms.overdue_charge === null || late.length === 0) {
        note(say(told.terms.overdue_charge === null ? "do.penalty.no-charge" : "do.penalty.none"));
        return;
    }
    const charge = await desk.charge(told.terms.overdue_charge);
    const fields = {instalment: instalmentChoice(late)};
    const send = keptWriting(({instalment}) => entryWriting(told, {
                                 path: "penalties",
                                 kind: "penalty",
                                 body: {instalment: Number(instalment)},
                                 isSame: (entry) => entry.instalment === Number(instalment),
                             }));
    await carryOut(
        {name: "penalty", told, again, fields, values: {charge: `${charge.name}: ${chargeWords(charge)}`}, send});
}

function instalmentChoice(instalments) {
    return choiceField({
        label: say("instalment"),
        choices: instalments.map(
            (one) => [String(one.number), `${one.number} · ${showDay(one.due)} · ${showMoney(one.outstanding)}`]),
    });
}

function enterWaiver(told) {
    location.hash = `#/waivers/${told.loan}`;
}

function enterWriteOff(told, again) {
    const send = keptWriting(
        ({reason}) => entryWriting(told, {path: "write-off", kind: "write-off", body: {reason}}));
    const values = {amount: showMoney(desk.total(told.outstanding))};
    return carryOut({name: "write-off", told, again, isGrave: true, values, fields: {reason: reasonField()}, send});
}

function enterRefund(told, again) {
    const send = keptWriting(() => entryWriting(told, {path: "refund", kind: "refund"}));
    return carryOut({name: "refund", told, again, values: {amount: showMoney(told.overpaid)}, send});
}

// a reversal: where a write-off or a refund stands, that one alone

export function mayReverse(told, entry) {
    const seal = told.entries.find((one) => SEALS.includes(one.kind) && !one.reversed);
    return may(MANAGER) && !entry.reversed && (seal === undefined || seal.entry === entry.entry);
}

export function reverseEntry(told, entry, again) {
    const send = keptWriting(({reason}) => new Writing({
        send: () => change("POST", `/loans/${told.loan}/entries/${entry.entry}/reverse`, {reason}),
        find: async () =>
            (await desk.entries(told.loan)).find((one) => one.entry === entry.entry && one.reversed) ?? null,
    }));
    const values = {
        number: entry.entry,
        kind: say(`kind.${entry.kind}`),
        amount: showMoney(entry.amount),
        day: showDay(entry.day)
    };
    return carryOut({name: "reverse", told, again, isGrave: true, values, fields: {reason: reasonField()}, send});
}
