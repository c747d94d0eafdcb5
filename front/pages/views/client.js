// A client with their loans; a new loan.
import {button, card, element, emptyState, fill, link, spinner} from "../shared/elements.js";
import {change, Problem} from "../shared/api.js";
import {may, OFFICER} from "../shared/session.js";
import {
    clientName,
    isAccount,
    loan,
    loansAfter,
    loansOf,
    loansOfClient,
    numberOf,
    officeNamed,
    officeOf,
    products
} from "../shared/desk.js";
import {hasLists, loansOfListed} from "../shared/lists.js";
import {say, showPercent, showStep} from "../shared/words.js";
import {amount, day, facts, overdueBadge, pageHead, row, statusBadge, table} from "../shared/tables.js";
import {ask, note} from "../shared/dialogs.js";
import {choiceField, moneyField, moneyRange, numberField, numberRange} from "../shared/forms.js";
import {keptWriting, Writing} from "../shared/writing.js";
import {loanTable} from "./loans.js";
import {previewField} from "./preview.js";
import {visitsPart} from "./visits.js";

export async function client(page, account) {
    if (!isAccount(account ?? "")) {
        throw new Problem({fault: "F4"});
    }
    const [name, office] = await Promise.all([clientName(account), officeNamed(officeOf(account))]);
    const officeWords = office ? `${office.number} ${office.name}` : String(officeOf(account));
    const actions =
        may(OFFICER) ? [button(say("loan.new"), () => newLoan(account, name), {class: "btn btn-primary"})] : [];
    const place = element("div", {}, spinner(say("loading")));
    fill(
        page, pageHead({
            title: name,
            actions,
            trail: [[say("way.clients"), "#/clients"], [officeWords, `#/clients/${officeOf(account)}`]],
        }),
        card(null, facts([[say("client.number"), account], [say("office"), officeWords]])),
        element("div", {class: "mt-3"}, card(say("client.loans"), place)), visitsPart(account));
    const made = (await hasLists()) ? listedLoans(await loansOfListed(account)) : await readLoans(account);
    fill(place, made ?? emptyState(say("client.no-loans")));
}

async function readLoans(account) {
    const told = await Promise.all((await loansOfClient(account)).map(({loan: number}) => loan(number)));
    return told.length === 0 ? null : loanTable(told.reverse(), say("client.loans"), false);
}

// A client's loans as a list tells them, the last one first; none where there is no loan. isNarrow: for a dialog,
// without the days of pay-out.
export function listedLoans(loans, isNarrow = false) {
    const paidOut = ({disbursed}) => (isNarrow ? [] : [disbursed === null ? "–" : day(disbursed)]);
    const rows = [...loans].reverse().map(
        (one) => row([
            {head: link(`#/loan/${one.loan}`, one.loan)},
            [statusBadge(one.status), one.overdue > 0 && [" ", overdueBadge(one.overdue)]],
            ...paidOut(one), amount(one.principal), amount(one.left)
        ]));
    const columns = [
        {words: say("loan")}, {words: say("status")}, ...(isNarrow ? [] : [{words: say("loan.paid-out")}]),
        {words: say("principal"), kind: "number"}, {words: say("left-to-pay"), kind: "number"}
    ];
    return rows.length === 0 ? null : table({caption: say("client.loans"), columns, rows}).node;
}

async function newLoan(account, name) {
    const open = (await products(true)).filter((product) => !product.retired);
    if (open.length === 0) {
        note(say("loan.no-product"));
        return;
    }
    const made = await ask({
        title: say("loan.new"),
        text: say("loan.new.what", {client: name}),
        action: say("loan.submit"),
        ...loanForm(open, account, await hasLists()),
    });
    if (made !== null) {
        note(say("loan.submitted", {loan: made.loan}));
        location.hash = `#/loan/${made.loan}`;
    }
}

function loanForm(open, account, isListed) {
    const send = keptWriting(
        ({product, principal, periods}) =>
            loanWriting({client: account, product: Number(product), principal, periods}));
    const fields = loanFields(open);
    return {fields: isListed ? {...fields, preview: previewField(fields, open)} : fields, send};
}

// The ranges of amount and periods are those of the chosen product, and are shown anew where another is chosen.
export function loanFields(open) {
    const chosen = () => open.find((one) => String(one.product) === fields.product.input.value);
    const amounts = () => [chosen().min_principal, chosen().max_principal];
    const lengths = () => [chosen().min_periods, chosen().max_periods];
    const showLimits = () => {
        fields.product.help.textContent =
            say("loan.product", {rate: showPercent(chosen().rate), method: say(`method.${chosen().method}`)});
        fields.principal.help.textContent = moneyRange(amounts());
        fields.periods.help.textContent = `${numberRange(lengths())}, ${showStep(chosen())}`;
    };
    const choices = open.map((one) => [String(one.product), `${one.product} ${one.name}`]);
    const fields = {
        product: choiceField({label: say("product"), hint: " ", wide: true, onchange: showLimits, choices}),
        principal: moneyField({label: say("principal"), hint: " ", range: amounts}),
        periods: numberField({label: say("periods"), hint: " ", range: lengths}),
    };
    showLimits();
    return fields;
}

// The loans of a client with a list, else those of the office: what tells later that a loan was submitted is one past
// the last of those.
async function lastLoan(client) {
    const loans = (await hasLists()) ? await loansOfListed(client) : await loansOf(officeOf(client));
    return numberOf(loans.at(-1)?.loan ?? "0000-000000");
}

async function loansSince(client, last) {
    if (!(await hasLists())) {
        return loansAfter(officeOf(client), last);
    }
    return (await loansOfListed(client)).filter((one) => numberOf(one.loan) > last);
}

export function loanWriting(asked) {
    return new Writing({
        before: () => lastLoan(asked.client),
        send: async () => (await change("POST", "/loans", asked)).body,
        find: async (last) => {
            const since = await loansSince(asked.client, last);
            const told = await Promise.all(since.map(({loan: account}) => loan(account)));
            const same =
                (one) => ["client", "product", "principal", "periods"].every((name) => one[name] === asked[name]);
            return told.find(same) ?? null;
        },
    });
}
