// The catalogue: charges and products, which all offices lend by; head office enters them.
import {button, card, element, emptyState, fill} from "../shared/elements.js";
import {change, read} from "../shared/api.js";
import {HEAD_OFFICE, may} from "../shared/session.js";
import {charges, products} from "../shared/desk.js";
import {MOST} from "../shared/money.js";
import {say, showCount, showMoney, showPercent, showStep} from "../shared/words.js";
import {facts, pageHead, row, table} from "../shared/tables.js";
import {ask, note} from "../shared/dialogs.js";
import {choiceField, moneyField, nameField, numberChoiceField, numberField, percentField} from "../shared/forms.js";
import {keptWriting, Writing} from "../shared/writing.js";
import {chargeWords} from "./loan-actions.js";

const KINDS = ["disbursement", "instalment", "overdue", "due-date"];
const CALCS = ["flat", "percent-of-amount", "percent-of-interest", "percent-of-amount-and-interest"];
const METHODS = ["flat", "declining-equal-principal", "declining-equal-instalments"];
const STRATEGIES = [
    "mifos-standard-strategy", "principal-interest-penalties-fees-order-strategy",
    "interest-principal-penalties-fees-order-strategy", "due-first-by-portion"
];

export async function catalogue(page) {
    const [chargeList, productList] = await Promise.all([charges(), products(true)]);
    const again = () => catalogue(page);
    const actions = may(HEAD_OFFICE) ?
        [
            button(say("charge.new"), () => newCharge(again)),
            button(say("product.new"), () => newProduct(chargeList, again), {class: "btn btn-primary"})
        ] :
        [];
    fill(
        page, pageHead({title: say("catalogue.title"), actions}),
        card(
            say("products"),
            productList.length === 0 ?
                emptyState(say("products.none")) :
                element(
                    "div", {class: "row g-3"}, productList.map((product) => productCard(product, chargeList, again)))),
        element(
            "div", {class: "mt-3"},
            card(say("charges"), chargeList.length === 0 ? emptyState(say("charges.none")) : chargeTable(chargeList))));
}

function chargeTable(list) {
    const rows = list.map(
        (charge) =>
            row([{head: `${charge.charge} ${charge.name}`}, say(`charge.${charge.kind}`), chargeWords(charge)]));
    const columns = [{words: say("charge")}, {words: say("charge.kind")}, {words: say("charge.value")}];
    return table({caption: say("charges"), columns, rows}).node;
}

function productCard(product, chargeList, again) {
    const named = (number) =>
        chargeList[number - 1] && `${number} ${chargeList[number - 1].name}: ${chargeWords(chargeList[number - 1])}`;
    const chargeFacts = ["disbursement_charge", "instalment_charge", "overdue_charge"]
                            .filter((name) => product[name] !== null)
                            .map((name) => [say(`product.${name}`), named(product[name])]);
    const state = product.retired ? element("span", {class: "badge status-ended ms-2"}, say("product.retired")) : null;
    const retire =
        may(HEAD_OFFICE) && !product.retired && button(say("product.retire"), () => retireProduct(product, again), {
            class: "btn btn-sm btn-outline-danger",
            "aria-label": say("product.retire.name", {product: product.name})
        });
    return element(
        "div", {class: "col-12 col-lg-6"},
        element(
            "article", {class: `inner-card${product.retired ? " is-retired" : ""}`},
            element("h3", {class: "h6"}, `${product.product} ${product.name}`, state), facts([
                [say("method"), say(`method.${product.method}`)],
                [say("rate"), `${showPercent(product.rate)} ${say("rate.yearly")}`],
                [say("product.step"), showStep(product)],
                [say("product.amounts"), `${showMoney(product.min_principal)} – ${showMoney(product.max_principal)}`],
                [say("periods"), `${showCount(product.min_periods)} – ${showCount(product.max_periods)}`],
                [say("product.graces"), `${showCount(product.principal_grace)} / ${showCount(product.interest_grace)}`],
                [say("strategy"), say(`strategy.${product.strategy}`)], ...chargeFacts
            ]),
            retire));
}

// charges

async function newCharge(again) {
    const isFlat = () => fields.calc.input.value === "flat";
    const fields = {
        name: nameField({label: say("name")}),
        kind: choiceField({label: say("charge.kind"), choices: KINDS.map((kind) => [kind, say(`charge.${kind}`)])}),
        calc: choiceField({label: say("charge.calc"), choices: CALCS.map((calc) => [calc, say(`calc.${calc}`)])}),
        value: moneyField({
            label: say("charge.value"),
            range: () => [1n, isFlat() ? MOST : 10_000n],
            hint: say("charge.value.hint", {most: showMoney(MOST), percent: showMoney(10_000n), least: showMoney(1n)}),
        }),
    };
    const done = await ask({
        title: say("charge.new"),
        text: say("charge.new.what"),
        fields,
        action: say("charge.enter"),
        send: keptWriting((charge) => catalogueWriting("/charges", charge, charges)),
    });
    await told(done, "charge.entered", again);
}

async function told(done, key, again) {
    if (done !== null) {
        note(say(key));
        await again();
    }
}

// What tells later that it was entered is one with the same members and a number past those that were there before.
function catalogueWriting(path, members, list) {
    return new Writing({
        before: async () => (await list(true)).length,
        send: () => change("POST", path, members),
        find: async (count) => {
            const same = (one) => Object.entries(members).every(([name, value]) => one[name] === value);
            return (await list(true)).slice(count).find(same) ?? null;
        },
    });
}

// products

function productFields(chargeList) {
    const chargeOf = (kind, label) => numberChoiceField({
        label,
        choices: [
            ["none", say("none")],
            ...chargeList.filter((one) => one.kind === kind)
                .map((one) => [String(one.charge), `${one.charge} ${one.name}: ${chargeWords(one)}`])
        ],
    });
    const most = () => (fields.frequency.input.value === "weeks" ? 52 : 12);
    const fields = {
        name: nameField({label: say("name")}),
        method: choiceField({label: say("method"), choices: METHODS.map((one) => [one, say(`method.${one}`)])}),
        rate: percentField({label: say("product.rate"), least: 0n, most: 100_000n}),
        frequency: choiceField({
            label: say("product.frequency"),
            value: "months",
            choices: ["weeks", "months"].map((one) => [one, say(`product.${one}`)])
        }),
        every: numberField(
            {label: say("product.every"), value: "1", range: () => [1, most()], hint: say("product.every.hint")}),
        min_principal: moneyField({label: say("product.min_principal")}),
        max_principal: moneyField({label: say("product.max_principal")}),
        min_periods: numberField({label: say("product.min_periods"), value: "1", range: () => [1, 360]}),
        max_periods: numberField({label: say("product.max_periods"), range: () => [1, 360]}),
        principal_grace: numberField({label: say("product.principal_grace"), value: "0", range: () => [0, 359]}),
        interest_grace: numberField({label: say("product.interest_grace"), value: "0", range: () => [0, 359]}),
        strategy:
            choiceField({label: say("strategy"), choices: STRATEGIES.map((one) => [one, say(`strategy.${one}`)])}),
        disbursement_charge: chargeOf("disbursement", say("product.disbursement_charge")),
        instalment_charge: chargeOf("instalment", say("product.instalment_charge")),
        overdue_charge: chargeOf("overdue", say("product.overdue_charge")),
    };
    return fields;
}

async function newProduct(chargeList, again) {
    const done = await ask({
        title: say("product.new"),
        text: say("product.new.what"),
        fields: productFields(chargeList),
        action: say("product.enter"),
        send: keptWriting((members) => catalogueWriting("/products", members, products)),
    });
    await told(done, "product.entered", again);
}

async function retireProduct(product, again) {
    const writing = new Writing({
        send: () => change("POST", `/products/${product.product}/retire`),
        find: async () => ((await read(`/products/${product.product}`)).retired ? product : null),
    });
    const done = await ask({
        title: say("product.retire"),
        text: say("product.retire.what", {product: product.name}),
        isGrave: true,
        action: say("product.retire"),
        send: () => writing.attempt(),
    });
    await told(done, "product.retired.done", again);
}
