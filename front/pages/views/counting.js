// Cash that is counted by coin and note: the fields to type it in, what it comes to, and how far that is from what was
// expected. A count has how many there are of each size, and what else there is, as an amount: {counts, other}.
import {element} from "../shared/elements.js";
import {institution} from "../shared/institution.js";
import {sum} from "../shared/money.js";
import {readMoney, say, showCount, showMoney} from "../shared/words.js";

const MOST = 99_999;  // of one coin or note

function isCount(text) {
    return /^\d{1,5}$/.test(text) && Number(text) <= MOST;
}

// the cents of a count; null where it can't be read
export function countedOf({counts = {}, other = ""}) {
    const cents = Object.entries(counts).map(([size, text]) => (isCount(text) ? BigInt(size) * BigInt(text) : null));
    const more = other === "" ? 0n : readMoney(other);
    return cents.includes(null) || more === null ? null : sum([...cents, more]);
}

// a field with its words before it; take is told what is typed, and says whether that can be read
export function amountField({words, value, attributes, take, whenTyped}) {
    const input = element("input", {
        class: "form-control amount", type: "text", autocomplete: "off", value, "aria-label": words, ...attributes
    });
    input.addEventListener("input", () => {
        input.classList.toggle("is-invalid", !take(input.value.trim()));
        whenTyped();
    });
    return element("label", {class: "cash-line"}, element("span", {class: "amount"}, words), input);
}

function sizeField(cash, size, whenTyped) {
    const {counts} = cash;
    const take = (text) => {
        counts[size] = text === "" ? "0" : text;
        return isCount(counts[size]);
    };
    const value = counts[size] === "0" ? "" : counts[size] ?? "";
    const attributes = {inputmode: "numeric", maxlength: 5};
    return amountField({words: showMoney(size), value, attributes, take, whenTyped});
}

// the fields of a count, which is changed as it is typed
export function countFields(cash, whenTyped) {
    const take = (text) => {
        cash.other = text;
        return text === "" || readMoney(text) !== null;
    };
    const attributes = {inputmode: "decimal"};
    const other = amountField({words: say("cash.other"), value: cash.other, attributes, take, whenTyped});
    return [...institution.cash.map((size) => sizeField(cash, size, whenTyped)), other];
}

// how much is missing or too much; a dash where nothing was counted that can be read
export function gapWords(gap) {
    if (gap === null) {
        return "–";
    }
    const size = showMoney(gap < 0n ? -gap : gap);
    return gap === 0n ? say("cash.agrees", {amount: size}) :
                        say(gap < 0n ? "cash.missing" : "cash.beyond", {amount: size});
}

// of each coin and note that there is: how many, and what they come to
export function sizePairs({counts, other}) {
    const there = institution.cash.filter((size) => isCount(counts[size] ?? "") && Number(counts[size]) > 0);
    const pairs = there.map((size) => {
        const count = BigInt(counts[size]);
        return [`${showCount(count)} × ${showMoney(size)}`, showMoney(size * count)];
    });
    const more = readMoney(other);
    return more !== null && more > 0n ? [...pairs, [say("cash.other"), showMoney(more)]] : pairs;
}
