// Collection sheets: the repayments of a round or of a file are sent line by line, and what came of each is told.
import {alertBox, button, card, element, fill, freshId} from "../shared/elements.js";
import {loadLibrary, Problem, repay} from "../shared/api.js";
import {entries as readEntries, isAccount, isFormula, isReceipt, loan as readLoan} from "../shared/desk.js";
import {institution} from "../shared/institution.js";
import {centsOfText, LEAST, MOST, sum, textOfCents} from "../shared/money.js";
import {daysBetween, isDay} from "../shared/days.js";
import {session} from "../shared/session.js";
import {doubtsOf, doubtWords, knownOf, OLD_DAYS} from "../shared/repayments.js";
import {ask} from "../shared/dialogs.js";
import {reasonField} from "../shared/forms.js";
import {inWords} from "../shared/refusals.js";
import {say, sayCount, showCount, showDay, showMoney} from "../shared/words.js";
import {amount, day, row, table} from "../shared/tables.js";

const NAMES = ["receipt", "loan", "date", "amount"];
const CSV = "/lib/dsv/d3-dsv.min.js";  // reads and writes sheets
const MOST_BYTES = 1_048_576;
const FORMULA = "formula";  // what comes of a line whose receipt a spreadsheet would take for a formula

// Asks once more what speaks against lines, and why where some lie far back. Answers the reason, "" where none is
// needed, or null where the reader thought better of it.
export async function askBefore(lines) {
    const doubts = (await Promise.all(lines.map(doubtOf))).filter(Boolean);
    const oldest = lines.map((line) => line.day).sort()[0] ?? session.day;
    const isOld = daysBetween(oldest, session.day) > OLD_DAYS;
    if (doubts.length === 0 && !isOld) {
        return "";
    }
    const asked = doubts.length === 0 ?
        {title: say("round.old"), text: say("round.old.what", {day: showDay(oldest)})} :
        {title: say("round.doubts"), text: [sayCount("round.doubts.what", doubts.length), doubts], isGrave: true};
    const values = await ask({
        ...asked,
        fields: isOld ? {reason: reasonField()} : {},
        action: sayCount(doubts.length === 0 ? "round.enter" : "round.enter-sure", lines.length),
        send: async (given) => given
    });
    return values === null ? null : values.reason ?? "";
}

// What speaks against a line, in words. Where its loan isn't there to be seen, sending it says so.
async function doubtOf({loan, name, cents, day, receipt, known}) {
    try {
        const doubt = await doubtsOf({loan, amount: cents, day, receipt}, known ?? await readKnown(loan));
        const heading = [name ?? receipt, loan, showMoney(cents)].join(" · ");
        return doubt &&
            element("div", {class: "inner-card mb-2"}, element("h3", {class: "h6"}, heading), doubtWords(doubt));
    } catch (problem) {
        if (problem instanceof Problem && problem.fault === "F4") {
            return null;
        }
        throw problem;
    }
}

async function readKnown(loan) {
    const [told, entries] = await Promise.all([readLoan(loan), readEntries(loan)]);
    return knownOf(told, entries);
}

// Sends lines in their order, each once what is told of it is done. Ends early where no reply comes, and answers that
// problem: the lines after it were not sent.
export async function sendLines(lines, reason, tell) {
    for (const line of lines) {
        line.isSending = true;
        line.result = null;
        await tell(line);
        const problem = await sendLine(line, reason);
        line.isSending = false;
        await tell(line);
        if (problem?.isLost || problem?.front === "password") {
            return problem;
        }
    }
    return null;
}

// The core ignores who collected, and why; the log of the front keeps both.
export async function sendLine(line, reason) {
    const repayment = {amount: Number(line.cents), day: line.day, receipt: line.receipt};
    const more = Object.entries({collector: line.collector ?? "", reason}).filter(([, words]) => words !== "");
    try {
        const {status} = await repay(line.loan, {...repayment, ...Object.fromEntries(more)});
        line.result = status === 201 ? "entered" : "repeated";
        return null;
    } catch (problem) {
        if (!(problem instanceof Problem)) {
            throw problem;
        }
        line.result = problem.fault ?? (problem.isLost ? "lost" : problem.front);
        return problem;
    }
}

// what came of a line: entered, repeated, the refusal in words, or that no reply came
export function resultNode(result) {
    if (result === null) {
        return "";
    }
    if (result === "entered" || result === "repeated") {
        return element("span", {class: "badge status-closed", "data-result": result}, say(`result.${result}`));
    }
    if (result === FORMULA) {
        return element("span", {class: "line-refusal", "data-result": result}, say("sheet.formula"));
    }
    if (result === "lost" || result === "doubt") {
        return element("span", {class: "badge status-waiting", "data-result": result}, say(`result.${result}`));
    }
    const isFault = /^F\d/.test(result);
    const {what, todo} = inWords(new Problem(isFault ? {fault: result} : {front: result}));
    return element(
        "span", {class: "line-refusal", "data-result": result},
        element("strong", {}, `${isFault ? `${result}: ` : ""}${what} `), todo);
}

// how often lines came to what, in words
export function tally(results) {
    const count = (name) => results.filter((result) => result === name).length;
    const known = {entered: count("entered"), repeated: count("repeated"), lost: count("lost"), doubt: count("doubt")};
    const refused = results.filter(Boolean).length - known.entered - known.repeated - known.lost - known.doubt;
    const counts = {entered: known.entered, repeated: known.repeated, refused, lost: known.lost, doubt: known.doubt};
    return Object.entries(counts)
        .filter(([, number]) => number > 0)
        .map(([name, number]) => say(`tally.${name}`, {count: showCount(number)}))
        .join(" · ");
}

// the round as a sheet: the amounts typed in; where none is, what is due
export async function saveSheet(lines, name) {
    await loadLibrary(CSV);
    const isTyped = lines.some((line) => line.cents !== null);
    const rows = lines.filter((line) => (isTyped ? line.cents !== null : line.due > 0n))
                     .map((line) => [line.receipt, line.loan, line.day, textOfCents(line.cents ?? line.due)]);
    const total = ["total", String(rows.length), "", textOfCents(sum(rows.map((fields) => centsOfText(fields[3]))))];
    const all = institution.asksTotal ? [NAMES, ...rows, total] : [NAMES, ...rows];
    saveText(`${d3.csvFormatRows(all)}\n`, `sheet-${name}.csv`);
}

function saveText(text, name) {
    const address = URL.createObjectURL(new Blob([text], {type: "text/csv"}));
    const save = element("a", {href: address, download: name});
    document.body.append(save);
    save.click();
    save.remove();
    URL.revokeObjectURL(address);
}

// a sheet from disk

// Reads as the command `collect` does: a first line with the names of the columns is passed over, spaces round a field
// are ignored, and a line that has not four good fields is refused by F1.
export function readSheet(text) {
    const rows = d3.csvParseRows(text.replace(/^\ufeff/, "")).filter((fields) => fields.length > 1 || fields[0] !== "");
    const bare = rows.map((fields) => fields.map((field) => field.replace(/^[ \t]+|[ \t]+$/g, "")));
    const isHead = bare[0]?.length === 4 && bare[0].every((field, i) => field.toLowerCase() === NAMES[i]);
    return (isHead ? bare.slice(1) : bare).map((fields, i) => lineOf(fields, rows[i + (isHead ? 1 : 0)]));
}

function lineOf(fields, written) {
    const [receipt, loan, date, money] = fields;
    const cents = centsOf(money ?? "");
    const isRepayment = fields.length === 4 && isReceipt(receipt) && isAccount(loan) && isDay(date) && cents !== null;
    const isGood = isRepayment && !isFormula(receipt);
    const refusal = isRepayment ? FORMULA : "F1";
    return {receipt, loan, day: date, cents, written, isGood, result: isGood ? null : refusal};
}

// The lines of a sheet that is whole, or what speaks against it. One that ends in the middle of a line may have been
// cut there, in an amount say: it is taken where its last line has its end, or where a last line `total,COUNT,,SUM`
// tells how many lines come before it and what they come to.
export function readWholeSheet(text) {
    const read = readSheet(text);
    const [, count, none, money] = read.at(-1)?.written.map((field) => field.trim()) ?? [];
    if (read.at(-1)?.written[0].trim().toLowerCase() === "total") {
        const lines = read.slice(0, -1);
        const cents = sum(lines.map((line) => line.cents ?? 0n));
        const isRight = count === String(lines.length) && none === "" && centsOf(money ?? "") === cents;
        const words = {count: showCount(lines.length), amount: showMoney(cents)};
        return isRight ? {lines} : {problem: say("sheet.total-wrong", words)};
    }
    if (institution.asksTotal) {
        return {problem: say("sheet.total-missing")};
    }
    const isWhole = (/[\n\r]$/.test(text) || text === "") && text.split('"').length % 2 === 1;
    return isWhole ? {lines: read} : {problem: say("sheet.cut")};
}

function centsOf(text) {
    const cents = /^\d{1,11}(\.\d{1,2})?$/.test(text) ? centsOfText(text) : null;
    return cents !== null && cents >= LEAST && cents <= MOST ? cents : null;
}

function resultText(lines) {
    const harmless = (field) => (isFormula(field.trim()) ? `'${field}` : field);
    const rows = lines.map((line) => [...NAMES.map((_, i) => harmless(line.written[i] ?? "")), line.result ?? ""]);
    return `${d3.csvFormatRows([[...NAMES, "result"], ...rows])}\n`;
}

export function sheetCard() {
    const id = freshId("sheet");
    const input = element("input", {class: "form-control", type: "file", id, accept: ".csv,text/csv"});
    const place = element("div", {class: "mt-3"});
    input.addEventListener("change", async () => {
        const file = input.files[0];
        if (file) {
            await showFile(place, file);
        }
    });
    return card(
        say("sheet.title"), element("p", {class: "text-muted"}, say("sheet.what")),
        element("label", {class: "form-label", "for": id}, say("sheet.choose")), input, place);
}

async function showFile(place, file) {
    if (file.size > MOST_BYTES) {
        fill(place, alertBox("danger", say("sheet.large")));
        return;
    }
    await loadLibrary(CSV);
    const {lines, problem} = readWholeSheet(await file.text());
    if (problem) {
        fill(place, alertBox("danger", problem));
        return;
    }
    if (lines.length === 0) {
        fill(place, alertBox("info", say("sheet.empty")));
        return;
    }
    showSheet(place, lines, file.name);
}

function showSheet(place, lines, name) {
    const good = lines.filter((line) => line.isGood);
    const rows = new Map(lines.map((line) => [line, sheetRow(line)]));
    const summary = element(
        "p", {class: "fw-semibold", role: "status"},
        say("sheet.found", {count: showCount(lines.length), good: showCount(good.length)}));
    const trouble = element("div", {"aria-live": "assertive"});
    const save = button(
        say("sheet.save"), () => saveText(resultText(lines), name.replace(/(\.csv)?$/i, "-results.csv")),
        {class: "btn btn-outline-secondary", hidden: true});
    const enter = button(sayCount("round.enter", good.length), async () => {
        enter.disabled = true;
        fill(trouble);
        try {
            const reason = await askBefore(good);
            if (reason === null) {
                return;
            }
            const problem = await sendLines(good, reason, (line) => rows.get(line).show());
            fill(trouble, problem && alertBox("warning", say("round.stopped")));
        } finally {
            enter.disabled = false;
        }
        summary.textContent = tally(lines.map(({result}) => result));
        enter.textContent = say("round.send-again", {count: showCount(good.length)});
        save.hidden = false;
    }, {class: "btn btn-primary", disabled: good.length === 0});
    const columns = [
        {words: say("receipt")}, {words: say("loan")}, {words: say("day")}, {words: say("amount"), kind: "number"},
        {words: say("round.result"), isWide: true}
    ];
    fill(
        place, summary, table({caption: say("sheet.title"), columns, rows: [...rows.values()].map(({tr}) => tr)}).node,
        element("div", {class: "page-actions mt-3"}, enter, save), trouble);
}

function sheetRow(line) {
    const result = element("div", {class: "line-result", "aria-live": "polite"});
    const show = () => result.replaceChildren(line.isSending ? say("sending") : resultNode(line.result));
    show();
    const cells = line.isGood ? [{head: line.receipt}, line.loan, day(line.day), amount(line.cents), result] : [
        {head: line.written[0] ?? ""}, line.written[1] ?? "", line.written[2] ?? "", {number: line.written[3] ?? ""},
        result
    ];
    return {tr: row(cells), show};
}
