// Several things that are sent one after another: each line can be left out, is told with its result, and can be sent
// again. Sent twice, none of them is done twice: the desk refuses by F14 what is done already.
import {alertBox, button, element, fill, freshId} from "../shared/elements.js";
import {Problem} from "../shared/api.js";
import {say, sayCount} from "../shared/words.js";
import {row, table} from "../shared/tables.js";
import {resultNode, tally} from "./round-sheet.js";

// lines: { name, cells, send }; columns: those of the cells; fields: read once more before each sending; action: the
// key of the words of the button, which count the lines
export function severalLines({caption, columns, lines, fields = {}, action}) {
    const made = lines.map((line) => lineRow(line, () => showState()));
    const summary = element("p", {class: "mb-0 fw-semibold", role: "status"});
    const trouble = element("div", {"aria-live": "assertive"});
    const send = button("", () => sendAll(), {class: "btn btn-primary"});
    const chosen = () => made.filter(({line, box}) => box.checked && !isDone(line));
    const showState = () => {
        send.textContent = sayCount(action, chosen().length);
        send.disabled = chosen().length === 0;
        summary.textContent = tally(lines.map(({result}) => result));
    };
    const sendAll = async () => {
        const values = readFields(fields);
        if (values === null) {
            return;
        }
        fill(trouble);
        send.disabled = true;
        const problem = await sendEach(chosen(), values);
        fill(trouble, problem && alertBox("warning", say("several.stopped")));
        showState();
    };
    showState();
    const heads =
        [{words: say("several.choose"), isHidden: true}, ...columns, {words: say("several.result"), isWide: true}];
    const rows = made.map(({tr}) => tr);
    return {
        choose: (isWanted) => {
            made.forEach(({line, box}) => (box.checked = isWanted(line) && !isDone(line)));
            showState();
        },
        node: element(
            "div", {}, table({caption, columns: heads, rows}).node, trouble,
            element("div", {class: "round-end d-print-none"}, summary, element("div", {class: "page-actions"}, send)))
    };
}

function isDone({result}) {
    return ["entered", "repeated"].includes(result);
}

function readFields(fields) {
    const judged = Object.entries(fields).map(([name, field]) => [name, field.read(), field]);
    const wrong = judged.find(([, {wrong: words}]) => words !== undefined);
    wrong?.[2].input.focus();
    return wrong ? null : Object.fromEntries(judged.map(([name, {value}]) => [name, value]));
}

function lineRow(line, change) {
    const id = freshId("choose");
    const box = element("input", {
        class: "form-check-input",
        type: "checkbox",
        id,
        checked: true,
        "aria-label": say("several.choose.line", {line: line.name}),
        onchange: change
    });
    const result = element("div", {class: "line-result", "aria-live": "polite"});
    const show = () => {
        box.disabled = line.isSending === true || isDone(line);
        result.replaceChildren(line.isSending ? say("sending") : resultNode(line.result));
    };
    line.result = null;
    const tr = row([element("label", {class: "choose", "for": id}, box), ...line.cells, result]);
    return {line, box, tr, show};
}

// Ends early where no reply comes, and answers that problem: what comes after it was not sent.
async function sendEach(made, values) {
    for (const {line, show} of made) {
        const wasLost = line.result === "lost";
        line.isSending = true;
        show();
        const problem = await sendLine(line, values, wasLost);
        line.isSending = false;
        show();
        if (problem?.isLost || problem?.front === "password") {
            return problem;
        }
    }
    return null;
}

async function sendLine(line, values, wasLost) {
    try {
        await line.send(values);
        line.result = "entered";
        return null;
    } catch (problem) {
        if (!(problem instanceof Problem)) {
            throw problem;
        }
        line.result = wasLost && problem.fault === "F14" ? "repeated" : problem.fault ?? "lost";
        return problem;
    }
}
