// Takes a round along: what the page shows of it, with what is typed in, is kept on this phone.
import {alertBox, fill} from "../shared/elements.js";
import {endDraft} from "../shared/drafts.js";
import {note} from "../shared/dialogs.js";
import {products} from "../shared/desk.js";
import {may, OFFICER, session} from "../shared/session.js";
import {say} from "../shared/words.js";
import {openByPin} from "./kept-asking.js";
import {termsOf} from "./kept-left.js";
import {takeRound} from "./kept-rounds.js";

export async function takeAlong(made) {
    if (!(await openByPin())) {
        return;
    }
    navigator.storage?.persist?.();  // so that no browser clears it away where its room gets short
    const open = may(OFFICER) ? (await products(true)).filter(({retired}) => !retired) : [];
    try {
        const terms = await termsOf(made.lines);
        const round = await takeRound({...roundOf(made, Date.now()), terms, products: open, mayEnter: may(OFFICER)});
        endDrafts(made.lines, round.lines);
    } catch (problem) {
        console.error(problem);
        fill(made.parts.trouble, alertBox("danger", say("kept.not-kept")));
        return;
    }
    location.hash = `#/kept/${made.office}/${made.day}`;
    note(say("kept.taken"));
}

// What is on the phone now is no draft of the browser's any more. Where the phone had another amount, both stay.
function endDrafts(lines, taken) {
    const byLoan = new Map(taken.map((line) => [line.loan, line]));
    const isTaken = ({loan, text, why}) => byLoan.get(loan).text === text && byLoan.get(loan).why === why;
    lines.filter(({text, why}) => text !== "" || why !== "").filter(isTaken).forEach(endDraft);
}

function roundOf({office, officeName, day, lines}, taken) {
    return {
        office,
        officeName,
        day,
        taken,
        businessDay: session.day,
        by: `${session.user} ${session.staff}`,
        lines: lines.map((line) => ({...line, typed: line.text === "" ? null : taken, isSent: line.result === "lost"}))
    };
}
