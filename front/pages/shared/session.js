// Who the reader is and what they may do. The desk tells no role, so it is learnt by three requests that can change
// nothing: each names something that is never there, and is refused by F3 for who may not send it, and otherwise for
// what it names.
import {Problem, change, read, whoAmI} from "./api.js";

export const TELLER = 1;
export const OFFICER = 2;
export const MANAGER = 3;
export const HEAD_OFFICE = 4;

const PROBES = [
    [OFFICER, "/loans", {client: "0001-000001", product: 0, principal: 1, periods: 1}],
    [MANAGER, "/loans/0001-000001/entries/0/reverse", undefined],
    [HEAD_OFFICE, "/products/0/retire", undefined],
];

export const session = {
    user: "",
    hasSession: false,
    staff: "",
    office: 0,
    rank: 0,
    day: ""
};

async function isAllowed(path, body) {
    try {
        await change("POST", path, body);
    } catch (problem) {
        if (problem.fault === "F3" || problem.front === "reader") {
            return false;
        }
        if (problem.fault === null || problem.fault === "F20" || problem.fault === "F2") {
            throw problem;
        }
    }
    return true;
}

async function learnRank() {
    let rank = TELLER;
    for (const [needed, path, body] of PROBES) {
        if (!(await isAllowed(path, body))) {
            break;
        }
        rank = needed;
    }
    return rank;
}

// What is kept for the session belongs to one person: where another signs in it is given up.
function keepFor(person) {
    if (sessionStorage.getItem("person") !== person) {
        sessionStorage.clear();
        sessionStorage.setItem("person", person);
    }
}

export async function beginSession() {
    const {user, staff, session: hasSession = false} = await whoAmI();
    if (staff === "") {
        throw new Problem({fault: "F2"});
    }
    keepFor(`${user} ${staff}`);
    session.user = user;
    session.hasSession = hasSession;
    session.staff = staff;
    session.office = Number(staff.split("/")[0]);
    session.day = (await read("/business-day")).day;
    session.rank = Number(sessionStorage.getItem("rank")) || (await learnRank());
    sessionStorage.setItem("rank", String(session.rank));
}

// Nobody is known to be signed in: nothing answers.
export function endSession() {
    Object.assign(session, {user: "", hasSession: false, staff: "", office: 0, rank: 0, day: ""});
}

export async function renewDay() {
    session.day = (await read("/business-day")).day;
    return session.day;
}

export function may(rank) {
    return session.rank >= rank;
}
