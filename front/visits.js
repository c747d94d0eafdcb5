// Keeps notes of visits for the front: one file a client, a line of JSON a note. It runs in nginx. A note is kept, and
// notes are told, for whoever the desk tells of the client, and for nobody else.
import fs from "fs";

const MOST_LETTERS = 1000;
const MOST_BYTES = 64 * 1024;  // of a client's file
const MEMBERS = ["day", "key", "text"];
const FIRST_DAY = "2000-01-01";  // of those that the desk knows
const LAST_DAY = "2099-12-31";

function isDay(day) {
    const isWritten = /^\d{4}-\d{2}-\d{2}$/.test(day) && day >= FIRST_DAY && day <= LAST_DAY;
    const moment = Date.parse(`${day}T00:00:00Z`);
    return isWritten && !isNaN(moment) && new Date(moment).toISOString().slice(0, 10) === day;
}

// Lines may end in it, and nothing else may act on whoever reads it.
function isText(text) {
    return text.trim() !== "" && text.length <= MOST_LETTERS && !/[\x00-\x09\x0b-\x1f\x7f-\x9f]/.test(text);
}

// the note that a message brings, or null where it is none
function noteIn(request) {
    let asked = null;
    try {
        asked = JSON.parse(new TextDecoder("utf-8", {fatal: true}).decode(request.requestBuffer));
    } catch (_) {
        return null;
    }
    const isNote = asked !== null && typeof asked === "object" &&
        JSON.stringify(Object.keys(asked).sort()) === JSON.stringify(MEMBERS) &&
        MEMBERS.every((name) => typeof asked[name] === "string");
    return isNote && /^[0-9a-f]{32}$/.test(asked.key) && isDay(asked.day) && isText(asked.text) ? asked : null;
}

function placeOf(variables) {
    return `${variables.visits_folder}/${variables.visits}`;
}

// the bytes of a client's file
function bytesAt(place) {
    try {
        return fs.readFileSync(place);
    } catch (fault) {
        if (fault.code === "ENOENT") {
            return Buffer.from("");
        }
        throw fault;
    }
}

function lineOf(text) {
    try {
        return JSON.parse(text);
    } catch (_) {
        return null;  // a full disk cut it short: nobody was told that it is kept
    }
}

// The notes in a file, in the order in which they came, each once: two workers may have kept one key at one moment.
function notesIn(bytes) {
    const keys = {};
    const lines = new TextDecoder().decode(bytes).split("\n").map(lineOf);
    return lines.filter((note) => {
        const isNew = note !== null && keys[note.key] === undefined;
        if (isNew) {
            keys[note.key] = true;
        }
        return isNew;
    });
}

function answer(request, status, text) {
    request.variables.reply = request.method === "POST" ? text : "";
    request.return(status, text);
}

// What the desk answers for the client, where it is another thing than the client. Hidden and missing are the same.
async function refusalOfDesk(request) {
    const reply = await request.subrequest(`/client-of-visits/${request.variables.visits}`);
    request.variables.asked_desk = "1";
    return reply.status === 200 ? null : reply;
}

function failed(request, fault) {
    request.error(`visits: ${fault.message}`);
    answer(request, 503, '{"front":"disk"}');
}

// One note is one writing at the file's end, so that two workers can't mix their lines.
function keep(request, note) {
    const variables = request.variables;
    const place = placeOf(variables);
    const bytes = bytesAt(place);
    if (notesIn(bytes).some((one) => one.key === note.key)) {
        return answer(request, 200, '{"visit":"repeated"}');
    }
    const start = bytes.length === 0 || bytes[bytes.length - 1] === 10 ? "" : "\n";
    const line = JSON.stringify({
        time: variables.time_iso8601,
        key: note.key,
        day: note.day,
        user: variables.signed_in,
        staff: variables.staff,
        text: note.text
    });
    const added = Buffer.from(`${start}${line}\n`);
    if (bytes.length + added.length > MOST_BYTES) {
        return answer(request, 413, '{"front":"full"}');
    }
    fs.appendFileSync(place, added, {mode: 0o600});
    return answer(request, 201, '{"visit":"entered"}');
}

async function note(request) {
    const asked = noteIn(request);
    const refusal = asked === null ? null : await refusalOfDesk(request);
    if (asked === null) {
        answer(request, 400, '{"front":"visit"}');
    } else if (refusal !== null) {
        answer(request, refusal.status, refusal.responseText);
    } else {
        try {
            keep(request, asked);
        } catch (fault) {
            failed(request, fault);
        }
    }
}

// A key is its writer's alone.
function shown(note) {
    return {time: note.time, day: note.day, user: note.user, staff: note.staff, text: note.text};
}

async function tell(request) {
    const refusal = await refusalOfDesk(request);
    if (refusal !== null) {
        answer(request, refusal.status, refusal.responseText);
        return;
    }
    try {
        answer(request, 200, JSON.stringify({visits: notesIn(bytesAt(placeOf(request.variables))).map(shown)}));
    } catch (fault) {
        failed(request, fault);
    }
}

export default {note, tell};
