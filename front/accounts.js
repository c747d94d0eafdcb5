// Tells by one message what a phone plays of many loans, to work out what a payment leaves. It runs in nginx, which frees
// nothing that is made here before the message ends. So replies are read and written as bytes, without a text of each.

const MOST_LOANS = 1000;
const LAST_LOAN = 999999;
const MOST_HELD = 12 * 1024 * 1024;  // bytes of replies, after which no further loan is read
const NO_ROOM = {status: 413, responseText: '{"front":"large"}'};
const NO_REPLY = {status: 502, responseText: '{"front":"down"}'};

// The loans of a message by offices: 2:1.16.3 has 0002-000001, 0002-000017 and 0002-000020. Null where it names too
// many, a number that no loan has, or offices that don't ascend: what is asked for has one spelling.
function loansOf(spelled) {
    const loans = [];
    let before = 0;
    const isRight = spelled.split("&").every((part) => {
        const office = Number(part.split(":")[0]);
        const isNext = office > before;
        let loan = 0;
        part.split(":")[1].split(".").forEach((further) => {
            loan += Number(further);
            loans.push(`${String(office).padStart(4, "0")}-${String(loan).padStart(6, "0")}`);
        });
        before = office;
        return isNext && loan <= LAST_LOAN && loans.length <= MOST_LOANS;
    });
    return isRight ? loans : null;
}

// What is read. A reply of another form than the desk's, as one that was broken off, is told as none.

function placeOf(bytes, text, from) {
    const place = bytes.indexOf(text, from);
    if (place < 0) {
        throw new Error(`no ${text}`);
    }
    return place;
}

// whether bytes from a place on are those of a part
function isAt(bytes, place, part) {
    let i = 0;
    while (i < part.length && bytes[place + i] === part[i]) {
        i += 1;
    }
    return i === part.length;
}

// whether so many bytes from two places on are the same
function areSame(bytes, one, other, count) {
    let i = 0;
    while (i < count && bytes[one + i] === bytes[other + i]) {
        i += 1;
    }
    return i === count;
}

const ZERO = 0x30;
const OPENS = 0x7b;
const CLOSES = 0x7d;

function numberAt(bytes, start, end) {
    let number = 0;
    let place = start;
    while (place < end) {
        const digit = bytes[place] - ZERO;
        if (!(digit >= 0 && digit <= 9)) {
            throw new Error("no number");
        }
        number = 10 * number + digit;
        place += 1;
    }
    return number;
}

const MILLISECONDS_OF_DAY = 86400000;

// the number of a day that is written as 2024-03-31
function dayAt(bytes, place) {
    const year = numberAt(bytes, place, place + 4);
    const month = numberAt(bytes, place + 5, place + 7);
    return Date.UTC(year, month - 1, numberAt(bytes, place + 8, place + 10)) / MILLISECONDS_OF_DAY;
}

// What is written into a room, behind what stands there. It grows, since nginx makes all of one at once.

const FIRST_ROOM = 256 * 1024;

function makeRoom(room, more) {
    if (room.length + more > room.bytes.length) {
        const larger = Buffer.allocUnsafe(2 * room.bytes.length + more);
        room.bytes.copy(larger, 0, 0, room.length);
        room.bytes = larger;
    }
}

function put(room, from, start, end) {
    makeRoom(room, end - start);
    from.copy(room.bytes, room.length, start, end);
    room.length += end - start;
}

function putAll(room, part) {
    put(room, part, 0, part.length);
}

function putText(room, text) {
    putAll(room, Buffer.from(text));
}

function putNumber(room, number) {
    if (number > 9) {
        putNumber(room, Math.floor(number / 10));
    }
    room.bytes[room.length] = ZERO + number % 10;
    room.length += 1;
}

// how much more a number is than the one before: nothing where it is the same
function putStep(room, step) {
    if (step < 0) {
        putAll(room, MINUS);
    }
    if (step !== 0) {
        makeRoom(room, MOST_DIGITS);
        putNumber(room, Math.abs(step));
    }
}

function putOther(room, reply) {
    putText(room, JSON.stringify({status: reply.status, text: reply.responseText}));
}

// Members of a loan that a phone has no use for: from where one begins to where the next one does that it has a use for.
// The desk tells members in the order of their names.
const NOT_OF_LOAN = [
    {from: '"client":', to: '"day":'},
    {from: ',"disbursement_fee":', to: ',"outstanding":'},
    {from: ',"paid":', to: ',"periods":'},
    {from: ',"refunded":', to: ',"status":'},
    {from: ',"waived":', to: "}"}
];

// Whether all that a text opens is closed in it; a loan's members have no text with a brace.
function isWhole(bytes) {
    let open = 0;
    let place = 0;
    while (place < bytes.length) {
        open += bytes[place] === OPENS ? 1 : bytes[place] === CLOSES ? -1 : 0;
        place += 1;
    }
    return bytes.length > 0 && open === 0;
}

function putLoan(room, bytes) {
    if (!isWhole(bytes)) {
        throw new Error("not a whole loan");
    }
    let start = 0;
    NOT_OF_LOAN.forEach((cut) => {
        const from = bytes.indexOf(cut.from, start);
        const to = cut.to === "}" ? bytes.length - 1 : bytes.indexOf(cut.to, start);
        if (from >= 0 && to > from) {  // a loan that isn't paid out has fewer members
            put(room, bytes, start, from);
            start = to;
        }
    });
    put(room, bytes, start, bytes.length);
}

const REPAYMENT = Buffer.from('"instalment":null,"kind":"repayment","portion":null,"receipt":');
const STANDS = Buffer.from(',"reversed":false,"shares":');
const NULL = Buffer.from("null");
const END = Buffer.from("]}");
const MINUS = Buffer.from("-");
const COMMA = Buffer.from(",");
const COMMA_QUOTE = Buffer.from(',"');
const QUOTE_COMMA = Buffer.from('",');
const QUOTE = Buffer.from('"');
const SEMICOLON = Buffer.from(";");
const BRACE = Buffer.from("}");
const RECEIPT = Buffer.from(",r");
const NONE = Buffer.from("");
const AMOUNT_LENGTH = '{"amount":'.length;
const DAY_LENGTH = ',"day":"'.length;
const MOST_DIGITS = 15;  // of a number that is exact here

// Whether a text that begins at a place is the receipt that a round makes for a loan and the day of the entry itself:
// "2-20240331-000017" of 0002-000017.
function isOfRound(bytes, start, end, round, day) {
    const date = start + round.office.length;
    return end === date + 16 && isAt(bytes, start, round.office) && isAt(bytes, date + 8, round.number) &&
        areSame(bytes, date, day, 4) && areSame(bytes, date + 4, day + 5, 2) && areSame(bytes, date + 6, day + 8, 2);
}

// Puts a repayment that stands as steps from the one before: of its amount and its day, and an r where it has a round's
// receipt. Answers whether the entry is such a one; at: where its parts begin.
function putSteps(room, bytes, round, at, before) {
    const start = at.start + AMOUNT_LENGTH;
    const receipt = at.number + REPAYMENT.length;
    const isBare = isAt(bytes, receipt, NULL);
    const isPlain = at.day - start <= MOST_DIGITS && isAt(bytes, at.number, REPAYMENT) && isAt(bytes, at.reversed, STANDS) &&
        (isBare || isOfRound(bytes, receipt, at.reversed, round, at.day + DAY_LENGTH));
    if (isPlain) {
        const amount = numberAt(bytes, start, at.day);
        const day = dayAt(bytes, at.day + DAY_LENGTH);
        putAll(room, before.isText ? SEMICOLON : before.isFirst ? QUOTE : COMMA_QUOTE);
        putStep(room, amount - before.amount);
        putAll(room, COMMA);
        putStep(room, day - before.day);
        putAll(room, isBare ? NONE : RECEIPT);
        before.amount = amount;
        before.day = day;
        before.isText = true;
    }
    return isPlain;
}

// Puts another entry as the desk tells it, without its number, its shares and who entered it.
function putWhole(room, bytes, at, before) {
    putAll(room, before.isText ? QUOTE_COMMA : before.isFirst ? NONE : COMMA);
    put(room, bytes, at.start, at.entry);
    put(room, bytes, at.number - 1, at.shares);
    putAll(room, BRACE);
    before.isText = false;
}

// Puts entries as a list: of texts of steps, and of other entries. Within a text of JSON a quote stands behind a
// backslash, so that no text can look like a member.
function putEntries(room, bytes, loan) {
    if (!isAt(bytes, bytes.length - 2, END)) {
        throw new Error("not all entries");
    }
    const round = {office: Buffer.from(`"${Number(loan.slice(0, 4))}-`), number: Buffer.from(`${loan.slice(4)}"`)};
    const before = {amount: 0, day: 0, isFirst: true, isText: false};
    const at = {};
    putText(room, "[");
    for (let start = bytes.indexOf('{"amount":'); start >= 0; start = bytes.indexOf('{"amount":', at.end)) {
        at.start = start;
        at.day = placeOf(bytes, ',"day":"', start);
        at.entry = placeOf(bytes, ',"entry":', at.day);
        at.number = placeOf(bytes, '"instalment":', at.entry);
        at.reversed = placeOf(bytes, ',"reversed":', placeOf(bytes, '"receipt":', at.number));
        at.shares = placeOf(bytes, ',"shares":', at.reversed);
        at.end = placeOf(bytes, "}", placeOf(bytes, ',"staff":', at.shares));
        if (!putSteps(room, bytes, round, at, before)) {
            putWhole(room, bytes, at, before);
        }
        before.isFirst = false;
    }
    putText(room, before.isText ? '"]' : "]");
}

function putAccount(room, loan, told, entries) {
    const start = room.length;
    try {
        putText(room, '{"status":200,"loan":');
        putLoan(room, told.responseBuffer);
        putText(room, ',"entries":');
        putEntries(room, entries.responseBuffer, loan);
        putText(room, "}");
    } catch (_) {
        room.length = start;
        putOther(room, NO_REPLY);
    }
}

// Reads one loan after the other, and its entries once it is read. A promise for each would take 4 kB more than a callback
// does, until the last one is read.
function readEach(request, loans, room, end) {
    let held = 0;
    let told = null;
    let read = 0;
    const goOn = () => {
        if (read === loans.length || held > MOST_HELD) {
            end(read);
        } else {
            request.subrequest(`/one-of-several/loans/${loans[read]}`, keepLoan);
        }
    };
    const keepLoan = (reply) => {
        held += reply.responseBuffer.length;
        told = reply;
        if (reply.status === 200) {
            request.subrequest(`/one-of-several/loans/${loans[read]}/entries`, keepEntries);
        } else {
            keepOne(() => putOther(room, reply));
        }
    };
    const keepEntries = (reply) => {
        held += reply.responseBuffer.length;
        keepOne(reply.status === 200 ? () => putAccount(room, loans[read], told, reply) : () => putOther(room, reply));
    };
    const keepOne = (putIt) => {
        putText(room, read > 0 ? "," : "");
        putIt();
        read += 1;
        goOn();
    };
    goOn();
}

// Answers a list of what each loan of a message is told as.
function played(request) {
    const loans = loansOf(request.variables.played);
    if (loans === null) {
        request.return(404, '{"front":"path"}');
        return;
    }
    const room = {bytes: Buffer.allocUnsafe(FIRST_ROOM), length: 0};
    putText(room, "[");
    readEach(request, loans, room, (read) => {
        loans.slice(read).forEach((_, i) => {
            putText(room, read + i > 0 ? "," : "");
            putOther(room, NO_ROOM);
        });
        putText(room, "]");
        request.return(200, room.bytes.slice(0, room.length));
    });
}

export default {played};
