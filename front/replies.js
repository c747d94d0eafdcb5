// What nginx itself does with messages and replies, beside its settings. It runs in nginx.

// Keeps what the program replied to a message that writes, for the log of messages: the numbers in it tell in which
// order messages were carried out, and who answers them once more can compare.
const MOST = 1000;  // characters that are kept: a reply to what writes has fewer

function keep(request, part, flags) {
    const kept = request.variables.reply;
    if (request.variables.writes === "1" && kept.length < MOST) {
        request.variables.reply = kept + part.toString();
    }
    request.sendBuffer(part, flags);
}

const MOST_HELD = 4 * 1024 * 1024;  // bytes of replies, after which no further reading is passed on
const NOT_READ = {status: 413, text: '{"front":"large"}'};

// Answers several readings by one message, one once the one before is read: a list of what each is answered, as its
// status and its text. A promise for each would take 4 kB more than a callback does, until the last one is read.
function several(request) {
    const routes = request.variables.several.split("&");
    const replies = [];
    let held = 0;
    const goOn = () => {
        const isOver = held > MOST_HELD;
        if (replies.length < routes.length && !isOver) {
            request.subrequest(`/one-of-several${routes[replies.length]}`, keepOne);
        } else {
            routes.slice(replies.length).forEach(() => replies.push(NOT_READ));
            request.return(200, JSON.stringify(replies));
        }
    };
    const keepOne = (reply) => {
        replies.push({status: reply.status, text: reply.responseText});
        held += reply.responseBuffer.length;
        goOn();
    };
    goOn();
}

export default {keep, several};
