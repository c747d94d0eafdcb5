"""Answers the messages of the front's log once more over a copy of an institution, and compares the replies.

A message is a mapping: `line` the request line, `status` and `reply` what was answered then (the log of an older front has
no replies: then statuses alone are compared), `lost` whether no reply of the
program's is known or that was F20, `given_up` whether it was F20, `moment`, `who`, and `where` it stands. A lost one
may have been carried out or not. What comes after it tells: the numbers that the program gives, and the receipts that
it knows, depend on it. F20 says that it wasn't, but the disk may have kept the one commit whose fault has shut the
program.
"""
import dataclasses
import json
import os
import subprocess
import sys

HERE = os.path.dirname(os.path.realpath(__file__))
# in a checkout, where the package is built, and installed
sys.path += [os.path.join(HERE, *up, "audit") for up in (("..", ".."), ("..",), ())]
import day
import institution_files as files
import log_place


MOST_TRIED = 4  # of lost messages that come together


class Untold(Exception):
    """Where a lost message stands of which nothing tells whether it was carried out."""


@dataclasses.dataclass
class Replayed:
    """What came of it: whether all messages were answered as the log says, and what is told of it."""

    agrees: bool
    lines: list


def messages_of(lines, log):
    """Of the lines of a log those that may have changed something, as messages; and how many the program was sent."""
    messages, count = [], 0
    for number, line in enumerate(lines, 1):
        message = log_place.message_of(line)
        if message is None or not day.is_passed_on(message):
            continue
        count += 1
        if day.has_changed(message) or day.is_lost(message):
            messages.append(message | {"file": log, "line": f"{number} after the backup"})
    return [told_of(message) for message in day.in_order(messages)], count


def told_of(message):
    return {
        "line": day.line_of(message),
        "status": message["status"],
        "reply": message.get("reply", ""),
        "lost": day.is_lost(message),
        "given_up": str(message["upstream"]) == "503",
        "moment": message["time"],
        "who": message["user"],
        "where": day.place_of(message),
    }


def replies_of(program, path, messages):
    """What the program answers to messages over a file."""
    given = "".join(message["line"] + "\n" for message in messages).encode(errors="surrogateescape")
    done = subprocess.run(
        [program, "batch", "--existing", "--file", path], input=given, capture_output=True, check=False
    )
    if done.returncode:
        raise files.Failed(f"the program doesn't answer over the copy: {done.stderr.decode(errors='replace').strip()}")
    return done.stdout.decode(errors="replace").splitlines()


def replies_over_a_copy(program, path, messages):
    """The same over a copy of the file, which is itself left as it is."""
    copy = path + ".tried"
    try:
        files.copy_files(path, copy)
        return replies_of(program, copy, messages)
    finally:
        for ending in ("", "-wal", "-shm"):
            if os.path.exists(copy + ending):
                os.unlink(copy + ending)


def agreeing(messages, replies):
    """How many messages there are before the first that is answered otherwise now than then."""
    for number, (message, reply) in enumerate(zip(messages, replies)):
        if not message["lost"] and not day.is_answered_so(message, reply):
            return number
    return len(messages)


def numbers_of(message):
    """In what a message's number is counted: the loan of an entry, or what is entered and the office that it is in."""
    parts = message["line"].split(" ", 3)
    path = parts[2].split("/")
    if len(path) > 3:
        return path[:3]
    try:
        body = json.loads(parts[3])
        return path[:2], str(body.get("client", body.get("office", "")))[:4].lstrip("0")
    except (IndexError, ValueError, AttributeError):
        return path[:2], ""


def swappable(messages):
    """Neighbours of different people in one second that take numbers of one count, and whose replies the log hasn't.

    The front writes a message once it is answered, and may so write two that were answered at once the other way round.
    """
    pairs = []
    for one, other in zip(messages, messages[1:]):
        if one["reply"] and other["reply"]:
            continue
        if one["moment"] == other["moment"] and one["who"] != other["who"] and numbers_of(one) == numbers_of(other):
            pairs.append(f"{one['where']}, and {other['where']}")
    return pairs


def run_of_lost(messages, number):
    """How many messages from one on are lost, one after the other."""
    return next((at for at, message in enumerate(messages[number:]) if not message["lost"]), len(messages) - number)


def settle(program, path, messages, number, count):
    """Which of some lost messages was carried out; None for none of them. Where what follows doesn't tell: Untold.

    The program answers one message after the other: of those that were lost together at most one was in hand.
    """
    rest = [message for message in messages[number + count :] if not message["lost"]]

    def reached(one):
        trial = messages[:number] + one + rest
        return agreeing(trial, replies_over_a_copy(program, path, trial)) - number - len(one)

    without = reached([])
    within = {at: reached([messages[at]]) for at in range(number, number + min(count, MOST_TRIED))}
    best = max(within.values())
    if best > without:
        return next(at for at, found in within.items() if found == best)
    numbers = [numbers_of(message) for message in rest]
    for at, found in within.items():
        if found == without and not messages[at]["given_up"] and numbers_of(messages[at]) in numbers:
            raise Untold(messages[at]["where"])
    return None


def settled(program, path, messages):
    """The messages that are to be answered, what is told of the lost ones, and where it has to stop, if anywhere."""
    told, number = [], 0
    while number < len(messages):
        count = run_of_lost(messages, number)
        if count == 0:
            number += 1
            continue
        try:
            carried_out = settle(program, path, messages, number, count)
        except Untold as where:
            reason = "its reply was lost, and what comes after it doesn't tell whether it was carried out"
            return messages[:number], told, f"{reason}: {where}"
        for at in range(number, number + count):
            done = "carried out" if at == carried_out else "left out"
            told.append(f"its reply was lost; it was {done}: {messages[at]['where']}")
        kept = [] if carried_out is None else [messages[carried_out]]
        messages = messages[:number] + kept + messages[number + count :]
        number += len(kept)
    return messages, told, None


def replay(program, path, messages, count):
    """Answers messages over a file, as far as they are answered as they were then. `count`: of all that the log has."""
    messages, told, stopped = settled(program, path, messages)
    replies = replies_over_a_copy(program, path, messages)
    same = agreeing(messages, replies)
    if same < len(messages):
        other = messages[same]
        stopped = f"answered '{day.reply_of(other)}' then and '{replies[same]}' now: {other['where']}"
    replies_of(program, path, messages[:same])
    pairs = swappable(messages[:same])
    told += [f"their numbers may be swapped, since both came in one second: {pair}" for pair in pairs]
    if stopped:
        told.append(f"stopped after {same} of those that changed something: {stopped}")
    else:
        told.append(f"{count} messages after the backup, the same ({same} changed something)")
    return Replayed(stopped is None, told)
