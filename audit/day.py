"""The messages of the front's log that changed an institution, as request lines: for the scripts beside this file."""
import contextlib
import json
import os
import re
import sys

sys.dont_write_bytecode = True
sys.path.append(os.path.join(os.path.dirname(os.path.dirname(os.path.abspath(__file__))), "package", "tools"))
sys.path.append(os.path.dirname(os.path.dirname(os.path.abspath(__file__))))  # in the package, /usr/share/microloan
import front_log

READS = ("GET", "HEAD")
FIND = "/api/lists/find"  # a reading with a body
DONE = (200, 201)
CREATED = 201
PASSED_ON = "/api"
LONGEST = 60000  # bytes of a body that stands in a line: the program takes lines of 65,536
NUMBERED = re.compile(r'\{"(client|loan|staff|charge|product|entry)":"?(?:([0-9]+)[-/])?([0-9]+)"?\}')
LATE = 1000  # lines: no message's line stands further behind its place than this


def is_passed_on(message):
    """Whether the front told the program of it."""
    return bool(message["staff"]) and message["path"].startswith(PASSED_ON + "/")


def is_reading(message):
    return message["method"] in READS or message["path"] == FIND


def has_changed(message):
    """Whether the program did what it asks for. What is refused changes nothing."""
    return is_passed_on(message) and not is_reading(message) and message["status"] in DONE


def is_lost(message):
    """Whether the front got no reply of the program's that tells whether it was done."""
    return is_passed_on(message) and not is_reading(message) and message["status"] >= 500


def path_of(message):
    return message["path"][len(PASSED_ON) :]


def body_in_line(body):
    """A body as it stands in a request line. Between the members of a body a line may end, in a text it can't.

    A body may be longer than a line. What makes it so, in a message that was accepted, stands between its members, or
    in members that the program doesn't know.
    """
    body = body.replace("\r", " ").replace("\n", " ")
    if len(body) > LONGEST:
        with contextlib.suppress(ValueError):
            members = json.loads(body).items()
            body = json.dumps({name: value for name, value in members if len(json.dumps(value)) < LONGEST // 64})
    return body


def line(staff, method, path, body):
    """A request line; a body that is empty has no space before it."""
    return " ".join([staff, method, path] + [body] * (body != ""))


def line_of(message):
    """The request line that asks for the same."""
    return line(message["staff"], message["method"], path_of(message), body_in_line(message["body"]))


def messages_of(logs):
    """The messages of logs, each with its rotated files before it, as they stand."""
    for log in logs:
        yield from front_log.messages_of(log)


def reply_of(message):
    """What a message was answered, as far as the log tells: the logs of older fronts have the status alone."""
    return f"{message['status']} {message.get('reply', '')}".rstrip()


def is_answered_so(message, reply):
    """Whether a reply of `batch` is the one that the log has of a message."""
    told = reply_of(message)
    return reply == told or told == reply.split(" ")[0] and not message.get("reply")


def number_of(message):
    """The number that a message took, and in what it was counted: the clients of an office, the entries of a loan."""
    found = NUMBERED.fullmatch(message.get("reply") or "")
    if found is None or message["status"] != CREATED:
        return None, 0
    name, office, number = found.groups()
    loan = message["path"].split("/")[3] if name == "entry" else None
    return (name, office, loan), int(number)


def in_order(messages):
    """Messages in the order in which the program answered them, as far as their numbers tell.

    The front writes a line after the reply was sent, and each of its workers writes by itself. So a line may stand
    behind those of later messages, and then the numbers that were taken tell it.
    """
    ordered, highest = [], {}
    for message in messages:
        count, number = number_of(message)
        place = len(ordered)
        if number < highest.get(count, 0):
            recent = enumerate(map(number_of, ordered[-LATE:]), max(0, place - LATE))
            place = next((at for at, other in recent if other[0] == count and other[1] > number), place)
        highest[count] = max(number, highest.get(count, 0))
        ordered.insert(place, message)
    return ordered


def place_of(message):
    """Where a message stands, who sent it and what it asks for, in ASCII."""
    where = f"{message['file']} line {message['line']}"
    text = f"{where}: {message['time']} {message['user']} {line_of(message)}"
    return text.encode("ascii", "backslashreplace").decode()
