"""The lines that go to the desk of every region: the file that has them in order, and what a desk shows of them."""
import json
import os
import subprocess
import threading

from routing import parts_of

TOP = os.path.dirname(os.path.dirname(os.path.abspath(__file__)))
PROGRAM = os.environ.get("MICROLOAN", os.path.join(TOP, "microloan"))
READING, OFFICES = b"1/1 GET /business-day", b"1/1 GET /offices"
PATIENCE = 30  # seconds that a desk is waited for
MOMENT = 5  # seconds in which a desk answers a reading, or what goes to every desk waits for what went before
PAUSE = 0.5  # seconds between two times that a line is sent to a desk that has no room for it
ended = threading.Event()  # the router is to end


class Parted(Exception):
    """The desks don't hold what every.lines says: a person has to look."""


class Ended(Exception):
    """The router was told to end."""


def replies_of(lines, path=None):
    """The replies of a desk over a file, or of a new one in memory."""
    words = [PROGRAM, "batch"] + (["--file", path] if path else [])
    done = subprocess.run(words, input=b"".join(line + b"\n" for line in lines), stdout=subprocess.PIPE, check=True)
    return done.stdout.split(b"\n")[:-1]


def reading_of(line, reply):
    """The reading that a desk which has taken an accepted line answers otherwise; none where it was refused."""
    if reply[:1] != b"2":
        return None
    _, method, path, body = parts_of(line)
    told = json.loads(reply[4:])
    if path == b"/staff":
        return f"{told['staff']} GET /business-day".encode()
    if path in (b"/offices", b"/business-day"):
        return b"1/1 GET " + path
    kind = "charge" if path == b"/charges" else "product"
    return f"1/1 GET /{kind}s/{told[kind]}".encode()


def shown(lines):
    """What is known of the last of some lines: its reply, the reading that shows it, and how that is answered before it
    and after it. No reading where the line was refused."""
    reply = replies_of(lines)[-1]
    reading = reading_of(lines[-1], reply)
    if reading is None:
        return reply, None, None, None
    return reply, reading, replies_of(lines[:-1] + [reading])[-1], replies_of(lines + [reading])[-1]


class EveryLines:
    """The lines of every.lines, which are added whole or not at all."""

    def __init__(self, path):
        self.path = path
        with open(path, "ab+") as file:
            file.seek(0)
            lines = file.read().split(b"\n")
            file.truncate(file.tell() - len(lines[-1]))  # a line that was not written whole was sent to no desk
        self.lines = lines[:-1]

    def add(self, line):
        """Adds a line, or fails and leaves the file as it was."""
        with open(self.path, "ab", buffering=0) as file:
            length = file.seek(0, os.SEEK_END)
            try:
                if file.write(line + b"\n") <= len(line):
                    raise OSError("there is no room for the whole line")
                os.fsync(file.fileno())
            except OSError:
                file.truncate(length)
                os.fsync(file.fileno())
                raise
        self.lines.append(line)
