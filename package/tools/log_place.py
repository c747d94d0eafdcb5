"""A place in the front's log: told by the lines before it, and so found again in any copy, however it was rotated."""
import collections
import gzip
import hashlib
import json
import os

import front_log

LINES = 64  # by which a place is known
TAIL = 8 << 20  # bytes that are read for them


class Failed(Exception):
    """Why a place isn't told or found."""


def lines_of(log):
    """The whole lines of a log and of its rotated files, the oldest first. A last one that is cut short is left out."""
    for name in front_log.files_of(log):
        with (gzip.open if name.endswith(".gz") else open)(name, "rb") as file:
            yield from (line for line in file if line.endswith(b"\n"))


def tail_of(file, size, count=LINES):
    """The last whole lines within the first bytes of a file, so many at most."""
    begin = max(0, size - TAIL)
    file.seek(begin)
    lines = file.read(size - begin).splitlines(keepends=True)
    return [line for line in lines[1 if begin else 0 :] if line.endswith(b"\n")][-count:]


def place_at(log, inode, size):
    """The place in a log at which its file had this size; the file may have been rotated since."""
    names = front_log.files_of(log)
    for number in range(len(names) - 1, -1, -1):
        if os.stat(names[number]).st_ino == inode:
            break
    else:
        raise Failed(f"{log} was replaced meanwhile")
    with open(names[number], "rb") as file:
        lines = tail_of(file, size)
    if len(lines) < LINES and number > 0 and not names[number - 1].endswith(".gz"):
        with open(names[number - 1], "rb") as file:
            lines = (tail_of(file, os.stat(names[number - 1]).st_size) + lines)[-LINES:]
    return {"lines": len(lines), "last": digest(lines[-1:]), "all": digest(lines)}


def digest(lines):
    return hashlib.sha256(b"".join(lines)).hexdigest()


def is_at(place, kept):
    return digest([kept[-1]]) == place["last"] and digest(kept) == place["all"]


def lines_after(log, place):
    """The whole lines of a log after a place. Where the log was empty then, that is all of them."""
    found, kept = 0 if place["lines"] == 0 else None, collections.deque(maxlen=max(place["lines"], 1))
    for number, line in enumerate(lines_of(log), 1):
        kept.append(line)
        if place["lines"] and is_at(place, kept):
            found = number
    if found is None:
        raise Failed(f"{log} hasn't the place of the backup: its last message before it isn't there")
    return (line for number, line in enumerate(lines_of(log), 1) if number > found)


def message_of(line):
    """A line as a message, or nothing where it is none."""
    try:
        message = json.loads(line.decode(errors="replace"))
    except ValueError:
        return None
    return message if isinstance(message, dict) else None
