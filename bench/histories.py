"""Request lines with what an institution is after each of them, and the files of processes that were killed: for the
scripts beside this one that damage files and open them again.
"""
import hashlib
import os
import struct
import subprocess
import sys

import institutions as files

sys.path.append(os.path.join(files.TOP, "package", "tools"))
from institution_files import damage_of_log


def changes(lines):
    """Those of the lines that change an institution: writes that are accepted, and no repayment that is sent again."""
    status, replies, said = files.ended(["batch"], b"".join(lines))
    if status != 0:
        raise SystemExit(f"the lines are not answered: {said}")
    kept = []
    for line, reply in zip(lines, replies.splitlines()):
        accepted = reply.startswith(b"201 ") or reply.startswith(b"200 ") and b"/repayments" not in line
        if accepted and b" GET " not in line:
            kept.append(line)
    return kept


def repayments(loan, first, last, amount):
    """Repayments of a loan, numbered, each with a receipt."""
    body = '{{"amount":{},"day":"2024-06-30","receipt":"E-{}"}}'
    return [
        f"1/1 POST /loans/{loan}/repayments {body.format(amount + number % 100, number)}\n".encode()
        for number in range(first, last)
    ]


def second_day(amount):
    """Lines of a second day. Each changes something that is shown, or a row."""
    return (
        repayments("0020-000001", 1, 20, amount)
        + [b'1/1 POST /loans/0020-000001/fees {"charge":1,"due":"2024-07-15"}\n']
        + repayments("0005-000002", 20, 30, amount)
    )


def third_day(amount):
    """Lines of a third day, in the same way."""
    return (
        [b'1/1 PUT /business-day {"day":"2024-07-02"}\n']
        + repayments("0005-000002", 30, 40, amount)
        + [b"1/1 POST /loans/0020-000001/entries/%d/reverse\n" % number for number in range(3, 9)]
        + [b'1/1 POST /clients {"office":20,"name":"Client %d"}\n' % number for number in range(6)]
        + [b"1/1 POST /loans/0020-000001/write-off\n"]
        + [b'1/1 POST /staff {"office":20,"name":"Staff %d","role":"teller"}\n' % number for number in range(6)]
    )


def busy_day(count):
    """Lines of a day on which one loan takes so many repayments."""
    return repayments("0005-000002", 100, 100 + count, 1)


def days_of_two():
    """The lines of three days of an institution, and of another one with other amounts and names, and pages alike."""
    first = changes(files.day_lines())
    others = [line.replace(b'"amount":20000', b'"amount":21000').replace(b"Amina", b"Amira") for line in first]
    return (first, second_day(100), third_day(100)), (others, second_day(200), third_day(200))


class History:
    """What an institution is after each beginning of some lines: what is shown of it, and its rows."""

    def __init__(self, lines):
        self.shown = shown_after_each(lines)
        self.rows = rows_after_each(lines)
        self.count = len(lines)

    def until(self, count):
        """The history of so many first lines."""
        part = object.__new__(History)
        part.shown, part.rows, part.count = self.shown, self.rows, count
        return part

    def beginning(self, path, most=None, options=("--existing",)):
        """How many lines the file's institution has, by what is shown of it and by its rows: as many as may be, up to
        the most; none where it is refused, or is not one after a beginning."""
        status, shown, _ = files.ended(["batch", "--file", path, *options, *files.MORE_WORDS], files.ASKED)
        rows = digest_of_rows(path)
        if status != 0:
            return None
        for count in range(self.count if most is None else min(most, self.count), -1, -1):
            if self.shown[count] == shown and self.rows[count] == rows:
                return count
        return None


def digest_of_rows(path):
    return hashlib.sha256(b"\n".join(sorted(files.rows(path).splitlines()))).digest()


def rows_after_each(lines):
    """The rows after each number of lines, from none on, as SQLite finds them in copies of the files of a process that
    waits for its next line."""
    with files.room() as folder:
        path, other = os.path.join(folder, "reference.db"), os.path.join(folder, "copy.db")
        with Answering(path) as process:
            process.answer(b"1/1 GET /business-day\n")
            found = []
            for line in [None, *lines]:
                if line:
                    process.answer(line)
                files.copy(path, other)
                found.append(digest_of_rows(other))
    return found


class Answering:
    """The program answering lines over a file, one at a time. It is killed at the end."""

    def __init__(self, path, before=()):
        words = [*before, files.PROGRAM, "batch", "--file", path, *files.MORE_WORDS]
        self.process = subprocess.Popen(words, stdin=subprocess.PIPE, stdout=subprocess.PIPE)

    def answer(self, line):
        self.process.stdin.write(line)
        self.process.stdin.flush()
        return self.process.stdout.readline()

    def end(self):
        """Ends it in order. Its status."""
        self.process.stdin.close()
        return self.process.wait()

    def __enter__(self):
        return self

    def __exit__(self, *_):
        self.process.kill()
        self.process.wait()
        self.process.stdin.close()
        self.process.stdout.close()


def shown_after_each(lines):
    """The replies to the questions after each number of lines, from none on."""
    given = files.ASKED + b"".join(line + files.ASKED for line in lines)
    status, replies, said = files.ended(["batch"], given)
    if status != 0:
        raise SystemExit(f"the lines are not answered: {said}")
    replies, size = replies.splitlines(keepends=True), len(files.QUESTIONS)
    return [b"".join(replies[at : at + size]) for at in range(0, len(replies), size + 1)]


def killed(path, lines):
    """Has a process answer lines one by one, and kills it."""
    with Answering(path) as process:
        for line in lines:
            process.answer(line)


class Day:
    """The two files of a process that was killed, the file after an orderly end, and what both are of."""

    def __init__(self, path, history):
        self.history = history
        self.database, self.log = contents(path)
        files.answered(path, b"")
        self.ended = contents(path)[0]


def lived(path, days):
    """A file's days: on the first its log alone holds the institution, on each other the file holds the days before."""
    history, found, count = History([line for lines in days for line in lines]), [], 0
    for lines in days:
        killed(path, lines)
        count += len(lines)
        found.append(Day(path, history.until(count)))
    return found


def contents(path):
    """The bytes of a file and of the log beside it, each none where it is missing."""
    found = []
    for ending in ("", "-wal"):
        try:
            with open(path + ending, "rb") as file:
                found.append(file.read())
        except FileNotFoundError:
            found.append(None)
    return tuple(found)


def is_kept(before, after):
    """Whether a file and its log, which were refused, are as they were. Only a log that holds no frame may have become
    another such log, whose header was drawn anew."""
    return before == after or (before[0] == after[0] and not any(frames(log or b"") for log in (before[1], after[1])))


def put(path, database, log):
    """Puts a file and a log in place, each bytes or none."""
    files.remove(path)
    for ending, data in (("", database), ("-wal", log)):
        if data is not None:
            with open(path + ending, "wb") as file:
                file.write(data)


def frames(log):
    """How many frames of a log are written."""
    size = 24 + files.PAGE
    numbers = [struct.unpack_from(">I", log, at)[0] for at in range(32, len(log) - size + 1, size)]
    return len([number for number in numbers if number])
