"""A sealed month: the journal's lines of a span of closed business days, and what the program makes of them.

It is a tar file, with its signature beside it (its name with .minisig). Nothing in it tells when it was made: made
again by the same program it has the same bytes. Its members:

    about.json        its days, the heads before and after its lines, the sealed month before it, and the program
    journal.jsonl     the lines as they stand in the journal, each as JSON
    audit.txt         what `audit` says after them
    arrears-DAY.txt   the report of arrears of its last business day; missing where no line is of these days
    books.journal     what `ledger` writes of these days, for hledger
    books.csv         the same as a sheet
    SHA256SUMS        the sums of these

microloan-close makes one, microloan-verify makes it again and compares.
"""
import contextlib
import datetime
import hashlib
import io
import json
import os
import re
import sqlite3
import subprocess
import sys
import tarfile
import typing

# of the package, of the folder in which it is built, of the checkout
HERE = os.path.dirname(os.path.abspath(__file__))
sys.path += [os.path.normpath(os.path.join(HERE, up, "audit")) for up in (".", "..", "../..")]
import archives
import day
import desk_bundle as bundle
import institution_files as files

FIRST_DAY = datetime.date(2000, 1, 1)  # day 0 of the journal's column `day`
COLUMNS = ("number", "day", "office", "staff", "told", "method", "path", "body", "named_office", "named_loan", "chain")
TEXTS = ("told", "method", "path", "body")
NAME = re.compile(r"sealed-[0-9to-]+\.tar")
SUMS = "SHA256SUMS"
WITHOUT_CHECKSUMS = b"audit: its pages have no checksums"
DONE = (b"200 ", b"201 ")
OTHER_BEGINNING = "the journal doesn't begin at a founding: name the copy of the file from before it, by --from-copy"
OTHER_ROWS = "the journal was begun over other rows than those of the copy"
NONE = (tarfile.TarError, ValueError, KeyError, TypeError, AttributeError)  # what reading something else meets


class Failed(Exception):
    """Why a month isn't sealed, or isn't what it should be."""


class Month(typing.NamedTuple):
    name: str  # of its file
    digest: str  # of its bytes
    about: dict
    rows: list  # of the journal
    members: dict  # their bytes by name


def day_after(day):
    return (datetime.date.fromisoformat(day) + datetime.timedelta(days=1)).isoformat()


def label(first, last):
    """What a span of days is called: a month by its year and month."""
    is_month = first.endswith("-01") and day_after(last).endswith("-01") and first[:7] == last[:7]
    return first[:7] if is_month else f"{first}-to-{last}"


def name_of(first, last):
    return f"sealed-{label(first, last)}.tar"


def iso_day(row):
    return (FIRST_DAY + datetime.timedelta(days=row["day"])).isoformat()


def journal_text(rows):
    """The lines of a journal, each as JSON. Bytes that are no UTF-8 stay as they are."""
    lines = []
    for row in rows:
        texts = {name: row[name].decode(errors="surrogateescape") for name in TEXTS}
        told = {name: row[name] for name in COLUMNS} | texts | {"day": iso_day(row), "chain": row["chain"].hex()}
        lines.append(json.dumps(told, ensure_ascii=False, separators=(",", ":")) + "\n")
    return "".join(lines).encode(errors="surrogateescape")


def rows_in(data):
    """The lines of a journal that a text has."""
    rows = [json.loads(line) for line in data.decode(errors="surrogateescape").split("\n")[:-1]]
    for row in rows:
        row["day"] = (datetime.date.fromisoformat(row["day"]) - FIRST_DAY).days
        row["chain"] = bytes.fromhex(row["chain"])
        row |= {name: row[name].encode(errors="surrogateescape") for name in TEXTS}
    return rows


def request_line(row):
    """The request line that asks for what a line of a journal tells."""
    method, path, body = (row[name].decode(errors="surrogateescape") for name in TEXTS[1:])
    line = day.line(f"{row['office']}/{row['staff']}", method, path, day.body_in_line(body))
    return f"{line}\n".encode(errors="surrogateescape")


def described(program):
    """What a sealed month tells of the program that made it: its version, and the sum of its file."""
    with open(program, "rb") as file:
        digest = hashlib.file_digest(file, "sha256").hexdigest()
    return {"version": bundle.run(program, "--version"), "sha256": digest}


def as_json(value):
    return (json.dumps(value, indent=1) + "\n").encode()


def sums_of(members):
    return "".join(f"{hashlib.sha256(data).hexdigest()}  {name}\n" for name, data in members.items()).encode()


def write(path, members):
    with tarfile.open(path, "w", format=tarfile.USTAR_FORMAT) as tar:
        for name, data in members.items():
            tar.addfile(bundle.described(name, len(data), 0o600), io.BytesIO(data))


def read(path, signers):
    """A sealed month that one of these has signed, and whose sums are right."""
    for signer in signers:
        with contextlib.suppress(bundle.Failed):
            bundle.verify(path, path + ".minisig", signer)
            break
    else:
        raise Failed(f"{os.path.basename(path)} isn't as it was signed, or wasn't signed by {' nor '.join(signers)}")
    with open(path, "rb") as file:
        data = file.read()
    try:
        with tarfile.open(fileobj=io.BytesIO(data), mode="r:") as tar:
            members = {member.name: tar.extractfile(member).read() for member in tar}
        about, rows = json.loads(members["about.json"]), rows_in(members["journal.jsonl"])
        name = name_of(about["from"], about["to"])
        others = {name: data for name, data in members.items() if name != SUMS}
        if members.get(SUMS) != sums_of(others):
            raise Failed(f"{path}: the sums are not those of its members")
    except NONE as fault:
        raise Failed(f"{path} is no sealed month: {fault!r}") from None
    if os.path.basename(path) != name:
        raise Failed(f"{path} is what was sealed as {name}")
    return Month(name, hashlib.sha256(data).hexdigest(), about, rows, members)


def follow(before, month):
    """Refuses a month that isn't the one after another."""
    wanted = {"name": before.name, "sha256": before.digest}
    if month.about["follows"] != wanted:
        raise Failed(f"it doesn't follow {before.name}, whose sum is {before.digest}, but {month.about['follows']}")
    if month.about["from"] != day_after(before.about["to"]):
        raise Failed(f"it begins on {month.about['from']}, and {before.name} ends on {before.about['to']}")


class Play:
    """An institution that the program makes anew of a journal's lines, in a folder: from its founding, or from a copy of
    the file as it was when its journal was begun over its rows."""

    def __init__(self, program, folder, copy=None):
        self.program, self.copy = program, copy
        self.made = os.path.join(folder, "made.db")  # by the program, which notes no remarks in its journal
        self.whole = os.path.join(folder, "whole.db")  # the same with the journal as it was
        self.rows = []

    def run(self, *words, given=b""):
        done = subprocess.run([self.program, *words], input=given, capture_output=True, check=False)
        if done.returncode:
            said = (done.stderr or done.stdout).decode(errors="replace").strip().splitlines()
            raise Failed(f"{words[0]} of what is played: {said[-1] if said else done.returncode}")
        return done.stdout

    def found(self, day):
        self.run("batch", "--journal", "--file", self.made, "--day", day)
        self.rows = archives.rows_of(self.made)

    def begin_at(self, day, head):
        """The institution as it was when its journal was begun, at this head: founded on the day, or the copy."""
        if self.copy is None:
            self.found(day)
        else:
            files.copy_files(self.copy, self.made)
            self.run("upgrade", "--existing", "--file", self.made, "--journal")
            self.rows = archives.rows_of(self.made)
        if self.head()[1] != head:
            raise Failed(OTHER_BEGINNING if self.copy is None else OTHER_ROWS)

    def begin(self, copy):
        """Goes on from a copy of a file."""
        files.copy_files(copy, self.made)
        self.run("batch", "--existing", "--journal", "--file", self.made)
        self.rows = archives.rows_of(self.made)

    def copied(self, option):
        """The words that name the copy, where there is one."""
        return [] if self.copy is None else [option, self.copy]

    def head(self):
        return self.rows[-1]["number"], self.rows[-1]["chain"].hex()

    def answer(self, rows):
        """Has the program answer lines once more."""
        given = b"".join(map(request_line, rows))
        replies = self.run("batch", "--existing", "--file", self.made, given=given).splitlines()
        for row, reply in zip(rows, replies):
            if not reply.startswith(DONE):
                raise Failed(f"line {row['number']} of the journal is answered {reply.decode(errors='replace')}")
        if len(replies) != len(rows):
            raise Failed(f"{len(rows)} lines of the journal are answered {len(replies)} times")
        self.rows += rows

    def put_down(self):
        """Makes the file that has the journal as it was. It has no page sums: SQLite makes none, and none is needed."""
        with contextlib.suppress(FileNotFoundError):
            os.unlink(self.whole)
        with contextlib.closing(sqlite3.connect(f"file:{files.quoted(self.whole)}", uri=True)) as new:
            new.execute("attach ? as made", [f"file:{files.quoted(self.made)}?mode=ro&immutable=1"])
            tables = new.execute("select name, sql from made.sqlite_schema where type = 'table' order by rowid")
            for name, text in tables.fetchall():
                new.execute(text)
                if name != "journal":
                    new.execute(f"insert into main.{name} select * from made.{name}")
            columns = ", ".join(f":{name}" for name in COLUMNS)
            new.executemany(f"insert into main.journal ({', '.join(COLUMNS)}) values ({columns})", self.rows)
            new.commit()

    def audit(self):
        """What `audit` says of that file, which must be the play of its journal. SQLite made it, and gives its pages no
        checksums: the line on that says nothing of the institution's file."""
        said = self.run("audit", "--file", self.whole, *self.copied("--from"))
        said = b"".join(line for line in said.splitlines(keepends=True) if not line.startswith(WITHOUT_CHECKSUMS))
        wanted = "sound, and the play of its journal ({} changes, head {})\n".format(*self.head())
        if not said.endswith(b"\n" + wanted.encode()):
            raise Failed(f"audit of what is played: {said.splitlines()[-1].decode()}")
        return said

    def business_day(self):
        reply = self.run("batch", "--existing", "--file", self.made, given=b"1/1 GET /business-day\n")
        return json.loads(reply.split(b" ", 1)[1])["day"]

    def month(self, first, last, rows, follows, program):
        """The members of a sealed month of these days, whose lines come next. By the last of them the business day
        leaves the month, so the report of arrears is asked for before it."""
        before, arrears = self.head(), {}
        for number, row in enumerate(rows, before[0] + 1):
            if row["number"] != number or not first <= iso_day(row) <= last:
                raise Failed(f"line {row['number']} of {iso_day(row)} stands where line {number} should")
        if rows:
            self.answer(rows[:-1])
            report = self.run("report", "--existing", "--file", self.made, "--staff", "1/1")
            arrears[f"arrears-{iso_day(rows[-1])}.txt"] = report
            self.answer(rows[-1:])
        if self.business_day() <= last:
            raise Failed(f"the business day after its lines is {self.business_day()}: it isn't closed")
        self.put_down()
        heads = [{"number": number, "head": head} for number, head in (before, self.head())]
        about = {"from": first, "to": last, "founded": iso_day(self.rows[0]), "before": heads[0], "after": heads[1]}
        about |= {"follows": follows, "program": program}
        ledger = ("ledger", "--existing", "--file", self.whole, "--from", first, "--to", last, *self.copied("--from-copy"))
        members = {"about.json": as_json(about), "journal.jsonl": journal_text(rows)}
        members |= {"audit.txt": self.audit(), **arrears}
        members |= {"books.journal": self.run(*ledger), "books.csv": self.run(*ledger, "--csv")}
        return members | {SUMS: sums_of(members)}
