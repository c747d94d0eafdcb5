"""The desk of a replica: `microloan batch` over a file, the number of the log's line that it was fed last, and the
folder that keeps copies of the file.

Of the folder only what this module made is ever deleted: `kept-NUMBER` (a copy), `part` (a copy that was not finished),
`run-XXXXXXXX` (the file of a process) and `desk` (the file of a desk that is told numbers, told.py), and of these only
such as hold a desk's files and nothing else.
"""
import contextlib
import fcntl
import hashlib
import json
import os
import re
import shutil
import sqlite3
import subprocess
import tempfile
import time

from messages import GIVEN_UP

TOP = os.path.dirname(os.path.dirname(os.path.abspath(__file__)))
PROGRAM = os.environ.get("MICROLOAN", os.path.join(TOP, "microloan"))
FILE, PLACE, DESK = "desk.db", "place.json", "desk"
FILES = {FILE, FILE + "-wal", PLACE, PLACE + ".new"}
PIPE = 32768  # bytes that are written to the desk before a reply is read: fewer than the pipe takes
NOTE_EVERY = 1  # seconds between two notes of a run's place
READING = b"1/1 GET /business-day"
MADE = re.compile("kept-[0-9]+|part|desk|run-[a-z0-9_]{8}")


class DeskFailed(Exception):
    """The number of the desk is not known."""


class Refused(Exception):
    """This folder and this log don't belong together, or the folder is in use: a person has to look."""


def version():
    """The version of the program, as it says it."""
    return subprocess.run([PROGRAM, "--version"], stdout=subprocess.PIPE, check=True).stdout.decode().strip()


class Place:
    """Where a copy stands: of which institution it is, how many lines of the log it holds, and the sum of the last of
    them (None at 0). `term` tells the last writer that it followed, by the revision of its key, and `wrote` whether it
    was that writer's; `writes` that it may have lines which aren't in the log yet. It lies beside the copy, so that it
    goes wherever the copy is taken."""

    def __init__(self, institution, number=0, line=None, term=0, wrote=False, writes=False):
        self.institution, self.number, self.line = institution, number, line
        self.term, self.wrote, self.writes = term, wrote, writes

    @staticmethod
    def beside(folder):
        """The place of a copy; none where there is no such file, as beside an institution that was brought here."""
        try:
            with open(os.path.join(folder, PLACE), encoding="utf-8") as file:
                told = json.load(file)
            more = [told.get("term", 0), told.get("wrote", False), told.get("writes", False)]
            return Place(told["institution"], told["number"], told["line"], *more)
        except FileNotFoundError:
            return None
        except (ValueError, KeyError, TypeError):
            raise Refused(f"{os.path.join(folder, PLACE)} can't be read") from None

    def write(self, folder):
        path = os.path.join(folder, PLACE)
        with open(path + ".new", "w", encoding="utf-8") as file:
            json.dump(vars(self), file)
        os.replace(path + ".new", path)


def audited(path):
    """What the program's audit says of the file of a folder, of which a copy is read, and whether that is sound. It may
    have suspect entries, which the desk takes."""
    with tempfile.TemporaryDirectory() as scratch:
        for name in set(os.listdir(path)) & FILES - {PLACE}:
            shutil.copy(os.path.join(path, name), scratch)
        words = [PROGRAM, "audit", "--file", os.path.join(scratch, FILE)]
        said = subprocess.run(words, stdout=subprocess.PIPE, check=False).stdout.decode().strip()
    return said, any(line.startswith("sound") for line in said.splitlines())


def sum_of(value):
    """The sum by which a line of the log is known again; None for no line."""
    return None if value is None else hashlib.sha256(value).hexdigest()


def value_of(lease, line, remark):
    """The value by which a line stands in the log: the lease that it is put under, what a journal notes, the line."""
    return b"%d%s %s" % (lease, b"," + remark if remark else b"", line)


def remark_in(value):
    """What a journal notes of a line of the log."""
    return value.partition(b" ")[0].partition(b",")[2]


def sum_of_rows(folder):
    """The sum of all rows of a copy's tables, whatever the order in which they were written."""
    with tempfile.TemporaryDirectory() as scratch:
        for name in FILES & set(os.listdir(folder)):
            shutil.copy(os.path.join(folder, name), scratch)
        tables = sqlite3.connect(os.path.join(scratch, FILE))
        try:
            found = hashlib.sha256()
            names = tables.execute("select name from sqlite_schema where type = 'table' order by name").fetchall()
            for (name,) in names:
                columns = len(tables.execute(f'pragma table_info("{name}")').fetchall())
                order = ",".join(str(column) for column in range(1, columns + 1))
                found.update(name.encode())
                for row in tables.execute(f'select * from "{name}" order by {order}'):
                    found.update(repr(row).encode())
            return found.hexdigest()
        except sqlite3.DatabaseError as why:
            raise Refused(f"{os.path.join(folder, FILE)} is no institution: {why}") from None
        finally:
            tables.close()


class Folder:
    """The folder of a replica, which this process alone uses until it ends."""

    def __init__(self, path):
        self.path = path
        os.makedirs(path, exist_ok=True)
        self.lock = os.open(self.path_of("lock"), os.O_RDWR | os.O_CREAT, 0o600)
        try:
            fcntl.flock(self.lock, fcntl.LOCK_EX | fcntl.LOCK_NB)
        except OSError:
            raise Refused(f"another process uses {path}") from None
        self.kept = max([int(name[5:]) for name in self.made() if name.startswith("kept-")], default=0)
        self.desk_lock = None

    def path_of(self, name):
        return os.path.join(self.path, name)

    def copy(self):
        """The folder of the newest copy; none where nothing was kept or brought here."""
        copy = self.path_of(f"kept-{self.kept}")
        return copy if os.path.isdir(copy) else None

    def made(self):
        """What this module made here: a folder under one of its names, with a desk's files and nothing else."""
        with os.scandir(self.path) as entries:
            folders = [entry for entry in entries if MADE.fullmatch(entry.name) and entry.is_dir(follow_symlinks=False)]
        return [folder.name for folder in folders if FILES.issuperset(os.listdir(folder.path))]

    def runs(self):
        """The files of processes that had followed the log to its end, each with the place that it reached at least."""
        found = {name: Place.beside(self.path_of(name)) for name in self.made() if name.startswith("run-")}
        return {name: place for name, place in found.items() if place}

    def sweep(self, runs):
        """Deletes what is older than the newest copy, and the files of processes that died before they had followed the
        log to its end: these hold nothing that the log doesn't. Others stay unless they are named."""
        stay = {f"kept-{self.kept}", DESK} | (set(self.runs()) - runs)
        for name in self.made():
            if name not in stay:
                shutil.rmtree(self.path_of(name), ignore_errors=True)

    def take(self, run, place):
        """Makes a run's file, whose process has ended, the newest copy."""
        os.rename(run, self.path_of("part"))
        self.settle(place)

    def take_copy(self, run, place):
        """Makes a copy of a run's file, whose process waits for its next line, the newest copy."""
        self.copy_as_part(run)
        self.settle(place)

    def copy_as_part(self, run):
        """Copies a file into `part`; no file where there is none."""
        part = self.path_of("part")
        if "part" in self.made():
            shutil.rmtree(part)
        os.mkdir(part)
        names = os.listdir(run) if run else []
        files = [os.path.join(run, name) for name in names if name in (FILE, FILE + "-wal")]
        if files:
            subprocess.run(["cp", "--reflink=auto", *files, part], check=True)

    def settle(self, place):
        """Makes what stands in `part` the newest copy, whole or not at all."""
        before = self.copy()
        self.settle_as(f"kept-{place.number}", place)
        self.kept = place.number
        if before:
            shutil.rmtree(before)

    def settle_as(self, name, place):
        part = self.path_of("part")
        place.write(part)
        for path in [os.path.join(part, name) for name in os.listdir(part)] + [part]:
            with_file(path, os.fsync)
        os.rename(part, self.path_of(name))
        with_file(self.path, os.fsync)

    # ---- the file of a desk that is told numbers

    def begin_desk(self, place):
        """Makes `desk`, where it isn't there: a copy of the newest copy, or empty for a new institution."""
        if not os.path.isdir(self.path_of(DESK)):
            self.copy_as_part(self.copy())
            self.settle_as(DESK, place)
            self.lock_desk(0)

    def lock_desk(self, seconds):
        """Whether `desk` is there. Its process inherits the lock, so that nobody looks at the file before that of an
        earlier run has ended."""
        path = self.path_of(DESK)
        if not os.path.isdir(path):
            return False
        if DESK not in self.made():
            raise Refused(f"{path} holds other things than a desk's file")
        if self.desk_lock is not None:
            os.close(self.desk_lock)
        self.desk_lock, end = os.open(path, os.O_RDONLY), time.monotonic() + seconds
        while True:
            try:
                fcntl.flock(self.desk_lock, fcntl.LOCK_EX | fcntl.LOCK_NB)
                return True
            except OSError:
                if time.monotonic() > end:
                    raise DeskFailed(f"the process of an earlier run still uses {path}") from None
                time.sleep(0.05)

    def set_aside(self):
        """Makes `desk` the file of a run, which stays until a newer copy stands."""
        os.rename(self.path_of(DESK), tempfile.mkdtemp(prefix="run-", dir=self.path))


def with_file(path, act):
    number = os.open(path, os.O_RDONLY)
    try:
        act(number)
    finally:
        os.close(number)


class Desk:
    """`microloan batch` over a copy of the folder's newest copy. `memory` is a folder in memory for its file."""

    def __init__(self, folder, institution, memory=None):
        self.folder, self.institution, self.memory = folder, institution, memory
        self.earlier = set(folder.runs())  # to be kept until a newer copy stands
        copy = folder.copy()
        place = (copy and Place.beside(copy)) or Place(institution)
        self.number, self.line, self.term = place.number, place.line, place.term
        self.wrote = self.writes = False
        self.busy_since = None  # since when it, or its disk, is waited for
        self.answered_at = time.monotonic()
        folder.sweep(runs=set())
        self.start()

    def start(self):
        """Begins with the newest copy, in a folder of its own: the process of a run that was killed may still be
        ending in its. It is open, however long that takes, once it has answered a reading."""
        self.run = tempfile.mkdtemp(prefix="run-", dir=(self.memory or self.folder).path)
        self.noted_at = None
        words, copy = [PROGRAM, "batch", "--file", os.path.join(self.run, FILE)], self.folder.copy()
        if copy:
            shutil.copytree(copy, self.run, dirs_exist_ok=True, ignore=shutil.ignore_patterns(PLACE))
            words.append("--existing")
        self.process = subprocess.Popen(words, stdin=subprocess.PIPE, stdout=subprocess.PIPE, start_new_session=True)
        self.exchange(READING)

    def exchange(self, *lines):
        """The reply to the last of some lines, which the pipe takes at once (but for one alone)."""
        try:
            self.process.stdin.write(b"".join(line + b"\n" for line in lines))
            self.process.stdin.flush()
        except OSError:
            raise DeskFailed("it ended") from None
        for _ in lines:
            reply = self.process.stdout.readline()
            if not reply.endswith(b"\n") or reply.startswith(GIVEN_UP):
                raise DeskFailed(f"it answered {reply[:40]}")
            self.answered_at = time.monotonic()
            if self.busy_since is not None:
                self.busy_since = self.answered_at
        return reply[:-1]

    @contextlib.contextmanager
    def waited_for(self):
        self.busy_since = time.monotonic()
        try:
            yield
        finally:
            self.busy_since = None

    def answer(self, line, remark=b""):
        """The reply to a reading, or to a line that is counted by `count` where it changes something."""
        with self.waited_for():
            return self.exchange(self.fed(line, self.number + 1, remark))

    def fed(self, line, number, remark=b""):
        """What is fed for a line, which is the log's line of this number where it is one of the log."""
        return line

    def is_logged(self, line, reply):
        """Whether a line that was answered so becomes one of the log: not what changed nothing, as a reading."""
        return reply.startswith(b"2") and line.split(b" ", 2)[1] != b"GET"

    def confirm(self):
        """Notes that the lines which were counted stand in the log, before anybody is told so."""

    def check(self):
        """Raises Refused where the file isn't as far as the lines that were counted."""

    def follow(self, values):
        """Takes the next values of the log, each with its line, as many at a time as the pipe holds."""
        while values:
            size, many = 0, 0
            while many < len(values) and (many == 0 or size + len(values[many][1]) < PIPE):
                size, many = size + len(values[many][1]) + 1, many + 1
            places = enumerate(values[:many], self.number + 1)
            fed = [self.fed(line, number, remark_in(value)) for number, (value, line) in places]
            with self.waited_for():
                self.exchange(*fed)
            for value, _ in values[:many]:
                self.count(value)
            values = values[many:]

    def count(self, value):
        """Takes note that the line just answered is the next one of the log, where it stands as `value`."""
        self.number, self.line = self.number + 1, sum_of(value)

    def is_silent(self, seconds):
        """Whether it, or its disk, has been waited for longer than so many seconds."""
        busy_since = self.busy_since
        return busy_since is not None and time.monotonic() - busy_since > seconds

    def place(self):
        return Place(self.institution, self.number, self.line, self.term, self.wrote, self.writes)

    def note(self, now=False):
        """Notes now and then how far the file is at least. It is called first where the desk has followed the log to
        its end, and from then on the file is worth keeping (`Folder.runs`)."""
        if now or self.noted_at is None or time.monotonic() - self.noted_at > NOTE_EVERY:
            with self.waited_for():
                self.check()
                self.place().write(self.run)
            self.noted_at = time.monotonic()

    def keep(self):
        """Keeps a copy of the file. (The process owes no answer, and does nothing but wait for its next line: each
        change was written and synced before its reply.) Files of earlier processes are older than that."""
        if self.number > self.folder.kept:
            self.folder.take_copy(self.run, self.place())
        if self.noted_at is not None:
            self.folder.sweep(runs=self.earlier)
            self.earlier = set()

    def end(self):
        """Ends the process and keeps its file."""
        self.process.stdin.close()
        if self.process.wait() != 0:
            raise DeskFailed(f"it ended with status {self.process.returncode}")
        if self.number > self.folder.kept:
            (self.folder.take_copy if self.memory else self.folder.take)(self.run, self.place())
        if self.noted_at is not None:
            self.folder.sweep(runs=self.earlier | {os.path.basename(self.run)})
        if self.memory:
            shutil.rmtree(self.run)

    def drop(self):
        """Ends the process, whose file is of no use."""
        self.process.kill()
        self.process.wait()
        shutil.rmtree(self.run)
