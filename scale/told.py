"""A log whose desks keep a journal, and are told of each line which one it is.

`--journal` founds such a log. `microloan batch --journal --told` notes the number of a line in the row of the journal
that the line leaves, and the log has only lines that leave one. So in every file line N of the log is the N-th row
behind the one at which the log began, and tells N. The last row of a file says how far it is, whenever its process
ended and wherever it was copied; and the chain of that row stands for all lines before it.
"""
import os
import shutil
import subprocess
import tempfile

from desk import DESK, FILE, PROGRAM, READING, Desk, DeskFailed, Place, Refused, remark_in
from etcd import GROUP, HEAD, INSTITUTION, LAST, LOG, key_of
from journal import WORD, Founding, Journal, Useless, word_of

ENDING = 30  # seconds that the process of an earlier run is waited for
DAMAGED = ("damaged", "no sound institution", "stopped before its first commit")  # `why` of a file that can't be used


class Parted(Exception):
    """A file and the log part at a line. `last` is the last line that the file has."""

    def __init__(self, path, number, last, has_ended=False):
        said = f"line {number} of the log is not the one that was followed: etcd has lost lines, or {path} was changed"
        if has_ended:
            said = f"the log ends before line {number}, which was followed: etcd has lost lines"
        super().__init__(said)
        self.number, self.last = number, last


def head_of(number):
    """The key of the head that a desk has behind a line."""
    return f"{HEAD}{number:012}"


def number_of(key):
    """The number of the line that a key is of."""
    return int(key.rpartition("/")[2])


class Told:
    """The log, by what the files say. `said` is what somebody should be told of a folder."""

    def __init__(self, log, institution, founding):
        if not shutil.which("sqlite3"):
            raise Refused("sqlite3 is missing, which reads journals: apt-get install sqlite3")
        self.log, self.institution, self.founding, self.said = log, institution, founding, []

    # ---- a file

    def number_in(self, path, journal):
        """The last line of the log that a file has, by its own rows."""
        first, began, last = journal.ends(self.founding.number)
        is_archived = first.number > self.founding.number
        if not is_archived and (not began or began.chain != self.founding.chain):
            raise Refused(f"{path} is of another institution than the log in etcd")
        number, word = last.number - self.founding.number, last.told[:WORD]
        if number and not word.startswith(word_of(self.institution, 0)[:17]):
            raise Refused(f"{path} is of another institution than the log in etcd, or was fed by hand")
        if number and word != word_of(self.institution, number):
            raise Useless(f"{path} has {number} lines, and the last says {word.decode()}")
        return number

    def stand(self, path):
        """The same, where the log has these lines too. It raises Parted where the two part."""
        journal = Journal(path)
        number = self.number_in(path, journal)
        at, chain = self.newest_head(number)
        row = journal.at(self.founding.number + at)
        if row and row.chain != chain:
            raise Refused(other_head(at, path, row.chain, chain))
        self.compare(path, journal, max(at, 1), number)
        return number

    def compare(self, path, journal, first, number):
        """Compares the rows of a file with lines of the log. What was cut off is left out, but never the last one."""
        known = first - 1
        for start in range(first, number + 1, GROUP):
            end = min(start + GROUP, number + 1)
            rows = journal.between(self.founding.number + start, self.founding.number + end - 1)
            lines = {row.number - self.founding.number: (row.told, row.line) for row in rows}
            for key, value, _ in self.log.read(key_of(start), key_of(end), GROUP, None):
                known = number_of(key)
                line = self.log.line_in(key, value).removesuffix(b"\r")  # which the program leaves out
                line = (word_of(self.institution, known, remark_in(value)), line)
                if lines.get(known, line) != line:
                    raise Parted(path, known, number)
        if known < number:
            if self.log.etcd.found(key_of(number), LOG + LAST, 1):
                raise Refused(f"the log has no line {number}: copy a newer kept folder of another replica")
            raise Parted(path, known + 1, number, has_ended=True)

    # ---- a folder

    def join(self, folder):
        """Looks at what a folder has, and leaves in it what to go on from: the file that was followed last, or else the
        newest copy. It gives the number of its last line."""
        base, is_there = self.stand_of_copy(folder), folder.lock_desk(ENDING)
        for name, place in folder.runs().items():
            self.known_to_stand(folder.path_of(name), place, base)
        number = self.stand_of_desk(folder, base) if is_there else -1
        if number >= 0:
            return number
        if not folder.copy():
            if Founding.of_new() != self.founding:
                told = f"an institution that was brought in, and {folder.path} holds nothing"
                raise Refused(f"the log began with {told}: copy a kept folder here")
            self.log.after(0, None)
        return base

    def stand_of_copy(self, folder):
        """How far the newest copy is; 0 where there is none."""
        copy = folder.copy()
        if not copy:
            return 0
        place = Place.beside(copy)
        if place:
            self.known_to_be_ours(copy, place)
        if (place.number if place else 0) != folder.kept:
            raise Refused(f"{copy} doesn't say that it holds {folder.kept} lines: it was renamed, or made by hand")
        try:
            number = self.stand(copy)
        except (Useless, Parted) as why:
            raise Refused(str(why)) from None
        if folder.kept and number != folder.kept:
            raise Refused(f"{copy} holds {number} lines: it was renamed, or made by hand")
        if not place:
            Place(self.institution).write(copy)
        return number

    def known_to_stand(self, path, place, base):
        """The log must have what a file was noted to have, of which its rows say nothing."""
        self.known_to_be_ours(path, place)
        if place.number > base:
            self.log.after(place.number, place.line)

    def known_to_be_ours(self, path, place):
        if place.institution != self.institution:
            raise Refused(f"{path} is of another institution than the log in etcd")

    def stand_of_desk(self, folder, base):
        """How far the file is that was followed last; -1 where it is set aside. That is where the copy is newer, or
        where the file was the writer's, and has lines that never came into the log."""
        path = folder.path_of(DESK)
        place = self.place_beside(path)
        self.known_to_be_ours(path, place)
        try:
            if self.number_in(path, Journal(path)) >= base:
                return self.stand(path)
            folder.set_aside()
        except Useless as why:
            self.known_to_stand(path, place, base)
            self.set_aside(folder, str(why))
        except Parted as parted:
            if not place.writes or parted.number <= place.number or parted.last - parted.number >= GROUP:
                raise Refused(str(parted)) from None
            self.set_aside(folder, f"lines {parted.number} to {parted.last} never came into the log")
        return -1

    def place_beside(self, path):
        """What is noted beside the file. It isn't synced, so it may be lost with the machine's power: the rows of the
        file say all else."""
        try:
            place = Place.beside(path)
        except Refused:
            place = Place(self.institution, writes=True)
            place.write(path)
        if not place:
            raise Refused(f"{path} doesn't say what it is: it was made by hand")
        return place

    def set_aside(self, folder, why):
        self.said.append(f"goes on from an earlier file: {why}")
        folder.set_aside()

    # ---- heads

    def newest_head(self, number):
        """The last line up to this one for which a head stands beside the log, and the head."""
        found = self.log.etcd.last_of(HEAD, head_of(number + 1))
        return (number_of(found[0]), found[1].decode()) if found else (0, self.founding.chain)

    def compare_head(self, number, chain, within):
        """Puts the head of a desk behind a line beside the log. Where one stands there, it must be the same."""
        key = head_of(number)
        found = self.log.etcd.found(key, within=within)
        if not found:
            named = [(INSTITUTION, self.log.named)]
            self.log.etcd.put_where([(key, 0)], [(key, chain)], values=named, within=within)
            found = self.log.etcd.found(key, within=within)
        if found and found[0][1].decode() != chain:
            raise Refused(other_head(number, "this desk", chain, found[0][1].decode()))


def other_head(number, path, here, there):
    return f"behind line {number} {path} has the head {here}, and beside the log stands {there}: the files differ"


class ToldDesk(Desk):
    """A desk that is told the number of each line. Its file stays where it is, in `desk` of the folder; that of one in
    memory is a copy."""

    def __init__(self, folder, told, memory=None):
        self.told = told
        super().__init__(folder, told.institution, memory)

    def start(self):
        """Begins with the file that was followed last, or else with the newest copy."""
        place, self.noted_at = self.folder.path_of(DESK), None
        if os.path.isdir(place):
            before = Place.beside(place)
            self.term, self.wrote = before.term, before.wrote
        if self.memory:
            self.run = tempfile.mkdtemp(prefix="run-", dir=self.memory.path)
            source = place if os.path.isdir(place) else self.folder.copy()
            for name in {FILE, FILE + "-wal"} & set(os.listdir(source) if source else []):
                shutil.copy(os.path.join(source, name), self.run)
        else:
            self.folder.begin_desk(self.place())
            self.run = place
        path = os.path.join(self.run, FILE)
        words = [PROGRAM, "batch", "--journal", "--told", "--file", path] + ["--existing"] * os.path.exists(path)
        held = [self.folder.desk_lock] if not self.memory else []
        pipes = {"stdin": subprocess.PIPE, "stdout": subprocess.PIPE}
        self.process = subprocess.Popen(words, start_new_session=True, pass_fds=held, **pipes)
        self.open(path)

    def open(self, path):
        """Waits until the process has opened the file, and reads in it how far it is. One that is damaged is set aside
        for the next start."""
        try:
            self.exchange(self.fed(READING, 0))
        except DeskFailed:
            self.process.kill()
            self.process.wait()
            why = subprocess.run([PROGRAM, "why", "--file", path], stdout=subprocess.PIPE, check=False).stdout.decode()
            if not self.memory and any(word in why for word in DAMAGED):
                self.folder.set_aside()
            raise DeskFailed(why.strip()) from None
        self.number = self.read(lambda journal: self.told.number_in(self.run, journal))
        self.line = self.told.log.sum_at(self.number)
        self.place().write(self.run)

    def read(self, what):
        """Something of the journal of its file."""
        try:
            return what(Journal(self.run))
        except Useless as why:
            raise DeskFailed(why) from None

    def fed(self, line, number, remark=b""):
        return word_of(self.institution, number, remark) + b" " + line

    def is_logged(self, line, reply):
        """A receipt that is sent again leaves no row."""
        is_again = reply.startswith(b"200 ") and line.split(b" ", 3)[2].endswith(b"/repayments")
        return super().is_logged(line, reply) and not is_again

    def confirm(self):
        with self.waited_for():
            self.place().write(self.run)

    def check(self):
        """Each line that was counted must have left a row."""
        number = self.read(lambda journal: self.told.number_in(self.run, journal))
        if number != self.number:
            raise Refused(f"the desk has {number} lines, and was fed {self.number}: it answers otherwise than the log")

    def head(self, number):
        """The chain behind a line."""
        with self.waited_for():
            row = self.read(lambda journal: journal.at(self.told.founding.number + number))
        if not row:
            raise Refused(f"the desk was fed {self.number} lines, and has no row of line {number}")
        return row.chain

    def end(self):
        """Ends the process. One in memory leaves a copy on the disk, which is newer than the file there."""
        if self.memory:
            super().end()
            shutil.rmtree(self.folder.path_of(DESK), ignore_errors=True)
            return
        self.process.stdin.close()
        if self.process.wait() != 0:
            raise DeskFailed(f"it ended with status {self.process.returncode}")
        self.writes = False
        self.place().write(self.run)

    def drop(self):
        if self.memory:
            return super().drop()
        self.process.kill()
        self.process.wait()
