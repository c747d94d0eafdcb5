"""The log of request lines in etcd, and the institution whose log it is."""
import secrets
import typing

from desk import DESK, Place, Refused, sum_of, sum_of_rows
from etcd import ANSWERED_BY, EVERY_LINE, GROUP, INSTITUTION, LAST, LOG, WRITER, Full, key_of
from journal import Founding, Useless
from told import Told

NEW = "new"  # what an institution begins with that was brought from nowhere


class Log:
    """The log in etcd, and the institution whose log it is."""

    def __init__(self, etcd, patience, version):
        self.etcd, self.patience, self.version = etcd, patience, version
        self.institution = self.beginning = self.named = self.revision = self.answered_by = None
        self.told = None  # of a log whose desks keep a journal
        self.goes_on = False  # whether there was more than what was read last

    def join(self, folder, with_journal=False):
        """Makes sure that what a folder has is of this log's institution; founds one where neither holds any. It gives
        the number of the line up to which the folder's file has followed the log."""
        known = self.etcd.found(INSTITUTION)
        if not known:
            self.found_institution(folder, with_journal)
            known = self.etcd.found(INSTITUTION)
        self.named, self.revision = known[0][1:]
        self.institution, self.beginning = self.named.decode().split()
        founding = Founding.of_word(self.beginning)
        if with_journal and not founding:
            raise Refused("no journal: the log in etcd was founded without --journal")
        self.told = founding and Told(self, self.institution, founding)
        self.agree_on_program()
        if not self.told:
            self.join_by_place(folder)
        number = self.told.join(folder) if self.told else folder.kept
        behind = self.upgraded_behind()
        if number < behind:
            which = f"the newest copy holds {number} lines, and the log was upgraded behind line {behind}"
            raise Refused(f"{which}: copy a newer kept folder of another replica")
        if not self.told:
            copy = folder.copy()
            self.after(number, copy and Place.beside(copy).line)
        return number

    def join_by_place(self, folder):
        """Makes sure of it by what lies beside a copy."""
        copy = folder.copy()
        place = copy and Place.beside(copy)
        if place is None and folder.kept == 0:
            self.join_at_beginning(folder, copy)
        elif place is None or place.number != folder.kept:
            raise Refused(f"{copy} doesn't say that it holds {folder.kept} lines: it was renamed, or made by hand")
        elif place.institution != self.institution:
            raise Refused(f"{copy} is of another institution than the log in etcd")
        if DESK in folder.made():
            raise Refused(f"{folder.path_of(DESK)} is of another institution than the log in etcd")
        for name, place in folder.runs().items():
            if place.institution != self.institution:
                raise Refused(f"{folder.path_of(name)} is of another institution than the log in etcd")
            if place.number > folder.kept:
                self.after(place.number, place.line)

    def found_institution(self, folder, with_journal):
        """Makes a name for the institution that begins here. Where the folder or the log holds something already, it
        began elsewhere, and the name was lost with etcd's data."""
        copy = folder.copy()
        used = [name for name in folder.made() if Place.beside(folder.path_of(name))]
        if used or folder.kept:
            raise Refused(f"etcd is new or lost its data: it knows no institution, and {folder.path} followed its log")
        if self.etcd.found(LOG, LOG + LAST, 1):
            raise Refused("the log in etcd has lines, and no institution: it was begun by an older scale/replica")
        beginning = self.beginning_of(copy, with_journal)
        name = f"{secrets.token_hex(16)} {beginning}"
        self.etcd.put_where([(INSTITUTION, 0)], [(INSTITUTION, name), (ANSWERED_BY, f"0 {self.version}")])

    @staticmethod
    def beginning_of(copy, with_journal):
        """What a log begins with: what was brought here, or a new institution."""
        if not with_journal:
            return sum_of_rows(copy) if copy else NEW
        try:
            return (Founding.of_file(copy) if copy else Founding.of_new()).as_word()
        except Useless as why:
            raise Refused(f"no journal: `microloan upgrade --journal` gives {copy} one: {why}") from None

    def agree_on_program(self):
        """Makes sure that this version of the program is the one that answers what comes next."""
        told = self.etcd.found(ANSWERED_BY)
        if not told:  # an older scale/replica founded it
            self.etcd.put_where([(ANSWERED_BY, 0)], [(ANSWERED_BY, f"0 {self.version}")])
            told = self.etcd.found(ANSWERED_BY)
        self.answered_by = told[0][1]
        version = program_in(self.answered_by)[1]
        if version != self.version:
            raise Refused(f"the log is answered by {version}, and this program is {self.version}")

    def upgraded_behind(self):
        """The line behind which this version of the program answers."""
        return program_in(self.answered_by)[0]

    def read(self, first, last, limit, within):
        """What etcd has found between two keys, where the log is answered by the same program as when it was joined."""
        program, found = self.etcd.found_at_once((ANSWERED_BY,), (first, last, limit), within=within)
        told = program[0][1] if program else b"0 nothing"
        if told != self.answered_by:
            number, version = program_in(told)
            raise Refused(f"behind line {number} the log is answered by {version}, and this program is {self.version}")
        return found

    def join_at_beginning(self, folder, copy):
        """A folder that has followed nothing yet begins as all others did."""
        begins = sum_of_rows(copy) if copy else NEW
        if begins != self.beginning:
            wanted = "a new institution" if self.beginning == NEW else "an institution that was brought in"
            brought = "another one" if copy else "nothing"
            raise Refused(f"the log began with {wanted}, and {folder.path} holds {brought}: copy a kept folder here")
        if copy:
            Place(self.institution).write(copy)

    def after(self, number, known_sum, within=None):
        """The next values behind a number, each with its line. The value at the number must be the one that was
        followed: else this is another log, or one that has lost its end."""
        first = max(number, 1)
        found = []
        if self.goes_on:  # etcd looks at each key of a range, whatever the limit is
            found = self.read(key_of(first), key_of(first + GROUP + 1), GROUP + 1, within)
        if len(found) <= GROUP:
            found = self.read(key_of(first), LOG + LAST, GROUP + 1, within)
        self.goes_on = len(found) > GROUP
        if number:
            if not found:
                raise Refused(f"the log ends before line {number}, which was followed: etcd has lost lines")
            if found[0][0] == key_of(number) and sum_of(found[0][1]) != known_sum:
                raise Refused(f"line {number} of the log is not the one that was followed: etcd has lost lines")
        keys = [key for key, _, _ in found]
        if keys != [key_of(place) for place in range(first, first + len(keys))]:
            raise Refused(f"the log has no line {first}, or one behind it: copy a newer kept folder of another replica")
        return [(value, self.line_in(key, value)) for key, value, _ in found[bool(number) :]]

    @staticmethod
    def line_in(key, value):
        """The request line of a value of the log (`value_of`)."""
        before, _, line = value.partition(b" ")
        if not before.partition(b",")[0].isdigit() or not line or b"\n" in line:
            raise Refused(f"{key} is no line: {value[:60]}")
        return line

    def sum_at(self, number):
        """The sum of a line of the log; none at its beginning."""
        found = self.etcd.found(key_of(number)) if number else [(None, None, 0)]
        if not found:
            raise Refused(f"the log has no line {number}: copy a newer kept folder of another replica")
        return sum_of(found[0][1])

    def append(self, revision, first, values, every=None):
        """Puts values at the end of the log, which must be that of this institution and this program, end before
        `first`, and have the writer whose key was made at `revision`; and with them the last line for every desk, where
        they have one. It tells whether they stand there; NoAnswer where that isn't known."""
        puts = [(key_of(number), value) for number, value in enumerate(values, first)]
        asked = [(WRITER, revision), (INSTITUTION, self.revision), (key_of(first), 0)]
        there = [key_of(first - 1)] if first > 1 else []
        same, is_full = [(ANSWERED_BY, self.answered_by), (INSTITUTION, self.named)], None
        try:
            more = [(EVERY_LINE, every.as_value())] if every else []
            if self.etcd.put_where(asked, puts + more, there=there, values=same, within=self.patience):
                return True
        except Full as why:
            is_full = why  # of the put that fills it etcd says so too, and carries it out
        # an earlier try of the call may have put them; the transaction of another never carries this lease
        found = self.etcd.found(key_of(first), LOG + LAST, len(values), self.patience)
        if is_full and not found:
            raise is_full
        return [(key, value) for key, value, _ in found] == puts


class EveryLine(typing.NamedTuple):
    """The last line of the log that scale/regions sent to every desk: the number that it has there, and its reply."""

    number: int = 0
    reply: bytes = b""

    def as_value(self):
        return b"%d %s" % self

    @staticmethod
    def of(etcd):
        """The one that stands in etcd."""
        found = etcd.found(EVERY_LINE)
        number, _, reply = found[0][1].partition(b" ") if found else (b"0", b"", b"")
        return EveryLine(int(number), reply)


def program_in(value):
    """Behind which line of the log a version of the program answers, and which."""
    number, _, version = value.decode().partition(" ")
    return int(number), version
