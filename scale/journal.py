"""The journal of a desk's file, as the file says it while its process waits for a line, or after it ended.

Its rows are read by the `sqlite3` shell (Debian: apt-get install sqlite3), since that can be told to change nothing. It
takes no lock, which the process keeps, and leaves the log beside the file as it is. (Python's module would delete that
log at its end, and the process still writes into it.)
"""
import os
import re
import shutil
import subprocess
import tempfile
import typing

from desk import FILE, PROGRAM

WORD = 29  # bytes of what the program is told of each line
SHELL = ["sqlite3", "-init", os.devnull, "-bail", "-readonly", "-vfs", "unix-none", "-list", "-separator", " "]
SHELL += ["-cmd", ".dbconfig no_ckpt_on_close on", "-cmd", "pragma locking_mode = exclusive"]
SHELL_SAYS = ["no_ckpt_on_close on", "exclusive"]
COLUMNS = "number, lower(hex(chain)), office, staff" + "".join(
    f", '.' || hex({name})" for name in ("told", "method", "path", "body")
)


class Useless(Exception):
    """A file from which nothing can go on, and that the log can do without."""


class Row(typing.NamedTuple):
    """A row of the journal, with its line as it was sent."""

    number: int
    told: bytes
    chain: str
    line: bytes

    @staticmethod
    def of_text(text):
        number, chain, office, staff, *texts = text.split(" ")
        told, *texts = [bytes.fromhex(text[1:]) for text in texts]
        return Row(int(number), told, chain, b" ".join([f"{office}/{staff}".encode(), *filter(None, texts)]))


class Founding(typing.NamedTuple):
    """Where the journal stood when a log began: the file's schema, and the number and the chain of its last row."""

    schema: int
    number: int
    chain: str

    def as_word(self):
        return f"journal:{self.schema}:{self.number}:{self.chain}"

    @staticmethod
    def of_word(word):
        """What a log began with; nothing where its desks are told no numbers."""
        found = re.fullmatch(r"journal:([0-9]+):([0-9]+):([0-9a-f]{64})", word)
        return found and Founding(int(found[1]), int(found[2]), found[3])

    @staticmethod
    def of_file(folder):
        """Where the journal of a file stands."""
        last = Journal(folder).ends()[-1]
        return Founding(int(Journal(folder).ask("select schema from meta")[0]), last.number, last.chain)

    @staticmethod
    def of_new():
        """Where the journal of a new institution begins."""
        with tempfile.TemporaryDirectory() as scratch:
            words = [PROGRAM, "batch", "--journal", "--file", os.path.join(scratch, FILE)]
            subprocess.run(words, stdin=subprocess.DEVNULL, stdout=subprocess.DEVNULL, check=True)
            return Founding.of_file(scratch)


def word_of(institution, number, remark=b""):
    """What the program is told of a line of a log, and what was remarked on it. All numbers are of one length, so that
    what it answers to a long line doesn't depend on the number."""
    return b"%s/%012d%s" % (institution[:16].encode(), number, b"," + remark if remark else b"")


class Journal:
    """The rows of the journal of the file in a folder. The first says where it begins, each of the others is a line."""

    def __init__(self, folder):
        self.path = os.path.join(folder, FILE)

    def ask(self, query):
        """The rows that the shell gives to a query, each a text."""
        if not os.path.exists(self.path):
            raise Useless(f"there is no {self.path}")
        if not shutil.which(SHELL[0]):
            raise Useless("sqlite3 is missing, which reads journals: apt-get install sqlite3")
        told = subprocess.run([*SHELL, self.path, query], capture_output=True, text=True, check=False)
        said = [line.strip() for line in told.stdout.splitlines()]
        if told.returncode or said[: len(SHELL_SAYS)] != SHELL_SAYS:
            raise Useless(f"no journal can be read in {self.path}: {told.stderr.strip() or said}")
        return said[len(SHELL_SAYS) :]

    def rows(self, which):
        return [Row.of_text(text) for text in self.ask(f"select {COLUMNS} from journal {which} order by number")]

    def ends(self, number=0):
        """The first row and the last, and between them that of a number, or nothing where there is none."""
        ends = "(select min(number) from journal), (select max(number) from journal)"
        found = self.rows(f"where number in ({ends}, {number})")
        if not found:
            raise Useless(f"the journal in {self.path} has no row")
        return found[0], next((row for row in found if row.number == number), None), found[-1]

    def between(self, first, last):
        """The rows from one number to another."""
        return self.rows(f"where number between {first} and {last}")

    def at(self, number):
        """The row of a number; nothing where there is none."""
        return next(iter(self.between(number, number)), None)
