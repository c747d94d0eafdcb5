"""The heads of an institution's journal that were noted, in a file that the owner of the institution can't write.

Whoever can write the institution's file can make its journal anew from a line on, and the program takes it. A head that
was noted before, the number of a line and its chain, tells: the chain at that number is then another one.

A line of the notes is the moment, the number of the journal's last line and its chain; both are `-` where no journal is
kept. A backup notes what its copy keeps. Behind a head stands, where it isn't one that a backup found in order:

    restored    what a restore has put in place; of the notes before it only those up to its number count from then on
    founded     a new institution, made by microloan-setup; none of the notes before it counts
    differs ..  a copy that isn't as it was noted, and how it differs; such a line isn't compared with
"""
import contextlib
import os
import sqlite3
import typing

import institution_files as files

PLACE = "/var/backups/microloan/journal-heads"
# What microloan.service reads before a start: where it is there, a file without a journal isn't served.
MARK = "/etc/microloan/journal"
MARKED = """# The institution keeps a journal: microloan.service serves no file without one. Written by microloan-setup.
# To go on without one, remove this file, and /var/backups/microloan/journal-heads.
MICROLOAN_JOURNAL=yes
"""
BEGIN = "sudo -u microloan microloan upgrade --existing --file {} --journal"
DIFFERS = "differs "


class Note(typing.NamedTuple):
    moment: str
    number: int  # less than 0 where no journal is kept
    chain: str
    word: str


@contextlib.contextmanager
def journal_of(path):
    """The database of a file as its own pages have it, without its log; nothing where it keeps no journal."""
    place = f"file:{files.quoted(path)}?mode=ro&immutable=1"
    try:
        with contextlib.closing(sqlite3.connect(place, uri=True)) as database:
            found = database.execute("select 1 from sqlite_schema where type = 'table' and name = 'journal'").fetchone()
            yield database if found else None
    except (sqlite3.Error, OverflowError) as fault:
        raise files.Failed(f"the journal of {path} isn't read: {fault}") from None


def is_kept(path):
    with journal_of(path) as database:
        return database is not None


def head_of(path):
    """The number and the chain of the last line of a file's journal; nothing where it keeps none."""
    with journal_of(path) as database:
        if database is None:
            return None
        return database.execute("select number, lower(hex(chain)) from journal order by number desc limit 1").fetchone()


def told(head):
    return "journal {} head {}".format(*head) if head else ""


def place_of(path):
    """Where the heads of a file's journal are noted; nowhere for a file that isn't the desk's."""
    return PLACE if path == files.FILE else None


def read(place):
    """The notes, the oldest first."""
    if place is None:
        return []
    try:
        with open(place, encoding="utf-8", errors="replace") as file:
            return list(map(note_of, file))
    except FileNotFoundError:
        return []


def note_of(line):
    """What a line notes. Of one that isn't as it was written nothing is compared, and a backup is made all the same."""
    try:
        moment, number, chain, *word = line.rstrip("\n").split(" ", 3)
        return Note(moment, -1 if number == "-" else int(number), chain, "".join(word))
    except ValueError:
        return Note("", -1, "", f"{DIFFERS}a line of {PLACE} isn't as it was written")


def standing(notes):
    """The notes that a journal is compared with, the oldest first."""
    found = []
    for note in notes:
        if note.word in ("restored", "founded"):
            found = [before for before in found if before.number <= note.number]
        if note.number >= 0 and not note.word.startswith(DIFFERS):
            found.append(note)
    return found


def difference(path, notes):
    """What of the notes a file's journal isn't, as a text; nothing where it is all that was noted.

    Where its first lines were archived, the notes from its beginning on are compared, and there must be one.
    """
    with journal_of(path) as database:
        if database is None and notes:
            return f"no journal is kept any more, and its line {notes[-1].number} was noted on {notes[-1].moment}"
        begins = database.execute("select coalesce(min(number), 0) from journal").fetchone()[0] if database else 0
        compared = [note for note in notes if note.number >= begins]
        if notes and not compared:
            last = f"the last that was noted, on {notes[-1].moment}, is {notes[-1].number}"
            return f"the journal begins after line {begins}, and {last}"
        for note in compared:
            when = f"line {note.number} was noted on {note.moment}"
            row = database.execute("select lower(hex(chain)) from journal where number = ?", [note.number]).fetchone()
            if row is None:
                return f"the journal is shorter than it was: its {when}"
            if row[0] != note.chain:
                return f"the journal isn't the one that it was: its {when} with another chain"
    return None


def add(place, moment, head, word=""):
    """Notes a head, or that no journal is kept. The notes are written anew beside themselves, and put in place."""
    number, chain = head or ("-", "-")
    line = f"{moment.isoformat(timespec='seconds')} {number} {chain} {word}".rstrip()
    before = b""
    with contextlib.suppress(FileNotFoundError), open(place, "rb") as file:
        before = file.read()
    with open(place + ".new", "wb") as file:
        file.write(before + line.encode() + b"\n")
    files.keep(place + ".new", place)


def remember():
    """Has each start ask for a journal from now on."""
    if os.path.exists(MARK):
        return
    with open(MARK + ".new", "w", encoding="ascii") as file:
        file.write(MARKED)
    files.keep(MARK + ".new", MARK)
