"""A journal whose first lines were moved to archives, put together: for `play`.

An archive is a file that has the table `journal` alone. Its first row says where it begins, as that of a file's journal
does: the number before its first line, the day, and the chain over all lines up to there.
"""
import hashlib
import os
import sqlite3

import tables
from tables import Failed

HEADER = b"SQLite format 3\0"
NUMBERS = ("day", "office", "staff")
TEXTS = ("told", "method", "path", "body")
NAMED = ("named_office", "named_loan")


def rows_of(path):
    """The rows of a file's journal in their order, texts as bytes."""
    with tables.reading(path) as file:
        file.row_factory = sqlite3.Row
        return [dict(row) for row in file.execute("select * from journal order by number")]


def text_of(row):
    """The text of a line, which the chain is made of."""
    texts = b"".join(len(row[name]).to_bytes(8, "big") + row[name] for name in TEXTS)
    numbers = [b"".join(row[name].to_bytes(8, "big") for name in names) for names in (NUMBERS, NAMED)]
    return numbers[0] + texts + numbers[1]


def checked(path, rows):
    """The rows of an archive, whose first says where it begins and whose others follow on one another."""
    if not rows:
        raise Failed(f"{path}: no row says where its lines begin")
    for before, row in zip(rows, rows[1:]):
        chain = hashlib.sha256(before["chain"] + text_of(row)).digest()
        if row["number"] != before["number"] + 1 or row["day"] < before["day"] or row["chain"] != chain:
            raise Failed(f"{path}: line {row['number']} does not follow on those before it")
    return rows


def archives_in(folder):
    """The archives in a folder, each a path and its rows, in the order of their lines."""
    found = []
    for entry in os.scandir(folder):
        if not entry.is_file():
            continue
        with open(entry.path, "rb") as file:
            is_database = file.read(len(HEADER)) == HEADER
        if is_database:
            found.append((entry.path, checked(entry.path, rows_of(entry.path))))
    return sorted(found, key=lambda part: (part[1][0]["number"], part[1][-1]["number"]))


def put_together(folder, path, lines):
    """The rows of the archives in a folder and then those of a file's journal. Its last lines may stand in both, as where
    archiving was stopped before it took them out."""
    whole = []
    for name, rows in [*archives_in(folder), (path, lines)]:
        if not whole:
            whole = list(rows)
            continue
        last, first = whole[-1], rows[0]
        if first["number"] > last["number"]:
            missing = f"lines {last['number'] + 1} to {first['number']}"
            raise Failed(f"no archive has the {missing}, after which {name} goes on")
        known = {row["number"]: row["chain"] for row in whole}
        if any(known.get(row["number"], row["chain"]) != row["chain"] for row in rows):
            raise Failed(f"{name} is not of the journal whose lines stand before it")
        whole += [row for row in rows if row["number"] > last["number"]]
    return whole
