"""Forges a journal, as somebody can who may write the institution's file: python3 forge_journal.py FILE NEW HOW

    a number   a new file, in which that line has another body, and the chain is made anew from there on
    last       a new file without the last line
    all        a new file without a journal

Rows and tables go into a new file without page sums, which the program opens like any. The text of a line is that of
docs/tables.md and of crates/mf_journal.
"""
import contextlib
import hashlib
import sqlite3
import sys

LINES = "select number, day, office, staff, told, method, path, body, named_office, named_loan, chain from journal"


def number(value):
    return value.to_bytes(8, "big")


def text(value):
    return number(len(value)) + value


def link(before, row):
    _, day, office, staff, told, method, path, body, named_office, named_loan, _ = row
    words = [before, number(day), number(office), number(staff), text(told), text(method), text(path), text(body)]
    return hashlib.sha256(b"".join([*words, number(named_office), number(named_loan)])).digest()


def make_anew(database, first):
    chain = None
    for row in database.execute(LINES + " order by number").fetchall():
        if row[0] == 0:
            chain = row[10]
            continue
        if row[0] < first and link(chain, row) != row[10]:
            raise AssertionError(f"line {row[0]} isn't chained as the documents have it")
        body = row[7] + b" " if row[0] == first else row[7]
        chain = link(chain, (*row[:7], body, *row[8:]))
        database.execute("update journal set body = ?, chain = ? where number = ?", (body, chain, row[0]))


def main(path, new, how):
    with contextlib.closing(sqlite3.connect(f"file:{path}?mode=ro&immutable=1", uri=True)) as database:
        tables = database.execute("select sql || ';' from sqlite_schema where sql is not null order by rowid").fetchall()
        rows = [line for line in database.iterdump() if line.startswith("INSERT")]
    with contextlib.closing(sqlite3.connect(new)) as database, database:
        database.executescript("\n".join(["begin;", *(table for (table,) in tables), *rows, "commit;"]))
        if how == "all":
            database.executescript("begin; drop table journal; update meta set schema = 2; commit;")
        elif how == "last":
            database.execute("delete from journal where number = (select max(number) from journal)")
        else:
            make_anew(database, int(how))


if __name__ == "__main__":
    main(*sys.argv[1:])
