"""The rows of institutions' files, and in what they differ: for the scripts beside this file."""
import json
import os
import shutil
import sqlite3
import subprocess

TOP = os.path.dirname(os.path.dirname(os.path.abspath(__file__)))
PROGRAMS = (os.path.join(TOP, "microloan"), "/usr/bin/microloan")  # of a checkout, of the package
SHOWN = 20  # differences that are told one by one
# how a row is named by its key
NAMES = {
    "meta": "the institution",
    "offices": "{}",
    "staff": "{}/{}",
    "clients": "{:04d}-{:06d}",
    "charges": "{}",
    "products": "{}",
    "loans": "{:04d}-{:06d}",
    "entries": "{:04d}-{:06d} entry {}",
    "receipts": "of office {}: {}",
    "instalments": "{:04d}-{:06d} instalment {}",
    "shares": "{:04d}-{:06d} entry {} share {}",
}


class Failed(Exception):
    """Why something can't be compared."""


def program():
    """The program that MICROLOAN names, or that of this checkout, or of the package."""
    return os.environ.get("MICROLOAN") or next(filter(os.path.isfile, PROGRAMS), PROGRAMS[-1])


def answered(program, path, lines, words=()):
    """The replies to lines over a file. The program closes the file in order, so that it is whole without its log."""
    done = subprocess.run(
        [program, "batch", "--file", path, *words], input=lines, capture_output=True, umask=0o077, check=False
    )
    if done.returncode != 0:
        said = done.stderr.decode(errors="replace").strip()
        raise Failed(f"the program does not open the copy: {said}")
    return done.stdout.decode().splitlines()


def copy_of(path, folder, name):
    """A copy of a file and of its log."""
    copy = os.path.join(folder, name)
    shutil.copyfile(path, copy)
    if os.path.exists(path + "-wal"):
        shutil.copyfile(path + "-wal", copy + "-wal")
    return copy


def reading(path):
    return sqlite3.connect(f"file:{path}?mode=ro&immutable=1", uri=True)


def tables_of(path):
    """The rows of each table by their keys, each a mapping of its columns. The schema is left out: the program has
    opened the file, and it only says whether there is a journal."""
    tables = {}
    with reading(path) as file:
        file.row_factory = sqlite3.Row
        for table in NAMES:
            columns = file.execute(f"pragma table_info({table})").fetchall()
            key = [column["name"] for column in sorted(columns, key=lambda it: it["pk"]) if column["pk"]]
            rows = file.execute(f"select * from {table}")
            tables[table] = {tuple(row[name] for name in key): dict(row) for row in rows}
    for row in tables["meta"].values():
        del row["schema"]
    return tables


def name_of(table, key):
    return f"{table} {NAMES[table].format(*key)}"


def differences(file, wanted, all_of, none_of):
    """What differs from what comes of `all_of` something, a text with the table and the key of each row."""
    for table in NAMES:
        have, want = file[table], wanted[table]
        for key in sorted(have.keys() | want.keys()):
            mine, theirs = have.get(key), want.get(key)
            if mine is None or theirs is None:
                there = f"by {all_of}, and not in the file" if mine is None else f"in the file, by {none_of}"
                yield table, key, f"{name_of(table, key)}: {there}"
            elif mine != theirs:
                names = [name for name in mine if mine[name] != theirs[name]]
                told = [f"{name} is {mine[name]!r}, by {all_of} {theirs[name]!r}" for name in names]
                yield table, key, f"{name_of(table, key)}: " + "; ".join(told)


def rows_made(path, reply):
    """The tables and keys of the rows that a request made, by its path and the reply's numbers."""
    body = json.loads(reply.partition(" ")[2])
    parts = path.split("/")[1:]
    if "entry" in body and parts[0] == "loans":
        return [("entries", (*numbers_of(parts[1]), body["entry"]))]
    if parts[-1] in ("clients", "loans") and len(parts) == 1:
        return [(parts[0], numbers_of(body[parts[0][:-1]]))]
    if parts[-1] in ("charges", "products") and len(parts) == 1:
        return [(parts[0], (body[parts[0][:-1]],))]
    return []


def numbers_of(account):
    return int(account[:4]), int(account[5:])
