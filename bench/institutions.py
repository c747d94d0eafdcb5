"""Institutions' files for the scripts beside this one: made by the program, with page sums or without, and what they
show.

The program is that of this checkout, or the one that MICROLOAN names. MICROLOAN_WORDS are given to it too, where lines or
sheets are entered into a file: with `--journal` the scripts try files that keep one. What is written to the disk goes to
memory where the system has a folder for it. It wants the `sqlite3` shell.
"""
import contextlib
import json
import os
import shutil
import sqlite3
import struct
import subprocess
import tempfile

TOP = os.path.dirname(os.path.dirname(os.path.abspath(__file__)))
PROGRAM = os.environ.get("MICROLOAN") or os.path.join(TOP, "out", "microloan")
MORE_WORDS = os.environ.get("MICROLOAN_WORDS", "").split()
DAYS = 87  # the first lines of the program's request lines: the day of docs/lines.md
PAGE = 4096
SUM = 8  # bytes at the end of each page
MOST_ENTRIES = 9999  # of a loan
PATIENCE = 60  # seconds that a command may take
FIRST_SCHEMA = "drop table instalments; drop table shares; update meta set schema = 1"
# what shows an institution of that day, and of the lines that follow it here
QUESTIONS = (
    ["/business-day", "/offices", "/reports/arrears"]
    + [f"/{name}/{number}" for name in ("charges", "products") for number in (1, 2)]
    + [f"/offices/{number}/loans/0" for number in (1, 2, 5, 20)]
    + [f"/clients/{number}" for number in ("0005-000001", "0020-000001")]
    + [
        f"/loans/{number}{part}"
        for number in ("0005-000001", "0005-000002", "0020-000001")
        for part in ("", "/schedule", "/entries")
    ]
)
ASKED = "".join(f"1/1 GET {path}\n" for path in QUESTIONS).encode()


def have_program():
    """Has the program of this checkout unpacked or built, unless MICROLOAN names another."""
    if not os.environ.get("MICROLOAN"):
        subprocess.run([os.path.join(TOP, "microloan"), "--help"], stdout=subprocess.DEVNULL, check=True)


def room():
    """A folder that is removed at the end, in memory where there is such a place: no disk is waited for."""
    memory = "/dev/shm"
    return tempfile.TemporaryDirectory(dir=memory if os.access(memory, os.W_OK) else None)


def ended(words, given=b"", patience=PATIENCE, **options):
    """The program's status, standard output and standard error."""
    done = subprocess.run([PROGRAM, *words], input=given, capture_output=True, check=False, timeout=patience, **options)
    return done.returncode, done.stdout, done.stderr


def answered(path, lines):
    """The replies to lines over a file, which must end well."""
    status, replies, said = ended(["batch", "--file", path, *MORE_WORDS], lines)
    if status != 0:
        raise SystemExit(f"the program refuses {path}: {said.decode(errors='replace').strip()}")
    return replies


def lines_of_most_entries(each_reversed=False):
    """Lines of a loan that takes as many entries as it may, and one more, each with its reply, worked out by hand."""
    account, of = '"loan":"0001-000001"', "1/1 POST /loans/0001-000001"
    product = {"name": "Many", "method": "flat", "rate": 1200, "frequency": "months", "every": 1}
    product |= {"principal_grace": 0, "interest_grace": 0, "min_principal": 1, "max_principal": 100000}
    product |= {"min_periods": 1, "max_periods": 12, "strategy": "mifos-standard-strategy"}
    yield '1/1 POST /clients {"office":1,"name":"Amina"}', '201 {"client":"0001-000001"}'
    yield f"1/1 POST /products {json.dumps(product)}", '201 {"product":1}'
    yield '1/1 POST /loans {"client":"0001-000001","product":1,"principal":100000,"periods":3}', f"201 {{{account}}}"
    yield f"{of}/approve", f'200 {{{account},"status":200}}'
    yield f'{of}/disburse {{"day":"2024-01-01"}}', f'200 {{{account},"status":300}}'
    cent = f'{of}/repayments {{"amount":1,"day":"2024-01-01"}}'
    for entry in range(1, MOST_ENTRIES + 1):
        yield cent, f'201 {{"entry":{entry}}}'
        if each_reversed:
            yield f"{of}/entries/{entry}/reverse", f'200 {{"entry":{entry}}}'
    yield cent, '409 {"fault":"F18"}'
    if not each_reversed:
        yield f"{of}/entries/{MOST_ENTRIES}/reverse", f'200 {{"entry":{MOST_ENTRIES}}}'
        yield cent, '409 {"fault":"F18"}'


def day_lines():
    """The lines of the day of docs/lines.md."""
    with open(os.path.join(TOP, "crates", "microloan", "stdin"), "rb") as file:
        return file.readlines()[:DAYS]


def shell(path, statements):
    """What the `sqlite3` shell prints. Where it is the last to close the file it copies the log into it."""
    return subprocess.run(["sqlite3", path, statements], stdout=subprocess.PIPE, check=True).stdout


def rows(path):
    """All tables with their rows, as SQLite reads them, or what it says of the file. The files stay as they are."""
    words = f"file:{path}?mode=ro"
    try:
        with contextlib.closing(sqlite3.connect(words, uri=True)) as database:
            database.text_factory = lambda text: text.decode(errors="surrogateescape")
            return "".join(f"{line}\n" for line in database.iterdump()).encode(errors="surrogateescape")
    except sqlite3.Error as fault:
        return f"{fault}\n".encode()


def remove(path):
    """Removes a file and what stands beside it."""
    for ending in ("", "-wal", "-shm"):
        if os.path.exists(path + ending):
            os.remove(path + ending)


def copy(path, other):
    """Copies a file and the log beside it over another."""
    remove(other)
    for ending in ("", "-wal"):
        if os.path.exists(path + ending):
            shutil.copyfile(path + ending, other + ending)


def made_anew(path, other, first=""):
    """Has the shell make a file with the same tables, in their order, and rows: one without sums, whatever the first
    file has."""
    remove(other)
    made = subprocess.run(["sqlite3", "-readonly", path, ".dump"], stdout=subprocess.PIPE, check=True).stdout
    words = ["sqlite3", "-bail", other]
    subprocess.run(words, input=first.encode() + b"\n" + made, stdout=subprocess.PIPE, check=True)


def without_sums(path, other, statements=""):
    """Makes a file with the same tables and rows and without sums, changed by the statements. The shell's writes spoil
    the sums of a file that has them, and such a file is refused whatever its rows are."""
    made_anew(path, other)
    if statements:
        shell(other, statements)


def with_sums(path, other):
    """Makes a file with the same tables and rows and with a sum in each page, worked out here."""
    made_anew(path, other, f".filectrl reserve_bytes {SUM}")
    sums_anew(other)


def sums_anew(path):
    """Writes the sum of each page anew, in a file whose pages have room for it."""
    with open(path, "r+b") as file:
        while page := file.read(PAGE):
            file.seek(-SUM, os.SEEK_CUR)
            file.write(sum_of(page[:-SUM]))


def has_sums(path):
    """Whether the file's header says that its pages end in sums."""
    with open(path, "rb") as file:
        return file.read(21)[20:] == bytes([SUM])


def noted_of_sums(path, begin):
    """The line, begun so, that `why` and `audit` have of a sound institution where its pages have no sums."""
    said = f"{begin}: its pages have no checksums, so a bit that turned on the disk may go unnoticed\n"
    return b"" if has_sums(path) else said.encode()


def sum_of(page):
    """The sum of a page without its last bytes, as SQLite's checksum VFS has it."""
    first = second = 0
    words = struct.unpack(f"<{len(page) // 4}I", page)
    for one, other in zip(words[::2], words[1::2]):
        first = first + one + second & 0xFFFFFFFF
        second = second + other + first & 0xFFFFFFFF
    return struct.pack("<II", first, second)


def wrong_sums(path):
    """The numbers of the pages whose sum is not the one that is worked out here."""
    with open(path, "rb") as file:
        data = file.read()
    pages = [data[at : at + PAGE] for at in range(0, len(data), PAGE)]
    return [number for number, page in enumerate(pages, 1) if sum_of(page[:-SUM]) != page[-SUM:]]
