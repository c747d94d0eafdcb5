"""Institutions of many branches: for the scripts beside this one.

The program makes one loan with its entries, and the branches with their managers. SQLite then copies the rows of this
loan and of its client into each branch, with numbers and receipts of their own. Opening checks every row, so one that
isn't as the program would have written it is refused there.
"""
import contextlib
import sqlite3

import institutions as files

CLIENTS, LOANS = 10000, 1000  # of each branch
PERIODS, ENTRIES = 12, 12  # of each loan
PRINCIPAL = 120000
REPAID = PRINCIPAL // 2  # of each loan, by all its entries together: it stays active
FIRST_DAY, LAST_DAY = "2024-01-01", "2024-12-31"  # business days
PRODUCT = (
    '1/1 POST /products {"name":"Loan","method":"declining-equal-principal","rate":1200,"frequency":"months","every":1,'
    '"principal_grace":0,"interest_grace":0,"min_principal":1,"max_principal":1000000,"min_periods":1,"max_periods":60,'
    '"strategy":"mifos-standard-strategy"}\n'
)
PLACE = {"office": "place.office", "loan": "place.number"}
RECEIPT = {"receipt": "own.receipt || '-' || place.number"}  # no two of an office are the same
# what a copied row has of its own, by table
OWN = {
    "clients": {"office": "place.office", "number": "place.number"},
    "loans": {"office": "place.office", "number": "place.number", "client": "place.number"},
    "instalments": PLACE,
    "entries": PLACE | RECEIPT,
    "receipts": PLACE | RECEIPT,
    "shares": PLACE,
}


def account(place):
    """A client or a loan as requests name it, by its office and its number."""
    office, number = place
    return f"{office:04}-{number:06}"


def lent(place, client, day=LAST_DAY):
    """The lines that submit a loan, approve it and pay it out on the day, which is the business day."""
    members = f'"client":"{account(client)}","product":1,"principal":{PRINCIPAL},"periods":{PERIODS}'
    return [
        f"1/1 POST /loans {{{members}}}\n",
        f"1/1 POST /loans/{account(place)}/approve\n",
        f'1/1 POST /loans/{account(place)}/disburse {{"day":"{day}"}}\n',
    ]


def repayment(place, amount, day=LAST_DAY, receipt=None):
    """The line of a repayment."""
    more = f',"receipt":"{receipt}"' if receipt else ""
    return f'1/1 POST /loans/{account(place)}/repayments {{"amount":{amount},"day":"{day}"{more}}}\n'


def first_lines(entries):
    """The lines that make an institution with one loan of office 1, half of it repaid by so many entries."""
    days = [f"2024-{month:02}-28" for month in range(1, entries + 1)]
    return [
        PRODUCT,
        '1/1 POST /clients {"office":1,"name":"Amina of the market"}\n',
        *lent((1, 1), (1, 1), FIRST_DAY),
        f'1/1 PUT /business-day {{"day":"{LAST_DAY}"}}\n',
        *(repayment((1, 1), REPAID // entries, day, f"R-{day}") for day in days),
    ]


def branch_lines(number):
    """The lines that open a branch."""
    return [
        f'1/1 POST /offices {{"number":{number},"parent":1,"name":"Branch {number}"}}\n',
        f'1/1 POST /staff {{"office":{number},"name":"Manager","role":"manager"}}\n',
    ]


def entered(path, lines):
    """Has the program enter lines into a file. It must accept all of them."""
    replies = files.answered(path, "".join(lines).encode()).splitlines()
    refused = [reply for reply in replies if not reply.startswith(b"20")]
    if refused:
        raise SystemExit(f"{path}: {len(refused)} of {len(lines)} lines are refused, the first by {refused[0][:99]!r}")


def copy_rows(database, table, count):
    """Copies the rows of the first loan, or of its client, to each of so many numbers of each branch. They come in the
    order in which the program would have written them: an entry to all loans before the next, as where all pay in the
    same month, and what comes without an entry loan by loan."""
    columns = [name for _, name, *_ in database.execute(f"PRAGMA table_info({table})")]
    values = ", ".join(OWN[table].get(name, f"own.{name}") for name in columns)
    loan = next(name for name, value in OWN[table].items() if value == "place.number" and name != "client")
    database.execute(f"CREATE TEMP TABLE own AS SELECT * FROM {table} WHERE office = 1 AND {loan} = 1 ORDER BY rowid")
    words = f"INSERT INTO {table} SELECT {values} FROM place CROSS JOIN own WHERE place.number <= ?"
    if "seq" in columns:
        for (entry,) in database.execute("SELECT DISTINCT seq FROM own ORDER BY seq").fetchall():
            database.execute(f"{words} AND own.seq = ?", (count, entry))
    else:
        database.execute(words, (count,))
    database.execute("DROP TABLE own")


def grow(path, branches, clients=CLIENTS, loans=LOANS, first=2):
    """Opens so many branches, from a number on, in a file that has the first lines and perhaps more of office 1, and
    fills each with so many clients and loans."""
    offices = range(first, first + branches)
    entered(path, [line for number in offices for line in branch_lines(number)])
    with contextlib.closing(sqlite3.connect(path, isolation_level=None)) as database:
        for pragma in ("journal_mode = OFF", "synchronous = OFF", "temp_store = MEMORY", "cache_size = -1000000"):
            database.execute(f"PRAGMA {pragma}")
        database.execute("BEGIN")
        database.execute("CREATE TEMP TABLE place (office INTEGER, number INTEGER)")
        places = ((office, number) for number in range(1, clients + 1) for office in offices)
        database.executemany("INSERT INTO place VALUES (?, ?)", places)
        for table in OWN:
            copy_rows(database, table, clients if table == "clients" else loans)
        database.execute("COMMIT")
        database.execute("PRAGMA journal_mode = WAL")
    files.sums_anew(path)
