"""The work of a request as statements for the `sqlite3` shell: for bench/growth.

A reading selects the rows that its reply needs. A write makes the same rows in one commit: they and their columns are
taken from the file that the program left, and what it removed from the file as it was before.
"""
import json
import sqlite3


class Rows:
    """The rows of a file, as SQL writes them."""

    def __init__(self, path):
        self.database = sqlite3.connect(f"file:{path}?mode=ro", uri=True)
        self.columns = {}

    def columns_of(self, table):
        """The table's columns, and whether each is of its key."""
        if table not in self.columns:
            told = self.database.execute(f"PRAGMA table_info({table})").fetchall()
            self.columns[table] = {name: key > 0 for _, name, _, _, _, key in told}
        return self.columns[table]

    def found(self, table, **key):
        """The rows with these values, each by its columns."""
        columns = self.columns_of(table)
        quoted = ", ".join(f"quote({name})" for name in columns)
        words = f"SELECT {quoted} FROM {table} WHERE {' AND '.join(f'{name} = ?' for name in key)}"
        return [dict(zip(columns, row)) for row in self.database.execute(words, tuple(key.values()))]

    def added(self, table, **key):
        """Statements that insert these rows."""
        return "".join(f"INSERT INTO {table} VALUES ({', '.join(row.values())});\n" for row in self.found(table, **key))

    def updated(self, table, **key):
        """Statements that write these rows over the ones with their keys."""
        is_key = self.columns_of(table)
        text = ""
        for row in self.found(table, **key):
            new = ", ".join(f"{name} = {value}" for name, value in row.items() if not is_key[name])
            old = " AND ".join(f"{name} = {value}" for name, value in row.items() if is_key[name])
            text += f"UPDATE {table} SET {new} WHERE {old};\n"
        return text


def told(reply):
    """The body of a reply."""
    return json.loads(reply[4:])


def one_commit(*statements):
    return f"BEGIN;\n{''.join(statements)}COMMIT;\n"


def selected(table, ending="", **key):
    return f"SELECT * FROM {table} WHERE {' AND '.join(f'{name} = {value}' for name, value in key.items())}{ending};\n"


def client_added(_, reply, before, after):
    office, number = map(int, told(reply)["client"].split("-"))
    return one_commit(after.added("clients", office=office, number=number))


def client_read(place, reply, before, after):
    return selected("clients", office=place[0], number=place[1])


def loan_submitted(place, reply, before, after):
    return one_commit(after.added("loans", office=place[0], number=place[1]))


def loan_approved(place, reply, before, after):
    return one_commit(after.updated("loans", office=place[0], number=place[1]))


def loan_paid_out(place, reply, before, after):
    instalments = after.added("instalments", office=place[0], loan=place[1])
    return one_commit(after.updated("loans", office=place[0], number=place[1]), instalments)


def instalments_settled(rows, after, entry):
    """The instalments that an entry settles by these rows, written again."""
    settled = sorted({share["instalment"] for share in rows.found("shares", **entry)})
    loan = {name: value for name, value in entry.items() if name != "seq"}
    return "".join(after.updated("instalments", **loan, number=int(number)) for number in settled)


def entry_added(place, reply, before, after):
    entry = {"office": place[0], "loan": place[1], "seq": told(reply)["entry"]}
    receipt = after.found("entries", **entry)[0]["receipt"]
    known = "" if receipt == "NULL" else after.added("receipts", office=place[0], receipt=receipt.strip("'"))
    shares = after.added("shares", **entry)
    return one_commit(after.added("entries", **entry), known, instalments_settled(after, after, entry), shares)


def entry_reversed(place, reply, before, after):
    entry = {"office": place[0], "loan": place[1], "seq": told(reply)["entry"]}
    taken = f"DELETE FROM shares WHERE {' AND '.join(f'{name} = {value}' for name, value in entry.items())};\n"
    return one_commit(after.updated("entries", **entry), instalments_settled(before, after, entry), taken)


def schedule_read(place, reply, before, after):
    instalments = selected("instalments", " ORDER BY number", office=place[0], loan=place[1])
    return selected("loans", office=place[0], number=place[1]) + instalments


def loan_read(place, reply, before, after):
    return selected("products", number=1) + schedule_read(place, reply, before, after)


def entries_read(place, reply, before, after):
    loan = {"office": place[0], "loan": place[1]}
    entries = selected("entries", " ORDER BY seq", **loan) + selected("shares", " ORDER BY seq, place", **loan)
    return selected("loans", office=place[0], number=place[1]) + entries


PORTIONS = ["penalty", "fee", "interest", "principal"]
CLASSES = {"c1_30": (1, 30), "c31_60": (31, 60), "c61_90": (61, 90), "over_90": (91, 99999)}  # days overdue


def left(portion):
    """What is outstanding of a portion of an instalment."""
    return f"owed_{portion} - paid_{portion} - waived_{portion} - written_off_{portion}"


ANY_LEFT = " + ".join(left(portion) for portion in PORTIONS)


def loans_listed(place, reply, before, after):
    """The first hundred loans after a number: their stages, and what is outstanding of each."""
    office, number = place
    first = f"office = {office} AND number > {number} ORDER BY number LIMIT 100"
    loans = f"office = {office} AND loan > {number} AND loan <= {number + 100} GROUP BY loan ORDER BY loan"
    sums = f"SELECT loan, sum({ANY_LEFT}) FROM instalments WHERE {loans};\n"
    return f"SELECT number, stage FROM loans WHERE {first};\n{sums}"


def report(place, reply, before, after):
    """The report of one office, or of all for the head office: by office the active loans, what is outstanding of their
    principal, and what of it is of each class."""
    which = "" if place[0] == 1 else f"WHERE office = {place[0]} "
    classes = ", ".join(f"sum(principal * (days BETWEEN {least} AND {most}))" for least, most in CLASSES.values())
    loans = (
        f"SELECT office, loan, sum({left('principal')}) AS principal, "
        f"julianday((SELECT day FROM meta)) - julianday(min(CASE WHEN {ANY_LEFT} > 0 THEN due END)) AS days "
        f"FROM instalments {which}GROUP BY office, loan HAVING max({ANY_LEFT}) > 0"
    )
    return f"SELECT office, count(*), sum(principal), {classes} FROM ({loans}) GROUP BY office;\n"


def is_report(reply, printed):
    """Whether what the shell printed of the offices comes to what a reply of the program tells of all."""
    found = [sum(column) for column in zip(*([int(number) for number in line.split("|")[1:]] for line in printed))]
    of_all = told(reply)["all"]
    return found == [of_all["loans"]] + [int(of_all[name].replace(".", "")) for name in ["outstanding", *CLASSES]]
