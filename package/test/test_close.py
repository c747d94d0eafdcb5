"""Tests of sealed months and of extracts: microloan-close, microloan-verify, microloan-extract, run from the checkout.

A small institution works from December to June, with a write-off and what is recovered of it. Copies of its file are
kept at each month's end. What a sealed month must hold is what the program said of these copies then, and what
bench/journal-lines, a second program, works out of the request lines.
"""
import contextlib
import csv
import decimal
import functools
import hashlib
import importlib.machinery
import importlib.util
import io
import json
import os
import random
import shutil
import sqlite3
import subprocess
import sys
import tarfile
import tempfile
import unittest
import unittest.mock

HERE = os.path.dirname(os.path.abspath(__file__))
TOP = os.path.dirname(os.path.dirname(HERE))
TOOLS = os.path.join(TOP, "package", "tools")
sys.path[:0] = [os.path.join(TOP, "bench"), TOOLS]
import desk_bundle
import institutions
import sealed_months
import serving

FOUNDED = "2025-12-30"
MONTHS = {"2025-12": ("2025-12-01", "2025-12-31"), "2026-01": ("2026-01-01", "2026-01-31"),
          "2026-02": ("2026-02-01", "2026-02-28"), "2026-03": ("2026-03-01", "2026-03-31"),
          "2026-04": ("2026-04-01", "2026-04-30"), "2026-05": ("2026-05-01", "2026-05-31")}
LAST_DAYS = {"2025-12": "2025-12-30", "2026-01": "2026-01-31", "2026-02": "2026-02-27", "2026-04": "2026-04-02",
             "2026-05": "2026-05-29"}  # on which the business day stood last; of March there is none
BY_LINES = ("2025-12", "2026-01", "2026-02", "2026-03", "2026-04")  # those that are entered by request lines alone
PRODUCT = {"name": "Harvest", "method": "declining-equal-principal", "rate": 1200, "frequency": "months", "every": 1,
           "principal_grace": 0, "interest_grace": 0, "min_principal": 1, "max_principal": 1000000, "min_periods": 1,
           "max_periods": 12, "strategy": "mifos-standard-strategy", "disbursement_charge": 2}
DAYS = {
    "2025-12-30": [
        '1/1 POST /offices {"number":2,"parent":1,"name":"North"}',
        '1/1 POST /offices {"number":3,"parent":1,"name":"South"}',
        '1/1 POST /offices {"number":21,"parent":2,"name":"Mill"}',
        '1/1 POST /offices {"number":22,"parent":2,"name":"Port"}',
        '1/1 POST /staff {"office":1,"name":"Paulo Head","role":"manager"}',
        '1/1 POST /staff {"office":2,"name":"Ruth North","role":"manager"}',
        '1/1 POST /staff {"office":2,"name":"Idle North","role":"teller"}',
        '2/1 POST /staff {"office":2,"name":"Otto North","role":"officer"}',
        '2/1 POST /staff {"office":2,"name":"Last North","role":"teller"}',
        '2/1 POST /staff {"office":21,"name":"Tom Mill","role":"teller"}',
        '2/1 POST /staff {"office":22,"name":"Zoe Port","role":"manager"}',
        '1/1 POST /staff {"office":3,"name":"Sam South","role":"manager"}',
        '1/1 POST /charges {"name":"Visit","kind":"due-date","calc":"flat","value":500}',
        '1/1 POST /charges {"name":"Kept","kind":"disbursement","calc":"percent-of-amount","value":150}',
        f"1/1 POST /products {json.dumps(PRODUCT)}",
        '2/3 POST /clients {"office":21,"name":"Amina Wanjiru","reason":"sister of Neema Wanjiru"}',
        '22/1 POST /clients {"office":22,"name":"Élodie Bâ"}', '3/1 POST /clients {"office":3,"name":"Carla Ríos"}',
        '2/3 POST /loans {"client":"0021-000001","product":1,"principal":100000,"periods":3}',
        '22/1 POST /loans {"client":"0022-000001","product":1,"principal":60000,"periods":6}',
        '3/1 POST /loans {"client":"0003-000001","product":1,"principal":45000,"periods":2}',
        *(f"1/1 POST /loans/{loan}/approve" for loan in ("0021-000001", "0022-000001", "0003-000001"))],
    "2026-01-05": [f'{who} POST /loans/{loan}/disburse {{"day":"2026-01-05"}}' for who, loan in (
        ("2/1", "0021-000001"), ("22/1", "0022-000001"), ("3/1", "0003-000001"))],
    "2026-01-31": [
        '22/1 POST /loans/0022-000001/repayments {"amount":7000,"day":"2026-01-31","receipt":"R-1"}',
        '2/3 POST /loans/0021-000001/fees {"charge":1,"due":"2026-02-05"}'],
    "2026-02-10": [
        '21/1 POST /loans/0021-000001/repayments {"amount":20000,"day":"2026-02-09"}',
        "22/1 POST /loans/0022-000001/entries/1/reverse",
        '2/1 POST /loans/0021-000001/waivers {"instalment":3,"portion":"interest","reason":"Amina Wanjiru was ill"}'],
    "2026-02-27": ["3/1 POST /loans/0003-000001/write-off"],
    "2026-04-02": [
        "3/1 POST /loans/0003-000001/entries/1/reverse",
        '3/1 POST /loans/0003-000001/repayments {"amount":5000,"day":"2026-04-02"}',
        "3/1 POST /loans/0003-000001/write-off",
        '22/1 POST /loans/0022-000001/repayments {"amount":1000,"day":"2026-01-20"}'],
    "2026-05-01": [],
    "2026-05-29": ['21/1 POST /loans/0021-000001/repayments {"amount":30000,"day":"2026-05-29"}'],
    "2026-06-01": ['3/1 POST /clients {"office":3,"name":"Still open"}'],
}
NAMES = ("Amina", "Neema", "Élodie", "Carla", "Paulo", "Ruth", "Idle", "Otto", "Tom", "Zoe", "Sam")
SHEET = b"receipt,loan,date,amount\nS-1,0021-000001,2026-05-01,12.50\nS-2,0021-000001,2026-05-01,7\n"
TOLD = "2026-05-01T09:00:00+00:00 10.0.0.7"
SPLIT = ('{"office":22,\r\n"name":"Two lines"}', b"\xff no route\nreads this")  # bodies that no request line can have


class Institution:
    """Works through the days, and keeps copies before and after the business day leaves a month."""

    def __init__(self, folder):
        self.folder, self.path = folder, os.path.join(folder, "desk.db")
        self.lines = []  # all, each with a word that is told
        days = [*DAYS, "2026-06-02"]
        for day, after in zip(days, days[1:]):
            self.enter(DAYS[day], "--day", FOUNDED)
            if day == "2026-05-01":
                self.collect_and_send()
            self.leave(day, after)

    def copy(self, name):
        return os.path.join(self.folder, f"{name}.db")

    def enter(self, lines, *words):
        told = [f"note-{len(self.lines) + place} {line}" for place, line in enumerate(lines, 1)]
        self.lines += told
        given = "".join(f"{line}\n" for line in told).encode()
        status, replies, said = institutions.ended(["batch", "--journal", "--told", "--file", self.path, *words], given)
        for line, reply in zip(lines, replies.splitlines()):
            if not reply.startswith((b"200 ", b"201 ")):
                raise AssertionError((line, reply))
        if status != 0:
            raise AssertionError(said)

    def leave(self, day, after):
        if day == "2026-06-01":
            return
        is_last = day[:7] != after[:7]
        if is_last:
            institutions.copy(self.path, self.copy(f"before-{day[:7]}"))
        self.enter([f'1/2 PUT /business-day {{"day":"{after}"}}'])
        if is_last:
            institutions.copy(self.path, self.copy(f"after-{day[:7]}"))

    def collect_and_send(self):
        """A sheet, and messages as the front passes them on, of which two have bodies that no line can have."""
        words = ["collect", "--existing", "--journal", "--file", self.path, "--staff", "21/1", "--told"]
        told = institutions.ended([*words, " round of the Mill "], SHEET)
        if told[1].count(b",entered") != 2:
            raise AssertionError(told)
        server = serving.Server(institutions.PROGRAM, self.path, more=("--existing", "--journal"))
        asked = (("22/1", "POST", "/clients", SPLIT[0].encode()), ("2/3", "POST", "/loans", json.dumps(
            {"client": "0021-000001", "product": 1, "principal": 500, "periods": 1}).encode()),
            ("2/1", "POST", "/loans/0021-000002/approve", SPLIT[1]))
        for caller, method, path, body in asked:
            fields = f"X-Staff: {caller}\r\nX-Told: {TOLD}\r\nContent-Length: {len(body)}"
            reply = server.exchange(f"{method} {path} HTTP/1.1\r\n{fields}\r\n\r\n".encode() + body)
            if not reply.startswith((b"HTTP/1.1 200", b"HTTP/1.1 201")):
                raise AssertionError(reply)
        server.stop()


def setUpModule():
    global ROOM, DESK, KEYS, SIGNER
    institutions.have_program()
    room = institutions.room()
    unittest.addModuleCleanup(room.cleanup)
    ROOM, KEYS = room.name, os.path.join(room.name, "keys")
    desk_bundle.make_keys(KEYS)
    SIGNER = desk_bundle.signer_of(KEYS)
    DESK = Institution(ROOM)
    for month in MONTHS:
        if (said := close(month, DESK.path, by=run_tool))[0] != 0:
            raise AssertionError(said)


def run_tool(name, *words):
    """A tool's status, its output, and what it says on standard error."""
    asked = [os.path.join(TOOLS, name), *words, "--program", institutions.PROGRAM]
    done = subprocess.run(asked, capture_output=True, text=True, check=False, env=os.environ | {"TMPDIR": ROOM})
    return done.returncode, done.stdout, done.stderr


@functools.cache
def loaded(name):
    """A tool as a module."""
    loader = importlib.machinery.SourceFileLoader(name.replace("-", "_"), os.path.join(TOOLS, name))
    module = importlib.util.module_from_spec(importlib.util.spec_from_loader(loader.name, loader))
    loader.exec_module(module)
    return module


def tool(name, *words):
    """The same in this process: most of a tool's time is Python's start."""
    shown, said, status = io.StringIO(), io.StringIO(), 0
    argv = unittest.mock.patch.object(sys, "argv", [name, *words, "--program", institutions.PROGRAM])
    place = unittest.mock.patch.object(tempfile, "tempdir", ROOM)
    with argv, place, contextlib.redirect_stdout(shown), contextlib.redirect_stderr(said):
        try:
            loaded(name).main()
        except SystemExit as end:
            status = end.code if isinstance(end.code, int) else 1
            print("" if isinstance(end.code, int) else end.code, file=said)
    return status, shown.getvalue(), said.getvalue()


def sealed(month, folder="months"):
    return os.path.join(ROOM, folder, f"sealed-{month}.tar")


def close(month, path, *words, folder="months", by=tool):
    span = ("--month", month) if isinstance(month, str) else ("--from", month[0], "--to", month[1])
    return by("microloan-close", *span, path, "--folder", os.path.join(ROOM, folder), "--keys", KEYS, *words)


def verify(*paths, by=None, more=()):
    return tool("microloan-verify", "--signed-by", by or SIGNER, *more, *paths)


def members_of(path):
    with tarfile.open(path, "r:") as tar:
        return {member.name: tar.extractfile(member).read() for member in tar}


def bytes_of(path):
    with open(path, "rb") as file:
        return file.read()


def told_by(*words):
    """What a command of the program prints, which must end well."""
    status, shown, said = institutions.ended(words)
    if status != 0:
        raise AssertionError((words, said))
    return shown


def seal_again(month, members, folder, keys=None):
    """A month with other members, as who holds the key can seal one: sums and signature are made anew."""
    os.makedirs(os.path.join(ROOM, folder), exist_ok=True)
    whole = {name: data for name, data in members.items() if name != "SHA256SUMS"}
    path = sealed(month, folder)
    sealed_months.write(path, whole | {"SHA256SUMS": sealed_months.sums_of(whole)})
    desk_bundle.sign(path, keys or KEYS, "sealed again")
    return path


class Months(unittest.TestCase):
    def setUp(self):
        self.folder = f"months-{self.id()}"
        self.addCleanup(shutil.rmtree, os.path.join(ROOM, self.folder), ignore_errors=True)

    def seal_all(self, path, *words):
        for month in MONTHS:
            self.assertEqual(close(month, path, *words, folder=self.folder)[0], 0)

    def all_same(self):
        for month in MONTHS:
            for ending in ("", ".minisig"):
                with self.subTest(month + ending):
                    mine = bytes_of(sealed(month, self.folder) + ending)
                    self.assertEqual(hashlib.sha256(mine).hexdigest(), self.digest(sealed(month) + ending))

    def digest(self, path):
        return hashlib.sha256(bytes_of(path)).hexdigest()

    def test_a_month_holds_what_the_program_said_then(self):
        """Its audit, arrears and books are those of the file that stood there on its last day."""
        for month, (first, last) in MONTHS.items():
            with self.subTest(month):
                members, before = members_of(sealed(month)), max(day for day in LAST_DAYS if day <= month)
                then = DESK.copy(f"after-{before}")
                self.assertEqual(members["audit.txt"], told_by("audit", "--file", then))
                books = ["ledger", "--existing", "--file", then, "--from", first, "--to", last]
                self.assertEqual(members["books.journal"], told_by(*books))
                self.assertEqual(members["books.csv"], told_by(*books, "--csv"))
                arrears = {name: data for name, data in members.items() if name.startswith("arrears")}
                report = ["report", "--existing", "--file", DESK.copy(f"before-{before}"), "--staff", "1/1"]
                wanted = {f"arrears-{LAST_DAYS[month]}.txt": told_by(*report)} if month in LAST_DAYS else {}
                self.assertEqual(arrears, wanted)
                self.assertIn(b"\nsound, and the play of its journal (", members["audit.txt"])

    def test_its_lines_and_heads_are_those_that_a_second_program_works_out(self):
        lines = "".join(f"{line}\n" for line in DESK.lines).encode()
        words = [os.path.join(TOP, "bench", "journal-lines"), "--told", "--day", FOUNDED]
        rows = subprocess.run(words, input=lines, stdout=subprocess.PIPE, check=True).stdout.decode().splitlines()
        at = 0
        for month in BY_LINES:
            members = members_of(sealed(month))
            about, found = (json.loads(members["about.json"]), members["journal.jsonl"].decode().splitlines())
            self.assertEqual(about["before"], {"number": at, "head": rows[at].rpartition("|")[2]})
            for line in map(json.loads, found):
                at += 1
                names = ("told", "method", "path", "body", "named_office", "named_loan", "chain")
                told = [line["number"], f"{line['office']}/{line['staff']}", *(line[name] for name in names)]
                wanted = rows[at].split("|")
                self.assertEqual(list(map(str, told)), wanted[:1] + wanted[2:])
            self.assertEqual(about["after"], {"number": at, "head": rows[at].rpartition("|")[2]})
        self.assertGreater(at, 30)

    def test_what_is_told_and_bodies_that_no_line_has_stand_in_it_as_they_came(self):
        rows = sealed_months.rows_in(members_of(sealed("2026-05"))["journal.jsonl"])
        with contextlib.closing(sqlite3.connect(f"file:{DESK.path}?mode=ro&immutable=1", uri=True)) as file:
            file.row_factory = sqlite3.Row
            kept = {row["number"]: dict(row) for row in file.execute("select * from journal")}
        self.assertEqual(rows, [kept[row["number"]] for row in rows])
        bodies, told = {row["body"] for row in rows}, {row["told"] for row in rows}
        self.assertLessEqual({SPLIT[0].encode(), SPLIT[1]}, bodies)
        self.assertLessEqual({b" round of the Mill ", TOLD.encode()}, told)

    def test_made_again_it_has_the_same_bytes(self):
        """Out of the copies of then, out of the file of now, and out of one whose first lines were archived."""
        for month in MONTHS:
            before = max(day for day in LAST_DAYS if day <= month)
            self.assertEqual(close(month, DESK.copy(f"after-{before}"), folder=self.folder)[0], 0)
        self.all_same()

    def test_first_lines_that_were_archived(self):
        path, parts = os.path.join(ROOM, "archived.db"), os.path.join(ROOM, "parts")
        institutions.copy(DESK.path, path)
        os.mkdir(parts)
        self.assertEqual(close("2025-12", path, folder=self.folder)[0], 0)
        words = ["archive", "--existing", "--file", path, "--to", "2026-02-10", "--into", os.path.join(parts, "one.db")]
        self.assertEqual(institutions.ended(words)[0], 0)
        status, _, said = close("2026-01", path, folder=self.folder)
        self.assertEqual(status, 1)
        self.assertIn("were archived: name their folder by --archives", said)
        for month in list(MONTHS)[1:]:
            more = ("--archives", parts) if month < "2026-03" else ()
            self.assertEqual(close(month, path, *more, folder=self.folder)[0], 0)
        self.all_same()

    def test_any_span_of_days(self):
        spans = (("2025-12-30", "2026-01-31"), ("2026-02-01", "2026-02-10"), ("2026-02-11", "2026-05-31"))
        for span in spans:
            status, shown, _ = close(span, DESK.path, folder=self.folder)
            self.assertEqual(status, 0)
        last = json.loads(members_of(sealed("2026-05"))["about.json"])["after"]
        self.assertTrue(shown.endswith("journal {number} head {head}\n".format(**last)), shown)
        names = [sealed(f"{first}-to-{last}", self.folder) for first, last in spans]
        status, shown, said = verify(*names)
        self.assertEqual((status, said, shown.count(", the same, head ")), (0, "", 3))

    def test_out_of_a_backup(self):
        place = os.path.join(ROOM, "backups")
        os.mkdir(place)
        words = ["--folder", place, "--file", DESK.path, "--log", DESK.path + ".log", "--keys", KEYS]
        status, shown, said = run_tool("microloan-backup", *words, "--heads", os.path.join(place, "heads"))
        self.assertEqual((status, said), (0, ""))
        self.seal_all(shown.split(": ")[0])
        self.all_same()
        with open(shown.split(": ")[0], "r+b") as file:
            file.write(b"x")
        self.assertIn("isn't as it was signed", close("2026-05", shown.split(": ")[0], folder=self.folder)[2])

    def test_plain_tools_read_it(self):
        place = os.path.join(ROOM, self.folder)
        os.mkdir(place)
        checked = ["minisign", "-V", "-q", "-P", SIGNER, "-m", sealed("2026-02")]
        subprocess.run(checked, check=True)
        subprocess.run(["tar", "xf", sealed("2026-02"), "-C", place], check=True)
        subprocess.run(["sha256sum", "--check", "--quiet", "SHA256SUMS"], cwd=place, check=True)
        about = json.loads(bytes_of(os.path.join(place, "about.json")))
        self.assertEqual(about["follows"], {"name": "sealed-2026-01.tar", "sha256": self.digest(sealed("2026-01"))})
        self.assertEqual(about["program"]["sha256"], self.digest(institutions.PROGRAM))
        with open(sealed("2026-02") + ".minisig", encoding="ascii") as file:
            wanted = "trusted comment: sealed-2026-02.tar journal {number} head {head}\n".format(**about["after"])
            self.assertIn(wanted, file.readlines())


class Later(unittest.TestCase):
    """The months of an institution that got its journal on a later day, from the copy that was kept before."""

    FIRST = "2026-02-10"  # the business day on which the journal was begun, before anything else of that day

    @classmethod
    def setUpClass(cls):
        cls.path, cls.copy = (os.path.join(ROOM, f"later-{name}.db") for name in ("desk", "copy"))
        cls.begun = next(at for at, line in enumerate(DESK.lines, 1) if f'"day":"{cls.FIRST}"' in line)
        plain = [line.split(" ", 1)[1] for line in DESK.lines]
        institutions.ended(["batch", "--file", cls.path, "--day", FOUNDED], cls.text(plain[:cls.begun]))
        institutions.copy(cls.path, cls.copy)
        institutions.ended(["upgrade", "--existing", "--file", cls.path, "--journal"])
        institutions.ended(["batch", "--existing", "--journal", "--file", cls.path], cls.text(plain[cls.begun:]))

    @staticmethod
    def text(lines):
        return "".join(f"{line}\n" for line in lines).encode()

    def months(self, *more):
        """Seals all months from the first one on, in a folder of this test."""
        folder = f"later-{self.id()}"
        self.addCleanup(shutil.rmtree, os.path.join(ROOM, folder), ignore_errors=True)
        names = [month for month in MONTHS if month >= self.FIRST[:7]]
        said = [close(month, self.path, "--from-copy", self.copy, *more, folder=folder) for month in names]
        self.assertEqual([status for status, _, _ in said], [0] * len(names), said)
        return [sealed(month, folder) for month in names]

    def test_they_hold_the_books_from_the_copy_on(self):
        paths = self.months()
        status, shown, said = verify(*paths, more=("--from-copy", self.copy))
        self.assertEqual((status, said, shown.count(", the same, head ")), (0, "", len(paths)), shown)
        books = b"".join(members_of(path)["books.journal"] for path in paths)
        span = ["--from", self.FIRST, "--to", "2026-05-31", "--from-copy", self.copy]
        self.assertEqual(books, told_by("ledger", "--existing", "--file", self.path, *span))
        self.assertTrue(books.startswith(f"{self.FIRST} (0) opening balances\n".encode()), books[:99])
        for path in paths:
            self.assertIn(b"\nsound, and the play of its journal (", members_of(path)["audit.txt"])

    def test_they_go_on_from_what_was_kept(self):
        paths, kept = self.months(), os.path.join(ROOM, "later-kept.db")
        status, shown, said = verify(*paths[:2], more=("--from-copy", self.copy, "--keep", kept))
        self.assertEqual((status, said), (0, ""), shown)
        status, shown, said = verify(*paths[2:], more=("--from-copy", self.copy, "--from", kept))
        self.assertEqual((status, said, shown.count(", the same, head ")), (0, "", len(paths) - 2), shown)

    def test_without_the_copy_or_with_another(self):
        paths = self.months()
        others, beginning = "was begun over other rows than those of the copy", "name the copy of the file"
        for copy, part in ((DESK.copy("after-2025-12"), others), (self.path, others), (None, beginning)):
            words = () if copy is None else ("--from-copy", copy)
            with self.subTest(copy):
                status, shown, said = verify(*paths, more=words)
                self.assertEqual((status, shown), (1, ""))
                self.assertIn(part, said)
                status, shown, said = close("2026-02", self.path, *words, folder="later-none")
                self.assertEqual((status, shown), (1, ""))
                self.assertIn(part, said)
        self.assertIn(others, close("2025-12", DESK.path, "--from-copy", self.copy, folder="later-none")[2])


class Refused(unittest.TestCase):
    """What isn't sealed, and is left as it was."""

    def refused(self, month, path, part, *words, folder="months"):
        before = sorted(os.listdir(os.path.join(ROOM, folder))) if os.path.exists(os.path.join(ROOM, folder)) else []
        status, shown, said = close(month, path, *words, folder=folder)
        self.assertEqual((status, shown), (1, ""))
        self.assertIn(part, said)
        self.assertEqual(sorted(os.listdir(os.path.join(ROOM, folder))), before)

    def test_days_that_are_not_next(self):
        self.refused("2026-06", DESK.path, "2026-06 is still open: the business day is 2026-06-01")
        self.refused("2026-05", DESK.path, "2026-05-31 is sealed already, in sealed-2026-05.tar")
        self.refused(("2026-05-31", "2026-05-31"), DESK.path, "2026-05-31 is sealed already")
        self.refused("2026-05", DESK.copy("before-2026-05"), "2026-05 is still open: the business day is 2026-05-29")
        self.refused("2026-01", DESK.path, "the journal begins on 2025-12-30, before 2026-01-01", folder="none")
        shutil.copytree(os.path.join(ROOM, "months"), os.path.join(ROOM, "less"))
        for ending in ("", ".minisig"):
            os.unlink(sealed("2026-05", "less") + ending)
            os.unlink(sealed("2026-04", "less") + ending)
        self.refused("2026-05", DESK.path, "the days from 2026-04-01 on aren't sealed", folder="less")
        os.unlink(sealed("2026-01", "less"))
        self.refused("2026-04", DESK.path, "it doesn't follow sealed-2025-12.tar", folder="less")
        os.unlink(sealed("2025-12", "less"))
        wanted = "sealed-2026-02.tar follows sealed-2026-01.tar, which isn't in "
        self.refused("2026-04", DESK.path, wanted, folder="less")

    def test_files_that_have_no_books(self):
        plain = os.path.join(ROOM, "plain.db")
        move = '1/1 PUT /business-day {{"day":"2026-0{}-01"}}\n'
        institutions.ended(["batch", "--file", plain, "--day", "2026-05-01"], move.format(6).encode())
        self.refused("2026-05", plain, "keeps no journal", folder="none")
        institutions.ended(["upgrade", "--file", plain, "--journal"])
        institutions.ended(["batch", "--file", plain], move.format(7).encode())
        self.refused("2026-06", plain, "the journal doesn't begin at a founding", folder="none")
        self.refused("2026-05", os.path.join(ROOM, "missing.db"), "missing.db", folder="none")

    def test_files_that_were_changed_beside_the_program(self):
        path = os.path.join(ROOM, "changed.db")
        renamed = "update clients set name = 'Nobody' where office = 3 and number = 1"
        institutions.without_sums(DESK.copy("after-2025-12"), path, renamed)
        self.refused("2025-12", path, "clients 0003-000001: the play of the journal gives it otherwise", folder="none")
        words = [sys.executable, os.path.join(HERE, "forge_journal.py"), DESK.path, path + ".forged", "20"]
        subprocess.run(words, check=True)
        shutil.copytree(os.path.join(ROOM, "months"), os.path.join(ROOM, "forged"))
        for ending in ("", ".minisig"):
            os.unlink(sealed("2026-05", "forged") + ending)
        self.refused("2026-05", path + ".forged", "the journal isn't the one of which sealed-2026-04.tar was sealed",
                     folder="forged")

    def test_months_before_that_were_changed(self):
        shutil.copytree(os.path.join(ROOM, "months"), os.path.join(ROOM, "spoilt"))
        with open(sealed("2025-12", "spoilt"), "r+b") as file:
            file.seek(700)
            file.write(b"x")
        self.refused("2026-06", DESK.path, "sealed-2025-12.tar isn't as it was signed", folder="spoilt")


class Verified(unittest.TestCase):
    """Whatever is changed of sealed months is told."""

    @classmethod
    def setUpClass(cls):
        cls.paths = [sealed(month) for month in MONTHS]
        cls.kept = os.path.join(ROOM, "kept.db")
        cls.first = verify(*cls.paths[:2], more=("--keep", cls.kept))

    def is_told(self, part, *paths, **how):
        status, shown, said = verify(*paths, **how)
        self.assertEqual(status, 1, shown)
        self.assertIn(part, said)
        return shown

    def in_another_folder(self, month):
        """A copy of a month and its signature."""
        place = os.path.join(ROOM, f"changed-{self.id()}")
        os.makedirs(place, exist_ok=True)
        self.addCleanup(shutil.rmtree, place, ignore_errors=True)
        for ending in ("", ".minisig"):
            shutil.copyfile(sealed(month) + ending, os.path.join(place, f"sealed-{month}.tar{ending}"))
        return os.path.join(place, f"sealed-{month}.tar")

    def test_all_are_the_same(self):
        status, shown, said = run_tool("microloan-verify", "--signed-by", SIGNER, *self.paths)
        self.assertEqual((status, said), (0, ""))
        wanted = []
        for month in MONTHS:
            members = members_of(sealed(month))
            count, head = members["journal.jsonl"].count(b"\n"), json.loads(members["about.json"])["after"]["head"]
            wanted.append(f"{month}: {count:,} changes, the same, head {head}\n")
        self.assertEqual(shown, "".join(wanted))
        self.assertEqual(self.first[:2], (0, "".join(wanted[:2])))
        self.assertEqual(verify(*self.paths[2:], more=("--from", self.kept))[:2], (0, "".join(wanted[2:])))

    def test_a_byte_of_each_member_and_at_random_places(self):
        path = self.in_another_folder("2026-02")
        whole, draw = bytes_of(path), random.Random(3)
        with tarfile.open(path, "r:") as tar:
            places = [member.offset_data + draw.randrange(member.size) for member in tar if member.size]
            places += [member.offset + draw.randrange(500) for member in tar]
        places += [draw.randrange(len(whole)) for _ in range(24)]
        for place in places:
            with self.subTest(place):
                with open(path, "wb") as file:
                    file.write(whole[:place] + bytes([whole[place] ^ 1 << draw.randrange(8)]) + whole[place + 1 :])
                self.is_told("sealed-2026-02.tar isn't as it was signed", path, more=("--from", self.kept))
        for more in (b"x", b"\0" * 512):
            with open(path, "wb") as file:
                file.write(whole + more)
            self.is_told("sealed-2026-02.tar isn't as it was signed", path, more=("--from", self.kept))
        with open(path, "wb") as file:
            file.write(whole)
        self.assertEqual(verify(path, more=("--from", self.kept))[0], 0)

    def test_a_signature_that_is_changed_or_missing_or_by_another(self):
        path = self.in_another_folder("2026-02")
        whole = bytes_of(path + ".minisig")
        lines = whole.split(b"\n")
        comment = b"\n".join([*lines[:2], lines[2] + b"0", *lines[3:]])
        for changed in (whole[:80] + b"AAAA" + whole[84:], comment, b""):
            with open(path + ".minisig", "wb") as file:
                file.write(changed)
            self.is_told("isn't as it was signed", path, more=("--from", self.kept))
        os.unlink(path + ".minisig")
        self.is_told("isn't as it was signed", path, more=("--from", self.kept))
        other = os.path.join(ROOM, "other-keys")
        desk_bundle.make_keys(other)
        again = seal_again("2026-02", members_of(sealed("2026-02")), "by-another", keys=other)
        self.is_told("wasn't signed by", again, more=("--from", self.kept))
        by_both = ("--from", self.kept, "--signed-by", desk_bundle.signer_of(other))
        self.assertEqual(verify(again, more=by_both)[0], 0)

    def test_months_that_are_exchanged_left_out_or_renamed(self):
        december, january, february, march, april, may = self.paths
        self.is_told("sealed-2026-02.tar: it doesn't follow sealed-2025-12.tar", december, february, january)
        self.is_told("sealed-2026-01.tar: it doesn't follow sealed-2026-02.tar", february, january, december)
        self.is_told("sealed-2026-04.tar: it doesn't follow sealed-2026-02.tar", *self.paths[:3], april, may)
        self.is_told("it follows sealed-2025-12.tar: give that before it", january, february)
        self.is_told("sealed-2025-12.tar: it doesn't follow", december, december)
        place = os.path.join(ROOM, "exchanged")
        os.mkdir(place)
        for one, other in ((january, february), (february, january)):
            for ending in ("", ".minisig"):
                shutil.copyfile(one + ending, os.path.join(place, os.path.basename(other) + ending))
        names = [os.path.join(place, os.path.basename(path)) for path in (january, february)]
        self.is_told("is what was sealed as sealed-2026-02.tar", december, *names)

    def test_a_copy_that_is_another(self):
        self.is_told("2026-02: ", sealed("2026-02"), more=("--from", DESK.copy("after-2025-12")))
        self.is_told("2026-02: ", sealed("2026-02"), more=("--from", DESK.path))
        self.is_told("2026-02: ", sealed("2026-02"), more=("--from", DESK.copy("before-2026-01")))

    def test_each_member_changed_by_who_has_the_key(self):
        """Sums and signature are made anew: then the play of the lines tells."""
        members = members_of(sealed("2026-02"))
        for name in members:
            if name not in ("SHA256SUMS", "journal.jsonl", "about.json"):
                for changed in (members[name] + b"x", members[name].replace(b"0", b"1", 1), b""):
                    with self.subTest(name):
                        again = seal_again("2026-02", members | {name: changed}, "again")
                        self.is_told(f"of {name} is ", again, more=("--from", self.kept))
            rest = {other: data for other, data in members.items() if other != name}
            if name != "SHA256SUMS":
                self.is_told(name, seal_again("2026-02", rest, "again"), more=("--from", self.kept))
        more = members | {"note.txt": b"added"}
        self.is_told("note.txt does not belong there", seal_again("2026-02", more, "again"), more=("--from", self.kept))

    def test_what_a_month_says_of_itself_changed_by_who_has_the_key(self):
        members = members_of(sealed("2026-02"))
        about = json.loads(members["about.json"])
        other = {"number": 1, "head": "0" * 64}
        changes = {"from": "2026-02-02", "to": "2026-02-27", "founded": "2025-12-29", "more": 1}
        changes |= {"before": other, "after": other}
        for name, value in changes.items():
            with self.subTest(name):
                changed = about | {name: value}
                month = sealed_months.label(changed["from"], changed["to"])
                path = seal_again(month, members | {"about.json": sealed_months.as_json(changed)}, "again")
                whole = [*self.paths[:2], path, *self.paths[3:4]]
                self.is_told("doesn't follow" if name == "to" else "2026-02", *whole)
        by_another = about | {"program": about["program"] | {"version": "microloan 0"}}
        data = {"about.json": sealed_months.as_json(by_another)}
        status, shown, _ = verify(seal_again("2026-02", members | data, "again"), more=("--from", self.kept))
        self.assertEqual(status, 0)
        self.assertIn("(sealed by {'version': 'microloan 0'", shown)

    def test_lines_changed_by_who_has_the_key(self):
        """A body, a remark, who sent it, a line left out, two exchanged; with the chain as it was, and made anew."""
        members = members_of(sealed("2026-02"))
        rows = sealed_months.rows_in(members["journal.jsonl"])
        january = json.loads(members["about.json"])["before"]["head"]
        changed = {"a body": [rows[0] | {"body": rows[0]["body"].replace(b"20000", b"20001")}, *rows[1:]],
                   "a remark": [rows[0] | {"told": b"at night"}, *rows[1:]],
                   "who sent it": [rows[0] | {"office": 1, "staff": 1}, *rows[1:]],
                   "a line less": rows[1:], "two exchanged": [rows[1], rows[0], *rows[2:]],
                   "the last left out": rows[:-1]}
        for name, lines in changed.items():
            with self.subTest(name):
                data = {"journal.jsonl": sealed_months.journal_text(lines)}
                self.is_told("2026-02: ", seal_again("2026-02", members | data, "again"), more=("--from", self.kept))
                lines = [dict(line) for line in lines]
                chain = bytes.fromhex(january)
                for number, line in enumerate(lines, rows[0]["number"]):
                    chain = hashlib.sha256(chain + sealed_months.archives.text_of(line)).digest()
                    line |= {"number": number, "chain": chain}
                data = {"journal.jsonl": sealed_months.journal_text(lines)}
                self.is_told("2026-02: ", seal_again("2026-02", members | data, "again"), more=("--from", self.kept))


class Recoveries(unittest.TestCase):
    """A payment after a write-off, as docs/closing.md has it: amounts that are worked out by hand."""

    loan = "/loans/0003-000001"

    def books(self, *requests):
        """What November's books have of the loan, by title, where 3/1 sends these. August's must stay."""
        path = os.path.join(ROOM, "year.db")
        institutions.remove(path)
        with open(os.path.join(TOP, "examples", "year-lines.txt"), "rb") as file:
            lines = file.readlines()
        november = lines.index(b'1/1 PUT /business-day {"day":"2025-11-28"}\n') + 1
        institutions.ended(["batch", "--journal", "--file", path, "--day", "2025-01-02"], b"".join(lines[:november]))
        august = ["ledger", "--existing", "--file", path, "--from", "2025-08-01", "--to", "2025-08-31"]
        before = told_by(*august)
        given = "".join(f"3/1 POST {self.loan}/{request}\n" for request in requests)
        replies = institutions.answered(path, given.encode()).decode().splitlines()
        self.assertEqual(told_by(*august), before)
        books = told_by("ledger", "--existing", "--file", path, "--from", "2025-11-01", "--to", "2025-11-30", "--csv")
        sums = {}
        for row in csv.DictReader(io.StringIO(books.decode())):
            title = row["account"].split(":office")[0]
            amount = decimal.Decimal(row["debit"] or 0) - decimal.Decimal(row["credit"] or 0)
            sums[title] = sums.get(title, 0) + int(amount * 100)
        return {title: amount for title, amount in sums.items() if amount}, [reply[:3] for reply in replies]

    def test_by_the_order_of_the_product(self):
        """Of 150.00 the penalty of 5.00 and interest of 12.00 are settled first; 400.00 were written off."""
        pay = 'repayments {"amount":15000,"day":"2025-11-28"}'
        found, replies = self.books(pay, "entries/4/reverse", pay, "write-off", pay)
        self.assertEqual(replies, ["409", "200", "201", "201", "409"])
        self.assertEqual(found, {"assets:cash": 15000, "expenses:written-off": -13300, "income:interest": -1200,
                                 "income:penalties": -500})

    def test_of_principal_alone(self):
        waivers = ['waivers {"instalment":3,"portion":"penalties"}']
        waivers += [f'waivers {{"instalment":{number},"portion":"interest"}}' for number in (3, 4, 5, 6)]
        by_order = {"expenses:written-off": -13300, "income:interest": -1200, "income:penalties": -500}
        for day, wanted in (("2025-11-28", {"expenses:written-off": -15000}), ("2025-11-27", by_order)):
            with self.subTest(day):
                pay = f'repayments {{"amount":15000,"day":"{day}"}}'
                found, replies = self.books("entries/4/reverse", *waivers, pay, "write-off")
                self.assertEqual(replies, ["200", *["201"] * 7])
                self.assertEqual(found, {"assets:cash": 15000} | wanted)

    def test_of_all_that_was_owed(self):
        """400.00 of principal, 18.00 of interest and a penalty of 5.00: what is paid beyond that is overpaid."""
        pay = 'repayments {"amount":45000,"day":"2025-11-28"}'
        found, replies = self.books("entries/4/reverse", pay, "write-off")
        self.assertEqual(replies, ["200", "201", "409"])
        self.assertEqual(found, {"assets:cash": 45000, "expenses:written-off": -40000, "income:interest": -1800,
                                 "income:penalties": -500, "liabilities:overpaid": -2700})


def seen(path, offices):
    """The rows of the catalogue and of offices, by table: what an extract must give again."""
    places = ",".join(map(str, sorted(offices)))
    tables = {"meta": "day", "charges": "*", "products": "*"}
    own = ("staff", "clients", "loans", "entries", "receipts", "instalments", "shares")
    questions = {table: f"select {columns} from {table}" for table, columns in tables.items()}
    questions |= {table: f"select * from {table} where office in ({places})" for table in own}
    questions["offices"] = f"select * from offices where number in ({places})"
    with contextlib.closing(sqlite3.connect(f"file:{path}?mode=ro&immutable=1", uri=True)) as database:
        return {table: sorted(database.execute(question), key=repr) for table, question in questions.items()}


class Extracts(unittest.TestCase):
    below = {1: {1, 2, 3, 21, 22}, 2: {2, 21, 22}, 21: {21}, 22: {22}, 3: {3}}

    def extracted(self, office, *words, path=None):
        into = os.path.join(ROOM, f"office-{office}.lines")
        with contextlib.suppress(FileNotFoundError):
            os.unlink(into)
        return tool("microloan-extract", "--office", str(office), "--into", into, *words, path or DESK.path), into

    def replayed(self, into):
        """The file that the program makes of an extract, and its replies."""
        path = os.path.join(ROOM, "replayed.db")
        institutions.remove(path)
        words = ["batch", "--journal", "--file", path, "--day", FOUNDED]
        status, replies, _ = institutions.ended(words, bytes_of(into))
        self.assertEqual(status, 0)
        return path, replies.decode().splitlines()

    def test_a_branch_alone_comes_to_the_same_rows(self):
        for office, offices in self.below.items():
            with self.subTest(office):
                (status, shown, said), into = self.extracted(office)
                self.assertEqual((status, said), (0, ""))
                path, replies = self.replayed(into)
                self.assertTrue(all(reply.startswith(("200 ", "201 ")) for reply in replies))
                wanted = seen(DESK.path, offices)
                self.assertEqual(seen(path, offices), wanted)
                count = sum(map(len, wanted.values()))
                self.assertIn(f"they give the same {count} rows of office {office} and those below it", shown)
                report = ["report", "--existing", "--staff", f"{office}/1", "--file"]
                self.assertEqual(told_by(*report, path), told_by(*report, DESK.path))

    def test_nothing_of_other_branches_is_in_it(self):
        _, into = self.extracted(21)
        text = bytes_of(into).decode(errors="replace")
        for name in ("Élodie", "Carla", "Port", "South", "Sam", "Last North", "0022-", "0003-"):
            self.assertNotIn(name, text)
        # of the office above those up to the last member of staff that has sent any of the lines
        for name in ("Amina", "Mill", "North", "Idle North", "Otto North", "Paulo Head"):
            self.assertIn(name, text)

    def test_without_names(self):
        for office, offices in self.below.items():
            with self.subTest(office):
                (_, _, _), into = self.extracted(office)
                _, replies = self.replayed(into)
                (status, shown, said), into = self.extracted(office, "--without-names")
                self.assertEqual((status, said), (0, ""))
                text = bytes_of(into).decode(errors="replace")
                for name in NAMES:
                    self.assertNotIn(name, text)
                path, blind = self.replayed(into)
                self.assertEqual(blind, replies)
                mine, wanted = seen(path, offices), seen(DESK.path, offices)
                for table in ("clients", "staff"):
                    numbers = [[row[:2] for row in rows.pop(table)] for rows in (mine, wanted)]
                    self.assertEqual(*numbers)
                self.assertEqual(mine, wanted)

    def test_it_is_signed_where_keys_are_named(self):
        into = os.path.join(ROOM, "signed.lines")
        words = ["--office", "21", "--into", into, "--keys", KEYS, DESK.path]
        self.assertEqual(run_tool("microloan-extract", *words)[0], 0)
        subprocess.run(["minisign", "-V", "-q", "-P", SIGNER, "-m", into], check=True)

    def test_what_is_not_extracted(self):
        changed, plain = os.path.join(ROOM, "other.db"), os.path.join(ROOM, "no-journal.db")
        institutions.without_sums(DESK.path, changed, "update loans set principal = principal + 1 where office = 21")
        institutions.ended(["batch", "--file", plain])
        cases = ((23, DESK.path, "there is no office 23"), (21, plain, "keeps no journal"),
                 (21, changed, "loans: 4 rows are not the same"))
        for office, path, wanted in cases:
            with self.subTest(wanted):
                (status, shown, said), into = self.extracted(office, path=path)
                self.assertEqual((status, shown), (1, ""))
                self.assertIn(wanted, said)
                self.assertFalse(os.path.exists(into))
        (_, _, _), into = self.extracted(21)
        status, _, said = tool("microloan-extract", "--office", "21", "--into", into, DESK.path)
        self.assertEqual(status, 1)
        self.assertIn("File exists", said)


if __name__ == "__main__":
    unittest.main()
