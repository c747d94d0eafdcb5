"""Tests of the package's tools, run from the checkout: sheets, report and day while it serves, backup and restore."""
import contextlib
import datetime
import importlib.machinery
import importlib.util
import io
import json
import os
import pty
import pwd
import random
import signal
import sqlite3
import subprocess
import sys
import tempfile
import threading
import time
import unittest
import unittest.mock

HERE = os.path.dirname(os.path.abspath(__file__))
TOP = os.path.dirname(os.path.dirname(HERE))
TOOLS = os.path.join(TOP, "package", "tools")
sys.path[:0] = [os.path.join(TOP, "front", "test"), TOOLS]
import desk
import desk_bundle
import institution_files as files
import journal_heads
import running

SHEET_LINES = 10000


def setUpModule():
    global DESK
    DESK = desk.Desk()
    unittest.addModuleCleanup(DESK.end)


HEAD = b"receipt,loan,date,amount,result\n"


def tool(name, *words, user="tom", password=None, at=None):
    """Runs a tool that asks at the front. Its status, its output, and what it says on standard error."""
    asked = [os.path.join(TOOLS, name), "--user", user, "--address", (at or DESK).url, *words]
    done = subprocess.run(
        asked, input=(password or desk.PASSWORD.format(user)).encode() + b"\n", capture_output=True, check=False
    )
    return done.returncode, done.stdout, done.stderr.decode()


def by_command(path, command, staff, given=b""):
    words = [running.program(), command, "--file", path, "--staff", staff]
    return subprocess.run(words, input=given, stdout=subprocess.PIPE, check=True).stdout


def draw_sheet(count, loans):
    """A sheet with lines of every kind, drawn the same each time: right ones, and ones that are wrong."""
    draw = random.Random(7)
    right = {
        "receipt": lambda place: f"S-{place}".encode(),
        "loan": lambda place: draw.choice(loans).encode(),
        "date": lambda place: b"2026-09-%02d" % draw.randint(1, 30),
        "amount": lambda place: draw.choice([b"1", b"0.5", b"2.05", b"007", b"1.00", b"0.01"]),
    }
    wrong = {
        "receipt": b"|S-1|a b|" + b"x" * 41 + b'|\xc3\xa9|"S,1"|\xff\xfe|"a ""b"" c"',
        "loan": b"|0021-000000|0021-999999|0031-000001|21-1|0021-1|00021-000001| 0021-000001 |0021-00000x",
        "date": b"|2026-02-30|2026-10-01|2020-01-01|30.09.2026|1999-12-31|2026-9-01|\t2026-09-30|2100-01-01",
        "amount": b"|0|-1|.5|1.|1.234|1,5|1e3|10000000000.01|99999999999| \"1\"|1_0|+1|123456789012",
    }
    lines = [b"\xef\xbb\xbf Receipt ,LOAN,date,\tamount"]
    for place in range(count):
        fields = [make(place) for make in right.values()]
        for _ in range(draw.choice([0, 0, 0, 0, 1, 2])):
            column = draw.randrange(4)
            fields[column] = draw.choice(list(wrong.values())[column].split(b"|"))
        if draw.random() < 0.03:
            fields = fields[: draw.randint(1, 3)] if draw.random() < 0.5 else fields + [b"more", b'"and\nmore"']
        lines.append(b",".join(fields) + draw.choice([b"", b"", b"\r", b"\n", b"\r\n\r"]))
    return b"\n".join(lines) + b"\n"


def is_insert(statement):
    return statement.startswith("INSERT")


class Sheets(unittest.TestCase):
    def collect(self, sheet, user):
        with tempfile.NamedTemporaryFile() as file:
            file.write(sheet)
            file.flush()
            return tool("microloan-collect", file.name, user=user)

    def test_10000_lines_as_by_the_command(self):
        loans = [f"{office:04}-{number:06}" for office in (21, 22) for number in range(1, 31)]
        sheet = draw_sheet(SHEET_LINES, loans)
        with tempfile.TemporaryDirectory() as room:
            copy = os.path.join(room, "desk.db")
            desk.copy_file(desk.demonstration_file(), copy)
            first, again = (by_command(copy, "collect", "2/1", sheet) for _ in range(2))
        self.assertEqual(self.collect(sheet, "ruth"), (0, first, ""))
        self.assertEqual(self.collect(sheet, "ruth"), (0, again, ""))
        results = {line.rsplit(b",", 1)[-1] for line in first.splitlines()}
        self.assertLessEqual({b"entered", b"F1", b"F4", b"F9", b"F10", b"F15"}, results)
        self.assertIn(b",repeated\n", again)

    def test_the_worked_sheet_of_the_examples(self):
        examples = os.path.join(TOP, "examples")
        with open(os.path.join(examples, "evening-lines.txt"), "rb") as file:
            lines = file.read()
        with open(os.path.join(examples, "evening-results.csv"), "rb") as file:
            wanted = file.read()
        with desk.Desk(lines=lines, people={"head": "1/1"}) as it:
            sheet = os.path.join(examples, "evening-sheet.csv")
            self.assertEqual(tool("microloan-collect", sheet, user="head", at=it), (0, wanted, ""))
            again = tool("microloan-collect", sheet, user="head", at=it)
            self.assertEqual(again, (0, wanted.replace(b"entered", b"repeated"), ""))

    def test_of_a_sheet_that_may_be_cut_nothing_is_sent(self):
        """An amount of 1,234.50 that is cut after its third digit is 123.00, and isn't entered."""
        whole = b"C-1,0021-000001,2026-09-30,5\nC-2,0021-000001,2026-09-30,1234.50\n"
        for cut in (whole[:-5], whole[:-1], whole + b'"C-3,0021-000001,2026-09-30,5\n'):
            with self.subTest(cut):
                status, shown, said = self.collect(cut, "tom")
                self.assertEqual((status, shown), (1, b""))
                self.assertIn("middle of a line", said)

    def test_a_total_that_is_wrong(self):
        lines = b"D-1,0021-000001,2026-09-30,5\nD-2,0021-000001,2026-09-30,1234.50\n"
        for total in (b"total,1,,1239.50", b"total,2,,1239.49", b"total,2,x,1239.50", b"Total,2,1239.50"):
            with self.subTest(total):
                status, shown, said = self.collect(lines + total, "tom")
                self.assertEqual((status, shown), (1, b""))
                self.assertIn("it has 2 lines of 1239.50", said)

    def test_a_total_that_is_right_needs_no_end(self):
        lines = b"x,1,2,3\ny,1,2,4.5\n"
        self.assertEqual(self.collect(lines + b"total,2,,7.50", "tom")[1], HEAD + b"x,1,2,3,F1\ny,1,2,4.5,F1\n")

    def test_an_institution_that_asks_for_totals(self):
        path = os.path.join(DESK.nginx.people, "institution.json")
        with open(path, "w", encoding="utf-8") as file:
            file.write('{"sheet_total":true}')
        self.addCleanup(os.remove, path)
        status, shown, said = self.collect(b"x,1,2,3\n", "tom")
        self.assertEqual((status, shown), (1, b""))
        self.assertIn("total,COUNT,,SUM", said)
        self.assertEqual(self.collect(b"x,1,2,3\ntotal,1,,3\n", "tom")[0], 0)

    def test_a_receipt_that_is_a_formula(self):
        for receipt in (b"=cmd", b"+1", b"-2", b"@SUM(1)", b" =1", b'"=1"'):
            with self.subTest(receipt):
                sheet = b"E-1,0021-000001,2026-09-30,5\n" + receipt + b",0021-000001,2026-09-30,5\n"
                status, shown, said = self.collect(sheet, "tom")
                self.assertEqual((status, shown), (1, b""))
                self.assertIn("receipt 2", said)
        again = self.collect(b"E-1,0021-000001,2026-09-30,0\n", "tom")
        self.assertEqual(again[0], 0)

    def test_a_sheet_that_is_too_large(self):
        self.assertEqual(self.collect(b"x" * 1048577, "tom"), (1, b"", "microloan-collect: F1\n"))

    def test_whoever_is_not_signed_in(self):
        sheet = os.path.join(TOP, "examples", "evening-sheet.csv")
        status, shown, said = tool("microloan-collect", sheet, password="wrong")
        self.assertEqual((status, shown), (1, b""))
        self.assertIn("password", said)

    def test_the_program_is_killed_in_the_middle_and_started_again(self):
        loans = [f"0021-{number:06}" for number in range(1, 31)]
        lines = [f"K-{place},{loans[place % 30]},2026-09-30,0.01\n" for place in range(400)]
        with desk.Desk() as it, tempfile.NamedTemporaryFile() as file:
            file.write("".join(lines).encode())
            file.flush()
            found = []
            thread = threading.Thread(target=lambda: found.append(tool("microloan-collect", file.name, at=it)))
            thread.start()
            desk_wait(lambda: len(it.log) > 100)
            it.kill_serve()
            time.sleep(1)
            it.start_serve()
            thread.join(120)
            status, shown, _ = found[0]
            again = tool("microloan-collect", file.name, at=it)[1]
        self.assertEqual(status, 0)
        results = [line.rsplit(b",", 1)[-1] for line in shown.splitlines()[1:]]
        self.assertEqual(len(results), 400)
        self.assertIn(b"entered", results)
        # what was entered by a message whose reply was lost is repeated, and nothing is entered by the sheet sent again
        self.assertLessEqual(set(results), {b"entered", b"repeated", b"F9", b"F11"})
        self.assertNotIn(b"entered", [line.rsplit(b",", 1)[-1] for line in again.splitlines()[1:]])


class Reports(unittest.TestCase):
    def test_as_by_the_command(self):
        with desk.Desk() as it, tempfile.TemporaryDirectory() as room:
            copy = os.path.join(room, "desk.db")
            desk.copy_file(desk.demonstration_file(), copy)
            for user, staff in desk.PEOPLE.items():
                with self.subTest(user):
                    wanted = by_command(copy, "report", staff)
                    self.assertEqual(tool("microloan-report", user=user, at=it), (0, wanted, ""))
                    self.assertIn(b" all ", wanted)

    def test_whom_the_program_does_not_know(self):
        DESK.add_person("lost", "2/99")
        self.assertEqual(tool("microloan-report", user="lost"), (1, b"", "microloan-report: F2\n"))


class Days(unittest.TestCase):
    def test_far_days_need_more_words(self):
        with desk.Desk() as it:
            def day(*words, user="amina"):
                return tool("microloan-day", *words, user=user, at=it)

            self.assertEqual(day(), (0, b"2026-09-30\n", ""))
            self.assertEqual(day("2026-10-07"), (0, b"2026-09-30 -> 2026-10-07\n", ""))
            for words in (("2026-10-15",), ("2026-10-15", "--again", "2026-10-16"), ("2026-10-15", "--far")):
                self.assertEqual(day(*words)[0], 1)
            for words in (("2026-11-08", "--again", "2026-11-08"), ("2026-11-08", "--far")):
                self.assertEqual(day(*words)[0], 1)
            self.assertEqual(day()[1], b"2026-10-07\n")
            self.assertEqual(day("2026-10-15", "--again", "2026-10-15")[1], b"2026-10-07 -> 2026-10-15\n")
            wanted = b"2026-10-15 -> 2026-11-20\n"
            self.assertEqual(day("2026-11-20", "--again", "2026-11-20", "--far"), (0, wanted, ""))
            for words, user, fault in ((("2026-11-20",), "amina", "F17"), (("2026-11-21",), "ruth", "F3")):
                status, _, said = day(*words, user=user)
                self.assertEqual(status, 1)
                self.assertIn(fault, said)
            self.assertEqual(day("2026-11-31")[0], 2)

    def test_a_terminal_is_asked_once_more(self):
        with desk.Desk() as it:
            for given, status in ((b"2026-10-21", 1), (b"2026-10-20", 0)):
                words = ["microloan-day", "--user", "amina", "--address", it.url, "2026-10-20"]
                number, terminal = pty.fork()
                if number == 0:
                    os.execv(os.path.join(TOOLS, "microloan-day"), words)
                shown = b""
                for answer in (desk.PASSWORD.format("amina").encode(), given):
                    while not shown.endswith(b": "):
                        shown += os.read(terminal, 1000)
                    os.write(terminal, answer + b"\n")
                    shown += b"|"
                with contextlib.suppress(OSError):
                    while more := os.read(terminal, 1000):
                        shown += more
                os.close(terminal)
                self.assertEqual(os.waitstatus_to_exitcode(os.waitpid(number, 0)[1]), status, shown)
            self.assertEqual(it.send("amina", "GET", "/api/business-day"), (200, {"day": "2026-10-20"}))


class Who(unittest.TestCase):
    def test_who_did_what(self):
        def who(*words):
            done = subprocess.run(
                [os.path.join(TOOLS, "microloan-who"), "--log", DESK.nginx.log, *words], capture_output=True, check=True
            )
            return [line.split(" ", 1)[1] for line in done.stdout.decode().splitlines()]

        name = "Zoë\x1b[31m"
        created = DESK.send("zoe", "POST", "/api/clients", {"office": 21, "name": "Zoë"})[1]["client"]
        members = {"client": created, "product": 1, "principal": 100000, "periods": 3}
        loan = DESK.send("zoe", "POST", "/api/loans", members)[1]["loan"]
        DESK.send("tom", "POST", f"/api/loans/{loan}/approve")
        DESK.send("paulo", "POST", f"/api/loans/{loan}/approve")
        DESK.send("paulo", "POST", f"/api/loans/{loan}/disburse", {"day": "2026-09-30"})
        DESK.send("zoe", "POST", "/api/clients", {"office": 99, "name": name})
        DESK.send("paulo", "POST", f"/api/loans/{loan}/reject", password="wrong")  # in the log of strangers alone
        approved = f"paulo 21/1 200 POST /api/loans/{loan}/approve"
        desk_wait(lambda: '"office": 99' in DESK.log[-1]["body"])
        self.assertEqual(who("approve", "--loan", loan), [approved])
        paid = f'paulo 21/1 200 POST /api/loans/{loan}/disburse {{"day": "2026-09-30"}}'
        self.assertEqual(who("--loan", loan), [approved, paid])
        self.assertEqual(who("pay-out", "--user", "paulo", "--loan", loan), [paid])
        self.assertEqual(who("--loan", loan, "--user", "zoe"), [])
        refused = [f"tom 21/3 403 POST /api/loans/{loan}/approve"]
        self.assertEqual(who("--refused", "--loan", loan), refused)
        self.assertEqual(who("--since", "2099-01-01"), [])
        shown = who("client", "--refused", "--user", "zoe")[-1]
        self.assertNotIn("\x1b", shown)
        self.assertIn("office", shown)

    def test_rotated_files_come_first(self):
        line = {"user": "amina", "staff": "1/1", "method": "PUT", "path": "/api/business-day"}
        line |= {"body": "{}", "status": 200}
        with tempfile.TemporaryDirectory() as room:
            log = os.path.join(room, "messages.log")
            for ending, day in (("-20261101", "2026-11-01"), ("-20261108", "2026-11-08"), ("", "2026-11-15")):
                with open(log + ending, "w", encoding="utf-8") as file:
                    file.write(json.dumps(line | {"time": f"{day}T10:00:00+00:00"}) + "\nno message\n")
            subprocess.run(["gzip", log + "-20261101"], check=True)
            words = [os.path.join(TOOLS, "microloan-who"), "--log", log, "day"]
            done = subprocess.run(words, capture_output=True, text=True, check=True)
        days = [shown[:10] for shown in done.stdout.splitlines()]
        self.assertEqual(days, ["2026-11-01", "2026-11-08", "2026-11-15"])
        self.assertEqual(done.stderr, "microloan-who: 3 lines are no messages\n")

    def test_who_did_what_by_a_journal(self):
        def who(path, *words):
            command = [os.path.join(TOOLS, "microloan-who"), "--journal", path, *words]
            done = subprocess.run(command, capture_output=True, text=True, check=False)
            return done.stdout.splitlines() or [done.stderr.strip()]

        visit = '{"name":"Visit","kind":"due-date","calc":"flat","value":500,"reason":"new"}'
        lines = (
            '1/1 POST /clients {"office":1,"name":"Zo\\u001b"}',
            '1/1 POST /clients {"office":1,"name":"Zo\x1b"}',
            '1/1 POST /clients {"office":1,"name":"Zoë"}',
            "1/1 GET /business-day",
            '1/1 PUT /business-day {"day":"2026-10-02"}',
            f"1/1 POST /charges {visit}",
        )
        with tempfile.TemporaryDirectory() as room:
            path, plain = os.path.join(room, "desk #1.db"), os.path.join(room, "plain.db")
            for words in (["--file", path, "--journal"], ["--file", plain]):
                command = [running.program(), "batch", "--day", "2026-10-01", *words]
                subprocess.run(command, input="\n".join(lines).encode() + b"\n", stdout=subprocess.PIPE, check=True)
            client = '2026-10-01 1 1/1 POST /api/clients {"office":1,"name":"Zo\\xeb"}'
            day = '2026-10-01 2 1/1 PUT /api/business-day {"day":"2026-10-02"}'
            charge = f"2026-10-02 3 1/1 POST /api/charges {visit}"
            self.assertEqual(who(path), [client, day, charge])
            self.assertEqual(who(path, "day"), [day])
            self.assertEqual(who(path, "--since", "2026-10-02"), [charge])
            self.assertEqual(who(path, "--staff", "1/2"), [""])
            self.assertIn("no such table: journal", who(plain)[0])
            self.assertIn("nothing that was refused", who(path, "--refused")[-1])
            with open(path + "-wal", "wb") as log:
                log.write(bytes(5000))
            self.assertIn("a copy that is one whole file is wanted", who(path)[0])


class Backups(unittest.TestCase):
    def setUp(self):
        room = tempfile.TemporaryDirectory()
        self.addCleanup(room.cleanup)
        self.folder, self.keys = (os.path.join(room.name, name) for name in ("backups", "keys"))
        os.mkdir(self.folder)
        desk_bundle.make_keys(self.keys)
        self.it = desk.Desk()
        self.addCleanup(self.it.end)

    def run_tool(self, name, *words):
        asked = [os.path.join(TOOLS, name), "--file", self.it.file, "--program", running.program(), "--keys", self.keys]
        asked += ["--log", self.it.nginx.log] * (name == "microloan-backup")
        asked += ["--heads", os.path.join(self.folder, "journal-heads"), *words]
        done = subprocess.run(asked, capture_output=True, text=True, check=False)
        return done.returncode, done.stdout, done.stderr

    def back_up(self):
        status, shown, said = self.run_tool("microloan-backup", "--folder", self.folder)
        self.assertEqual((status, said), (0, ""))
        return shown.split(": ")[0], shown

    def database_of(self, path):
        """The database in a backup, taken out by age and tar alone."""
        with open(os.path.join(self.keys, "machine.key"), encoding="ascii") as file:
            identity = file.name
        out = tempfile.mkdtemp(dir=os.path.dirname(self.folder))
        words = f"age --decrypt --identity '{identity}' '{path}' | tar xz -C '{out}' desk.db"
        subprocess.run(words, shell=True, check=True)
        return os.path.join(out, "desk.db")

    def add_client(self, name):
        return self.it.send("zoe", "POST", "/api/clients", {"office": 21, "name": name})

    def has_client(self, client):
        return self.it.send("tom", "GET", f"/api/clients/{client}")[0] == 200

    def test_the_holder_of_a_file_is_found_whatever_else_it_opens(self):
        """A process that opens and closes files all the time is found as the holder of the one that it keeps."""
        words = "import os, sys\nkept = open(sys.argv[1])\nprint(flush=True)\nwhile True: open(os.devnull).close()"
        with tempfile.NamedTemporaryFile() as file:
            held = subprocess.Popen([sys.executable, "-c", words, file.name], stdout=subprocess.PIPE)
            try:
                held.stdout.readline()
                found = [files.holders(file.name) for _ in range(300)]
            finally:
                held.kill()
                held.communicate()
        self.assertEqual(found, [[held.pid]] * 300)

    def test_backed_up_while_it_serves_and_restored(self):
        before = self.add_client("Before")[1]["client"]
        path, shown = self.back_up()
        self.assertRegex(shown, "business day 2026-09-30, [0-9]+ clients, 400 loans, ")
        name = os.path.basename(path)
        self.assertEqual(sorted(os.listdir(self.folder)), [name, name + ".minisig"])
        after = self.add_client("After")[1]["client"]
        status, _, said = self.run_tool("microloan-restore", path)
        self.assertEqual(status, 1)
        self.assertIn("stop the service first", said)
        self.it.kill_serve()
        status, shown, said = self.run_tool("microloan-restore", path)
        self.assertEqual((status, said), (0, ""))
        first, second = shown.splitlines()
        self.assertIn("400 loans", first)
        aside = second.split(" is in ")[1].split(":")[0]
        self.assertIn("400 loans", second)
        self.it.start_serve()
        self.assertTrue(self.has_client(before))
        self.assertFalse(self.has_client(after))
        # what was set aside is whole, and can be put back in the same way
        self.it.kill_serve()
        self.assertEqual(self.run_tool("microloan-restore", os.path.join(aside, "desk.db"))[::2], (0, ""))
        self.it.start_serve()
        self.assertTrue(self.has_client(after))

    def test_a_backup_is_whole_without_its_log(self):
        """SQLite, told that no log counts, reads from the file alone all that the program holds."""
        client = self.add_client("In the log")[1]["client"]
        path, _ = self.back_up()
        copy = self.database_of(path)
        with contextlib.closing(sqlite3.connect(f"file:{copy}?mode=ro&immutable=1", uri=True)) as database:
            found = database.execute(
                "select printf('%04d-%06d', office, number) from clients where name = 'In the log'"
            ).fetchall()
            self.assertEqual(database.execute("pragma integrity_check").fetchall(), [("ok",)])
        self.assertEqual(found, [(client,)])

    def test_the_program_goes_on_whatever_ends_the_backup(self):
        """The backup is killed while the program stands still: the program goes on all the same."""
        script = (
            "import sys, os, time; sys.path.insert(0, sys.argv[1]); import institution_files as files\n"
            "with files.Standstill(int(sys.argv[2]), sys.argv[3]) as it:\n"
            "    it.stop(); print('still', flush=True); time.sleep(60)\n"
        )
        served = self.it.serve.process.pid
        for how in (signal.SIGKILL, signal.SIGTERM, signal.SIGINT):
            words = [sys.executable, "-c", script, TOOLS, str(served), self.it.file]
            with subprocess.Popen(words, stdout=subprocess.PIPE, stderr=subprocess.DEVNULL) as backup:
                self.assertEqual(backup.stdout.readline(), b"still\n")
                with open(f"/proc/{served}/stat", encoding="ascii") as file:
                    self.assertEqual(file.read().rpartition(")")[2].split()[0], "T")
                backup.send_signal(how)
                backup.wait()
            self.assertEqual(self.add_client("Goes on")[0], 201)

    def test_no_institution_is_no_backup(self):
        self.it.kill_serve()
        for ending in ("", "-wal"):
            if os.path.exists(self.it.file + ending):
                os.rename(self.it.file + ending, self.it.file + ".kept" + ending)
        self.assertEqual(self.run_tool("microloan-backup", "--folder", self.folder)[0], 1)
        for data in (b"", b"x", b"text " * 1000):
            with open(self.it.file, "wb") as file:
                file.write(data)
            status, shown, said = self.run_tool("microloan-backup", "--folder", self.folder)
            self.assertEqual((status, shown), (1, ""))
            self.assertIn("holds no institution", said)
            self.assertEqual(self.run_tool("microloan-restore", self.it.file)[0], 1)
        self.assertEqual(os.listdir(self.folder), [])

    def test_a_row_that_was_changed_is_no_backup(self):
        """The rows are put into a new file first: SQLite's writes spoil page sums, for which a file is refused too."""
        self.it.kill_serve()
        with contextlib.closing(sqlite3.connect(self.it.file)) as database:
            tables = database.execute("select sql || ';' from sqlite_schema where sql is not null order by rowid")
            made = [*(text for (text,) in tables), *filter(is_insert, database.iterdump())]
            rows = "\n".join(["begin;", *made, "commit;"])  # in one sync
        for name in os.listdir(os.path.dirname(self.it.file)):
            if name.startswith("desk.db"):
                os.unlink(os.path.join(os.path.dirname(self.it.file), name))
        with contextlib.closing(sqlite3.connect(self.it.file)) as database, database:
            database.executescript(rows)
        self.back_up()
        for name in os.listdir(self.folder):
            os.unlink(os.path.join(self.folder, name))
        with contextlib.closing(sqlite3.connect(self.it.file)) as database, database:
            database.execute("update entries set amount = amount + 1 where kind = 1 and seq = 1 and reversed = 0")
        status, _, said = self.run_tool("microloan-backup", "--folder", self.folder)
        self.assertEqual(status, 1)
        self.assertIn("F19", said)
        self.assertEqual(os.listdir(self.folder), [])

    def test_a_damaged_log_is_no_backup(self):
        """Each bit of a log's header that turns, and one in the middle; a stop damages nothing."""
        for place in range(3):
            self.add_client(f"In the log {place}")
        self.it.kill_serve()
        with open(self.it.file + "-wal", "rb") as file:
            log = file.read()
        self.assertIsNone(files.damage_of_log(self.it.file))
        for at in (1, 8, 16, 30, 5000):
            with open(self.it.file + "-wal", "wb") as file:
                file.write(log[:at] + bytes([log[at] ^ 4]) + log[at + 1 :])
            status, _, said = self.run_tool("microloan-backup", "--folder", self.folder)
            self.assertEqual(status, 1)
            self.assertIn("is damaged, and nothing", said)
        self.assertEqual(os.listdir(self.folder), [])
        with open(self.it.file + "-wal", "wb") as file:
            file.write(log)
        self.back_up()

    def put_backups(self, *times, word=""):
        for moment in times:
            with open(os.path.join(self.folder, moment.strftime(f"desk-%Y-%m-%dT%H%M%S{word}.tar.age")), "wb"):
                pass

    def kept(self):
        return sorted(name for name in os.listdir(self.folder) if name.endswith(".tar.age"))

    def test_which_are_kept(self):
        """Of two backups a day over three years: those of two days, seven days, five weeks and twelve months."""
        now = datetime.datetime.now().replace(microsecond=0) - datetime.timedelta(hours=1)
        times = [now - datetime.timedelta(hours=12 * place) for place in range(2 * 1095)]
        self.put_backups(*times)
        self.put_backups(*times[::100], word="-before-upgrade")
        with open(os.path.join(self.folder, "another file"), "wb"):
            pass
        path, _ = self.back_up()
        self.assertIn("another file", os.listdir(self.folder))
        words = [name for name in self.kept() if "-before-upgrade" in name]
        wanted = sorted(moment.strftime("desk-%Y-%m-%dT%H%M%S-before-upgrade.tar.age") for moment in times[::100][:5])
        self.assertEqual(words, wanted)
        kept = [name for name in self.kept() if name not in words]
        self.assertIn(os.path.basename(path), kept)
        found = [datetime.datetime.strptime(name[5:22], "%Y-%m-%dT%H%M%S") for name in kept]
        recent = {moment for moment in times if moment > now - datetime.timedelta(hours=46)}
        self.assertLessEqual(recent, set(found))
        days = {moment.date() for moment in found}
        self.assertEqual(len({(day.year, day.month) for day in days}), 12)
        self.assertGreaterEqual(len({day.isocalendar()[:2] for day in days}), 5)
        last_seven = sorted({moment.date() for moment in times} | {datetime.date.today()})[-7:]
        self.assertLessEqual(set(last_seven), days)
        self.assertLessEqual(len(days), 7 + 5 + 12)

    def test_a_second_backup_of_a_day_keeps_the_first(self):
        first, _ = self.back_up()
        status, shown, said = self.run_tool("microloan-backup", "--folder", self.folder, "--keep", "before-upgrade")
        self.assertEqual((status, said), (0, ""))
        self.assertRegex(shown, r"desk-[0-9T-]+-before-upgrade\.tar\.age: ")
        third, _ = self.back_up()
        self.assertEqual(len(self.kept()), 3)
        self.assertLessEqual({os.path.basename(first), os.path.basename(third)}, set(self.kept()))
        self.assertEqual(self.run_tool("microloan-backup", "--folder", self.folder, "--keep", "../x")[0], 2)

    def test_a_clock_that_was_set_back_removes_none(self):
        now = datetime.datetime.now()
        self.put_backups(*(now + datetime.timedelta(days=2000 - 3 * place) for place in range(60)))
        before = self.kept()
        status, _, said = self.run_tool("microloan-backup", "--folder", self.folder)
        self.assertEqual(status, 0)
        self.assertIn("the clock is behind the newest backup", said)
        self.assertLessEqual(set(before), set(self.kept()))

    def test_while_messages_come_a_backup_holds_just_those_before_its_place(self):
        """Four offices enter without a pause; the log after the backup's place gives all that the desk then holds."""
        ended, entered = threading.Event(), []

        def enter(office):
            while not ended.is_set():
                client = {"office": office, "name": f"Client {len(entered)}"}
                status, _ = self.it.send("amina", "POST", "/api/clients", client)
                entered.append(status)

        threads = [threading.Thread(target=enter, args=(office,)) for office in (1, 2, 21, 22)]
        for thread in threads:
            thread.start()
        for _ in range(5):
            time.sleep(0.3)
            path, _ = self.back_up()
        ended.set()
        for thread in threads:
            thread.join(60)
        time.sleep(0.5)
        self.it.kill_serve()
        words = ["--and-the-log", self.it.nginx.log]
        held = self.it.file + ".held"
        for ending in ("", "-wal"):
            os.rename(self.it.file + ending, held + ending)
        for path in sorted(os.path.join(self.folder, name) for name in self.kept()):
            status, shown, said = self.run_tool("microloan-restore", path, *words)
            self.assertEqual((status, said), (0, ""))
            self.assertRegex(shown, r"[0-9]+ messages after the backup, the same \([0-9]+ changed something\)")
            rows = []
            for name in (held, self.it.file):
                with contextlib.closing(sqlite3.connect(name)) as database:
                    rows.append(database.execute("select office, number, name from clients order by 1, 2").fetchall())
            self.assertEqual(*rows)
            os.unlink(self.it.file)
        self.assertEqual(set(entered), {201})
        self.assertGreater(len(entered), 50)


def module_of(name):
    """A tool as a module."""
    loader = importlib.machinery.SourceFileLoader(name.replace("-", "_"), os.path.join(TOOLS, name))
    made = importlib.util.module_from_spec(importlib.util.spec_from_loader(loader.name, loader))
    loader.exec_module(made)
    return made


class Visits(unittest.TestCase):
    """Notes of visits: in a backup, back on a new machine, and looked at by microloan-check."""

    def setUp(self):
        room = tempfile.TemporaryDirectory()
        self.addCleanup(room.cleanup)
        self.keys, self.folder, self.bundle = (os.path.join(room.name, name) for name in ("keys", "visits", "bundle"))
        desk_bundle.make_keys(self.keys)
        os.mkdir(self.folder, 0o700)
        for client, text in (("0002-000001", "one\n"), ("0002-000002", "two\n"), ("other", "no client's\n")):
            with open(os.path.join(self.folder, client), "w", encoding="utf-8") as file:
                file.write(text)
        os.symlink("/etc/hostname", os.path.join(self.folder, "0002-000003"))
        os.mkfifo(os.path.join(self.folder, "0002-000004"))

    def sealed(self, folder):
        with desk_bundle.sealed(self.bundle, self.keys) as tar:
            desk_bundle.add_text(tar, "desk.json", "{}")
            desk_bundle.add_visits(tar, folder)

    def in_bundle(self):
        with desk_bundle.opened(self.bundle, os.path.join(self.keys, "machine.key")) as (tar, _):
            members = (member for member in tar if member.name != "desk.json")  # which is read already
            return {member.name: tar.extractfile(member).read() for member in members}

    def test_in_a_backup(self):
        """The notes of clients, and nothing else that lies there."""
        self.sealed(self.folder)
        self.assertEqual(self.in_bundle(), {"visits/0002-000001": b"one\n", "visits/0002-000002": b"two\n"})
        self.sealed(self.folder + "-missing")
        self.assertEqual(self.in_bundle(), {})

    def test_of_clients_that_are_not_there_any_more(self):
        """After a restore their notes are named, since the next clients get their numbers."""
        path = os.path.join(os.path.dirname(self.folder), "desk.db")
        running.answer_lines(path, b'''1/1 POST /offices {"number":2,"parent":1,"name":"North"}
1/1 POST /clients {"office":2,"name":"Amina"}
''')
        restore, said = module_of("microloan-restore"), io.StringIO()
        with unittest.mock.patch.object(restore.bundle, "VISITS", self.folder), contextlib.redirect_stdout(said):
            with unittest.mock.patch.object(restore.files, "FILE", path):
                restore.tell_notes_of_nobody(unittest.mock.Mock(file=path))
            restore.tell_notes_of_nobody(unittest.mock.Mock(file=path))  # not the desk's own file
        command = f"cd {self.folder} && rm 0002-000002 0002-000003 0002-000004\n"
        self.assertEqual([line for line in said.getvalue().splitlines(True) if "rm" in line],
                         ["the next clients get those numbers: " + command])

    @unittest.skipUnless(os.geteuid() == 0, "gives files to nginx's workers")
    def test_on_a_new_machine(self):
        """They are put in place as nginx's workers' own; those that are there stay."""
        self.sealed(self.folder)
        place = self.folder + "-new"
        os.mkdir(place, 0o700)
        with open(os.path.join(place, "0002-000002"), "w", encoding="utf-8") as file:
            file.write("noted here\n")
        restore = module_of("microloan-restore")
        with unittest.mock.patch.object(restore.bundle, "VISITS", place), contextlib.redirect_stdout(io.StringIO()):
            with desk_bundle.opened(self.bundle, os.path.join(self.keys, "machine.key")) as (tar, about):
                restore.restore_settings(tar, about, [])
        found = {}
        for name in sorted(os.listdir(place)):
            with open(os.path.join(place, name), encoding="utf-8") as file:
                found[name] = file.read()
        self.assertEqual(found, {"0002-000001": "one\n", "0002-000002": "noted here\n"})
        about = os.stat(os.path.join(place, "0002-000001"))
        self.assertEqual((about.st_mode & 0o777, about.st_uid), (0o600, pwd.getpwnam("www-data").pw_uid))

    def test_looked_at(self):
        check = module_of("microloan-check")
        owner = pwd.getpwnam("www-data").pw_uid
        if os.geteuid() == 0:
            os.chown(self.folder, owner, -1)

        def found(folder):
            look = check.Look()
            with unittest.mock.patch.object(check.bundle, "VISITS", folder):
                check.look_at_visits(look)
            return look.level(), look.line()

        self.assertEqual(found(self.folder)[0], 0 if os.stat(self.folder).st_uid == owner else 1)
        os.chmod(self.folder, 0o755)
        self.assertEqual(found(self.folder)[0], 1)
        self.assertIn("isn't nginx's alone", found(self.folder)[1])
        self.assertIn("no note of a visit is kept", found(self.folder + "-missing")[1])


class Journals(unittest.TestCase):
    """Of an institution with a journal that nobody serves: its head is noted, and told where it isn't that any more."""

    def setUp(self):
        room = tempfile.TemporaryDirectory()
        self.addCleanup(room.cleanup)
        self.folder, self.keys, place = (os.path.join(room.name, name) for name in ("backups", "keys", "institution"))
        self.file, self.heads = os.path.join(place, "desk.db"), os.path.join(self.folder, "journal-heads")
        for name in (self.folder, place):
            os.mkdir(name)
        desk_bundle.make_keys(self.keys)
        self.answer("1/1 GET /business-day", "--journal")
        self.enter(5)

    def answer(self, lines, *words):
        words = [running.program(), "batch", "--file", self.file, *words]
        subprocess.run(words, input=lines.encode(), stdout=subprocess.DEVNULL, check=True)

    def enter(self, count):
        line = '1/1 POST /clients {"office":1,"name":"Amina"}\n'
        self.answer(line * count)

    def archive(self, day):
        words = [running.program(), "archive", "--existing", "--file", self.file, "--to", day]
        subprocess.run([*words, "--into", f"{self.file}-{day}"], stdout=subprocess.DEVNULL, check=True)

    def forge(self, how):
        words = [sys.executable, os.path.join(HERE, "forge_journal.py"), self.file, self.file + ".forged", str(how)]
        subprocess.run(words, check=True)
        os.replace(self.file + ".forged", self.file)

    def run_tool(self, name, *words):
        asked = [os.path.join(TOOLS, name), "--file", self.file, "--program", running.program(), "--keys", self.keys]
        asked += ["--heads", self.heads, *words]
        done = subprocess.run(asked, capture_output=True, text=True, check=False)
        return done.returncode, done.stdout, done.stderr

    def back_up(self):
        """Its path, what is told, and what is said against it."""
        words = ["--folder", self.folder, "--log", self.file + ".log"]
        status, shown, said = self.run_tool("microloan-backup", *words)
        self.assertEqual(status, 1 if said else 0)
        return shown.split(": ")[0], shown, said

    def head(self):
        """As the documents have it read by hand."""
        question = "select number, lower(hex(chain)) from journal order by number desc limit 1"
        with contextlib.closing(sqlite3.connect(f"file:{self.file}?mode=ro&immutable=1", uri=True)) as database:
            return "journal {} head {}".format(*database.execute(question).fetchone())

    def words_of_notes(self):
        return [note.word for note in journal_heads.read(self.heads)]

    def check_says(self):
        """What microloan-check finds of the journal."""
        check = module_of("microloan-check")
        with unittest.mock.patch.multiple(journal_heads, PLACE=self.heads, MARK=self.heads):
            look = check.Look()
            check.look_at_journal(look)
        return look.level(), look.line()

    def test_a_backup_tells_the_head_and_takes_it_along(self):
        path, shown, said = self.back_up()
        self.assertIn(f"0 entries, {self.head()}; the program", shown)
        self.assertEqual(said, "")
        with desk_bundle.opened(path, os.path.join(self.keys, "machine.key")) as (_, about):
            self.assertEqual("journal {number} head {head}".format(**about["journal"]), self.head())
        with open(path + ".minisig", encoding="utf-8") as file:
            self.assertIn(f" {self.head()}\n", file.read())
        note = journal_heads.read(self.heads)[0]
        self.assertEqual((f"journal {note.number} head {note.chain}", note.word), (self.head(), ""))
        self.assertIn(f"desk-{note.moment.replace(':', '')}.tar.age", path)
        self.assertEqual(os.stat(self.heads).st_mode & 0o777, 0o600)
        self.assertEqual(self.check_says()[0], 0)
        self.assertIn("journal noted up to line 5", self.check_says()[1])

    def test_a_journal_whose_first_lines_were_archived(self):
        """It is compared from where it goes on, and told where that is behind all that was noted."""
        self.back_up()
        self.answer('1/1 PUT /business-day {"day":"2024-01-02"}\n')
        self.enter(5)
        self.back_up()
        self.archive("2024-01-01")
        self.assertEqual(self.back_up()[2], "")
        self.answer('1/1 PUT /business-day {"day":"2024-01-03"}\n')
        self.enter(5)
        self.answer('1/1 PUT /business-day {"day":"2024-01-04"}\n')
        self.archive("2024-01-03")
        self.assertIn("the journal begins after line 18, and the last that was noted, on ", self.back_up()[2])

    def test_a_journal_that_is_not_as_it_was_noted_is_told(self):
        """Made anew from a line on, a line less, none: by each backup and by microloan-check, until it is put right."""
        good = [self.back_up()[0]]
        self.enter(5)
        good.append(self.back_up()[0])
        noted = journal_heads.read(self.heads)
        cases = (
            ("all", f"no journal is kept any more, and its line 10 was noted on {noted[1].moment}"),
            (3, f"the journal isn't the one that it was: its line 5 was noted on {noted[0].moment} with another chain"),
            (7, f"the journal isn't the one that it was: its line 10 was noted on {noted[1].moment} with another chain"),
            ("last", f"the journal is shorter than it was: its line 10 was noted on {noted[1].moment}"),
        )
        for how, wanted in cases:
            with self.subTest(how):
                self.forge(how)
                for _ in range(2):
                    path, shown, said = self.back_up()
                    self.assertIn("business day", shown)
                    self.assertEqual(said, f"microloan-backup: {path} is made, but {wanted}\n")
                    level, line = self.check_says()
                    self.assertEqual(level, 2)
                    self.assertIn(f"DESK CRITICAL - {wanted}. See ", line)
                status, shown, said = self.run_tool("microloan-restore", good[1])
                self.assertEqual((status, said), (0, ""))
                self.assertIn(self.head(), shown.splitlines()[0])
                self.assertEqual(self.check_says()[0], 0)
                self.assertEqual(self.back_up()[2], "")

    def test_of_a_restore_later_heads_count_no_more(self):
        """And those before it do."""
        good = self.back_up()[0]
        self.enter(5)
        self.back_up()
        status, shown, said = self.run_tool("microloan-restore", good)
        self.assertEqual((status, said), (0, ""))
        self.assertIn(f"0 entries, {self.head()}\n", shown)
        self.assertIn("journal 10 head ", shown.splitlines()[1])
        self.assertEqual(self.words_of_notes(), ["", "", "restored"])
        self.enter(7)
        self.assertEqual(self.back_up()[2], "")
        self.forge(4)
        self.assertIn("its line 5 was noted on", self.back_up()[2])

    def test_a_trial_of_a_restore_tells_the_head_and_notes_nothing(self):
        path = self.back_up()[0]
        wanted = f"{path}: sound, business day 2024-01-01, 5 clients, 0 loans, 0 entries, {self.head()}\n"
        self.assertEqual(self.run_tool("microloan-restore", "--try", path), (0, wanted, ""))
        self.assertEqual(self.words_of_notes(), [""])

    def test_a_restored_file_without_a_journal(self):
        """It is said what to do, and after that nothing is compared with the journal that was."""
        self.back_up()
        self.forge("all")
        path = self.back_up()[0]
        status, shown, said = self.run_tool("microloan-restore", path)
        self.assertEqual((status, said), (0, ""))
        begin = f"sudo -u microloan microloan upgrade --existing --file {self.file} --journal"
        self.assertIn("it keeps no journal, and isn't served", shown)
        self.assertIn(f"    {begin}\n", shown)
        self.assertEqual(self.words_of_notes()[-1], "restored")
        subprocess.run([running.program(), *begin.split()[4:]], stdout=subprocess.DEVNULL, check=True)
        self.assertEqual(self.back_up()[2], "")
        self.enter(1)
        self.assertEqual(self.back_up()[2], "")
        self.assertEqual(self.check_says()[0], 0)

    def test_notes_that_are_damaged(self):
        """It is told, backups are made all the same, and the other notes count."""
        self.back_up()
        with open(self.heads, "ab") as file:
            file.write(b"\0\xff\n")
        self.assertIn("isn't as it was written", self.check_says()[1])
        self.enter(1)
        self.assertEqual(self.back_up()[2], "")
        self.assertEqual(self.check_says()[0], 0)
        self.forge(2)
        self.assertIn("its line 5 was noted on", self.back_up()[2])


def desk_wait(holds, seconds=60):
    end = time.monotonic() + seconds
    while not holds():
        if time.monotonic() > end:
            raise AssertionError("waited in vain")
        time.sleep(0.02)


if __name__ == "__main__":
    unittest.main()
