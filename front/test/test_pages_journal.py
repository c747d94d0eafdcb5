"""Who did what, as the journal tells it: on the page of a loan, and page by page for an office. And the pages where the
institution keeps no journal, or the desk is of a version that doesn't tell it."""
import os
import re
import tempfile
import unittest

import running
import test_pages as looks
import test_pages_lists as lists
import test_pages_loans as loans


def tells_journal():
    """Whether the program tells of the journal: one that has lists may be older than that."""
    with tempfile.TemporaryDirectory() as folder:
        asked = b"1/1 GET /lists/journal/1/0\n"
        told = running.answer_lines(os.path.join(folder, "desk.db"), asked, "--lists", "--journal")
    return told.startswith(b"200 ")


HAS_JOURNAL = lists.HAS_LISTS and tells_journal()
WHO = "Who did what"
TITLES = {
    "fr": ("Qui a fait quoi", "Ce qui a été fait"),
    "es": ("Quién hizo qué", "Qué se hizo"),
    "sw": ("Nani alifanya nini", "Kilichofanywa"),
}
TIME = re.compile(r"[A-Z][a-z]{2} \d{1,2}, \d{4} \d\d:\d\d\Z")
# a loan with each kind of change, the last of which come through the front
LINES = (
    loans.LINES
    + """2/2 POST /clients {"office":2,"name":"Amina"}
2/2 POST /loans {"client":"0002-000001","product":1,"principal":100000,"periods":3}
2/1 POST /loans/0002-000001/approve
2/1 POST /loans/0002-000001/undo-approval {"reason":"papers \\"missing\\""}
1/1 POST /loans/0002-000001/approve [1,
2/1 POST /loans/0002-000001/disburse {"day":"2024-01-31"}
1/1 PUT /business-day {"day":"2024-03-31"}
2/2 POST /loans/0002-000001/fees {"charge":1,"due":"2024-04-30"}
2/2 POST /loans/0002-000001/penalties {"instalment":1}
2/3 POST /loans/0002-000001/repayments {"amount":20000,"day":"2024-02-29","receipt":"N-1"}
2/3 POST /loans/0002-000001/repayments {"amount":1,"day":"2024-03-31","collector":"Moses","reason":""}
2/1 POST /loans/0002-000001/entries/0004/reverse {"reason":"a wrong amount"}
2/1 POST /loans/0002-000001/waivers {"instalment":2,"portion":"interest","reason":"hardship"}
2/1 POST /loans/0002-000001/write-off {"reason":"<b>gone</b>"}
2/1 POST /staff {"office":2,"name":"Ali","role":"teller"}
1/1 POST /offices {"number":3,"parent":2,"name":"Hill"}
""".encode()
)
DONE = [
    "Submitted for client 0002-000001: 1,000.00, 3 instalments, product 1",
    "Approved",
    'Approval undone\nReason: papers "missing"',
    "Approved",
    "Paid out on Jan 31, 2024",
    "Fee by charge 1, due on Apr 30, 2024",
    "Penalty on instalment 1",
    "Repayment of 200.00, paid on Feb 29, 2024, receipt N-1",
    "Repayment of 0.01, paid on Mar 31, 2024\nCollected by Moses",
    "Entry 4 reversed\nReason: a wrong amount",
    "Waived: interest of instalment 2\nReason: hardship",
    "Written off\nReason: <b>gone</b>",
]
BY = ["Zoe (2/2)", "Ruth (2/1)", "Ruth (2/1)", "1/1", "Ruth (2/1)", "Zoe (2/2)", "Zoe (2/2)", "Tom (2/3)", "Tom (2/3)",
      "Ruth (2/1)", "Ruth (2/1)", "Ruth (2/1)"]  # fmt: skip
MANY = loans.LINES + b"".join(b'2/2 POST /clients {"office":2,"name":"Client %d"}\n' % i for i in range(1, 1000))


def numbers(it):
    return [int(row["No."]) for row in it.table("Journal") or []]


@unittest.skipUnless(HAS_JOURNAL, "the program doesn't tell the journal")
class OfALoan(loans.Case):
    def test_each_change_in_words(self):
        with lists.desk_with(LINES, journal=True) as it:
            zoe = self.reader(it, "zoe")
            zoe.go(loans.LOAN)
            rows = zoe.table(WHO)
            self.assertEqual([row["What was done"] for row in rows], DONE)
            self.assertEqual([row["By"] for row in rows], BY)
            self.assertEqual([row["No."] for row in rows], [str(i) for i in range(1, len(DONE) + 1)])
            self.assertEqual((rows[4]["Day"], rows[5]["Day"]), ("Jan 31, 2024", "Mar 31, 2024"))
            self.assertNotIn("Sent", rows[0])  # nothing was told of any
            self.assertEqual(zoe.errors(), [])

    def test_what_the_front_told(self):
        """A change through the front has its time, and no address. One with another remark has that, others nothing."""
        with lists.desk_with(loans.PAID_OUT, journal=True) as it:
            tom = self.reader(it, "tom")
            tom.go(loans.LOAN)
            tom.open_dialog("Enter a repayment")
            tom.fill("Amount", "200.00")
            tom.send("Enter a repayment")
            it.stop_serve()
            line = ' 1/1 POST /loans/0002-000001/repayments {"amount":1,"day":"2024-03-31"}\n'
            told = ("from-the-head", "2026-02-30T25:00:00Z,x")
            running.answer_lines(it.file, "".join(remark + line for remark in told).encode(), "--journal", "--told")
            it.start_serve()
            tom.go(loans.LOAN)
            through, *others = tom.table(WHO)[-3:]
            self.assertRegex(through["Sent"], TIME)
            self.assertTrue(through["What was done"].startswith("Repayment of 200.00, paid on Mar 31, 2024, receipt "))
            self.assertEqual(through["By"], "Tom (2/3)")
            self.assertEqual(tuple(row["Sent"] for row in others), told)
            self.assertEqual(tom.table(WHO)[0]["Sent"], "–")
            tom.picture("changes-sent-1280")
            self.assertNotIn("127.0.0.1", tom.text("main"))

    def test_what_can_not_be_told(self):
        """The rest of the page stays, and it can be tried again."""
        with lists.desk_with(LINES, journal=True) as it:
            zoe = self.reader(it, "zoe")
            zoe.go("clients/2")
            zoe.script(
                "const real = window.fetch; window.fetch = async (url, options) => "
                "(url.includes('/history/') && !window.mended"
                " ? new Response('{\"fault\":\"F20\"}', {status: 503}) : real(url, options));"
            )
            zoe.go(loans.LOAN)
            zoe.wait(lambda: "The desk is out of memory" in zoe.text("main .alert"), "the refusal")
            self.assertEqual(len(zoe.table("Entries")), 6)
            zoe.script("window.mended = true")
            zoe.press("Try again")
            zoe.wait(lambda: len(zoe.table(WHO) or []) == len(DONE), "the changes")

    def test_the_same_in_each_language(self):
        """Nothing is left in English, and nothing lacks words."""
        seen = []
        with lists.desk_with(LINES, journal=True) as it:
            for language, (title, words) in TITLES.items():
                zoe = self.reader(it, "zoe", language=language)
                zoe.go(loans.LOAN)
                done = [row[words] for row in zoe.table(title)]
                self.assertEqual(len(done), len(DONE))
                self.assertFalse(set(done) & set(DONE), language)
                seen.append(tuple(done))
                zoe.go("journal/2")
                self.assertEqual(zoe.errors(), [])
        self.assertEqual(len(set(seen)), 3)

    def test_how_it_looks(self):
        """On a phone, in the dark, to a screen reader, and under a finger, as every page."""
        with lists.desk_with(LINES, journal=True) as it:
            zoe = self.reader(it, "zoe")
            for name, place in (("loan", loans.LOAN), ("journal", "journal/2")):
                for width, scheme in ((360, "light"), (1280, "light"), (1280, "dark")):
                    with self.subTest(place, width=width, scheme=scheme):
                        zoe.widen(width)
                        zoe.wish(scheme)
                        zoe.go(place)
                        zoe.picture(f"changes-{name}-{width}-{scheme}")
                        self.assertTrue(zoe.script(f"return document.documentElement.scrollWidth <= {width}"))
                        self.assertEqual(zoe.script(looks.CONTRAST), [])
                        self.assertEqual(zoe.script(looks.NAMELESS), [])
                        self.assertEqual(zoe.script(looks.SMALL) if width == 360 else [], [])


@unittest.skipUnless(HAS_JOURNAL, "the program doesn't tell the journal")
class OfAnOffice(loans.Case):
    def test_each_kind_and_nothing_of_another(self):
        """The latest first; head office's catalogue and business day are told of none."""
        with lists.desk_with(LINES, journal=True) as it:
            ruth = self.reader(it, "ruth")
            ruth.go("people")
            ruth.press("Journal")
            ruth.wait(lambda: ruth.table("Journal"), "the changes")
            rows = ruth.table("Journal")
            self.assertEqual(rows[0]["What was done"], "Ali entered as Teller")
            self.assertEqual(rows[-1]["What was done"], "Office 2 North opened")
            self.assertEqual(len(rows), 1 + 4 + 1 + len(DONE))
            self.assertEqual([row["What was done"] for row in rows[1 : 1 + len(DONE)]], DONE[::-1])
            self.assertEqual([rows[i]["Loan"] for i in (0, 1)], ["–", "0002-000001"])
            ruth.fill("Office", "3 Hill", within="main")
            ruth.wait(lambda: "Office 3 Hill opened" in ruth.text("main"), "the office below")
            self.assertEqual(len(ruth.table("Journal")), 1)
            ruth.go("journal/1")
            self.assertIn("It is not there, or it is not yours to see.", ruth.text("main"))
            ruth.go("journal/3")
            self.assertEqual(len(ruth.table("Journal")), 1)

    def test_page_by_page(self):
        """Of 1,003 changes the last three, then those before. Whoever was there before asks once."""
        with lists.desk_with(MANY, journal=True) as it:
            zoe = self.reader(it, "zoe")
            zoe.go("journal/2")
            self.assertEqual(numbers(zoe), [1003, 1002, 1001])
            self.assertIn("Changes 1,001 to 1,003", zoe.text(".pager"))
            zoe.press("Earlier")
            zoe.wait(lambda: numbers(zoe) == list(range(1000, 800, -1)), "the page before")
            zoe.press("Later")
            zoe.wait(lambda: numbers(zoe) == [1003, 1002, 1001], "the page after")
            zoe.go("journal/2/0")
            self.assertEqual(numbers(zoe), list(range(200, 0, -1)))
            self.assertIsNone(zoe.find("Earlier"))
            before = len(it.log)
            zoe.press("Latest")
            zoe.wait(lambda: numbers(zoe) == [1003, 1002, 1001], "the last page")
            zoe.settle()
            asked = [line["path"] for line in it.log[before:] if "/lists/journal/" in line["path"]]
            self.assertEqual(asked, ["/api/lists/journal/2/1000"])
            zoe.go("journal/2/1200")
            self.assertIn("The journal tells of no change here.", zoe.text("main"))
            for place in ("-1", "1000000000", "x"):
                zoe.go(f"journal/2/{place}")
                self.assertEqual(numbers(zoe), [1003, 1002, 1001], place)
            zoe.script("sessionStorage.setItem('last-changes-2', 7)")  # lines were moved to an archive since
            zoe.go("journal/2")
            self.assertEqual(numbers(zoe), [1003, 1002, 1001])

    def test_whole_pages(self):
        """Of exactly 400 changes the last 200, though a page that is full may have another behind it."""
        clients = MANY.removeprefix(loans.LINES).splitlines(keepends=True)
        with lists.desk_with(loans.LINES + b"".join(clients[:396]), journal=True) as it:
            zoe = self.reader(it, "zoe")
            zoe.go("journal/2")
            self.assertEqual(numbers(zoe), list(range(400, 200, -1)))

    def test_how_many_requests(self):
        """Beyond what each page asks first: the changes, the staff of an office above, and whoever else is named."""
        with lists.desk_with(LINES, journal=True) as it:
            ruth = self.reader(it, "ruth")
            ruth.settle()
            for place in ("journal/2", "people"):
                before = len(it.log)
                ruth.go(place)
                asked = [line["path"] for line in it.log[before:] if not lists.FIRST.search(line["path"])]
                self.assertLessEqual(len(asked), 3, asked)

    def test_who_may_only_look(self):
        with lists.desk_with(LINES, journal=True) as it:
            it.add_person("auditor", "2/4", None, "--reader")
            self.assertEqual(len(it.send("auditor", "GET", "/api/lists/history/0002-000001")[1]["changes"]), len(DONE))
            self.assertEqual(it.send("auditor", "GET", "/api/lists/journal/2/0")[0], 200)
            self.assertEqual(it.send("auditor", "GET", "/api/lists/journal/1/0")[0], 404)
            self.assertEqual(it.send("auditor", "POST", "/api/lists/journal/2/0")[0], 403)
            auditor = self.reader(it, "auditor")
            auditor.go(loans.LOAN)
            self.assertEqual(len(auditor.table(WHO)), len(DONE))


@unittest.skipUnless(lists.HAS_LISTS, "the program has no lists")
class WithoutJournal(loans.Case):
    def test_nothing_is_shown(self):
        """It is asked once in a session, where lists are there."""
        with lists.desk_with(loans.PAID) as it:
            ruth = self.reader(it, "ruth")
            for place in (loans.LOAN, loans.LOAN, "people", "journal/2"):
                ruth.go(place)
                self.assertIsNone(ruth.table(WHO))
                self.assertEqual(ruth.errors(), [])
            self.assertIn("The institution keeps no journal.", ruth.text("main"))
            ruth.go("people")
            self.assertIsNone(ruth.find("Journal"))
            asked = [line["path"] for line in it.log if "/history/" in line["path"] or "/journal/" in line["path"]]
            self.assertEqual(asked, ["/api/lists/history/0002-000001"])


if __name__ == "__main__":
    unittest.main()
