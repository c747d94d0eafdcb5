"""Cash: what was paid in and paid out at an office on a business day, by person, what each counted, and the sheet of it. And
the page where the institution keeps no journal, or the program doesn't tell the takings."""
import os
import tempfile
import unittest

import running
import test_pages_lists as lists
import test_pages_loans as loans
from selenium.webdriver.common.by import By


def tells_takings():
    """Whether the program tells the takings: one that has lists may be older than that."""
    with tempfile.TemporaryDirectory() as folder:
        asked = b"1/1 GET /lists/takings/1/2024-01-01\n"
        told = running.answer_lines(os.path.join(folder, "desk.db"), asked, "--lists", "--journal")
    return told.startswith(b"200 ")


HAS_TAKINGS = lists.HAS_LISTS and tells_takings()
TITLES = {"fr": "Caisse", "es": "Caja", "sw": "Fedha taslimu"}
# on 2024-03-31 the teller takes 200.00 and 500.00, the manager pays 1,000.00 out and reverses the 200.00; the day after
# the teller takes 1.00
LINES = (
    loans.PAID
    + """2/2 POST /loans {"client":"0002-000001","product":1,"principal":100000,"periods":3}
2/1 POST /loans/0002-000002/approve
2/1 POST /loans/0002-000002/disburse {"day":"2024-03-31"}
2/1 POST /loans/0002-000001/entries/1/reverse
1/1 PUT /business-day {"day":"2024-04-01"}
2/3 POST /loans/0002-000001/repayments {"amount":100,"day":"2024-04-01"}
""".encode()
)
DAY = "takings/2/2024-03-31"
SHEET = "Cash of Mar 31, 2024"


def line_of(it, person, sheet=SHEET):
    return {row["Person"]: row for row in it.table(sheet)}[person]


def count(it, words, text):
    """Types into the field of a coin or note, or of an amount."""
    line = next(one for one in it.all(".cash-line") if one.text.strip() == words)
    field = line.find_element(By.TAG_NAME, "input")
    field.clear()
    field.send_keys(text)


@unittest.skipUnless(HAS_TAKINGS, "the program doesn't tell the takings")
class Takings(loans.Case):
    def test_the_day_by_person(self):
        with lists.desk_with(LINES, journal=True) as it:
            tom = self.reader(it, "tom")
            tom.settle()
            before = len(it.log)
            tom.go(DAY)
            tom.wait(lambda: len(tom.table(SHEET) or []) == 2, "the sheet")
            tom.settle()
            asked = [one["path"] for one in it.log[before:] if not lists.FIRST.search(one["path"])]
            self.assertLessEqual(len(asked), 3, asked)
            taken = line_of(tom, "Tom (2/3)")
            self.assertEqual((taken["Paid in"], taken["Paid out"], taken["Reversed"]), ("700.00 (2)", "–", "–"))
            self.assertEqual((taken["Expected"], taken["Counted"]), ("700.00", "–"))
            paid = line_of(tom, "Ruth (2/1)")
            self.assertEqual((paid["Paid out"], paid["Reversed"]), ("1,000.00 (1)", "-200.00 (1)"))
            self.assertEqual(paid["Expected"], "-1,200.00")
            sums = tom.script("return [...document.querySelector('tfoot tr').cells].map((cell) => cell.innerText.trim())")
            self.assertEqual(sums[1:7], ["0.00", "700.00 (2)", "1,000.00 (1)", "-200.00 (1)", "-500.00", "–"])
            tom.picture("cash-1280")
            tom.widen(360)
            tom.picture("cash-360")
            self.assertEqual(tom.errors(), [])

    def test_what_is_counted(self):
        """By coin and note, beside what was there at the start; it is there again where one comes back."""
        with lists.desk_with(LINES, journal=True) as it:
            tom = self.reader(it, "tom")
            tom.go(DAY)
            tom.wait(lambda: len(tom.table(SHEET) or []) == 2, "the sheet")
            count(tom, "At the start", "50.00")
            count(tom, "200.00", "3")
            tom.wait(lambda: line_of(tom, "Tom (2/3)")["Difference"] == "150.00 too little", "what is missing")
            count(tom, "50.00", "3")
            tom.wait(lambda: line_of(tom, "Tom (2/3)")["Difference"] == "0.00: it agrees", "that it agrees")
            self.assertEqual(line_of(tom, "Tom (2/3)")["Counted"], "750.00")
            count(tom, "Other, as an amount", "x")
            tom.wait(lambda: line_of(tom, "Tom (2/3)")["Counted"] == "–", "that it can't be read")
            count(tom, "Other, as an amount", "0.50")
            tom.wait(lambda: line_of(tom, "Tom (2/3)")["Difference"] == "0.50 too much", "what is too much")
            tom.go("clients/2")
            tom.go(DAY)
            tom.wait(lambda: len(tom.table(SHEET) or []) == 2, "the sheet again")
            self.assertEqual(line_of(tom, "Tom (2/3)")["Difference"], "0.50 too much")
            self.assertEqual(len(tom.all(".sign > div")), 2)
            self.assertEqual(tom.errors(), [])

    def test_other_days(self):
        with lists.desk_with(LINES, journal=True) as it:
            tom = self.reader(it, "tom")
            tom.go("takings")
            tom.wait(lambda: len(tom.table("Cash of Apr 1, 2024") or []) == 1, "the business day")
            tom.go("takings/2/2024-02-01")
            tom.wait(lambda: "The journal tells of nothing paid in or out on Feb 1, 2024." in tom.text("main"), "that nobody did")
            tom.go("takings/1/2024-03-31")
            tom.wait(lambda: "It is not there, or it is not yours to see." in tom.text("main"), "the refusal")

    def test_the_same_in_each_language(self):
        with lists.desk_with(LINES, journal=True) as it:
            for language, title in TITLES.items():
                tom = self.reader(it, "tom", language=language)
                tom.go(DAY)
                tom.wait(lambda: tom.title() == title, "the title")
                tom.settle()
                self.assertEqual(tom.errors(), [])

    def test_without_a_journal(self):
        with lists.desk_with(LINES) as it:
            tom = self.reader(it, "tom")
            tom.go(DAY)
            tom.wait(lambda: "The institution keeps no journal." in tom.text("main"), "that there is none")
