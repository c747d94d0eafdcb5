"""Rounds of collections and sheets. Forty loans of 1,000.00 at 12 percent a year over three months from 2024-01-31: the
first instalment is 333.33 and 10.00 of interest, the second 333.33 and 6.67."""
import os
import tempfile
import unittest

import desk
import reader
import test_pages_loans as loans
import running

COUNT = 40


def lines_of(count):
    """An office with so many loans, on 2024-03-31."""
    paid_out = (
        b'2/2 POST /clients {"office":2,"name":"Client %d"}\n'
        b'2/2 POST /loans {"client":"0002-%06d","product":1,"principal":100000,"periods":3}\n'
        b'2/1 POST /loans/0002-%06d/approve\n2/1 POST /loans/0002-%06d/disburse {"day":"2024-01-31"}\n'
    )
    made = b"".join(paid_out % (i, i, i, i) for i in range(1, count + 1))
    return loans.LINES + made + b'1/1 PUT /business-day {"day":"2024-03-31"}\n'


FORTY = lines_of(COUNT)
# a slow network, so that something can happen while a round is sent
SLOW = {"offline": False, "latency": 60, "downloadThroughput": -1, "uploadThroughput": -1}


def entered(it):
    """Of each loan, the days and amounts of its entries."""
    return [
        [(one["day"], one["amount"]) for one in it.send("tom", "GET", f"/api/loans/0002-{i:06}/entries")[1]["entries"]]
        for i in range(1, COUNT + 1)
    ]


class Rounds(loans.Case):
    def results(self, tom):
        """How many lines came to what."""
        found = tom.script("return [...document.querySelectorAll('[data-result]')].map((one) => one.dataset.result)")
        return {result: found.count(result) for result in found}

    def whole_round(self, tom, words, wanted):
        """Enters lines of a round that lies more than a week back."""
        tom.open_dialog(words)
        tom.fill("Reason", "the book came late")
        tom.press(words, ".modal.show")
        tom.wait(lambda: self.results(tom) == wanted, f"the results {wanted}")
        tom.settle()

    def test_sent_twice(self):
        """A round is entered, also from a second browser that was open before: each payment once."""
        with loans.desk_with(FORTY) as it:
            tom, zoe = self.reader(it, "tom"), self.reader(it, "zoe")
            for one in (tom, zoe):
                one.go("round/2/2024-02-29")
                self.assertEqual(len(one.table("A round of collections")), COUNT)
                one.press("Fill in what is due")
            self.assertIn("Due 13,733.20 · typed in 13,733.20", tom.text("main"))  # 40 × 343.33
            self.whole_round(tom, "Enter 40 repayments", {"entered": COUNT})
            self.whole_round(zoe, "Enter 40 repayments", {"repeated": COUNT})
            self.assertEqual(entered(it), [[("2024-02-29", 34333)]] * COUNT)
            for one in (tom, zoe):
                one.reload()
                one.wait(lambda one=one: self.results(one) == {"standing": COUNT}, "what was entered already")
                self.assertIn("40 payments of this round are entered: 13,733.20", one.text("main"))
                self.assertEqual(one.errors(), [])

    def test_program_killed_in_the_middle(self):
        """What was entered stays, what was not is sent again with the same receipts, and nothing is entered twice."""
        with loans.desk_with(FORTY) as it:
            tom = self.reader(it, "tom", width=360)
            tom.go("round/2/2024-02-29")
            tom.press("Fill in what is due")
            tom.driver.execute_cdp_cmd("Network.enable", {})
            tom.driver.execute_cdp_cmd("Network.emulateNetworkConditions", SLOW)
            tom.open_dialog("Enter 40 repayments")
            tom.fill("Reason", "the book came late")
            tom.press("Enter 40 repayments", ".modal.show")
            tom.wait(lambda: self.results(tom).get("entered", 0) >= 3, "the first results")
            it.kill_serve()
            tom.wait(lambda: "The connection was lost." in tom.text("main"), "that it was lost")
            before = self.results(tom)
            self.assertEqual(before.get("lost"), 1)
            self.assertLess(before["entered"], COUNT)
            it.start_serve()
            tom.driver.execute_cdp_cmd("Network.emulateNetworkConditions", SLOW | {"latency": 0})
            left = COUNT - before["entered"]
            tom.open_dialog(f"Enter {left} repayments")
            tom.fill("Reason", "the book came late")
            tom.press(f"Enter {left} repayments", ".modal.show")
            tom.wait(
                lambda: sum(self.results(tom).get(one, 0) for one in ("entered", "repeated")) == COUNT, "all results"
            )
            tom.settle()
            self.assertEqual(entered(it), [[("2024-02-29", 34333)]] * COUNT)

    def test_refused_line(self):
        """One line is refused, in words; what is no amount is not sent; the others are entered."""
        with loans.desk_with(FORTY) as it:
            tom = self.reader(it, "tom")
            tom.go("round/2/2024-03-31")
            fields = tom.all(".paid-field")
            for field, text in zip(fields, ("1,000", "20", "1,0", "1.5")):
                field.send_keys(text)
            self.assertIn("is-invalid", fields[2].get_attribute("class"))
            self.assertIn("Type an amount as 1,234.56", tom.text("main"))
            it.send("ruth", "POST", "/api/loans/0002-000002/write-off")
            tom.press("Enter 3 repayments")
            tom.wait_for_dialog("20.00 is more than the 0.00 that is left to pay.")
            tom.press("Enter 3 repayments all the same", ".modal.show")
            tom.wait(lambda: self.results(tom) == {"entered": 2, "F11": 1}, "the results")
            self.assertIn(
                "F11: The loan is written off or refunded. A manager can reverse that entry first.", tom.text("main")
            )
            self.assertEqual(
                entered(it)[0:4], [[("2024-03-31", 100000)], [("2024-03-31", 102000)], [], [("2024-03-31", 150)]]
            )

    def test_a_further_payment(self):
        """A second payment of the day, of the same loan, gets a receipt of its own."""
        with loans.desk_with(FORTY) as it:
            tom = self.reader(it, "tom")
            tom.go("round/2/2024-03-31")
            tom.all(".paid-field")[0].send_keys("10")
            tom.press("Enter 1 repayment")
            tom.wait(lambda: self.results(tom) == {"entered": 1}, "the result")
            self.assertIsNotNone(tom.all(".paid-field")[0].get_attribute("readonly"))
            tom.press("Further payment")
            tom.all(".paid-field")[0].send_keys("20")
            tom.press("Enter 1 repayment")
            tom.wait(lambda: self.results(tom) == {"entered": 2}, "the results")
            told = it.send("tom", "GET", "/api/loans/0002-000001/entries")[1]["entries"]
            self.assertEqual(
                [(one["amount"], one["receipt"]) for one in told],
                [(1000, "2-20240331-000001"), (2000, "2-20240331-000001-2")],
            )

    def test_early(self):
        """A round of a day to come can be looked at, and not entered."""
        with loans.desk_with(FORTY) as it:
            tom = self.reader(it, "tom")
            tom.go("round/2/2024-04-30")
            self.assertIn("entered once its day has come", tom.text("main"))
            self.assertFalse(tom.all("main .round-enter")[0].is_enabled())


class Sheets(loans.Case):
    def download(self, tom, folder, name):
        path = os.path.join(folder, name)
        tom.wait(lambda: os.path.exists(path), name)
        with open(path, "rb") as file:
            return file.read()

    def test_sheet_from_disk(self):
        """The evening's sheet of the examples, with its results; sent again nothing is entered twice."""
        with open(os.path.join(running.TOP, "examples", "evening-lines.txt"), "rb") as file:
            lines = file.read()
        with open(os.path.join(running.TOP, "examples", "evening-results.csv"), "rb") as file:
            results = file.read()
        it = desk.Desk(lines=lines, people={"head": "1/1"})
        self.addCleanup(it.end)
        head = self.reader(it, "head")
        with tempfile.TemporaryDirectory() as folder:
            head.driver.execute_cdp_cmd("Browser.setDownloadBehavior", {"behavior": "allow", "downloadPath": folder})
            head.go("round/1/2024-02-29")
            head.all("input[type=file]")[0].send_keys(os.path.join(running.TOP, "examples", "evening-sheet.csv"))
            head.wait(lambda: "3 lines, 3 of them can be sent" in head.text("main"), "the sheet")
            head.open_dialog("Enter 3 repayments")
            head.fill("Reason", "the evening's sheet")
            head.send("Enter 3 repayments")
            head.wait(lambda: "2 entered · 1 refused" in head.text("main"), "the results")
            self.assertIn("F4: It is not there, or it is not yours to see. Check the number.", head.text("main"))
            head.press("Save the results")
            self.assertEqual(self.download(head, folder, "evening-sheet-results.csv"), results)
            head.open_dialog("Send 3 again")
            head.fill("Reason", "the evening's sheet")
            head.send("Enter 3 repayments")
            head.wait(lambda: "2 repeated · 1 refused" in head.text("main"), "the results")
            told = it.send("head", "GET", "/api/loans/0001-000001/entries")[1]["entries"]
            self.assertEqual([(one["receipt"], one["amount"]) for one in told], [("R-1", 20000), ("R-2", 50000)])

    def test_lines_of_a_sheet_are_asked_again(self):
        """Above what is owed, and the same sum on the same day; a loan that isn't there is refused as it is sent."""
        with open(os.path.join(running.TOP, "examples", "evening-lines.txt"), "rb") as file:
            it = desk.Desk(lines=file.read(), people={"head": "1/1"})
        self.addCleanup(it.end)
        head = self.reader(it, "head")
        loan, day = "0001-000001", it.send("head", "GET", "/api/business-day")[1]["day"]
        paid = {"amount": 3000, "day": day, "receipt": "B-1"}
        self.assertEqual(it.send("head", "POST", f"/api/loans/{loan}/repayments", paid)[0], 201)
        lines = f"B-1,{loan},{day},30\nB-2,{loan},{day},30\nB-3,{loan},{day},99999\nB-4,0001-000077,{day},5\n"
        with tempfile.TemporaryDirectory() as folder:
            path = os.path.join(folder, "sheet.csv")
            with open(path, "w", encoding="utf-8") as file:
                file.write(lines)
            head.go("round/1")
            head.all("input[type=file]")[0].send_keys(path)
            head.open_dialog("Enter 4 repayments")
            asked = head.text(".modal.show")
            self.assertIn("2 lines are asked once more", asked)
            for words in (f"B-2 · {loan} · 30.00", "is entered on this loan already", f"B-3 · {loan} · 99,999.00"):
                self.assertIn(words, asked)
            head.cancel()
            told = it.send("head", "GET", f"/api/loans/{loan}/entries")[1]["entries"]
            self.assertEqual([one["receipt"] for one in told], ["B-1"])
            head.open_dialog("Enter 4 repayments")
            head.send("Enter 4 repayments all the same")
            head.wait(lambda: "2 entered · 1 repeated · 1 refused" in head.text("main"), "the results")

    def test_bad_lines(self):
        """Lines that are no repayments are refused by F1 and not sent."""
        bad = (
            "a,b",
            "R 1,0001-000001,2024-02-29,5",
            "R-1,0001-000000,2024-02-29,5",
            "R-1,0001-000001,2024-02-30,5",
            "R-1,0001-000001,2024-02-29,0",
            "R-1,0001-000001,2024-02-29,1.234",
            'R-1,0001-000001,2024-02-29,"1,000"',
            "R-1,0001-000001,2024-02-29,10000000000.01",
            "R-1,0001-000001,2024-02-29,5,",
            "é,0001-000001,2024-02-29,5",
            "R" * 41 + ",0001-000001,2024-02-29,5",
            "R-1,0001-000001,1999-12-31,5",
        )
        good = (
            "R-1,0001-000001,2024-02-29,10000000000",
            " R-2 ,\t0001-000001,2024-02-29 ,007.05",
            '"R-3",0001-000001,2024-02-29,1.5',
        )
        it = desk.Desk(lines=b"", people={"head": "1/1"})
        self.addCleanup(it.end)
        head = self.reader(it, "head")
        text = "\ufeffReceipt , LOAN,date,Amount\r\n" + "\r\n".join(bad + good) + "\r\n\r\n"
        read = head.module(
            "const { loadLibrary } = await load('shared/api.js'); await loadLibrary('/lib/dsv/d3-dsv.min.js');"
            "const { readSheet } = await load('views/round-sheet.js');"
            f"return readSheet({text!r}).map((line) => [line.result, line.isGood ? Number(line.cents) : null])"
        )
        self.assertEqual(read, [["F1", None]] * len(bad) + [[None, 1000000000000], [None, 705], [None, 150]])

    def test_whole_or_not(self):
        """A sheet that may be cut, or whose total is wrong, is not taken; a receipt that is a formula is refused."""
        it = desk.Desk(lines=b"", people={"head": "1/1"})
        self.addCleanup(it.end)
        head = self.reader(it, "head")
        lines = "R-1,0001-000001,2024-02-29,5\nR-2,0001-000001,2024-02-29,1234.50\n"
        texts = [
            lines, lines[:-5], lines[:-1], lines + "total,2,,1239.50", lines + "total,2,,1239.49", lines + "total,1,,1239.50",
            lines + '"R-3', "=1,0001-000001,2024-02-29,5\n"
        ]
        read = head.module(
            "const { loadLibrary } = await load('shared/api.js'); await loadLibrary('/lib/dsv/d3-dsv.min.js');"
            "const { readWholeSheet } = await load('views/round-sheet.js');"
            f"return {texts!r}.map(readWholeSheet).map((read) => read.problem ?? read.lines.map((line) => line.result))"
        )
        cut, wrong = "The sheet ends in the middle of a line", "The sheet has 2 lines, of 1,239.50 in all"
        self.assertEqual(read[0], [None, None])
        self.assertTrue(read[1].startswith(cut) and read[2].startswith(cut) and read[6].startswith(cut), read)
        self.assertEqual(read[3], [None, None])
        self.assertTrue(read[4].startswith(wrong) and read[5].startswith(wrong), read)
        self.assertEqual(read[7], ["formula"])

    def test_saved_sheet(self):
        """A round that is saved is a sheet of what is due."""
        with loans.desk_with(FORTY) as it, tempfile.TemporaryDirectory() as folder:
            tom = self.reader(it, "tom")
            tom.driver.execute_cdp_cmd("Browser.setDownloadBehavior", {"behavior": "allow", "downloadPath": folder})
            tom.go("round/2/2024-02-29")
            tom.press("Save as a sheet")
            wanted = "receipt,loan,date,amount\n" + "".join(
                f"2-20240229-{i:06},0002-{i:06},2024-02-29,343.33\n" for i in range(1, COUNT + 1)
            )
            self.assertEqual(self.download(tom, folder, "sheet-2-2024-02-29.csv").decode(), wanted)


class Many(loans.Case):
    def test_a_hundred_loans(self):
        """A page of 100 loans, by at most four requests at once."""
        lines = loans.LINES + b"".join(
            b'2/2 POST /clients {"office":2,"name":"Client %d"}\n'
            b'2/2 POST /loans {"client":"0002-%06d","product":1,"principal":100000,"periods":3}\n' % (i, i)
            for i in range(1, 121)
        )
        with loans.desk_with(lines) as it:
            zoe = self.reader(it, "zoe")
            zoe.settle()
            zoe.script(
                "window.most = 0; window.now = 0; const real = window.fetch; window.fetch = async (...words) => { "
                "window.most = Math.max(window.most, ++window.now);"
                "try { return await real(...words); } finally { window.now--; } }"
            )
            took = zoe.module(
                "const from = performance.now(); location.hash = '#/loans/2/all';"
                "while (!document.querySelector('.pager')) await new Promise((go) => setTimeout(go, 5));"
                "return performance.now() - from"
            )
            self.assertEqual(len(zoe.table("Loans")), 100)
            self.assertIn("1 to 100 of 120", zoe.text("main"))
            self.assertEqual(zoe.script("return window.most"), 4)
            print(f"    100 loans in {took:.0f} ms", end=" ")
            self.assertLess(took, 5000, "a page of 100 loans")  # within a second on a machine that does nothing else
            zoe.press("Next")
            zoe.wait(lambda: "101 to 120 of 120" in zoe.text("main"), "the next page")
            self.assertEqual(zoe.errors(), [])


if __name__ == "__main__":
    unittest.main()
