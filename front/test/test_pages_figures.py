"""Words and figures: what is overdue, handed over, told by the institution of itself, and printed."""
import base64
import json
import os
import re
import subprocess
import unittest

import reader
import test_pages_loans as loans
import test_pages_rounds as rounds

# a charge at disbursement of 2.5 percent of the amount, a flat one, and one of the interest, each with its product
CHARGED = loans.LINES + b"".join(
    b'1/1 POST /charges {"name":"%s","kind":"disbursement","calc":"%s","value":%d}\n' % charge
    + loans.PRODUCT.replace(b'"overdue_charge":2', b'"disbursement_charge":%d' % number)
    + b'2/2 POST /clients {"office":2,"name":"Amina"}\n'
    + b'2/2 POST /loans {"client":"0002-00000%d","product":%d,' % (number - 2, number - 1)
    + b'"principal":100020,"periods":3}\n'
    + b"2/1 POST /loans/0002-00000%d/approve\n" % (number - 2)
    for number, charge in enumerate(
        ((b"Papers", b"percent-of-amount", 250), (b"Visit", b"flat", 1200), (b"Risk", b"percent-of-interest", 500)), 3
    )
)


def tell(it, **members):
    """What the institution tells of itself, from the next load of the pages on."""
    with open(os.path.join(it.nginx.people, "institution.json"), "w", encoding="utf-8") as file:
        json.dump(members, file)


def printed(who):
    """The text of each page on paper."""
    data = base64.b64decode(who.driver.execute_cdp_cmd("Page.printToPDF", {"preferCSSPageSize": True})["data"])
    done = subprocess.run(["pdftotext", "-layout", "-", "-"], input=data, capture_output=True, check=True)
    return done.stdout.decode().split("\f")[:-1]


class Overdue(loans.Case):
    def test_principal_overdue(self):
        """On Mar 31 the instalment of Feb 29 is overdue: 333.33 of principal and 10.00 of interest, of 1,000.00."""
        with loans.desk_with(loans.PAID_OUT) as it:
            ruth = self.reader(it, "ruth")
            ruth.go("arrears/2")
            self.assertEqual(
                ruth.table("Overdue loans"),
                [
                    {
                        "Loan": "0002-000001",
                        "Client": "Amina",
                        "Overdue since": "Feb 29, 2024",
                        "Days overdue": "31",
                        "Principal overdue": "333.33",
                        "Overdue in all": "343.33",
                        **({"Left to pay": "1,020.00"} if loans.HAS_LISTS else {"Outstanding principal": "1,000.00"}),
                    }
                ],
            )
            ruth.go(loans.LOAN)
            self.assertIn("343.33 in arrears · Principal overdue 333.33", ruth.text(".alert"))
            self.assertEqual(ruth.figures()["Left to pay"], "1,020.00")
            ruth.go("today")
            figures = ruth.figures()
            self.assertEqual(figures["Principal of overdue loans"], "1,000.00")
            self.assertNotIn("Principal overdue", ruth.text("main"))
            self.assertEqual(figures["PAR 30 (over 30 days)"], "100.00%")


class PayOut(loans.Case):
    def test_what_is_kept_and_handed_over(self):
        """2.5 percent of 1,000.20 are 25.005, which is 25.00, rounded to the even cent."""
        with loans.desk_with(CHARGED) as it:
            ruth = self.reader(it, "ruth")
            told = {
                1: ("25.00 is kept as the fee Papers, and 975.20 is handed over.", 2500),
                2: ("12.00 is kept as the fee Visit, and 988.20 is handed over.", 1200),
                3: ("What it comes to, and what is handed over, is told once the loan is paid out.", 100),
            }
            for number, (words, fee) in told.items():
                with self.subTest(number):
                    ruth.go(f"loan/0002-00000{number}")
                    ruth.open_dialog("Pay out")
                    kept, handed = f"{fee / 100:.2f}", f"{1000.20 - fee / 100:.2f}"
                    if loans.HAS_LISTS:
                        shown = lambda: ruth.text(".modal .preview").replace("\n", " ")  # noqa: E731
                        figures = f"Handed over {handed} Kept as a fee {kept} "
                        ruth.wait(lambda: figures in shown(), figures)  # noqa: B023
                    else:
                        self.assertIn(words, ruth.text(".modal"))
                    ruth.send("Pay out")
                    loan = it.send("ruth", "GET", f"/api/loans/0002-00000{number}")[1]
                    # of 20.00 of interest (10.00, 6.67 and 3.33) five percent are 1.00
                    self.assertEqual(loan["disbursement_fee"], fee)
                    self.assertIn(f"{kept} is kept as a fee, and {handed} is handed over.", ruth.note())


class Institution(loans.Case):
    def test_name_on_each_page(self):
        with loans.desk_with(loans.PAID) as it:
            tell(it, name="Umoja Savings")
            ruth = self.reader(it, "ruth")
            ruth.go("arrears")
            ruth.reload()
            self.assertEqual(ruth.text(".navbar-brand"), "Umoja Savings")
            self.assertEqual(ruth.driver.title, "Arrears on Mar 31, 2024 · Umoja Savings")
            for place in ("arrears", "statement/0002-000001", loans.LOAN):
                with self.subTest(place):
                    ruth.go(place)
                    pages = printed(ruth)
                    self.assertIn("Umoja Savings", pages[0].split("\n")[0])
                    for number, text in enumerate(pages, 1):
                        self.assertRegex(text, rf"Umoja Savings · [^\n]+ {number} ?/ ?{len(pages)}")
            self.assertEqual(ruth.errors(), [])

    def test_coin_and_least(self):
        """683.33 are proposed as 685.00 where the coin is 5.00, and what is due below the least is left out."""
        with loans.desk_with(rounds.FORTY) as it:
            tell(it, coin=500, least_due=1000)
            it.send(
                "tom", "POST", "/api/loans/0002-000001/repayments", {"amount": 68000, "day": "2024-03-31"}
            )  # 3.33 are due then
            it.send("tom", "POST", "/api/loans/0002-000002/repayments", {"amount": 33500, "day": "2024-03-31"})
            tom = self.reader(it, "tom")
            tom.go("round/2")
            self.assertEqual(len(tom.all("tbody tr")), rounds.COUNT - 1)
            self.assertIn("1 loan with too little due to be asked for is left out.", tom.text("main"))
            tom.press("Fill in what is due")
            values = tom.script("return [...document.querySelectorAll('.paid-field')].map((one) => one.value)")
            self.assertEqual(values, ["350.00"] + ["685.00"] * (rounds.COUNT - 2))  # of 348.33 and 683.33
            tom.open_dialog("Throw away")
            tom.send("Throw away")
            tom.go("loan/0002-000003")
            tom.open_dialog("Enter a repayment")
            self.assertEqual(tom.field("Amount").get_attribute("value"), "685.00")
            tom.cancel()
            it.send("tom", "POST", "/api/loans/0002-000003/repayments", {"amount": 101900, "day": "2024-03-31"})
            tom.reload()
            tom.open_dialog("Enter a repayment")
            self.assertEqual(tom.field("Amount").get_attribute("value"), "1.00", "not above what is left to pay")
            tom.cancel()

    def test_a_file_that_is_none(self):
        """Members that are no name and no amounts are as if they weren't there."""
        with loans.desk_with(loans.PAID_OUT) as it:
            tell(it, name=7, coin=-5, least_due="much")
            tom = self.reader(it, "tom")
            tom.go(loans.LOAN)
            self.assertEqual(tom.text(".navbar-brand"), "microloan")
            tom.open_dialog("Enter a repayment")
            self.assertEqual(tom.field("Amount").get_attribute("value"), "683.33")
            tom.cancel()


class Paper(loans.Case):
    def test_statement_has_a_running_balance(self):
        """Of 1,020.00 in all 200.00 and 500.00 are paid, and a fee of 5.00 is added after them."""
        lines = loans.PAID + b'2/2 POST /loans/0002-000001/fees {"charge":1,"due":"2024-04-01"}\n'
        with loans.desk_with(lines) as it:
            ruth = self.reader(it, "ruth")
            ruth.go("statement/0002-000001")
            self.assertEqual(
                [(row["Kind"], row["Amount"], row["Left to pay"]) for row in ruth.table("Entries")],
                [
                    ("Pay-out", "1,000.00", "1,020.00"),
                    ("Repayment", "200.00", "820.00"),
                    ("Repayment", "500.00", "320.00"),
                    ("Fee", "5.00", "325.00"),
                ],
            )
            text = " ".join(printed(ruth))
            self.assertIsNotNone(re.search(r"Statement of loan 0002-000001\s+1 ?/ ?\d", text))

    def test_number_finds_its_client(self):
        """The number as it is shown and printed, whole or in part, and of another office that one sees."""
        lines = loans.PAID_OUT + b'1/1 POST /clients {"office":1,"name":"Kofi"}\n'
        with loans.desk_with(lines) as it:
            head = self.reader(it, "head")
            for office, typed, name in (
                (2, "0002-000001", "Amina"),
                (2, "0002-00", "Amina"),
                (2, "0001-000001", "Kofi"),
                (1, "0002-000001", "Amina"),
            ):
                with self.subTest(typed, office=office):
                    head.go(f"clients/{office}")
                    head.field("Find by name or number", "main").send_keys(typed)
                    head.wait(lambda name=name: name in head.text("tbody"), name)
                    self.assertEqual(len(head.all("tbody tr")), 1)
            head.go("clients/2")
            head.field("Find by name or number", "main").send_keys("0002-000002")
            head.wait(lambda: "No client has such a name or number." in head.text("main"), "that there is none")
            self.assertEqual(head.errors(), [])


if __name__ == "__main__":
    unittest.main()
