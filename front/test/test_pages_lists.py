"""Pages by the lists of the desk: how many requests each sends, what is found, who is who, and what a loan would be. And
the same pages over a program without lists. The figures of a preview are those of crates/mf_lists: 1,000.00 over three
months at 12 percent, 1.5 percent kept and half a percent with each instalment."""
import contextlib
import os
import re
import unittest

import desk
import reader
import test_pages_loans as loans
import test_pages_rounds as rounds
import running
from selenium.webdriver.common.keys import Keys

HAS_LISTS = running.has_lists()
PRODUCT = (
    b'1/1 POST /charges {"name":"Kept","kind":"disbursement","calc":"percent-of-amount","value":150}\n'
    b'1/1 POST /charges {"name":"Service","kind":"instalment","calc":"percent-of-amount-and-interest","value":50}\n'
    b'1/1 POST /products {"name":"Trade","method":"declining-equal-principal","rate":1200,"frequency":"months","every":1,'
    b'"principal_grace":0,"interest_grace":0,"min_principal":10000,"max_principal":500000,"min_periods":3,"max_periods":24,'
    b'"strategy":"mifos-standard-strategy","disbursement_charge":3,"instalment_charge":4}\n'
)
# in office 2 a client with a loan that is paid out and one that waits; in office 3, below it, two clients
WAITING = (
    loans.LINES
    + PRODUCT
    + """1/1 POST /offices {"number":3,"parent":2,"name":"Hill"}
2/1 POST /clients {"office":3,"name":"Élodie Kaboré"}
2/1 POST /clients {"office":3,"name":"Straße Müller"}
2/2 POST /clients {"office":2,"name":"Amina Diallo"}
2/2 POST /loans {"client":"0002-000001","product":2,"principal":100000,"periods":3}
2/1 POST /loans/0002-000001/approve
2/1 POST /loans/0002-000001/disburse {"day":"2024-01-31"}
1/1 PUT /business-day {"day":"2024-03-31"}
2/3 POST /loans/0002-000001/repayments {"amount":20000,"day":"2024-03-31","receipt":"N-1"}
2/2 POST /loans {"client":"0002-000001","product":2,"principal":100000,"periods":3}
""".encode()
)
MANY = loans.LINES + b"".join(b'2/2 POST /clients {"office":2,"name":"Client %d"}\n' % i for i in range(1, 511))
ROUND = "round/2/2024-03-31"
FIGURES = {
    "Handed over": "985.00",
    "Kept as a fee": "15.00",
    "To pay back in all": "1,025.10",
    "Effective yearly rate, with all charges": "27.86%",
}
# not counted: the business day and who one is, which each page asks first; a first page of a session asks for more
FIRST = re.compile(r"/(me|institution\.json|api/business-day|api/offices|api/lists/staff/2)$")


@contextlib.contextmanager
def desk_with(lines, **options):
    it = desk.Desk(lines=lines, people=loans.PEOPLE, **options)
    try:
        assert all(reply.startswith("20") for reply in it.replies), it.replies
        yield it
    finally:
        it.end()


def facts(it, within="main"):
    """The figures that stand below each other."""
    return dict(
        it.script(
            "return [...document.querySelectorAll(arguments[0] + ' .fact')].map((one) => "
            "[one.querySelector('dt').innerText, one.querySelector('dd').innerText])",
            within,
        )
    )


def is_shown(it, within):
    shown = facts(it, within)
    return all(shown.get(words) == value for words, value in FIGURES.items())


@unittest.skipUnless(HAS_LISTS, "the program has no lists")
class Requests(loans.Case):
    def test_each_page_sends_three_at_most(self):
        """Beyond the business day, who one is and the offices; over forty loans of which something is due."""
        with desk_with(rounds.FORTY) as it:
            ruth = self.reader(it, "ruth")
            ruth.settle()
            for place in ("clients/2", "client/0002-000001", ROUND, "arrears/2", "loans/2/100", "loans/2/300", "people"):
                with self.subTest(place):
                    before = len(it.log)
                    ruth.go(place)
                    ruth.settle()
                    asked = [line["path"] for line in it.log[before:] if not FIRST.search(line["path"])]
                    self.assertLessEqual(len(asked), 3 if place != ROUND else 6, asked)
                    self.assertEqual(ruth.errors(), [])

    def test_the_round_asks_for_no_single_loan(self):
        with desk_with(rounds.FORTY) as it:
            tom = self.reader(it, "tom")
            before = len(it.log)
            tom.go(ROUND)
            tom.settle()
            self.assertEqual(len(tom.table("A round of collections")), rounds.COUNT)
            single = [line["path"] for line in it.log[before:] if line["path"].startswith("/api/loans/")]
            self.assertEqual(single, [])


@unittest.skipUnless(HAS_LISTS, "the program has no lists")
class Clients(loans.Case):
    def test_five_hundred_at_a_time(self):
        with desk_with(MANY) as it:
            zoe = self.reader(it, "zoe")
            zoe.go("clients/2")
            self.assertEqual(len(zoe.table("Clients")), 500)
            self.assertIn("Clients 1 to 500", zoe.text(".pager"))
            zoe.press("Next")
            zoe.wait(lambda: len(zoe.table("Clients") or []) == 10, "the second page")
            self.assertEqual([zoe.table("Clients")[i]["Client"] for i in (0, 9)], ["Client 501", "Client 510"])
            zoe.fill("Find by name or number", "client 49", within="main")
            zoe.wait(lambda: len(zoe.table("Clients") or []) == 11, "what is found")  # 49 and 490 to 499
            self.assertIn("11 found", zoe.text("main"))
            zoe.fill("Find by name or number", "0002-000123", within="main")
            zoe.wait(lambda: [row["Client"] for row in zoe.table("Clients") or []] == ["Client 123"], "the client")
            zoe.fill("Find by name or number", "nobody", within="main")
            zoe.wait(lambda: "No client has such a name or number." in zoe.text("main"), "nobody")
            self.assertEqual(zoe.errors(), [])

    def test_a_new_client_whose_reply_is_lost(self):
        """It is found again among those with a higher number than all before, and entered once."""
        with desk_with(MANY) as it:
            zoe = self.reader(it, "zoe")
            zoe.go("clients/2")
            zoe.open_dialog("New client")
            zoe.fill("Name", "Client 7")
            zoe.script(
                "const real = window.fetch; window.fetch = async (url, options) => { const reply = await real(url, options);"
                "if (options.method === 'POST' && url.endsWith('/clients')) { window.fetch = real; throw new TypeError('lost'); }"
                "return reply; };"
            )
            zoe.send("Enter the client")
            self.assertIn("0002-000511", zoe.note())
            self.assertEqual(it.send("head", "GET", "/api/clients/0002-000512")[0], 404)

    def test_counts_and_loans(self):
        with desk_with(WAITING) as it:
            zoe = self.reader(it, "zoe")
            zoe.go("clients/2")
            row = zoe.table("Clients")[0]
            counts = ("Loans that wait", "Active loans", "Overdue loans")
            self.assertEqual([row[name] for name in counts], ["1", "1", "1"])
            zoe.press("Amina Diallo")
            zoe.wait(lambda: zoe.table("Loans of this client"), "the loans")
            waiting, active = zoe.table("Loans of this client")
            self.assertEqual((waiting["Status"], waiting["Left to pay"]), ("Waits for approval", "0.00"))
            self.assertEqual(active["Status"], "Active 31 days overdue")
            self.assertEqual(active["Left to pay"], "825.10")


@unittest.skipUnless(HAS_LISTS, "the program has no lists")
class Finding(loans.Case):
    def find(self, it, words):
        it.settle()
        box = it.driver.find_element("id", "find-all")
        box.clear()
        box.send_keys(words)
        it.wait(lambda: not it.all("[data-asking]") and it.all("#find-list:not([hidden])"), "what is found")
        return box

    def found(self, it, words, wanted):
        box = self.find(it, words)
        shown = lambda: [one.text for one in it.all(".find-result .find-name")]  # noqa: E731
        it.wait(lambda: shown() == wanted, f"{wanted}")
        return box

    def test_over_all_offices_without_accents(self):
        with desk_with(WAITING) as it:
            ruth = self.reader(it, "ruth")
            for place in ("today", "catalogue", "people"):
                ruth.go(place)
                self.found(ruth, "elod", ["Élodie Kaboré"])
                self.assertIn("Hill", ruth.text(".find-more"))
            self.found(ruth, "STRASSE", ["Straße Müller"])
            self.found(ruth, "diallo amina", ["Amina Diallo"])
            box = self.found(ruth, "amin", ["Amina Diallo"])
            self.assertIn("1 overdue loan", ruth.text(".find-more"))
            box.send_keys(Keys.ENTER)
            ruth.wait(lambda: ruth.title() == "Amina Diallo", "the client")
            self.assertEqual(ruth.all("#find-list:not([hidden])"), [])

    def test_by_number_of_client_and_loan(self):
        with desk_with(WAITING) as it:
            ruth = self.reader(it, "ruth")
            self.found(ruth, "0002-000002", ["Amina Diallo", "Amina Diallo"])  # who has the loan, and the loan
            ruth.all(".find-result")[1].click()
            ruth.wait(lambda: ruth.title() == "Loan 0002-000002", "the loan")
            self.find(ruth, "0001-000001")
            ruth.wait(lambda: "No client has such" in ruth.text("#find-list"), "nothing of an office above")
            ruth.driver.find_element("id", "find-all").send_keys(Keys.ESCAPE)
            self.assertEqual(ruth.all("#find-list:not([hidden])"), [])

    def test_a_phone_and_who_may_only_look(self):
        with desk_with(WAITING) as it:
            it.send("head", "POST", "/api/staff", {"office": 2, "name": "Ann", "role": "manager"})
            it.add_person("auditor", "2/4", None, "--reader")
            self.assertEqual(it.send("auditor", "POST", "/api/lists/find", {"office": 3, "part": "müll"})[0], 200)
            self.assertEqual(it.send("auditor", "POST", "/api/clients", {"office": 3, "name": "No"})[0], 403)
            auditor = self.reader(it, "auditor", width=360, height=740)
            self.found(auditor, "müll", ["Straße Müller"])
            if os.environ.get("MICROLOAN_SHOTS"):
                desk.screenshot(auditor.driver, "find-360")
            fits = "return document.documentElement.scrollWidth <= 360"
            self.assertTrue(auditor.script(fits))
            self.assertGreaterEqual(auditor.all(".find-result")[0].size["height"], 44)


@unittest.skipUnless(HAS_LISTS, "the program has no lists")
class Previews(loans.Case):
    def test_before_anybody_agrees(self):
        """Who submits, who approves and who pays out see what the loan would be: the same figures."""
        with desk_with(WAITING) as it:
            zoe, ruth = self.reader(it, "zoe"), self.reader(it, "ruth")
            zoe.go("client/0002-000001")
            zoe.open_dialog("New loan")
            zoe.fill("Product", "2 Trade")
            zoe.fill("Principal", "1000")
            zoe.fill("Instalments", "3")
            zoe.wait(lambda: facts(zoe, ".modal").get("Handed over") == "985.00", "the preview")
            self.assertEqual(facts(zoe, ".modal")["To pay back in all"], "1,025.10")
            zoe.fill("Instalments", "25")
            zoe.wait(lambda: not facts(zoe, ".modal"), "no preview outside the limits")
            zoe.fill("Instalments", "12")
            zoe.wait(lambda: facts(zoe, ".modal").get("Instalments") == "12", "the preview of twelve")
            zoe.send("Submit the loan")
            self.assertIn("0002-000003", zoe.note())
            ruth.go("loan/0002-000002")
            self.assertEqual(len(ruth.table("What the loan would be")), 3)
            self.assertEqual(facts(ruth)["Handed over"], "985.00")
            others = [row["Loan"] for row in ruth.table("Loans of this client")]
            self.assertEqual(others, ["0002-000003", "0002-000001"])
            ruth.open_dialog("Approve")
            self.assertIn("31 days overdue", ruth.text(".modal"))
            self.assertEqual(facts(ruth, ".modal")["Handed over"], "985.00")
            ruth.send("Approve")

    def test_the_day_of_the_pay_out(self):
        """The rate is that of the chosen day: 27.86 percent on 2024-01-31, as worked out by a second program."""
        with desk_with(WAITING.replace(b'1/1 PUT /business-day {"day":"2024-03-31"}\n', b"").replace(
                b'"day":"2024-03-31","receipt"', b'"day":"2024-01-31","receipt"')) as it:
            ruth = self.reader(it, "ruth")
            it.send("ruth", "POST", "/api/loans/0002-000002/approve")
            it.send("head", "PUT", "/api/business-day", {"day": "2024-02-02"})
            ruth.go("loan/0002-000002")
            ruth.open_dialog("Pay out")
            ruth.wait(lambda: facts(ruth, ".modal").get("Handed over") == "985.00", "the preview")
            ruth.fill("Paid out on", "2024-01-31")
            ruth.wait(lambda: is_shown(ruth, ".modal"), f"{FIGURES}")
            ruth.send("Pay out")
            self.assertIn("15.00 is kept as a fee, and 985.00 is handed over", ruth.note())


@unittest.skipUnless(HAS_LISTS, "the program has no lists")
class Staff(loans.Case):
    def test_by_name(self):
        """In the list of an office, and beside what they entered; who is of an office above has a number alone."""
        with desk_with(WAITING) as it:
            it.send("head", "POST", "/api/loans/0002-000001/fees", {"charge": 1, "due": "2024-04-30"})
            zoe = self.reader(it, "zoe")
            zoe.go("people")
            names = [(row["Name"], row["Role"], row["Number"]) for row in zoe.table("Staff")]
            wanted = [("Ruth", "Manager", "2/1"), ("Zoe", "Loan officer", "2/2"), ("Tom", "Teller", "2/3")]
            self.assertEqual(names, wanted)
            zoe.go("people/3")
            self.assertIn("Nobody is entered in this office yet.", zoe.text("main"))
            zoe.go("loan/0002-000001")
            self.assertEqual([row["Staff"] for row in zoe.table("Entries")], ["Tom (2/3)", "1/1"])

    def test_one_who_is_entered_is_listed(self):
        with desk_with(WAITING) as it:
            ruth = self.reader(it, "ruth")
            ruth.go("people")
            ruth.open_dialog("New member of staff")
            ruth.fill("Name", "Ali")
            ruth.fill("Role", "Teller")
            ruth.send("Enter")
            self.assertIn("Ali is entered as 2/4.", ruth.text("main"))
            self.assertEqual(ruth.table("Staff")[-1]["Name"], "Ali")


@unittest.skipUnless(HAS_LISTS, "the program has no lists")
class Rounds(loans.Case):
    """A line of the list doesn't tell what the round has of its loan: that is read before something is typed."""

    def field(self, it, loan):
        return it.all(f"[data-loan='0002-{loan:06}']")[0]

    def test_somebody_else_entered_it_meanwhile(self):
        with desk_with(rounds.FORTY) as it:
            tom, zoe = self.reader(it, "tom"), self.reader(it, "zoe")
            tom.go(ROUND)
            zoe.go(ROUND)
            self.field(zoe, 1).send_keys("100")
            zoe.settle()
            zoe.press("Enter 1 repayment")
            zoe.wait(lambda: "100.00 entered" in zoe.text("main"), "the payment")
            zoe.settle()
            self.field(tom, 1).click()
            tom.wait(lambda: "100.00 entered by Zoe (2/2)" in tom.text("main"), "what Zoe entered")
            self.assertTrue(self.field(tom, 1).get_attribute("readonly"))

    def test_typed_before_it_was_known(self):
        """The same amount typed at once by two people is entered once."""
        with desk_with(rounds.FORTY) as it:
            tom = self.reader(it, "tom")
            tom.go(ROUND)
            body = {"amount": 10000, "day": "2024-03-31", "receipt": "2-20240331-000001"}
            self.assertEqual(it.send("zoe", "POST", "/api/loans/0002-000001/repayments", body)[0], 201)
            typing = (
                "const field = document.querySelector(\"[data-loan='0002-000001']\"); field.value = '100';"
                "field.dispatchEvent(new Event('input'));"
            )
            tom.script(typing)
            tom.press("Enter 1 repayment")
            tom.wait(lambda: tom.all("[data-result=repeated]"), "that it was entered before")
            told = it.send("head", "GET", "/api/loans/0002-000001/entries")[1]["entries"]
            self.assertEqual([one["amount"] for one in told], [10000])

    def test_a_reversed_payment_gives_up_its_receipt(self):
        with desk_with(rounds.FORTY) as it:
            body = {"amount": 10000, "day": "2024-03-31", "receipt": "2-20240331-000001"}
            it.send("zoe", "POST", "/api/loans/0002-000001/repayments", body)
            it.send("ruth", "POST", "/api/loans/0002-000001/entries/1/reverse")
            tom = self.reader(it, "tom")
            tom.go(ROUND)
            self.field(tom, 1).send_keys("100")
            tom.settle()
            tom.press("Enter 1 repayment")
            tom.wait(lambda: "100.00 entered" in tom.text("main"), "the payment")
            told = it.send("head", "GET", "/api/loans/0002-000001/entries")[1]["entries"]
            self.assertEqual([one["receipt"] for one in told], ["2-20240331-000001", "2-20240331-000001-2"])


class WithoutLists(loans.Case):
    """A program that was started without lists: the pages ask for one thing after another, and look once for lists."""

    def test_each_page(self):
        with desk_with(rounds.FORTY, lists=False) as it:
            ruth = self.reader(it, "ruth")
            for place in ("clients/2", "client/0002-000001", ROUND, "arrears/2", "loans/2/300", "people", loans.LOAN):
                with self.subTest(place):
                    ruth.go(place)
                    ruth.settle()
                    self.assertEqual(ruth.errors(), [])
                    self.assertEqual(ruth.all("#find-all"), [])
            self.assertEqual([line["path"] for line in it.log if "/lists/" in line["path"]], ["/api/lists/staff/2"])
            ruth.go("clients/2")
            self.assertEqual(len(ruth.table("Clients")), rounds.COUNT)


if __name__ == "__main__":
    unittest.main()
