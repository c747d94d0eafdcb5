"""The counter: amounts as they are typed, rounds that several people enter, what was typed and not sent, dialogs and
the browser's way back. The loans are those of the tests of rounds: 1,000.00 over three months, 683.33 of it due."""
import json
import unittest

import desk
import reader
import test_pages_loans as loans
import test_pages_rounds as rounds
from selenium.webdriver.common.keys import Keys

DUE = "683.33"
ROUND = "round/2/2024-03-31"


def repayments(it, loan=1):
    told = it.send("head", "GET", f"/api/loans/0002-{loan:06}/entries")[1]["entries"]
    return [(one["amount"], one["staff"]) for one in told if one["kind"] == "repayment"]


class Amounts(loans.Case):
    def dialog(self, it, who):
        who.go(loans.LOAN)
        who.open_dialog("Enter a repayment")
        who.wait(lambda: who.script("return document.activeElement.value") == DUE, "the amount proposed")

    def test_typing_replaces_what_is_proposed(self):
        """`50` and Enter over a proposed 683.33 enters 50.00, by the keyboard and after a press of the mouse."""
        with loans.desk_with(loans.PAID_OUT) as it:
            tom = self.reader(it, "tom")
            self.dialog(it, tom)
            tom.driver.switch_to.active_element.send_keys("50", Keys.ENTER)
            tom.wait(lambda: not tom.all(".modal"), "the end of the dialog")
            self.assertEqual(repayments(it), [(5000, "2/3")])
            tom.settle()
            tom.open_dialog("Enter a repayment")
            tom.field("Receipt").click()
            tom.field("Amount").click()
            tom.driver.switch_to.active_element.send_keys("60", Keys.ENTER)
            tom.wait(lambda: not tom.all(".modal"), "the end of the dialog")
            self.assertEqual(repayments(it), [(5000, "2/3"), (6000, "2/3")])
            note = tom.note()
            self.assertIn("60.00 is entered on loan 0002-000001, receipt 2.3-20240331-", note)
            self.assertIn("Left to pay: 910.00.", note)  # 1,020.00 less 50.00 and 60.00
            self.assertEqual(tom.errors(), [])

    def test_asked_again(self):
        """Above what is owed, the same again, and a sum that another entered meanwhile; Enter alone sends nothing."""
        with loans.desk_with(loans.PAID_OUT) as it:
            tom = self.reader(it, "tom")
            self.dialog(it, tom)
            tom.driver.switch_to.active_element.send_keys("1020.01", Keys.ENTER)
            tom.wait_for_dialog("1,020.01 is more than the 1,020.00 that is left to pay.")
            self.assertIn("1,020.00 → 0.00", tom.text(".doubt"))
            self.assertIn("0.00 → 0.01", tom.text(".doubt"))
            for _ in range(3):
                tom.driver.switch_to.active_element.send_keys(Keys.ENTER)
                tom.wait(lambda: tom.all(".doubt"), "the question")
            self.assertEqual(repayments(it), [])
            it.send("zoe", "POST", "/api/loans/0002-000001/repayments", {"amount": 3000, "day": "2024-03-31"})
            tom.fill("Amount", "20")
            self.assertFalse(tom.all(".doubt"))
            tom.press("Enter a repayment", ".modal.show")
            told = "was entered on this loan since these figures were read: entry 1, by "
            tom.wait_for_dialog(told + loans.who("2/2"))
            self.assertIn("990.00 → 970.00", tom.text(".doubt"))
            tom.send("Enter 20.00 all the same")
            tom.open_dialog("Enter a repayment")
            tom.fill("Amount", "20")
            tom.press("Enter a repayment", ".modal.show")
            tom.wait_for_dialog("20.00 of Mar 31, 2024 is entered on this loan already: entry 2, by " + loans.who("2/3"))
            tom.cancel()
            self.assertEqual(repayments(it), [(3000, "2/2"), (2000, "2/3")])

    def test_reasons_and_collectors_are_logged(self):
        with loans.desk_with(rounds.FORTY) as it:
            ruth = self.reader(it, "ruth")
            ruth.go(loans.LOAN)
            ruth.open_dialog("Write off")
            ruth.press("Write off", ".modal.show")
            self.assertIn("Type why, in 1 to 200 characters", ruth.text(".modal"))
            ruth.fill("Reason", "décès")
            ruth.send("Write off")
            ruth.open_dialog("Reverse")
            ruth.fill("Reason", "an error")
            ruth.send("Reverse the entry")
            ruth.go("round/2/2024-03-20")
            ruth.fill("Collected by", "2/2", within="main")
            ruth.all(".paid-field")[2].send_keys("5")
            ruth.open_dialog("Enter 1 repayment")
            ruth.fill("Reason", "the book came late")
            ruth.send("Enter 1 repayment")
            ruth.wait(lambda: ruth.all("[data-result=entered]"), "the result")
            bodies = [json.loads(line["body"]) for line in it.log if line["status"] in (200, 201) and line["body"]]
            self.assertIn({"reason": "décès"}, bodies)
            self.assertIn({"reason": "an error"}, bodies)
            self.assertIn(
                {
                    "amount": 500,
                    "day": "2024-03-20",
                    "receipt": "2-20240320-000003",
                    "collector": "2/2",
                    "reason": "the book came late",
                },
                bodies,
            )


class Locales(unittest.TestCase):
    """Reading is the inverse of writing, in every locale that the browser knows."""

    SCRIPT = """
    const { moneyFor } = await load('shared/money.js');
    const letters = [...'abcdefghijklmnopqrstuvwxyz'];
    const pairs = letters.flatMap((one) => letters.map((other) => one + other));
    const isKnown = (tag) => new Intl.NumberFormat(tag).resolvedOptions().locale === tag;
    const languages = pairs.filter(isKnown);
    const wide = ['en', 'fr', 'es', 'ar', 'pt', 'de', 'sw', 'it', 'nl', 'ru', 'zh', 'bn', 'ta', 'ur', 'ne', 'so', 'ha'];
    const regions = pairs.map((one) => one.toUpperCase());
    const all = [...languages, ...wide.flatMap((one) => regions.map((region) => `${one}-${region}`)).filter(isKnown)];
    const amounts = ['0.01', '0.99', '1.00', '77.84', '999.00', '1000.00', '1234.5', '9999.99', '12345.67', '100000.00',
        '200466.67', '1234567.89', '10000000.00', '123456789.01', '10000000000.00'];
    const wrong = []; let count = 0; const digits = new Set();
    for (const locale of all) {
        const money = moneyFor(locale);
        const systems = [undefined, ...(EXTRA[locale.split('-')[0]] ?? [])];
        for (const numberingSystem of systems) {
            const options = { minimumFractionDigits: 2, maximumFractionDigits: 2, numberingSystem };
            const write = new Intl.NumberFormat(locale, options);
            digits.add(write.resolvedOptions().numberingSystem);
            for (const amount of amounts) {
                const wanted = BigInt(Math.round(Number(amount) * 100));
                const texts = [write.format(Number(amount)), money.format(wanted)];
                for (const text of texts) {
                    count++;
                    if (money.parse(text) !== wanted) wrong.push([locale, text, String(money.parse(text))]);
                }
            }
        }
    }
    return { locales: all.length, count, digits: [...digits], wrong: wrong.slice(0, 20) };
    """
    EXTRA = {
        "ar": ["arab"],
        "fa": ["arabext"],
        "ur": ["arabext"],
        "hi": ["deva"],
        "mr": ["deva"],
        "ne": ["deva"],
        "bn": ["beng"],
        "as": ["beng"],
        "gu": ["gujr"],
        "ta": ["tamldec"],
        "te": ["telu"],
        "th": ["thai"],
        "my": ["mymr"],
    }

    def test_read_as_written(self):
        with desk.Desk(lines=b"", people={"head": "1/1"}) as it, reader.Reader(it, "head") as who:
            found = who.module(f"const EXTRA = {json.dumps(self.EXTRA)};" + self.SCRIPT)
        self.assertEqual(found["wrong"], [])
        self.assertGreaterEqual(found["locales"], 200)
        self.assertLessEqual({"latn", "arab", "deva", "beng"}, set(found["digits"]))
        print(f"    {found['count']} texts of {found['locales']} locales", end=" ")


class SharedRounds(loans.Case):
    def field(self, who, line):
        return who.all(".paid-field")[line - 1]

    def enter(self, who, count):
        who.press(f"Enter {count} repayment" + ("" if count == 1 else "s"))

    def test_two_people_one_round(self):
        """An officer and a teller enter the same lines: each once. Another sum is told, and entered as a further."""
        with loans.desk_with(rounds.FORTY) as it:
            tom, zoe = self.reader(it, "tom"), self.reader(it, "zoe")
            for who in (tom, zoe):
                who.go(ROUND)
                self.field(who, 1).send_keys("100")
            self.field(tom, 2).send_keys("20")
            self.field(zoe, 2).send_keys("30")
            self.enter(tom, 2)
            tom.wait(lambda: len(tom.all("[data-result=entered]")) == 2, "the results")
            self.enter(zoe, 2)
            zoe.wait(lambda: zoe.all("[data-result=repeated]") and zoe.all("[data-result=F15]"), "the results")
            zoe.wait(lambda: f"20.00 entered by {loans.who('2/3')}" in zoe.text("main"), "what stands")
            self.assertEqual((repayments(it, 1), repayments(it, 2)), ([(10000, "2/3")], [(2000, "2/3")]))
            zoe.press("Enter 30.00 as a further payment")
            zoe.wait(lambda: not zoe.all("[data-result=F15]"), "the further payment")
            zoe.settle()
            self.assertEqual(repayments(it, 2), [(2000, "2/3"), (3000, "2/2")])
            self.assertEqual(zoe.text(".unsent"), "")
            tom.reload()
            tom.wait(lambda: len(tom.all("[data-result=standing]")) == 3, "what was entered")
            self.assertIn("3 payments of this round are entered: 150.00", tom.text("main"))
            self.assertEqual(tom.errors() + zoe.errors(), [])

    def test_paid_off_is_shown(self):
        """A loan that the round has closed is shown to who opens the round later."""
        with loans.desk_with(rounds.FORTY) as it:
            tom, zoe = self.reader(it, "tom"), self.reader(it, "zoe")
            tom.go(ROUND)
            self.field(tom, 1).send_keys("1020")
            self.enter(tom, 1)
            tom.wait(lambda: tom.all("[data-result=entered]"), "the result")
            self.assertEqual(it.send("tom", "GET", "/api/loans/0002-000001")[1]["status"], 600)
            zoe.go(ROUND)
            zoe.wait(lambda: f"1,020.00 entered by {loans.who('2/3')}" in zoe.text("main"), "what was entered")
            self.assertNotIn("Further payment", zoe.text("main"), "nothing is left to pay")

    def test_lines_stay_where_others_cannot_be_read(self):
        """The connection is lost while loans are looked at that are no longer due: the lines and what is typed stay."""
        paid = b'2/3 POST /loans/0002-000001/repayments {"amount":68333,"day":"2024-03-31"}\n'
        with loans.desk_with(rounds.FORTY + paid) as it:
            tom = self.reader(it, "tom")
            tom.script(
                "const real = window.fetch; window.fetch = async (url, options) => {"
                "if (url.endsWith('/0002-000001/entries')) throw new TypeError('lost'); return real(url, options); }"
            )
            tom.script(f"location.hash = '#/{ROUND}'")
            tom.wait(lambda: len(tom.all(".paid-field")) == rounds.COUNT - 1, "the lines")
            self.field(tom, 1).send_keys("5")
            tom.wait(lambda: "The connection was lost" in tom.text("main") or tom.all("main .alert"), "the refusal")
            self.assertEqual(self.field(tom, 1).get_attribute("value"), "5")
            self.assertEqual(len(tom.all(".paid-field")), rounds.COUNT - 1)

    def test_collector_of_each_amount(self):
        """Who is named when an amount is typed collected it."""
        with loans.desk_with(rounds.FORTY) as it:
            tom = self.reader(it, "tom")
            tom.go(ROUND)
            for line, name, amount in ((1, "2/2", "10"), (2, "2/1", "20")):
                tom.fill("Collected by", name, within="main")
                self.field(tom, line).send_keys(amount)
            self.assertIn("2/2 10.00 · 2/1 20.00", tom.text(".round-end"))
            self.enter(tom, 2)
            tom.wait(lambda: len(tom.all("[data-result=entered]")) == 2, "the results")
            bodies = [json.loads(line["body"]) for line in it.log if line["path"].endswith("/repayments")]
            self.assertEqual([one["collector"] for one in bodies], ["2/2", "2/1"])


class RoundWork(loans.Case):
    """The round as work: found, ordered, typed line by line, on a phone too."""

    def shown(self, who):
        rows = "document.querySelectorAll('.round-lines tbody tr:not([hidden])')"
        return who.script(f"return [...{rows}].map((one) => one.cells[1].innerText)")

    def test_found_and_ordered(self):
        lines = rounds.FORTY.replace(b'"name":"Client 7"', b'"name":"Zo\xc3\xa9"') + (
            b'2/3 POST /loans/0002-000009/repayments {"amount":34333,"day":"2024-03-31"}\n'
        )
        with loans.desk_with(lines) as it:
            tom = self.reader(it, "tom")
            tom.go(ROUND)
            find = tom.field("Find by name or loan", "main")
            tom.all(".paid-field")[0].send_keys("5")
            find.send_keys("zoe")
            self.assertEqual(self.shown(tom), ["Client 1", "Zoé"], "what was typed stays in sight")
            find.clear()
            find.send_keys("000040")
            tom.wait(lambda: self.shown(tom) == ["Client 1", "Client 40"], "the loan")
            find.clear()
            find.send_keys(" ")
            tom.fill("Order", "by name", within="main")
            self.assertEqual(self.shown(tom)[-1], "Zoé")
            tom.fill("Order", "longest overdue first", within="main")
            self.assertEqual(self.shown(tom)[-1], "Client 9")  # due since Mar 31, all others since Feb 29

    def test_from_amount_to_amount(self):
        """Enter leads on, and from the last amount to what enters them; sum and button are in sight all the time."""
        with loans.desk_with(rounds.FORTY) as it:
            for width, height in ((1280, 800), (360, 740)):
                with self.subTest(width):
                    tom = self.reader(it, "tom", width=width, height=height)
                    tom.go(ROUND)
                    tom.all(".paid-field")[0].click()
                    for _ in range(rounds.COUNT):
                        tom.driver.switch_to.active_element.send_keys("1", Keys.ENTER)
                    self.assertEqual(tom.driver.switch_to.active_element.text, "Enter 40 repayments")
                    self.assertIn("typed in 40.00", tom.text(".round-end"))
                    for place in ("0", "document.documentElement.scrollHeight / 2"):
                        tom.script(f"window.scrollTo(0, {place})")
                        box = tom.script("return document.querySelector('.round-enter').getBoundingClientRect().bottom")
                        self.assertLessEqual(box, height)
                    tom.open_dialog("Throw away")
                    tom.send("Throw away")

    def test_a_line_on_a_phone(self):
        """At most 130 pixels a line, before it is entered and after it."""
        heights = "return [...document.querySelectorAll('.round-lines tbody tr')].map((one) => one.offsetHeight)"
        with loans.desk_with(rounds.FORTY) as it:
            tom = self.reader(it, "tom", width=360, height=740)
            tom.go(ROUND)
            self.assertLessEqual(max(tom.script(heights)), 130)
            tom.press("Fill in what is due")
            tom.press("Enter 40 repayments")
            tom.wait(lambda: len(tom.all("[data-result=entered]")) == rounds.COUNT, "the results")
            self.assertLessEqual(max(tom.script(heights)), 130)

    def test_not_paid(self):
        """Why nothing was paid is kept, takes the place of an amount, and is nothing that waits to be sent."""
        with loans.desk_with(rounds.FORTY) as it:
            tom = self.reader(it, "tom")
            tom.go(ROUND)
            why = tom.all(".why-field")
            tom.all(".paid-field")[0].send_keys("5")
            why[0].send_keys("promised")
            tom.wait(lambda: tom.all(".paid-field")[0].get_attribute("value") == "", "the end of the amount")
            self.assertEqual(tom.text(".unsent"), "")
            tom.reload()
            self.assertEqual(tom.all(".why-field")[0].get_attribute("value"), "promised")
            tom.press("Fill in what is due")
            tom.wait(lambda: "Enter 39 repayments" in tom.text(".round-end"), "the others")
            tom.all(".paid-field")[0].send_keys("5")
            self.assertEqual(tom.all(".why-field")[0].get_attribute("value"), "")


class Unsent(loans.Case):
    BAR = "Round of Mar 31, 2024, North: 2 lines, 30.00 not sent"

    def type_two(self, who):
        who.go(ROUND)
        for line, amount in ((0, "10"), (1, "20")):
            who.all(".paid-field")[line].send_keys(amount)

    def test_told_on_each_page_whatever_day(self):
        with loans.desk_with(rounds.FORTY) as it:
            tom = self.reader(it, "tom")
            self.type_two(tom)
            it.send("head", "PUT", "/api/business-day", {"day": "2024-04-01"})
            for place in ("today", "clients/2", loans.LOAN, "round/2", "arrears", "catalogue", "people"):
                with self.subTest(place):
                    tom.go(place)
                    self.assertEqual(tom.text(".unsent"), self.BAR)
            tom.press(self.BAR, ".unsent")
            tom.wait(lambda: tom.all(".paid-field") and tom.all(".paid-field")[1].get_attribute("value") == "20", "it")
            it.send("head", "PUT", "/api/business-day", {"day": "2025-04-01"})
            tom.go("today")
            self.assertEqual(tom.text(".unsent"), self.BAR, "a year later")
            tom.go(ROUND)
            tom.open_dialog("Throw away")
            self.assertIn("2 lines that were typed into the round of Mar 31, 2024", tom.text(".modal"))
            tom.cancel()
            self.assertEqual(tom.text(".unsent"), self.BAR)
            tom.open_dialog("Throw away")
            tom.send("Throw away")
            tom.wait(lambda: tom.text(".unsent") == "", "the end of the bar")
            self.assertEqual(tom.all(".paid-field")[0].get_attribute("value"), "")

    def test_told_before_the_day_moves(self):
        with loans.desk_with(rounds.FORTY) as it:
            head = self.reader(it, "head")
            self.type_two(head)
            head.go("today")
            head.open_dialog("Move the business day")
            self.assertIn(self.BAR, head.text(".modal"))
            head.cancel()

    def test_two_tabs_of_one_round(self):
        """Both show the same lines, and neither overwrites what was typed in the other."""
        with loans.desk_with(rounds.FORTY) as it:
            tom = self.reader(it, "tom")
            tom.go(ROUND)
            first = tom.driver.current_window_handle
            tom.driver.switch_to.new_window("tab")
            self.addCleanup(tom.driver.switch_to.window, first)
            tom.driver.get(f"{it.url}/#/{ROUND}")
            tom.settle()
            second = tom.driver.current_window_handle
            tom.all(".paid-field")[1].send_keys("2")
            tom.driver.switch_to.window(first)
            tom.all(".paid-field")[0].send_keys("1")
            values = "return [...document.querySelectorAll('.paid-field')].slice(0, 2).map((one) => one.value)"
            for tab in (first, second):
                tom.driver.switch_to.window(tab)
                tom.wait(lambda: tom.script(values) == ["1", "2"], "both amounts")
                self.assertIn("2 lines, 3.00 not sent", tom.text(".unsent"))
            tom.driver.switch_to.window(second)
            tom.press("Enter 2 repayments")
            tom.wait(lambda: len(tom.all("[data-result=entered]")) == 2, "the results")
            tom.driver.close()
            tom.driver.switch_to.window(first)
            tom.wait(lambda: tom.script(values) == ["", ""] and tom.text(".unsent") == "", "what was entered there")
            tom.wait(lambda: len(tom.all("[data-result=standing]")) == 2, "what stands")
            self.assertEqual((repayments(it, 1), repayments(it, 2)), ([(100, "2/3")], [(200, "2/3")]))

    def test_what_older_pages_kept(self):
        """A line that pages before this kept is told of, and is sent with the receipt that it had."""
        with loans.desk_with(rounds.FORTY) as it:
            tom = self.reader(it, "tom")
            kept = {"turn": 2, "lines": {"0002-000001": {"text": "7.00", "result": "lost"}}}
            tom.script("localStorage.setItem('round 2/3 2 2024-03-31', arguments[0])", json.dumps(kept))
            tom.go(ROUND)
            tom.reload()
            self.assertIn("1 line, 7.00 not sent", tom.text(".unsent"))
            tom.press("Enter 1 repayment")
            tom.wait(lambda: tom.text(".unsent") == "", "the result")
            told = it.send("tom", "GET", "/api/loans/0002-000001/entries")[1]["entries"]
            self.assertEqual([one["receipt"] for one in told], ["2.3-20240331-000001-2"])


class Back(loans.Case):
    def test_it_closes_the_dialog_alone(self):
        """On a phone: the page beneath stays, where it was; nothing was sent; Back again leaves the page."""
        with loans.desk_with(loans.PAID_OUT) as it:
            for width in (360, 1280):
                with self.subTest(width):
                    tom = self.reader(it, "tom", width=width, height=740)
                    tom.go("loans/2")
                    tom.go(loans.LOAN)
                    tom.script("window.scrollTo(0, 40)")
                    before = tom.script("return [location.href, scrollY]")
                    tom.open_dialog("Enter a repayment")
                    tom.driver.back()
                    tom.wait(lambda: not tom.all(".modal"), "the end of the dialog")
                    self.assertEqual(tom.script("return [location.href, scrollY]"), before)
                    self.assertEqual(tom.title(), "Loan 0002-000001")
                    tom.open_dialog("Enter a repayment")
                    tom.cancel()
                    tom.driver.back()
                    tom.wait(lambda: tom.title() == "Loans", "the page before")
                    self.assertEqual(tom.errors(), [])
            self.assertEqual(repayments(it), [])

    def test_nothing_is_sent_once_the_page_is_gone(self):
        with loans.desk_with(loans.PAID_OUT) as it:
            tom = self.reader(it, "tom")
            tom.go(loans.LOAN)
            tom.open_dialog("Enter a repayment")
            form = tom.all(".modal form")[0]
            tom.script("location.hash = '#/today'; arguments[0].requestSubmit()", form)
            tom.wait(lambda: tom.title().startswith("Today") and not tom.all(".modal"), "the other page")
            tom.settle()
            self.assertEqual(repayments(it), [])

    def test_it_waits_while_something_is_sent(self):
        with loans.desk_with(loans.PAID_OUT) as it:
            tom = self.reader(it, "tom")
            tom.go(loans.LOAN)
            tom.open_dialog("Enter a repayment")
            tom.script(
                "const real = window.fetch; window.fetch = async (url, options) => { if (options.method === 'POST')"
                "await new Promise((go) => { window.go = go; }); return real(url, options); }"
            )
            tom.press("Enter a repayment", ".modal.show")
            tom.wait(lambda: tom.script("return !!window.go"), "the request")
            tom.driver.back()
            self.assertEqual(len(tom.all(".modal.show")), 1)
            tom.script("window.go()")
            tom.wait(lambda: not tom.all(".modal"), "the end of the dialog")
            self.assertEqual(repayments(it), [(68333, "2/3")])


if __name__ == "__main__":
    unittest.main()
