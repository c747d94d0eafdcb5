"""A loan's way through the pages, by the people of an office. The amounts are worked out by hand for one loan: 1,000.00
at 12 percent a year over three months from 2024-01-31."""
import contextlib
import unittest

import desk
import reader
import running

PRODUCT = (
    b'1/1 POST /products {"name":"Harvest","method":"declining-equal-principal","rate":1200,"frequency":"months",'
    b'"every":1,"principal_grace":0,"interest_grace":0,"min_principal":1,"max_principal":1000000,"min_periods":1,'
    b'"max_periods":12,'
    b'"strategy":"mifos-standard-strategy","overdue_charge":2}\n'
)
# office 2 with a manager 2/1, an officer 2/2 and a teller 2/3, on 2024-01-31
LINES = (
    b"""1/1 POST /offices {"number":2,"parent":1,"name":"North"}
1/1 POST /staff {"office":2,"name":"Ruth","role":"manager"}
1/1 POST /staff {"office":2,"name":"Zoe","role":"officer"}
1/1 POST /staff {"office":2,"name":"Tom","role":"teller"}
1/1 PUT /business-day {"day":"2024-01-31"}
1/1 POST /charges {"name":"Visit","kind":"due-date","calc":"flat","value":500}
1/1 POST /charges {"name":"Late","kind":"overdue","calc":"percent-of-amount-and-interest","value":1000}
"""
    + PRODUCT
)
# a loan 0002-000001 that is paid out, on 2024-03-31
PAID_OUT = (
    LINES
    + b"""2/2 POST /clients {"office":2,"name":"Amina"}
2/2 POST /loans {"client":"0002-000001","product":1,"principal":100000,"periods":3}
2/1 POST /loans/0002-000001/approve
2/1 POST /loans/0002-000001/disburse {"day":"2024-01-31"}
1/1 PUT /business-day {"day":"2024-03-31"}
"""
)
# and 700.00 of it paid back
PAID = (
    PAID_OUT
    + b"""2/3 POST /loans/0002-000001/repayments {"amount":20000,"day":"2024-02-29","receipt":"N-1"}
2/3 POST /loans/0002-000001/repayments {"amount":50000,"day":"2024-03-31","receipt":"N-2"}
"""
)
PEOPLE = {"head": "1/1", "ruth": "2/1", "zoe": "2/2", "tom": "2/3"}
HAS_LISTS = running.has_lists()
LOAN = "loan/0002-000001"


@contextlib.contextmanager
def desk_with(lines):
    it = desk.Desk(lines=lines, people=PEOPLE)
    try:
        assert all(reply.startswith("20") for reply in it.replies), it.replies
        yield it
    finally:
        it.end()


def who(staff):
    """A member of staff of office 2 as the pages show them: with the name where the desk has lists."""
    names = {"2/1": "Ruth", "2/2": "Zoe", "2/3": "Tom"}
    return f"{names[staff]} ({staff})" if HAS_LISTS else staff


class Case(unittest.TestCase):
    def reader(self, it, name, **options):
        """A reader that is closed with the test."""
        made = reader.Reader(it, name, **options)
        self.addCleanup(made.close)
        return made


def shown(it):
    """The status of the loan that is shown, and its key figures."""
    return it.badge(), it.figures()


def entries(it):
    return [(row["Kind"], row["Amount"], row["Settles"]) for row in it.table("Entries") or []]


class Way(Case):
    def test_from_submission_to_the_last_repayment(self):
        """An officer submits, a manager approves and pays out, head office moves the day, a teller takes repayments."""
        with desk_with(LINES) as it:
            self.submit(it)
            self.decide(it)
            self.move_day(it)
            self.pay_back(it)

    def submit(self, it):
        zoe = self.reader(it, "zoe")
        zoe.go("clients")
        zoe.open_dialog("New client")
        zoe.fill("Name", "Amina")
        zoe.send("Enter the client")
        self.assertEqual(zoe.note(), "Client 0002-000001 is entered.")
        self.assertEqual(zoe.title(), "Amina")
        zoe.open_dialog("New loan")
        zoe.fill("Principal", "10,000.01")
        zoe.fill("Instalments", "3")
        zoe.press("Submit the loan", ".modal")
        self.assertIn("From 0.01 to 10,000.00", zoe.text(".modal"))
        zoe.fill("Principal", "1,000.00")
        zoe.send("Submit the loan")
        self.assertEqual(
            shown(zoe),
            (
                "Waits for approval",
                {"Principal": "1,000.00", "Left to pay": "0.00", "Paid": "0.00", "Next instalment": "–"},
            ),
        )
        self.assertEqual(zoe.actions(), {"Withdraw", "Statement"})
        self.assertEqual(zoe.errors(), [])

    def decide(self, it):
        ruth = self.reader(it, "ruth", width=360)
        ruth.go("today")
        self.assertIn("For approval: 1", ruth.text("main"))
        ruth.press("2 North", ".waiting")
        ruth.wait(lambda: ruth.title() == "Loans", "the loans")
        ruth.settle()
        ruth.press("0002-000001")
        ruth.wait(lambda: ruth.title() == "Loan 0002-000001", "the loan")
        ruth.settle()
        ruth.open_dialog("Approve")
        self.assertIn("Approves loan 0002-000001 of Amina over 1,000.00.", ruth.text(".modal"))
        ruth.send("Approve")
        self.assertEqual(ruth.badge(), "Approved, to be paid out")
        ruth.open_dialog("Pay out")
        ruth.send("Pay out")
        self.assertEqual(
            shown(ruth),
            (
                "Active",
                {"Principal": "1,000.00", "Left to pay": "1,020.00", "Paid": "0.00", "Next instalment": "343.33"},
            ),
        )
        schedule = [
            (row["Due"], row["Principal"], row["Interest"], row["Left to pay"]) for row in ruth.table("Schedule")
        ]
        self.assertEqual(
            schedule,
            [
                ("Feb 29, 2024", "333.33", "10.00", "343.33"),
                ("Mar 31, 2024", "333.33", "6.67", "340.00"),
                ("Apr 30, 2024", "333.34", "3.33", "336.67"),
            ],
        )
        self.assertEqual(ruth.errors(), [])

    def test_how_far_the_day_moves(self):
        """Up to a week at once, up to 31 days after a second question, further once the day was typed again."""
        with desk_with(LINES) as it:
            head = self.reader(it, "head")
            for day, asked, typed in (
                ("2024-02-07", False, False),
                ("2024-02-15", True, False),
                ("2024-03-17", True, False),
                ("2024-04-18", True, True),
            ):
                with self.subTest(day):
                    head.go("today")
                    head.open_dialog("Move the business day")
                    head.fill("New business day", day)
                    head.press("Move the business day", ".modal")
                    if asked:
                        head.wait_for_dialog("Is this day right?")
                        self.assertEqual(len(head.all(".modal input")), 1 if typed else 0)
                        head.cancel()
                        self.assertNotEqual(it.send("head", "GET", "/api/business-day")[1], {"day": day})
                        it.send("head", "PUT", "/api/business-day", {"day": day})
                    else:
                        head.wait(lambda: not head.all(".modal"), "the end of the dialog")
                        head.settle()
                    self.assertEqual(it.send("head", "GET", "/api/business-day")[1], {"day": day})

    def move_day(self, it):
        """60 days are asked again, and the day has to be typed twice."""
        head = self.reader(it, "head")
        head.go("today")
        head.open_dialog("Move the business day")
        head.fill("New business day", "2024-03-31")
        head.press("Move the business day", ".modal")
        head.wait_for_dialog("Is this day right?")
        self.assertIn("by 60 days, to Mar 31, 2024", head.text(".modal"))
        head.press("Move the business day", ".modal")
        self.assertEqual(it.send("head", "GET", "/api/business-day"), (200, {"day": "2024-01-31"}))
        head.fill("Type the new day once more", "2024-03-30")
        head.press("Move the business day", ".modal")
        self.assertIn("This is another day than the one above", head.text(".modal"))
        head.fill("Type the new day once more", "2024-03-31")
        head.send("Move the business day")
        head.wait(lambda: head.title() == "Today, Mar 31, 2024", "the new day")
        self.assertEqual(it.send("head", "GET", "/api/business-day"), (200, {"day": "2024-03-31"}))
        self.assertEqual(
            head.figures(),
            {
                "Active loans": "1",
                "Outstanding principal": "1,000.00",
                "PAR 30 (over 30 days)": "100.00%",
                "Principal of overdue loans": "1,000.00",
            },
        )
        self.assertEqual(head.errors(), [])

    def repay(self, tom, amount, day, receipt):
        tom.open_dialog("Enter a repayment")
        tom.fill("Amount", amount)
        tom.fill("Paid on", day)
        tom.fill("Receipt", receipt)
        if day == "2024-02-29":
            tom.press("Enter a repayment", ".modal.show")
            self.assertIn("Type why, in 1 to 200 characters", tom.text(".modal"))
            tom.fill("Reason", "the book came late")
        tom.send("Enter a repayment")

    def pay_back(self, it):
        tom = self.reader(it, "tom")
        tom.go(LOAN)
        self.assertIn("31 days overdue · 343.33 in arrears", tom.text(".alert"))
        self.assertEqual(tom.figures()["Overdue since"], "Feb 29, 2024")
        self.repay(tom, "200.00", "2024-02-29", "N-1")
        self.repay(tom, "500", "2024-03-31", "N-2")
        self.assertEqual(
            shown(tom),
            (
                "Active",
                {"Principal": "1,000.00", "Left to pay": "320.00", "Paid": "700.00", "Next instalment": "320.00"},
            ),
        )
        self.assertEqual(
            entries(tom),
            [
                ("Repayment", "200.00", "instalment 1: interest 10.00, principal 190.00"),
                (
                    "Repayment",
                    "500.00",
                    "instalment 1: principal 143.33\ninstalment 2: interest 6.67, principal 333.33\n"
                    "instalment 3: interest 3.33, principal 13.34",
                ),
            ],
        )
        tom.open_dialog("Enter a repayment")
        tom.fill("Amount", "320.01")
        tom.fill("Receipt", "N-2")
        self.assertIn("F15", tom.refused("Enter a repayment"))
        self.assertIn("The office has this receipt with another loan, amount or day.", tom.text(".modal .alert"))
        tom.fill("Receipt", "N-3")
        tom.fill("Amount", "320.00")
        tom.send("Enter a repayment")
        self.assertEqual(
            shown(tom),
            ("Closed", {"Principal": "1,000.00", "Left to pay": "0.00", "Paid": "1,020.00", "Next instalment": "–"}),
        )
        self.assertEqual(tom.actions(), {"Statement"})
        tom.press("Statement")
        tom.wait(lambda: tom.title() == "Statement of loan 0002-000001", "the statement")
        tom.settle()
        self.assertIn("Repaid in all\t\t\t\t1,020.00", tom.text("article"))
        self.assertEqual(tom.errors(), [])


class Corrections(Case):
    def test_overpaid_refunded_reversed(self):
        with desk_with(PAID_OUT) as it:
            ruth = self.reader(it, "ruth")
            ruth.go(LOAN)
            ruth.open_dialog("Enter a repayment")
            ruth.fill("Amount", "1,100.00")
            ruth.press("Enter a repayment", ".modal.show")
            ruth.wait_for_dialog("1,100.00 is more than the 1,020.00 that is left to pay.")
            ruth.send("Enter 1,100.00 all the same")
            self.assertEqual((ruth.badge(), ruth.figures()["Overpaid"]), ("Overpaid", "80.00"))
            self.assertEqual(ruth.actions(), {"Refund", "Statement"})
            ruth.open_dialog("Refund")
            self.assertIn("Gives 80.00 back to Amina", ruth.text(".modal"))
            ruth.send("Refund")
            self.assertEqual((ruth.badge(), ruth.figures()["Refunded"]), ("Closed", "80.00"))
            # while the refund stands, it alone can be reversed
            self.assertEqual([one.get_attribute("aria-label") for one in ruth.all("table button")], ["Reverse entry 2"])
            ruth.open_dialog("Reverse")
            ruth.fill("Reason", "not handed over")
            ruth.send("Reverse the entry")
            self.assertEqual((ruth.badge(), ruth.figures()["Overpaid"]), ("Overpaid", "80.00"))
            rows = ruth.all("tr.row-reversed")
            self.assertEqual(
                [
                    one.value_of_css_property("text-decoration-line")
                    for one in rows[0].find_elements("css selector", "td")
                ][0],
                "line-through",
            )
            self.assertEqual(ruth.errors(), [])

    def test_reversed_and_written_off(self):
        with desk_with(PAID) as it:
            ruth = self.reader(it, "ruth")
            ruth.go(LOAN)
            ruth.script("arguments[0].click()", ruth.all("table button[aria-label='Reverse entry 1']")[0])
            ruth.wait_for_dialog()
            self.assertIn(
                "Entry 1 of loan 0002-000001 (Repayment, 200.00, Feb 29, 2024) counts no more", ruth.text(".modal")
            )
            ruth.fill("Reason", "another loan's")
            ruth.send("Reverse the entry")
            balances = {row["Portion"]: row["Left to pay"] for row in ruth.table("Balances by portion")}
            self.assertEqual(balances, {"Principal": "516.67", "Interest": "3.33", "Fees": "–", "Penalties": "–"})
            self.assertEqual(
                entries(ruth),
                [
                    ("Repayment reversed", "200.00", "–"),
                    (
                        "Repayment",
                        "500.00",
                        "instalment 1: interest 10.00, principal 333.33\ninstalment 2: interest 6.67, principal 150.00",
                    ),
                ],
            )
            ruth.open_dialog("Write off")
            self.assertIn("Gives up 520.00", ruth.text(".modal"))
            ruth.fill("Reason", "moved away")
            ruth.send("Write off")
            self.assertEqual((ruth.badge(), ruth.figures()["Written off"]), ("Written off", "520.00"))
            self.assertEqual(ruth.actions(), {"Statement"})
            self.assertEqual(ruth.errors(), [])

    def test_fee_penalty_waiver(self):
        """A tenth of 333.33 and 10.00 is 34.333: a penalty of 34.33, which is then waived."""
        with desk_with(PAID_OUT) as it:
            ruth = self.reader(it, "ruth", width=360)
            ruth.go(LOAN)
            ruth.open_dialog("Enter a fee")
            ruth.fill("Due on", "2024-04-01")
            ruth.send("Enter a fee")
            ruth.open_dialog("Enter a penalty")
            ruth.send("Enter a penalty")
            ruth.press("Waive")
            ruth.wait(lambda: ruth.title() == "Waive on loan 0002-000001", "the page")
            ruth.settle()
            choices = [
                (row["Instalment"], row["Portion"], row["Left to pay"])
                for row in ruth.table("Waive on loan 0002-000001")
            ]
            self.assertEqual(
                choices,
                [
                    ("1", "penalties", "34.33"),
                    ("1", "interest", "10.00"),
                    ("2", "interest", "6.67"),
                    ("3", "fees", "5.00"),
                    ("3", "interest", "3.33"),
                ],
            )
            self.assertFalse(ruth.all("main button[disabled]") == [])  # nothing is chosen yet
            ruth.press("Penalties")
            ruth.fill("Reason", "a flood", within="main")
            ruth.press("Waive 1 line")
            ruth.wait(lambda: ruth.all("[data-result=entered]"), "the result")
            told = it.send("ruth", "GET", "/api/loans/0002-000001/entries")[1]["entries"]
            self.assertEqual(
                [(one["kind"], one["amount"], one["instalment"], one["portion"]) for one in told],
                [("fee", 500, 3, None), ("penalty", 3433, 1, None), ("waiver", 3433, 1, "penalties")],
            )
            ruth.go(LOAN)
            self.assertEqual(ruth.figures()["Left to pay"], "1,025.00")
            self.assertEqual(ruth.errors(), [])


class Lost(Case):
    """The page's own fetch is wrapped: the next writing loses its reply, or never leaves."""

    LOSE = """
    const real = window.fetch;
    window.fetch = async (url, options) => {
        if (window.isDown && options.method === 'GET') throw new TypeError('down');
        if (options.method === 'GET' || !window.losing) return real(url, options);
        const kind = window.losing;
        window.losing = kind === 'always' ? kind : null;
        if (kind === 'F20') return new Response('{"fault":"F20"}', { status: 503 });
        if (kind !== 'request') await real(url, options);
        throw new TypeError('lost');
    };
    """

    def reader_who_loses(self, it, name, place):
        who = self.reader(it, name)
        who.go(place)
        who.script(self.LOSE)
        return who

    def sent(self, it, ending):
        return len([line for line in it.log if line["method"] == "POST" and line["path"].endswith(ending)])

    def test_reply_lost(self):
        """It is looked whether it was done: it was, and is not sent again."""
        with desk_with(
            LINES + b'2/2 POST /clients {"office":2,"name":"Amina"}\n'
            b'2/2 POST /loans {"client":"0002-000001","product":1,"principal":100000,"periods":3}\n'
        ) as it:
            ruth = self.reader_who_loses(it, "ruth", LOAN)
            ruth.open_dialog("Approve")
            ruth.script("window.losing = 'reply'")
            ruth.send("Approve")
            self.assertEqual(ruth.badge(), "Approved, to be paid out")
            self.assertEqual(self.sent(it, "/approve"), 1)
            ruth.go("clients/2")
            ruth.open_dialog("New client")
            ruth.fill("Name", "Amina")
            ruth.script("window.losing = 'reply'")
            ruth.send("Enter the client")
            # the second of that name, and not the one who was there before
            self.assertEqual(ruth.note(), "Client 0002-000002 is entered.")
            self.assertEqual(it.send("ruth", "GET", "/api/clients/0002-000003")[0], 404)

    def test_request_lost(self):
        """It was not done, which the page says, and sends it again where told to."""
        with desk_with(PAID_OUT) as it:
            ruth = self.reader_who_loses(it, "ruth", LOAN)
            ruth.open_dialog("Write off")
            ruth.fill("Reason", "moved away")
            ruth.script("window.losing = 'request'")
            self.assertIn("It was looked up: it was not done.", ruth.refused("Write off"))
            self.assertEqual(it.send("ruth", "GET", "/api/loans/0002-000001")[1]["status"], 300)
            ruth.send("Send again")
            self.assertEqual(ruth.badge(), "Written off")
            self.assertEqual(self.sent(it, "/write-off"), 1)

    def test_reply_lost_and_no_connection(self):
        """It can't be looked whether it was done: the page says so, and looks once the connection is back."""
        with desk_with(PAID_OUT) as it:
            ruth = self.reader_who_loses(it, "ruth", LOAN)
            ruth.open_dialog("Write off")
            ruth.fill("Reason", "moved away")
            ruth.script(
                "window.losing = 'reply'; const losing = window.fetch; window.fetch = (url, options) => { "
                "const reply = losing(url, options); window.isDown ||= options.method === 'POST'; return reply; }"
            )
            self.assertIn("it can't be looked up whether it was done", ruth.refused("Write off"))
            ruth.script("window.isDown = false")
            ruth.send("Look again")
            self.assertEqual(ruth.badge(), "Written off")
            self.assertEqual(self.sent(it, "/write-off"), 1)

    def test_repayment_lost(self):
        """It is sent again with the same receipt: entered once."""
        with desk_with(PAID_OUT) as it:
            tom = self.reader_who_loses(it, "tom", LOAN)
            tom.open_dialog("Enter a repayment")
            tom.fill("Amount", "20")
            tom.script("window.losing = 'reply'")
            tom.send("Enter a repayment")
            told = it.send("tom", "GET", "/api/loans/0002-000001/entries")[1]["entries"]
            self.assertEqual([(one["amount"], one["staff"]) for one in told], [(2000, "2/3")])
            self.assertEqual(self.sent(it, "/repayments"), 2)

    def test_repayment_given_up_and_entered_again(self):
        """Whoever gives up after lost replies, and enters the repayment once more, does so with the same receipt."""
        with desk_with(PAID_OUT) as it:
            tom = self.reader_who_loses(it, "tom", LOAN)
            tom.open_dialog("Enter a repayment")
            tom.fill("Amount", "20")
            tom.fill("Receipt", "N-7")
            tom.script("window.losing = 'always'")
            self.assertIn("No reply came: the connection was lost.", tom.refused("Enter a repayment"))
            tom.cancel()
            tom.script("window.losing = null")
            tom.open_dialog("Enter a repayment")
            tom.fill("Amount", "20")
            tom.send("Enter a repayment")
            told = it.send("tom", "GET", "/api/loans/0002-000001/entries")[1]["entries"]
            self.assertEqual([one["amount"] for one in told], [2000])
            self.assertEqual(told[0]["receipt"], "N-7")
            tom.open_dialog("Enter a repayment")
            self.assertNotEqual(tom.field("Receipt").get_attribute("value"), "N-7")
            tom.cancel()

    def test_out_of_memory(self):
        """After F20 it is looked whether it was done, and it can be sent again."""
        with desk_with(PAID_OUT) as it:
            ruth = self.reader_who_loses(it, "ruth", LOAN)
            ruth.open_dialog("Write off")
            ruth.fill("Reason", "moved away")
            ruth.script("window.losing = 'F20'")
            words = ruth.refused("Write off")
            self.assertIn("It was looked up: it was not done.", words)
            self.assertIn("F20", words)
            ruth.send("Send again")
            self.assertEqual(ruth.badge(), "Written off")

    def test_staff_lost(self):
        """Without a list of staff it can't be looked up, and the page says so."""
        with desk_with(LINES) as it:
            head = self.reader_who_loses(it, "head", "people")
            head.open_dialog("New member of staff")
            head.fill("Name", "Sami")
            head.script("window.losing = 'request'")
            words = "It was looked up: it was not done." if HAS_LISTS else "Whether it was done can't be looked up"
            self.assertIn(words, head.refused("Enter"))
            head.send("Send again")
            self.assertIn("Sami is entered as 1/2.", head.text(".alert"))

    def test_not_closed_while_sending(self):
        """A dialog stays until the reply is there, whatever is pressed."""
        with desk_with(PAID_OUT) as it:
            ruth = self.reader(it, "ruth")
            ruth.go(LOAN)
            ruth.open_dialog("Write off")
            ruth.fill("Reason", "moved away")
            ruth.script(
                "const real = window.fetch; window.fetch = async (url, options) => { if (options.method === 'POST')"
                "await new Promise((go) => { window.go = go; }); return real(url, options); }"
            )
            ruth.press("Write off", ".modal.show")
            ruth.wait(lambda: ruth.script("return !!window.go"), "the request")
            ruth.press("Cancel", ".modal.show")
            self.assertEqual(len(ruth.all(".modal.show")), 1)
            ruth.script("window.go()")
            ruth.wait(lambda: not ruth.all(".modal"), "the end of the dialog")
            ruth.wait(lambda: ruth.badge() == "Written off", "the write-off")

    def test_program_stopped(self):
        """Where the program does not run, the page says so, and goes on once it runs again."""
        with desk_with(PAID_OUT) as it:
            ruth = self.reader(it, "ruth")
            ruth.go(LOAN)
            it.stop_serve()
            ruth.open_dialog("Write off")
            ruth.fill("Reason", "moved away")
            self.assertIn("The desk does not run at the moment.", ruth.refused("Write off"))
            it.start_serve()
            ruth.send("Write off")
            self.assertEqual(ruth.badge(), "Written off")
            self.assertEqual(len(it.send("ruth", "GET", "/api/loans/0002-000001/entries")[1]["entries"]), 1)
            it.stop_serve()
            ruth.reload()
            self.assertIn("The desk does not run at the moment.", ruth.text("body"))
            it.start_serve()
            ruth.press("Try again", "body")
            ruth.wait(lambda: ruth.title() == "Loan 0002-000001", "the loan")


class Others(Case):
    def test_two_at_once(self):
        """Two managers decide on one loan: the second is told, and sees how it stands."""
        lines = LINES + (
            b'2/2 POST /clients {"office":2,"name":"Amina"}\n'
            b'2/2 POST /loans {"client":"0002-000001","product":1,"principal":100000,"periods":3}\n'
        )
        with desk_with(lines) as it:
            ruth, head = self.reader(it, "ruth"), self.reader(it, "head")
            for one in (ruth, head):
                one.go(LOAN)
            ruth.open_dialog("Reject")
            ruth.fill("Reason", "no surety")
            head.open_dialog("Approve")
            head.send("Approve")
            self.assertIn("The status of the loan does not allow it.", ruth.refused("Reject"))
            ruth.cancel()
            ruth.wait(lambda: ruth.badge() == "Approved, to be paid out", "the loan as it stands")

    def test_name_that_is_a_script(self):
        """It is shown as text wherever it stands."""
        name = "<script>window.hit=1</script><img src=x onerror=window.hit=1>"
        lines = PAID_OUT.replace(b'"name":"Amina"', b'"name":"' + name.encode() + b'"')
        with desk_with(lines) as it:
            tom = self.reader(it, "tom")
            for place in (
                "clients/2",
                "client/0002-000001",
                "loans/2",
                LOAN,
                "statement/0002-000001",
                "round/2",
                "arrears/2",
            ):
                with self.subTest(place):
                    tom.go(place)
                    self.assertIn(name, tom.text("main"))
                    self.assertEqual(
                        tom.script(
                            "return [window.hit ?? null, document.querySelectorAll('main script, main img').length]"
                        ),
                        [None, 0],
                    )
            self.assertEqual(tom.errors(), [])

    def test_not_a_member(self):
        """Somebody with a password whose staff number nobody has is told so."""
        with desk_with(LINES) as it:
            it.add_person("eve", "2/9")
            eve = self.reader(it, "eve")
            eve.wait(lambda: "You are not entered as a member of staff." in eve.text("body"), "the refusal")

    def test_offices_staff_catalogue(self):
        with desk_with(LINES) as it:
            head = self.reader(it, "head")
            head.go("people")
            head.open_dialog("New office")
            head.fill("Name", "South")
            self.assertEqual(head.field("Office number").get_attribute("value"), "3")
            head.fill("Office number", "2")
            self.assertIn("The office number is taken.", head.refused("Open the office"))
            head.fill("Office number", "30")
            head.send("Open the office")
            head.open_dialog("New member of staff")
            head.fill("Name", "Sami")
            head.fill("Office", "30 South")
            head.fill("Role", "Loan officer")
            head.send("Enter")
            self.assertIn("Sami is entered as 30/1.", head.text(".alert"))
            self.assertEqual(
                it.send("head", "GET", "/api/offices")[1]["offices"][-1], {"name": "South", "number": 30, "parent": 1}
            )
            self.new_product(it, head)
            self.assertEqual(head.errors(), [])

    def new_product(self, it, head):
        head.go("catalogue")
        head.open_dialog("New charge")
        head.fill("Name", "Papers")
        head.fill("Taken", "at disbursement")
        head.fill("Calculated as", "of the amount")
        head.fill("Amount or percent", "100.01")
        head.press("Enter the charge", ".modal")
        self.assertIn("From 0.01 to 100.00", head.text(".modal"))
        head.fill("Amount or percent", "1.5")
        head.send("Enter the charge")
        self.assertEqual(
            it.send("head", "GET", "/api/charges/3")[1],
            {"calc": "percent-of-amount", "charge": 3, "kind": "disbursement", "name": "Papers", "value": 150},
        )
        head.open_dialog("New product")
        for label, value in (
            ("Name", "Weekly"),
            ("Interest", "flat, on the original principal"),
            ("Rate a year", "24.5"),
            ("Counted in", "weeks"),
            ("An instalment every", "2"),
            ("Least principal", "50"),
            ("Greatest principal", "1,500"),
            ("Fewest instalments", "6"),
            ("Most instalments", "26"),
            ("First instalments without principal", "1"),
            ("Order of payment", "what is due first, by portion"),
            ("Charge at disbursement", "3 Papers: 1.50% of the amount"),
        ):
            head.fill(label, value)
        head.send("Enter the product")
        self.assertEqual(
            it.send("head", "GET", "/api/products/2")[1],
            {
                "disbursement_charge": 3,
                "every": 2,
                "frequency": "weeks",
                "instalment_charge": None,
                "interest_grace": 0,
                "max_periods": 26,
                "max_principal": 150000,
                "method": "flat",
                "min_periods": 6,
                "min_principal": 5000,
                "name": "Weekly",
                "overdue_charge": None,
                "principal_grace": 1,
                "product": 2,
                "rate": 2450,
                "retired": False,
                "strategy": "due-first-by-portion",
            },
        )
        head.script("arguments[0].click()", head.all("button[aria-label='Retire Weekly']")[0])
        head.wait_for_dialog()
        head.send("Retire")
        self.assertTrue(it.send("head", "GET", "/api/products/2")[1]["retired"])


if __name__ == "__main__":
    unittest.main()
