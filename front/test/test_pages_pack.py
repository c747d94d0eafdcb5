"""The day pack: one press takes a day along, and it is looked up, and rounds are typed from it, without a network. The
loans are those of the tests of rounds (on 2024-03-31 each has 683.33 due: 343.33 since 2024-02-29, and 340.00 since
that day); in office 3, below theirs, a loan falls due within the week."""
import itertools
import json
import random
import re
import unittest

from selenium.webdriver.common.keys import Keys

import desk
import reader
import test_pages_loans as loans
import test_pages_offline as offline
import test_pages_rounds as rounds
import running

FEW = 3
LARGE = 3000  # loans of an office
# of office 3: one loan of which nothing is due before 2024-04-03, and a client without any
HILL = b"""1/1 PUT /business-day {"day":"2024-03-03"}
2/1 POST /clients {"office":3,"name":"Amina Diallo"}
2/1 POST /clients {"office":3,"name":"Elodie Kabore"}
2/1 POST /loans {"client":"0003-000001","product":1,"principal":100000,"periods":3}
2/1 POST /loans/0003-000001/approve
2/1 POST /loans/0003-000001/disburse {"day":"2024-03-03"}
"""
LINES = loans.LINES + b'1/1 POST /offices {"number":3,"parent":2,"name":"Hill"}\n'
DAY = "2024-03-31"
# one loan of weekly instalments, of which those of 2024-03-21 and 28 are overdue, and that of 2024-04-04 falls due
WEEKLY = b"""1/1 PUT /business-day {"day":"2024-03-14"}
1/1 POST /products {"name":"Market","method":"flat","rate":0,"frequency":"weeks","every":1,"principal_grace":0,\
"interest_grace":0,"min_principal":1,"max_principal":1000000,"min_periods":1,"max_periods":12,\
"strategy":"mifos-standard-strategy"}
2/1 POST /loans {"client":"0003-000002","product":2,"principal":40000,"periods":4}
2/1 POST /loans/0003-000002/approve
2/1 POST /loans/0003-000002/disburse {"day":"2024-03-14"}
"""
FULL = "IDBObjectStore.prototype.put = () => { throw new DOMException('full', 'QuotaExceededError'); };"
# what a press sent, and the bytes that came with heads, as the browser counts them
SENT = """
const list = performance.getEntriesByType('resource').map(({name, transferSize}) => [new URL(name), transferSize])
    .filter(([{pathname}]) => /^[/](api[/]|several$|played$)/.test(pathname));
return [list.map(([{pathname, search}]) => pathname + search), list.reduce((all, [, bytes]) => all + bytes, 0)];
"""
# a front of before, which has no message for several readings, nor for accounts
OLDER = """
const real = window.fetch;
window.fetch = (url, more) => /[/](several|played)[?]/.test(url) ? Promise.resolve(new Response('<html>', {status: 404})) :
    real(url, more);
"""
# a desk that is too slow to tell accounts, but for so many messages
LOST = """
const real = window.fetch; let told = 0;
window.fetch = (url, more) => url.includes('/played?') && ++told > MESSAGES ? Promise.reject(new TypeError('lost')) :
    real(url, more);
"""
# A reply about accounts that comes in three parts with so many milliseconds between them. What waits for 45 seconds
# waits for a hundredth of it.
PARTS = """
const later = window.setTimeout;
window.setTimeout = (work, milliseconds) => later(work, milliseconds === 45000 ? 450 : milliseconds);
const real = window.fetch;
window.fetch = async (url, more) => {
    const reply = await real(url, more);
    if (!url.includes('/played?')) { return reply; }
    const bytes = new Uint8Array(await reply.arrayBuffer());
    const third = Math.ceil(bytes.length / 3);
    return new Response(new ReadableStream({
        async start(stream) {
            more.signal.addEventListener('abort', () => stream.error(new DOMException('', 'AbortError')));
            for (const begin of [0, third, 2 * third]) {
                await new Promise((go) => later(go, PAUSE));
                if (more.signal.aborted) { return; }
                stream.enqueue(bytes.slice(begin, begin + third));
            }
            stream.close();
        }
    }));
};
"""
# a front that has room for the replies of so many loans in a message
ROOM = """
const real = window.fetch;
window.fetch = async (url, more) => {
    const reply = await real(url, more);
    if (!url.includes('/played?')) { return reply; }
    const parts = await reply.json();
    return new Response(JSON.stringify(parts.map((part, i) =>
        i < LOANS ? part : {status: 413, text: '{"front":"large"}'})));
};
"""
# the numbers of the loans whose accounts are in the pack
WITH_ACCOUNT = """
const {lines} = (await (await load('views/pack-kept.js')).readPack()).offices[0];
return lines.filter(({account}) => account).map(({loan}) => Number(loan.slice(5)));
"""
# how a message names each of these lists of loans
SPELLED = """
const {spelled} = await load('views/pack-accounts.js');
return CASES.map((loans) => spelled(loans));
"""
# how many of 2,000 loans each message asks for, with so much room before each, and how many come
BUDGET = """
const {readAccounts} = await load('views/pack-accounts.js');
const rooms = [[3, 120000], [2, 100000], [1, 2500], [0, 2400]].map(([messages, bytes]) => ({messages, bytes}));
const asked = [];
window.fetch = async (url) => {
    asked.push(url.split('?')[1].split('.').length);
    return new Response(JSON.stringify(Array(asked.at(-1)).fill({status: 200, loan: {}, entries: []})));
};
const loans = Array.from({length: 2000}, (_, i) => `0002-${String(i + 1).padStart(6, '0')}`);
const told = await readAccounts(loans, () => rooms.shift(), () => {});
return [asked, told.size];
"""
# breaks a part of the first replies to several readings off, as where the program ends in the midst
BROKEN = """
const real = window.fetch; window.broken = 0; window.most = 2;
window.fetch = async (url, more) => {
    const reply = await real(url, more);
    if (!url.includes('/several') || window.broken >= window.most) { return reply; }
    window.broken += 1;
    const parts = await reply.json();
    const end = parts.findIndex(({text}) => text.includes('"due"'));
    parts[end].text = parts[end].text.slice(0, -9);
    return new Response(JSON.stringify(parts));
};
"""
# asks for all loans of an office whose numbers are these, as the desk tells them: 200 a page
PAGES = """
const {dueByAtOnce} = await load('shared/lists.js');
const told = [];
for (const numbers of NUMBERS) {
    let pages = 0;
    const reading = async (path) => {
        pages += 1;
        const after = Number(path.split('/').at(-1));
        const due = numbers.filter((one) => one > after).slice(0, 200);
        return {due: due.map((one) => ({loan: `0002-${String(one).padStart(6, '0')}`}))};
    };
    const lines = await dueByAtOnce(2, '2024-03-31', reading);
    told.push([lines.map(({loan}) => Number(loan.slice(5))), pages]);
}
return told;
"""
# what stands in the browser's database, as bytes: none of it may be readable
KEPT = """
const done = arguments[0];
indexedDB.open('microloan-pack').onsuccess = ({target}) => {
    const asked = target.result.transaction('pack').objectStore('pack').getAll();
    asked.onsuccess = () => done(asked.result.map((one) => new TextDecoder('latin1').decode(one.sealed.data)));
};
"""


def institution(count=FEW, more=b""):
    """Office 2 with so many loans, and office 3 below it, on 2024-03-31. more: lines of the days before."""
    made = rounds.lines_of(count)
    moved = b'1/1 PUT /business-day {"day":"%s"}\n' % DAY.encode()
    return made.replace(loans.LINES, LINES).replace(moved, HILL + more + moved)


def large_office():
    """The request lines of an office of 3,000 loans on 2024-03-31: of 400 something is due, of 700 on 2024-04-05."""
    yield loans.LINES
    days = ("2024-02-15", 400), ("2024-03-05", 700), ("2024-03-20", LARGE - 1100)
    made = [day for day, count in days for _ in range(count)]
    for number, day in enumerate(made, 1):
        if number == 1 or day != made[number - 2]:
            yield b'1/1 PUT /business-day {"day":"%s"}\n' % day.encode()
        values = number, number, number, number, day.encode()
        yield (
            b'2/2 POST /clients {"office":2,"name":"Client %d"}\n'
            b'2/2 POST /loans {"client":"0002-%06d","product":1,"principal":100000,"periods":3}\n'
            b'2/1 POST /loans/0002-%06d/approve\n2/1 POST /loans/0002-%06d/disburse {"day":"%s"}\n'
        ) % values
    yield b'1/1 PUT /business-day {"day":"%s"}\n' % DAY.encode()


class Phone(offline.Phone):
    def take_day(self, *offices):
        """Takes the day of one's own office along, and of these."""
        self.go("pack")
        self.is_kept()
        for office in offices:
            self.wait(lambda office=office: self.box(office), office).click()
        self.take_here()

    def take_here(self, pin=True):
        """Presses, and chooses a PIN, or types the one that holds, or isn't asked for one."""
        self.open_dialog("Take the day along") if pin else self.press("Take the day along")
        if pin is True:
            self.fill("New PIN", offline.PIN)
            self.fill("The PIN once more", offline.PIN)
            self.send("Choose a PIN")
        elif pin:
            self.fill("PIN of this phone", pin)
            self.send("Open")
        self.wait(lambda: "The day is on this phone" in self.text(".toast"), "the day on the phone")
        self.script("document.querySelector('.toast')?.remove()")

    def box(self, office):
        found = [one for one in self.all("main label") if one.text.strip() == office]
        return found and found[0].find_element("css selector", "input")

    def open_pack(self, place, pin=offline.PIN):
        self.driver.get("about:blank")
        self.driver.get(f"{self.desk.url}/#/{place}")
        self.unlock(pin)

    def open_round(self, day=0):
        """Opens a round of the office that is shown: the first one of the week, or a later one."""
        self.wait(lambda: self.table("Rounds of the week"), "the rounds")
        found = [one for one in self.all("main th button") if one.text == "Open the round"][day]
        self.script("arguments[0].scrollIntoView({block: 'center'})", found)
        found.click()
        self.wait(lambda: self.all(".paid-field"), "the round")


@unittest.skipUnless(running.has_lists(), "the program has no lists")
class Pack(offline.Case):
    def phone(self, it, name):
        made = Phone(it, name)
        self.addCleanup(made.close)
        return made

    def test_looked_up_without_a_network(self):
        """Offices, rounds of the week, clients with what they owe: each page says of when it is."""
        with loans.desk_with(institution()) as it:
            zoe = self.phone(it, "zoe")
            zoe.take_day("3 Hill")
            zoe.network(offline.CUT)
            zoe.open_pack("pack")
            zoe.wait(lambda: zoe.table("Day pack"), "the offices")
            due = ("Due by Mar 31, 2024", "Due by Apr 7, 2024")
            self.assertEqual(
                self.rows(zoe, "Day pack", "Office", *due, "Clients"),
                [["2 North", "2,049.99", "2,049.99", "3"], ["3 Hill", "–", "343.33", "2"]],
            )
            self.age(zoe)
            zoe.look("pack")
            zoe.follow("3 Hill")
            self.assertEqual(
                self.rows(zoe, "Rounds of the week", "Day", "Loans", "Due"),
                [[f"Apr {day}, 2024\nOpen the round", "1", "343.33"] for day in range(3, 8)],
            )
            self.assertEqual(
                self.rows(zoe, "Clients", "Client", "Number", due[1]),
                [["Amina Diallo", "0003-000001", "343.33"], ["Elodie Kabore", "0003-000002", "–"]],
            )
            self.age(zoe)
            zoe.fill("A name, a part of it, or a number", "kab", within="main")
            zoe.wait(lambda: len(zoe.table("Clients")) == 1, "the client")
            zoe.look("pack-office")
            zoe.fill("A name, a part of it, or a number", "0003-000001", within="main")
            zoe.wait(lambda: zoe.table("Clients")[0]["Client"] == "Amina Diallo", "the client")
            zoe.follow("Amina Diallo")
            zoe.wait(lambda: "0003-000001" in zoe.script("return document.title"), "the client's page")
            self.assertNotIn("Amina", zoe.script("return document.title"))  # the browser's history is in clear
            for words in ("Next instalment\\nApr 3, 2024", "Due by Mar 31, 2024\\n0.00", "Due by Apr 7, 2024\\n343.33",
                          "Left to pay\\n1,020.00"):
                self.assertIn(words.replace("\\n", "\n"), zoe.text("main"))
            self.age(zoe)
            zoe.look("pack-client")

    def rows(self, zoe, caption, *columns):
        shown = zoe.wait(lambda: zoe.table(caption), caption)
        return [[row[column] for column in columns] for row in shown]

    def age(self, zoe):
        self.assertRegex(zoe.text(".kept-age"), r"^Taken along .* by zoe 2/2, on business day Mar 31, 2024\.")

    def test_sealed(self):
        """Neither names nor numbers can be read in the browser's database; another PIN seals it anew; a forgotten one
        ends it."""
        with loans.desk_with(institution()) as it:
            zoe = self.phone(it, "zoe")
            zoe.take_day()
            for kept in zoe.driver.execute_async_script(KEPT):
                for word in ("Client", "0002-0000", "North"):
                    self.assertNotIn(word, kept)
            zoe.follow("2 North")
            zoe.open_round()
            zoe.go("kept")
            zoe.open_dialog("Change the PIN")
            zoe.fill("PIN until now", offline.PIN)
            zoe.fill("New PIN", "31 wasps")
            zoe.fill("The PIN once more", "31 wasps")
            zoe.send("Change the PIN")
            zoe.open_pack("pack/2", "31 wasps")
            zoe.wait(lambda: zoe.table("Rounds of the week"), "the pack by the new PIN")
            self.assertEqual(zoe.errors(), [])
            zoe.driver.get("about:blank")
            zoe.driver.get(f"{it.url}/#/pack")
            zoe.wait(lambda: zoe.all("main form input"), "the question for the PIN")
            zoe.open_dialog("The PIN is forgotten")
            self.assertIn("The day pack goes too.", zoe.text(".modal"))
            zoe.send("Throw all of it away")
            zoe.wait(lambda: zoe.box("2 North"), "the offices")
            self.assertEqual(zoe.driver.execute_async_script(KEPT), [])
            zoe.take_here()

    def test_of_another_pin(self):
        """A pack that the PIN before sealed, put by a window that still had its key or left by a kill, is none: it
        locks nobody out. No window puts one, and none is left where the phone has no room for it."""
        keep = "const {keepPack, readPack} = await load('views/pack-kept.js');"
        with loans.desk_with(institution()) as it:
            zoe = self.phone(it, "zoe")
            zoe.take_day()
            zoe.module(
                "const {sealedPack, keepSealedPack} = await load('views/pack-record.js');"
                "const old = await sealedPack(); const {changePin} = await load('views/kept-pin.js');"
                f"await changePin('{offline.PIN}', '31 wasps', [], old); await keepSealedPack(old);"
            )
            zoe.go("pack")
            zoe.wait(lambda: zoe.box("2 North"), "the offices, and no pack")
            self.assertFalse(zoe.all(".kept-age"))
            zoe.take_here("31 wasps")
            self.age(zoe)
            told = zoe.module(
                f"{keep} const pack = await readPack(); const {{keptPin, keepAnew}} = await load('shared/kept.js');"
                "await keepAnew({...(await keptPin()), mark: 'another'}, []);"
                "return keepPack(pack).then(() => 'kept', (problem) => problem.message)"
            )
            self.assertEqual(told, "another PIN")

    def test_a_round_of_the_pack(self):
        """Typed without a network, sent with one: each line once, also where somebody else entered one meanwhile."""
        with loans.desk_with(institution()) as it:
            zoe = self.phone(it, "zoe")
            zoe.take_day()
            zoe.network(offline.CUT)
            zoe.open_pack("pack/2")
            zoe.wait(lambda: zoe.table("Rounds of the week"), "the rounds")
            zoe.press("Open the round")
            zoe.wait(lambda: len(zoe.all(".paid-field")) == FEW, "the round")
            zoe.script("localStorage.setItem('kept-by-itself', 'no')")
            zoe.press("Fill in what is due")
            zoe.wait(lambda: zoe.bar() == "3 not sent, 2,049.99, since HH:MM", "what waits")
            receipt = {"amount": 68333, "day": DAY, "receipt": "2-20240331-000002"}
            it.send("tom", "POST", "/api/loans/0002-000002/repayments", receipt)
            zoe.network(offline.OPEN)
            it.let_in(zoe.driver, "zoe")
            zoe.open_kept()
            zoe.press("Enter 3 repayments")
            zoe.wait(lambda: zoe.results() == {"entered": 2, "repeated": 1}, "what came of them")
            self.assertEqual(zoe.bar(), "")
            self.assertEqual(offline.entered(it, FEW), offline.once(*[68333] * FEW))

    def test_by_itself(self):
        """A round of the pack is sent by itself, once there is a network and the phone is unlocked."""
        with loans.desk_with(institution()) as it:
            zoe = self.phone(it, "zoe")
            zoe.take_day()
            zoe.script("localStorage.setItem('kept-by-itself', 'yes')")
            zoe.follow("2 North")
            zoe.press("Open the round")
            zoe.wait(lambda: len(zoe.all(".paid-field")) == FEW, "the round")
            zoe.press("Fill in what is due")
            zoe.all("h1")[0].click()
            zoe.wait(lambda: zoe.results() == {"entered": FEW}, "what came of them")
            self.assertEqual(offline.entered(it, FEW), offline.once(*[68333] * FEW))

    def test_an_application_of_somebody_of_the_pack(self):
        with loans.desk_with(institution()) as it:
            zoe = self.phone(it, "zoe")
            zoe.take_day("3 Hill")
            zoe.network(offline.CUT)
            zoe.open_pack("pack/3/0003-000002")
            zoe.open_dialog("Application")
            self.assertIn("Elodie Kabore · 0003-000002", zoe.text(".modal.show"))
            zoe.fill("Principal", "500")
            zoe.fill("Instalments", "3")
            zoe.send("Keep on this phone")
            zoe.wait(lambda: "Elodie Kabore · 0003-000002" in zoe.text(".draft"), "the draft")
            self.assertEqual(zoe.bar(), "1 not sent, 0.00, since HH:MM")

    def test_few_requests(self):
        """A press asks for the business day and then for much at once; the next one reads what is new alone."""
        due = [f"/lists/due/2/{day}/0" for day in (DAY, "2024-04-07", "2099-12-31")]
        with loans.desk_with(institution(rounds.COUNT)) as it:
            zoe = self.phone(it, "zoe")
            products = [f"/products/{number}" for number in range(1, 5)]  # a few ahead
            accounts = "/played?2:" + ".".join(["1"] * rounds.COUNT)
            at_once = self.at_once(*products, *due, "/lists/clients/2/0")
            self.assertEqual(self.asked(zoe, True)[0], [*at_once, accounts])
            it.send("zoe", "POST", "/api/clients", {"office": 2, "name": "Bahati Mrema"})
            products = [f"/products/{number}" for number in range(2, 6)]
            # from the last client who is known
            at_once = self.at_once(*products, *due, "/lists/clients/2/39")
            self.assertEqual(self.asked(zoe, False)[0], [*at_once, accounts])
            zoe.follow("2 North")
            zoe.wait(lambda: zoe.table("Clients"), "the clients")
            zoe.fill("A name, a part of it, or a number", "bahati", within="main")
            zoe.wait(lambda: zoe.table("Clients")[0]["Number"] == "0002-000041", "the new client")

    def at_once(self, *paths):
        return ["/api/business-day", "/several?" + "&".join(paths)]

    def asked(self, zoe, pin):
        zoe.go("pack")
        if not pin:
            zoe.unlock()
        zoe.wait(lambda: zoe.box("2 North"), "the offices")
        zoe.settle()
        zoe.script("performance.clearResourceTimings()")
        zoe.take_here(pin=pin)
        return zoe.script(SENT)

    def test_3000_loans(self):
        """An office of 3,000 loans of 3,000 clients, 400 of them overdue and 700 due within the week: all of them are in
        the pack, with their accounts. Wanted are at most 12 requests and 300 kB."""
        with loans.desk_with(b"".join(large_office())) as it:
            zoe = self.phone(it, "zoe")
            for pin in (True, False):
                asked, size = self.asked(zoe, pin)
                self.assertLessEqual(len(asked), 11, asked)
                self.assertLessEqual(size, 300_000)
                print(f"    {len(asked)} requests, {size} bytes", end=" ")
            self.assertEqual(self.rows(zoe, "Day pack", "Office", "Clients"), [["2 North", "3,000"]])
            known = "return (await (await load('views/pack-kept.js')).readPack()).offices[0]"
            office = zoe.module(f"const {{lines, clients}} = (await (async () => {{ {known} }})());"
                                "return [lines.map(({loan}) => loan), clients]")
            self.assertEqual(office[0], [f"0002-{number:06}" for number in range(1, LARGE + 1)])
            self.assertEqual(office[1], [f"Client {number}" for number in range(1, 3001)])
            self.assertEqual(zoe.module(WITH_ACCOUNT), list(range(1, LARGE + 1)))
            self.assertNotIn("aren't in the pack", zoe.text("main"))
            messages = [f"/played?2:{first}" + ".1" * 999 for first in (1, 1001, 2001)]  # those first that are due
            self.assertEqual(asked[-3:], messages)

    def test_all_pages_of_loans(self):
        """Loans whose numbers lie close together or far apart: each once and in order, by few pages more than they fill."""
        draw = random.Random(3)
        cases = [
            [], [7], list(range(1, 200)), list(range(1, 201)), list(range(1, 202)), list(range(1, 3001)),
            list(range(1, 9000, 3)), [*range(1, 4000, 10), *range(4000, 5000)], [*range(1, 1001), *range(1001, 9000, 10)],
            sorted(draw.sample(range(1, 9999), 3000)), [1, *range(5000, 5500), *range(9000, 9400)],
        ]
        with loans.desk_with(institution()) as it:
            told = self.phone(it, "zoe").module(PAGES.replace("NUMBERS", json.dumps(cases)))
        for numbers, (lines, pages) in zip(cases, told):
            with self.subTest(len(numbers)):
                self.assertEqual(lines, numbers)
                self.assertLessEqual(pages, 1.5 * len(numbers) / 200 + 20)

    def test_a_loan_with_nothing_due(self):
        """Its client pays early: the loan gets a line in the round of the pack's day, which is sent as any other."""
        with loans.desk_with(institution()) as it:
            zoe = self.phone(it, "zoe")
            zoe.take_day("3 Hill")
            zoe.script("localStorage.setItem('kept-by-itself', 'no')")
            zoe.network(offline.CUT)
            zoe.open_pack("pack/3/0003-000001")
            zoe.follow("Enter a repayment")
            zoe.wait(lambda: zoe.script("return document.activeElement.matches('.paid-field')"), "the line")
            zoe.script("return document.activeElement").send_keys("50")
            zoe.wait(lambda: zoe.bar() == "1 not sent, 50.00, since HH:MM", "what waits")
            zoe.look("pack-early")
            zoe.open_pack("pack/3/0003-000001")
            zoe.follow("Enter a repayment")  # the same line once more, with what was typed
            zoe.wait(lambda: zoe.script(offline.AMOUNTS) == ["50"], "what was typed")
            zoe.network(offline.OPEN)
            it.let_in(zoe.driver, "zoe")
            zoe.open_kept(f"3/{DAY}")
            zoe.press("Enter 1 repayment")
            zoe.wait(lambda: zoe.results() == {"entered": 1}, "it")
            entries = it.send("head", "GET", "/api/loans/0003-000001/entries")[1]["entries"]
            self.assertEqual([(one["amount"], one["receipt"]) for one in entries], [(5000, "3-20240331-000001")])
            zoe.open_pack("pack/3/0003-000002")
            zoe.wait(lambda: "No active loan." in zoe.text("main"), "who has no loan")

    def test_how_loans_are_named(self):
        """Loans of some offices, close together or far apart, are those that their message is read as, in its order."""
        draw = random.Random(7)
        numbers = draw.sample(range(1, 10**6), 997)
        cases = [
            ["0002-000001"], ["0002-000001", "0002-000017", "0003-000005"], ["0001-000001", "9999-999999"],
            sorted(f"{draw.choice([1, 2, 30, 4000]):04}-{number:06}" for number in numbers),
        ]
        with loans.desk_with(institution()) as it:
            told = self.phone(it, "zoe").module(SPELLED.replace("CASES", json.dumps(cases)))
        self.assertEqual(told[:3], ["2:1", "2:1.16&3:5", "1:1&9999:999999"])
        for case, text in zip(cases, told):
            read = []
            for part in text.split("&"):
                office, steps = part.split(":")
                numbers = itertools.accumulate(int(step) for step in steps.split("."))
                read += [f"{int(office):04}-{number:06}" for number in numbers]
            self.assertEqual(read, case)

    def test_what_the_front_has_no_room_for(self):
        """It is asked for first by the next message, which names no more than there was room for. What twelve messages
        don't bring isn't in the pack, and the pages say so: two are for lists, and one is kept for the terms of products."""
        with loans.desk_with(institution(12)) as it:
            zoe = self.phone(it, "zoe")
            zoe.go("pack")
            zoe.wait(lambda: zoe.box("2 North"), "the offices")
            zoe.settle()
            zoe.script(ROOM.replace("LOANS", "1"))
            zoe.script("performance.clearResourceTimings()")
            zoe.take_here()
            asked = [one for one in zoe.script(SENT)[0] if one.startswith("/played")]
            self.assertEqual(asked, [f"/played?2:{named}" for named in ("1" + ".1" * 11, *range(2, 10))])
            told = "The entries of 3 loans aren't in the pack. Their receipts say what is left for certain."
            self.assertIn(told, zoe.text("main"))
            zoe.look("pack-without-accounts")
            zoe.follow("2 North")
            zoe.wait(lambda: told in zoe.text("main"), "that of the office")
            self.assertEqual(zoe.module(WITH_ACCOUNT), list(range(1, 10)))

    def test_accounts_that_do_not_come(self):
        """There is a pack all the same, and a receipt tells what is certain. What came before stays."""
        with loans.desk_with(institution()) as it:
            zoe = self.phone(it, "zoe")
            zoe.go("pack")
            zoe.wait(lambda: zoe.box("2 North"), "the offices")
            zoe.script(LOST.replace("MESSAGES", "0"))
            zoe.take_here()
            self.assertIn("The entries of 3 loans aren't in the pack.", zoe.text("main"))
            zoe.go("pack")
            zoe.unlock()
            zoe.wait(lambda: zoe.box("2 North"), "the offices")
            zoe.script(LOST.replace("MESSAGES", "1"))
            zoe.script(ROOM.replace("LOANS", "1"))
            zoe.take_here(pin=False)
            self.assertIn("The entries of 2 loans aren't in the pack.", zoe.text("main"))

    def test_a_reply_that_comes_slowly(self):
        """It isn't given up as long as parts of it come, however long all of it takes."""
        for milliseconds, count in (300, FEW), (900, 0):
            with self.subTest(milliseconds), loans.desk_with(institution()) as it:
                zoe = self.phone(it, "zoe")
                zoe.go("pack")
                zoe.wait(lambda: zoe.box("2 North"), "the offices")
                zoe.script(PARTS.replace("PAUSE", str(milliseconds)))
                zoe.take_here()
                self.assertEqual(len(zoe.module(WITH_ACCOUNT)), count)

    def test_a_pack_takes_so_many_bytes(self):
        """How many loans a message names comes of how many bytes there is room for, and of what those of the one before
        took."""
        with loans.desk_with(institution()) as it:
            told = self.phone(it, "zoe").module(BUDGET)
        self.assertEqual(told, [[800, 1000, 25], 1825])

    def test_packs_of_1_8_and_1_9(self):
        """They have whole entries, in an account as it is or as a text: they are read all the same."""
        with loans.desk_with(institution()) as it:
            zoe = self.phone(it, "zoe")
            zoe.take_day()
            zoe.module(
                "const {readPack} = await load('views/pack-kept.js'); const pack = await readPack();"
                "const {entriesOf} = await load('views/pack-accounts.js');"
                "const [one, two, three] = pack.offices[0].lines; delete three.account;"
                "const whole = (its, loan) => ({...its, entries: entriesOf(loan, its.entries)});"
                "[one, two].forEach((line) => (line.account = whole(JSON.parse(line.account), line.loan)));"
                "two.account = JSON.stringify(two.account);"
                "const plain = (_, value) => typeof value === 'bigint' ? String(value) : value;"
                "const {seal} = await load('views/kept-pin.js');"
                "const sealed = await seal('pack', JSON.stringify(pack, plain));"
                "await (await load('views/pack-record.js')).keepSealedPack({taken: pack.taken, sealed});"
            )
            zoe.open_pack("pack/2")
            zoe.wait(lambda: "The entries of 1 loan aren't in the pack." in zoe.text("main"), "the pack")
            self.assertEqual(zoe.module(WITH_ACCOUNT), [1, 2])
            zoe.open_round()
            zoe.type(1, "100")
            zoe.follow("Receipt", ".round-lines")
            zoe.wait(lambda: zoe.all(".code"), "the receipt")
            self.assertEqual(dict(zoe.script(offline.FACTS))["Left to pay"], "920.00")

    def is_certain(self, zoe):
        zoe.follow("2 North")
        zoe.open_round()
        zoe.type(1, "100")
        zoe.follow("Receipt", ".round-lines")
        zoe.wait(lambda: zoe.all(".code"), "the receipt")
        self.assertEqual(dict(zoe.script(offline.FACTS))["Left for certain: before, less paid"], "920.00")

    def test_over_an_older_front(self):
        """One that has no message for several readings is asked for each, and for no accounts: a receipt tells what is
        certain."""
        with loans.desk_with(institution()) as it:
            zoe = self.phone(it, "zoe")
            zoe.go("pack")
            zoe.wait(lambda: zoe.box("2 North"), "the offices")
            zoe.script(OLDER)
            zoe.take_here()
            self.assertEqual(self.rows(zoe, "Day pack", "Office", "Clients"), [["2 North", str(FEW)]])
            self.assertIn("The entries of 3 loans aren't in the pack.", zoe.text("main"))
            self.is_certain(zoe)

    def test_broken_off(self):
        """What comes broken off is asked for again; where it stays so the pack before stays, and that is told."""
        with loans.desk_with(institution()) as it:
            zoe = self.phone(it, "zoe")
            zoe.go("pack")
            zoe.wait(lambda: zoe.box("2 North"), "the offices")
            zoe.script(BROKEN)
            zoe.take_here()
            self.assertEqual(zoe.script("return window.broken"), 2)
            self.assertEqual(self.rows(zoe, "Day pack", "Office", "Clients"), [["2 North", str(FEW)]])
            zoe.script("window.most = 1000")
            zoe.press("Take the day along")
            zoe.wait(lambda: zoe.all("main .alert-danger, main .alert-warning"), "that it wasn't taken along")
            self.assertEqual(zoe.script("return window.broken"), 2 + 4)  # tries
            self.age(zoe)

    def test_no_room(self):
        """Where the phone has no room the pack before stays, and what happened is told."""
        with loans.desk_with(institution()) as it:
            zoe = self.phone(it, "zoe")
            zoe.take_day()
            zoe.script(FULL)
            zoe.press("Take the day along")
            zoe.wait(lambda: "This phone could not keep that." in zoe.text("main"), "that it isn't kept")
            zoe.open_pack("pack")
            zoe.wait(lambda: zoe.table("Day pack"), "the pack before")

    def test_overdue_by_weeks(self):
        """Of a loan that is overdue the list tells no day for what falls due later: it counts on the last day, and the
        pages say so. What is due by the business day and by the last day is just that."""
        with loans.desk_with(institution(more=WEEKLY)) as it:
            zoe = self.phone(it, "zoe")
            zoe.take_day("3 Hill")
            zoe.follow("3 Hill")
            told = "1 overdue loan has one more instalment by Apr 7, 2024. Its day isn't known here"
            zoe.wait(lambda: told in zoe.text("main"), "what isn't counted")
            due = ["200.00"] * 3 + ["543.33"] * 4 + ["643.33"]
            self.assertEqual([row["Due"] for row in zoe.table("Rounds of the week")], due)
            zoe.look("pack-overdue")
            zoe.open_round()  # of the business day
            self.assertNotIn("isn't known here", zoe.text("main"))
            zoe.driver.back()
            zoe.open_round(4)
            self.assertIn(told, zoe.text("main"))
            zoe.look("pack-overdue-round")

    def test_what_is_due(self):
        """By each day, of lines as the list tells them: worked out by hand."""
        found = (
            "const {dueOn, undatedOn} = await load('views/pack-kept.js');"
            "const pack = {businessDay: '2099-12-28', until: '2099-12-31'};"
            "const line = (since, due, later) => ({since, due: BigInt(due), later: BigInt(later)});"
            "const lines = [line('2099-12-30', 0, 5), line('2099-12-20', 7, 5), line('2099-12-28', 7, 0)];"
            "const days = ['2099-12-28', '2099-12-29', '2099-12-30', '2099-12-31'];"
            "const due = (day) => lines.map((one) => Number(dueOn(pack, one, day)));"
            "return days.map((day) => [...due(day), undatedOn(pack, {lines}, day)])"
        )
        with loans.desk_with(institution()) as it:
            told = self.phone(it, "zoe").module(found)
        self.assertEqual(told, [[0, 7, 7, 0], [0, 7, 7, 1], [5, 7, 7, 1], [5, 12, 7, 0]])

    def test_the_last_day(self):
        """On the last business day of all there is one day to come: none."""
        with loans.desk_with(institution()) as it:
            self.assertEqual(it.send("head", "PUT", "/api/business-day", {"day": "2099-12-31"})[0], 200)
            zoe = self.phone(it, "zoe")
            zoe.take_day()
            zoe.follow("2 North")
            rows = self.rows(zoe, "Rounds of the week", "Day", "Loans", "Due")
            self.assertEqual(rows, [["Dec 31, 2099\nOpen the round", "3", "3,060.00"]])

    def test_entered_since(self):
        """A payment that somebody else entered since the day was taken along is asked about."""
        with loans.desk_with(institution()) as it:
            zoe = self.phone(it, "zoe")
            zoe.take_day()
            zoe.script("localStorage.setItem('kept-by-itself', 'yes')")
            paid = {"amount": 10000, "day": DAY, "receipt": "counter-1"}
            self.assertEqual(it.send("tom", "POST", "/api/loans/0002-000001/repayments", paid)[0], 201)
            zoe.follow("2 North")
            zoe.open_round()
            zoe.press("Fill in what is due")
            zoe.all("h1")[0].click()
            zoe.wait(lambda: zoe.results() == {"entered": 2, "doubt": 1}, "what came of them")
            zoe.press("Enter 1 repayment")
            zoe.wait_for_dialog("100.00 of Mar 31, 2024 was entered on this loan since these figures were read")
            zoe.press("Enter 1 repayment all the same", ".modal.show")
            zoe.wait(lambda: zoe.results() == {"entered": 3}, "all of them")
            self.assertEqual([len(one) for one in offline.entered(it, FEW)], [2, 1, 1])

    def test_taken_anew(self):
        """A round of the pack before is read from the new one: what was typed into it stays, and what was sent."""
        with loans.desk_with(institution()) as it:
            zoe = self.phone(it, "zoe")
            zoe.take_day()
            zoe.script("localStorage.setItem('kept-by-itself', 'no')")
            zoe.follow("2 North")
            zoe.open_round()
            zoe.type(1, "100")
            zoe.press("Enter 1 repayment")
            zoe.wait(lambda: zoe.results() == {"entered": 1}, "it")
            zoe.type(2, "50")
            zoe.wait(lambda: zoe.bar().startswith("1 not sent, 50.00"), "it")
            paid = {"amount": 68333, "day": DAY, "receipt": "counter-3"}
            self.assertEqual(it.send("tom", "POST", "/api/loans/0002-000003/repayments", paid)[0], 201)
            zoe.open_pack("pack")
            zoe.take_here(pin=False)
            zoe.follow("2 North")
            zoe.open_round()
            lines = zoe.table("A round of collections")
            due = [row["Due"] for row in lines]
            self.assertEqual(due, ["583.33", "683.33"])  # the third is paid
            self.assertEqual((zoe.results(), zoe.bar()), ({"entered": 1}, "1 not sent, 50.00, since HH:MM"))
            zoe.press("Enter 1 repayment")
            zoe.wait(lambda: zoe.bar() == "", "the other one")
            self.assertEqual(offline.entered(it, 2), offline.once(10000, 5000))

    def test_another_person(self):
        """Who knows the PIN sees the pack and whose it is, and takes the own offices along. A person who doesn't see the
        office of a round is refused line by line."""
        people = loans.PEOPLE | {"hal": "3/1"}
        staff = b'1/1 POST /staff {"office":3,"name":"Hal","role":"officer"}\n'
        with desk.Desk(lines=institution(more=staff), people=people) as it:
            zoe = self.phone(it, "zoe")
            zoe.take_day("3 Hill")
            zoe.follow("2 North")
            zoe.open_round()
            zoe.type(1, "100")
            zoe.wait(lambda: zoe.bar().startswith("1 not sent, 100.00"), "it")
            it.let_in(zoe.driver, "hal")
            zoe.open_pack("pack")
            self.wait_age(zoe, "zoe 2/2")
            self.assertFalse(zoe.box("2 North"))
            zoe.take_here(pin=False)
            self.wait_age(zoe, "hal 3/1")
            self.assertEqual(self.rows(zoe, "Day pack", "Office"), [["3 Hill"]])
            zoe.open_kept("2/" + DAY)
            self.assertIn("zoe 2/2 took this round along", zoe.text("main"))
            zoe.press("Enter 1 repayment")
            zoe.wait(lambda: zoe.results() == {"F4": 1}, "the refusal")
            self.assertEqual(offline.entered(it, FEW), [[]] * FEW)

    def wait_age(self, zoe, person):
        zoe.wait(lambda: f"by {person}, on business day Mar 31, 2024" in zoe.text(".kept-age"), person)

    def test_another_desk(self):
        """Where the last client that was known has another name, or one who owes something, all are read again."""
        names = "return (await (await load('views/pack-kept.js')).readPack()).offices[0].clients"
        with loans.desk_with(institution()) as it:
            zoe = self.phone(it, "zoe")
            zoe.take_day()
            for client in (2, 0):
                zoe.module(
                    "const {readPack, keepPack} = await load('views/pack-kept.js'); const pack = await readPack();"
                    f"pack.offices[0].clients[{client}] = 'Somebody else'; await keepPack(pack);"
                )
                zoe.open_pack("pack")
                zoe.take_here(pin=False)
                self.assertEqual(zoe.module(names), ["Client 1", "Client 2", "Client 3"])


class OfficersPhone(Phone, offline.Battery):
    """A phone that takes a day along, and dies of a flat battery."""

    def place(self, place):
        """Shows another page of those that are open, without a word from any desk."""
        self.script("location.hash = arguments[0]", f"#/{place}")
        self.wait(lambda: self.script("return location.hash") == f"#/{place}", place)

    def empty(self, line):
        self.all(".paid-field")[line - 1].send_keys(Keys.CONTROL, "a", Keys.BACKSPACE)

    def seen(self, name):
        """Looks at what is seen: nothing of it is wider than the phone."""
        self.look(f"day-{name}")
        assert self.script("return document.documentElement.scrollWidth") <= 360, name

    def count_cash(self, cents):
        """Types so much by notes and coins, from the largest on."""
        fields = self.all(".cash-line input")
        for size, field in zip(SIZES, fields):
            if cents >= size:
                field.send_keys(str(cents // size))
                cents %= size
        if cents:
            fields[len(SIZES)].send_keys(f"0.{cents:02}")


VILLAGES = {3: ("Hill", 14), 4: ("Lake", 13), 5: ("Ford", 13)}
SIZES = [100000, 50000, 20000, 10000, 5000, 2000, 1000, 500, 200, 100, 50, 20, 10, 5]
BEFORE = "2024-03-30"


def villages():
    """Three villages below office 2, of each so many clients that have 683.33 due on 2024-03-31; and one client more in
    Hill, who has no loan."""
    offices = [f'1/1 POST /offices {{"number":{number},"parent":2,"name":"{name}"}}' for number, (name, _) in
               VILLAGES.items()]
    made = []
    for office, (name, count) in VILLAGES.items():
        for number in range(1, count + 1):
            account = f"{office:04}-{number:06}"
            made += [
                f'2/1 POST /clients {{"office":{office},"name":"{name} client {number}"}}',
                f'2/1 POST /loans {{"client":"{account}","product":1,"principal":100000,"periods":3}}',
                f"2/1 POST /loans/{account}/approve",
                f'2/1 POST /loans/{account}/disburse {{"day":"2024-01-31"}}',
            ]
    more = ['2/1 POST /clients {"office":3,"name":"Fatou Sarr"}', f'1/1 PUT /business-day {{"day":"{DAY}"}}']
    return loans.LINES + "".join(f"{line}\n" for line in [*offices, *made, *more]).encode()


@unittest.skipUnless(running.has_lists(), "the program has no lists")
class Day(offline.Case):
    """An officer's day without a network, at 360 columns: 40 clients in three villages, two payments short, one
    back-dated, a new client, an application, a phone that dies at noon. In the evening all of it is sent, each payment
    once, and the cash agrees."""

    SHORT = {(3, 5): 30000, (4, 2): 50000}
    BACK = (3, 3)

    def test_a_day(self):
        with loans.desk_with(villages()) as it:
            zoe = OfficersPhone(it, "zoe")
            self.addCleanup(zoe.close)
            self.morning(zoe)
            it.nginx.stop()
            zoe.network(offline.CUT)
            self.hill(zoe)
            self.noon_at_the_lake(zoe)
            self.ford(zoe)
            self.drafts(zoe)
            self.assertEqual(zoe.bar(), "42 not sent, 26,426.54, since HH:MM")
            it.nginx.start()
            zoe.network(offline.OPEN)
            self.evening(it, zoe)
            self.assertEqual(self.entered(it), self.wanted())

    def morning(self, zoe):
        """The round of the day before, for who paid then, and the day by one press."""
        zoe.take_along(f"3/{BEFORE}", by_itself=True)
        zoe.go("pack")
        for office, (name, _) in VILLAGES.items():
            zoe.wait(lambda label=f"{office} {name}": zoe.box(label), name).click()
        zoe.take_here(pin=False)
        zoe.seen("morning")

    def hill(self, zoe):
        zoe.place("pack/3")
        zoe.seen("hill")
        zoe.open_round()
        zoe.press("Fill in what is due")
        zoe.empty(self.BACK[1])
        zoe.type(5, "300")
        zoe.wait(lambda: zoe.bar() == "13 not sent, 8,499.96, since HH:MM", "the round of Hill")
        zoe.seen("hill-round")
        zoe.place(f"kept/3/{BEFORE}")
        zoe.wait(lambda: "Round of Mar 30, 2024" in zoe.title(), "the round of the day before")
        zoe.type(self.BACK[1], "343.33")
        zoe.wait(lambda: zoe.bar() == "14 not sent, 8,843.29, since HH:MM", "the payment of the day before")

    def noon_at_the_lake(self, zoe):
        """The battery is flat in the midst of a round: what the bar told is there when it is charged."""
        zoe.place("pack/4")
        zoe.open_round()
        zoe.press("Fill in what is due")
        zoe.wait(lambda: zoe.bar().startswith("27 not sent"), "the round of Lake")
        zoe.type(2, "500")
        zoe.wait(lambda: zoe.bar() == "27 not sent, 17,543.25, since HH:MM", "the short payment")
        zoe.die()
        zoe.network(offline.CUT)
        zoe.open_kept(f"4/{DAY}")
        self.assertEqual(zoe.script(offline.AMOUNTS), ["683.33", "500", *["683.33"] * 11])
        self.assertEqual(zoe.bar(), "27 not sent, 17,543.25, since HH:MM")
        zoe.follow("Receipt")
        zoe.wait(lambda: zoe.all(".code"), "the receipt")
        zoe.seen("receipt")

    def ford(self, zoe):
        zoe.place("pack/5")
        zoe.open_round()
        zoe.press("Fill in what is due")
        zoe.wait(lambda: zoe.bar().startswith("40 not sent"), "the round of Ford")
        self.draft(zoe, f"kept/5/{DAY}/drafts", "New client", Name="Salma Diouf")

    def drafts(self, zoe):
        zoe.place("pack/3/0003-000015")
        zoe.wait(lambda: "Fatou Sarr" in zoe.text("h1"), "the client")
        zoe.seen("client")
        self.draft(zoe, None, "Application", Principal="500", Instalments="3")
        zoe.seen("application")

    def draft(self, zoe, place, kind, **values):
        if place is not None:
            zoe.place(place)
        zoe.open_dialog(kind)
        for label, value in values.items():
            zoe.fill(label, value)
        zoe.send("Keep on this phone")

    def evening(self, it, zoe):
        it.let_in(zoe.driver, "zoe")
        zoe.open_pack("kept")
        zoe.seen("evening")
        waiting = 42
        while waiting > 2:  # all payments are sent by themselves
            zoe.wait(lambda before=waiting: self.waiting(zoe) < before, f"fewer than {waiting} that wait")
            waiting = self.waiting(zoe)
        for office, words in ((5, "Client 0005-000014 is entered."), (3, "Loan 0003-000015 is submitted")):
            zoe.place(f"kept/{office}/{DAY}/drafts")
            zoe.press("Send")
            zoe.wait(lambda words=words: words in zoe.text("main"), words)
        zoe.wait(lambda: zoe.bar() == "", "that nothing waits")
        for place, cents in self.cash().items():
            zoe.place(f"kept/{place}/cash")
            words = f"{place[0]} {VILLAGES[int(place[0])][0]}", f"Mar {place[-2:]}, 2024"
            zoe.wait(lambda words=words: all(one in zoe.text(".handover") for one in words), "the hand-over")
            zoe.count_cash(cents)
            zoe.wait(lambda: "0.00: it agrees" in zoe.text(".handover"), "that the cash agrees")
            zoe.seen(f"cash-{place[0]}")
        client = it.send("head", "GET", "/api/clients/0005-000014")[1]
        loan = it.send("head", "GET", "/api/loans/0003-000015")[1]
        self.assertEqual((client["name"], loan["client"], loan["status"]), ("Salma Diouf", "0003-000015", 100))

    def waiting(self, zoe):
        return int(re.match(r"\d*", zoe.bar())[0] or 0)

    def cash(self):
        """Of each round the cents that were taken."""
        sums = {}
        for office in VILLAGES:
            for day, cents, _ in sum((one for number, one in self.wanted().items() if number[0] == office), []):
                place = f"{office}/{day}"
                sums[place] = sums.get(place, 0) + cents
        return sums

    def wanted(self):
        """Of each loan the one repayment that stands: day, amount and receipt."""
        every = [(office, number) for office, (_, count) in VILLAGES.items() for number in range(1, count + 1)]
        due = {one: (DAY, self.SHORT.get(one, 68333)) for one in every} | {self.BACK: (BEFORE, 34333)}
        return {
            (office, number): [(day, cents, f"{office}-{day.replace('-', '')}-{number:06}")]
            for (office, number), (day, cents) in due.items()
        }

    def entered(self, it):
        told = {}
        for office, number in self.wanted():
            entries = it.send("head", "GET", f"/api/loans/{office:04}-{number:06}/entries")[1]["entries"]
            told[office, number] = [(one["day"], one["amount"], one["receipt"]) for one in entries]
        return told


@unittest.skipUnless(running.has_lists(), "the program has no lists")
class WithoutLists(offline.Case):
    def test_it_is_told(self):
        with desk.Desk(lines=institution(), people=loans.PEOPLE, lists=False) as it:
            zoe = Phone(it, "zoe")
            self.addCleanup(zoe.close)
            zoe.go("pack")
            zoe.settle()
            self.assertIn("This desk has no lists", zoe.text("main"))


@unittest.skipUnless(running.has_lists(), "the program has no lists")
class Left(offline.AsTheDesk, offline.Case):
    """In a round of the day pack too a receipt tells what the desk will say."""

    def test_as_the_desk_answers(self):
        with loans.desk_with(self.LINES) as it:
            zoe = Phone(it, "zoe")
            self.addCleanup(zoe.close)
            zoe.take_day()
            zoe.network(offline.CUT)
            zoe.open_pack("pack/2")
            zoe.open_round()
            self.type_all(zoe)
            self.compare(it, zoe)
            zoe.look("pack-receipt")
