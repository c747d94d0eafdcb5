"""A day without a network: pages that open without one, a round taken along, what is typed on it and sent later. The
loans are those of the tests of rounds: forty, of each 683.33 due on 2024-03-31."""
import base64
import contextlib
import glob
import json
import os
import re
import shutil
import signal
import subprocess
import tempfile
import time
import unittest

from selenium.common.exceptions import ElementClickInterceptedException

import desk
import reader
import running
import test_pages
import test_pages_counter as counter
import test_pages_loans as loans
import test_pages_rounds as rounds

PLACE = "2/2024-03-31"
PIN = "24 bees"
COUNT = 5
FEW = rounds.lines_of(COUNT)
CUT = {"offline": True, "latency": 0, "downloadThroughput": -1, "uploadThroughput": -1}
OPEN = CUT | {"offline": False}
SLOW = OPEN | {"latency": 60}
AMOUNTS = "return [...document.querySelectorAll('.paid-field')].map((one) => one.value)"
FACTS = """
return [...document.querySelectorAll('.sheet .fact')].map((one) =>
    [...one.children].map((part) => part.innerText.replaceAll('\\u00a0', ' ')))
"""
# shifts the clock of a page
SHIFT = """
const real = Date;
window.Date = class extends real {
    constructor(...given) { super(...(given.length ? given : [real.now() + SHIFT])); }
    static now() { return real.now() + SHIFT; }
};
"""
# what stands in the browser's database, as bytes: none of it may be readable
KEPT = """
const done = arguments[0];
indexedDB.open('microloan-kept').onsuccess = ({target}) => {
    const asked = target.result.transaction('rounds').objectStore('rounds').getAll();
    asked.onsuccess = () => done(asked.result.map((one) => `${one.id} ${one.count} ${one.cents} ` +
        new TextDecoder('latin1').decode(one.sealed.data)));
};
"""
# of what there are copies, and their bytes
COPIES = """
const keys = await (await caches.open('kept')).keys();
return keys.map(({url}) => decodeURIComponent(new URL(url).pathname).replace('/kept/', '')).sort();
"""
COPIED = """
const cache = await caches.open('kept');
const bytes = async (key) => new TextDecoder('latin1').decode(await (await cache.match(key)).arrayBuffer());
return Promise.all((await cache.keys()).map(bytes));
"""


class Phone(reader.Reader):
    """A browser of an officer's phone."""

    def __init__(self, it, name):
        super().__init__(it, name, width=360, height=740)
        self.driver.execute_cdp_cmd("Network.enable", {})

    def close(self):
        self.network(OPEN)
        super().close()

    def network(self, conditions):
        """Sets the page's network; the worker's is that of the machine."""
        self.driver.execute_cdp_cmd("Network.emulateNetworkConditions", conditions)

    @contextlib.contextmanager
    def clock_set(self, days):
        """The clock of each page that is opened within the block is so many days ahead."""
        shift = {"source": SHIFT.replace("SHIFT", str(days * 86_400_000))}
        self.driver.execute_cdp_cmd("Page.enable", {})
        added = self.driver.execute_cdp_cmd("Page.addScriptToEvaluateOnNewDocument", shift)
        try:
            yield
        finally:
            self.driver.execute_cdp_cmd("Page.removeScriptToEvaluateOnNewDocument", added)

    def is_kept(self):
        """Waits until the pages' worker is there and has their files."""
        state = "const {active} = await navigator.serviceWorker.ready; return active.state"
        self.wait(lambda: self.module(state) == "activated", "the worker")

    def look(self, name):
        """Takes a screenshot of what is seen, where MICROLOAN_SHOTS names a folder for them."""
        if os.environ.get("MICROLOAN_SHOTS"):
            desk.screenshot(self.driver, name)

    # what the officer does

    def take_along(self, place=PLACE, by_itself=False):
        """Takes a round along. What is typed is sent by a press, or by itself."""
        self.script("localStorage.setItem('kept-by-itself', arguments[0])", "yes" if by_itself else "no")
        self.go(f"round/{place}")
        self.is_kept()
        self.open_dialog("Take this round along")
        self.fill("New PIN", PIN)
        self.fill("The PIN once more", PIN)
        self.send("Choose a PIN")
        self.wait(lambda: "Taken along" in self.text("main"), "the round on the phone")
        self.script("document.querySelector('.toast')?.remove()")  # it lies over what is at the top

    def unlock(self, pin=PIN):
        self.wait(lambda: self.all("main form input"), "the question for the PIN")
        self.all("main form input")[0].send_keys(pin)
        self.press("Open")

    def open_kept(self, place=PLACE):
        self.driver.get("about:blank")
        self.driver.get(f"{self.desk.url}/#/kept/{place}")
        self.unlock()
        self.wait(lambda: self.all(".paid-field"), "the round")

    def type(self, line, amount):
        field = self.all(".paid-field")[line - 1]
        field.clear()
        field.send_keys(amount)

    def draft(self, kind, **values):
        """Writes a draft on the page of drafts."""
        self.open_dialog(kind)
        for label, value in values.items():
            self.fill(label, value)
        self.send("Keep on this phone")

    def bar(self):
        return re.sub(r"\d\d:\d\d$", "HH:MM", self.text(".unsent"))

    def press(self, words, within="main"):
        """Presses a button where a person has it: not below the sum that stays at the foot, nor below a note."""
        found = self.wait(lambda: self.find(words, within), f"the button {words}")
        self.script("arguments[0].scrollIntoView({block: 'center'})", found)
        found.click()

    def press_enter(self):
        """Presses the button that enters a round, whatever number of repayments it tells just now. Whether it could."""
        found = self.all(".round-enter")
        if not found or not found[0].is_enabled():
            return False
        self.script("arguments[0].scrollIntoView({block: 'center'})", found[0])
        try:
            found[0].click()
        except ElementClickInterceptedException:  # it can't be pressed any more
            return False
        return True

    def enter(self):
        """Waits until the round can be entered, and presses."""
        self.wait(self.press_enter, "the button that enters")

    def follow(self, words, within="main"):
        """Presses a link or a button, and waits for another page."""
        before = self.script("return location.hash")
        self.press(words, within)
        self.wait(lambda: self.script("return location.hash") != before, "another page")

    def printed(self, name):
        """The page as it is printed on the paper that it asks for: its width and height in mm, its text and the path of
        its first page as a picture."""
        told = self.driver.execute_cdp_cmd("Page.printToPDF", {"preferCSSPageSize": True, "printBackground": False})
        path = shots(name + ".pdf")
        with open(path, "wb") as file:
            file.write(base64.b64decode(told["data"]))
        info = run("pdfinfo", path)
        size = [round(float(one) / 72 * 25.4) for one in re.search(r"Page size: +([\d.]+) x ([\d.]+)", info).groups()]
        run("pdftoppm", "-png", "-r", "200", "-singlefile", path, path.removesuffix(".pdf"))
        pages = int(re.search(r"Pages: +(\d+)", info)[1])
        return size, pages, run("pdftotext", "-layout", path, "-"), path.removesuffix(".pdf") + ".png"

    def results(self):
        found = self.script("return [...document.querySelectorAll('[data-result]')].map((one) => one.dataset.result)")
        return {result: found.count(result) for result in found}


class Battery(Phone):
    """A phone with a profile of its own, which outlives its browser: that is killed as by a flat battery."""

    def __init__(self, it, name):
        self.desk, self.name = it, name
        self.profile = tempfile.mkdtemp(prefix="microloan-phone-")
        self.kills = 0
        self.start()
        self.sign_in()

    def start(self):
        self.driver = desk.new_browser(360, 740, profile=self.profile)
        self.wish("light")
        self.widen(360, 740)
        self.driver.execute_cdp_cmd("Network.enable", {})

    def sign_in(self):
        self.desk.let_in(self.driver, self.name)
        self.driver.get(self.desk.url + "/")
        self.settle()

    def die(self, is_torn=False):
        """Kills the browser's processes, and chromedriver, and starts a browser anew. is_torn: the browser's databases end
        with the beginning of a record, as a battery leaves them that went flat as one was written."""
        driver = self.driver.service.process
        killed = descendants(driver.pid)
        driver.kill()
        for pid in killed:  # the browser before those that it would start anew
            with contextlib.suppress(ProcessLookupError):
                os.kill(pid, signal.SIGKILL)
        driver.wait()
        self.wait(lambda: not any(os.path.exists(f"/proc/{pid}") for pid in killed), "the end of the browser")
        for name in ("SingletonLock", "SingletonCookie", "SingletonSocket"):
            with contextlib.suppress(FileNotFoundError):
                os.unlink(os.path.join(self.profile, name))
        if is_torn:
            self.tear()
        self.kills += 1
        self.start()

    def tear(self):
        """Of a record of 5,000 bytes, whole in its block, its head and 300 bytes."""
        logs = glob.glob(os.path.join(self.profile, "Default", "IndexedDB", "*", "*.log"))
        with open(max(logs, key=os.path.getmtime), "ab") as file:
            block = 32768
            if block - file.tell() % block < 6000:
                file.write(bytes(block - file.tell() % block))  # the rest of a block may be empty
            file.write(os.urandom(4) + (5000).to_bytes(2, "little") + b"\1" + os.urandom(300))

    def close(self):
        self.driver.quit()
        shutil.rmtree(self.profile, ignore_errors=True)


def descendants(pid):
    """The processes below a process, from above."""
    children = []
    with contextlib.suppress(FileNotFoundError):
        for thread in os.listdir(f"/proc/{pid}/task"):
            with open(f"/proc/{pid}/task/{thread}/children", encoding="ascii") as file:
                children += [int(child) for child in file.read().split()]
    return [one for child in children for one in [child, *descendants(child)]]


def shots(name):
    """A path in the folder of screenshots."""
    folder = os.environ.get("MICROLOAN_SHOTS") or os.path.join(running.TOP, "out", "shots")
    os.makedirs(folder, exist_ok=True)
    return os.path.join(folder, name)


def text_of(path):
    with open(path, encoding="utf-8", errors="replace") as file:
        return file.read()


def run(*words):
    return subprocess.run(words, stdout=subprocess.PIPE, stderr=subprocess.DEVNULL, text=True, check=True).stdout


def code_in(picture):
    """What a second program reads from the code in a picture: Debian's zbar."""
    return run("zbarimg", "--quiet", "--raw", picture).removesuffix("\n")


class Case(unittest.TestCase):
    def phone(self, it, name):
        made = Phone(it, name)
        self.addCleanup(made.close)
        return made


def entered(it, count=COUNT):
    """Of each loan, the repayments that stand: day, amount and receipt."""
    told = [it.send("head", "GET", f"/api/loans/0002-{loan:06}/entries")[1]["entries"] for loan in range(1, count + 1)]
    return [[(one["day"], one["amount"], one["receipt"]) for one in entries] for entries in told]


def once(*amounts):
    """What stands where each line of the round was entered once."""
    return [[("2024-03-31", cents, f"2-20240331-{loan:06}")] for loan, cents in enumerate(amounts, 1)]


class Opening(Case):
    """The pages install, and open with the network cut."""

    PLACES = (
        "today", "clients/2", "client/0002-000001", "loans/2", "loan/0002-000001", "statement/0002-000001", "round/2",
        "arrears", "waivers/0002-000001", "penalties/2", "catalogue", "journal/2", "people",
    )

    def test_installs(self):
        with loans.desk_with(loans.PAID_OUT) as it:
            tom = self.phone(it, "tom")
            tom.is_kept()
            self.assertEqual(tom.driver.execute_cdp_cmd("Page.getAppManifest", {})["errors"], [])
            errors = tom.driver.execute_cdp_cmd("Page.getInstallabilityErrors", {})["installabilityErrors"]
            self.assertEqual(errors, [])
            place = re.search(r'"(/files/[^"]+/manifest.webmanifest)"', it.exchange("tom", "GET", "/")[2].decode())[1]
            manifest = json.loads(it.exchange(None, "GET", place)[2])
            for icon in manifest["icons"]:
                status, fields, _ = it.exchange(None, "GET", icon["src"])
                self.assertEqual((status, fields["Content-Type"]), (200, icon["type"]))

    def test_every_page_with_the_front_gone(self):
        """No page is the browser's own: each says that there is no network, and leads to what is on the phone."""
        with loans.desk_with(loans.PAID_OUT) as it:
            tom = self.phone(it, "tom")
            tom.is_kept()
            it.nginx.stop()
            tom.network(CUT)
            tom.driver.execute_cdp_cmd("Network.clearBrowserCache", {})
            for place in self.PLACES:
                with self.subTest(place):
                    tom.driver.get("about:blank")
                    tom.driver.get(f"{it.url}/#/{place}")
                    tom.wait(lambda: tom.all("main h1"), "the page")
                    if place != "round/2":
                        self.assertIn("There is no network, and this page needs the desk.", tom.text("main"))
                    self.assertIn("No network", tom.text(".bar"))
                    self.assertLessEqual(tom.script("return document.documentElement.scrollWidth"), 360)
            tom.network(OPEN)
            tom.press("Look for the network")  # the front is gone still
            tom.wait(lambda: "There is no network" in tom.text("main"), "the same page")
            it.nginx.start()
            tom.press("Look for the network")
            tom.wait(lambda: tom.title() == "Offices and staff", "the desk")

    def test_a_desk_that_hangs(self):
        """After five seconds one may go on without waiting; and go back to the desk once it answers."""
        with loans.desk_with(loans.PAID_OUT) as it:
            tom = self.phone(it, "tom")
            it.serve.process.send_signal(signal.SIGSTOP)
            tom.driver.refresh()
            tom.press("Go on without the network", "#desk")
            tom.wait(lambda: "There is no network" in tom.text("main"), "the page without the desk")
            it.serve.process.send_signal(signal.SIGCONT)
            tom.press("Look for the network")
            tom.wait(lambda: tom.title().startswith("Today"), "the desk")

    def test_the_desk_is_never_kept(self):
        """What the worker keeps is files and libraries; a reply of the desk is asked for each time."""
        with loans.desk_with(loans.PAID_OUT) as it:
            tom = self.phone(it, "tom")
            tom.go(loans.LOAN)
            tom.is_kept()
            tom.reload()
            kept = tom.module(
                "const urls = []; for (const name of await caches.keys()) for (const one of await (await "
                "caches.open(name)).keys()) urls.push(new URL(one.url).pathname); return urls"
            )
            self.assertGreater(len(kept), 40)
            self.assertEqual([path for path in kept if not re.match(r"/files/[0-9a-f]{16}/|/lib/", path)], [])
            asked = len(it.log)
            for _ in range(2):
                tom.reload()
            paths = [line["path"] for line in it.log[asked:]]
            self.assertEqual(paths.count("/api/loans/0002-000001"), 2)
            self.assertEqual(paths.count("/api/loans/0002-000001/entries"), 2)
            it.send("tom", "POST", "/api/loans/0002-000001/repayments", {"amount": 2000, "day": "2024-03-31"})
            tom.reload()
            self.assertIn("1,000.00", tom.text("main"))  # 1,020.00 less 20.00

    def test_the_policy(self):
        """A worker and a manifest of this front, and no others."""
        with loans.desk_with(loans.PAID_OUT) as it:
            policies = it.exchange("tom", "GET", "/")[1].get_all("Content-Security-Policy")
            self.assertIn("worker-src 'self'; manifest-src 'self'", policies)
            tom = self.phone(it, "tom")
            tried = tom.module(
                "try { new Worker(URL.createObjectURL(new Blob(['']))); return 'made'; } "
                "catch (problem) { return problem.name; }"
            )
            blocked = tom.module(
                "return new Promise((done) => { document.addEventListener('securitypolicyviolation', (event) => "
                "done(event.effectiveDirective)); try { new Worker('data:text/javascript,0'); } catch { } })"
            )
            self.assertIn((tried, blocked)[1], ("worker-src", "worker-src-elem"))
            status, fields, _ = it.exchange(None, "GET", "/worker.js")
            kind = fields["Content-Type"], fields["Cache-Control"]
            self.assertEqual((status, *kind), (200, "application/javascript", "no-cache"))


class Round(Case):
    """A round taken along: typed into without a network, and sent when there is one."""

    def test_taken_typed_and_sent(self):
        with loans.desk_with(FEW) as it:
            zoe = self.phone(it, "zoe")
            zoe.go(f"round/{PLACE}")
            zoe.type(1, "100")  # typed before the round is taken along
            zoe.take_along()
            self.assertEqual(zoe.bar(), "1 not sent, 100.00, since HH:MM")
            self.assertIn("on business day Mar 31, 2024", zoe.text(".kept-age"))
            zoe.network(CUT)
            zoe.driver.get("about:blank")
            zoe.driver.get(f"{it.url}/#/{counter.ROUND}")  # the address of the round at the desk
            zoe.unlock()
            zoe.wait(lambda: len(zoe.all(".paid-field")) == COUNT, "the round")
            zoe.type(2, "200")
            zoe.type(3, "41.20")
            self.assertEqual(zoe.wait(lambda: "341.20" in zoe.bar() and zoe.bar(), "it"), self.BAR)
            self.assertFalse(zoe.all(".round-enter")[0].is_enabled())
            zoe.look("offline-round")
            for place in ("today", "people", "kept"):
                zoe.driver.get(f"{it.url}/#/{place}")
                zoe.wait(lambda: zoe.bar() == self.BAR, "the bar")
            self.sealed(zoe)
            zoe.network(OPEN)
            zoe.open_kept()
            self.assertEqual(zoe.script(AMOUNTS)[:4], ["100", "200", "41.20", ""])
            zoe.press("Enter 3 repayments")
            zoe.wait(lambda: zoe.results() == {"entered": 3}, "the results")
            zoe.wait(lambda: zoe.bar() == "", "the end of the bar")
            self.assertEqual(entered(it, 4), once(10000, 20000, 4120) + [[]])
            zoe.open_kept()
            self.assertEqual(zoe.results(), {"entered": 3}, "what was entered stays told")

    BAR = "3 not sent, 341.20, since HH:MM"

    def sealed(self, zoe):
        """What lies on the phone has no name, no loan and no amount of a line in it."""
        (text,) = zoe.driver.execute_async_script(KEPT)
        self.assertTrue(text.startswith("2 2024-03-31 3 34120 "))
        for secret in ("Client", "0002-", "41.20", "4120,", "receipt"):
            self.assertNotIn(secret, text)

    def test_lost_while_it_is_sent(self):
        """The network goes while lines are sent: the one without an answer can't be typed over, and all stand once."""
        with loans.desk_with(rounds.FORTY) as it:
            zoe = self.phone(it, "zoe")
            zoe.take_along()
            zoe.press("Fill in what is due")
            zoe.wait(lambda: zoe.bar().startswith("40 not sent"), "it")
            zoe.network(SLOW)
            zoe.press("Enter 40 repayments")
            zoe.wait(lambda: zoe.results().get("entered", 0) >= 3, "the first results")
            it.nginx.stop()
            zoe.wait(lambda: "The connection was lost." in zoe.text("main"), "that it was lost")
            self.assertEqual(zoe.results().get("lost"), 1)
            locked = zoe.all("tr:has([data-result=lost]) .paid-field")[0]
            self.assertEqual((locked.get_attribute("readonly"), locked.get_attribute("value")), ("true", "683.33"))
            it.nginx.start()
            it.let_in(zoe.driver, "zoe")
            zoe.open_kept()
            self.assertEqual(zoe.results().get("lost"), 1)
            zoe.enter()
            zoe.wait(lambda: zoe.bar() == "", "all results")
            self.assertEqual(entered(it, rounds.COUNT), once(*[68333] * rounds.COUNT))

    def test_two_phones(self):
        """An officer and a teller took the same round along: what both have counts once, what differs is told."""
        with loans.desk_with(FEW) as it:
            zoe, tom = self.phone(it, "zoe"), self.phone(it, "tom")
            for who in (zoe, tom):
                who.take_along()
                who.network(CUT)
                who.type(1, "100")
            zoe.type(2, "20")
            tom.type(2, "30")
            tom.type(3, "40")
            for who, count, results in (
                (zoe, 2, {"entered": 2}),  # the first to send: else it depends on who is faster
                (tom, 3, {"repeated": 1, "standing": 1, "F15": 1, "entered": 1}),
            ):
                who.wait(lambda who=who, count=count: who.bar().startswith(f"{count} not sent"), "what is kept")
                who.network(OPEN)
                who.press(f"Enter {count} repayments")
                who.wait(lambda who=who, results=results: who.results() == results, "the results")
            tom.wait(lambda: f"20.00 entered by {loans.who('2/2')}" in tom.text("main"), "what stands")
            self.assertEqual(entered(it, 4), once(10000, 2000, 4000) + [[]])
            self.assertEqual(tom.bar(), "1 not sent, 30.00, since HH:MM")
            tom.press("Enter 30.00 as a further payment")
            tom.press("Enter 1 repayment")
            tom.wait(lambda: tom.bar() == "", "the further payment")
            further = ("2024-03-31", 3000, "2-20240331-000002-2")
            self.assertEqual(entered(it, 2)[1], once(0, 2000)[1] + [further])

    def test_the_business_day_moved(self):
        """Ten days on, the payments are entered on the day of their round, and why so late is asked."""
        with loans.desk_with(FEW) as it:
            zoe = self.phone(it, "zoe")
            zoe.take_along()
            zoe.network(CUT)
            zoe.type(1, "100")
            zoe.wait(lambda: zoe.bar().startswith("1 not sent"), "it")
            it.send("head", "PUT", "/api/business-day", {"day": "2024-04-10"})
            zoe.network(OPEN)
            zoe.open_kept()
            self.assertIn("on business day Mar 31, 2024", zoe.text(".kept-age"))
            self.assertIn("Apr 10, 2024", zoe.text(".bar"))
            zoe.open_dialog("Enter 1 repayment")
            zoe.fill("Reason", "no network in the village")
            zoe.press("Enter 1 repayment", ".modal.show")
            zoe.wait(lambda: zoe.results() == {"entered": 1}, "the result")
            self.assertEqual(entered(it, 1), once(10000))

    def test_over_the_end_of_the_month(self):
        """What waits stays for 30 days, also over the end of the month: the bar tells since which day. It isn't sent by
        itself any more, since somebody has to say why so late."""
        with loans.desk_with(FEW) as it:
            zoe = self.phone(it, "zoe")
            zoe.take_along(by_itself=True)
            zoe.network(CUT)
            zoe.type(1, "100")
            zoe.wait(lambda: zoe.bar().startswith("1 not sent"), "it")
            self.assertEqual(it.send("head", "PUT", "/api/business-day", {"day": "2024-04-30"})[0], 200)
            zoe.network(OPEN)
            with zoe.clock_set(30):
                zoe.open_kept()
                self.assertRegex(zoe.bar(), r"^1 not sent, 100\.00, since [A-Z][a-z]{2} \d\d?, \d{4} HH:MM$")
                self.assertIn("30 days", zoe.text(".kept-age"))
                time.sleep(7)  # twice as long as it takes to look for what waits
                self.assertEqual(zoe.results(), {})
                zoe.open_dialog("Enter 1 repayment")
                zoe.fill("Reason", "no network in the village")
                zoe.press("Enter 1 repayment", ".modal.show")
                zoe.wait(lambda: zoe.results() == {"entered": 1}, "the result")
                self.assertEqual(entered(it, 1), once(10000))

    def test_a_round_of_a_day_to_come(self):
        with loans.desk_with(FEW) as it:
            zoe = self.phone(it, "zoe")
            zoe.take_along("2/2024-04-01")
            zoe.type(1, "100")
            self.assertIn("The business day is Mar 31, 2024.", zoe.text("main"))
            self.assertFalse(zoe.all(".round-enter")[0].is_enabled())
            it.send("head", "PUT", "/api/business-day", {"day": "2024-04-01"})
            zoe.open_kept("2/2024-04-01")
            zoe.press("Enter 1 repayment")
            zoe.wait(lambda: zoe.results() == {"entered": 1}, "the result")
            self.assertEqual(entered(it, 1), [[("2024-04-01", 10000, "2-20240401-000001")]])

    def test_taken_along_again(self):
        """What is typed and not sent stays; what the desk has by now is shown."""
        with loans.desk_with(FEW) as it:
            zoe = self.phone(it, "zoe")
            zoe.take_along()
            zoe.type(1, "100")
            zoe.type(2, "50")
            zoe.wait(lambda: zoe.bar().startswith("2 not sent"), "it")
            paid = {"amount": 5000, "day": "2024-03-31", "receipt": "2-20240331-000002"}
            it.send("tom", "POST", "/api/loans/0002-000002/repayments", paid)
            zoe.go(counter.ROUND)
            self.assertIn("This round is on this phone too.", zoe.text("main"))
            zoe.press("Take this round along")
            zoe.wait(lambda: "Taken along" in zoe.text("main"), "the round on the phone")
            self.assertIn(f"50.00 entered by {loans.who('2/3')}", zoe.text("main"))
            self.assertEqual(zoe.script(AMOUNTS)[:2], ["100", ""])
            self.assertEqual(zoe.bar(), "1 not sent, 100.00, since HH:MM")


class Receipts(Case):
    """A receipt on the spot. Of 1,000.00 at 12 percent over three months 1,020.00 are to be paid."""

    CODE = (
        "receipt: 2-20240331-000001\ninstitution: microloan\noffice: 2 North\nloan: 0002-000001\nclient: Client 1\n"
        "day: 2024-03-31\nbefore: 1020.00\npaid: 100.00\nleft: 920.00\nentered: no"
    )
    # 10.00 of interest and 90.00 of principal are paid; 336.67 are due on April 30
    LEFT = "920.00", "principal 910.00 · interest 10.00", "583.33", "Apr 30, 2024 · 336.67"

    def test_typed_and_entered(self):
        with loans.desk_with(FEW) as it:
            zoe = self.phone(it, "zoe")
            zoe.take_along()
            zoe.network(CUT)
            zoe.type(1, "100")
            zoe.follow("Receipt", ".round-lines")
            self.is_on(zoe, "Not entered yet: it is kept on this phone, and entered once it is sent.")
            zoe.wait(lambda: zoe.all(".code"), "the code")
            zoe.look("receipt-typed")
            self.assertEqual(code_in(desk.screenshot(zoe.driver, "receipt-code", whole=True)), self.CODE)
            self.share(zoe)
            self.prints(zoe)
            zoe.network(OPEN)
            zoe.open_kept()
            zoe.press("Enter 1 repayment")
            zoe.wait(lambda: zoe.results() == {"entered": 1}, "the result")
            zoe.follow("Receipt", ".round-lines")
            self.is_on(zoe, "Entered at the desk.")
            zoe.wait(lambda: zoe.all(".code"), "the code")
            code = code_in(desk.screenshot(zoe.driver, "receipt-entered", whole=True))
            self.assertEqual(code, self.CODE.replace("entered: no", "entered: yes"))
            self.assertEqual(entered(it, 1), once(10000))

    def is_on(self, zoe, state):
        zoe.wait(lambda: zoe.all(".slip .fact"), "the receipt")
        facts = dict(zoe.script(FACTS))
        self.assertEqual((facts["Left to pay before"], facts["Paid"]), ("1,020.00", "100.00"))
        left = facts["Left to pay"], facts["Of it"], facts["Due by now"], facts["Next instalment"]
        self.assertEqual(left, self.LEFT)
        self.assertEqual((facts["Office"], facts["Loan"], facts["Client"]), ("2 North", "0002-000001", "Client 1"))
        self.assertEqual((facts["Day"], facts["Receipt number"]), ("Mar 31, 2024", "2-20240331-000001"))
        self.assertIn(state, zoe.text(".slip"))
        self.assertLessEqual(zoe.script("return document.documentElement.scrollWidth"), 360)

    def share(self, zoe):
        """Where the phone can share, it is handed the same in words."""
        zoe.script("navigator.share = async (given) => { window.given = given; }")
        zoe.script("location.hash = location.hash.replace('/receipt/', '/cash/')")
        zoe.wait(lambda: zoe.title() == "Hand-over of cash", "another page")
        zoe.script("history.back()")
        zoe.press("Share")
        given = zoe.script("return window.given.text")
        self.assertIn("Paid: 100.00\nLeft to pay: 920.00\n", given)
        self.assertIn("Not entered yet", given)

    def prints(self, zoe):
        """On a roll of 80 mm and on A6: one page each, with the same code."""
        zoe.script("window.print = () => {}")
        for words, size in (("Print on 80 mm", [80, 170]), ("Print on A6", [105, 148])):
            with self.subTest(words):
                zoe.press(words)
                got, pages, text, picture = zoe.printed(f"receipt-{size[0]}")
                self.assertEqual((got, pages), (size, 1))
                self.assertIn("920.00", text)
                self.assertNotIn("Print on", text)
                self.assertEqual(code_in(picture), self.CODE)

    def test_beyond_what_is_left(self):
        """More than all that is left, and a name of another script."""
        with loans.desk_with(FEW.replace(b'"Client 2"', '"Zoë Ñandú 山田"'.encode())) as it:
            zoe = self.phone(it, "zoe")
            zoe.take_along()
            zoe.network(CUT)
            zoe.type(2, "1100.50")
            zoe.follow("Receipt", ".round-lines")
            zoe.wait(lambda: zoe.all(".code"), "the code")
            facts = dict(zoe.script(FACTS))
            self.assertEqual((facts["Left to pay"], facts["Overpaid"]), ("0.00", "80.50"))
            self.assertNotIn("Next instalment", facts)
            code = code_in(desk.screenshot(zoe.driver, "receipt-other-script", whole=True)).splitlines()
            self.assertIn("client: Zoë Ñandú 山田", code)
            self.assertEqual(code[-3:], ["left: 0.00", "overpaid: 80.50", "entered: no"])


class AsTheDesk:
    """What a payment leaves, as a receipt shows it, beside what the desk answers once the payment is entered."""

    # A charge with each instalment, another strategy; on the loans a fee, a waiver, a penalty, and what is overpaid.
    CHARGED = loans.LINES.replace(loans.PRODUCT, b"") + (
        b'1/1 POST /charges {"name":"Each","kind":"instalment","calc":"percent-of-amount","value":50}\n'
        + loans.PRODUCT.replace(b'"mifos-standard-strategy"', b'"due-first-by-portion","instalment_charge":3')
    )
    LINES = CHARGED + FEW.removeprefix(loans.LINES) + (
        b'2/2 POST /loans/0002-000001/fees {"charge":1,"due":"2024-04-01"}\n'
        b'2/1 POST /loans/0002-000002/waivers {"instalment":2,"portion":"interest"}\n'
        b'2/2 POST /loans/0002-000003/penalties {"instalment":1}\n'
        b'2/3 POST /loans/0002-000004/repayments {"amount":30000,"day":"2024-03-30","receipt":"N-4"}\n'
        b'2/1 POST /loans/0002-000004/entries/1/reverse\n'
    )
    AMOUNTS = ("100", "683.33", "41.20", "0.01", "1100.50")
    PORTIONS = ("principal", "interest", "fees", "penalties")

    def facts(self, phone, line):
        """The receipt of a line's payment."""
        receipt = f"receipt/0002-{line:06}/2-20240331-{line:06}"
        phone.script("location.hash = arguments[0]", f"#/kept/{PLACE}/{receipt}")
        phone.wait(lambda: phone.all(".code") and f"0002-{line:06}" in phone.text(".slip"), "the receipt")
        return dict(phone.script(FACTS))

    def type_all(self, phone):
        for line, amount in enumerate(self.AMOUNTS, 1):
            phone.type(line, amount)
        phone.wait(lambda: phone.bar().startswith(f"{len(self.AMOUNTS)} not sent"), "it")

    def answered(self, it, line):
        """What the desk answers of a loan, as a receipt shows it."""
        _, told = it.send("head", "GET", f"/api/loans/0002-{line:06}")
        _, schedule = it.send("head", "GET", f"/api/loans/0002-{line:06}/schedule")
        rows = [one for one in schedule["instalments"] if one["outstanding"]]
        parts = [f"{name} {told['outstanding'][name] / 100:.2f}" for name in self.PORTIONS if told["outstanding"][name]]
        due = sum(one["outstanding"] for one in rows if one["due"] <= "2024-03-31")
        later = [one["outstanding"] for one in rows if one["due"] > "2024-03-31"]
        wanted = {
            "Left to pay": f"{sum(told['outstanding'].values()) / 100:.2f}",
            "Of it": " · ".join(parts) if len(parts) > 1 else None,
            "Due by now": f"{due / 100:.2f}" if due else None,
            "Next instalment": f"Apr 30, 2024 · {later[0] / 100:.2f}" if later else None,
            "Overpaid": f"{told['overpaid'] / 100:.2f}" if told["overpaid"] else None,
        }
        return {name: value for name, value in wanted.items() if value is not None}

    def compare(self, it, phone):
        """Each line's receipt, and then the desk's answer to the same payment."""
        told = {line: self.facts(phone, line) for line in range(1, COUNT + 1)}
        self.assertIn("was worked out on this phone, as the desk works it out", phone.text(".slip"))
        for line, (amount, facts) in enumerate(zip(self.AMOUNTS, told.values()), 1):
            paid = {"amount": round(float(amount) * 100), "day": "2024-03-31", "receipt": f"2-20240331-{line:06}"}
            status, _ = it.send("tom", "POST", f"/api/loans/0002-{line:06}/repayments", paid)
            self.assertEqual(status, 201)
            names = ("Left to pay", "Of it", "Due by now", "Next instalment", "Overpaid")
            shown = {name: facts[name].replace("1,0", "10") for name in names if name in facts}
            self.assertEqual(shown, self.answered(it, line), line)
        self.assertEqual(it.send("head", "GET", "/api/loans/0002-000005")[1]["status"], 700)


class Left(AsTheDesk, Case):
    """Of a round that was taken along the phone works it out; where it can't it shows what is certain."""

    WITHOUT_THE_FILE = """
        const real = window.fetch;
        window.fetch = (url, ...more) =>
            String(url).endsWith(".wasm") ? Promise.reject(new TypeError("lost")) : real(url, ...more);
    """

    def test_as_the_desk_answers(self):
        with loans.desk_with(self.LINES) as it:
            zoe = self.phone(it, "zoe")
            zoe.take_along()
            zoe.network(CUT)
            self.type_all(zoe)
            self.compare(it, zoe)

    def test_a_browser_without_memory64(self):
        """It shows what is certain, as it does where the file didn't come."""
        with loans.desk_with(FEW) as it:
            zoe = self.phone(it, "zoe")
            zoe.take_along()
            zoe.type(1, "100")
            zoe.script("WebAssembly.validate = () => false")
            self.certain(zoe)

    def test_the_file_did_not_come(self):
        with loans.desk_with(FEW) as it:
            zoe = self.phone(it, "zoe")
            zoe.take_along()
            zoe.type(1, "100")
            zoe.script(self.WITHOUT_THE_FILE)
            self.certain(zoe)

    def certain(self, zoe):
        facts = self.facts(zoe, 1)
        self.assertEqual(facts["Left for certain: before, less paid"], "920.00")
        self.assertNotIn("Left to pay", facts)
        self.assertNotIn("worked out on this phone", zoe.text(".slip"))

    def test_what_the_desk_told_is_not_what_it_works_out(self):
        """Then nothing is worked out: what is kept of the loan says one cent more than its entries come to."""
        with loans.desk_with(FEW) as it:
            zoe = self.phone(it, "zoe")
            zoe.take_along()
            script = """
                const {leftAfter} = await load("./views/kept-left.js");
                const {readRound} = await load("./views/kept-rounds.js");
                const round = await readRound("2 2024-03-31");
                const {account} = round.lines[0];
                const asked = [{number: "R", cents: 100n}];
                const told = async () => (await leftAfter(round, account, asked))?.status ?? null;
                const right = await told();
                account.told.interest += 1;
                return [right, await told()];
            """
            self.assertEqual(zoe.module(script), [300, None])

    def test_what_the_desk_would_refuse(self):
        """A payment more on a loan that an earlier one has paid off, as the phone knows."""
        with loans.desk_with(FEW) as it:
            zoe = self.phone(it, "zoe")
            zoe.take_along()
            script = """
                const {showReceipt} = await load("./views/kept-receipt.js");
                const {readRound} = await load("./views/kept-rounds.js");
                const round = await readRound("2 2024-03-31");
                const paid = {receipt: "A", amount: 102000n, before: 102000n, reversed: false, number: 1};
                const now = {payments: [paid], results: {A: "entered"}, receipt: "B", cents: 500n, owed: 500n};
                Object.assign(round.lines[0], now);
                await showReceipt(document.querySelector(".page"), round, "0002-000001", "B");
            """
            zoe.module(script)
            words = "The desk would refuse this payment: The status of the loan does not allow it."
            zoe.wait(lambda: words in zoe.text(".slip"), "what the desk would say")
            self.assertEqual(dict(zoe.script(FACTS))["Left for certain: before, less paid"], "0.00")
            zoe.look("receipt-refused")

    def test_nothing_else_becomes_code(self):
        """The policy lets pages.wasm run, and no text."""
        with loans.desk_with(FEW) as it:
            zoe = self.phone(it, "zoe")
            made = """
                const tried = () => { try { return new Function("return 'made'")(); } catch ({name}) { return name; } };
                return new Promise((done) => setTimeout(() => done(tried())));  // past what a driver may do
            """
            self.assertEqual(zoe.module(made), "EvalError")
            empty = "return WebAssembly.validate(new Uint8Array([0, 97, 115, 109, 1, 0, 0, 0]))"
            self.assertTrue(zoe.module(empty))


class HandOver(Case):
    """The evening's cash, by note and coin, against what was taken with this phone."""

    def count(self, zoe, size, number):
        field = next(one for one in zoe.all(".cash-line") if one.text.strip() == size)
        field.find_element("tag name", "input").send_keys(number)

    def figures(self, zoe):
        zoe.wait(lambda: zoe.all(".handover .fact"), "the sheet")
        facts = dict(zoe.script(FACTS))
        return [facts[name] for name in ("Entered at the desk", "Taken and not sent yet", "Counted", "Difference")]

    def test_counted_and_signed(self):
        with loans.desk_with(FEW) as it:
            zoe = self.phone(it, "zoe")
            zoe.take_along()
            zoe.network(CUT)
            zoe.type(1, "100")
            zoe.type(2, "50")
            paid = {"amount": 7000, "day": "2024-03-31", "receipt": "2-20240331-000003"}
            it.send("tom", "POST", "/api/loans/0002-000003/repayments", paid)  # in another's hands
            zoe.follow("Hand-over of cash")
            zoe.wait(lambda: zoe.all(".cash-line"), "the page")
            for size, number in (("100.00", "1"), ("20.00", "2")):
                self.count(zoe, size, number)
            none = "0.00 (0 payments)"
            self.assertEqual(self.figures(zoe), [none, "150.00 (2 payments)", "140.00", "10.00 too little"])
            self.count(zoe, "5.00", "2")
            self.count(zoe, "Other, as an amount", "0.03")
            self.assertEqual(self.figures(zoe)[2:], ["150.03", "0.03 too much"])
            zoe.wait(lambda: "0.03" in zoe.text(".handover"), "the sheet")
            zoe.look("hand-over")
            self.prints(zoe)
            zoe.driver.get("about:blank")
            zoe.driver.get(f"{it.url}/#/kept/{PLACE}/cash")  # without a network, and what was counted stays
            zoe.unlock()
            zoe.wait(lambda: zoe.all(".cash-line"), "the page")
            self.assertEqual(self.figures(zoe)[1:], ["150.00 (2 payments)", "150.03", "0.03 too much"])
            zoe.network(OPEN)
            zoe.open_kept()
            zoe.press("Enter 2 repayments")
            zoe.wait(lambda: zoe.results() == {"entered": 2}, "the results")
            zoe.follow("Hand-over of cash")
            self.assertEqual(self.figures(zoe)[:2], ["150.00 (2 payments)", none])

    def test_notes_of_visits(self):
        """They stand on the sheet that both sign, each with what became of it."""
        with loans.desk_with(FEW) as it:
            zoe = self.phone(it, "zoe")
            zoe.take_along()
            zoe.network(CUT)
            zoe.follow("Drafts")
            for words in ("Not at home, her sister promised Friday", "Wants a larger loan"):
                zoe.draft("Note of a visit", Client="Client 2 · 0002-000002", Note=words)
            zoe.driver.get("about:blank")
            zoe.driver.get(f"{it.url}/#/kept/{PLACE}/cash")
            zoe.unlock()
            zoe.wait(lambda: "Notes of visits" in zoe.text(".handover"), "the notes")
            told = [words for words in zoe.script(FACTS) if words[0].startswith("Client")]
            self.assertEqual(told, [["Client 2 · 0002-000002", "Not at home, her sister promised Friday\nNot sent yet."],
                                    ["Client 2 · 0002-000002", "Wants a larger loan\nNot sent yet."]])
            zoe.look("hand-over-notes")
            zoe.script("window.print = () => {}")
            zoe.press("Print on A4")
            _, pages, text, _ = zoe.printed("hand-over-notes-210")
            self.assertEqual(pages, 1)
            self.assertIn("her sister promised Friday", text)

    def prints(self, zoe):
        zoe.script("window.print = () => {}")
        for words, size in (("Print on A4", [210, 297]), ("Print on A6", [105, 148])):
            with self.subTest(words):
                zoe.press(words)
                got, pages, text, _ = zoe.printed(f"hand-over-{size[0]}")
                self.assertEqual((got, pages), (size, 1))
                for wanted in ("2 × 20.00", "150.03", "Handed over by", "Received by"):
                    self.assertIn(wanted, text)
                self.assertNotIn("Type how many", text)

    def test_the_institutions_own_cash(self):
        with loans.desk_with(FEW) as it:
            with open(os.path.join(it.nginx.people, "institution.json"), "w", encoding="utf-8") as file:
                json.dump({"name": "Umoja", "cash": [100, 250000]}, file)
            os.chmod(file.name, 0o644)
            zoe = self.phone(it, "zoe")
            zoe.take_along()
            zoe.follow("Hand-over of cash")
            zoe.wait(lambda: zoe.all(".cash-line"), "the page")
            sizes = [one.text.strip() for one in zoe.all(".cash-line")]
            self.assertEqual(sizes, ["2,500.00", "1.00", "Other, as an amount"])


class Sending(Case):
    """What waits is sent by itself: where there is a desk, unlocked, at rest, by whose round it is, one at a time."""

    def rest(self, who):
        """Half a minute passes, and no field has the focus."""
        who.script("const now = Date.now; Date.now = () => now() + 30_000; document.activeElement.blur()")

    def finish(self, who):
        """Waits until nothing waits, as long as something goes on."""
        while (left := who.bar()) != "":
            who.wait(lambda left=left: who.bar() != left, f"the end of {left}")

    def sent(self, it):
        """The receipts of the repayments that went to the desk, in their order."""
        ends = "/repayments"
        return [json.loads(one["body"])["receipt"] for one in it.log if one["path"].endswith(ends)]

    def test_by_itself(self):
        """What is to be asked once more waits for a press."""
        with loans.desk_with(FEW) as it:
            zoe = self.phone(it, "zoe")
            zoe.take_along(by_itself=True)
            zoe.network(CUT)
            for line, amount in enumerate(("100", "1100.50", "41.20"), 1):
                zoe.type(line, amount)
            zoe.wait(lambda: zoe.bar().startswith("3 not sent"), "it")
            self.rest(zoe)
            zoe.network(OPEN)
            zoe.wait(lambda: zoe.results() == {"entered": 2, "doubt": 1}, "the results")
            zoe.wait(lambda: zoe.bar() == "1 not sent, 1,100.50, since HH:MM", "the bar")
            zoe.look("sent-by-itself")
            self.assertEqual(entered(it, 3), [once(10000)[0], [], once(0, 0, 4120)[2]])
            zoe.open_dialog("Enter 1 repayment")
            self.assertIn("1,100.50", zoe.text(".modal"))
            zoe.press("Enter 1 repayment all the same", ".modal.show")
            zoe.wait(lambda: zoe.bar() == "", "all of it")
            self.assertEqual(entered(it, 3), once(10000, 110050, 4120))

    def test_not_what_is_being_typed(self):
        """Not a line that has the focus, nor one that was changed a moment ago."""
        with loans.desk_with(FEW) as it:
            zoe = self.phone(it, "zoe")
            zoe.take_along(by_itself=True)
            zoe.type(1, "100")
            zoe.type(2, "20")
            time.sleep(7)
            self.assertEqual(self.sent(it), [])
            zoe.script("const now = Date.now; Date.now = () => now() + 30_000")
            zoe.wait(lambda: zoe.results() == {"entered": 1}, "the first")
            self.assertEqual(entered(it, 2), [once(10000)[0], []])
            zoe.script("document.activeElement.blur()")
            zoe.wait(lambda: zoe.results() == {"entered": 2}, "the second")

    def test_not_while_it_is_locked(self):
        with loans.desk_with(FEW) as it:
            zoe = self.phone(it, "zoe")
            zoe.take_along(by_itself=True)
            zoe.network(CUT)
            zoe.type(1, "100")
            zoe.wait(lambda: zoe.bar().startswith("1 not sent"), "it")
            zoe.network(OPEN)
            zoe.driver.get("about:blank")
            zoe.driver.get(f"{it.url}/#/today")
            words = r"1 not sent, 100.00, since \d\d:\d\d · locked: open it to send"
            zoe.wait(lambda: re.fullmatch(words, zoe.text(".unsent")), "the bar")
            zoe.look("locked-bar")
            time.sleep(7)
            self.assertEqual(self.sent(it), [])
            zoe.all(".unsent a")[0].click()
            zoe.wait(lambda: zoe.all("main form input"), "the question for the PIN")
            zoe.script("const now = Date.now; Date.now = () => now() + 30_000")
            zoe.unlock()
            zoe.wait(lambda: zoe.bar() == "", "the end of the bar")
            self.assertEqual(entered(it, 2), once(10000) + [[]])

    def test_the_desk_comes_back(self):
        """Opened with the front gone, and no word of the browser that it is there again: it is looked for."""
        with loans.desk_with(FEW) as it:
            zoe = self.phone(it, "zoe")
            zoe.take_along(by_itself=True)
            it.nginx.stop()
            zoe.open_kept()
            zoe.type(1, "100")
            zoe.wait(lambda: zoe.bar() == "1 not sent, 100.00, since HH:MM", "it")
            self.rest(zoe)
            it.nginx.start()
            zoe.wait(lambda: zoe.results() == {"entered": 1}, "the result")
            self.assertEqual(entered(it, 2), once(10000) + [[]])

    def test_the_desk_comes_back_for_a_press(self):
        """It is looked for also where nothing is sent by itself: the button that enters can be pressed then."""
        with loans.desk_with(FEW) as it:
            zoe = self.phone(it, "zoe")
            zoe.take_along()
            it.nginx.stop()
            zoe.open_kept()
            zoe.type(1, "100")
            zoe.wait(lambda: zoe.bar() == "1 not sent, 100.00, since HH:MM", "it")
            zoe.script("document.activeElement.blur()")
            self.assertFalse(zoe.all(".round-enter")[0].is_enabled())
            it.nginx.start()
            zoe.enter()
            zoe.wait(lambda: zoe.results() == {"entered": 1}, "the result")

    def test_two_windows(self):
        """Two windows of one browser, both open, over a slow network: each line goes to the desk once."""
        with loans.desk_with(rounds.FORTY) as it:
            zoe = self.phone(it, "zoe")
            zoe.take_along(by_itself=True)
            zoe.network(CUT)
            zoe.press("Fill in what is due")
            zoe.wait(lambda: zoe.bar().startswith("40 not sent"), "it")
            first = zoe.driver.current_window_handle
            zoe.network(SLOW)
            zoe.driver.switch_to.new_window("tab")
            zoe.driver.execute_cdp_cmd("Network.enable", {})
            zoe.network(SLOW)
            zoe.driver.get(f"{it.url}/#/kept/{PLACE}")
            zoe.unlock()
            zoe.wait(lambda: zoe.all(".paid-field"), "the round")
            self.rest(zoe)
            second = zoe.driver.current_window_handle
            zoe.driver.switch_to.window(first)
            self.rest(zoe)
            zoe.wait(lambda: zoe.results().get("entered", 0) >= 3, "the first results")
            self.finish(zoe)
            zoe.wait(lambda: zoe.results() == {"entered": rounds.COUNT}, "the results")
            self.assertEqual(sorted(self.sent(it)), [f"2-20240331-{i:06}" for i in range(1, rounds.COUNT + 1)])
            zoe.driver.switch_to.window(second)
            zoe.wait(lambda: zoe.results() == {"entered": rounds.COUNT}, "the other window")
            zoe.driver.close()
            zoe.driver.switch_to.window(first)
            self.assertEqual(entered(it, rounds.COUNT), once(*[68333] * rounds.COUNT))

    def test_a_window_that_is_gone(self):
        """One that goes as it sends tells nobody: the button of another one can be pressed all the same."""
        with loans.desk_with(FEW) as it:
            zoe = self.phone(it, "zoe")
            zoe.take_along()
            zoe.press("Fill in what is due")
            zoe.wait(lambda: zoe.bar().startswith("5 not sent"), "it")
            first = zoe.driver.current_window_handle
            zoe.driver.switch_to.new_window("tab")
            zoe.driver.get(f"{it.url}/#/today")
            zoe.settle()
            zoe.script("navigator.locks.request('kept sending', () => new Promise(() => {}))")
            second = zoe.driver.current_window_handle
            zoe.driver.switch_to.window(first)
            zoe.open_kept()
            zoe.wait(lambda: not zoe.all(".round-enter")[0].is_enabled(), "that another one sends")
            zoe.driver.switch_to.window(second)
            zoe.driver.close()
            zoe.driver.switch_to.window(first)
            zoe.enter()
            zoe.wait(lambda: zoe.results() == {"entered": COUNT}, "the results")

    def test_a_flapping_network(self):
        """The network comes and goes twenty times while forty lines are sent by itself: each is entered once."""
        with loans.desk_with(rounds.FORTY) as it:
            zoe = self.phone(it, "zoe")
            zoe.take_along(by_itself=True)
            zoe.network(CUT)
            zoe.press("Fill in what is due")
            zoe.wait(lambda: zoe.bar().startswith("40 not sent"), "it")
            self.rest(zoe)
            cuts = 0
            while cuts < 20 and zoe.results() != {"entered": rounds.COUNT}:
                zoe.network(SLOW | {"latency": 250})
                time.sleep(0.4 + 0.23 * (cuts % 7))
                zoe.network(CUT)
                cuts += 1
                time.sleep(0.3)
                self.assertLessEqual(max(len(one) for one in entered(it, rounds.COUNT)), 1)
            zoe.network(OPEN)
            self.finish(zoe)
            self.assertEqual(entered(it, rounds.COUNT), once(*[68333] * rounds.COUNT))
            print(f"    {cuts} cuts", end=" ")

    def test_not_for_another_person(self):
        with desk.Desk(lines=FEW, people=loans.PEOPLE, sessions=True) as it:
            phone = self.phone(it, "zoe")
            phone.take_along(by_itself=True)
            phone.network(CUT)
            phone.type(1, "100")
            phone.wait(lambda: phone.bar().startswith("1 not sent"), "it")
            phone.network(OPEN)
            it.let_in(phone.driver, "tom")
            phone.open_kept()
            self.rest(phone)
            self.assertIn("entered in your name: tom 2/3. Nothing of it is sent by itself.", phone.text("main"))
            time.sleep(7)
            self.assertEqual((self.sent(it), phone.results()), ([], {}))


class DraftCase(Case):
    """What is done with drafts."""

    LOSING = """
        const real = window.fetch;
        window.fetch = async (url, options) => {
            if (options?.method !== "POST" || !url.endsWith(PATH)) return real(url, options);
            if (CARRIED) await real(url, options);
            throw new TypeError("lost");
        };
    """

    HANGING = """
        const real = window.fetch;
        window.fetch = async (url, options) => {
            const reply = await real(url, options);
            const isWriting = options?.method === "POST" && !url.endsWith("/lists/find");
            return isWriting ? new Promise(() => {}) : reply;
        };
    """

    def lose(self, zoe, path, carried):
        """The reply to what is posted there is lost, and the request with it or not."""
        zoe.script(self.LOSING.replace("PATH", json.dumps(path)).replace("CARRIED", json.dumps(carried)))

    def on_phone(self, it):
        zoe = self.phone(it, "zoe")
        zoe.take_along()
        zoe.follow("Drafts")
        return zoe

    def card(self, zoe, kind):
        """The newest draft of a kind."""
        return zoe.wait(lambda: next((one for one in zoe.all(".draft") if one.text.startswith(kind)), None), kind)

    def press(self, zoe, kind, words="Send"):
        zoe.wait(lambda: self.button(zoe, kind, words), words).click()

    def button(self, zoe, kind, words):
        found = self.card(zoe, kind).find_elements("tag name", "button")
        return next((one for one in found if one.text == words and one.is_enabled()), None)

    def told(self, zoe, kind, words):
        zoe.wait(lambda: words in self.card(zoe, kind).text, words)


class Drafts(DraftCase):
    """A new client, an application, a note of a visit: kept on the phone, and requests once they are sent."""

    def clients(self, it):
        """The names of the office's clients past those of the round."""
        names = []
        while (reply := it.send("head", "GET", f"/api/clients/0002-{COUNT + 1 + len(names):06}"))[0] == 200:
            names.append(reply[1]["name"])
        return names

    def applications(self, it):
        listed = it.send("head", "GET", f"/api/offices/2/loans/{COUNT}")[1]["loans"]
        told = [it.send("head", "GET", f"/api/loans/{one['loan']}")[1] for one in listed]
        return [(one["client"], one["principal"], one["periods"], one["status"]) for one in told]

    def test_kept_and_sent(self):
        """Written without a network; sent once there is one; what is alike is asked about."""
        with loans.desk_with(FEW) as it:
            zoe = self.on_phone(it)
            zoe.network(CUT)
            zoe.draft("New client", Name="Bahati Mrema")
            zoe.draft("Application", Client="Bahati Mrema", Principal="500", Instalments="3")
            zoe.draft("Note of a visit", Client="Client 2 · 0002-000002", Note="the roof leaks")
            self.assertEqual(zoe.bar(), "3 not sent, 0.00, since HH:MM")
            zoe.driver.get("about:blank")
            zoe.driver.get(f"{it.url}/#/kept/{PLACE}/drafts")
            zoe.unlock()
            zoe.wait(lambda: len(zoe.all(".draft")) == 3, "the drafts")
            self.assertIn("the roof leaks", self.card(zoe, "Note of a visit").text)
            zoe.look("drafts")
            self.sealed(zoe)
            zoe.network(OPEN)
            it.let_in(zoe.driver, "zoe")
            zoe.open_kept()
            zoe.follow("Drafts (3)")
            self.press(zoe, "Application")
            self.told(zoe, "Application", "Send the draft of Bahati Mrema first.")
            self.press(zoe, "New client")
            self.told(zoe, "New client", "Client 0002-000006 is entered.")
            self.press(zoe, "Application")
            self.told(zoe, "Application", "Loan 0002-000006 is submitted and waits for approval.")
            self.assertEqual(self.clients(it), ["Bahati Mrema"])
            self.assertEqual(self.applications(it), [("0002-000006", 50000, 3, 100)])
            self.press(zoe, "Note of a visit")
            self.told(zoe, "Note of a visit", "It stands on the client’s page.")
            zoe.wait(lambda: zoe.bar() == "", "the end of the bar")
            self.alike(it, zoe)

    def sealed(self, zoe):
        (text,) = zoe.driver.execute_async_script(KEPT)
        for secret in ("Bahati", "roof", "50000"):
            self.assertNotIn(secret, text)

    def alike(self, it, zoe):
        """The same name in other letters, and the same sum for the same client."""
        zoe.draft("New client", Name="bahati  mrema".replace("  ", " "))
        self.press(zoe, "New client")
        self.told(zoe, "New client", "0002-000006 Bahati Mrema")
        zoe.look("draft-alike")
        self.press(zoe, "New client", "It is the same")
        self.told(zoe, "New client", "Client 0002-000006 is entered.")
        self.assertEqual(self.clients(it), ["Bahati Mrema"])
        zoe.draft("Application", Client="bahati mrema", Principal="500", Instalments="6")
        self.press(zoe, "Application")
        self.told(zoe, "Application", "0002-000006 · 500.00 · Waits for approval")
        self.press(zoe, "Application", "It is another one: send it")
        self.told(zoe, "Application", "Loan 0002-000007 is submitted and waits for approval.")
        self.assertEqual(self.applications(it), [("0002-000006", 50000, 3, 100), ("0002-000006", 50000, 6, 100)])

    def test_a_lost_reply(self):
        """What was carried out is found, also after the page was left; what wasn't is sent again once it can't come."""
        with loans.desk_with(FEW) as it:
            zoe = self.on_phone(it)
            zoe.draft("New client", Name="Bahati")
            self.lose(zoe, "/clients", True)
            self.press(zoe, "New client")
            self.told(zoe, "New client", "Client 0002-000006 is entered.")
            zoe.open_kept()
            zoe.follow("Drafts")
            zoe.draft("Application", Client="Bahati", Principal="500", Instalments="3")
            self.lose(zoe, "/loans", False)
            for _ in range(2):
                self.press(zoe, "Application")
                self.told(zoe, "Application", "It may still be on its way.")
            self.assertEqual(self.applications(it), [])
            zoe.open_kept()  # and nothing is lost on the way any more
            zoe.follow("Drafts (1)")
            self.told(zoe, "Application", "Sent, and no reply came.")
            self.press(zoe, "Application")
            self.told(zoe, "Application", "It may still be on its way.")
            zoe.script("const now = Date.now; Date.now = () => now() + 200_000")
            self.press(zoe, "Application")
            self.told(zoe, "Application", "Loan 0002-000006 is submitted")
            self.assertEqual((self.clients(it), len(self.applications(it))), (["Bahati"], 1))

    def test_a_phone_that_dies(self):
        """The request is carried out and the page is gone: it is found when it is sent again, by whatever page."""
        with loans.desk_with(FEW) as it:
            zoe = self.on_phone(it)
            zoe.draft("New client", Name="Bahati")
            zoe.script(self.HANGING)
            self.press(zoe, "New client")
            zoe.wait(lambda: self.clients(it) == ["Bahati"], "the client")
            zoe.open_kept()
            zoe.follow("Drafts (1)")
            self.press(zoe, "New client")
            self.told(zoe, "New client", "Client 0002-000006 is entered.")
            self.assertEqual(self.clients(it), ["Bahati"])


class Pin(Case):
    """What is on the phone is locked by a PIN: a wrong one loses nothing, and a forgotten one has a way."""

    def taken(self, it):
        zoe = self.phone(it, "zoe")
        zoe.take_along()
        zoe.type(1, "100")
        zoe.wait(lambda: zoe.bar() == self.BAR, "the bar")
        return zoe

    BAR = "1 not sent, 100.00, since HH:MM"

    def test_wrong_and_right(self):
        with loans.desk_with(FEW) as it:
            zoe = self.taken(it)
            zoe.network(CUT)
            zoe.driver.get("about:blank")
            zoe.driver.get(f"{it.url}/#/kept/{PLACE}")
            for wrong in ("25 bees", PIN + " ", PIN.upper()):
                zoe.unlock(wrong)
                zoe.wait(lambda: "The PIN is wrong. Nothing is lost." in zoe.text("main").replace("\n\n", " "), "that")
                self.assertEqual((zoe.bar(), zoe.all(".paid-field")), (self.BAR, []))
            zoe.all("main form input")[0].clear()
            zoe.all("main form input")[0].send_keys("short")
            zoe.press("Open")
            zoe.wait(lambda: "Type 6 to 64 characters." in zoe.text("main"), "the length")
            zoe.look("offline-pin")
            zoe.all("main form input")[0].clear()
            zoe.unlock()
            zoe.wait(lambda: zoe.script(AMOUNTS)[:1] == ["100"], "what was typed")

    def test_locked_when_idle(self):
        """After five minutes without a touch, and where the clock was set back; what was typed stays."""
        with loans.desk_with(FEW) as it:
            zoe = self.taken(it)
            for minutes in (4, 6, -1):
                zoe.script(f"Date.now = () => new Date().getTime() + {minutes * 60_000}")
                if minutes == 4:
                    zoe.script("document.dispatchEvent(new Event('visibilitychange'))")
                    self.assertEqual(zoe.script(AMOUNTS)[:1], ["100"])
                    continue
                zoe.wait(lambda: not zoe.all(".paid-field") and zoe.all("main form input"), "the lock")
                self.assertNotIn("Client", zoe.text("main"))
                zoe.unlock()
                zoe.wait(lambda: zoe.script(AMOUNTS)[:1] == ["100"], "what was typed")
            zoe.press("Lock the rounds")
            zoe.wait(lambda: zoe.all("main form input"), "the lock")

    def test_changed(self):
        """By the PIN until now alone. Another window has the key of the PIN before, and can write nothing with it."""
        with loans.desk_with(FEW) as it:
            zoe = self.taken(it)
            first = zoe.driver.current_window_handle
            zoe.driver.switch_to.new_window("tab")
            zoe.driver.get(f"{it.url}/#/kept/{PLACE}")
            zoe.unlock()
            zoe.wait(lambda: zoe.all(".paid-field"), "the round")
            second = zoe.driver.current_window_handle
            zoe.driver.switch_to.window(first)
            zoe.press("Rounds on this phone", ".breadcrumb")
            zoe.open_dialog("Change the PIN")
            for before, again, told in (("25 bees", "12 wasps", "The PIN is wrong."), (PIN, "12 wasp", "differ")):
                for label, value in (("PIN until now", before), ("New PIN", "12 wasps"), ("The PIN once more", again)):
                    zoe.fill(label, value)
                self.assertIn(told, zoe.refused("Change the PIN"))
            zoe.fill("The PIN once more", "12 wasps")
            zoe.look("change-pin")
            zoe.send("Change the PIN")
            self.assertEqual(zoe.note(), "The PIN is changed.")
            zoe.driver.switch_to.window(second)
            zoe.wait(lambda: zoe.all("main form input") and not zoe.all(".paid-field"), "the lock of the other window")
            zoe.unlock()
            zoe.wait(lambda: "The PIN is wrong." in zoe.text("main"), "that the PIN before is wrong")
            zoe.all("main form input")[0].clear()
            zoe.unlock("12 wasps")
            zoe.wait(lambda: zoe.script(AMOUNTS)[:1] == ["100"], "what was typed")
            zoe.type(2, "20")
            zoe.wait(lambda: zoe.bar() == "2 not sent, 120.00, since HH:MM", "it")
            zoe.driver.close()
            zoe.driver.switch_to.window(first)

    def test_forgotten(self):
        """What is lost is told first; afterwards a round can be taken along with another PIN."""
        with loans.desk_with(FEW) as it:
            zoe = self.taken(it)
            zoe.driver.get("about:blank")
            zoe.driver.get(f"{it.url}/#/kept")
            zoe.wait(lambda: zoe.all("main form input"), "the question for the PIN")
            for button in ("Cancel", "Throw all of it away"):
                zoe.open_dialog("The PIN is forgotten")
                told = re.sub(r"\d\d:\d\d", "HH:MM", zoe.text(".modal"))
                self.assertIn(f"This is lost for good: 1 round is on this phone · {self.BAR}.", told)
                self.assertIn("Enter those repayments again from your receipt book", told)
                zoe.look("offline-forgotten")
                zoe.press(button, ".modal.show")
                zoe.wait(lambda: not zoe.all(".modal"), "the end of the dialog")
                if button == "Cancel":
                    self.assertEqual(zoe.bar(), self.BAR)
            zoe.wait(lambda: "No round is on this phone." in zoe.text("main"), "the end of it")
            self.assertEqual(zoe.bar(), "")
            zoe.take_along()

    def test_removed(self):
        """A round is removed once it is said what is lost with it."""
        with loans.desk_with(FEW) as it:
            zoe = self.taken(it)
            zoe.open_dialog("Remove from this phone")
            self.assertIn("This is lost for good: 1 not sent, 100.00, since", zoe.text(".modal"))
            zoe.cancel()
            zoe.open_dialog("Remove from this phone")
            zoe.send("Remove from this phone")
            zoe.wait(lambda: "No round is on this phone." in zoe.text("main") and zoe.bar() == "", "the end of it")


class Eyes(Case):
    """What is on the phone, at 360 columns: in the light, the dark, each language, for a finger and a screen reader."""

    def test_each_page(self):
        with loans.desk_with(FEW) as it:
            zoe = self.phone(it, "zoe")
            zoe.take_along()
            for line, amount in enumerate(("100", "20", "x"), 1):
                zoe.type(line, amount)
            zoe.wait(lambda: zoe.bar().startswith("3 not sent"), "it")
            zoe.go(counter.ROUND)
            self.look_at(zoe, "at the desk")
            zoe.network(CUT)
            for language in ("en", "fr", "es", "sw"):
                zoe.script("localStorage.setItem('language', arguments[0])", language)
                zoe.reload()
                zoe.driver.get(f"{it.url}/#/today")
                zoe.wait(lambda: zoe.all("main .alert"), "the page")
                self.look_at(zoe, f"{language} without")
                zoe.driver.get(f"{it.url}/#/kept")
                zoe.wait(lambda: zoe.all("main form input"), "the question for the PIN")
                self.look_at(zoe, f"{language} locked")
                zoe.all("main form input")[0].send_keys(PIN)
                zoe.all("main form button")[0].click()
                zoe.wait(lambda: zoe.all("main h2 a"), "the list")
                self.look_at(zoe, f"{language} list")
                zoe.all("main h2 a")[0].click()
                zoe.wait(lambda: zoe.all(".paid-field"), "the round")
                self.look_at(zoe, f"{language} round")
                for part, there in self.PARTS.items():
                    zoe.script("location.hash = arguments[0]", f"#/kept/{PLACE}/{part}")
                    zoe.wait(lambda there=there: zoe.all(there), part)
                    self.look_at(zoe, f"{language} {part.split('/')[0]}")

    PARTS = {"cash": ".handover", "drafts": ".drafts", "receipt/0002-000001/2-20240331-000001": ".code"}

    def look_at(self, zoe, name):
        with self.subTest(name):
            self.assertLessEqual(zoe.script("return document.documentElement.scrollWidth"), 360)
            self.assertEqual(zoe.script(test_pages.NAMELESS), [])
            self.assertEqual(zoe.script(test_pages.SMALL), [])
            for scheme in ("light", "dark"):
                zoe.wish(scheme)
                self.assertEqual(zoe.script(test_pages.CONTRAST), [], scheme)
                if os.environ.get("MICROLOAN_SHOTS"):
                    desk.screenshot(zoe.driver, f"offline {name} {scheme}".replace(" ", "-"), whole=True)
            zoe.wish("light")


class People(Case):
    """Who is signed in sends; what is on the phone belongs to who knows its PIN."""

    def of_zoe(self, it):
        """A phone on which one amount of zoe's waits."""
        phone = self.phone(it, "zoe")
        phone.take_along()
        phone.type(1, "100")
        phone.wait(lambda: phone.bar() == self.BAR, "the bar")
        return phone

    def hand_over(self, it, phone, name):
        it.let_in(phone.driver, name)
        phone.driver.get(it.url + "/")
        phone.wait(lambda: phone.bar() == self.BAR, "the bar")
        phone.driver.get(f"{it.url}/#/kept/{PLACE}")
        phone.wait(lambda: phone.all("main form input"), "the question for the PIN")
        self.assertNotIn("Client", phone.text("main"))
        phone.open_kept()

    BAR = "1 not sent, 100.00, since HH:MM"

    def test_another_person_sends(self):
        with desk.Desk(lines=FEW, people=loans.PEOPLE, sessions=True) as it:
            phone = self.of_zoe(it)
            self.hand_over(it, phone, "tom")
            told = "zoe 2/2 took this round along. What you send is entered in your name: tom 2/3."
            self.assertIn(told, phone.text("main"))
            phone.press("Enter 1 repayment")
            phone.wait(lambda: phone.bar() == "", "the result")
            (entry,) = it.send("head", "GET", "/api/loans/0002-000001/entries")[1]["entries"]
            self.assertEqual((entry["staff"], entry["amount"], entry["receipt"]), ("2/3", 10000, "2-20240331-000001"))

    def test_who_does_not_see_the_office_loses_nothing(self):
        south = b'1/1 POST /offices {"number":3,"parent":1,"name":"South"}\n'
        sami = b'1/1 POST /staff {"office":3,"name":"Sami","role":"teller"}\n'
        with desk.Desk(lines=FEW + south + sami, people=loans.PEOPLE | {"sami": "3/1"}, sessions=True) as it:
            phone = self.of_zoe(it)
            self.hand_over(it, phone, "sami")
            phone.press("Enter 1 repayment")
            phone.wait(lambda: phone.results() == {"F4": 1}, "the refusal")
            self.assertIn("F4: It is not there, or it is not yours to see. Check the number.", phone.text("main"))
            self.assertEqual((phone.bar(), phone.script(AMOUNTS)[0]), (self.BAR, "100"))
            self.assertEqual(entered(it, 1), [[]])

    def test_signed_out(self):
        """By sessions: the sign-in's page tells what waits, and opens it where there is no network."""
        with desk.Desk(lines=FEW, people=loans.PEOPLE, sessions=True) as it:
            zoe = self.phone(it, "zoe")
            zoe.take_along()
            zoe.type(1, "100")
            zoe.wait(lambda: zoe.bar().startswith("1 not sent"), "it")
            place = zoe.script("return document.querySelector('link[rel=manifest]').href").removeprefix(it.url)
            self.assertEqual(it.exchange(None, "GET", place)[1]["Content-Type"], "application/manifest+json")
            zoe.script("document.getElementById('sign-out').click()")
            zoe.wait(lambda: zoe.title() == "Sign in" and zoe.bar() == "1 not sent, 100.00, since HH:MM", "the sign-in")
            zoe.driver.get(it.url + "/")  # the worker has the page, and yet the front's answer counts
            zoe.wait(lambda: zoe.driver.current_url == it.url + "/sign-in.html", "the sign-in")
            it.nginx.stop()
            zoe.network(CUT)
            zoe.reload()
            zoe.wait(lambda: zoe.all(".unsent a"), "the way")
            zoe.look("offline-sign-in")
            zoe.all(".unsent a")[0].click()
            zoe.unlock()
            zoe.wait(lambda: zoe.all("main h2 a"), "the list")
            zoe.all("main h2 a")[0].click()
            zoe.wait(lambda: zoe.script(AMOUNTS)[:1] == ["100"], "the round")
            zoe.type(2, "50")
            zoe.wait(lambda: zoe.bar().startswith("2 not sent, 150.00"), "it")
            it.nginx.start()
            zoe.network(OPEN)
            zoe.press("Look for the network")
            zoe.wait(lambda: zoe.title() == "Sign in", "the sign-in")
            self.assertEqual(entered(it, 2), [[], []])
            it.let_in(zoe.driver, "tom")
            zoe.open_kept()
            zoe.press("Enter 2 repayments")
            zoe.wait(lambda: zoe.bar() == "", "the results")
            self.assertEqual(entered(it, 3), once(10000, 5000) + [[]])


class Kills(Case):
    """A round of forty, typed and sent while the browser is killed with SIGKILL: each line is entered once."""

    TYPING = (14, 40)  # the lines at which it is killed as they are typed
    # as it is sent: after how many results, so many seconds more, and whether the desk hangs by then
    SENDING = ((0, 0, False), (2, 0.3, True), (4, 0.1, False))
    AMOUNTS = [f"{10 + line}.{line:02}" for line in range(1, rounds.COUNT + 1)]

    def test_each_line_once(self):
        with loans.desk_with(rounds.FORTY) as it:
            zoe = Battery(it, "zoe")
            self.addCleanup(zoe.close)
            zoe.take_along()
            self.type_all(zoe)
            self.send_all(it, zoe)
            cents = [int(amount.replace(".", "")) for amount in self.AMOUNTS]
            self.assertEqual(entered(it, rounds.COUNT), once(*cents))
            print(f"    {zoe.kills} kills, {rounds.COUNT} lines, each once", end=" ")

    def type_all(self, zoe):
        """What the bar told before a kill is there after it; of the amount that was being typed, a beginning."""
        zoe.network(CUT)
        for line, amount in enumerate(self.AMOUNTS, 1):
            if line in self.TYPING and line > 1:
                zoe.wait(lambda line=line: zoe.bar().startswith(f"{line - 1} not sent"), "what was typed before")
            zoe.type(line, amount)
            if line in self.TYPING:
                zoe.die()
                zoe.network(CUT)
                zoe.open_kept()
                kept = zoe.script(AMOUNTS)
                self.assertEqual(kept[: line - 1], self.AMOUNTS[: line - 1])
                self.assertTrue(amount.startswith(kept[line - 1]), kept[line - 1])
                zoe.type(line, amount)
        zoe.wait(lambda: zoe.bar().startswith(f"{rounds.COUNT} not sent"), "all of it")

    def send_all(self, it, zoe):
        zoe.network(OPEN)
        it.let_in(zoe.driver, "zoe")
        zoe.open_kept()
        unknown = 0
        for results, seconds, hangs in self.SENDING:
            zoe.network(SLOW)
            before = sum(zoe.results().get(one, 0) for one in ("entered", "repeated"))
            zoe.wait(lambda: zoe.bar() == "" or zoe.press_enter(), "the button that enters")
            if zoe.bar() == "":
                break  # a browser that was killed late had sent all of it
            zoe.wait(lambda: not zoe.all(".round-enter")[0].is_enabled(), "the sending")
            done = "return document.querySelectorAll('[data-result=entered], [data-result=repeated]').length"
            zoe.wait(lambda wanted=before + results: zoe.script(done) >= wanted, "the results")
            if hangs:
                it.serve.process.send_signal(signal.SIGSTOP)
            time.sleep(seconds)
            zoe.die()
            it.serve.process.send_signal(signal.SIGCONT)
            stands = [len(one) for one in entered(it, rounds.COUNT)]
            self.assertLessEqual(max(stands), 1)
            print(f" ({sum(stands)})", end="", flush=True)
            it.let_in(zoe.driver, "zoe")
            zoe.open_kept()
            unknown += zoe.results().get("lost", 0)
            # whatever doesn't stand is typed still, to the last digit
            left = [text for text, count in zip(zoe.script(AMOUNTS), stands) if count == 0]
            self.assertEqual(left, [text for text, count in zip(self.AMOUNTS, stands) if count == 0])
        self.assertGreaterEqual(unknown, 1, "a line was on its way as it was killed")
        zoe.wait(lambda: zoe.bar() == "" or zoe.press_enter(), "the button that enters")
        zoe.wait(lambda: zoe.bar() == "", "all results")


class FlatBattery(Case):
    """Chromium writes on behind a record that was cut short, and empties its databases at the next start."""

    def test_nothing_typed_is_lost(self):
        with loans.desk_with(FEW) as it:
            zoe = Battery(it, "zoe")
            self.addCleanup(zoe.close)
            zoe.take_along()
            zoe.network(CUT)
            for line, amount in enumerate(("10", "20.50", "30"), 1):
                zoe.type(line, amount)
                zoe.wait(lambda line=line: zoe.bar().startswith(f"{line} not sent"), "it")
                zoe.die(is_torn=True)
                zoe.network(CUT)
                zoe.open_kept()
                self.assertEqual(zoe.script(AMOUNTS)[:line], ["10", "20.50", "30"][:line])
            self.assertEqual(zoe.bar(), "3 not sent, 60.50, since HH:MM")
            emptied = glob.glob(os.path.join(zoe.profile, "Default", "IndexedDB", "*", "LOG*"))
            self.assertTrue(any("Creating DB" in text_of(path) for path in emptied), "the browser emptied none")
            zoe.network(OPEN)
            it.let_in(zoe.driver, "zoe")
            zoe.open_kept()
            zoe.press("Enter 3 repayments")
            zoe.wait(lambda: zoe.results() == {"entered": 3}, "the results")
            self.assertEqual(entered(it, COUNT)[:3], once(1000, 2050, 3000))

    def test_copies_end_with_what_they_are_of(self):
        """They are sealed as it is; a round that is removed has none any more."""
        with loans.desk_with(FEW) as it:
            zoe = self.phone(it, "zoe")
            zoe.take_along()
            self.assertEqual(zoe.module(COPIES), ["microloan-kept/pin/only", "microloan-kept/rounds/2 2024-03-31"])
            for kept in zoe.module(COPIED):
                for word in ("Client 1", "0002-000001", "North"):
                    self.assertNotIn(word, kept)
            zoe.press("Remove from this phone")
            zoe.send("Remove from this phone")
            zoe.wait(lambda: "No round is on this phone" in zoe.text("main"), "its end")
            self.assertEqual(zoe.module(COPIES), ["microloan-kept/pin/only"])


class Versions(Case):
    """The pages are changed while a round is on the phone."""

    WORKER = (
        "const {installing, waiting} = await navigator.serviceWorker.getRegistration();"
        "return !installing && !waiting && (await caches.match(files.src)) !== undefined"
    )

    def test_replaced_and_nothing_lost(self):
        with tempfile.TemporaryDirectory() as folder:
            pages = shutil.copytree(os.path.join(running.FRONT, "pages"), os.path.join(folder, "pages"))
            it = desk.Desk(lines=FEW, people=loans.PEOPLE, pages=pages)
            self.addCleanup(it.end)
            zoe = self.phone(it, "zoe")
            zoe.take_along()
            zoe.type(1, "100")
            zoe.wait(lambda: zoe.bar().startswith("1 not sent"), "it")
            names = "return (await caches.keys()).filter((name) => name.startsWith('/files/'))"
            (first,) = zoe.module(names)
            for version in (2, 3):
                with self.subTest(version):
                    self.change(it, pages, f"Phone of version {version}")
                    zoe.type(version, str(version))  # in a page of the version before
                    zoe.wait(lambda: zoe.bar().startswith(f"{version} not sent"), "it")
                    zoe.open_kept()
                    self.assertIn(f"Phone of version {version}", zoe.text("main"), "it shows at once")
                    zoe.wait(lambda: zoe.module(self.WORKER), "the worker of this version")
                    it.nginx.stop()
                    zoe.network(CUT)
                    zoe.driver.execute_cdp_cmd("Network.clearBrowserCache", {})
                    zoe.open_kept()
                    self.assertIn(f"Phone of version {version}", zoe.text("main"), "and without a network")
                    self.assertEqual(zoe.script(AMOUNTS)[:version], ["100", "2", "3"][:version])
                    zoe.network(OPEN)
                    it.nginx.start()
                    it.let_in(zoe.driver, "zoe")
                    zoe.open_kept()
            self.assertEqual(len(zoe.module(names)), 2)
            self.assertNotIn(first, zoe.module(names))
            self.assertIn("microloan-kept/rounds/2 2024-03-31", zoe.module(COPIES), "no version drops the copies")
            zoe.press("Enter 3 repayments")
            zoe.wait(lambda: zoe.bar() == "", "the results")
            self.assertEqual(entered(it, 4), once(10000, 200, 300) + [[]])

    def change(self, it, pages, words):
        """Lays the pages out anew, with other words in place of the title of rounds on the phone."""
        path = os.path.join(pages, "words", "en.js")
        with open(path, encoding="utf-8") as file:
            text = file.read()
        with open(path, "w", encoding="utf-8") as file:
            file.write(re.sub(r'"kept.title": ".*"', f'"kept.title": "{words}"', text))
        it.nginx.lay_out()


if __name__ == "__main__":
    unittest.main()
