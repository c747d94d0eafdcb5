"""Tests of the sign-in by sessions: of a person who sees it the first time, of managers, of tools, and of strangers."""
import http.server
import json
import os
import re
import subprocess
import sys
import time
import unittest
import urllib.parse

import desk
import running
from selenium.webdriver.common.by import By
from selenium.webdriver.common.keys import Keys
from test_front import LINES, NORTH, desk_wait, listening

PEOPLE = {"head": "1/1", "ruth": "2/1", "tom": "2/3", "sami": "3/1"}
PEOPLE_SCRIPT = os.path.join(running.FRONT, "people")
REPORT = os.path.join(running.TOP, "package", "tools", "microloan-report")
OWN = "a word of my own {}"
LOCKED_AFTER = 10  # wrong passwords


def setUpModule():
    global DESK
    DESK = desk.Desk(lines=LINES, people=PEOPLE, sessions=True)
    unittest.addModuleCleanup(DESK.end)
    DESK.add_person("zoe", "2/2", None, "--manager", "ruth")


def people(*words, password="", at=None):
    """The status of `people`, and what it says."""
    asked = [PEOPLE_SCRIPT, "--sign-in", (at or DESK).sign_in.folder, *words]
    done = subprocess.run(asked, input=password + "\n", capture_output=True, text=True, check=False)
    return done.returncode, done.stdout + done.stderr


class Session:
    """A session of a person, apart from those that the desk keeps."""

    def __init__(self, name, password=None, at=None, address=None):
        self.desk = at or DESK
        self.address = address or desk.another_address()
        form = desk.form_data({"user": name, "password": desk.password_of(name, password)})
        fields = [("Content-Type", desk.FORM), ("X-Desk", "1")]
        self.status, answered, data = self.desk.exchange(None, "POST", "/session", form, fields, address=self.address)
        self.reply = data.decode()
        self.set_cookie = answered["Set-Cookie"] or ""
        self.cookie = self.set_cookie.split(";")[0]

    def ask(self, method, path, form=None, fields=()):
        sent = [("Cookie", self.cookie), ("X-Desk", "1"), ("Content-Type", desk.FORM), *fields]
        body = None if form is None else desk.form_data(form)
        status, _, data = self.desk.exchange(None, method, path, body, sent, address=self.address)
        return status, json.loads(data) if data.startswith(b"{") else data

    def is_on(self):
        return self.ask("GET", "/me")[0] == 200


def code_of(secret):
    """The code of a key at this moment, by a second program."""
    words = ["oathtool", "--totp", "--base32", secret.upper()]
    return subprocess.run(words, capture_output=True, text=True, check=True).stdout.strip()


class ANewPerson(unittest.TestCase):
    """In a browser, who was given a name and a first password comes to the page that they wanted."""

    def setUp(self):
        self.browser = desk.new_browser(1100, 800)
        DESK.drivers.append(self.browser)
        self.addCleanup(DESK.close, self.browser)

    def tearDown(self):
        people("remove", "lea")

    def type(self, *texts):
        for place, text in enumerate(texts):
            field = self.browser.find_elements(By.CSS_SELECTOR, "form input")[place]
            field.clear()
            field.send_keys(text)
        self.browser.find_element(By.CSS_SELECTOR, "form button").click()

    def wait_for(self, text):
        desk_wait(lambda: text in self.browser.execute_script("return document.body.innerText"))

    def test_from_the_first_password_to_the_lock(self):
        people("add", "lea", "2/7", "--unasked", password="first-word-of-lea")
        self.browser.get(f"{DESK.url}/#/catalogue")
        self.wait_for("Sign in")
        self.type("lea", "not it at all")
        self.wait_for("The name or the password is wrong.")
        self.type("Lea ", "first-word-of-lea")
        self.wait_for("Choose a password of your own")
        for texts, told in ((("short", "short"), "fewer than 10"), (("abcdefghijkl", "abcdefghijkl"), "easy to guess")):
            self.type(*texts)
            self.wait_for(told)
        self.type(OWN.format(1), OWN.format(2))
        self.wait_for("differ")
        self.type(OWN.format(1), OWN.format(1))
        desk_wait(lambda: self.browser.current_url == f"{DESK.url}/#/catalogue")

    def test_a_counter_is_locked_and_the_next_person_is_themselves(self):
        self.browser.get(f"{DESK.url}/#/clients")
        self.wait_for("Sign in")
        self.type("tom", desk.PASSWORD.format("tom"))
        self.wait_for("2/3 North")
        self.browser.execute_script("localStorage.setItem('draft of tom', '12.00'); location.hash = '#/loans'")
        cookie = "desk=" + self.browser.get_cookie("desk")["value"]
        self.browser.find_element(By.TAG_NAME, "body").send_keys(Keys.F8)
        self.wait_for("Sign in")
        self.assertEqual(self.browser.current_url, f"{DESK.url}/sign-in.html#/loans")
        self.assertEqual(DESK.send(None, "GET", "/me", fields=[("Cookie", cookie)])[0], 401)
        self.browser.back()
        self.wait_for("Sign in")
        self.assertNotIn("North", self.browser.page_source)
        self.type("zoe", desk.PASSWORD.format("zoe"))
        self.wait_for("2/2 North")
        self.assertEqual(self.browser.execute_script("return localStorage.getItem('draft of tom')"), "12.00")
        self.browser.find_element(By.ID, "own-acts").click()
        self.browser.find_element(By.ID, "sign-out").click()
        self.wait_for("Sign in")
        self.assertEqual(self.browser.current_url, f"{DESK.url}/sign-in.html")
        self.assertIsNone(self.browser.get_cookie("desk"))

    def test_a_manager_resets_and_unlocks(self):
        for _ in range(LOCKED_AFTER):
            Session("zoe", "wrong", address="127.0.1.6")
        self.browser.get(f"{DESK.url}/sign-in.html#people")
        self.wait_for("Sign in")
        self.type("ruth", desk.PASSWORD.format("ruth"))
        self.wait_for("2/1 North")
        self.browser.get(f"{DESK.url}/sign-in.html#people")
        self.wait_for("locked out")
        own = self.browser.find_element(By.CSS_SELECTOR, "input")
        own.send_keys("not mine")
        buttons = self.browser.find_elements(By.CSS_SELECTOR, "td button")
        self.assertEqual([button.text for button in buttons], ["New password", "Unlock"])
        buttons[1].click()
        self.wait_for("The password is wrong.")
        own.clear()
        own.send_keys(desk.PASSWORD.format("ruth"))
        buttons[1].click()
        self.wait_for("zoe can sign in again.")
        self.assertNotIn("locked out", self.browser.page_source)
        self.assertTrue(Session("zoe").is_on())

    def test_each_language(self):
        for language, title in (("fr", "Connexion"), ("es", "Entrar"), ("sw", "Ingia")):
            browser = DESK.browser(None, 360, 640, language)
            desk_wait(lambda browser=browser: browser.find_elements(By.TAG_NAME, "h1"))
            self.assertEqual(browser.find_element(By.TAG_NAME, "h1").text, title)
            self.assertLessEqual(browser.execute_script("return document.documentElement.scrollWidth"), 360)
            DESK.close(browser)

    def test_a_code_of_ones_own(self):
        DESK.add_person("sara", "2/8")
        self.addCleanup(people, "remove", "sara")
        self.browser.get(DESK.url)
        self.wait_for("Sign in")
        self.type("sara", desk.PASSWORD.format("sara"))
        desk_wait(lambda: self.browser.current_url == f"{DESK.url}/")
        self.browser.get(f"{DESK.url}/sign-in.html#code")
        self.wait_for("Key:")
        secret = self.browser.find_element(By.ID, "key").text.replace(" ", "")
        self.type(str(int(code_of(secret)) + 1).zfill(6)[-6:])
        self.wait_for("The code is wrong.")
        self.type(code_of(secret))
        self.wait_for("From now on a code is asked for")
        session = Session("sara")
        self.assertEqual(session.cookie, "")  # the password alone begins none
        token = re.search('name="token" value="([0-9a-f]+)"', session.reply)[1]
        self.assertEqual(DESK.send(None, "GET", "/me", fields=[("Cookie", f"desk={token}")])[0], 401)
        self.browser.delete_all_cookies()
        self.browser.get(f"{DESK.url}/#/arrears")
        self.wait_for("Sign in")
        self.type("sara", desk.PASSWORD.format("sara"))
        self.wait_for("The code that your telephone shows")
        logged = len(DESK.strangers)
        self.type("000000")
        self.wait_for("The code is wrong.")
        desk_wait(lambda: any(" refused for sara from " in line for line in DESK.strangers[logged:]))
        self.type(code_of(secret))
        desk_wait(lambda: self.browser.current_url == f"{DESK.url}/#/arrears")
        self.assertEqual(people("forget-code", "sara")[0], 0)
        self.assertTrue(Session("sara").is_on())


class Sessions(unittest.TestCase):
    def test_the_cookie(self):
        """It can't be read by a script nor sent from another site, and belongs to this host whatever its name is."""
        session = Session("tom")
        self.assertRegex(session.set_cookie, r"^desk=[0-9a-f]{64}; Path=/; HttpOnly; SameSite=Strict$")
        self.assertEqual(session.ask("GET", "/me"), (200, {"user": "tom", "staff": "2/3", "session": True}))

    def test_a_session_is_never_handed_on(self):
        """Who signs in where somebody is signed in already gets a session of their own, with another cookie."""
        tom = Session("tom")
        form = desk.form_data({"user": "ruth", "password": desk.PASSWORD.format("ruth")})
        fields = [("Content-Type", desk.FORM), ("X-Desk", "1"), ("Cookie", tom.cookie)]
        _, answered, _ = DESK.exchange(None, "POST", "/session", form, fields)
        cookie = answered["Set-Cookie"].split(";")[0]
        self.assertNotEqual(cookie, tom.cookie)
        self.assertEqual(DESK.send(None, "GET", "/me", fields=[("Cookie", cookie)])[1]["user"], "ruth")
        self.assertEqual(tom.ask("GET", "/me")[1]["user"], "tom")

    def test_staff_is_the_directorys(self):
        session = Session("tom")
        forged = [("X-Staff", "1/1"), ("HeaderValue1", "1/1"), ("Lm-Remote-User", "head"), ("Auth-User", "head")]
        self.assertEqual(session.ask("GET", "/api/offices", fields=forged), (200, NORTH))
        line = desk_wait(lambda: next((it for it in DESK.log if it["user"] == "tom"), None))
        self.assertEqual(line["staff"], "2/3")

    def test_nobody_has_no_way_in(self):
        for cookie in ("", "desk=", "desk=" + "0" * 64, "desk=../conf/lmConf-1.json", "desk=lock", "desk=1; desk=2"):
            for path in ("/api/offices", "/me", "/people", "/institution.json"):
                with self.subTest(cookie=cookie, path=path):
                    fields = [("Cookie", cookie), ("X-Staff", "1/1")]
                    self.assertIn(DESK.send(None, "GET", path, fields=fields)[0], (401, 429))
        status, fields, _ = DESK.exchange(None, "GET", "/")
        self.assertEqual((status, urllib.parse.urlsplit(fields["Location"]).path), (302, "/sign-in.html"))

    def test_nothing_else_of_the_engine_is_open(self):
        session = Session("head")
        for path in ("/asks-engine", "/sign-in/", "/session/delete", "/2fregisters", "/refresh", "/sessions/global/x",
                     "/psgi.fcgi", "/logout", "/checkuser", "/session/getkey/../delete", "/error", "/ping"):
            with self.subTest(path):
                self.assertIn(session.ask("GET", path)[0], (400, 403, 404, 405))
        self.assertEqual(session.ask("GET", "/session")[0], 405)

    def test_other_sites_can_do_nothing(self):
        session = Session("tom")
        for path in ("/session", "/session/end", "/session/password", "/session/getkey", "/people/reset"):
            for fields in ([("X-Desk", "")], [("X-Desk", "1"), ("Sec-Fetch-Site", "cross-site")]):
                sent = [("Cookie", session.cookie), *fields]
                self.assertEqual(DESK.send(None, "POST", path, b"", sent), (403, {"front": "origin"}))
        self.assertTrue(session.is_on())

    def test_a_page_of_another_site_reads_nothing_as_the_person(self):
        """The browser doesn't send the cookie along, so that the log has nothing under the person's name."""
        page = f"<!doctype html><img src='{DESK.url}/api/charges/777'><img src='{DESK.url}/me'>".encode()

        class Handler(http.server.BaseHTTPRequestHandler):
            def do_GET(self):
                self.send_response(200)
                self.send_header("Content-Type", "text/html")
                self.end_headers()
                self.wfile.write(page)

            def log_message(self, *_):
                """No line on standard error."""

        browser = DESK.browser("sami")
        desk_wait(lambda: any(line["user"] == "sami" for line in DESK.log))
        with listening(Handler) as port:
            asked = len(DESK.strangers)
            browser.get(f"http://localhost:{port}/")
            desk_wait(lambda: sum("nobody for ?" in line for line in DESK.strangers[asked:]) >= 2)
        self.assertEqual([line for line in DESK.log if line["path"] == "/api/charges/777"], [])

    def test_what_stands_behind_a_password_counts(self):
        for more in ("\0", "\0more", " ", "x"):
            self.assertEqual(Session("tom", desk.PASSWORD.format("tom") + more).cookie, "")

    def test_sign_out_ends_it_at_once(self):
        session, other = Session("tom"), Session("tom")
        self.assertEqual(session.ask("POST", "/session/end")[0], 200)
        self.assertEqual((session.is_on(), other.is_on()), (False, True))

    def test_ones_own_password(self):
        """The old one is asked for; the person's other sessions end."""
        DESK.add_person("nia", "2/9")
        self.addCleanup(people, "remove", "nia")
        first, second = Session("nia"), Session("nia")
        form = {"user": "nia", "oldpassword": "not it", "newpassword": OWN.format(3)}
        self.assertEqual(first.ask("POST", "/session/password", form), (401, {"refused": "password"}))
        form["oldpassword"] = desk.PASSWORD.format("nia")
        for password, why in (("short", "short"), ("abcdefghijkl", "easy"), (desk.PASSWORD.format("nia"), "had")):
            refused = first.ask("POST", "/session/password", form | {"newpassword": password})
            self.assertEqual(refused, (400, {"refused": why}))
        self.assertEqual(first.ask("POST", "/session/password", form), (200, {"changed": True}))
        self.assertEqual((first.is_on(), second.is_on()), (True, False))
        self.assertEqual(Session("nia").cookie, "")
        self.assertTrue(Session("nia", OWN.format(3)).is_on())

    def test_it_ends_by_itself(self):
        """Idle for 6 seconds, or 12 seconds old."""
        with desk.Desk(lines=LINES, people={"tom": "2/3"}, sessions=True, minutes=(0.1, 0.2)) as it:
            idle, busy = Session("tom", at=it), Session("tom", at=it)
            began = time.monotonic()
            while busy.is_on() and time.monotonic() - began < 30:
                time.sleep(1)
            self.assertFalse(idle.is_on())
            self.assertGreater(time.monotonic() - began, 10)
            self.assertLess(time.monotonic() - began, 20)
            idle = Session("tom", at=it)
            time.sleep(9)
            self.assertFalse(idle.is_on())

    def test_a_tool_signs_in(self):
        for password, wanted in ((desk.PASSWORD.format("tom"), 0), ("wrong", 1)):
            words = [sys.executable, REPORT, "--user", "tom", "--address", DESK.url]
            done = subprocess.run(words, input=password + "\n", capture_output=True, text=True, check=False)
            self.assertEqual(done.returncode, wanted, done.stderr)
        self.assertEqual(done.stderr, "microloan-report: the name or the password is wrong\n")


class Keepers(unittest.TestCase):
    def test_a_manager_resets_their_own_people_only(self):
        ruth, tom = Session("ruth"), Session("tom")
        own = {"password": desk.PASSWORD.format("ruth")}
        shown = ruth.ask("GET", "/people")[1]["people"]
        self.assertEqual([(it["name"], it["staff"]) for it in shown], [("zoe", "2/2")])
        for name in ("tom", "head", "ruth", "nobody", "zoe,ou=people,o=desk", "zoe\0", "*", ""):
            with self.subTest(name):
                asker = Session("ruth")
                self.assertEqual(asker.ask("POST", "/people/reset", own | {"name": name}), (403, {"refused": "nobody"}))
                self.assertEqual(asker.ask("POST", "/people/unlock", own | {"name": name})[0], 403)
        theirs = {"name": "zoe", "password": desk.PASSWORD.format("tom")}
        self.assertEqual(tom.ask("POST", "/people/reset", theirs), (403, {"refused": "nobody"}))
        self.assertEqual(ruth.ask("POST", "/people/reset", {"name": "zoe", "password": ""})[0], 401)
        self.assertEqual(DESK.post("/people/reset", own | {"name": "zoe"}, [("X-Person", "ruth")])[0], 401)
        self.assertTrue(Session("zoe").is_on())

    def test_a_reset_ends_the_sessions_and_gives_a_first_password(self):
        DESK.add_person("kito", "2/10", None, "--manager", "ruth")
        self.addCleanup(people, "remove", "kito")
        session = Session("kito")
        asked = {"name": "kito", "password": desk.PASSWORD.format("ruth")}
        status, told = Session("ruth").ask("POST", "/people/reset", asked)
        self.assertEqual(status, 200)
        self.assertFalse(session.is_on())
        fresh = Session("kito", told["password"])
        self.assertEqual((fresh.status, fresh.cookie), (401, ""))
        self.assertIn('"error":25', fresh.reply)  # must be changed
        self.assertIn("must choose a password", people("list")[1])

    def test_people_keeps_its_words(self):
        self.assertEqual(people("add", "ann", "2/20", "--unasked", password="a first word of ann")[0], 0)
        for words, told in (
            (("add", "ann", "2/21", "--unasked"), "is there already"),
            (("add", "bea", "2/20", "--unasked"), "2/20 is ann"),
            (("add", "bea", "2/21", "--unasked", "--manager", "none"), "none is not there"),
            (("password", "nobody"), "nobody is not there"),
        ):
            status, said = people(*words, password="a first word of bea")
            self.assertEqual(status, 1)
            self.assertIn(told, said)
        self.assertIn("at least 10", people("password", "ann", password="123456789")[1])
        self.assertIn("too easy", people("password", "ann", password="abcdefghijkl")[1])
        self.assertIn("ann 2/20 (must choose a password)\n", people("list")[1])
        DESK.post("/session/password", {"user": "ann", "oldpassword": "a first word of ann", "newpassword": OWN.format(5)})
        session = Session("ann", OWN.format(5))
        self.assertTrue(session.is_on())
        self.assertEqual(people("remove", "ann")[0], 0)
        self.assertFalse(session.is_on())
        self.assertEqual(Session("ann", OWN.format(5)).cookie, "")

    def test_a_reader_only_looks(self):
        people("add", "aud", "3/9", "--unasked", "--reader", password="first-word-of-aud")
        self.addCleanup(people, "remove", "aud")
        DESK.post("/session/password", {"user": "aud", "oldpassword": "first-word-of-aud", "newpassword": OWN.format(6)})
        session = Session("aud", OWN.format(6))
        refused = session.ask("POST", "/api/clients", {"office": 2})
        self.assertEqual(refused, (403, {"front": "reader"}))
        self.assertEqual(session.ask("GET", "/api/offices"), (401, {"fault": "F2"}))  # 3/9 isn't there: it was asked


class Guessing(unittest.TestCase):
    def test_a_name_is_locked_and_opened_again(self):
        DESK.add_person("juma", "2/11")
        self.addCleanup(people, "remove", "juma")
        session = Session("juma")
        told = [Session("juma", f"guess {place}", address="127.0.1.7") for place in range(LOCKED_AFTER + 1)]
        self.assertEqual({it.status for it in told}, {401})
        locked = Session("juma")
        self.assertEqual(locked.cookie, "")
        self.assertIn('"error":21', locked.reply)
        self.assertTrue(session.is_on())  # who is signed in already works on
        self.assertIn("locked out", people("list")[1])
        self.assertEqual(people("unlock", "juma")[0], 0)
        self.assertTrue(Session("juma").is_on())

    def test_an_address_is_slowed_down_and_no_other(self):
        logged = len(DESK.strangers)
        told = [Session(f"nobody-{place}", "x", address="127.0.1.8").status for place in range(60)]
        self.assertEqual(set(told), {401, 429})
        self.assertLess(told.count(401), 30)
        self.assertTrue(Session("tom").is_on())
        own = [line for line in DESK.strangers[logged:] if line.endswith("from 127.0.1.8")]
        self.assertEqual(len(own), told.count(401))
        for line in own:
            self.assertRegex(line, r"^\S+ microloan: refused for nobody-\d+ from 127\.0\.1\.8$")

    def test_each_sign_in_is_told(self):
        logged = len(DESK.strangers)
        Session("tom", address="127.0.1.9")
        line = desk_wait(lambda: DESK.strangers[logged:])[0]
        self.assertRegex(line, r"^\S+ microloan: signed in for tom from 127\.0\.1\.9$")

    def test_no_log_has_a_password(self):
        Session("tom", "a-wrong-word-to-find")
        Session("tom")
        time.sleep(0.5)
        found = subprocess.run(
            ["grep", "-rlE", "a-wrong-word-to-find|password-of-tom", DESK.folder], capture_output=True, text=True, check=False
        )
        self.assertEqual(found.stdout, "")


class TheSameAttacks(unittest.TestCase):
    def test_attacks(self):
        """What test_attacks tries over Basic, tried over sessions."""
        words = [sys.executable, os.path.join(os.path.dirname(__file__), "run"), "test_attacks"]
        settings = os.environ | {"MICROLOAN_SIGN_IN": "sessions"}
        done = subprocess.run(words, env=settings, capture_output=True, text=True, check=False)
        self.assertEqual(done.returncode, 0, done.stdout)


class TheEngineIsDown(unittest.TestCase):
    def test_it_is_told(self):
        with desk.Desk(lines=LINES, people={"tom": "2/3"}, sessions=True) as it:
            session = Session("tom", at=it)
            it.sign_in.stop()
            self.assertEqual(session.ask("GET", "/api/offices"), (502, {"front": "down"}))
            self.assertEqual(Session("tom", at=it).status, 502)


if __name__ == "__main__":
    unittest.main()
