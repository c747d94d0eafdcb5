"""A desk for tests: nginx and the program on free loopback ports, over an institution of its own, and its people.

    with desk.Desk() as it:                       over the demonstration's institution
    with desk.Desk(lines=b"1/1 POST ..\\n") as it:  over a new one, into which these request lines are entered
        it.add_person("tom", "21/3")
        status, body = it.send("tom", "POST", "/api/clients", {"office": 21, "name": "Amina"})
        browser = it.browser("tom", width=360)    a selenium webdriver, signed in as tom, at the first page
        it.kill_serve(); it.start_serve()

Desk(file=PATH) takes an institution's file that is there, Desk(pages=FOLDER) other pages. The program has lists for the
pages where it can; with Desk(lists=False) it has none. Desk(lines=.., journal=True) founds one that keeps a journal.
People sign in by Basic, and by sessions with Desk(sessions=True), or where MICROLOAN_SIGN_IN is `sessions`. All ends
with the block.
Screenshots go into the folder that MICROLOAN_SHOTS names, else into out/shots of the checkout.
"""
import atexit
import base64
import http.client
import itertools
import json
import os
import shutil
import signal
import subprocess
import sys
import tempfile
import urllib.parse

sys.dont_write_bytecode = True
sys.path.insert(0, os.path.dirname(os.path.dirname(os.path.abspath(__file__))))
import running

PASSWORD, FIRST = "password-of-{}", "first-word-of-{}"
FORM = "application/x-www-form-urlencoded"
ADDRESSES = itertools.count()
SESSIONS = os.environ.get("MICROLOAN_SIGN_IN") == "sessions"
PEOPLE = {"amina": "1/1", "ruth": "2/1", "paulo": "21/1", "zoe": "21/2", "tom": "21/3"}  # of the demonstration
PATIENCE = 60  # seconds that a reply may take
MADE = {}  # the demonstration's file, made once


def demonstration_file():
    """The file of the demonstration's institution. It is made once in a process, to be copied."""
    if not MADE:
        folder = tempfile.mkdtemp(prefix="microloan-demonstration-")
        atexit.register(shutil.rmtree, folder)
        path = os.path.join(folder, "desk.db")
        made = subprocess.run([os.path.join(running.FRONT, "demonstration")], stdout=subprocess.PIPE, check=True)
        running.answer_lines(path, made.stdout)
        MADE["path"] = path
    return MADE["path"]


def copy_file(path, other):
    """Copies an institution's file and the log beside it. The program must not run over it."""
    for ending in ("", "-wal"):
        if os.path.exists(path + ending):
            shutil.copyfile(path + ending, other + ending)


class Desk:
    """A front over the program, in a folder of its own, from its start to its end."""

    def __init__(self, lines=None, file=None, pages=None, people=None, sessions=None, minutes=(), lists=None,
                 journal=False):
        self.folder = tempfile.mkdtemp(prefix="microloan-test-")
        self.file = os.path.join(self.folder, "desk.db")
        self.drivers = []
        self.replies = []
        self.serve = running.Serve(self.file, running.free_port(), lists, journal)
        self.cookies = {}
        by_sessions = SESSIONS if sessions is None else sessions
        self.sign_in = running.SignIn(os.path.join(self.folder, "sign-in"), *minutes) if by_sessions else None
        folder = self.sign_in.folder if by_sessions else None
        self.nginx = running.Nginx(self.folder, running.free_port(), self.serve.port, pages, folder)
        try:
            if lines is not None:
                founding = ["--journal"] if journal else []
                self.replies = running.answer_lines(self.file, lines, *founding).decode().splitlines()
            else:
                copy_file(file or demonstration_file(), self.file)
            self.nginx.lay_out()
            if self.sign_in:
                self.sign_in.lay_out()
                self.sign_in.start()
                self.nginx.start()
            known = PEOPLE if people is None and lines is None and file is None else people or {}
            for name, staff in known.items():
                self.add_person(name, staff)
            self.serve.start()
            if not self.sign_in:
                self.nginx.start()
        except BaseException:
            self.end()
            raise

    def __enter__(self):
        return self

    def __exit__(self, *_):
        self.end()

    def end(self):
        """Ends browsers, nginx and the program, and removes the folder."""
        for driver in self.drivers:
            driver.quit()
        self.nginx.stop()
        self.serve.stop()
        if self.sign_in:
            self.sign_in.stop()
        shutil.rmtree(self.folder, ignore_errors=True)

    @property
    def url(self):
        return f"http://127.0.0.1:{self.nginx.port}"

    @property
    def log(self):
        """The messages that the front has logged, each as what its line says."""
        with open(self.nginx.log, encoding="utf-8") as file:
            return [json.loads(line) for line in file]

    @property
    def strangers(self):
        """The lines of the log of who wasn't signed in."""
        with open(self.nginx.strangers, encoding="utf-8") as file:
            return file.read().splitlines()

    # the program

    def start_serve(self):
        self.serve.start()

    def stop_serve(self):
        self.serve.stop()

    def kill_serve(self):
        self.serve.stop(signal.SIGKILL)

    # people

    def add_person(self, name, staff, password=None, *more):
        """Adds a person. nginx is told, if it runs. With sessions the person has chosen the password already."""
        if not self.sign_in:
            self.nginx.add(name, staff, password_of(name, password), *more)
            if self.nginx.process:
                self.nginx.reload()
            return
        self.nginx.add(name, staff, FIRST.format(name), *more)
        form = {"user": name, "oldpassword": FIRST.format(name), "newpassword": password_of(name, password)}
        status, told = self.post("/session/password", form)
        if status != 200:
            raise running.Failed(f"{name}: {told}")

    def post(self, path, form, fields=()):
        """Sends a form, as the page of the sign-in does. The status and what is answered."""
        sent = [("Content-Type", FORM), ("X-Desk", "1"), *fields]
        status, _, data = self.exchange(None, "POST", path, form_data(form), sent, address=another_address())
        return status, json.loads(data)

    def cookie_of(self, name, password=None):
        """The cookie of a person's session, which begins where there is none; None where it is refused."""
        key = name, password_of(name, password)
        if key not in self.cookies:
            form, fields = form_data({"user": name, "password": key[1]}), [("Content-Type", FORM), ("X-Desk", "1")]
            _, answered, _ = self.exchange(None, "POST", "/session", form, fields, address=another_address())
            self.cookies[key] = (answered["Set-Cookie"] or "").split(";")[0]
        return self.cookies[key]

    def send(self, name, method, path, body=None, fields=None, password=None):
        """The status and the body that a person gets: JSON read, else its bytes. What writes carries X-Desk."""
        status, _, data = self.exchange(name, method, path, body, fields, password)
        try:
            return status, json.loads(data)
        except ValueError:
            return status, data

    def exchange(self, name, method, path, body=None, fields=None, password=None, address="127.0.0.1"):
        """The status, the header fields and the bytes of a reply. `fields` may be pairs, so that a name comes twice."""
        link = {"timeout": PATIENCE, "source_address": (address, 0)}
        connection = http.client.HTTPConnection("127.0.0.1", self.nginx.port, **link)
        data = body if body is None or isinstance(body, bytes) else json.dumps(body).encode()
        sent = list(fields.items()) if isinstance(fields, dict) else list(fields or [])
        if name is not None and self.sign_in:
            sent.append(("Cookie", self.cookie_of(name, password)))
        elif name is not None:
            sent.append(("Authorization", "Basic " + credentials(name, password)))
        if method not in ("GET", "HEAD") and fields is None:
            sent.append(("X-Desk", "1"))
        if data is not None:
            sent.append(("Content-Length", str(len(data))))
        connection.putrequest(method, path, skip_accept_encoding=True)
        for field, value in sent:
            connection.putheader(field, value)
        connection.endheaders(data)
        reply = connection.getresponse()
        found = reply.status, reply.headers, reply.read()
        connection.close()
        return found

    def new_session(self, name, password=None):
        """The id of a session that has just begun."""
        self.cookies.pop((name, password_of(name, password)), None)
        return self.cookie_of(name, password).removeprefix("desk=")

    # browsers

    def browser(self, name, width=1280, height=900, language="en", password=None):
        """A browser in which the person is signed in, at the first page, its content so many columns wide."""
        driver = new_browser(width, height, language)
        self.drivers.append(driver)
        if name is not None:
            self.let_in(driver, name, password)
        driver.get(self.url + "/")
        return driver

    def let_in(self, driver, name, password=None):
        """Signs a person in, in a browser where nobody is."""
        if self.sign_in:
            driver.get(self.url + "/lib/")  # of this origin, and loads nothing that a page then has already
            driver.delete_all_cookies()
            session = self.new_session(name, password)
            driver.add_cookie({"name": "desk", "value": session, "path": "/", "httpOnly": True})
        else:
            # The password in the address signs in. A page whose address has one can't ask for anything: go on without.
            driver.get(f"http://{name}:{password_of(name, password)}@127.0.0.1:{self.nginx.port}/me")

    def close(self, driver):
        """Ends a browser before the desk ends."""
        self.drivers.remove(driver)
        driver.quit()


def form_data(members):
    return urllib.parse.urlencode(members).encode()


def another_address():
    """An address of loopback that no other message came from: sign-ins are limited by address."""
    place = next(ADDRESSES)
    return f"127.0.{4 + place // 250}.{1 + place % 250}"


def password_of(name, password=None):
    return PASSWORD.format(name) if password is None else password


def credentials(name, password=None):
    return base64.b64encode(f"{name}:{password_of(name, password)}".encode()).decode()


def new_browser(width, height, language="en", profile=None):
    """A headless Chromium, with a profile that may be a folder's. The width is set by the browser's tools, since its
    windows are at least 500 columns wide."""
    from selenium import webdriver
    from selenium.webdriver.chrome.service import Service

    options = webdriver.ChromeOptions()
    options.binary_location = running.find("chromium")
    for word in ("--headless=new", "--disable-gpu", "--disable-dev-shm-usage", "--no-first-run", f"--lang={language}"):
        options.add_argument(word)
    if os.geteuid() == 0:
        options.add_argument("--no-sandbox")
    if profile:
        options.add_argument(f"--user-data-dir={profile}")
    options.add_experimental_option("prefs", {"intl.accept_languages": language})
    options.set_capability("goog:loggingPrefs", {"browser": "ALL"})
    driver = webdriver.Chrome(service=Service(running.find("chromedriver")), options=options)
    driver.set_page_load_timeout(PATIENCE)
    size = {"width": width, "height": height, "deviceScaleFactor": 1, "mobile": False}
    driver.execute_cdp_cmd("Emulation.setDeviceMetricsOverride", size)
    driver.execute_cdp_cmd("Emulation.setLocaleOverride", {"locale": language})
    return driver


def console_errors(driver):
    """What the pages have put on the browser's console as errors since this was last asked."""
    return [entry["message"] for entry in driver.get_log("browser") if entry["level"] == "SEVERE"]


def screenshot(driver, name, whole=False):
    """Puts a screenshot, of what is seen or of the whole page, into the folder of screenshots. Its path."""
    folder = os.environ.get("MICROLOAN_SHOTS") or os.path.join(running.TOP, "out", "shots")
    os.makedirs(folder, exist_ok=True)
    path = os.path.join(folder, name + ".png")
    wanted = {"format": "png", "captureBeyondViewport": whole}
    if whole:  # without a clip what is taken is sometimes what is seen alone
        size = driver.execute_cdp_cmd("Page.getLayoutMetrics", {})["cssContentSize"]
        wanted["clip"] = size | {"scale": 1}
    taken = driver.execute_cdp_cmd("Page.captureScreenshot", wanted)
    with open(path, "wb") as file:
        file.write(base64.b64decode(taken["data"]))
    return path
