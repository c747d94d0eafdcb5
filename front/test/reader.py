"""A reader of the pages: a browser in which somebody is signed in, told by the words that stand on the pages.

    it = reader.Reader(desk, "tom", width=360)
    it.go("loan/0021-000028")
    it.press("Enter a repayment")
    it.fill("Amount", "200.00")
    it.send("Enter a repayment")
"""
import atexit
import os
import re
import time

from selenium.common.exceptions import StaleElementReferenceException
from selenium.webdriver.common.by import By
from selenium.webdriver.support.ui import Select

import desk

PATIENCE = 30
# What the program refuses is logged by the browser as a failure to load; these statuses are what a page asked for. So
# is a worker whose script didn't come: the pages work without it, and the tests without a network see that it comes.
EXPECTED = re.compile(r"status of (403|404|409) |occurred when fetching the script")


FREE = []  # browsers that are free: each with its language, and the addresses at which somebody is signed in there


@atexit.register
def quit_all():
    for driver, _, _ in FREE:
        driver.quit()


def take_browser(language, url):
    """A browser in which nobody is signed in at this address: a free one, or a new one: each takes seconds to start."""
    for place, (driver, spoken, urls) in enumerate(FREE):
        if spoken == language and url not in urls:
            del FREE[place]
            return driver, urls
    return desk.new_browser(1280, 900, language), set()


class Reader:
    def __init__(self, it, name, width=1280, height=900, language="en"):
        self.desk = it
        self.language = language
        self.driver, self.urls = take_browser(language, it.url)
        self.urls.add(it.url)
        self.wish("light")
        self.widen(width, height)
        it.let_in(self.driver, name)
        self.driver.get(it.url + "/")

    def close(self):
        self.driver.get("about:blank")
        self.driver.get_log("browser")
        FREE.append((self.driver, self.language, self.urls))

    def __enter__(self):
        return self

    def __exit__(self, *_):
        self.close()

    def wish(self, scheme):
        """Has the system wish for light or dark colours, and for no motion."""
        wishes = {"prefers-reduced-motion": "reduce", "prefers-color-scheme": scheme}
        features = [{"name": name, "value": value} for name, value in wishes.items()]
        self.driver.execute_cdp_cmd("Emulation.setEmulatedMedia", {"features": features})

    # pages

    def go(self, place):
        """Shows a page, anew where it is the one that is shown."""
        address = f"{self.desk.url}/#/{place}"
        if self.driver.current_url == address:
            self.driver.refresh()
        else:
            self.driver.get(address)
        self.settle()

    def reload(self):
        self.driver.refresh()
        self.settle()

    def widen(self, width, height=900):
        size = {"width": width, "height": height, "deviceScaleFactor": 1, "mobile": False}
        self.driver.execute_cdp_cmd("Emulation.setDeviceMetricsOverride", size)
        self.driver.execute_cdp_cmd("Emulation.setScrollbarsHidden", {"hidden": True})

    def wait(self, holds, what):
        """Waits until this holds. What it came to."""
        end = time.monotonic() + PATIENCE
        while time.monotonic() < end:
            try:
                found = holds()
            except StaleElementReferenceException:
                found = None
            if found:
                return found
            time.sleep(0.03)
        raise AssertionError(f"{what} did not come; the page says: {self.text('body')[:600]}")

    def settle(self):
        """Waits until the page has all that it reads."""
        script = (
            "return !!document.querySelector('h1, .alert') && !document.querySelector('.spinner-border') && "
            "!document.documentElement.hasAttribute('data-asking')"
        )
        self.wait(lambda: self.driver.execute_script(script), "the page")

    def script(self, text, *values):
        return self.driver.execute_script(text, *values)

    def module(self, text):
        """What an asynchronous script answers. `load` loads a module of the pages by its path."""
        begin = (
            "const done = arguments[arguments.length - 1]; const files = document.querySelector('script[type=module]');"
            "const load = (path) => import(new URL(path, files.src)); (async () => {"
        )
        return self.driver.execute_async_script(f"{begin} {text} }})().then(done, (error) => done(String(error)))")

    # what stands there

    def all(self, selector):
        return self.driver.find_elements(By.CSS_SELECTOR, selector)

    def text(self, selector):
        return self.script("return document.querySelector(arguments[0])?.innerText ?? ''", selector)

    def title(self):
        return self.script("return document.querySelector('h1')?.firstChild.textContent ?? ''")

    def badge(self):
        return self.text("h1 .badge")

    def figures(self):
        """The key figures: their words and values."""
        return dict(
            self.script(
                "return [...document.querySelectorAll('.key-figure')].map((one) => "
                "[one.querySelector('.key-figure-words').innerText, one.querySelector('.key-figure-value').innerText])"
            )
        )

    def table(self, caption):
        """The rows of a table's body, each as its columns' words and what stands below them."""
        return self.script(
            "const tables = [...document.querySelectorAll('table')];"
            "const table = tables.find((one) => one.caption?.textContent === arguments[0]);"
            "return table && [...table.tBodies[0].rows].map((row) => Object.fromEntries("
            "[...row.cells].map((cell) => [cell.dataset.words, cell.innerText.trim()])))",
            caption,
        )

    def actions(self):
        """The words of what may be done on the page, but for what is in the frame."""
        found = self.script(
            "return [...document.querySelectorAll('.page-head .page-actions > *')].map((one) => one.textContent)"
        )
        return set(found)

    def errors(self):
        """What the browser's console has as errors, but for refusals that the pages ask for."""
        return [message for message in desk.console_errors(self.driver) if not EXPECTED.search(message)]

    def picture(self, name):
        """Takes a screenshot of the whole page where MICROLOAN_SHOTS names a folder for them."""
        if os.environ.get("MICROLOAN_SHOTS"):
            self.reload()
            desk.screenshot(self.driver, name, whole=True)

    # what is done

    def press(self, words, within="main"):
        """Presses the button with these words."""
        self.wait(lambda: self.find(words, within), f"the button {words}").click()

    def find(self, words, within="main"):
        for one in self.all(f"{within} button, {within} a"):
            if one.text.strip() == words and one.is_displayed() and one.is_enabled():
                return one
        return None

    def open_dialog(self, words):
        """Presses a button that asks a question, and waits for the question."""
        self.press(words)
        self.wait_for_dialog()

    def wait_for_dialog(self, words=""):
        """Waits until a dialog with these words is there and has the focus."""
        script = (
            "const dialog = document.querySelector('.modal.show');"
            "return dialog?.contains(document.activeElement) && dialog.innerText.includes(arguments[0])"
        )
        self.wait(lambda: self.script(script, words), "the dialog")

    def field(self, label, within=".modal"):
        found = [one for one in self.all(f"{within} label") if one.text.strip() == label]
        return self.driver.find_element(By.ID, found[0].get_attribute("for"))

    def fill(self, label, value, within=".modal"):
        """Types a value into the field of this label; days and choices are set."""
        field = self.field(label, within)
        if field.tag_name == "select":
            Select(field).select_by_index([one.text.strip() for one in Select(field).options].index(value))
        elif field.get_attribute("type") == "date":
            self.script(
                "arguments[0].value = arguments[1]; arguments[0].dispatchEvent(new Event('change'))", field, value
            )
        else:
            field.clear()
            field.send_keys(value)

    def send(self, words):
        """Presses the button of the dialog, and waits until it is done."""
        self.press(words, ".modal.show")
        self.wait(lambda: not self.all(".modal"), "the end of the dialog")
        self.settle()

    def refused(self, words):
        """Presses the button of the dialog, and waits for the refusal. Its words."""
        self.press(words, ".modal.show")
        self.wait(lambda: self.all(".modal .alert"), "the refusal")
        return self.text(".modal .alert")

    def cancel(self, words="Cancel"):
        self.press(words, ".modal.show")
        self.wait(lambda: not self.all(".modal"), "the end of the dialog")
        self.settle()

    def note(self):
        """What the page told last in its corner."""
        return self.wait(lambda: self.text(".toast-body"), "the note")
