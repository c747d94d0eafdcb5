"""Tests of each page: by each role, at two widths, in each language; what a keyboard and a screen reader need."""
import json
import os
import re
import unittest

import desk
import reader
import running

# the demonstration's people, and what each may do
PEOPLE = ("amina", "ruth", "paulo", "zoe", "tom")
PLACES = (
    "today",
    "clients/21",
    "client/0021-000003",
    "loans/21",
    "loan/0021-000028",
    "statement/0021-000028",
    "round/21",
    "kept",
    "pack",
    "arrears",
    "arrears/21",
    "waivers/0021-000028",
    "penalties/21",
    "catalogue",
    "people",
    "journal/21",
    "takings",
)
WIDTHS = (360, 1280)
TELLER = {"loan/0021-000028": {"Enter a repayment", "Statement"}}
OFFICER = {
    "clients/21": {"New client"},
    "client/0021-000003": {"New loan"},
    "loan/0021-000028": TELLER["loan/0021-000028"] | {"Enter a fee", "Enter a penalty"},
    "arrears/21": {"Enter penalties"},
}
MANAGER = OFFICER | {
    "loan/0021-000028": OFFICER["loan/0021-000028"] | {"Waive", "Write off"},
    "people": {"New member of staff"},
}
HEAD_OFFICE = MANAGER | {
    "today": {"Move the business day"},
    "catalogue": {"New charge", "New product"},
    "people": {"New office", "New member of staff"},
}
MAY = {"tom": TELLER, "zoe": OFFICER, "paulo": MANAGER, "ruth": MANAGER, "amina": HEAD_OFFICE}
ALWAYS = {
    "today": {"Cash"},
    "takings": {"Print"},
    "statement/0021-000028": {"Print"},
    "round/21": {"Print", "Save as a sheet", "Take this round along", "Day pack"},
    "kept": {"Day pack"},
    "arrears": {"Print"},
}
REFUSED = {"waivers/0021-000028": ("tom", "zoe"), "penalties/21": ("tom",)}  # pages that a role doesn't have
ROLES = {"tom": "Teller", "zoe": "Loan officer", "paulo": "Manager", "ruth": "Manager", "amina": "Head office"}

# the texts that have too little contrast with what lies behind them (WCAG 2.1 AA: 4.5, and 3 where they are large)
CONTRAST = """
const linear = (v) => v / 255 <= .03928 ? v / 255 / 12.92 : ((v / 255 + .055) / 1.055) ** 2.4;
const light = (c) => { const l = c.map(linear);
    return .2126 * l[0] + .7152 * l[1] + .0722 * l[2]; };
const read = (text) => { const n = text.match(/[\\d.]+/g).map(Number); return [n.slice(0, 3), n[3] ?? 1]; };
const over = (top, share, under) => top.map((v, i) => v * share + under[i] * (1 - share));
const ground = (node) => { const [c, share] = read(getComputedStyle(node).backgroundColor);
    const below = share < 1 ? (node.parentElement ? ground(node.parentElement) : [255, 255, 255]) : c;
    return share < 1 ? over(c, share, below) : c; };
const poor = [];
for (const node of document.querySelectorAll('body *')) {
    const own = [...node.childNodes].some((one) => one.nodeType === 3 && one.textContent.trim() !== '');
    const box = node.getBoundingClientRect();
    if (!own || node.closest('.visually-hidden, :disabled, .skip-link') || box.width < 2 || box.height < 2) continue;
    const style = getComputedStyle(node); const behind = ground(node);
    const [c, share] = read(style.color); const text = over(c, share, behind);
    const [a, b] = [light(text), light(behind)].sort((x, y) => y - x); const ratio = (a + .05) / (b + .05);
    const size = parseFloat(style.fontSize);
    const isLarge = size >= 24 || (size >= 18.66 && Number(style.fontWeight) >= 700);
    if (ratio < (isLarge ? 3 : 4.5)) poor.push(`${ratio.toFixed(2)} ${node.className} ${node.textContent.trim()}`);
}
return poor;
"""

# the fields and buttons that a screen reader has no name for
NAMELESS = """
return [...document.querySelectorAll('input, select, textarea, button, a[href]')].filter((node) => {
    const label = node.id && document.querySelector(`label[for="${node.id}"]`);
    const own = /INPUT|SELECT|TEXTAREA/.test(node.tagName) ? '' : node.textContent;
    const words = (node.getAttribute('aria-label') ?? '') + (label?.textContent ?? '') + own;
    return words.trim() === '' && getComputedStyle(node).display !== 'none';
}).map((node) => node.outerHTML.slice(0, 120));
"""

# what is smaller than a finger
SMALL = """
return [...document.querySelectorAll('a[href], button, input, select, textarea')].filter((node) => {
    const box = (node.type === 'checkbox' ? node.closest('label') : node).getBoundingClientRect();
    const isSeen = box.width > 1 && !node.closest('.visually-hidden, .skip-link');
    return isSeen && (box.height < 43.9 || box.width < 43.9);
}).map((node) => node.outerHTML.slice(0, 120));
"""

# all that the page has loaded
LOADED = "return performance.getEntriesByType('resource').map((one) => one.name)"


def setUpModule():
    global DESK
    DESK = desk.Desk()
    unittest.addModuleCleanup(DESK.end)


class EachPage(unittest.TestCase):
    """Each page by each role: what may be done there, at two widths."""

    def look(self, it, name, place):
        """What may be done there, and what a screen reader is told."""
        allowed = MAY[name].get(place, set()) | ALWAYS.get(place, set())
        if name in REFUSED.get(place, ()):
            self.assertIn("Your role does not allow this.", it.text("main"))
            return
        self.assertTrue(it.title())
        self.assertEqual(it.actions(), allowed)
        self.assertEqual(it.script(NAMELESS), [])
        reversals = len([one for one in it.all("table button") if one.text == "Reverse"])
        is_manager = MAY[name] in (MANAGER, HEAD_OFFICE)
        self.assertEqual(reversals, 3 if is_manager and place.startswith("loan/") else 0)
        self.assertEqual(it.errors(), [])
        foreign = [one for one in it.script(LOADED) if not one.startswith(DESK.url + "/")]
        self.assertEqual(foreign, [], "loaded from elsewhere")

    def look_at_all(self, name):
        with reader.Reader(DESK, name) as it:
            for place in PLACES:
                with self.subTest(place):
                    it.go(place)
                    self.look(it, name, place)
                for width in WIDTHS:
                    with self.subTest(place, width=width):
                        it.widen(width)
                        it.picture(f"{place.replace('/', '-')}-{name}-{width}")
                        # a page is laid out anew a moment after its window has another width
                        fits = f"return document.documentElement.scrollWidth <= {width}"
                        it.wait(lambda fits=fits: it.script(fits), f"a page of {width} columns")
                        self.assertEqual(it.script(CONTRAST), [])
            person = it.script("return document.querySelector('.person').textContent")
        self.assertIn(f"{name} · {ROLES[name]}", person)

    def test_head_office(self):
        self.look_at_all("amina")

    def test_manager_of_a_region(self):
        self.look_at_all("ruth")

    def test_manager_of_a_branch(self):
        self.look_at_all("paulo")

    def test_officer(self):
        self.look_at_all("zoe")

    def test_teller(self):
        self.look_at_all("tom")


class EachEye(unittest.TestCase):
    """Colours of the dark, targets of a finger's size, and twice the size of everything."""

    def test_dark(self):
        """By the system's wish; a statement stays as the paper that it is printed on."""
        with reader.Reader(DESK, "amina") as it:
            it.wish("dark")
            for place in PLACES:
                with self.subTest(place):
                    it.go(place)
                    self.assertEqual(it.script(CONTRAST), [])
                    light = "return getComputedStyle(document.querySelector(arguments[0])).backgroundColor"
                    self.assertEqual(it.script(light, "body"), "rgb(18, 24, 28)")
                    if place.startswith("statement"):
                        self.assertEqual(it.script(light, ".sheet"), "rgb(255, 255, 255)")
            it.go("people")
            it.open_dialog("New office")
            self.assertEqual(it.script(CONTRAST), [])
            it.cancel()

    def test_a_finger(self):
        """On a phone what is pressed is 44 pixels wide and high at least, in the menu and in a dialog too."""
        with reader.Reader(DESK, "amina", width=360, height=740) as it:
            for place in PLACES:
                with self.subTest(place):
                    it.go(place)
                    self.assertEqual(it.script(SMALL), [])
            it.all(".navbar-toggler")[0].click()
            it.wait(lambda: it.all("#menu.show"), "the menu")
            self.assertEqual(it.script(SMALL), [])
            it.go("people")
            it.open_dialog("New office")
            self.assertEqual(it.script(SMALL), [])
            it.cancel()

    def test_twice_the_size(self):
        """1280 columns at 200 percent are 640: no page is wider."""
        with reader.Reader(DESK, "amina", width=640, height=400) as it:
            for place in PLACES:
                with self.subTest(place):
                    it.go(place)
                    fits = "return document.documentElement.scrollWidth <= 640"
                    it.wait(lambda: it.script(fits), "a page of 640 columns")


class Weight(unittest.TestCase):
    """What a browser loads: bytes over the line, and requests that go out."""

    SENT = (
        "return performance.getEntriesByType('navigation').concat(performance.getEntriesByType('resource'))"
        ".filter((one) => one.transferSize > 0).map((one) => [one.name, one.transferSize, one.startTime])"
    )

    def weigh(self, sessions):
        """The bytes that a first opening takes, and the requests of a second one before the desk's own."""
        with desk.Desk(sessions=sessions) as other, reader.Reader(other, "tom") as it:
            it.settle()  # it was opened once: `go` may show the page a second time
            it.wait(lambda: it.script("return typeof Chart") == "function", "the graph")
            first = it.script(self.SENT)
            self.assertGreater(len(first), 20)
            self.assertEqual([name.split("/")[-1] for name, _, _ in first if "/words/" in name], ["en.js"])
            it.reload()
            second = it.script(self.SENT)
            asked = min(start for name, _, start in second if "/api/" in name)
            return sum(size for _, size, _ in first), [name for name, _, start in second if start < asked]

    def test_first_and_second_opening(self):
        """By either sign-in a first opening takes 180 kB at most, a second one three requests before the desk's own."""
        for sessions in (False, True):
            with self.subTest(sessions=sessions):
                taken, before = self.weigh(sessions)
                print(f"    {taken} bytes, then {len(before)} requests", end=" ")
                self.assertLessEqual(taken, 180_000)
                self.assertLessEqual(len(before), 3, before)

    def test_what_is_kept_without_a_network(self):
        """The worker brings 240 kB of files at most, compressed, and 45 kB of libraries."""
        worker = DESK.exchange("tom", "GET", "/worker.js")[2].decode()
        folder, names = (re.search(rf'const {name} = "([^"]+)"', worker)[1] for name in ("FILES", "NAMES"))
        kept = {240_000: [f"{folder}/{name}" for name in names.split()], 45_000: re.findall('"(/lib/[^"]+)"', worker)}
        for most, paths in kept.items():
            replies = [DESK.exchange("tom", "GET", path, fields={"Accept-Encoding": "gzip"}) for path in paths]
            self.assertEqual({status for status, _, _ in replies}, {200})
            self.assertLessEqual(sum(len(data) for _, _, data in replies), most)

    def test_libraries_only_where_they_are_used(self):
        with reader.Reader(DESK, "tom") as it:
            it.go("round/21")
            it.reload()
            libraries = [name.split("/lib/")[1] for name in it.script(LOADED) if "/lib/" in name]
            self.assertEqual(libraries, ["bootstrap/css/bootstrap.min.css"])
            it.go("arrears")
            it.wait(lambda: [name for name in it.script(LOADED) if "chart" in name], "the library of graphs")
            it.wait(lambda: it.script("return Chart.getChart(document.querySelector('canvas')) !== undefined"), "it")

    def test_shared_modules_are_told_ahead(self):
        """index.html names each, so that none waits for the one that imports it."""
        pages = os.path.join(running.FRONT, "pages")
        with open(os.path.join(pages, "index.html"), encoding="utf-8") as file:
            named = re.findall(r'rel="modulepreload" href="/([^"]+)"', file.read())
        self.assertEqual(named, [f"shared/{name}" for name in sorted(os.listdir(os.path.join(pages, "shared")))])

    def test_pages_stay_small(self):
        pages = os.path.join(running.FRONT, "pages")
        lines = 0
        for part in ("shared", "views"):
            for name in os.listdir(os.path.join(pages, part)):
                with open(os.path.join(pages, part, name), encoding="utf-8") as file:
                    lines += len(file.readlines())
        self.assertLessEqual(lines, 9600)


class Languages(unittest.TestCase):
    def test_each_language(self):
        """By the browser's language, and by the switch, which is kept."""
        titles = {
            "fr": "Impayés au 30 sept. 2026",
            "es": "Mora al 30 sept 2026",
            "sw": "Malimbikizo tarehe 30 Sep 2026",
        }
        outstanding = {"fr": "187\u202f719,33", "es": "187.719,33", "sw": "187,719.33"}
        for language, title in titles.items():
            with self.subTest(language):
                it = reader.Reader(DESK, "amina", language=language)
                it.go("arrears")
                self.assertEqual(it.title(), title)
                self.assertIn(outstanding[language], it.text("tfoot"))
                for width, places in ((1280, PLACES[:1]), (360, PLACES)):
                    it.widen(width)
                    for place in places:
                        it.go(place)
                        self.assertLessEqual(it.script("return document.documentElement.scrollWidth"), width, place)
                        it.picture(f"{place.replace('/', '-')}-{language}-{width}")
                self.assertEqual(it.errors(), [])
                it.close()

    def test_long_days(self):
        """Words in English, days as a reader of Portuguese writes them: no page is wider than a phone."""
        it = reader.Reader(DESK, "amina", language="pt-BR")
        it.widen(360)
        for place in PLACES:
            it.go(place)
            self.assertLessEqual(it.script("return document.documentElement.scrollWidth"), 360, place)
        it.go("loan/0021-000028")
        self.assertIn(" de jul. de 2026", it.text("main"))
        it.close()

    def test_switch(self):
        it = reader.Reader(DESK, "tom", language="de")
        it.go("arrears/21")
        self.assertEqual(it.title(), "Arrears of 21 Kisumu")
        # words in English, amounts as the German reader writes them
        self.assertIn("21.919,75", it.text("main"))
        it.script(
            "const choice = document.getElementById('language'); choice.value = 'fr';"
            "choice.dispatchEvent(new Event('change'))"
        )
        it.wait(lambda: it.title() == "Impayés de 21 Kisumu", "French")
        it.reload()
        self.assertEqual(it.title(), "Impayés de 21 Kisumu")
        self.assertEqual(it.script("return document.documentElement.lang"), "fr")
        it.close()

    def test_same_keys(self):
        """All languages have the same keys, and the same values stand in the words of a key."""
        it = reader.Reader(DESK, "tom")
        words = json.loads(
            it.module(
                "const all = {}; for (const name of ['en', 'fr', 'es', 'sw'])"
                " all[name] = (await load(`words/${name}.js`)).default;"
                "return JSON.stringify(all)"
            )
        )
        it.close()

        def values(text):
            return sorted(re.findall(r"\{\w+\}", text))

        for name in ("fr", "es", "sw"):
            with self.subTest(name):
                self.assertEqual(list(words[name]), list(words["en"]))
                other = [key for key, text in words["en"].items() if values(words[name][key]) != values(text)]
                self.assertEqual(other, [])
                same = [key for key, text in words["en"].items() if len(text) > 25 and words[name][key] == text]
                self.assertEqual(same, [], "not translated")


class Sources(unittest.TestCase):
    """What the pages' files hold."""

    def files(self, ending):
        for folder, _, names in os.walk(os.path.join(running.FRONT, "pages")):
            for name in names:
                if name.endswith(ending):
                    with open(os.path.join(folder, name), encoding="utf-8") as file:
                        yield name, file.read()

    def test_texts_are_no_markup(self):
        """Nothing makes markup of texts, and no markup has script or style in it."""
        found = [
            name
            for name, text in self.files(".js")
            if re.search(r"(inner|outer)HTML|insertAdjacent|document\.write|eval\(", text)
        ]
        self.assertEqual(found, [])
        found = [
            name
            for name, text in self.files(".html")
            if re.search(r"<script(?![^>]*\ssrc=)|<style|\sstyle=|\son\w+=", text)
        ]
        self.assertEqual(found, [])

    def test_words_are_there(self):
        """Each key that the pages name has words, and no key stands unused."""
        words = set(os.listdir(os.path.join(running.FRONT, "pages", "words")))
        sources = "".join(text for name, text in self.files(".js") if name not in words)
        keys = set(re.findall(r'^ {4}"([^"]+)":', dict(self.files("en.js"))["en.js"], re.MULTILINE))
        plain = set(re.findall(r'\bsay\("([^"]+)"', sources))
        counted = set(re.findall(r'\bsayCount\("([^"]+)"', sources))
        self.assertGreater(len(plain), 150)
        self.assertEqual(plain - keys, set())
        self.assertEqual({f"{key}.{form}" for key in counted for form in ("one", "other")} - keys, set())
        # `status.${status}` names all that begin so
        begun = tuple(re.findall(r"`([a-z]+\.)\$\{", sources)) + ("refusal.", "front.")
        strings = set(re.findall(r'"([a-z0-9.-]+)"', sources))
        unused = {
            key
            for key in keys - strings
            if re.sub(r"\.(one|other)$", "", key) not in strings and not key.startswith(begun)
        }
        self.assertEqual(unused, set())


class Money(unittest.TestCase):
    # by locale: what is typed, and its cents, None where it is no amount
    TYPED = {
        "en": {
            "1,234.56": 123456,
            "1234.5": 123450,
            "1 234.56": 123456,
            "7": 700,
            "0.07": 7,
            "1,5": None,
            "1.234": None,
            "12,34.50": None,
            "-1": None,
            "": None,
            "1e3": None,
            "١٢": None,
        },
        "fr": {
            "1 234,56": 123456,
            "1\u202f234,56": 123456,
            "1\u00a0234,5": 123450,
            "1234.56": 123456,
            "1.234": None,
            "12 34": None,
            "1,234,5": None,
        },
        "es": {
            "1.234,56": 123456,
            "1234,56": 123456,
            "1.5": None,
            "1.234": 123400,
            "1,234.56": None,
            "1 234,56": 123456,
        },
        "sw": {"1,234.56": 123456, "1234.56": 123456, "1,5": None},
        "de": {"1.234,56": 123456, "1.234.567,89": 123456789, "1234,5": 123450, "1.5": None},
        "de-CH": {"1’234.56": 123456, "1'234.56": 123456, "1234.56": 123456},
    }
    SHOWN = {
        "en": "10,000,000,000.05",
        "fr": "10\u202f000\u202f000\u202f000,05",
        "es": "10.000.000.000,05",
        "sw": "10,000,000,000.05",
        "de": "10.000.000.000,05",
        "de-CH": ("10’000’000’000.05", "10'000'000'000.05"),
    }  # as the browser's tables have it

    def setUp(self):
        self.it = reader.Reader(DESK, "tom")
        self.addCleanup(self.it.close)

    def parsed(self, locale, texts):
        return self.it.module(
            f"const {{ moneyFor }} = await load('shared/money.js'); const money = moneyFor({json.dumps(locale)});"
            f"return {json.dumps(list(texts))}.map((text) => money.parse(text))"
            ".map((cents) => cents === null ? null : Number(cents))"
        )

    def test_typed(self):
        for locale, table in self.TYPED.items():
            with self.subTest(locale):
                self.assertEqual(dict(zip(table, self.parsed(locale, table))), table)

    def test_shown(self):
        for locale, text in self.SHOWN.items():
            with self.subTest(locale):
                shown = self.it.module(
                    "const { moneyFor } = await load('shared/money.js');"
                    f"return moneyFor({json.dumps(locale)}).format(1000000000005n)"
                )
                self.assertIn(shown, text if isinstance(text, tuple) else (text,))

    def test_more_than_a_number_holds(self):
        """2^53 + 1 cents, and sums past it, keep their last digit."""
        shown = self.it.module(
            "const { moneyFor, sum } = await load('shared/money.js');"
            "const { readJson } = await load('shared/api.js');"
            'const told = readJson(\'{"a":9007199254740993,"b":"9007199254740993 \\\\" 12",'
            '"c":[1,9007199254740993]}\');'
            "return [moneyFor('en').format(told.a), told.b, moneyFor('en').format(sum(told.c))]"
        )
        self.assertEqual(shown, ["90,071,992,547,409.93", '9007199254740993 " 12', "90,071,992,547,409.94"])


class Keyboard(unittest.TestCase):
    def test_skip_and_dialog(self):
        """The first key leads past the frame; a dialog takes the focus, keeps it, and gives it back."""
        from selenium.webdriver.common.keys import Keys

        it = reader.Reader(DESK, "zoe")
        it.go("clients/21")
        it.reload()
        active = it.driver.switch_to.active_element
        active.send_keys(Keys.TAB)
        self.assertEqual(it.driver.switch_to.active_element.text, "Skip to the content")
        it.driver.switch_to.active_element.send_keys(Keys.ENTER)
        self.assertEqual(it.driver.switch_to.active_element.get_attribute("id"), "main")
        button = it.find("New client")
        it.script("arguments[0].focus()", button)
        outline = it.script(
            "return getComputedStyle(arguments[0]).outlineStyle + getComputedStyle(arguments[0]).outlineWidth", button
        )
        button.send_keys(Keys.ENTER)
        it.wait(lambda: it.all(".modal.show") and it.driver.switch_to.active_element.tag_name == "input", "the dialog")
        for _ in range(9):
            it.driver.switch_to.active_element.send_keys(Keys.TAB)
            self.assertTrue(it.script("return document.querySelector('.modal').contains(document.activeElement)"))
        it.driver.switch_to.active_element.send_keys(Keys.ESCAPE)
        it.wait(lambda: not it.all(".modal"), "the end of the dialog")
        self.assertEqual(it.driver.switch_to.active_element.text, "New client")
        self.assertEqual(outline, "solid3px")
        it.close()

    def test_focus_goes_to_the_title(self):
        it = reader.Reader(DESK, "tom")
        it.press("Arrears", "#ways")
        it.wait(lambda: it.title().startswith("Arrears"), "the page")
        it.wait(lambda: it.script("return document.activeElement.tagName") == "H1", "the focus")
        self.assertEqual(it.driver.title, "Arrears on Sep 30, 2026 · microloan")
        it.close()


if __name__ == "__main__":
    unittest.main()
