"""Runs the tests of a folder, and tells how many passed: for `run` beside this file and others like it."""
import os
import subprocess
import sys
import time
import unittest

sys.path.insert(0, os.path.dirname(os.path.dirname(os.path.abspath(__file__))))
import running

BROWSER = {
    "chromium": "chromium",
    "chromedriver": "chromium-driver",
    "/usr/lib/python3/dist-packages/selenium": "python3-selenium",
    "pdftotext": "poppler-utils",
    "zbarimg": "zbar-tools",
}


def install_missing(name, needed):
    """Installs Debian's packages that are missing, as root; ends and names them where somebody else runs this."""
    missing = running.missing_packages(needed)
    if not missing:
        return
    if os.geteuid() != 0:
        sys.exit(f"{name}: first, as root: apt-get install {' '.join(missing)}")
    quiet = {"stdout": subprocess.DEVNULL, "env": os.environ | {"DEBIAN_FRONTEND": "noninteractive"}}
    subprocess.run(["apt-get", "-qq", "update"], check=True, **quiet)
    subprocess.run(["apt-get", "-qq", "install", "-y", "--no-install-recommends", *missing], check=True, **quiet)


class Result(unittest.TextTestResult):
    """Tells each test's time, and counts tests: one counts as failed where any part of it failed."""

    def __init__(self, *words, **options):
        super().__init__(*words, **options)
        self.wrong = set()
        self.faults = 0  # of a class or a module that couldn't begin

    def startTest(self, test):
        self.began = time.monotonic()
        super().startTest(test)

    def stopTest(self, test):
        super().stopTest(test)
        self.stream.writeln(f"    {time.monotonic() - self.began:.1f} s")

    def note(self, test):
        if isinstance(test, unittest.TestCase):
            self.wrong.add(test.id())
        else:
            self.faults += 1

    def addError(self, test, error):
        super().addError(test, error)
        self.note(test)

    def addFailure(self, test, error):
        super().addFailure(test, error)
        self.note(test)

    def addUnexpectedSuccess(self, test):
        super().addUnexpectedSuccess(test)
        self.note(test)

    def addSubTest(self, test, subtest, error):
        super().addSubTest(test, subtest, error)
        if error is not None:
            self.note(test)


def tests_of(suite):
    for part in suite:
        yield from tests_of(part) if isinstance(part, unittest.TestSuite) else [part]


def run(suite):
    return unittest.TextTestRunner(stream=sys.stdout, verbosity=2, resultclass=Result).run(suite)


def failed_twice(wrong, retries):
    """Which of the tests that failed fail again. More than `retries` of them aren't tried again."""
    if not 0 < len(wrong) <= retries:
        return wrong
    print("these failed, and are run once more:", *sorted(wrong), sep="\n    ", flush=True)
    second = run(unittest.defaultTestLoader.loadTestsFromNames(sorted(wrong)))
    twice = wrong if second.faults else second.wrong
    for name in sorted(wrong - twice):
        print(f"unsteady: {name} failed once, and passed when it was run again")
    return twice


def main(folder, retries=0):
    """Runs the tests that the arguments name, else all of the folder. Where at most so many fail, these are run once
    more, and count as they end then."""
    sys.path.insert(0, folder)
    names = [word for word in sys.argv[1:] if not word.startswith("-")]
    loader = unittest.defaultTestLoader
    suite = loader.loadTestsFromNames(names) if names else loader.discover(folder, pattern="test_*.py")
    if "--list" in sys.argv:
        print("\n".join(test.id() for test in tests_of(suite)))
        return
    sys.stderr = sys.stdout  # one stream, so that the last line is the last
    result = run(suite)
    wrong = failed_twice(result.wrong, retries)
    failed = len(wrong) + result.faults
    passed = result.testsRun - len(wrong) - len(result.skipped)
    skipped = f", {len(result.skipped)} skipped" if result.skipped else ""
    print(f"{passed} passed, {failed} failed{skipped}", flush=True)
    sys.exit(1 if failed or not passed else 0)
