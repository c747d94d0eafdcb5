"""What bench/growth measures of the lists for pages: those of one office, whatever lies beside it in the file."""
import dataclasses
import os
import statistics

import institutions as files
from branches import CLIENTS, LAST_DAY, account, entered, grow, repayment
from speed_page import duration, factor, row, spread
from workers import Desk

OFFICE, LOANS = 9000, 3000  # the office that is asked for, and its active loans
NEXT_DAY = "2025-01-01"  # the business day
REPAID = 300  # loans of each office with an entry on each of the two days
UPGRADE = 600  # seconds that a million clients may take to get a journal
WANTED, WANTED_OF_FIND = 5000, 15000  # microseconds of a processor


@dataclasses.dataclass
class Reading:
    """A reading: a function of the number of a request, and how many make a batch."""

    name: str
    line: object
    times: int
    wanted: int = WANTED


def get(path):
    return f"1/1 GET /lists/{path}\n"


def find(part):
    return f'1/1 POST /lists/find {{"office":{OFFICE},"part":"{part}"}}\n'


def readings():
    """Each list, at its place in the middle or at its end where there are several pages."""

    def loan(k):
        return account((OFFICE, 1 + k * 37 % LOANS))

    last = account((OFFICE, CLIENTS))
    return [
        Reading("500 clients", lambda k: get(f"clients/{OFFICE}/{500 * (k % 20)}"), 5),
        Reading("clients found by a part that nobody has", lambda _: find("nobody of this name"), 5, WANTED_OF_FIND),
        Reading("clients found by a part that all have", lambda _: find("MARKET"), 5, WANTED_OF_FIND),
        Reading("a client found by number", lambda _: find(last), 5, WANTED_OF_FIND),
        Reading("a client's loans", lambda k: get(f"loans/{loan(k)}"), 5),
        Reading("200 loans with something due", lambda k: get(f"due/{OFFICE}/{NEXT_DAY}/{200 * (k % 15)}"), 5),
        Reading("200 active loans", lambda k: get(f"stages/{OFFICE}/300/{200 * (k % 15)}"), 5),
        Reading("loans that wait: none", lambda _: get(f"stages/{OFFICE}/100/0"), 5),
        Reading("staff", lambda _: get(f"staff/{OFFICE}"), 50),
        Reading("what a loan would be", lambda _: get(f"schedule/1/120000/12/{NEXT_DAY}"), 50),
        Reading("history of a loan, by the journal", lambda k: get(f"history/{loan(k % 8)}"), 2),
        Reading("200 changes of the office, by the journal", lambda _: get(f"journal/{OFFICE}/{REPAID}"), 2),
        Reading("takings of the business day", lambda _: get(f"takings/{OFFICE}/{NEXT_DAY}"), 2),
        Reading("takings of the day before", lambda _: get(f"takings/{OFFICE}/{LAST_DAY}"), 2),
    ]


def told_by(path, folder):
    """The readings that this program has."""
    desk = Desk(path, folder, ["--lists"])
    told = [one for one in readings() if not desk.replied(one.line(0)).startswith('404 {"fault":"F5"')]
    desk.end()
    return told


def made(first, folder, branches):
    """A file with so many branches and the office, which keeps a journal of two days: of each day a line for each of
    some loans of each office."""
    path = os.path.join(folder, f"lists-{branches}.db")
    files.copy(first, path)
    grow(path, branches)
    grow(path, 1, CLIENTS, LOANS, OFFICE)
    files.ended(["upgrade", "--existing", "--file", path, "--journal"], patience=UPGRADE)
    offices = [*range(2, branches + 2), OFFICE]
    day = [repayment((office, number), 1, LAST_DAY) for number in range(1, REPAID + 1) for office in offices]
    entered(path, day + [f'1/1 PUT /business-day {{"day":"{NEXT_DAY}"}}\n'] + day)
    return path


def measured(first, folder, scale, say):
    """Microseconds of each reading by batch, over a file of each size."""
    costs = {}
    for branches in scale.branches:
        say(f"{branches} branches beside an office of {LOANS} loans: the file is made")
        path = made(first, folder, branches)
        told = told_by(path, folder)
        desk = Desk(path, folder, ["--lists"])
        say(f"{branches} branches: the lists are read")
        for batch in range(scale.batches):
            for one in told:
                lines = [one.line(batch * one.times + k) for k in range(one.times)]
                seconds = desk.answered(lines)[0]
                costs.setdefault(one.name, {}).setdefault(branches, []).append(seconds / one.times * 1e6)
        desk.end()
        files.remove(path)
    return costs


def table(costs):
    """A row for each reading, with what is wanted of it."""
    sizes = list(next(iter(costs.values())))
    text = f"""## Lists of one office

Processor time of one request for a list of an office with {CLIENTS:,} clients and {LOANS:,} active loans of 12 entries,
in files with {", ".join(map(str, sizes))} branches beside it. The file keeps a journal of two business days, with
{REPAID} lines of each office on each.

"""
    text += row("List", *[f"{size} branches" for size in sizes], "Growth", "±", "Wanted", "")
    text += row("---", *["--:"] * (len(sizes) + 3), "---")
    wanted = {one.name: one.wanted for one in readings()}
    for name, by_size in costs.items():
        medians = [statistics.median(by_size[size]) for size in sizes]
        verdict = "" if max(medians) <= wanted[name] else "missed"
        figures = [factor(medians[-1] / medians[0]), spread(by_size[sizes[-1]]), duration(wanted[name])]
        text += row(name, *map(duration, medians), *figures, verdict)
    return text + "\n"
