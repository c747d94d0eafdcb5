"""docs/speed.md, made of what bench/growth measured. Each number in it is taken from there, but for those of NOTED."""
import dataclasses
import os
import statistics
import subprocess
import time

import institutions as files
from branches import CLIENTS, ENTRIES, LOANS, PERIODS

COUNTED = ["clients", "loans", "entries"]  # tables
PAID, READ = "repayment with a receipt", "loan read"  # messages
HOURS, WORKING_DAYS = 8, 22  # of a day, of a month
SHARE, SHARE_NAME = 0.25, "a quarter"  # of a day's time in which requests are answered
REPORT, REPORT_OF_ALL = "report, one branch of 1,000 loans", "report, all loans"
LIST = "list of 100 loans with 20 entries each"
LIST_AGAIN = "list of the 100 loans again, each entered into shortly before"
ENTERED = ["client entered", "loan submitted, approved and paid out", "repayment, loan with 0 to 19 entries"]
NOTED = """## Figures that were noted

These were measured once, beside other work, and noted by hand. They tell the order of size.
[speed-shares.md](speed-shares.md) has the instructions of a request, by whose code they are.

| What | Figure |
|---|---|
| a client entered in memory, with page sums and without (20,000 of each) | 27 µs, 27 µs |
| the same in a file on a disk (4,000 of each) | 115 µs, 107 µs |
| a message through the network that the packaged service has of its own | 0.5 ms more |
| sign-in by sessions | 85 MB of memory, 3 ms a message |
| a backup while the desk is served: the program stands still | 60 ms |
| with a journal, beside without: a repayment with a receipt, a client entered, a loan read (10,000 of each) | 1.1, 1.5 and 1.0 times the processor's time |
| opening a file of 200,000 lines of a journal, a line | 1.5 µs, 170 bytes of memory, 98 of the file |
| lists of an office of 10,000 clients and 3,000 active loans, over a file, a request: 500 clients, a client that is found, a client's loans, what is due, 200 loans of a status, staff, a preview | 8 to 18, 18 to 38, 7, 64, 3 to 8, 0.1 and 0.2 ms |
| a page over that office, until it stands, on loopback and at 300 ms a round trip (`front/test/at-size`): Clients; a client; Collections; Arrears; Today | 0.27, 0.06, 0.63, 0.49, 0.22 s; 0.54, 0.64, 1.43, 1.14, 0.67 s |
| a press that takes a day along, of 3,000 loans of 3,000 clients, at 300 ms a round trip and 48 kbit/s (`front/test/at-size --pack`): the first one; the next morning's | 18 s; 15 s |
| the same of loans that differ in amounts, terms, days and receipts (`--varied`), and of weekly loans with 60 entries each (`--weekly`), the first one | 37 s; 65 s |
| memory of one of nginx's workers for a message for 1,000 accounts of ten entries each, and for some 750 of 60 | 32 MB, 43 MB |

"""
BY_ENTRIES = {  # kinds that are measured at several numbers of entries on a loan
    "one more entry": "one more entry, loan with {} entries",
    "the loan read": "loan read, {} entries",
    "its schedule read": "schedule read, {} entries",
    "its entries read": "entries read, {} entries",
}


@dataclasses.dataclass
class Results:
    """What was measured."""

    sizes: list  # of the files, each with its `counts`, `bytes`, `opened`, `costs` and `peak`
    alone: tuple  # the counts, the bytes and the openings of the file that was opened and no more
    messages: dict  # by kind how many a second, and the microseconds of processor time of each
    lists: str  # the table of the lists of one office
    minutes: float
    load: tuple  # of the machine, at the beginning and at the end

    def kinds(self):
        """The names of the kinds, the reports last."""
        return sorted(self.sizes[0].costs, key=(REPORT, REPORT_OF_ALL).__contains__)

    def medians(self, name):
        """The program's microseconds over each file."""
        return [statistics.median(size.costs[name][0]) for size in self.sizes]

    def growth(self, name):
        """The time over the greatest file by that over the smallest."""
        found = self.medians(name)
        return found[-1] / found[0]

    def beside(self, name):
        """The shell's microseconds over the greatest file."""
        return statistics.median(self.sizes[-1].costs[name][1])

    def ratio(self, name):
        """The program's time by the shell's, over the greatest file."""
        return self.medians(name)[-1] / self.beside(name)

    def openings(self):
        """The seconds of opening each file."""
        return [opening(size.opened) for size in self.sizes]


def opening(opened):
    return statistics.median(seconds for seconds, _ in opened)


def duration(microseconds):
    """A time in a unit that suits it, to three figures."""
    unit, size = next(
        (unit, size) for unit, size in (("s", 10**6), ("ms", 10**3), ("µs", 1)) if microseconds >= size or size == 1
    )
    value = microseconds / size
    return f"{value:,.{0 if value >= 100 else 1 if value >= 10 else 2}f} {unit}"


def factor(value):
    return f"{value:,.{0 if value >= 10 else 1 if value >= 2 else 2}f}"


def between(values):
    return f"{factor(min(values))} to {factor(max(values))}"


def spread(values):
    """Half the way from the least to the greatest, in percent of the median."""
    return f"{(max(values) - min(values)) / 2 / statistics.median(values):.0%}"


def megabytes(count):
    return f"{count / 1e6:,.{0 if count >= 1e7 else 1}f} MB"


def contents(counts):
    """What a file holds."""
    clients, loans, entries = counts
    return f"{clients:,} clients, {loans:,} loans and {entries:,} entries"


def rounded_down(number):
    """A number, down to two figures."""
    size = 10 ** max(0, len(str(int(number))) - 2)
    return f"{int(number) // size * size:,}"


def row(*cells):
    return f"| {' | '.join(cells)} |\n"


def processor():
    """The name of the machine's processor."""
    with open("/proc/cpuinfo") as file:
        names = [text.partition(":")[2].strip() for text in file if text.startswith("model name")]
    return names[0] if names else "a processor without a name"


def head(results):
    version = files.ended(["--version"])[1].decode().strip()
    shell = subprocess.run(["sqlite3", "--version"], stdout=subprocess.PIPE, check=True).stdout.decode().split()[0]
    memory = os.sysconf("SC_PAGE_SIZE") * os.sysconf("SC_PHYS_PAGES") / 2**30
    begun, ended = results.load
    busy = "; other programs took part of it, so times are longer than on an idle machine" if begun > 0.5 else ""
    return f"""# Speed and size

`bench/growth --write` measured this and wrote the page. Only [the last table](#figures-that-were-noted) was
noted by hand.

| | |
|---|---|
| Day | {time.strftime("%Y-%m-%d")}, in {results.minutes:.0f} minutes |
| Program | {version} |
| Beside it | the `sqlite3` shell {shell} |
| Machine | {os.cpu_count()} cores of {processor()}, {memory:.0f} GiB of memory |
| Load of the machine | {begun:.1f} before and {ended:.1f} at the end, the measuring included{busy} |

"""


def table(results):
    """The one table: what is asked, over each file."""
    sizes = results.sizes
    branches = [str(size.branches) for size in sizes]
    loans = [f"{size.counts[1]:,} loans" for size in sizes]
    text = f"""## What grows with what

Processor time of one request, over three files in memory. They have {", ".join(branches)} branches; a branch has
{CLIENTS:,} clients and {LOANS:,} loans of {PERIODS} instalments and {ENTRIES} entries, which are repayments. In each
file the head office has 100 loans of 20 entries, 10 of 200 and one of 2,000 besides.

"""
    text += row("Work", *loans, "Growth", "±", "Shell", "Ratio") + row("---", *["--:"] * 7)
    for name in results.kinds():
        times = map(duration, results.medians(name))
        noise, beside = spread(sizes[-1].costs[name][0]), duration(results.beside(name))
        text += row(name, *times, factor(results.growth(name)), noise, beside, factor(results.ratio(name)))
    return text + rows_of_files(results)


def rows_of_files(results):
    """The rows of the table that tell what opening takes, and what the files are."""
    sizes = results.sizes
    text = ""
    for name, form, values in (
        ("file opened: all of it is checked", lambda seconds: duration(seconds * 1e6), results.openings()),
        ("memory at most", "{:,.0f} MiB".format, [size.peak for size in sizes]),
        ("size of the file", megabytes, [size.bytes for size in sizes]),
        ("clients in it", "{:,}".format, [size.counts[0] for size in sizes]),
        ("entries in it", "{:,}".format, [size.counts[2] for size in sizes]),
    ):
        noise = spread([seconds for seconds, _ in sizes[-1].opened]) if name.startswith("file opened") else ""
        text += row(name, *map(form, values), factor(values[-1] / values[0]), noise, "", "")
    return text


def legend(results):
    """How the table is read."""
    batches, opened = len(results.sizes[0].costs[LIST][0]), len(results.sizes[0].opened)
    return f"""
- **Growth** is the number for the greatest file divided by that for the smallest.
- **±** is half the way from the fastest batch of requests to the slowest, in percent of the median, over the greatest
  file. All times are medians, of {batches} batches and of {opened} openings. What differs by less than ± tells nothing.
- **Shell** is the processor time of the `sqlite3` shell for the same over a copy of the greatest file, and **ratio**
  the program's time divided by it. For a reading the shell selects the rows that the reply needs; for what is entered
  it leaves the same rows, in one commit a request. It gets each statement as text, and checks none of an institution's
  rules. Nothing stands beside opening, since the shell opens a file without checking what it says.

"""


def growing(results):
    """What grows with what, in sentences."""
    smallest, greatest = results.sizes[0], results.sizes[-1]
    single = [results.growth(name) for name in results.kinds() if name not in (LIST, LIST_AGAIN, REPORT, REPORT_OF_ALL)]
    listed, again = (results.medians(name)[-1] / 100 for name in (LIST, LIST_AGAIN))
    reported = results.medians(REPORT)[-1] / LOANS
    return f"""**With the file.** A request about one client or one loan takes {between(single)} times as long in the
greatest file, of {greatest.counts[1]:,} loans, as in the smallest, of {smallest.counts[1]:,}.

**With the entries on the loan**, in the greatest file:

{by_entries(results)}
**With the number of loans that are asked for.** A list takes {duration(listed)} for each of its loans, with
20 entries each. It takes {duration(again)} where each was entered into shortly before, since its account is known then.
The report of arrears takes {duration(reported)} for each loan of a branch, and over all loans of the three files
{", ".join(map(duration, results.medians(REPORT_OF_ALL)))}.

{by_file(results)}
"""


def by_entries(results):
    """A table of what a request takes by the entries of the loan that it is about."""
    numbers = ["20", "200", "2,000"]
    text = row("Entries on the loan", *numbers, "Growth") + row("---", *["--:"] * 4)
    for name, kind in BY_ENTRIES.items():
        costs = [results.medians(kind.format(number))[-1] for number in numbers]
        text += row(name, *map(duration, costs), factor(costs[-1] / costs[0]))
    return text


def by_file(results):
    """What opening takes by what is in the file."""
    each = [duration(seconds * 1e6 / size.counts[1]) for seconds, size in zip(results.openings(), results.sizes)]
    memory = [f"{size.peak * 2**20 / size.bytes:.1f}" for size in results.sizes]
    counts, size, opened = results.alone
    return f"""**With all that is in the file.** Opening, once at each start, takes {", ".join(each)} for each of the
loans of the three files, with its share of the clients and entries. Memory at most is {", ".join(memory)} times the
file. A file of {contents(counts)} ({megabytes(size)}) opens in
{duration(opening(opened) * 1e6)} with {max(peak for _, peak in opened):,.0f} MiB.
"""


def carried(results):
    """What one file carries."""
    greatest, day = results.sizes[-1], HOURS * 3600 * SHARE
    rate = results.messages[PAID][0]
    repaid = greatest.counts[1] / WORKING_DAYS
    text = row("Message", "A second", "Processor time of each", "A day") + row("---", *["--:"] * 3)
    for name, (a_second, cost) in results.messages.items():
        text += row(name, f"{a_second:,.0f}", duration(cost), rounded_down(a_second * day))
    return f"""## What one file carries

**Loans and entries.** The greatest file that was measured has {contents(greatest.counts)}.
A start over it takes {duration(results.openings()[-1] * 1e6)} of one core, in which nothing is answered, and
{greatest.peak:,.0f} MiB of memory. Nothing larger was measured.

**Requests.** The program is one process that answers one request after another on one core. On a machine of two cores
the other one is free for the web server, backups and the system. Over the greatest file, on this machine's disk and
with a sync for each entry, `serve` answered one client, who waits for each reply before sending the next message:

{text}
- **A day** is {HOURS} hours. {SHARE_NAME.capitalize()} of it is spent in answering at the measured rate, rounded
  down to two figures. Requests don't come evenly, and what comes while another is answered waits.
- It rests on this disk, whose sync each repayment waits for, and on loans with few entries: {ENTRIES} and the new one.
- If each of the {greatest.counts[1]:,} loans is repaid once a month, these are {repaid:,.0f} repayments on each of
  {WORKING_DAYS} working days. At the measured rate they take {duration(repaid / rate * 1e6)} of the day.

"""


def compared(results):
    """What the program costs beside the shell."""
    ratios = {name: results.ratio(name) for name in results.kinds()}
    entered = between([ratios[name] for name in ENTERED])
    furthest = sorted(ratios, key=ratios.get)[:-6:-1]
    return f"""## Beside the `sqlite3` shell

Over the greatest file the program takes {between(ratios.values())} times the processor time of the shell, for half of
the kinds of work less than {factor(statistics.median(ratios.values()))} times. For clients, loans and first repayments
that are entered it takes {entered} times. Furthest behind are:

{"".join(f"- {name}: {factor(ratios[name])} times{chr(10)}" for name in furthest)}
{NOTED}## Measuring again

`bench/growth --write`, while the machine does nothing else. `bench/growth --quick` tries the script over small files
and writes nothing.
"""


def page(results):
    """The whole page."""
    text = head(results) + table(results) + legend(results) + growing(results) + results.lists
    return text + carried(results) + compared(results)
