"""The kinds of work that bench/growth measures: request lines over a file of bench/branches.py, in batches."""
import dataclasses
import random
from typing import Callable

import same_work
from branches import CLIENTS, LOANS, account, lent, repayment

AMOUNT = 60000  # that the entries of a loan come to: less than half of what is owed, so that it takes as many again
SHORT, MIDDLE, LONG = 20, 200, 2000  # entries on a loan
LISTED = range(2, 102)  # the numbers of the loans of office 1 with 20 entries
MIDDLE_ONES = range(102, 112)  # of those with 200
LONG_ONE = 112  # of the one with 2,000


@dataclasses.dataclass
class Kind:
    """A kind of work. A request is its line and the office and number of what it is about; each has the function that
    tells the shell's statements for it, or the kind has one for all."""

    name: str
    batches: list[list[tuple[str, tuple[int, int]]]]
    statements: Callable | list[Callable]
    each: int = 1  # requests that are counted as one

    def script(self, number, replies, before, after):
        """The statements of a batch, which the program answered by these replies."""
        functions = self.statements if isinstance(self.statements, list) else [self.statements]
        return "".join(
            functions[k % len(functions)](place, reply, before, after)
            for k, ((_, place), reply) in enumerate(zip(self.batches[number], replies, strict=True))
        )


def lines_of_office_1():
    """The lines that make the loans of office 1 which have many entries."""
    lines = []
    for numbers, entries in ((LISTED, SHORT), (MIDDLE_ONES, MIDDLE), ([LONG_ONE], LONG)):
        for number in numbers:
            lines += lent((1, number), (1, 1))
            lines += [repayment((1, number), AMOUNT // entries)] * entries
    return lines


class Kinds:
    """All kinds of work over a file with so many branches, in so many batches each, at a full or a smaller scale."""

    def __init__(self, branches, batches, scale):
        self.branches, self.batches, self.scale = branches, batches, scale
        self.chance = random.Random(7)

    def all(self):
        """In the order in which they are measured: the reports while each branch has its first loans alone."""
        again = self.listed("list of the 100 loans again, each entered into shortly before")
        return self.reports() + self.clients() + self.lending() + self.reading() + self.long_loans() + [again]

    def kind(self, name, request, times, statements, each=1):
        """A kind of which each batch asks the request of a number so many times, the numbers going on from batch to
        batch."""
        count = max(1, round(times * self.scale))
        numbers = [range(count * k, count * (k + 1)) for k in range(self.batches)]
        return Kind(name, [[request(number) for number in batch] for batch in numbers], statements, each)

    def reports(self):
        def report(caller, office):
            return lambda _: (f"{caller} GET /reports/arrears\n", (office, 0))

        of_one = self.kind("report, one branch of 1,000 loans", report("2/1", 2), 10, same_work.report)
        return [of_one, self.kind("report, all loans", report("1/1", 1), 1, same_work.report)]

    def clients(self):
        def entered(number):
            office = 2 + number % self.branches
            return f'1/1 POST /clients {{"office":{office},"name":"Amina of the market"}}\n', (office, 0)

        def read(_):
            place = (2 + self.chance.randrange(self.branches), 1 + self.chance.randrange(CLIENTS))
            return f"1/1 GET /clients/{account(place)}\n", place

        words = [("client entered", entered, same_work.client_added), ("client read", read, same_work.client_read)]
        return [self.kind(name, request, 2000, statements) for name, request, statements in words]

    def place(self, number):
        """The office and the number of each loan that is lent while this is measured: the branches in turn."""
        return 2 + number % self.branches, LOANS + 1 + number // self.branches

    def lending(self):
        """Loans that are lent, a batch of them for repayments without receipts and one for those with receipts."""
        loans = max(1, round(100 * self.scale))
        steps = [same_work.loan_submitted, same_work.loan_approved, same_work.loan_paid_out]
        place = self.place

        def batch(first):
            return range(first * loans, (first + 1) * loans)

        def all_lent(first):
            return [(line, place(k)) for k in batch(first) for line in lent(place(k), (place(k)[0], 1))]

        def repaid(first, receipt):
            rounds = [(k, entry) for entry in range(SHORT) for k in batch(first)]
            return [(repayment(place(k), AMOUNT // SHORT, receipt=receipt(k, entry)), place(k)) for k, entry in rounds]

        of = range(self.batches)
        kinds = [[all_lent(2 * k) + all_lent(2 * k + 1) for k in of]]
        kinds.append([repaid(2 * k, lambda *_: None) for k in of])
        kinds.append([repaid(2 * k + 1, lambda loan, entry: f"E-{loan}-{entry}") for k in of])
        return [
            Kind("loan submitted, approved and paid out", kinds[0], steps, 3),
            Kind("repayment, loan with 0 to 19 entries", kinds[1], same_work.entry_added),
            Kind("repayment with a receipt, loan with 0 to 19 entries", kinds[2], same_work.entry_added),
        ]

    def reading(self):
        """Loans that are read, of each number of entries, and the list of a hundred."""
        loans = max(1, round(100 * self.scale)) * 2 * self.batches
        places = [
            (SHORT, 200, lambda k: self.place(k % loans)),
            (MIDDLE, 50, lambda k: (1, MIDDLE_ONES[k % len(MIDDLE_ONES)])),
            (LONG, 10, lambda _: (1, LONG_ONE)),
        ]
        paths = [
            ("loan read", "", same_work.loan_read),
            ("schedule read", "/schedule", same_work.schedule_read),
            ("entries read", "/entries", same_work.entries_read),
        ]

        def request(place, path):
            return lambda k: (f"1/1 GET /loans/{account(place(k))}{path}\n", place(k))

        kinds = [
            self.kind(f"{name}, {entries:,} entries", request(place, path), times, statements)
            for name, path, statements in paths
            for entries, times, place in places
        ]
        return kinds + [self.listed("list of 100 loans with 20 entries each")]

    def listed(self, name):
        """The list of the hundred loans of office 1 with 20 entries."""
        return self.kind(name, lambda _: ("1/1 GET /offices/1/loans/1\n", (1, 1)), 10, same_work.loans_listed)

    def long_loans(self):
        """One more entry on loans that have many, and the last one of others reversed: with 200 a batch on a loan
        of its own."""
        each = max(1, round(10 * self.scale))  # requests of a batch, as kind() has it

        def more(place, entries):
            return lambda k: (repayment(place(k), AMOUNT // entries), place(k))

        def last_reversed(k):
            number = MIDDLE_ONES[len(MIDDLE_ONES) // 2 + k // each]
            return f"1/1 POST /loans/{account((1, number))}/entries/{MIDDLE - k % each}/reverse\n", (1, number)

        short = more(lambda k: (1, LISTED[k % len(LISTED)]), SHORT)
        middle = more(lambda k: (1, MIDDLE_ONES[k // each]), MIDDLE)
        long = more(lambda _: (1, LONG_ONE), LONG)
        return [
            self.kind("one more entry, loan with 20 entries", short, 50, same_work.entry_added),
            self.kind("one more entry, loan with 200 entries", middle, 10, same_work.entry_added),
            self.kind("one more entry, loan with 2,000 entries", long, 10, same_work.entry_added),
            self.kind("last entry reversed, loan with 200 entries", last_reversed, 10, same_work.entry_reversed),
        ]
