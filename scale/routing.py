"""Which desk a request goes to, where each region has a desk of its own.

A region is an office directly under the head with all that lies below it; office 1 alone is one too, named HEAD.
The rule follows from what a request's reply and change are read off (`carried_out` and `touches` of
crates/mf_model/specs):

- What a caller is told depends on the catalogue and the offices at or below the caller's. For a caller outside
  office 1 these lie in one region, and so does the target of each write that is accepted from there: all goes to
  that region's desk.
- A write from office 1 whose target is the catalogue touches every office. One that adds an office changes the
  tree, by which every desk judges whether a number is free and what is visible; one that adds staff to office 1
  adds callers for every desk. These go to every desk, in one order. So all desks have the catalogue, the tree and
  the staff of office 1 alike.
- Every other request from office 1 names one office or none: it goes to the desk of that office's region, or to
  that of HEAD. So does what is refused by its text alone, and what comes from an office that is not there: no desk
  has it.
- The report of arrears for office 1 is read from every desk and put together. The list of offices is the same on
  every desk.

Each desk then gets, in order, every accepted write that touches an office of its region, and every request from
there.
"""
import json
import re

HEAD = 1
EVERY, TOGETHER = "every", "together"
CALLER = re.compile(rb"([1-9][0-9]{0,3})/[1-9][0-9]{0,3}")
NAMED = re.compile(rb"/(?:loans|clients)/([0-9]{4})-[0-9]{6}(?:/.*)?|/offices/([0-9]{1,9})/loans/[0-9]+", re.DOTALL)
TO_EVERY = re.compile(rb"POST /offices|PUT /business-day|POST /charges|POST /products|POST /products/[0-9]+/retire")
NEW_OFFICE = b'201 {"office":'
CLASSES = ["c1_30", "c31_60", "c61_90", "over_90"]


def parts_of(line):
    """Caller, method, path and body of a line; empty where it has no such part."""
    parts = line.split(b" ", 3)
    return parts + [b""] * (4 - len(parts))


def member(body, name):
    """A member of a JSON object, as the program reads it: of two of one name the last; none where there is none."""
    try:
        return json.loads(body.decode()).get(name)
    except (ValueError, AttributeError, RecursionError):
        return None


class Tree:
    """The regions of the offices that were added so far."""

    def __init__(self):
        self.region_of = {HEAD: HEAD}

    def regions(self):
        return sorted(set(self.region_of.values()))

    def learn(self, line, reply):
        """Takes in an office that was added. It gives the region, where the office is the first of one."""
        _, method, path, body = parts_of(line)
        if (method, path) != (b"POST", b"/offices") or not reply.startswith(NEW_OFFICE):
            return None
        number, parent = member(body, "number"), member(body, "parent")
        self.region_of[number] = number if parent == HEAD else self.region_of[parent]
        return number if parent == HEAD else None

    def place(self, line):
        """The region whose desk answers a line, or EVERY or TOGETHER."""
        caller, method, path, body = parts_of(line)
        is_caller = CALLER.fullmatch(caller)
        own = self.region_of.get(int(is_caller[1])) if is_caller else None
        if own != HEAD:
            return own or HEAD
        if (method, path) == (b"GET", b"/reports/arrears"):
            return TOGETHER
        target = target_of(method, path, body)
        if TO_EVERY.fullmatch(method + b" " + path) or ((method, path) == (b"POST", b"/staff") and target == HEAD):
            return EVERY
        return self.region_of.get(target, HEAD)


def target_of(method, path, body):
    """The number of the office that a request names; none where it names none."""
    named = NAMED.fullmatch(path)
    if named:
        return int(named[1] or named[2])
    if method == b"POST" and path in (b"/staff", b"/clients"):
        office = member(body, "office")
        return office if type(office) is int else None
    if (method, path) == (b"POST", b"/loans"):
        client = member(body, "client")
        return int(client[:4]) if isinstance(client, str) and re.fullmatch("[0-9]{4}-[0-9]{6}", client) else None
    return None


# ---- the report of arrears over all regions


def cents(text):
    units, _, rest = text.partition(".")
    return int(units) * 100 + int(rest)


def money(amount):
    return f"{amount // 100}.{amount % 100:02}"


def half_even(a, d):
    quotient, left = divmod(a, d)
    return quotient + (2 * left > d or (2 * left == d and quotient % 2))


def put_together(replies, region_of):
    """The report of all offices, from the reply of each region's desk: an office's line is that of its region's
    desk, and `all` has the sums. Where the desks refuse, they all do so alike."""
    first = next(iter(replies.values()))
    if not first.startswith(b"200 "):
        return first
    told = {
        region: {line["office"]: line for line in json.loads(reply[4:])["offices"]} for region, reply in replies.items()
    }
    lines = [told[region_of[office]][office] for office in sorted(region_of)]
    sums = {name: sum(cents(line[name]) for line in lines) for name in ["outstanding", *CLASSES]}
    risk = sum(sums[name] for name in CLASSES[1:])
    par30 = half_even(10000 * risk, sums["outstanding"]) if sums["outstanding"] else 0
    of_all = {name: money(amount) for name, amount in sums.items()} | {"loans": sum(line["loans"] for line in lines)}
    body = {"all": of_all | {"par30": money(par30)}, "offices": lines}
    return b"200 " + json.dumps(body, separators=(",", ":"), sort_keys=True).encode()
