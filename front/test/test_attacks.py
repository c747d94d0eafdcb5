"""Attacks on the front: what a stranger on the network, or a person who is signed in, tries against the others.

Strangers come from addresses of loopback of their own (127.0.1.1 and so on), so that limits by address can be seen.
"""
import contextlib
import datetime
import http.client
import json
import os
import re
import socket
import statistics
import subprocess
import sys
import tempfile
import threading
import time
import unittest

import desk
import running
from test_front import LARGEST, LINES, NORTH, PEOPLE, desk_wait, read_all, told_of

HELD = 400  # messages that an attacker holds at once
OF_ONE_PERSON = 40  # messages of one person that the front lets through at once
SEVERAL_OF_ONE_PERSON = 4  # of them such as ask for several readings
ACCOUNTS_OF_ONE_PERSON = 2  # of these such as ask for accounts
WHO = os.path.join(running.TOP, "package", "tools", "microloan-who")
LOG_CHECK = os.path.join(running.FRONT, "log-check")
FILTER = os.path.join(running.FRONT, "fail2ban", "filter.conf")
# a loan in office 2 that is paid out, with one repayment of 10.00
A_LOAN = LINES + b"""1/1 POST /products {"name":"Plain","method":"flat","rate":1200,"frequency":"months","every":1,\
"principal_grace":0,"interest_grace":0,"min_principal":1,"max_principal":100000000,"min_periods":1,"max_periods":12,\
"strategy":"mifos-standard-strategy"}
2/2 POST /clients {"office":2,"name":"Amina"}
2/2 POST /loans {"client":"0002-000001","product":1,"principal":100000,"periods":2}
2/1 POST /loans/0002-000001/approve
2/1 POST /loans/0002-000001/disburse {"day":"2024-01-01"}
2/3 POST /loans/0002-000001/repayments {"amount":1000,"day":"2024-01-01","receipt":"first"}
"""
REPAYMENTS = "loans/0002-000001/repayments"
REVERSE = "loans/0002-000001/entries/1/{}everse"


def setUpModule():
    global DESK
    DESK = desk.Desk(lines=A_LOAN, people=PEOPLE)
    unittest.addModuleCleanup(DESK.end)


def connected(address="127.0.0.1", at=None):
    return socket.create_connection(("127.0.0.1", (at or DESK).nginx.port), timeout=30, source_address=(address, 0))


def answered(data, address="127.0.0.1", at=None, patience=2):
    """What the front answers to bytes, also where it keeps the connection or waits for more."""
    with connected(address, at) as client:
        with contextlib.suppress(BrokenPipeError, ConnectionResetError):
            client.sendall(data)
        client.settimeout(patience)
        found = b""
        with contextlib.suppress(ConnectionResetError, TimeoutError):
            while more := client.recv(65536):
                found += more
        return found


class OverTheProgram(unittest.TestCase):
    """Tests that may put something else in the program's place."""

    def setUp(self):
        self.addCleanup(lambda: DESK.serve.process or DESK.start_serve())


def status_of(reply):
    """The status of a reply's first line; 0 where nothing was answered."""
    return int(reply.split(b" ", 2)[1]) if reply.startswith(b"HTTP/1.") else 0


def proof(name, at=None):
    """The field by which a message shows who sends it."""
    if (at or DESK).sign_in:
        return f"Cookie: {(at or DESK).cookie_of(name)}"
    return f"Authorization: Basic {desk.credentials(name)}"


def message(name, method, target, body=b"", fields=(), version="HTTP/1.1", at=None):
    """The bytes of a message of a person, whatever its target is."""
    lines = [f"{method} {target} {version}", "Host: x", proof(name, at), "X-Desk: 1"]
    lines += [f"Content-Length: {len(body)}", "Connection: close", *fields, "", ""]
    return "\r\n".join(lines).encode("latin-1") + body


def unfinished(*fields):
    """The beginning of a message of which one byte of the body has come."""
    lines = ["POST /api/clients HTTP/1.1", "Host: x", "X-Desk: 1", "Content-Length: 60000", *fields, "", ""]
    return "\r\n".join(lines).encode() + b"{"


def replied(body, length=None):
    """A reply of 200, which says so many bytes of its body."""
    head = "HTTP/1.0 200 OK\r\nContent-Type: application/json\r\nContent-Length: {}\r\n\r\n"
    return head.format(len(body) if length is None else length).encode() + body


class Program:
    """Something that stands where the program is, answers all by 200, or by these replies in turn, and keeps what it
    got."""

    def __init__(self, port, *replies):
        self.got = []
        self.replies = list(replies)
        self.listener = socket.socket()
        self.listener.setsockopt(socket.SOL_SOCKET, socket.SO_REUSEADDR, 1)
        self.listener.bind(("127.0.0.1", port))
        self.listener.listen(400)
        self.thread = threading.Thread(target=self.serve)

    def __enter__(self):
        self.thread.start()
        return self

    def __exit__(self, *_):
        self.listener.shutdown(socket.SHUT_RDWR)
        self.thread.join()
        self.listener.close()

    def serve(self):
        with contextlib.suppress(OSError):
            while True:
                stream, _ = self.listener.accept()
                with stream:
                    stream.settimeout(5)
                    with contextlib.suppress(OSError):
                        self.got.append(stream.recv(1 << 20))
                        stream.sendall(self.replies.pop(0) if self.replies else replied(b"{}"))


class Spelling(OverTheProgram):
    OTHERS = (
        "/api/%6coans/0002-000001/repayments",
        "/api/loans%2F0002-000001/repayments",
        "//api//loans//0002-000001//repayments",
        "/x/../api/" + REPAYMENTS,
        "/%61pi/" + REPAYMENTS,
        "/api/./" + REPAYMENTS,
        "/api/../api/" + REPAYMENTS,
        "/api/loans/../" + REPAYMENTS,
        "/api/" + REPAYMENTS + "#x",
        "/api/" + REPAYMENTS + "?",
        "/api/" + REPAYMENTS + "?x=/api/offices",
        "/api/" + REPAYMENTS + "/",
        "/api//" + REPAYMENTS,
        "/api/" + REPAYMENTS + "/.",
        "/api/" + REPAYMENTS + "/x/..",
        "/api/" + REPAYMENTS + "%00",
        "/api/" + REPAYMENTS + "%0d%0aX-Staff:%201/1",
        "/api/loans/0002%2d000001/repayments",
        "/api\\" + REPAYMENTS,
        "/api;x/" + REPAYMENTS,
        "/api/" + REPAYMENTS.replace("s/", "s;a=b/", 1),
        "http://x/%61pi/" + REPAYMENTS,
        "/lib/../api/" + REPAYMENTS,
        "/me/../api/" + REPAYMENTS,
        "/API/" + REPAYMENTS,
        "/api/" + "a/" * 8 + "a",
        "/api/" + "a" * 65,
        "/api/loans/0002-000001/repayments\u00e9",
    )

    def test_no_other_spelling_of_a_route_is_done(self):
        body = b'{"amount":1,"day":"2024-01-01"}'
        targets = [(REPAYMENTS, "tom", "POST", target, body) for target in self.OTHERS]
        for spelled in ("%72", "../r", "./r", "/r", "R", "r/../r"):
            targets.append(("reverse", "ruth", "POST", "/api/" + REVERSE.format(spelled), b""))
        targets.append(("reverse", "ruth", "POST", "/api/loans/../" + REVERSE.format("%72"), b""))
        for _, name, method, target, sent in targets:
            with self.subTest(target):
                self.assertIn(status_of(answered(message(name, method, target, sent))), (400, 404, 405))
        status, shown = DESK.send("ruth", "GET", "/api/loans/0002-000001/entries")
        self.assertEqual((status, len(shown["entries"]), shown["entries"][0]["reversed"]), (200, 1, False))

    def test_the_one_spelling_is_done_and_told(self):
        body = b'{"amount":2,"day":"2024-01-01","receipt":"told"}'
        self.assertEqual(status_of(answered(message("tom", "POST", "/api/" + REPAYMENTS, body))), 201)
        words = [sys.executable, WHO, "repayment", "--log", DESK.nginx.log]

        def told():
            return subprocess.run(words, capture_output=True, text=True, check=True).stdout

        desk_wait(lambda: f"tom 2/3 201 POST /api/{REPAYMENTS} {body.decode()}\n" in told())

    def test_what_is_logged_is_what_is_passed_on(self):
        """Over a program that answers all by 200: each message that it got is a line of the log, with the same path."""
        DESK.stop_serve()
        logged = len(DESK.log)
        with Program(DESK.serve.port) as program:
            targets = [*self.OTHERS, "/api/" + REPAYMENTS, "/api/a-b/0", "http://x/api/offices", "/api/A/z-9"]
            for target in targets:
                answered(message("tom", "POST", target, b"{}"))
            desk_wait(lambda: len(DESK.log) - logged >= len(program.got))
        passed = [got.split(b" ", 2)[1].decode() for got in program.got]
        self.assertEqual(sorted("/api" + path for path in passed), sorted(line["path"] for line in DESK.log[logged:]))
        self.assertEqual(len(passed), 4)

    def test_nobody_is_sent_to_another_host(self):
        """A folder without its slash is answered by a redirect, to the host that was asked."""
        sent = message("tom", "GET", "/files").replace(b"Host: x", b"Host: evil.example")
        reply = answered(sent)
        self.assertEqual(status_of(reply), 301)
        self.assertIn(b"\r\nLocation: /files/\r\n", reply)
        self.assertNotIn(b"evil", reply)

    def test_each_line_of_the_log_can_be_answered_again(self):
        """The largest message that passes makes a request line that `batch` takes."""
        longest = "/api/" + "/".join(["9" * 64] * 8)
        line = f"9999/9999 OPTIONS {longest.removeprefix('/api')} ".encode() + LARGEST
        self.assertLessEqual(len(line), 65536)
        for target, body, wanted in ((longest, LARGEST, 404), ("/api/clients", LARGEST + b" ", 413)):
            self.assertEqual(status_of(answered(message("zoe", "POST", target, body))), wanted)


class Caller(OverTheProgram):
    """Nobody is named to the program as anybody else."""

    FIELDS = (
        ("X-Staff: 1/1",),
        ("x-staff: 1/1", "X-STAFF: 1/1"),
        ("X_Staff: 1/1",),
        ("X-Staff : 1/1",),
        ("X-Staff\t: 1/1",),
        (" X-Staff: 1/1",),
        ("X-Desk: 1", " X-Staff: 1/1"),
        ("X-A: b\nX-Staff: 1/1",),
        ("X-A: b\rX-Staff: 1/1",),
        ("X-A: b\0\r\nX-Staff: 1/1",),
        ("X-Staff: 1/1\0",),
        ("X-Staff:1/1", "Connection: X-Staff"),
        ("Connection: keep-alive, X-Staff",),
        ("TE: trailers", "Trailer: X-Staff"),
        ("X-Original-URL: /staff",),
        ("X-Rewrite-URL: /staff",),
        ("X-HTTP-Method-Override: DELETE",),
        ("X-Forwarded-User: head", "X-Remote-User: head", "Remote-User: head"),
        ("Lm-Remote-User: head", "Auth-User: head", "HeaderValue1: 1/1"),
        ("Upgrade: h2c", "HTTP2-Settings: AAMAAABkAAQAAP__", "Connection: Upgrade, HTTP2-Settings"),
        ("Expect: 100-continue",),
        ("Host: y",),
        ("Authorization: Basic aGVhZDp4",),
        ("Proxy-Authorization: Basic aGVhZDp4",),
        ("Cookie: X-Staff=1/1; staff=1/1",),
        ("X-Padding: " + "x" * 9000,),
        tuple(f"X-{number}: x" for number in range(200)),
    )
    # whole messages, in which lengths and versions disagree
    HEAD = "POST /api/clients HTTP/1.1\r\nHost: x\r\nPROOF\r\nX-Desk: 1\r\n"
    INNER = "GET /api/offices HTTP/1.1\r\nHost: x\r\nX-Staff: 1/1\r\n\r\n"
    LENGTHS = (
        HEAD + "Content-Length: 0\r\nTransfer-Encoding: chunked\r\n\r\n0\r\n\r\n" + INNER,
        HEAD + "Content-Length: 5\r\nContent-Length: 0\r\n\r\n0\r\n\r\n" + INNER,
        HEAD + "Content-Length: 0, 5\r\n\r\n" + INNER,
        HEAD + "Content-Length: +0\r\n\r\n" + INNER,
        HEAD + "Content-Length: -1\r\n\r\n" + INNER,
        HEAD + "Content-Length: 0x5\r\n\r\n" + INNER,
        HEAD + "Transfer-Encoding: xchunked\r\n\r\n0\r\n\r\n" + INNER,
        HEAD + "Transfer-Encoding : chunked\r\n\r\n0\r\n\r\n" + INNER,
        HEAD + "Transfer-Encoding: identity, chunked\r\n\r\n0\r\n\r\n" + INNER,
        HEAD + "Transfer-Encoding: chunked\r\nTransfer-Encoding: identity\r\n\r\n0\r\n\r\n" + INNER,
        HEAD + "Transfer-Encoding: chunked\r\n\r\n2;X-Staff: 1/1\r\n{}\r\n0\r\nX-Staff: 1/1\r\n\r\n",
        HEAD + "Transfer-Encoding: chunked\r\n\r\nffffffffffffffff1\r\n{}\r\n0\r\n\r\n",
        HEAD + "Content-Length: 2\r\n\r\n{}" + INNER,
        "GET /api/offices\r\n",
        "GET /api/offices HTTP/0.9\r\nX-Staff: 1/1\r\n\r\n",
        "GET /api/offices HTTP/1.0\r\nX-Staff: 1/1\r\n\r\n",
        "GET /api/offices HTTP/2.0\r\nHost: x\r\nX-Staff: 1/1\r\n\r\n",
        "PRI * HTTP/2.0\r\n\r\nSM\r\n\r\n",
        "GET /api/offices HTTP/1.1\r\nX-Staff: 1/1\r\n\r\n",
        "CONNECT 127.0.0.1:80 HTTP/1.1\r\nHost: x\r\nX-Staff: 1/1\r\n\r\n",
        "GET /api/offices HTTP/1.1\r\nHost: x\r\nAuthorization: Basic\r\nX-Staff: 1/1\r\n\r\n",
        "GET /api/offices HTTP/1.1\r\nHost: x\r\nAuthorization: Bearer 1/1\r\nX-Staff: 1/1\r\n\r\n",
        "GET /api/offices HTTP/1.1 X-Staff: 1/1\r\nHost: x\r\n\r\n",
        "get /api/offices HTTP/1.1\r\nHost: x\r\nX-Staff: 1/1\r\n\r\n",
    )

    def test_tricks(self):
        tricks = [message("tom", "GET", "/api/offices", fields=fields) for fields in self.FIELDS]
        tricks += [message("tom", "GET", "/several?/offices&/offices", fields=fields) for fields in self.FIELDS]
        tricks += [text.replace("PROOF", proof("tom"), 1).encode() for text in self.LENGTHS]
        DESK.stop_serve()
        with Program(DESK.serve.port) as program:
            for place, trick in enumerate(tricks):
                answered(trick, address=f"127.0.2.{place + 1}")
        self.assertGreater(len(tricks), 70)
        self.assertGreater(len(program.got), 45)
        for got in program.got:
            head = got.split(b"\r\n\r\n")[0].split(b"\r\n")
            self.assertRegex(head[0], rb"^(GET /offices|POST /clients) HTTP/1\.0$")
            staff = [line for line in head if re.match(rb"\s*x[-_]staff", line.lower())]
            self.assertEqual(staff, [b"X-Staff: 2/3"], got)
            self.assertNotIn(b"\r\nAuthorization", got)

    def test_what_is_still_shown_is_ones_own(self):
        for fields in self.FIELDS:
            with self.subTest(fields):
                reply = answered(message("tom", "GET", "/api/offices", fields=fields))
                if status_of(reply) == 200:
                    self.assertEqual(json.loads(reply.rsplit(b"\r\n", 1)[-1]), NORTH)


class Several(OverTheProgram):
    """Several readings by one message: each is what it is by itself, and nothing else is."""

    PATHS = (
        "/offices", "/clients/0002-000001", "/clients/0003-000001", "/products/2", "/nothing", "/staff",
        "/lists/clients/2/0", "/business-day",
    )
    OTHERS = (
        "/several", "/several?", "/several?offices", "/several?/offices&", "/several?&/offices",
        "/several?/offices&&/offices", "/several?/offices?", "/several?/offices#x", "/several?/offices;/offices",
        "/several?/./offices", "/several?/../offices", "/several?/%6fffices", "/several?//offices",
        "/several?/offices/", "/several?/offices%26/offices", "/several?/" + "a" * 65, "/several?" + "/a" * 9,
        "/several?" + "&".join(["/offices"] * 9), "/several/?/offices", "/several/offices", "//several?/offices",
        "/me/../several?/offices", "/%73everal?/offices", "/SEVERAL?/offices", "/api/several?/offices",
        "/one-of-several/offices", "/%6fne-of-several/offices", "/lib/../one-of-several/offices",
        "/played", "/played?", "/played?2-1", "/played?/loans/0002-000001", "/played?0002-000001", "/played?/offices",
        "/played?2:1.", "/played?2:.1", "/played?2:1..1", "/played?2:1&", "/played?&2:1", "/played?2:",
        "/played?2", "/played?2:1&&3:1", "/played?:1", "/played?2:1:1", "/played?2:1;3:1", "/played?2:1,1",
        "/played?2:1+1", "/played?2:-1", "/played?2:1?", "/played?2:1#x", "/played?2%3A1",
        "/played?2:1%2E1", "/played?2:1%263:1", "/played?2:%31", "/played?2:1/entries", "/played?2:../offices", "/played/?2:1",
        "/played?2-1", "/played?2-1.1", "/played?2:1&0003-000001", "/played?0002-000001&3:1", "/accounts?2:1", "/several?2:1",
        "/played?02:1", "/played?2:01", "/played?2:1.01", "/played?0:1", "/played?2:0", "/played?2:1.0",
        "/played?2:1&2:1", "/played?2:1&2:2", "/played?3:1&2:1", "/played?2:1&4:1&3:1",  # offices ascend
        "/played?10000:1", "/played?2:1000000", "/played?2:999999.1", "/played?2:1.999999",  # no such number
        "/played?2:" + ".".join(["1"] * 1001), "/played?2:1&3:" + ".".join(["1"] * 1000),  # too many
        "/PLAYED?2:1", "/%70layed?2:1", "/api/played?2:1", "/several?2:1",
    )
    LOANS = ("0002-000001", "0003-000001", "0009-000009")
    MOST = {  # as many loans as a message may name
        "/played?2:" + ".".join(["1"] * 1000): [(2, one) for one in range(1, 1001)],
        "/played?2:1999" + ".1002" * 996 + "&17:999999&9999:7.999992":
            [(2, 1999 + 1002 * step) for step in range(997)] + [(17, 999999), (9999, 7), (9999, 999999)],
    }
    TOLD = ("from", "user", "staff", "method", "path", "body", "status", "upstream", "reply")

    def ask(self, *paths, name="tom"):
        return DESK.send(name, "GET", "/several?" + "&".join(paths))

    def lines_since(self, logged, count):
        """What the log tells of so many messages. Workers write it, each by itself."""
        lines = desk_wait(lambda: len(DESK.log) >= logged + count and DESK.log[logged:])
        return sorted([line[name] for name in self.TOLD] for line in lines)

    def test_each_as_by_itself(self):
        """For whoever asks: the reply, and the line of the log."""
        self.as_by_itself("/several?" + "&".join(self.PATHS), self.PATHS)

    def test_each_account_as_by_itself(self):
        """Of an account that isn't seen, the reply to the loan alone."""
        for name in PEOPLE:
            with self.subTest(name):
                paths, wanted = [], []
                for loan in self.LOANS:
                    asked = [f"/loans/{loan}", f"/loans/{loan}/entries"]
                    (status, told), (_, entries) = [DESK.send(name, "GET", "/api" + path) for path in asked]
                    paths += asked if status == 200 else asked[:1]
                    wanted.append(account_of(loan, told, entries["entries"]) if status == 200 else (status, told))
                logged = self.settled()
                alone = [DESK.exchange(name, "GET", "/api" + path) for path in paths]
                lines = self.lines_since(logged, len(alone))
                logged = self.settled()
                status, told = DESK.send(name, "GET", "/played?2:1&3:1&9:9")
                self.assertEqual((status, [read_account(loan, one) for loan, one in zip(self.LOANS, told)]), (200, wanted))
                self.assertEqual(self.lines_since(logged, len(paths)), lines)

    def settled(self):
        """How many lines the log has, once one that comes late is there."""
        time.sleep(0.2)
        return len(DESK.log)

    LOAN = (b'{"client":"0002-000001","day":"2024-03-02","disbursement_fee":5,"loan":"0002-000017","outstanding":'
            b'{"fees":1,"principal":12345678901234567},"overpaid":0,"paid":{"fees":2},"periods":3,"principal":9,"product":1,'
            b'"refunded":0,"status":300,"waived":{"fees":0},"written_off":{"fees":0}}')
    PLAYED = (b'{"day":"2024-03-02","outstanding":{"fees":1,"principal":12345678901234567},"overpaid":0,"periods":3,'
              b'"principal":9,"product":1,"status":300}')
    # day, amount, receipt, members that differ from those of a repayment that stands, and how it is told: as steps, or whole
    ENTRIES = (
        ("2024-03-02", 500, '"2-20240302-000017"', {}, "500,19784,r"), ("2024-03-09", 500, '"2-20240309-000017"', {}, ",7,r"),
        ("2024-03-09", 501, "null", {}, "1,"), ("2024-03-08", 499, '"2-20240308-000017"', {}, "-2,-1,r"),
        ("2024-03-08", 999999999999999, "null", {}, "999999999999500,"), ("2024-03-08", 1, "null", {}, "-999999999999998,"),
        ("2024-03-09", 12345678901234567, "null", {}, None), ("2024-03-09", 2, '"2-20240309-000017-2"', {}, None),
        ("2024-03-09", 3, '"2-20240308-000017"', {}, None), ("2024-03-09", 4, '"2-20240309-000018"', {}, None),
        ("2024-03-09", 5, '"3-20240309-000017"', {}, None), ("2024-03-09", 6, '"22-20240309-000017"', {}, None),
        ("2024-03-09", 7, '"}],{["', {}, None), ("2024-03-09", 8, '"x,"', {}, None),
        ("2024-03-09", 9, '",\\"shares\\":[],\\"entry\\":1,\\"staff\\":\\""', {}, None),
        ("2024-03-10", 1, '"2-20240310-000017"', {}, ",2,r"), ("2024-03-10", 1, "null", {"reversed": "true"}, None),
        ("2024-03-10", 1, "null", {"kind": '"fee"', "instalment": "2", "portion": '"fees"'}, None),
        ("2024-03-10", 1, "null", {"kind": '"refund"'}, None), ("2024-03-11", 1, "null", {}, ",1"),
    )

    @staticmethod
    def entry(day, amount, receipt, others, more=""):
        """An entry as JSON; more: what the desk tells besides."""
        its = {"instalment": "null", "kind": '"repayment"', "portion": "null", "receipt": receipt, "reversed": "false"} | others
        members = ",".join(f'"{name}":{value}' for name, value in its.items())
        number, rest = (f',"entry":{amount % 1000}', f',"shares":[{{"amount":1}},{{"amount":2}}],"staff":"2/3"') if more else ("", "")
        return f'{{"amount":{amount},"day":"{day}"{number},{members}{rest}}}'

    def test_what_is_told_of_an_account(self):
        """No text is cut, and no number loses a digit. A repayment that stands is told as steps from the one before; where
        its receipt is that of a round of its day, by an r. Any other entry is told whole."""
        entries = ",".join(self.entry(*one[:4], more=True) for one in self.ENTRIES)
        wanted = "["
        for *one, steps in self.ENTRIES:
            isText = wanted.endswith('"')
            if steps is None:
                wanted += ("," if wanted != "[" else "") + self.entry(*one)
            else:
                wanted = wanted[:-1] + f';{steps}"' if isText else wanted + ("," if wanted != "[" else "") + f'"{steps}"'
        DESK.stop_serve()
        with Program(DESK.serve.port, replied(self.LOAN), replied(f'{{"entries":[{entries}]}}'.encode())):
            status, _, told = DESK.exchange("zoe", "GET", "/played?2:17")
        self.assertEqual((status, told.decode()), (200, f'[{{"status":200,"loan":{self.PLAYED.decode()},"entries":{wanted}]}}]'))
        waiting = b'{"client":"0002-000001","loan":"0002-000018","periods":3,"principal":9,"product":1,"status":100}'
        with Program(DESK.serve.port, replied(waiting), replied(b'{"entries":[]}')):
            _, _, told = DESK.exchange("zoe", "GET", "/played?2:18")
        self.assertEqual(told, b'[{"status":200,"loan":%s,"entries":[]}]' % waiting)

    def test_an_account_that_is_broken_off(self):
        """It is told as one that didn't come, and harms no other."""
        entries = f'{{"entries":[{self.entry("2024-03-02", 5, "null", {}, more=True)}]}}'.encode()
        DESK.stop_serve()
        loan_ends = [(self.LOAN[:end], entries) for end in range(1, len(self.LOAN))]
        entries_end = [(self.LOAN, entries[:end]) for end in range(1, len(entries))]
        for replies in loan_ends + entries_end:
            with Program(DESK.serve.port, *map(replied, [*replies, self.LOAN, entries])):
                _, told = DESK.send("zoe", "GET", "/played?2:17.1")
            self.assertEqual(told[0], {"status": 502, "text": '{"front":"down"}'}, replies)
            self.assertEqual(told[1]["entries"], ["5,19784"])

    def as_by_itself(self, target, paths):
        for name in PEOPLE:
            with self.subTest(name):
                logged = self.settled()
                alone = [DESK.exchange(name, "GET", "/api" + path) for path in paths]
                lines = self.lines_since(logged, len(paths))
                logged = len(DESK.log)
                status, told = DESK.send(name, "GET", target)
                self.assertEqual(status, 200)
                self.assertEqual([(one["status"], one["text"]) for one in told],
                                 [(status, data.decode()) for status, _, data in alone])
                self.assertEqual(self.lines_since(logged, len(paths)), lines)

    def test_as_many_accounts_as_can_be(self):
        """1,000 loans by one message: each is read, in the order of the message."""
        DESK.stop_serve()
        for target, numbers in self.MOST.items():
            empty = [replied(b'{"entries":[]}')] * 2 * len(numbers)
            with self.subTest(target[:20]), Program(DESK.serve.port, *empty) as program:
                status, told = DESK.send("zoe", "GET", target)
                one = {"status": 200, "loan": {"entries": []}, "entries": []}
                self.assertEqual((status, told), (200, [one] * len(numbers)))
                loans = [f"{office:04}-{number:06}" for office, number in numbers]
                asked = [path.encode() for loan in loans for path in (f"/loans/{loan}", f"/loans/{loan}/entries")]
                self.assertEqual([got.split(b" ", 2)[1] for got in program.got], asked)

    def test_a_line_that_is_too_long(self):
        """8 kB are a line's most: nothing longer is read."""
        longest = "/played?" + "&".join(f"{office}:1" for office in range(1000, 2200))
        self.assertEqual(status_of(answered(message("tom", "GET", longest))), 414)

    def test_no_stranger(self):
        for asked in ("/several?/offices&/business-day", "/played?2:1"):
            for name, password in ((None, None), ("tom", "wrong"), ("nobody", "word")):
                if name is None or not DESK.sign_in:
                    self.assertEqual(DESK.send(name, "GET", asked, password=password), (401, {"front": "password"}))

    def test_no_other_spelling(self):
        DESK.stop_serve()
        with Program(DESK.serve.port) as program:
            for target in self.OTHERS:
                with self.subTest(target):
                    self.assertIn(status_of(answered(message("tom", "GET", target))), (400, 404, 405))
            for method in ("POST", "HEAD", "PUT", "DELETE", "OPTIONS"):
                for target in ("/several?/offices", "/played?2:1"):
                    with self.subTest(f"{method} {target}"):
                        self.assertEqual(status_of(answered(message("tom", method, target, b"{}"))), 404)
        self.assertEqual(program.got, [])

    def test_told_as_messages_are(self):
        """Each carries who asks, when and from where."""
        DESK.stop_serve()
        with Program(DESK.serve.port) as program:
            self.assertEqual(self.ask("/a", "/b", name="zoe"), (200, [{"status": 200, "text": "{}"}] * 2))
        self.assertEqual([got.split(b" ", 2)[1] for got in program.got], [b"/a", b"/b"])
        for got in program.got:
            self.assertIn(b"X-Staff: 2/2\r\n", got)
            self.assertEqual(told_of(got), ["127.0.0.1"])

    def test_a_program_that_ends_in_the_midst(self):
        """What is broken off is no JSON; where nothing is answered the front says so, and of that reading alone."""
        DESK.stop_serve()
        logged = len(DESK.log)
        with Program(DESK.serve.port, replied(b'{"a":1}'), replied(b'{"a":', 7), b"", replied(b'{"b":2}')):
            status, told = self.ask("/one", "/two", "/three", "/four")
        self.assertEqual(status, 200)
        self.assertEqual([(one["status"], one["text"]) for one in told],
                         [(200, '{"a":1}'), (200, '{"a":'), (502, '{"front":"down"}'), (200, '{"b":2}')])
        lines = self.lines_since(logged, 4)
        self.assertEqual(sorted((line[4], line[6], line[7]) for line in lines),
                         [("/api/four", 200, "200"), ("/api/one", 200, "200"), ("/api/three", 502, "502"),
                          ("/api/two", 200, "200")])
        self.assertEqual(self.ask("/one"), (200, [{"status": 502, "text": '{"front":"down"}'}]))

    def test_large_replies(self):
        """Half a megabyte of each is told. More ends the message without a reply, and harms no other."""
        DESK.stop_serve()
        large = json.dumps({"a": "x" * 500_000}).encode()
        with Program(DESK.serve.port, *[replied(large)] * 8, replied(large + b" " * 500_000)):
            self.assertEqual(self.ask(*["/a"] * 8), (200, [{"status": 200, "text": large.decode()}] * 8))
            with self.assertRaises((http.client.HTTPException, ConnectionError)):
                self.ask("/a", "/b")
            self.assertEqual(self.ask("/a"), (200, [{"status": 200, "text": "{}"}]))

    def test_a_message_holds_so_much(self):
        """Behind 4 MB of replies, and 12 MB of accounts, no further reading is passed on: a message can't take more of the
        front's memory."""
        DESK.stop_serve()
        large = json.dumps({"a": "x" * 500_000, "entries": []}, separators=(",", ":")).encode()
        no_room = {"status": 413, "text": '{"front":"large"}'}
        for target, numbers in self.MOST.items():
            with Program(DESK.serve.port, *[replied(large)] * 26) as program:
                _, told = DESK.send("zoe", "GET", target)
            self.assertEqual(told[:13], [{"status": 200, "loan": json.loads(large), "entries": []}] * 13)
            self.assertEqual(told[13:], [no_room] * (len(numbers) - 13))
            self.assertEqual(len(program.got), 26)

    def taken(self, count, own):
        """The most that a message for 1,000 loans of so many entries takes of one of nginx's workers. own: whether each
        entry has the receipt of a round of its loan."""
        sums = {portion: 123456 for portion in ("fees", "interest", "penalties", "principal")}
        loan = {"client": "0002-000052", "day": "2024-01-03", "disbursement_fee": 0, "loan": "0002-000017", "outstanding": sums,
                "overpaid": 0, "paid": sums, "periods": 12, "principal": 34000, "product": 1, "refunded": 0, "status": 300,
                "waived": sums, "written_off": sums}
        shares = [{"amount": 340, "instalment": 1, "portion": portion} for portion in ("interest", "principal")]
        entry = {"amount": 3173, "day": "2024-02-04", "entry": 17, "instalment": None, "kind": "repayment", "portion": None,
                 "receipt": "2-20240204-", "reversed": False, "shares": shares, "staff": "2/3"}
        replies = []
        for number in range(1, 1001):
            one = entry | {"receipt": f"2-20240204-{number if own else 0:06}"}
            replies += [json.dumps(told, separators=(",", ":")).encode() for told in (loan, {"entries": [one] * count})]
        room_for = 12 * 1024 * 1024 // sum(map(len, replies[:2])) + 1
        with open(f"/proc/{DESK.nginx.process.pid}/task/{DESK.nginx.process.pid}/children", encoding="ascii") as file:
            workers = file.read().split()
        before = {worker: memory_of(worker) for worker in workers}
        with Program(DESK.serve.port, *map(replied, replies)):
            status, told = DESK.send("zoe", "GET", "/played?2:" + ".".join(["1"] * 1000))
        whole = [isinstance(part, dict) for one in told for part in one.get("entries", ())]
        self.assertEqual((status, len(told), [one["status"] for one in told].count(200)), (200, 1000, min(1000, room_for)))
        self.assertEqual(set(whole), {not own})
        return max(memory_of(worker, "VmHWM") - before[worker] for worker in workers)

    def test_memory(self):
        """What a message for 1,000 loans takes of one of nginx's workers: of ten entries each, of 60, for which there is no
        more room, and of 60 that are told whole."""
        DESK.stop_serve()
        taken = [self.taken(10, True), self.taken(60, True), self.taken(60, False)]
        print("    ", *(f"{kilobytes / 1000:.0f}" for kilobytes in taken), "MB", end=" ")
        self.assertLess(max(taken), 70_000)


def account_of(loan, told, entries):
    """What a phone plays of what the desk tells of a loan and its entries."""
    members = ("day", "outstanding", "overpaid", "periods", "principal", "product", "status")
    kept = ("amount", "day", "instalment", "kind", "portion", "receipt", "reversed")
    return 200, {name: told[name] for name in members}, [{name: one[name] for name in kept} for one in entries]


def read_account(loan, told):
    """The same of what the front tells of it, or its status and its text."""
    if told["status"] != 200:
        return told["status"], json.loads(told["text"])
    entries, amount, day = [], 0, datetime.date(1970, 1, 1)
    for part in told["entries"]:
        for steps in part.split(";") if isinstance(part, str) else ():
            more, later, *mark = steps.split(",")
            amount += int(more or 0)
            day += datetime.timedelta(days=int(later or 0))
            receipt = f"{int(loan[:4])}-{day:%Y%m%d}{loan[4:]}" if mark else None
            entries.append({"amount": amount, "day": str(day), "instalment": None, "kind": "repayment", "portion": None,
                            "receipt": receipt, "reversed": False})
        if isinstance(part, dict):
            entries.append(part)
    return 200, told["loan"], entries


def memory_of(process, name="VmRSS"):
    """The kB of memory that a process has, or has had at most since this was asked for it now."""
    if name == "VmRSS":
        with open(f"/proc/{process}/clear_refs", "w", encoding="ascii") as file:
            file.write("5")
    with open(f"/proc/{process}/status", encoding="ascii") as file:
        return next(int(line.split()[1]) for line in file if line.startswith(f"{name}:"))


def median_time(name, address="127.0.0.1", count=60):
    """The median of the seconds that a look-up of a person takes; each must be answered."""
    times = []
    for _ in range(count):
        began = time.perf_counter()
        reply = answered(message(name, "GET", "/api/offices"), address, patience=30)
        times.append(time.perf_counter() - began)
        if status_of(reply) != 200:
            raise AssertionError(f"{name} was answered {reply[:200]}")
    return statistics.median(times)


@contextlib.contextmanager
def held(address, *fields):
    """Messages that stay unfinished, each with a byte more now and then, for as long as the block."""
    clients = [connected(address) for _ in range(HELD)]
    over = threading.Event()

    def go_on():
        while not over.wait(1):
            for client in clients:
                with contextlib.suppress(OSError):
                    client.send(b" ")

    for client in clients:
        client.sendall(unfinished(*fields))
    thread = threading.Thread(target=go_on)
    thread.start()
    try:
        yield clients
    finally:
        over.set()
        thread.join()
        for client in clients:
            client.close()


class Holding(OverTheProgram):
    """Who sends slowly waits alone: others are answered within twice the time that they take without it."""

    def others_are_answered(self, refused, address, *fields):
        """Tries it up to three times, since other work of the machine takes time too. What the refused ones are told."""
        for _ in range(3):
            before = median_time("tom")
            with held(address, *fields) as clients:
                during = median_time("tom")
                desk_wait(lambda: sum(map(readable, clients)) >= refused)
                told = [status_of(client.recv(1000)) for client in clients if readable(client)]
            after = median_time("tom")
            if during <= 2 * max(before, after):
                break
        self.assertLessEqual(during, 2 * max(before, after))
        return told

    def test_of_a_stranger(self):
        told = self.others_are_answered(HELD, "127.0.1.1")
        self.assertEqual(set(told), {401, 429})

    def test_of_a_wrong_password(self):
        wrong = "Cookie: desk=" + "0" * 64 if DESK.sign_in else "Authorization: Basic dG9tOnh4"
        told = self.others_are_answered(HELD, "127.0.1.2", wrong)
        self.assertLessEqual(set(told), {401, 429})

    def test_of_a_person_who_is_signed_in(self):
        """40 wait for their bodies, all others are refused at once, and tom of the same address isn't."""
        told = self.others_are_answered(HELD - OF_ONE_PERSON, "127.0.0.1", proof("zoe"))
        self.assertEqual((len(told), set(told)), (HELD - OF_ONE_PERSON, {429}))

    def test_whole_messages_of_one_person_leave_room_in_the_queue(self):
        """Where the program stands still, one person's messages don't fill its queue."""
        DESK.stop_serve()
        with socket.socket() as listener:
            listener.setsockopt(socket.SOL_SOCKET, socket.SO_REUSEADDR, 1)
            listener.bind(("127.0.0.1", DESK.serve.port))
            listener.listen(HELD)
            clients = [connected() for _ in range(HELD)]
            for client in clients:
                client.sendall(message("zoe", "GET", "/api/offices"))
            desk_wait(lambda: sum(map(readable, clients)) >= HELD - OF_ONE_PERSON)
            waiting = [client for client in clients if not readable(client)]
            self.assertEqual(len(waiting), OF_ONE_PERSON)
            for client in clients:
                client.close()

    def test_several_readings_take_one_place_in_the_queue(self):
        """Of one person few such messages are passed on at once, each with one reading at a time."""
        self.few_are_passed_on("/several?" + "&".join(["/offices"] * 8), SEVERAL_OF_ONE_PERSON)

    def test_messages_for_accounts_are_fewer_still(self):
        self.few_are_passed_on("/played?2:" + ".".join(["1"] * 1000), ACCOUNTS_OF_ONE_PERSON)

    def few_are_passed_on(self, target, most):
        DESK.stop_serve()
        with socket.socket() as listener:
            listener.setsockopt(socket.SOL_SOCKET, socket.SO_REUSEADDR, 1)
            listener.bind(("127.0.0.1", DESK.serve.port))
            listener.listen(HELD)
            clients = [connected() for _ in range(OF_ONE_PERSON)]
            for client in clients:
                client.sendall(message("zoe", "GET", target))
            desk_wait(lambda: sum(map(readable, clients)) >= OF_ONE_PERSON - most)
            refused = [client for client in clients if readable(client)]
            self.assertEqual({status_of(client.recv(1000)) for client in refused}, {429})
            self.assertEqual(len(refused), OF_ONE_PERSON - most)
            listener.settimeout(1)
            passed = []
            with contextlib.suppress(TimeoutError):
                while True:
                    passed.append(listener.accept()[0])
            self.assertEqual(len(passed), most)
            for client in [*clients, *passed]:
                client.close()


def readable(client):
    client.setblocking(False)
    try:
        return client.recv(1, socket.MSG_PEEK) != b"again"
    except BlockingIOError:
        return False
    except OSError:
        return True
    finally:
        client.settimeout(30)


class Flood(unittest.TestCase):
    def test_a_stranger_fills_no_log(self):
        """10,000 messages of some 8,000 bytes each, on connections that are kept."""
        sizes = {path: os.path.getsize(path) for path in (DESK.nginx.log, DESK.nginx.strangers, DESK.nginx.errors)}
        targets = ("/api/" + "%01" * 2600, "/api/offices", "/lib/chart/", "/x" * 2000, "/me", "/lib/" + "y" * 7000)
        for place in range(6):
            with connected("127.0.1.3") as client:
                thread = threading.Thread(target=read_all, args=[client])
                thread.start()
                sent = f"GET {targets[place]} HTTP/1.1\r\nHost: x\r\n\r\n".encode()
                with contextlib.suppress(OSError):
                    for _ in range(1700):
                        client.sendall(sent)
                    client.shutdown(socket.SHUT_WR)
                thread.join()
        grown = {path: os.path.getsize(path) - size for path, size in sizes.items()}
        self.assertEqual(grown[DESK.nginx.log], 0)
        self.assertLess(grown[DESK.nginx.strangers], 20000)
        self.assertLess(grown[DESK.nginx.errors], 20000)


@unittest.skipIf(desk.SESSIONS, "test_sign_in guesses at the sign-in by sessions")
class Guessing(unittest.TestCase):
    def test_each_wrong_password_is_told_to_fail2ban_until_the_address_is_slowed(self):
        logged = len(DESK.strangers)
        wrong = [f"Authorization: Basic {desk.credentials('tom', str(number))}" for number in range(200)]
        lines = "GET /api/offices HTTP/1.1\r\nHost: x\r\nConnection: close\r\n{}\r\n\r\n"
        told = [status_of(answered(lines.format(field).encode(), "127.0.1.4")) for field in wrong]
        self.assertEqual(set(told), {401, 429})
        desk_wait(lambda: len(DESK.strangers) - logged >= told.count(401))
        own = [line for line in DESK.strangers[logged:] if line.endswith("microloan: refused for tom from 127.0.1.4")]
        self.assertEqual(len(own), told.count(401))
        with tempfile.NamedTemporaryFile("w", suffix=".log") as file:
            file.write("\n".join(own) + "\n")
            file.write("2026-11-28T09:00:00+00:00 microloan: nobody for ? from 127.0.1.4\n")
            file.flush()
            found = subprocess.run(["fail2ban-regex", file.name, FILTER], capture_output=True, text=True, check=True)
        self.assertIn(f"Lines: {len(own) + 1} lines, 0 ignored, {len(own)} matched, 1 missed", found.stdout)
        self.assertEqual(DESK.send("tom", "GET", "/api/offices"), (200, NORTH))

    def test_a_name_forges_no_line(self):
        logged = len(DESK.strangers)
        name = "tom from 127.0.0.9\n2026-11-28T09:00:00+00:00 microloan: refused for tom"
        DESK.send(name, "GET", "/api/offices", password="x")
        line = desk_wait(lambda: DESK.strangers[logged:])
        self.assertEqual([text.split(" ", 1)[1] for text in line], ["microloan: refused for ? from 127.0.0.1"])


def fill_the_log():
    """Where the log's disk has 64 kB: what was written meanwhile, in a mount namespace of this process's own."""
    with desk.Desk(lines=LINES, people=PEOPLE) as it:
        room = os.path.join(it.folder, "log")
        os.mkdir(room, 0o711)
        subprocess.run(["mount", "-t", "tmpfs", "-o", "size=64k,mode=711", "tmpfs", room], check=True)
        it.nginx.stop()
        it.nginx.log = os.path.join(room, "messages.log")
        it.nginx.lay_out()
        it.nginx.start()
        words = [sys.executable, LOG_CHECK, "--log", it.nginx.log, "--shut", it.nginx.shut, "--room", "0"]
        words += ["--pid", os.path.join(it.folder, "nginx.pid")]
        told = {"first": subprocess.run(words, capture_output=True, check=False).returncode}
        body = b'{"office":2,"name":"Unseen"}'.ljust(200)
        told["done"] = sum(it.send("zoe", "POST", "/api/clients", body)[0] == 201 for _ in range(300))
        told["lines"] = sum(line.endswith(b"}\n") for line in open(it.nginx.log, "rb"))
        words[words.index("--room") + 1] = "1"
        full = subprocess.run(words, capture_output=True, text=True, check=False)
        told["full"] = full.returncode, full.stdout
        told["write"] = it.send("zoe", "POST", "/api/clients", body)
        told["read"] = it.send("tom", "GET", "/api/offices")[0]
        subprocess.run(["mount", "-o", "remount,size=8m", room], check=True)
        told["room"] = subprocess.run(words, capture_output=True, check=False).returncode
        told["again"] = it.send("zoe", "POST", "/api/clients", body)[0]
        os.rename(it.nginx.log, it.nginx.log + "-moved")
        told["moved"] = subprocess.run(words, capture_output=True, check=False).returncode
        os.close(os.open(it.nginx.log, os.O_CREAT | os.O_WRONLY, 0o600))
        told["other"] = subprocess.run(words, capture_output=True, check=False).returncode
        it.nginx.stop()
        subprocess.run(["umount", room], check=True)
    print(json.dumps(told))


class FullLog(unittest.TestCase):
    @unittest.skipIf(os.geteuid() != 0, "mounting needs root")
    def test_what_cannot_be_logged_is_not_done(self):
        inside = "import sys; sys.path.insert(0, sys.argv[1]); import test_attacks; test_attacks.fill_the_log()"
        words = ["unshare", "-m", "--propagation", "private", sys.executable, "-c", inside]
        done = subprocess.run([*words, os.path.dirname(__file__)], capture_output=True, text=True, check=False)
        self.assertEqual(done.returncode, 0, done.stderr)
        told = json.loads(done.stdout.splitlines()[-1])
        self.assertEqual(told["first"], 0)
        self.assertEqual((told["write"], told["read"]), ([503, {"front": "log"}], 200))
        self.assertEqual(told["full"][0], 1)
        self.assertIn("the front takes no writes", told["full"][1])
        self.assertLess(told["lines"], told["done"])  # without the check all of them are done
        self.assertEqual((told["room"], told["again"], told["moved"], told["other"]), (0, 201, 1, 1))


if __name__ == "__main__":
    unittest.main()
