"""Notes of visits: what the front keeps of them, who is told of them, and what the log has."""
import json
import os
import re
import subprocess
import sys
import threading
import time
import unittest

import desk
import running
import test_attacks as attacks
from test_front import LINES, PEOPLE, REFUSED_ORIGIN, desk_wait

VISITS = "/visits/0002-000001"
HIDDEN, MISSING = "/visits/0002-000001", "/visits/0002-000009"  # of who sees office 3 alone
MOST = 64 * 1024  # bytes of a client's notes
TWO_CLIENTS = LINES + b"""2/2 POST /clients {"office":2,"name":"Amina"}
2/2 POST /clients {"office":2,"name":"Bahati"}
1/1 POST /staff {"office":2,"name":"Asha","role":"teller"}
"""
ENTERED, REPEATED = (201, {"visit": "entered"}), (200, {"visit": "repeated"})
NO_NOTE, NO_PATH, FULL = (400, {"front": "visit"}), (404, {"front": "path"}), (413, {"front": "full"})
NOT_WRITTEN = (503, {"front": "disk"})


def setUpModule():
    global DESK
    DESK = desk.Desk(lines=TWO_CLIENTS, people=PEOPLE)
    unittest.addModuleCleanup(DESK.end)


def key_of(number):
    return f"{number:032x}"


def noted(number, text="the roof leaks", day="2024-03-31", **more):
    return {"key": key_of(number), "day": day, "text": text} | more


def send(body, path=VISITS, name="zoe", **more):
    return DESK.send(name, "POST", path, body, **more)


class Case(unittest.TestCase):
    def setUp(self):
        """No client has a note."""
        self.addCleanup(lambda: DESK.serve.process or DESK.start_serve())
        for name in os.listdir(DESK.nginx.visits):
            os.unlink(os.path.join(DESK.nginx.visits, name))

    def kept(self, client="0002-000001"):
        """The lines of a client's file."""
        path = os.path.join(DESK.nginx.visits, client)
        if not os.path.exists(path):
            return []
        with open(path, encoding="utf-8") as file:
            return [json.loads(line) for line in file]

    def texts(self, name="zoe", path=VISITS):
        status, told = DESK.send(name, "GET", path)
        self.assertEqual(status, 200)
        return [one["text"] for one in told["visits"]]


class Notes(Case):
    def test_kept_and_told(self):
        """A note stands once, whoever sees the client is told of it, and the newest comes last."""
        self.assertEqual(self.texts(), [])
        self.assertEqual(send(noted(1, "the roof leaks\nher sister pays: £5 \"soon\"")), ENTERED)
        self.assertEqual(send(noted(2, "not at home", "2024-04-01"), name="tom"), ENTERED)
        for name in ("zoe", "tom", "ruth", "head"):
            told = DESK.send(name, "GET", VISITS)[1]["visits"]
            self.assertEqual([(one["day"], one["user"], one["staff"], one["text"]) for one in told],
                             [("2024-03-31", "zoe", "2/2", "the roof leaks\nher sister pays: £5 \"soon\""),
                              ("2024-04-01", "tom", "2/3", "not at home")])
            self.assertEqual({name for one in told for name in one}, {"time", "day", "user", "staff", "text"})
            self.assertTrue(all(re.match(r"\d{4}-\d\d-\d\dT\d\d:\d\d:\d\d", one["time"]) for one in told))
        self.assertEqual(self.texts(path="/visits/0002-000002"), [])
        self.assertEqual([one["key"] for one in self.kept()], [key_of(1), key_of(2)])

    def test_the_file_is_nginx_s_alone(self):
        send(noted(1))
        found = os.stat(os.path.join(DESK.nginx.visits, "0002-000001")), os.stat(DESK.nginx.visits)
        self.assertEqual([one.st_mode & 0o777 for one in found], [0o600, 0o700])
        self.assertEqual(found[0].st_uid, found[1].st_uid)

    def test_a_key_stands_once(self):
        """Of one client: with another one it is another note."""
        self.assertEqual([send(noted(1)), send(noted(1)), send(noted(1, "other words"), name="tom")],
                         [ENTERED, REPEATED, REPEATED])
        self.assertEqual(send(noted(1), "/visits/0002-000002"), ENTERED)
        self.assertEqual((self.texts(), len(self.kept())), (["the roof leaks"], 1))

    def test_a_key_at_one_moment(self):
        """By many connections at once, over both workers: no line is mixed, and each key is told once."""
        answers = []

        def send_all(number):
            for place in range(10):
                answers.append(send(noted(place, f"note {place} " + "x" * 300))[0])

        threads = [threading.Thread(target=send_all, args=(number,)) for number in range(8)]
        for thread in threads:
            thread.start()
        for thread in threads:
            thread.join()
        self.assertEqual((len(answers), set(answers) - {200, 201}), (80, set()))
        self.assertEqual(len(self.kept()), answers.count(201))
        self.assertEqual(sorted(text[:6] for text in self.texts()), [f"note {place}" for place in range(10)])

    def test_what_two_workers_kept_is_told_once(self):
        send(noted(1))
        path = os.path.join(DESK.nginx.visits, "0002-000001")
        with open(path, encoding="utf-8") as file:
            line = file.read()
        with open(path, "a", encoding="utf-8") as file:
            file.write(line)
        self.assertEqual(self.texts(), ["the roof leaks"])

    def test_a_line_that_was_cut_short(self):
        """As by a full disk, within a letter: it is no note, and spoils none before it or after it."""
        send(noted(1, "first"))
        with open(os.path.join(DESK.nginx.visits, "0002-000001"), "ab") as file:
            file.write(b'{"time":"2026-11-30T10:00:00+00:00","key":"' + key_of(2).encode() + b'","text":"caf\xc3')
        self.assertEqual(self.texts(), ["first"])
        self.assertEqual(send(noted(2, "second")), ENTERED)
        self.assertEqual(send(noted(2, "second")), REPEATED)
        self.assertEqual(self.texts(), ["first", "second"])

    def test_no_note(self):
        good = noted(1)
        wrong = [b"", b"{", b"[]", b"null", b"7", b'"text"', b'{"key":"\xff"}', b"[" * 5000, {}]
        wrong += [{name: value for name, value in good.items() if name != gone} for gone in good]
        wrong += [good | {"more": 1}, good | {"text": 7}, good | {"key": None}, good | {"day": 20240331}]
        wrong += [good | {"key": key} for key in ("", "a" * 31, "a" * 33, "A" * 32, "a" * 31 + "\n", "../" + "a" * 29)]
        wrong += [good | {"day": day} for day in ("2024-02-30", "2024-3-1", "1999-12-31", "2100-01-01", "2024-03-31\n")]
        wrong += [good | {"text": text} for text in ("", "  \n", "x" * 1001, "é" * 1001, "a\tb", "a\rb", "\0", "\x7f",
                                                     "\x85", "\x1b[31m")]
        for body in wrong:
            with self.subTest(body):
                self.assertEqual(send(body), NO_NOTE)
        self.assertEqual(DESK.send("zoe", "POST", VISITS), NO_NOTE)
        self.assertEqual(self.kept(), [])
        longest = ["x" * 1000, "é" * 1000, "😀" * 1000, "a\nb"]
        self.assertEqual([send(noted(number, text)) for number, text in enumerate(longest)], [ENTERED] * 4)
        self.assertEqual(self.texts(), longest)

    def test_as_many_as_are_kept(self):
        """64 kB of a client: what goes beyond is refused, and what stands stays and is told."""
        count = 0
        while (answer := send(noted(count, "x" * 1000))) == ENTERED:
            count += 1
        self.assertEqual((answer, count), (FULL, len(self.kept())))
        size = os.path.getsize(os.path.join(DESK.nginx.visits, "0002-000001"))
        self.assertTrue(MOST - 1200 < size <= MOST, size)
        self.assertEqual(send(noted(count, "x" * 1000)), FULL)
        self.assertEqual(send(noted(0, "x" * 1000)), REPEATED)
        self.assertEqual(len(self.texts()), count)
        self.assertEqual(send(noted(0), "/visits/0002-000002"), ENTERED)

    def test_a_folder_that_takes_nothing(self):
        """It is told so, and the note isn't kept; where the folder is missing no client has a note."""
        os.rename(DESK.nginx.visits, DESK.nginx.visits + "-away")
        try:
            self.assertEqual((send(noted(1)), self.texts()), (NOT_WRITTEN, []))
            os.mkdir(DESK.nginx.visits, 0o755)
            if os.geteuid() == 0:  # root's own: nginx's workers can't write there
                self.assertEqual(send(noted(1)), NOT_WRITTEN)
        finally:
            if os.path.exists(DESK.nginx.visits):
                os.rmdir(DESK.nginx.visits)
            os.rename(DESK.nginx.visits + "-away", DESK.nginx.visits)
        self.assertEqual(send(noted(1)), ENTERED)


def fill_the_disk():
    """Where the disk of the notes has 20 kB: what notes are answered, in a mount namespace of this process's own."""
    with desk.Desk(lines=TWO_CLIENTS, people=PEOPLE) as it:

        def send_all(count):
            bodies = [noted(number, "é" * 900) for number in range(count)]
            return [it.send("zoe", "POST", VISITS, body)[0] for body in bodies]

        owner = os.stat(it.nginx.visits)
        options = f"size=20k,mode=700,uid={owner.st_uid},gid={owner.st_gid}"
        subprocess.run(["mount", "-t", "tmpfs", "-o", options, "tmpfs", it.nginx.visits], check=True)
        told = {"first": send_all(12)}
        told["size"] = os.path.getsize(os.path.join(it.nginx.visits, "0002-000001"))
        told["shown"] = len(it.send("zoe", "GET", VISITS)[1]["visits"])
        subprocess.run(["mount", "-o", "remount,size=200k", it.nginx.visits], check=True)
        told["again"] = send_all(12)
        told["all"] = len(it.send("zoe", "GET", VISITS)[1]["visits"])
        it.nginx.stop()
        subprocess.run(["umount", it.nginx.visits], check=True)
    print(json.dumps(told))


class FullDisk(unittest.TestCase):
    @unittest.skipIf(os.geteuid() != 0, "mounting needs root")
    def test_what_was_told_as_entered_stands(self):
        """The note that the disk cut short is refused, is shown nowhere, and stands once there is room."""
        inside = "import sys; sys.path.insert(0, sys.argv[1]); import test_visits; test_visits.fill_the_disk()"
        words = ["unshare", "-m", "--propagation", "private", sys.executable, "-c", inside]
        done = subprocess.run([*words, os.path.dirname(__file__)], capture_output=True, text=True, check=False)
        self.assertEqual(done.returncode, 0, done.stderr)
        told = json.loads(done.stdout.splitlines()[-1])
        self.assertEqual((told["first"], told["size"], told["shown"]), ([201] * 10 + [503] * 2, 20480, 10))
        self.assertEqual((told["again"], told["all"]), ([200] * 10 + [201] * 2, 12))


class Guards(Case):
    """Who may note and be told: those who see the client, by one spelling, from the front's own pages."""

    SPELLINGS = (
        "/visits", "/visits/", "/visits/2-1", "/visits/0002-000001/", "/visits/0002-000001?x", "/visits/0002-000001?",
        "/visits/0002-000001#x", "/visits/0002-000001/x", "/visits//0002-000001", "//visits/0002-000001",
        "/visits/./0002-000001", "/visits/x/../0002-000001", "/visits/../../../etc/passwd", "/visits/..%2f..%2fetc",
        "/visits/0002-00000%31", "/%76isits/0002-000001", "/VISITS/0002-000001",
        "/me/../visits/0002-000001", "/visits/0002-000001%00", "/visits/0002-0000011", "/visits/00002-000001",
        "/visits/0002_000001", "/client-of-visits/0002-000001", "/%63lient-of-visits/0002-000001",
        "/lib/../client-of-visits/0002-000001",
    )

    def status(self, method, target, body):
        """What is answered to a message whose target is sent as it stands."""
        return attacks.status_of(attacks.answered(attacks.message("zoe", method, target, body, at=DESK), at=DESK))

    def test_hidden_is_as_missing(self):
        """Who doesn't see a client gets what the desk answers for one that isn't there: the same bytes."""
        send(noted(1))
        for method, body in (("GET", None), ("POST", noted(2)), ("POST", noted(1))):
            replies = [DESK.exchange("sami", method, path, body) for path in (HIDDEN, MISSING)]
            replies.append(DESK.exchange("sami", "GET", "/api/clients/0002-000009"))
            kept = [(status, data, [pair for pair in fields.items() if pair[0] != "Date"])
                    for status, fields, data in replies]
            self.assertEqual(kept[0], (404, b'{"fault":"F4"}', kept[2][2]))
            self.assertEqual(kept[0], kept[1])
            self.assertEqual(kept[0][:2], kept[2][:2])
        self.assertEqual(send(noted(3), "/visits/0002-000009"), (404, {"fault": "F4"}))
        self.assertEqual(os.listdir(DESK.nginx.visits), ["0002-000001"])
        self.assertEqual(self.texts(), ["the roof leaks"])

    def test_no_other_spelling(self):
        DESK.stop_serve()
        with attacks.Program(DESK.serve.port) as program:
            for target in self.SPELLINGS:
                for method, body in (("GET", b""), ("POST", json.dumps(noted(1)).encode())):
                    with self.subTest(f"{method} {target}"):
                        self.assertIn(self.status(method, target, body), (400, 404, 405))
            for method in ("HEAD", "PUT", "DELETE", "OPTIONS", "PATCH"):
                with self.subTest(method):
                    self.assertEqual(self.status(method, VISITS, b"{}"), 404)
        self.assertEqual((program.got, os.listdir(DESK.nginx.visits)), ([], []))

    def test_strangers(self):
        for name, password in ((None, None), ("zoe", "wrong"), ("nobody", "word")):
            if name is None or not DESK.sign_in:
                for method in ("GET", "POST"):
                    answer = DESK.send(name, method, VISITS, noted(1), password=password)
                    self.assertEqual(answer, (401, {"front": "password"}))
        self.assertEqual(self.kept(), [])

    def test_another_site(self):
        for fields in ([], [("X-Desk", "1"), ("Sec-Fetch-Site", "cross-site")],
                       [("X-Desk", "1"), ("Sec-Fetch-Site", "same-site")]):
            self.assertEqual(send(noted(1), fields=fields), REFUSED_ORIGIN)
        self.assertEqual(self.kept(), [])
        self.assertEqual(DESK.send("zoe", "GET", VISITS, fields=[("Sec-Fetch-Site", "cross-site")])[0], 200)

    def test_a_reader(self):
        """One who may only look is told of notes and leaves none."""
        DESK.add_person("auditor", "2/4", None, "--reader")
        send(noted(1))
        self.assertEqual(send(noted(2), name="auditor"), (403, {"front": "reader"}))
        self.assertEqual((self.texts("auditor"), len(self.kept())), (["the roof leaks"], 1))

    def test_shut(self):
        """Where the log can't be written nothing is kept, and what stands is told."""
        send(noted(1))
        with open(DESK.nginx.shut, "w", encoding="ascii"):
            pass
        try:
            self.assertEqual(send(noted(2)), (503, {"front": "log"}))
            self.assertEqual(self.texts(), ["the roof leaks"])
        finally:
            os.unlink(DESK.nginx.shut)
        self.assertEqual(len(self.kept()), 1)

    def test_no_desk(self):
        """Without the desk nobody knows who sees the client."""
        send(noted(1))
        DESK.stop_serve()
        down = 502, {"front": "down"}
        self.assertEqual((send(noted(2)), DESK.send("zoe", "GET", VISITS)), (down, down))
        DESK.start_serve()
        self.assertEqual(len(self.kept()), 1)

    def test_the_desk_is_asked_as_the_person(self):
        """By one reading of the client, without what was sent, whatever fields came."""
        own = [("X-Desk", "1"), ("X-Staff", "1/1"), ("X-Told", "never"), ("Cookie", "a=b")]
        DESK.stop_serve()
        with attacks.Program(DESK.serve.port) as program:
            self.assertEqual(send(noted(1), fields=own if not DESK.sign_in else own[:3]), ENTERED)
            self.assertEqual(DESK.send("zoe", "GET", VISITS)[0], 200)
        for got in program.got:
            self.assertEqual(got.split(b"\r\n")[0], b"GET /clients/0002-000001 HTTP/1.0")
            self.assertIn(b"\r\nX-Staff: 2/2\r\n", got)
            for word in (b"1/1", b"never", b"roof", b"Authorization", b"Cookie", b"Content-"):
                self.assertNotIn(word, got)
        self.assertEqual(len(program.got), 2)

    def test_too_large(self):
        self.assertEqual(send(b"x" * 64001), (413, {"front": "large"}))
        self.assertEqual(send(json.dumps(noted(1)).encode().ljust(64000)), ENTERED)


def audited_day():
    """What restores and audits know the messages of the log by."""
    sys.path.append(os.path.join(running.TOP, "audit"))
    import day

    return day


class Log(Case):
    TOLD = ("user", "staff", "method", "path", "status", "upstream", "reply")

    def test_a_line_each(self):
        """Of whom the desk was told as, with what was sent and answered. Nothing is told of as sent to the program."""
        time.sleep(0.2)  # for a line that comes late
        begin = len(DESK.log)
        send(noted(1))
        send(noted(1), name="tom")
        DESK.send("zoe", "GET", VISITS)
        send(noted(1), name="sami")
        send({}, name="zoe")
        send(noted(1), fields=[])
        lines = desk_wait(lambda: len(DESK.log) >= begin + 6 and DESK.log[begin:])
        hidden = '{"fault":"F4"}'
        wanted = [
            ["zoe", "2/2", "POST", VISITS, 201, "", '{"visit":"entered"}'],
            ["tom", "2/3", "POST", VISITS, 200, "", '{"visit":"repeated"}'],
            ["zoe", "2/2", "GET", VISITS, 200, "", ""],
            ["sami", "3/1", "POST", VISITS, 404, "", hidden],
            ["zoe", "", "POST", VISITS, 400, "", '{"front":"visit"}'],
            ["zoe", "", "POST", VISITS, 403, "", ""],
        ]
        self.assertEqual(sorted([line[name] for name in self.TOLD] for line in lines), sorted(wanted))
        self.assertEqual([json.loads(line["body"]) for line in lines if line["status"] == 201], [noted(1)])
        self.assertEqual([line for line in lines if audited_day().is_passed_on(line)], [])

    def test_who_noted(self):
        """The tool that tells who did what tells of notes too."""
        send(noted(7, "called on her"))
        desk_wait(lambda: any("called on her" in line["body"] for line in DESK.log))
        words = [attacks.WHO, "visit", "--log", DESK.nginx.log]
        done = subprocess.run(words, capture_output=True, text=True, check=True)
        self.assertIn("zoe 2/2 201 POST /visits/0002-000001", done.stdout)
        self.assertIn("called on her", done.stdout)


if __name__ == "__main__":
    unittest.main()
