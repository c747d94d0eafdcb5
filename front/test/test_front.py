"""Tests of the front: who gets through, as whom, and what is told when the program can't be reached."""
import concurrent.futures
import contextlib
import datetime
import gzip
import http.server
import json
import os
import pty
import re
import select
import socket
import socketserver
import stat
import subprocess
import sys
import tempfile
import threading
import time
import unittest

import desk
import running

PEOPLE_SCRIPT = os.path.join(running.FRONT, "people")
COMPARE = os.path.join(running.TOP, "audit", "compare")
REFUSED_ORIGIN = (403, {"front": "origin"})
# office 2 with a manager 2/1, an officer 2/2 and a teller 2/3; office 3 with a teller 3/1
LINES = b"""1/1 POST /offices {"number":2,"parent":1,"name":"North"}
1/1 POST /offices {"number":3,"parent":1,"name":"South"}
1/1 POST /staff {"office":2,"name":"Ruth","role":"manager"}
1/1 POST /staff {"office":2,"name":"Zoe","role":"officer"}
1/1 POST /staff {"office":2,"name":"Tom","role":"teller"}
1/1 POST /staff {"office":3,"name":"Sami","role":"teller"}
"""
PEOPLE = {"head": "1/1", "ruth": "2/1", "zoe": "2/2", "tom": "2/3", "sami": "3/1"}
NORTH = {"offices": [{"name": "North", "number": 2, "parent": 1}]}
LARGEST = b'{"office":2,"name":"Large"}'.ljust(64000)  # what the front takes


def setUpModule():
    global DESK
    DESK = desk.Desk(lines=LINES, people=PEOPLE)
    unittest.addModuleCleanup(DESK.end)


def add_client(name):
    return "POST", "/api/clients", {"office": 2, "name": name}


def told_of(message):
    """The addresses that a message's fields X-Told have behind a time of this minute."""
    addresses = []
    for value in re.findall(rb"\r\nX-Told: ([^\r\n]*)", message, re.IGNORECASE):
        when, address = value.decode().split(",")
        assert abs(datetime.datetime.fromisoformat(when).timestamp() - time.time()) < 60, when
        addresses.append(address)
    return addresses


def count_clients():
    """How many clients office 2 has: numbers run from 1 without gaps."""
    count = 0
    while DESK.send("head", "GET", f"/api/clients/0002-{count + 1:06}")[0] == 200:
        count += 1
    return count


@contextlib.contextmanager
def listening(handler):
    """An HTTP server with this handler on a loopback port. Its port."""
    server = http.server.ThreadingHTTPServer(("127.0.0.1", 0), handler)
    thread = threading.Thread(target=server.serve_forever)
    thread.start()
    try:
        yield server.server_address[1]
    finally:
        server.shutdown()
        thread.join()
        server.server_close()


@contextlib.contextmanager
def listening_socket(port):
    """A socket of a folder that leads to a port, as the one of a service does. Its path."""

    class Handler(socketserver.StreamRequestHandler):
        def handle(self):
            with socket.create_connection(("127.0.0.1", port)) as program:
                program.sendall(self.request.recv(65536))
                self.request.sendall(read_all(program))

    with tempfile.TemporaryDirectory() as room:
        path = os.path.join(room, "desk.sock")
        with socketserver.ThreadingUnixStreamServer(path, Handler) as server:
            thread = threading.Thread(target=server.serve_forever)
            thread.start()
            yield path
            server.shutdown()
            thread.join()


class SignIn(unittest.TestCase):
    def test_without_password(self):
        for path in ("/", "/me", "/api/offices"):
            with self.subTest(path):
                status, fields, _ = DESK.exchange(None, "GET", path)
                self.assertEqual((status, fields["WWW-Authenticate"]), (401, 'Basic realm="microloan"'))

    def test_wrong_password(self):
        for name, password in (("tom", "password-of-to"), ("tom", ""), ("TOM", "password-of-tom"), ("nobody", "x")):
            for path in ("/", "/me", "/api/offices"):
                with self.subTest(name=name, path=path):
                    self.assertEqual(DESK.send(name, "GET", path, password=password)[0], 401)
        status, reply = DESK.send("zoe", *add_client("Nobody"), password="wrong")
        self.assertEqual((status, reply), (401, {"front": "password"}))

    def test_me(self):
        for name, staff in PEOPLE.items():
            with self.subTest(name):
                self.assertEqual(DESK.send(name, "GET", "/me"), (200, {"user": name, "staff": staff}))

    def test_person_whom_the_program_does_not_know(self):
        DESK.add_person("lost", "2/99")
        self.assertEqual(DESK.send("lost", "GET", "/api/business-day"), (401, {"fault": "F2"}))

    def test_person_without_staff(self):
        DESK.add_person("unmapped", "2/98")
        path = os.path.join(DESK.nginx.people, "staff.map")
        with open(path, encoding="utf-8") as file:
            lines = [line for line in file if "unmapped" not in line]
        with open(path, "w", encoding="utf-8") as file:
            file.writelines(lines)
        DESK.nginx.reload()
        self.assertEqual(DESK.send("unmapped", "GET", "/me"), (200, {"user": "unmapped", "staff": ""}))
        for fields in ({}, {"X-Staff": "1/1"}):
            self.assertEqual(DESK.send("unmapped", "GET", "/api/business-day", fields=fields), (400, {"fault": "F1"}))

    def test_staff_that_a_client_sends_is_dropped(self):
        forged = (
            [("X-Staff", "1/1")],
            [("X-Staff", "1/1"), ("X-Staff", "1/1")],
            [("x-staff", "1/1")],
            [("X-STAFF", "1/1"), ("X-Staff", "2/1"), ("x-staff", "3/1")],
            [("X_Staff", "1/1")],
            [("x_staff", "1/1"), ("X-Staff", "1/1")],
        )
        for fields in forged:
            with self.subTest(fields):
                self.assertEqual(DESK.send("tom", "GET", "/api/offices", fields=fields), (200, NORTH))
                written = DESK.send("tom", *add_client("Forged"), fields=fields + [("X-Desk", "1")])
                self.assertEqual(written, (403, {"fault": "F3"}))


class OtherSites(unittest.TestCase):
    def test_what_writes_needs_the_field(self):
        before = count_clients()
        refused = ({}, {"X-Desk": "0"}, {"X-Desk": ""}, {"X-Desk": "1", "Sec-Fetch-Site": "cross-site"})
        refused += ({"X-Desk": "1", "Sec-Fetch-Site": "same-site"}, {"X-Desk": "1", "Sec-Fetch-Site": "none"})
        for fields in refused:
            with self.subTest(fields):
                self.assertEqual(DESK.send("zoe", *add_client("Foreign"), fields=fields), REFUSED_ORIGIN)
        for method in ("PUT", "DELETE", "PATCH", "OPTIONS"):
            with self.subTest(method):
                sent = DESK.send("head", method, "/api/business-day", {"day": "2024-01-02"}, fields={})
                self.assertEqual(sent, REFUSED_ORIGIN)
        self.assertEqual(count_clients(), before)
        self.assertEqual(DESK.send("head", "GET", "/api/business-day"), (200, {"day": "2024-01-01"}))

    def test_what_comes_from_the_front_itself_passes(self):
        before = count_clients()
        for fields in ({"X-Desk": "1"}, {"X-Desk": "1", "Sec-Fetch-Site": "same-origin"}):
            self.assertEqual(DESK.send("zoe", *add_client("Own"), fields=fields)[0], 201)
        self.assertEqual(count_clients(), before + 2)

    def test_pages_of_other_sites_in_a_browser(self):
        """Forms and scripts of another origin write with the password that the browser has, and nothing is changed."""
        address = f"{DESK.url}/api/clients"
        page = f"""<!doctype html><form method="post" enctype="text/plain" action="{address}">
            <input name='{{"office":2,"name":"Form","more":"' value='"}}'></form>
            <script>async function ask() {{ try {{ await fetch("{address}", {{method: "POST", mode: "no-cors",
            credentials: "include", body: '{{"office":2,"name":"Fetch"}}'}}) }} catch (fault) {{}} }}
            async function askWithField() {{ try {{ await fetch("{address}", {{method: "POST", credentials: "include",
            headers: {{"X-Desk": "1"}}, body: '{{"office":2,"name":"Field"}}'}}); return "answered" }}
            catch (fault) {{ return "refused" }} }}</script>""".encode()

        class Handler(http.server.BaseHTTPRequestHandler):
            def do_GET(self):
                self.send_response(200)
                self.send_header("Content-Type", "text/html")
                self.end_headers()
                self.wfile.write(page)

            def log_message(self, *_):
                pass

        browser = DESK.browser("zoe")
        before = count_clients()
        logged = len(DESK.log)
        with listening(Handler) as port:
            for host in ("127.0.0.1", "localhost"):
                browser.get(f"http://{host}:{port}/")
                browser.execute_async_script("const done = arguments[0]; ask().then(done)")
                answer = browser.execute_async_script("const done = arguments[0]; askWithField().then(done)")
                self.assertEqual(answer, "refused")
                browser.execute_script("document.forms[0].submit()")
                desk_wait(lambda: "front" in browser.page_source)
                self.assertIn('{"front":"origin"}', browser.page_source)
        sent = [line for line in DESK.log[logged:] if line["path"] == "/api/clients"]
        self.assertEqual({(line["status"], line["staff"]) for line in sent}, {(403, "")})
        as_zoe = [line for line in sent if line["method"] == "POST" and line["user"] == "zoe"]
        self.assertGreaterEqual(len(as_zoe), 2)  # the browser did send them, with her password
        self.assertEqual(count_clients(), before)

    def test_fields_that_guard_pages(self):
        paths = [("head", "/", 200), ("head", "/me", 200), ("head", "/api/offices", 200), (None, "/api/offices", 401)]
        paths += [("head", "/there-is-none", 404), ("head", "/api/there-is-none", 404)]
        paths += [(None, "/lib/chart/chart.min.js", 200)]
        for name, path, wanted in paths:
            with self.subTest(path=path, name=name):
                status, fields, _ = DESK.exchange(name, "GET", path)
                self.assertEqual(status, wanted)
                policies = "; ".join(fields.get_all("Content-Security-Policy"))
                scripts = "script-src 'self' 'wasm-unsafe-eval'"
                self.assertIn(f"default-src 'self'; {scripts}; img-src 'self' data:", policies)
                self.assertIn("worker-src 'self'; manifest-src 'self'", policies)
                self.assertIn("frame-ancestors 'none'", policies)
                self.assertNotIn("unsafe", policies.replace("'wasm-unsafe-eval'", ""))
                self.assertEqual(fields["X-Content-Type-Options"], "nosniff")
                self.assertEqual(fields["Referrer-Policy"], "no-referrer")
                self.assertEqual(fields["X-Frame-Options"], "DENY")
                kept = "no-store" if path.startswith(("/api/", "/me")) else "no-cache"
                library = "public, max-age=86400, stale-while-revalidate=2592000"
                self.assertEqual(fields["Cache-Control"], library if "/lib/" in path else kept)
                self.assertEqual(fields["Server"], "nginx")


class Files(unittest.TestCase):
    def test_libraries_are_there_without_password(self):
        scripts = ("/lib/chart/chart.min.js", "/lib/dsv/d3-dsv.min.js", "/lib/qrcode/qrcode.js")
        paths = {"/lib/bootstrap/css/bootstrap.min.css": "text/css"} | dict.fromkeys(scripts, "application/javascript")
        for path, kind in paths.items():
            with self.subTest(path):
                status, fields, data = DESK.exchange(None, "GET", path)
                self.assertEqual((status, fields["Content-Type"]), (200, kind))
                self.assertGreater(len(data), 1000)

    def test_libraries_define_what_pages_use(self):
        browser = DESK.browser("tom")
        script = """const done = arguments[0]; const add = path => new Promise((ready, failed) => { const script =
            document.createElement("script"); script.src = path; script.onload = ready; script.onerror = failed;
            document.head.append(script) });
            add("/lib/chart/chart.min.js")
            .then(() => add("/lib/dsv/d3-dsv.min.js")).then(() => add("/lib/qrcode/qrcode.js"))
            .then(() => done([typeof Chart, d3.csvParseRows('1,"2,3"\\n')[0][1], typeof qrcode]))
            .catch(fault => done(String(fault)))"""
        self.assertEqual(browser.execute_async_script(script), ["function", "2,3", "function"])

    def test_nothing_else_is_served(self):
        paths = ("/lib/", "/lib/dsv../package.json", "/lib/dsv/../package.json", "/lib/chart/../jquery/jquery.min.js")
        paths += ("/people/passwords", "/../people/passwords", "/api/../people/passwords", "/%2e%2e/people/passwords")
        paths += ("/site.conf", "/desk.db", "/lib/chart/..%2f..%2f..%2fetc/passwd")
        paths += ("/lib/bootstrap/../../../etc/passwd",)
        for path in paths:
            with self.subTest(path):
                status, _, data = DESK.exchange("head", "GET", path)
                self.assertIn(status, (400, 403, 404))
                self.assertNotIn(b"$2y$", data)

    def test_pages_are_asked_for_again_and_not_sent_twice(self):
        status, fields, _ = DESK.exchange("tom", "GET", "/")
        self.assertEqual(status, 200)
        status, _, data = DESK.exchange("tom", "GET", "/", fields={"If-None-Match": fields["ETag"]})
        self.assertEqual((status, data), (304, b""))

    def test_files_are_kept_by_their_sum(self):
        """index.html names all files below one sum, where a browser keeps them; no other sum has files."""
        text = DESK.exchange("tom", "GET", "/")[2].decode()
        named = re.findall(r'="(/(?!lib/)[^"]+)"', text)
        self.assertGreater(len(named), 2)
        self.assertEqual(len({path.split("/")[2] for path in named}), 1, named)
        for path in named:
            with self.subTest(path):
                status, fields, _ = DESK.exchange("tom", "GET", path)
                self.assertEqual((status, fields["Cache-Control"]), (200, "private, max-age=31536000, immutable"))
        other = re.sub(r"/files/[0-9a-f]+/", "/files/0123456789abcdef/", named[0])
        self.assertEqual(DESK.exchange("tom", "GET", other)[0], 404)

    def test_compressed(self):
        """Pages, libraries and replies are sent compressed to who takes it."""
        page = re.search(r'src="(/files/[^"]+/app.js)"', DESK.exchange("tom", "GET", "/")[2].decode())[1]
        for path in (page, "/lib/chart/chart.min.js", "/api/reports/arrears"):
            with self.subTest(path):
                _, _, plain = DESK.exchange("head", "GET", path)
                _, fields, data = DESK.exchange("head", "GET", path, fields={"Accept-Encoding": "gzip"})
                self.assertEqual(fields["Content-Encoding"], "gzip")
                self.assertEqual(gzip.decompress(data), plain)

    def test_institution(self):
        """What the institution tells of itself: an empty object as long as it has no such file."""
        self.assertEqual(DESK.send("tom", "GET", "/institution.json"), (200, {}))
        path = os.path.join(DESK.nginx.people, "institution.json")
        with open(path, "w", encoding="utf-8") as file:
            file.write('{"name":"Umoja"}')
        self.addCleanup(os.remove, path)
        self.assertEqual(DESK.send("tom", "GET", "/institution.json"), (200, {"name": "Umoja"}))
        self.assertEqual(DESK.send(None, "GET", "/institution.json")[0], 401)


class Messages(unittest.TestCase):
    def test_refusals_of_the_program_pass_unchanged(self):
        asked = [("tom", *add_client("No"), 403, "F3"), ("zoe", "GET", "/api/clients/0003-000001", None, 404, "F4")]
        asked += [("zoe", "GET", "/api/nothing", None, 404, "F5"), ("zoe", "DELETE", "/api/clients", None, 405, "F6")]
        asked += [("zoe", "POST", "/api/clients", {"office": "2"}, 400, "F1")]
        asked += [("head", "POST", "/api/offices", {"number": 2, "parent": 1, "name": "North"}, 409, "F16")]
        for name, method, path, body, status, fault in asked:
            with self.subTest(fault):
                self.assertEqual(DESK.send(name, method, path, body), (status, {"fault": fault}))

    def test_a_message_is_logged_with_its_body(self):
        name = 'Zoë "the baker" \\ {}'
        sent = json.dumps({"office": 2, "name": name}, ensure_ascii=False) + "\t\r\n"
        status, reply = DESK.send("zoe", "POST", "/api/clients", sent.encode())
        self.assertEqual(status, 201)
        line = desk_wait(lambda: next((line for line in DESK.log if line["body"] == sent), None))
        told = {key: line[key] for key in ("user", "staff", "method", "path", "status", "upstream")}
        wanted = {"user": "zoe", "staff": "2/2", "method": "POST", "path": "/api/clients", "status": 201}
        self.assertEqual(told, wanted | {"upstream": "201"})
        self.assertEqual(json.loads(line["body"]), {"office": 2, "name": name})
        self.assertEqual(json.loads(line["reply"]), reply)
        self.assertRegex(line["time"], r"^\d{4}-\d\d-\d\dT\d\d:\d\d:\d\d[+-]\d\d:\d\d$")

    def test_replies_to_what_writes_are_logged_and_no_others(self):
        logged = len(DESK.log)
        self.assertEqual(DESK.send("tom", "POST", "/api/clients", {"office": 2, "name": "No"})[0], 403)
        self.assertEqual(DESK.send("zoe", "GET", "/api/offices")[0], 200)
        mine = {("tom", "POST"): '{"fault":"F3"}', ("zoe", "GET"): ""}  # a line of the test before may come late

        def replies():
            found = {(line["user"], line["method"]): line["reply"] for line in DESK.log[logged:]}
            return {key: found[key] for key in mine if key in found}

        desk_wait(lambda: len(replies()) == len(mine))
        self.assertEqual(replies(), mine)

    def test_whom_nobody_checked_is_in_a_log_of_its_own(self):
        logged = len(DESK.log)
        DESK.send("head", "GET", "/api/offices", password="wrong")
        DESK.send("head", "GET", "/me", password="wrong")
        DESK.send(None, "GET", "/api/offices")
        said = ["microloan: nobody for ? from 127.0.0.1"] + ["microloan: refused for head from 127.0.0.1"] * 2
        desk_wait(lambda: sorted(line.split(" ", 1)[1] for line in DESK.strangers[-3:]) == said)
        self.assertEqual(DESK.log[logged:], [])

    def test_the_log_is_its_owners(self):
        self.assertEqual(stat.S_IMODE(os.stat(DESK.nginx.log).st_mode), 0o600)
        self.assertEqual(stat.S_IMODE(os.stat(DESK.file).st_mode), 0o600)

    def test_large_messages(self):
        self.assertEqual(DESK.send("tom", "POST", "/api/clients", LARGEST), (403, {"fault": "F3"}))
        with socket.create_connection(("127.0.0.1", DESK.nginx.port)) as client:
            client.sendall(head_of("tom", "POST", "/api/clients", f"Content-Length: {len(LARGEST) + 1}"))
            reply = read_all(client)
        self.assertIn(b" 413 ", reply.split(b"\r\n")[0])
        self.assertTrue(reply.endswith(b'{"front":"large"}'))

    def test_a_chunked_body_arrives(self):
        before = count_clients()
        chunks = b'15\r\n{"office":2,"name":"C\r\n5\r\nhunk"\r\n1\r\n}\r\n0\r\n\r\n'
        with socket.create_connection(("127.0.0.1", DESK.nginx.port)) as client:
            client.sendall(head_of("zoe", "POST", "/api/clients", "Transfer-Encoding: chunked") + chunks)
            reply = read_all(client)
        self.assertIn(b" 201 ", reply.split(b"\r\n")[0])
        self.assertEqual(count_clients(), before + 1)

    def test_silent_clients_are_dropped_and_hold_up_nobody(self):
        stalled = [b"GET /api/offices HTTP/1.1\r\nHost: x\r\n"]
        stalled.append(head_of("zoe", "POST", "/api/clients", "Content-Length: 100") + b'{"office":2,')
        clients = [socket.create_connection(("127.0.0.1", DESK.nginx.port)) for _ in stalled * 10]
        for client, sent in zip(clients, stalled * 10):
            client.sendall(sent)
        began = time.monotonic()
        self.assertEqual(DESK.send("tom", "GET", "/api/offices"), (200, NORTH))
        self.assertLess(time.monotonic() - began, 2)
        for client in clients:
            client.settimeout(20)
            reply = read_all(client)
            self.assertTrue(reply == b"" or b" 408 " in reply.split(b"\r\n")[0], reply[:60])
            client.close()
        self.assertGreater(time.monotonic() - began, 8)


def compare(it, beginning, log):
    """The status and the lines of audit/compare, from a copy of the beginning on."""
    words = [COMPARE, "--program", running.program(), "--file", it.file, "--from", beginning, log]
    done = subprocess.run(words, capture_output=True, text=True, check=False)
    return done.returncode, done.stdout.splitlines() + done.stderr.splitlines()


class TheLog(unittest.TestCase):
    def test_it_gives_the_file(self):
        sent = [("zoe", *add_client(f'Zoë "{number}" \\ {{}}')) for number in range(20)]
        spread = json.dumps({"office": 2, "name": "Spread"}, indent=1).replace("\n", "\r\n")
        sent += [("zoe", "POST", "/api/clients", spread.encode()), ("tom", *add_client("Refused"))]
        sent += [("zoe", "POST", "/api/clients", LARGEST)]
        sent += [("head", "GET", "/api/offices", None)]
        with desk.Desk(lines=LINES, people=PEOPLE) as it:
            beginning = os.path.join(it.folder, "beginning.db")
            it.stop_serve()
            desk.copy_file(it.file, beginning)
            it.start_serve()
            for message in sent:
                it.send(*message)
            desk_wait(lambda: len(it.log) >= len(sent))
            it.stop_serve()
            self.assertEqual(compare(it, beginning, it.nginx.log)[1][-1], "the same")
            changed = os.path.join(it.folder, "changed.log")
            with open(it.nginx.log, encoding="utf-8") as file, open(changed, "w", encoding="utf-8") as other:
                for line in file:
                    message = json.loads(line)
                    message["body"] = message["body"].replace('\\"7\\"', '\\"77\\"')
                    other.write(json.dumps(message) + "\n")
            status, lines = compare(it, beginning, changed)
            self.assertEqual((status, lines[-1]), (1, "0 messages are answered otherwise, 1 rows differ"))
            self.assertIn("clients 0002-000008: name is ", lines[0])


class TheProgram(unittest.TestCase):
    def tearDown(self):
        if DESK.serve.process is None:
            DESK.start_serve()

    def test_it_is_down_and_comes_back(self):
        DESK.kill_serve()
        self.assertEqual(DESK.send("tom", "GET", "/api/offices"), (502, {"front": "down"}))
        self.assertEqual(DESK.send("zoe", *add_client("Down")), (502, {"front": "down"}))
        self.assertEqual(DESK.send("tom", "GET", "/me")[0], 200)
        DESK.start_serve()
        self.assertEqual(DESK.send("tom", "GET", "/api/offices"), (200, NORTH))

    def test_a_message_is_not_sent_twice(self):
        """Something that closes each connection without a reply stands where the program was."""
        DESK.stop_serve()
        with socket.socket() as listener:
            listener.setsockopt(socket.SOL_SOCKET, socket.SO_REUSEADDR, 1)
            listener.bind(("127.0.0.1", DESK.serve.port))
            listener.listen()
            got = []

            def close_each():
                for _ in range(2):
                    stream, _ = listener.accept()
                    got.append(stream.recv(65536))
                    stream.close()

            thread = threading.Thread(target=close_each, daemon=True)
            thread.start()
            forged = [(name, "forged") for name in ("X-Told", "x-told", "X_Told")]
            once = DESK.send("zoe", *add_client("Once"), fields=[("X-Desk", "1"), *forged])
            self.assertEqual(once, (502, {"front": "down"}))
            thread.join(0.5)
            self.assertEqual(len(got), 1)
            self.assertIn(b"X-Staff: 2/2\r\n", got[0])
            self.assertEqual(told_of(got[0]), ["127.0.0.1"])
            self.assertNotIn(b"forged", got[0])
            self.assertNotIn(b"Authorization", got[0])
            self.assertEqual(DESK.send("zoe", "GET", "/api/offices"), (502, {"front": "down"}))
            thread.join(5)
            self.assertEqual(len(got), 2)

    def test_200_at_once_are_all_answered(self):
        asked = list(PEOPLE) * 40
        wanted = {name: DESK.send(name, "GET", "/api/offices") for name in PEOPLE}
        with concurrent.futures.ThreadPoolExecutor(200) as many:
            replies = list(many.map(lambda name: DESK.send(name, "GET", "/api/offices"), asked))
        self.assertEqual(replies, [wanted[name] for name in asked])

    def test_whoever_finds_the_queue_full_is_told_so(self):
        """Where the program stands still, 300 messages wait; the next one is answered at once."""
        DESK.stop_serve()
        names = [f"waiting-{number}" for number in range(8)]
        for number, name in enumerate(names):
            DESK.nginx.add(name, f"2/{50 + number}", desk.PASSWORD.format(name))
        DESK.nginx.reload()
        with socket.socket() as listener:
            listener.setsockopt(socket.SOL_SOCKET, socket.SO_REUSEADDR, 1)
            listener.bind(("127.0.0.1", DESK.serve.port))
            listener.listen(400)
            messages = [head_of(name, "GET", "/api/offices", "Accept: */*") for name in names]
            waiting = [socket.create_connection(("127.0.0.1", DESK.nginx.port)) for _ in range(300)]
            for place, client in enumerate(waiting):
                client.sendall(messages[place % 8])
            # An answer to one more than may wait shows that all of them do. Which one it is nobody knows.
            extra = [socket.create_connection(("127.0.0.1", DESK.nginx.port)) for _ in range(5)]
            for place, client in enumerate(extra):
                client.sendall(messages[place])
            deadline, told = time.monotonic() + 10, set()
            while len(told) < 5 and time.monotonic() < deadline:
                readable, _, _ = select.select(waiting + extra, [], [], 1)
                told |= set(readable)
            replies = [read_all(client) for client in told]
            for client in waiting + extra:
                client.close()
        self.assertEqual(len(replies), 5)
        for reply in replies:
            self.assertIn(b" 503 ", reply.split(b"\r\n")[0])
            self.assertTrue(reply.endswith(b'{"front":"busy"}'))


class People(unittest.TestCase):
    def setUp(self):
        room = tempfile.TemporaryDirectory()
        self.addCleanup(room.cleanup)
        self.folder = room.name

    def people(self, *words, password="password of one"):
        done = subprocess.run(
            [PEOPLE_SCRIPT, "--folder", self.folder, *words],
            input=password + "\n",
            text=True,
            capture_output=True,
            check=False,
        )
        return done.returncode, done.stdout, done.stderr

    def read(self, name):
        with open(os.path.join(self.folder, name), encoding="utf-8") as file:
            return file.read()

    def test_added_listed_removed(self):
        self.assertEqual(self.people("add", "tom", "2/3")[0], 0)
        self.assertEqual(self.people("add", "ann-b.c_1", "9999/9999")[0], 0)
        self.assertEqual(self.people("list")[1], "ann-b.c_1 9999/9999\ntom 2/3\n")
        self.assertEqual(self.read("staff.map"), '"ann-b.c_1" "9999/9999";\n"tom" "2/3";\n')
        self.assertTrue(re.fullmatch(r"(ann-b\.c_1|tom):\$2y\$\d\d\$\S{53}", self.read("passwords").split("\n")[1]))
        for name in ("passwords", "staff.map"):
            self.assertEqual(stat.S_IMODE(os.stat(os.path.join(self.folder, name)).st_mode), 0o640)
        self.assertEqual(self.people("remove", "tom")[0], 0)
        self.assertEqual(self.people("list")[1], "ann-b.c_1 9999/9999\n")
        self.assertNotIn("tom", self.read("passwords") + self.read("staff.map"))
        self.assertEqual(sorted(os.listdir(self.folder)), ["passwords", "staff.map"])

    def test_what_is_refused_changes_nothing(self):
        self.people("add", "tom", "2/3")
        before = self.read("passwords"), self.read("staff.map")
        names = ("Tom", "a b", "", "-x", "a:b", "ü", "x" * 33, 'a"', "default", "include")
        texts = ("2", "2/", "/2", "0/1", "1/0", "02/1", "2/03", "10000/1", "1/10000", "2/3;")
        words = [("add", name, "2/4") for name in names] + [("add", "ann", staff) for staff in texts]
        for word in words:
            with self.subTest(word):
                self.assertEqual(self.people(*word)[0], 2)
        for word in (("add", "tom", "2/4"), ("add", "ann", "2/3"), ("remove", "ann"), ("password", "ann")):
            with self.subTest(word):
                self.assertEqual(self.people(*word)[0], 1)
        for password in ("", "1234567", "x" * 73, "tab\tbed in"):
            with self.subTest(password):
                self.assertEqual(self.people("add", "ann", "2/4", password=password)[0], 1)
        self.assertEqual((self.read("passwords"), self.read("staff.map")), before)

    def test_ten_at_once(self):
        with concurrent.futures.ThreadPoolExecutor(10) as many:
            done = list(many.map(lambda place: self.people("add", f"p{place}", f"2/{place + 1}")[0], range(10)))
        self.assertEqual(done, [0] * 10)
        self.assertEqual(len(self.people("list")[1].splitlines()), 10)
        self.assertEqual(len(self.read("passwords").splitlines()), 10)

    def on_terminal(self, *answers):
        """Runs `add` on a terminal. Its status, and all that the terminal showed."""
        number, terminal = pty.fork()
        if number == 0:
            os.execv(sys.executable, [sys.executable, PEOPLE_SCRIPT, "--folder", self.folder, "add", "tom", "2/3"])
        shown = b""
        for answer in answers:
            while not shown.rstrip(b" ").endswith(b":"):
                shown += os.read(terminal, 1000)
            os.write(terminal, answer + b"\n")
            shown += b"|"
        with contextlib.suppress(OSError):
            while more := os.read(terminal, 1000):
                shown += more
        os.close(terminal)
        return os.waitstatus_to_exitcode(os.waitpid(number, 0)[1]), shown

    def test_a_terminal_is_asked_twice_and_shows_nothing(self):
        status, shown = self.on_terminal(b"secret words", b"secret words")
        self.assertEqual(status, 0)
        self.assertNotIn(b"secret", shown)
        self.assertEqual(self.people("list")[1], "tom 2/3\n")

    def test_two_that_differ_on_a_terminal(self):
        status, shown = self.on_terminal(b"secret words", b"secret wordS")
        self.assertEqual(status, 1)
        self.assertIn(b"not the same", shown)
        self.assertEqual(self.people("list")[1], "")

    def test_with_a_front(self):
        """A new password counts at once; who is removed is out at once; who is added is in after nginx reloads."""
        self.assertEqual(DESK.send("zita", "GET", "/me")[0], 401)
        self.folder = DESK.nginx.people
        pid = os.path.join(DESK.folder, "nginx.pid")
        self.assertEqual(self.people("add", "zita", "2/97", "--reload", "--pid", pid)[0], 0)
        wanted = 200, {"user": "zita", "staff": "2/97"}
        desk_wait(lambda: DESK.send("zita", "GET", "/me", password="password of one") == wanted)
        self.assertEqual(self.people("password", "zita", password="another of them")[0], 0)
        self.assertEqual(DESK.send("zita", "GET", "/me", password="password of one")[0], 401)
        self.assertEqual(DESK.send("zita", "GET", "/me", password="another of them")[0], 200)
        self.assertEqual(self.people("remove", "zita")[0], 0)
        self.assertEqual(DESK.send("zita", "GET", "/me", password="another of them")[0], 401)


    def test_easy_passwords_are_refused(self):
        """Some of the commonest, by length and by cracklib; none is kept."""
        for password in ("12345678", "password", "qwertyuiop", "iloveyou", "football", "tom tom tom", "aaaaaaaaaaaa"):
            with self.subTest(password):
                status, _, said = self.people("add", "ann", "2/4", password=password)
                self.assertEqual(status, 1)
                self.assertIn("too easy to guess", said)
        self.assertEqual(self.people("list")[1], "")

    def test_a_member_of_staff_who_is_not_there_is_refused(self):
        with listening_socket(DESK.serve.port) as path:
            asked = "--desk", path
            self.assertEqual(self.people("add", "tom", "2/3", *asked)[0], 0)
            status, _, said = self.people("add", "ghost", "9/9", *asked)
            self.assertEqual((status, said), (1, "people: the desk has no member of staff 9/9: enter them first\n"))
        status, _, said = self.people("add", "ghost", "9/9", *asked)
        self.assertIn("--unasked adds without asking", said)
        self.assertEqual(self.people("add", "ghost", "9/9", *asked, "--unasked")[0], 0)

    def test_a_list_that_the_front_has_not_read_is_told(self):
        self.folder = DESK.nginx.people
        pid = ["--pid", os.path.join(DESK.folder, "nginx.pid")]
        DESK.nginx.reload()
        time.sleep(1.1)  # the kernel tells the start of a process by whole seconds or so
        self.assertEqual(self.people("list", *pid)[2], "")
        self.assertEqual(self.people("add", "zuri", "2/96")[0], 0)
        self.assertIn("the front runs with an earlier list", self.people("list", *pid)[2])
        time.sleep(1.1)
        DESK.nginx.reload()
        self.assertEqual(self.people("list", *pid)[2], "")
        self.assertEqual(self.people("remove", "zuri")[0], 0)

    def test_a_reader_only_looks(self):
        self.folder = DESK.nginx.people
        self.assertEqual(self.people("add", "auditor", "2/2", "--reader", password="no")[0], 1)
        self.assertEqual(self.people("remove", "zoe")[0], 0)
        self.assertEqual(self.people("add", "auditor", "2/2", "--reader")[0], 0)
        self.assertIn("auditor 2/2 (reader)\n", self.people("list")[1])
        DESK.nginx.reload()
        before = count_clients()
        own = {"password": "password of one"}
        self.assertEqual(DESK.send("auditor", "GET", "/api/offices", **own), (200, NORTH))
        several = DESK.send("auditor", "GET", "/several?/offices&/business-day", **own)
        self.assertEqual((several[0], json.loads(several[1][0]["text"])), (200, NORTH))
        self.assertEqual(DESK.send("auditor", *add_client("Looked"), **own), (403, {"front": "reader"}))
        for method in ("PUT", "DELETE", "PATCH", "OPTIONS", "PROPFIND"):
            refused = DESK.send("auditor", method, "/api/business-day", {"day": "2024-01-02"}, **own)
            self.assertEqual(refused, (403, {"front": "reader"}))
        # a find is a reading: it gets to the program, which has lists or hasn't
        status, told = DESK.send("auditor", "POST", "/api/lists/find", {"office": 2, "part": "a"}, **own)
        self.assertIn((status, told.get("fault")), [(200, None), (404, "F5")])
        self.assertEqual(count_clients(), before)
        browser = DESK.browser("auditor", password="password of one")
        desk_wait(lambda: "auditor" in browser.page_source)
        self.people("remove", "auditor")
        self.people("add", "zoe", "2/2", password=desk.PASSWORD.format("zoe"))
        DESK.nginx.reload()


class Demonstration(unittest.TestCase):
    def test_what_the_institution_has(self):
        """Each line is accepted, and there are loans of every status and in every class of arrears."""
        made = subprocess.run([os.path.join(running.FRONT, "demonstration")], stdout=subprocess.PIPE, check=True).stdout
        offices = [office for region in range(2, 5) for office in range(region * 10 + 1, region * 10 + 5)]
        asked = [f"1/1 GET /offices/{office}/loans/0" for office in offices] + ["1/1 GET /reports/arrears"]
        with tempfile.TemporaryDirectory() as room:
            path = os.path.join(room, "desk.db")
            entered = running.answer_lines(path, made).splitlines()
            told = running.answer_lines(path, "\n".join(asked).encode()).splitlines()
        shown = [json.loads(line[4:]) for line in told]
        self.assertEqual([line for line in entered if line[:1] != b"2"], [])
        statuses = [loan["status"] for office in shown[:-1] for loan in office["loans"]]
        self.assertEqual(len(statuses), 400)
        self.assertEqual(set(statuses), {100, 200, 300, 400, 500, 600, 601, 700})
        self.assertEqual(sum(b'{"staff"' in line for line in entered) + 1, 40)
        self.assertEqual(sum(b'{"office"' in line for line in entered), 15)
        self.assertNotIn("0.00", [shown[-1]["all"][name] for name in ("c1_30", "c31_60", "c61_90", "over_90")])
        days = [line.split(b'"')[3] for line in made.splitlines() if b"PUT /business-day" in line]
        self.assertEqual(days, sorted(set(days)))
        self.assertEqual((days[0], days[-1]), (b"2024-10-01", b"2026-09-30"))


def head_of(name, method, path, *more):
    fields = [f"{method} {path} HTTP/1.1", "Host: x", f"Authorization: Basic {desk.credentials(name)}", "X-Desk: 1"]
    return "\r\n".join([*fields, "Connection: close", *more, "", ""]).encode()


def read_all(client):
    found = b""
    with contextlib.suppress(ConnectionResetError):
        while more := client.recv(65536):
            found += more
    return found


def desk_wait(holds, seconds=10):
    """Waits until something holds, and gives it back."""
    end = time.monotonic() + seconds
    while not (found := holds()):
        if time.monotonic() > end:
            raise AssertionError("waited in vain")
        time.sleep(0.05)
    return found


if __name__ == "__main__":
    unittest.main()
