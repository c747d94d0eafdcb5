"""HTTP messages as request lines, for the programs beside this file, read and answered as `serve` does."""
import http.server
import json
import re
import select
import socket
import threading

LONGEST_LINE, LONGEST_BODY = 65536, 1048576
REMARK = "[!-~]{0,70}"  # what X-Told may say: with the number of the line it is one word of at most 100 bytes
SLOWEST = 10  # seconds that a client is waited for: whatever is in front sends whole messages
MALFORMED, GIVEN_UP = b'400 {"fault":"F1"}', b'503 {"fault":"F20"}'


def line_of(staff, method, target, body):
    """The request line of a message. JSON has line breaks only between its tokens; what is no JSON stays none."""
    try:
        json.loads(body.decode())
        breaks_become = b"  "
    except (ValueError, RecursionError):
        breaks_become = b"\x01\x01"
    body = body.translate(bytes.maketrans(b"\r\n", breaks_become))
    return b" ".join([staff, method, target] + ([body] if body else []))


class Sender:
    """Who sent a message. `seen` is the number of the log's line that it has seen the effect of, None where it doesn't
    say; `remark` what a journal is to note, None where that is malformed; `every` the number of a line for every desk,
    that scale/regions gave it, 0 where it asks for the last one, None where it is no such line."""

    def __init__(self, connection, fields):
        self.connection = connection
        seen, remarks = fields.get("Log-Number", ""), fields.get_all("X-Told", [""])
        self.seen = int(seen) if re.fullmatch("[0-9]{1,15}", seen) else None
        every = fields.get("Every-Line", "")
        self.every = int(every) if re.fullmatch("[0-9]{1,15}", every) else None
        is_well = len(remarks) == 1 and re.fullmatch(REMARK, remarks[0])
        self.remark = remarks[0].encode() if is_well else None

    def is_gone(self):
        """Whether it has closed the connection, and so waits for no reply: a front does, once it has told 504."""
        try:
            is_readable = select.poll()
            is_readable.register(self.connection, select.POLLIN)
            return bool(is_readable.poll(0)) and not self.connection.recv(1, socket.MSG_PEEK)
        except (OSError, ValueError):  # ValueError: the socket was closed here
            return True


class Handler(http.server.BaseHTTPRequestHandler):
    """A connection, which carries one message."""

    protocol_version = "HTTP/1.1"
    timeout = SLOWEST

    def message(self):
        """The line of the message; none where it is malformed, or longer than a line may be."""
        staff, lengths = self.headers.get_all("X-Staff", []), self.headers.get_all("Content-Length", ["0"])
        is_whole = self.request_version in ("HTTP/1.0", "HTTP/1.1") and "Transfer-Encoding" not in self.headers
        if not is_whole or len(staff) != 1 or not re.fullmatch("[!-~]+", staff[0]):
            return None
        if len(lengths) != 1 or not re.fullmatch("[0-9]{1,10}", lengths[0]) or int(lengths[0]) > LONGEST_BODY:
            return None
        body = self.rfile.read(int(lengths[0]))
        # the target as it was sent: `path` is one that the library may have changed
        words = [staff[0], self.command, self.requestline.split()[1]]
        line = line_of(*[word.encode("latin-1") for word in words], body)
        return line if len(body) == int(lengths[0]) and len(line) <= LONGEST_LINE else None

    def answer(self):
        told = self.server.health and self.server.health(self.path)
        if told:
            return self.tell(told)
        line, sender = self.message(), Sender(self.connection, self.headers)
        if not self.server.with_remarks:
            sender.remark = b""
        if not self.server.with_every:
            sender.every = None
        is_well = line is not None and sender.remark is not None
        told, more = self.server.answer(line, sender) if is_well else (MALFORMED, [])
        if told is not None:
            self.tell(told, more)

    def tell(self, told, more=()):
        """Sends a reply line as a response, with further fields. (The connection is closed after it, as after none.)"""
        self.send_response(int(told[:3]))
        fields = [("Content-Type", "application/json"), ("Content-Length", len(told) - 4), ("Connection", "close")]
        for name, value in [*fields, *more]:
            self.send_header(name, str(value))
        self.end_headers()
        if self.command != "HEAD":
            self.wfile.write(told[4:])

    def __getattr__(self, name):
        """Each method is answered by the program alone."""
        if name.startswith("do_"):
            return self.answer
        raise AttributeError(name)

    def send_error(self, code, message=None, explain=None):
        self.tell(MALFORMED)

    def log_message(self, *words):
        pass


class Server(http.server.ThreadingHTTPServer):
    request_queue_size = 1024
    daemon_threads = block_on_close = False  # a process that ends tells first what was answered

    def handle_error(self, request, address):
        """A client that went away is no fault of the server's."""


def serve(address, port, answer, health=None, with_remarks=False, with_every=False):
    """Listens on an address and a port. `answer` gives the reply to a line and its sender, or None for no response, and
    further fields of the response; many threads call it. Only `with_remarks` the message's field X-Told counts,
    and only `with_every` its field Every-Line.
    `health` gives the reply to a path that is no request of the program's, or None where it is one."""
    server = Server((address, port), Handler)
    server.answer, server.health, server.with_remarks, server.with_every = answer, health, with_remarks, with_every
    threading.Thread(target=server.serve_forever, args=(0.05,), daemon=True).start()
    return server
