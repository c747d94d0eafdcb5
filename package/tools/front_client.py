"""Requests to the front, as the person who asks: for the scripts beside this file."""
import argparse
import base64
import getpass
import http.client
import ipaddress
import json
import os
import re
import ssl
import sys
import time
import urllib.parse

ADDRESS = "http://127.0.0.1:8190"  # of a desk on this machine that has no name yet
KEPT = "/etc/microloan-client"  # `address`, and `ca.pem` where the institution has a CA of its own: for any user
PATIENCE = 120  # seconds that a reply may take
TRIES, PAUSE = 20, 1.0  # how often what may be sent again is sent, and the seconds in between
FORM = "application/x-www-form-urlencoded"
TOKEN = re.compile(r'name="token" value="([0-9a-f]+)"')
WHY = {
    "5": "the name or the password is wrong",
    "21": "too many wrong passwords: wait, or ask your manager to unlock you",
    "25": "choose a password of your own first, in a browser",
    "96": "the code is wrong",
}


class Failed(Exception):
    """Why something can't be done."""


def add_arguments(words):
    words.add_argument("--user", default=getpass.getuser(), help="who asks; else the name of the login")
    words.add_argument("--address", help=f"the front's address; else that in {KEPT}/address, or {ADDRESS}")
    words.add_argument("--ca", metavar="FILE", help=f"the CA that signed its certificate; else {KEPT}/ca.pem, or Debian's")


def plain_parser(name, text):
    return argparse.ArgumentParser(prog=name, description=text, formatter_class=argparse.RawDescriptionHelpFormatter)


def asked_for(what):
    """From the terminal, else a line of standard input."""
    if sys.stdin.isatty():
        return getpass.getpass(f"{what}: ")
    return sys.stdin.readline().rstrip("\r\n")


def kept(name):
    """What stands in a file of this machine's; None where it isn't there. One that can't be read is a fault."""
    try:
        with open(os.path.join(KEPT, name), encoding="utf-8") as file:
            return file.read().strip()
    except FileNotFoundError:
        return None
    except OSError as fault:
        raise Failed(f"{fault.filename}: {fault.strerror}") from None


def is_this_machine(host):
    try:
        return ipaddress.ip_address(host).is_loopback
    except ValueError:
        return host == "localhost"


def address_of(asked):
    address = urllib.parse.urlsplit(asked.address or kept("address") or ADDRESS)
    if address.scheme not in ("http", "https") or not address.hostname:
        raise Failed(f"{address.geturl()} is no address: https://..")
    if address.scheme == "http" and not is_this_machine(address.hostname):
        raise Failed(f"{address.geturl()}: a password leaves this machine by https:// alone")
    return address


def context_of(asked):
    path = asked.ca or (os.path.join(KEPT, "ca.pem") if kept("ca.pem") else None)
    try:
        return ssl.create_default_context(cafile=path)
    except OSError as fault:
        raise Failed(f"{path}: {fault.strerror or fault}") from None


class Front:
    """The front at an address, for one person."""

    def __init__(self, asked):
        self.address = address_of(asked)
        self.context = context_of(asked) if self.address.scheme == "https" else None
        self.connection = None
        self.fields = {"X-Desk": "1"}
        self.sign_in(asked.user)
        _, body = self.ask("GET", "/me")
        if not body.get("staff"):
            raise Failed(f"{asked.user} is signed in, but named to the program as nobody")

    def sign_in(self, user):
        """By a session, or where the front knows none by a password that goes with each message."""
        password = asked_for(f"Password of {user}")
        fields, _ = self.first_answer("GET", "/me")
        if "WWW-Authenticate" in fields:
            word = base64.b64encode(f"{user}:{password}".encode()).decode()
            self.fields["Authorization"] = "Basic " + word
            return
        fields, body = self.first_answer("POST", "/session", {"user": user, "password": password})
        if token := TOKEN.search(body):
            members = {"user": user, "token": token[1], "code": asked_for(f"Code of {user}")}
            fields, body = self.first_answer("POST", "/session/code", members)
        cookie = (fields["Set-Cookie"] or "").split(";")[0]
        if not re.fullmatch(r"desk=[0-9a-f]{32,}", cookie):
            raise Failed(why_of(body))
        self.fields["Cookie"] = cookie

    def first_answer(self, method, path, form=None):
        """The fields and the body of a reply before the person is signed in. It is sent once."""
        data = None if form is None else urllib.parse.urlencode(form).encode()
        try:
            reply = self.exchange(method, path, data, {"Content-Type": FORM})
            return reply.headers, reply.read().decode(errors="replace")
        except ssl.SSLCertVerificationError as fault:
            raise Failed(f"{self.address.geturl()}: its certificate: {fault.verify_message} (--ca names the CA)") from None
        except (OSError, http.client.HTTPException) as fault:
            raise Failed(f"no reply from {self.address.geturl()}: {fault or type(fault).__name__}") from None

    def exchange(self, method, path, data, more=None):
        """A reply; whatever stands against it is an OSError or an HTTPException."""
        if self.connection is None:
            options = {"timeout": PATIENCE} | ({"context": self.context} if self.context else {})
            kind = http.client.HTTPSConnection if self.context else http.client.HTTPConnection
            self.connection = kind(self.address.hostname, self.address.port, **options)
        self.connection.request(method, path, data, self.fields | (more or {}))
        return self.connection.getresponse()

    def ask(self, method, path, members=None, again=True):
        """The status and the members of the program's reply. `again`: it may be sent again where no reply comes."""
        data = None if members is None else json.dumps(members).encode()
        for left in range(TRIES if again else 1, 0, -1):
            try:
                reply = self.exchange(method, path, data)
                status, read = reply.status, self.read(reply.status, reply.read())
            except (OSError, http.client.HTTPException, ValueError) as fault:
                why, self.connection = str(fault) or type(fault).__name__, None
            else:
                if read.get("front") not in ("down", "busy", "many", "slow"):
                    return self.passed(status, read)
                why = "the program doesn't answer"
            if left > 1:
                time.sleep(PAUSE)
        raise Failed(f"no reply from {self.address.geturl()}: {why}")

    @staticmethod
    def read(status, body):
        """The members of a reply. What nginx itself says to a wrong password is a page."""
        return {"front": "password"} if status == 401 and not body.startswith(b"{") else json.loads(body)

    @staticmethod
    def passed(status, read):
        if read.get("front") == "password":
            raise Failed("the name or the password is wrong")
        if "front" in read:
            raise Failed(f"the front refuses: {read['front']}")
        return status, read


def why_of(body):
    """Why a sign-in was refused."""
    try:
        read = json.loads(body)
    except ValueError:
        return "the sign-in is not understood"
    if "front" in read:
        return f"the front refuses: {read['front']}"
    return WHY.get(str(read.get("error")), f"the sign-in is refused: {read.get('error')}")


def run(name, act):
    """Runs a script's act, and ends with its status and a line where it fails."""
    try:
        sys.exit(act())
    except Failed as why:
        sys.exit(f"{name}: {why}")
    except KeyboardInterrupt:
        sys.exit(130)
    except BrokenPipeError:
        os.dup2(os.open(os.devnull, os.O_WRONLY), 1)
        sys.exit(f"{name}: write")
