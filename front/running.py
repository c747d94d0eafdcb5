"""Starts and stops a front on loopback: nginx by the templates beside this file, over `microloan serve`.

`try` and the tests use it.
"""
import contextlib
import grp
import os
import pwd
import random
import shutil
import signal
import socket
import subprocess
import sys
import time

FRONT = os.path.dirname(os.path.abspath(__file__))
TOP = os.path.dirname(FRONT)
WORKERS = "www-data"  # whom nginx's workers run as, where root starts it
PATIENCE = 60  # seconds that something may take to start

# What is needed, and the package of Debian that has it.
NEEDED = {
    "nginx": "nginx",
    "/usr/lib/nginx/modules/ngx_http_js_module.so": "libnginx-mod-http-js",
    "htpasswd": "apache2-utils",
    "cracklib-check": "cracklib-runtime",
    "/usr/share/javascript/bootstrap5/css/bootstrap.min.css": "libjs-bootstrap5",
    "/usr/share/javascript/chart.js/chart.min.js": "libjs-chart.js",
    "/usr/share/nodejs/d3-dsv/dist/d3-dsv.min.js": "node-d3-dsv",
    "/usr/share/javascript/qrcode-generator/qrcode.js": "node-qrcode-generator",
}


class Failed(Exception):
    """Why something didn't start."""


def find(name):
    """The path of a program; nginx's folder isn't on the PATH of a plain user."""
    return shutil.which(name, path=os.environ.get("PATH", "") + ":/usr/sbin:/sbin")


def missing_packages(needed=None):
    """The packages that must be installed first."""
    needed = NEEDED if needed is None else needed
    return sorted(package for what, package in needed.items() if not (os.path.exists(what) or find(what)))


def program():
    """The program that MICROLOAN names, else the one of this checkout."""
    return os.environ.get("MICROLOAN") or os.path.join(TOP, "microloan")


def has_lists():
    """Whether the program has lists for the pages: an older one doesn't."""
    done = subprocess.run([program(), "serve", "--help"], stdout=subprocess.PIPE, check=False)
    return b"--lists" in done.stdout


def keeps_journal(path):
    """Whether the institution of a file keeps a journal."""
    done = subprocess.run([program(), "why", "--file", path], stdout=subprocess.PIPE, check=False)
    return b"with a journal" in done.stdout


def free_port():
    """A port below those that the kernel gives to connections: none of these takes it before it is listened on."""
    while True:
        port = random.randrange(10000, 32768)
        with socket.socket() as listener, contextlib.suppress(OSError):
            listener.bind(("127.0.0.1", port))
            return port


def is_open(port):
    with socket.socket() as client:
        client.settimeout(1)
        return client.connect_ex(("127.0.0.1", port)) == 0


def is_open_socket(path):
    with socket.socket(socket.AF_UNIX) as client:
        return client.connect_ex(path) == 0


def answer_lines(path, lines, *options):
    """Enters request lines into the institution of a file. The replies."""
    words = [program(), "batch", "--file", path, *options]
    done = subprocess.run(words, input=lines, stdout=subprocess.PIPE, umask=0o077, check=False)
    if done.returncode:
        raise Failed(f"{program()} batch ended with status {done.returncode}")
    return done.stdout


def is_readable_by_workers(path):
    words = ["setpriv", f"--reuid={WORKERS}", f"--regid={WORKERS}", "--clear-groups", "test", "-r", path]
    return subprocess.run(words, check=False).returncode == 0


class Serve:
    """`microloan serve` over a file. With `journal` the file has to keep one, which notes what the front tells."""

    def __init__(self, path, port, lists=None, journal=False):
        self.path = path
        self.port = port
        self.lists = has_lists() if lists is None else lists
        self.journal = journal
        self.process = None

    def start(self):
        words = [program(), "serve", "--existing", "--file", self.path, "--port", str(self.port)]
        words += ["--lists"] if self.lists else []
        words += ["--journal"] if self.journal else []
        self.process = start_beside(words, umask=0o077)
        wait_for(self.port, self.process, "microloan serve")

    def stop(self, how=signal.SIGTERM):
        if self.process:
            with contextlib.suppress(ProcessLookupError):
                self.process.send_signal(how)
            self.process.wait()
        self.process = None


def start_beside(words, umask=-1, output=None):
    """A process that ends with this one, in a session of its own, so that Ctrl-C reaches this one alone."""
    words = ["setpriv", "--pdeathsig", "TERM"] + words
    options = {"stdin": subprocess.DEVNULL, "stdout": output, "stderr": output}
    return subprocess.Popen(words, start_new_session=True, umask=umask, **options)


def wait_for(port, process, name):
    """Waits until a process listens."""
    end = time.monotonic() + PATIENCE
    while not is_open(port):
        if process.poll() is not None:
            raise Failed(f"{name} ended with status {process.returncode}")
        if time.monotonic() > end:
            raise Failed(f"{name} doesn't listen on port {port}")
        time.sleep(0.02)


class SignIn:
    """The sign-in by sessions, in a folder: the directory of people, the engine, and what changes passwords."""

    PARTS = ("directory", "engine", "passwords")

    def __init__(self, folder, idle=20, longest=600):
        self.folder = folder
        self.minutes = ["--idle", str(idle), "--longest", str(longest)]
        self.script = os.path.join(FRONT, "signin", "engine")
        self.processes = {}

    def lay_out(self):
        if os.geteuid() == 0 and not is_readable_by_workers(self.script):
            copy = shutil.copytree(os.path.dirname(self.script), os.path.join(self.folder + "-scripts"))
            self.script = os.path.join(copy, "engine")
        subprocess.run([self.script, "lay-out", self.folder, *self.minutes], check=True)

    def start(self):
        for name in self.PARTS:
            log = open(os.path.join(self.folder, f"{name}.log"), "ab")
            with log:
                self.processes[name] = start_beside([self.script, "run", name, self.folder], output=log)
        end = time.monotonic() + PATIENCE
        while not all(is_open_socket(os.path.join(self.folder, "socket", name)) for name in self.PARTS):
            ended = [name for name, process in self.processes.items() if process.poll() is not None]
            if ended or time.monotonic() > end:
                raise Failed(f"the sign-in doesn't start: {', '.join(ended) or 'no socket'}: see {self.folder}")
            time.sleep(0.05)

    def stop(self):
        """The engine would wait a minute for the connections that nginx keeps. All that it holds is in files."""
        for name, process in self.processes.items():
            with contextlib.suppress(ProcessLookupError):
                os.killpg(process.pid, signal.SIGKILL if name == "engine" else signal.SIGTERM)
            process.wait()
        self.processes = {}


class Nginx:
    """nginx over the port of a program, with its files in a folder that exists.

    People sign in by Basic, or by the sessions of a folder of the sign-in.
    """

    def __init__(self, folder, port, desk_port, pages=None, sessions=None):
        self.folder = folder
        self.port = port
        self.desk_port = desk_port
        self.source = pages or os.path.join(FRONT, "pages")
        self.pages = os.path.join(folder, "pages")
        self.sessions = sessions
        self.people = os.path.join(folder, "people")
        self.log = os.path.join(folder, "messages.log")
        self.strangers = os.path.join(folder, "strangers.log")
        self.errors = os.path.join(folder, "nginx-error.log")
        self.shut = os.path.join(folder, "shut")
        self.visits = os.path.join(folder, "visits")
        self.process = None

    def lay_out(self):
        """Makes the files. Where root starts nginx its workers are others, who must read pages and people."""
        is_root = os.geteuid() == 0
        os.chmod(self.folder, 0o711 if is_root else 0o700)
        os.makedirs(self.people, mode=0o750, exist_ok=True)
        if is_root:
            os.chown(self.people, 0, grp.getgrnam(WORKERS).gr_gid)
        os.makedirs(self.visits, mode=0o700, exist_ok=True)
        if is_root:
            workers = pwd.getpwnam(WORKERS)
            os.chown(self.visits, workers.pw_uid, workers.pw_gid)
        shutil.rmtree(self.pages, ignore_errors=True)
        subprocess.run([os.path.join(FRONT, "lay-pages"), "--pages", self.source, self.pages], check=True, umask=0o022)
        for name in ("passwords", "staff.map"):
            path = os.path.join(self.people, name)
            if not os.path.exists(path):
                os.close(os.open(path, os.O_CREAT | os.O_WRONLY, 0o640))
                os.chown(path, -1, os.stat(self.people).st_gid)
        for log in (self.log, self.strangers):
            os.close(os.open(log, os.O_CREAT | os.O_WRONLY, 0o600))
        self.fill("nginx.conf", {"FOLDER": self.folder, "USER": f"user {WORKERS};" if is_root else ""})
        for part in ("http", "server", "guard", "engine") if self.sessions else ("http", "server"):
            self.fill(f"signin/{self.kind}-{part}.conf", self.places())
        self.fill("site.conf", self.places())

    @property
    def kind(self):
        return "sessions" if self.sessions else "basic"

    def places(self):
        """What stands for the words of site.conf."""
        return {
            "ADDRESS": f"127.0.0.1:{self.port}",
            "DESK": f"127.0.0.1:{self.desk_port}",
            "SIGN_IN": os.path.join(self.folder, self.kind),
            "FOLDER": self.sessions or "",
            "PEOPLE": self.people,
            "OWN": os.path.join(self.folder, "own"),
            "SHUT": self.shut,
            "PAGES": self.pages,
            "REPLIES": os.path.join(FRONT, "replies.js"),
            "ACCOUNTS": os.path.join(FRONT, "accounts.js"),
            "KEEPER": os.path.join(FRONT, "visits.js"),
            "VISITS": self.visits,
            "LOG": self.log,
            "STRANGERS": self.strangers,
            "ERRORS": self.errors,
            "LIBRARIES": "/usr/share",
        }

    def fill(self, name, values):
        """Fills a template in, into the folder. The template's head, which explains the words, is left as it is."""
        with open(os.path.join(FRONT, name), encoding="utf-8") as file:
            lines = file.read().split("\n")
        for place, line in enumerate(lines):
            if not line.startswith("#"):
                for word, value in values.items():
                    line = line.replace(f"@{word}@", value)
                lines[place] = line
        with open(os.path.join(self.folder, os.path.basename(name)), "w", encoding="utf-8") as file:
            file.write("\n".join(lines))

    def add(self, name, staff, password, *more):
        """Lets a person sign in, from the next start on."""
        folder = ["--sign-in", self.sessions] if self.sessions else ["--folder", self.people]
        words = [os.path.join(FRONT, "people"), *folder, "add", name, staff, "--unasked", *more]
        done = subprocess.run(words, input=password + "\n", text=True, capture_output=True, check=False)
        if done.returncode:
            raise Failed(done.stderr.strip())

    def start(self):
        words = [find("nginx"), "-e", self.errors, "-p", self.folder, "-c", os.path.join(self.folder, "nginx.conf")]
        self.process = start_beside(words + ["-g", "daemon off;"])
        try:
            wait_for(self.port, self.process, "nginx")
        except Failed as why:
            with open(self.errors, encoding="utf-8") as file:
                raise Failed(f"{why}: {file.read().strip()}") from None

    def reload(self):
        """Has nginx read its settings again, and waits until workers have them."""
        before = self.workers()
        self.process.send_signal(signal.SIGHUP)
        end = time.monotonic() + PATIENCE
        while not self.workers() - before or self.workers() & before:
            if time.monotonic() > end:
                raise Failed("nginx doesn't reload")
            time.sleep(0.02)

    def workers(self):
        with open(f"/proc/{self.process.pid}/task/{self.process.pid}/children", encoding="ascii") as file:
            return set(file.read().split())

    def stop(self):
        if self.process:
            with contextlib.suppress(ProcessLookupError):
                self.process.terminate()
            self.process.wait()
        self.process = None
