"""Fresh roots of Debian for the tests of the package: with processes of their own, or with systemd in charge."""
import json
import os
import shlex
import shutil
import subprocess
import tempfile
import time
import unittest

HERE = os.path.dirname(os.path.abspath(__file__))
TOP = os.path.dirname(os.path.dirname(HERE))

PASSWORD = "the head's password"
FILE = "/var/lib/microloan/desk.db"
BACKUPS = "/var/backups/microloan"
ALERT_HOOK = """#!/bin/sh
printf '%s\\n' "$1" >>/root/told
cat >>/root/told-more
"""
PATIENCE = 300  # seconds that a command in the root may take
ASK = """
import base64, http.client, sys
user, password, method, path, body = sys.argv[1:]
front = http.client.HTTPConnection("127.0.0.1", 8190, timeout=30)
fields = {"Authorization": "Basic " + base64.b64encode(f"{user}:{password}".encode()).decode(), "X-Desk": "1"}
front.request(method, path, body or None, fields)
reply = front.getresponse()
print(reply.status, reply.read().decode())
"""


def built_package(folder):
    """Builds the package into a folder, and has lintian look at it. Its path."""
    words = [os.path.join(TOP, "package", "build"), "--out", folder, "--lint"]
    program = os.environ.get("MICROLOAN")
    if program:
        words += ["--program", program]
    done = subprocess.run(words, capture_output=True, text=True, check=False)
    if done.returncode:
        raise AssertionError(f"package/build --lint: status {done.returncode}\n{done.stdout}{done.stderr}")
    return done.stdout.splitlines()[-1]


def ask(root, user, password, method, path, members=None):
    """The status and the body that a person gets from the front of a root."""
    body = "" if members is None else json.dumps(members)
    words = " ".join(map(shlex.quote, (user, password, method, path, body)))
    status, _, text = root.run(f"python3 - {words}", given=ASK).partition(" ")
    return int(status), json.loads(text)


def made_root(*packages):
    """The path of a new root of Debian with these packages and those that all systems have."""
    path = tempfile.mkdtemp(prefix="microloan-root-", dir="/var/tmp")
    words = ["mmdebstrap", "--quiet", "--variant=minbase", f"--include={','.join(packages)}", "bookworm", path]
    subprocess.run(words, check=True, stdin=subprocess.DEVNULL)
    for name in ("resolv.conf", "hosts"):
        shutil.copy(f"/etc/{name}", os.path.join(path, "etc", name))
    return path


def child_of(process):
    """The process that another one has begun, as the number by which it is seen from outside."""
    with open(f"/proc/{process.pid}/task/{process.pid}/children", encoding="ascii") as file:
        return file.read().split()[0]


class Root:
    """A fresh root of Debian, with processes and a loopback network of its own. All of it ends with this process."""

    def __init__(self):
        self.holder = None
        self.path = made_root("ca-certificates", "systemd", "logrotate")
        with open(os.path.join(self.path, "usr/sbin/policy-rc.d"), "w", encoding="ascii") as file:
            file.write("#!/bin/sh\nexit 101\n")
        os.chmod(file.name, 0o755)
        words = ["unshare", "--fork", "--pid", "--mount", "--net", f"--mount-proc={self.path}/proc", "--kill-child"]
        hold = "mount -t tmpfs none /dev/shm; ip link set lo up; echo ready; exec sleep 1800"
        self.holder = subprocess.Popen(words + ["sh", "-c", hold], stdout=subprocess.PIPE, text=True)
        if self.holder.stdout.readline() != "ready\n":
            raise AssertionError("no namespace")
        self.inside = child_of(self.holder)

    def run(self, command, given="", network=False, wanted=0):
        """Runs a shell's command in the root. What it prints, on both streams."""
        words = [*self.entered(network), "env", "-i"]
        words += ["PATH=/usr/sbin:/usr/bin:/sbin:/bin", "HOME=/root", "LC_ALL=C.UTF-8"]
        words += ["DEBIAN_FRONTEND=noninteractive"]
        done = subprocess.run(
            [*words, "sh", "-c", command],
            input=given,
            stdout=subprocess.PIPE,
            stderr=subprocess.STDOUT,
            text=True,
            timeout=PATIENCE,
            check=False,
        )
        if done.returncode != wanted:
            raise AssertionError(f"{command}: status {done.returncode}\n{done.stdout}")
        return done.stdout

    def entered(self, network):
        """The command by which another one runs in the root, with the network of the machine or its own."""
        spaces = ["--mount", "--pid"] + ([] if network else ["--net"])
        return ["nsenter", f"--target={self.inside}", *spaces, "chroot", self.path]

    def start(self, command):
        """Starts something that stays, as the unit would."""
        self.run(f"{command} </dev/null >/tmp/started.log 2>&1 & echo started")

    def end(self):
        if self.holder:
            self.holder.kill()  # SIGTERM is ignored by unshare; its child is killed with it
            self.holder.communicate()
        shutil.rmtree(self.path, ignore_errors=True)


class Booted(Root):
    """A fresh root of Debian in which systemd runs, over control groups of its own. All of it ends with this process.

    `fault` says why systemd doesn't run, where it doesn't: a machine must let namespaces and control groups be made.
    The machine's own settings, in /proc/sys and /sys, can only be read there.
    """

    BOOT = """
        set -e
        mount --make-rprivate /
        mount --bind "$1" "$1"
        cd "$1"
        mount -t proc proc proc
        mount --bind proc/sys proc/sys
        mount -o remount,bind,ro proc/sys
        mount -t sysfs -o ro sysfs sys
        mount -t cgroup2 cgroup2 sys/fs/cgroup
        mount -t tmpfs -o mode=755 tmpfs run
        mount -t tmpfs tmpfs tmp
        mount -t tmpfs -o mode=755 tmpfs dev
        for name in null zero full random urandom tty; do touch dev/$name; mount --bind /dev/$name dev/$name; done
        mkdir dev/pts dev/shm
        mount -t devpts -o newinstance,ptmxmode=0666 devpts dev/pts
        ln -s pts/ptmx dev/ptmx
        ln -s /proc/self/fd dev/fd
        mount -t tmpfs tmpfs dev/shm
        ip link set lo up
        mkdir -p run/before
        pivot_root . run/before
        exec >/dev/null 2>&1
        exec chroot . /bin/sh -c 'umount -l /run/before; exec env -i container=other /lib/systemd/systemd'
    """

    def __init__(self):
        self.holder, self.fault = None, None
        self.path = made_root("ca-certificates", "systemd-sysv", "dbus", "logrotate", "iproute2", "procps")
        self.group = self.new_group()
        words = ["unshare", "--fork", "--pid", "--mount", "--net", "--uts", "--ipc", "--cgroup", "--kill-child"]
        command = f"echo $$ >{self.group}/cgroup.procs; exec \"$@\""
        self.holder = subprocess.Popen(
            ["sh", "-c", command, "sh", *words, "sh", "-c", self.BOOT, "boot", self.path],
            stdin=subprocess.DEVNULL,
            stderr=subprocess.PIPE,
            text=True,
        )
        self.fault = self.wait_for_systemd()

    def new_group(self):
        """A control group for all of it, in the hierarchy of the second version."""
        with open("/proc/mounts", encoding="utf-8") as file:
            mounts = [line.split() for line in file]
        top = next((mount[1] for mount in mounts if mount[2] == "cgroup2"), None)
        if top is None:
            top = tempfile.mkdtemp(prefix="microloan-groups-")
            subprocess.run(["mount", "-t", "cgroup2", "cgroup2", top], check=True)
        return tempfile.mkdtemp(prefix="microloan-", dir=top)

    def wait_for_systemd(self):
        """Waits until systemd has started what it starts. Why it hasn't, or nothing."""
        end = time.monotonic() + 60
        while time.monotonic() < end:
            if self.holder.poll() is not None:
                return self.holder.stderr.read().strip() or f"status {self.holder.returncode}"
            try:
                self.inside = child_of(self.holder)
                self.state = self.run("systemctl is-system-running; true").strip()
                if self.state in ("running", "degraded"):
                    return None
            except (AssertionError, IndexError, FileNotFoundError):
                self.state = "not entered"
            time.sleep(0.2)
        return f"it doesn't come up: {self.state}"

    def entered(self, network):
        spaces = ["--mount", "--pid", "--uts", "--ipc", "--cgroup"] + ([] if network else ["--net"])
        return ["nsenter", f"--target={self.inside}", *spaces, "--root", "--wd"]

    def end(self):
        super().end()
        for folder, _, _ in os.walk(self.group, topdown=False):
            os.rmdir(folder)


@unittest.skipUnless(os.geteuid() == 0 and shutil.which("mmdebstrap"), "needs root and mmdebstrap")
class ServedDesk(unittest.TestCase):
    """A desk that was installed and set up under a running systemd, in a root that its tests share."""

    packages = ("curl",)

    @classmethod
    def setUpClass(cls):
        room = tempfile.mkdtemp()
        cls.addClassCleanup(shutil.rmtree, room)
        cls.package = built_package(room)
        cls.root = Booted()
        cls.addClassCleanup(cls.root.end)
        if cls.root.fault:
            raise unittest.SkipTest(f"no systemd runs here: {cls.root.fault}")
        shutil.copy(cls.package, os.path.join(cls.root.path, "root/microloan.deb"))
        names = " ".join(cls.packages)
        install = f"apt-get -qq update && apt-get -qq install -y /root/microloan.deb {names} 2>&1"
        cls.root.run(install, network=True)
        hook = "/etc/microloan/hooks/alert"
        cls.root.run(f"cat >{hook} && chmod 755 {hook} && touch /root/told", given=ALERT_HOOK)
        cls.said = cls.root.run("microloan-setup --user amina --day 2026-11-26", given=PASSWORD + "\n")
        if "the desk answers at http://127.0.0.1:8190" not in cls.said:
            raise AssertionError(cls.said)

    def setUp(self):
        """So many starts as the tests need would end at the start limit."""
        self.root.run("systemctl reset-failed; systemctl start microloan; truncate -s 0 /root/told")

    def shown(self, *names, unit="microloan.service"):
        """What systemd shows of a unit, by name."""
        words = f"systemctl show {unit} --property=" + ",".join(names)
        return dict(line.split("=", 1) for line in self.root.run(words).splitlines())

    def ask(self, method, path, members=None):
        return ask(self.root, "amina", PASSWORD, method, path, members)

    def enter(self, name):
        status, reply = self.ask("POST", "/api/clients", {"office": 1, "name": name})
        self.assertEqual(status, 201)
        return reply["client"]

    def name_of(self, client):
        return self.ask("GET", f"/api/clients/{client}")[1].get("name")

    def told(self):
        """What the institution's hook was told."""
        return self.root.run("cat /root/told")

    def wait_until(self, holds, seconds=60):
        end = time.monotonic() + seconds
        while not holds():
            self.assertLess(time.monotonic(), end)
            time.sleep(0.1)
