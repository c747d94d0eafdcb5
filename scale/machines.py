"""Three machines as network namespaces with the addresses of docs/replicas.md, for the trials beside this file.

Machines a, b and c have 10.0.0.1 to 10.0.0.3; the front, in which a trial runs, has 10.0.0.9. A bridge of the front
joins them. Each machine has a folder, a node of etcd and a replica, which is started again when it ends, as by systemd.
It takes root, and etcd-server and iproute2 of Debian.
"""
import contextlib
import importlib.machinery
import importlib.util
import os
import signal
import subprocess
import sys
import threading
import time

from etcd import Access

HERE = os.path.dirname(os.path.abspath(__file__))
NAMES = {"a": "10.0.0.1", "b": "10.0.0.2", "c": "10.0.0.3"}
FRONT = "10.0.0.9"
SLOWER = int(os.environ.get("SLOWER", "1"))  # deadlines of trials are so many times as long: on a busy machine
MORE = {"d": "10.0.0.4", "e": "10.0.0.5"}  # machines that have something else
ETCD = ",".join(f"{address}:2379" for address in NAMES.values())


def module(name):
    """A script beside this file."""
    loader = importlib.machinery.SourceFileLoader(name, os.path.join(HERE, name))
    made = importlib.util.module_from_spec(importlib.util.spec_from_loader(name, loader))
    loader.exec_module(made)
    return made


def ip(*words):
    subprocess.run(["ip", *words], check=True)


def run_inside(script, names=NAMES):
    """Makes the namespaces and runs a script once more, in that of the front. Its status."""
    before = f"loan{os.getpid()}"
    spaces = {name: f"{before}-{name}" for name in ["front", *names]}
    signal.signal(signal.SIGTERM, lambda *_: sys.exit("told to end"))
    try:
        for space in spaces.values():
            ip("netns", "add", space)
            ip("-n", space, "link", "set", "lo", "up")
        front = spaces["front"]
        ip("-n", front, "link", "add", "bridge", "type", "bridge")
        ip("-n", front, "address", "add", f"{FRONT}/24", "dev", "bridge")
        ip("-n", front, "link", "set", "bridge", "up")
        for name, address in names.items():
            ip("-n", front, "link", "add", f"to-{name}", "type", "veth", "peer", "name", "eth", "netns", spaces[name])
            ip("-n", front, "link", "set", f"to-{name}", "master", "bridge", "up")
            ip("-n", spaces[name], "address", "add", f"{address}/24", "dev", "eth")
            ip("-n", spaces[name], "link", "set", "eth", "up")
        words = ["ip", "netns", "exec", front, sys.executable, script, *sys.argv[1:]]
        inside = subprocess.Popen(words, env=os.environ | {"LOAN_MACHINES": before})
        try:
            return inside.wait()
        finally:
            if inside.poll() is None:
                inside.terminate()
                inside.wait()
    finally:
        for space in spaces.values():
            subprocess.run(["ip", "netns", "delete", space], check=False)


class Machine:
    """A node of etcd and a replica, each with a folder, in a namespace."""

    def __init__(self, name, folder, *more):
        self.name, self.address, self.folder = name, (NAMES | MORE)[name], folder
        self.space = f"{os.environ['LOAN_MACHINES']}-{name}"
        self.more, self.etcd, self.replica, self.is_watched = more, None, None, True
        self.log = open(os.path.join(folder, "log"), "ab")

    def start(self, *words, output=None):
        words = ["setpriv", "--pdeathsig", "KILL", "ip", "netns", "exec", self.space, *words]
        output = output or self.log
        return subprocess.Popen(words, stdin=subprocess.DEVNULL, stdout=output, stderr=output)

    def etcd_words(self, state="new"):
        at = f"http://{self.address}"
        words = ["etcd", "--name", self.name, "--data-dir", os.path.join(self.folder, "etcd"), "--pre-vote"]
        words += ["--log-level", "error", "--advertise-client-urls", f"{at}:2379"]
        words += ["--listen-client-urls", f"{at}:2379,http://127.0.0.1:2379"]
        words += ["--listen-peer-urls", f"{at}:2380", "--initial-advertise-peer-urls", f"{at}:2380"]
        members = ",".join(f"{name}=http://{address}:2380" for name, address in NAMES.items())
        return [*words, "--initial-cluster", members, "--initial-cluster-state", state]

    def replica_words(self):
        nodes = [f"{self.address}:2379"] + [node for node in ETCD.split(",") if not node.startswith(self.address)]
        words = [os.path.join(HERE, "replica"), "--name", self.name, "--folder", os.path.join(self.folder, "replica")]
        words += ["--port", "8181", "--readings", "8281", "--listen", self.address, "--etcd", ",".join(nodes)]
        return [*words, *self.more]

    def start_etcd(self, state="new"):
        self.etcd = self.start(*self.etcd_words(state))

    def start_replica(self):
        self.is_watched = True
        self.replica = self.start(*self.replica_words())
        threading.Thread(target=self.watch, daemon=True).start()

    def watch(self):
        """Starts the replica again half a second after it ended, but where a person has to look first. (The thread
        stays, since a process of `start` ends with the thread that began it.)"""
        while self.replica.wait() != 2 and self.is_watched:
            time.sleep(0.5)
            if self.is_watched:
                self.replica = self.start(*self.replica_words())

    def desk(self):
        """The process of the replica's desk."""
        with open(f"/proc/{self.replica.pid}/task/{self.replica.pid}/children", encoding="ascii") as file:
            return int(file.read().split()[0])

    def link(self, state):
        ip("link", "set", f"to-{self.name}", state)

    def halt(self, *processes, how=signal.SIGSTOP):
        for process in processes:
            with contextlib.suppress(ProcessLookupError):
                os.kill(process, how)

    def stop_replica(self):
        """Ends the replica in order. Its status."""
        self.is_watched = False
        self.replica.send_signal(signal.SIGTERM)
        return self.replica.wait(60)

    def stop(self):
        self.is_watched = False
        for process in (self.replica, self.etcd):
            if process and process.poll() is None:
                process.kill()
                process.wait()


def access():
    return Access(ETCD.split(","))
