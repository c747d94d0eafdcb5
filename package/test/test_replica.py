"""Tests of the package microloan-replica under a running systemd: one machine that is a group of its own, with etcd,
a replica and HAProxy. What three machines do is tried by scale/.

They need root and mmdebstrap. Where a machine lets no systemd run in namespaces, it says why and skips them.
"""
import glob
import json
import os
import shlex
import shutil
import subprocess
import tempfile
import time
import unittest

import roots

UNIT, FOLDER = "microloan-replica", "/var/lib/microloan-replica"
MACHINES = "--machines a=127.0.0.1"
ASK = """
import http.client, sys
port, method, path, body = sys.argv[1:]
connection = http.client.HTTPConnection("127.0.0.1", int(port), timeout=30)
try:
    connection.request(method, path, body or None, {"X-Staff": "1/1"})
    reply = connection.getresponse()
    print(reply.status, reply.read().decode())
except OSError:
    print(0, "null")
"""
MOST_EXPOSED = 2.0  # of ten, as systemd-analyze counts


@unittest.skipUnless(os.geteuid() == 0 and shutil.which("mmdebstrap"), "needs root and mmdebstrap")
class Replica(unittest.TestCase):
    @classmethod
    def setUpClass(cls):
        room = tempfile.mkdtemp()
        cls.addClassCleanup(shutil.rmtree, room)
        roots.built_package(room)
        cls.root = roots.Booted()
        cls.addClassCleanup(cls.root.end)
        if cls.root.fault:
            raise unittest.SkipTest(f"no systemd runs here: {cls.root.fault}")
        for package in glob.glob(os.path.join(room, "*.deb")):
            shutil.copy(package, os.path.join(cls.root.path, "root"))
        install = "apt-get -qq update && apt-get -qq install -y /root/*.deb etcd-server etcd-client haproxy 2>&1"
        cls.root.run(install, network=True)
        hook = "/etc/microloan/hooks/alert"
        cls.root.run(f"cat >{hook} && chmod 755 {hook} && touch /root/told", given=roots.ALERT_HOOK)
        cls.root.run("systemctl disable --now haproxy; true")
        cls.root.run(f"microloan-replica-setup --name a {MACHINES} && microloan-replica-setup --front {MACHINES}")
        cls.root.run(f"systemctl daemon-reload; systemctl restart etcd; systemctl start {UNIT} microloan-haproxy")

    def ask(self, port, method, path, members=None):
        """The status and the body of a message by the head manager."""
        body = "" if members is None else json.dumps(members)
        words = " ".join(map(shlex.quote, (str(port), method, path, body)))
        status, _, told = self.root.run(f"python3 - {words}", given=ASK).partition(" ")
        return int(status), json.loads(told) if told.startswith("{") else None

    def wait_until(self, holds, seconds=120):
        end = time.monotonic() + seconds
        while not holds():
            self.assertLess(time.monotonic(), end, self.root.run(f"journalctl --no-pager -n 30 -u {UNIT} -u etcd"))
            time.sleep(0.3)

    def is_writer(self):
        return self.ask(8281, "GET", "/health/writer")[0] == 200

    def shown(self, name):
        return self.root.run(f"systemctl show {UNIT} --property={name} --value").strip()

    def enter(self, name):
        """Enters a client by HAProxy, once it has found the writer. Its number."""
        told = []

        def is_entered():
            told.append(self.ask(8180, "POST", "/clients", {"office": 1, "name": name}))
            return told[-1][0] == 201

        self.wait_until(is_entered)
        return told[-1][1]["client"]

    def kept(self):
        return self.root.run(f"ls {FOLDER}").split()

    def setUp(self):
        self.root.run(f"systemctl reset-failed; systemctl start {UNIT}; truncate -s 0 /root/told")
        self.wait_until(self.is_writer)

    def test_it_answers_through_haproxy_and_tells_how_it_is(self):
        client = self.enter("Amina")
        self.assertEqual(self.ask(8180, "GET", f"/clients/{client}")[1]["name"], "Amina")
        told = self.ask(8281, "GET", "/health/reader")[1]
        self.assertEqual((told["name"], told["role"], told["lag"]), ("a", "writer", 0))
        self.assertEqual(self.shown("User"), "microloan")

    def test_a_stop_keeps_a_copy(self):
        """The desk is told to end by the replica, and not by systemd."""
        self.enter("Before the stop")
        number = self.ask(8281, "GET", "/health/reader")[1]["number"]
        self.root.run(f"systemctl stop {UNIT}")
        self.assertEqual(self.kept(), [f"kept-{number}", "lock"])
        self.assertEqual(self.shown("Result"), "success")
        said = self.root.run(f"microloan audit --file {FOLDER}/kept-{number}/desk.db")
        self.assertIn("sound", said)

    def test_killed_it_goes_on_with_all_that_was_answered(self):
        client = self.enter("Before the kill")
        self.root.run(f"systemctl kill --signal=KILL --kill-who=main {UNIT}")
        self.enter("After the kill")
        self.assertEqual(self.ask(8180, "GET", f"/clients/{client}")[1]["name"], "Before the kill")

    def test_etcd_that_ends_is_started_again(self):
        self.root.run("systemctl kill --signal=KILL --kill-who=main etcd")
        self.enter("After the node's end")

    def test_of_another_version_it_stays_down_and_the_institution_is_told(self):
        self.enter("Before the other version")
        number = self.ask(8281, "GET", "/health/reader")[1]["number"]
        etcdctl = "etcdctl --endpoints http://127.0.0.1:2379"
        before = self.root.run(f"{etcdctl} get --print-value-only microloan/program").strip()
        self.root.run(f"systemctl stop {UNIT}; {etcdctl} put microloan/program '{number} microloan 0.9'")
        self.root.run(f"systemctl start {UNIT}")
        self.wait_until(lambda: self.shown("ActiveState") == "failed")
        self.assertEqual(self.shown("ExecMainStatus"), "2")
        self.wait_until(lambda: UNIT in self.root.run("cat /root/told"))
        said = self.root.run(f"microloan-replica-upgrade --folder {FOLDER} --etcd 127.0.0.1:2379")
        self.assertIn(f"behind line {number} the log is answered by microloan 1.", said)
        self.assertIn("before by microloan 0.9", said)
        self.assertRegex(before, "^[0-9]+ microloan 1[.]")
        self.root.run(f"systemctl reset-failed {UNIT}; systemctl start {UNIT}")
        self.enter("After the upgrade")

    def test_with_a_journal_it_goes_on_from_its_own_file(self):
        self.root.run(f"systemctl stop {UNIT} etcd; rm -rf {FOLDER}/* /var/lib/etcd/microloan")
        self.root.run(f"microloan-replica-setup --again --journal --name a {MACHINES}")
        self.root.run(f"systemctl start etcd; systemctl start {UNIT}")
        self.enter("Before the kill")
        self.root.run(f"systemctl kill --signal=KILL --kill-who=main {UNIT}")
        self.enter("After the kill")
        self.root.run(f"systemctl stop {UNIT}")
        self.assertEqual(self.kept(), ["desk", "lock"])
        file = f"{FOLDER}/desk/desk.db"
        self.assertIn("a sound institution with a journal", self.root.run(f"microloan why --file {file}"))
        told = self.root.run(f"sqlite3 -readonly {file} 'select told from journal order by number'").split()
        self.assertEqual([word.partition("/")[2] for word in told], ["000000000001", "000000000002"])

    def test_a_backup_and_an_audit_end_it_and_start_it_again(self):
        self.enter("Before the backup")
        for unit, word in ((f"{UNIT}-backup", "/var/backups/microloan/desk-"), (f"{UNIT}-audit", "sound")):
            self.root.run(f"systemctl start {unit}")
            self.assertIn(word, self.root.run(f"journalctl --no-pager -u {unit}"))
            self.assertEqual(self.shown("ActiveState"), "active")
            self.wait_until(self.is_writer)
        made = self.root.run("ls /var/backups/microloan").split()
        self.assertEqual(len([name for name in made if name.endswith(".tar.age")]), 1, made)
        self.assertNotIn("backup", self.kept())
        self.enter("After the backup")

    def test_it_may_do_little(self):
        told = self.root.run(f"systemd-analyze security --no-pager {UNIT} | tail -n 1")
        self.assertLessEqual(float(told.split(":")[1].split()[0]), MOST_EXPOSED, told)


class Settings(unittest.TestCase):
    """What is refused before anything is written."""

    def test_words_that_name_no_machines(self):
        tool = os.path.join(roots.TOP, "package", "tools", "microloan-replica-setup")
        wrong = ["--machines a", "--machines a=1.2.3", "--machines a=10.0.0.1", "--name b --machines a=10.0.0.1"]
        wrong += ["--front --name a --machines a=10.0.0.1", "--name a --machines a=10.0.0.1,a=10.0.0.2"]
        for words in wrong:
            with self.subTest(words):
                done = subprocess.run([tool, *words.split()], capture_output=True, text=True, check=False)
                self.assertEqual((done.returncode, done.stdout), (2, ""), done.stderr)
