"""Tests of TLS between machines: a desk in one network namespace, a branch in another. They need root.

What is written for a name, a certificate and a key is what microloan-setup writes; the branch runs the tools and curl.
"""
import contextlib
import os
import subprocess
import sys
import tempfile
import unittest

import desk
import running
from test_front import LINES

TOOLS = os.path.join(running.TOP, "package", "tools")
sys.path.append(TOOLS)
import front_tls

NAME, ADDRESSES = "desk.example.org", ("10.213.7.1", "10.213.7.2")
DESK, BRANCH = f"mldesk-{os.getpid()}", f"mlbranch-{os.getpid()}"
INSIDE = "import sys; sys.path.insert(0, sys.argv[1]); import test_branches; test_branches.serve(sys.argv[2])"


def run(*words, given=None, wanted=0):
    done = subprocess.run(words, input=given, capture_output=True, text=True, check=False)
    if wanted is not None and done.returncode != wanted:
        raise AssertionError(f"{words}: {done.returncode} {done.stdout} {done.stderr}")
    return done


def make_certificates(room):
    """A CA of the institution's own, and the desk's certificate by it; another one that ended long ago."""
    ca = ["-x509", "-newkey", "rsa:2048", "-nodes", "-subj", "/CN=The institution"]
    run("openssl", "req", *ca, "-keyout", f"{room}/ca.key", "-out", f"{room}/ca.pem", "-days", "2")
    run("openssl", "req", "-newkey", "rsa:2048", "-nodes", "-subj", f"/CN={NAME}", "-keyout", f"{room}/desk.key",
        "-out", f"{room}/desk.csr")
    with open(f"{room}/names", "w", encoding="ascii") as file:
        file.write(f"subjectAltName=DNS:{NAME}\n")
    signing = ["x509", "-req", "-in", f"{room}/desk.csr", "-CA", f"{room}/ca.pem", "-CAkey", f"{room}/ca.key"]
    signing += ["-CAcreateserial", "-extfile", f"{room}/names"]
    run("openssl", *signing, "-out", f"{room}/desk.pem", "-days", "2")
    run("openssl", *signing, "-out", f"{room}/old.pem", "-days", "0")
    os.chmod(f"{room}/desk.key", 0o600)


def serve(room):
    """The desk, in its namespace, until standard input ends. It prints the port of loopback."""
    with desk.Desk(lines=LINES, people={"tom": "2/3", "ruth": "2/1"}, sessions=True) as it:
        own = os.path.join(it.folder, "own")

        def is_taken():
            words = [running.find("nginx"), "-t", "-q", "-e", it.nginx.errors, "-c", f"{it.folder}/nginx.conf"]
            return subprocess.run(words, check=False).returncode == 0

        front_tls.write(NAME, f"{room}/desk.pem", f"{room}/desk.key", is_taken, own)
        it.nginx.reload()
        print(it.nginx.port, flush=True)
        sys.stdin.read()


@unittest.skipIf(os.geteuid() != 0, "network namespaces need root")
class Branches(unittest.TestCase):
    @classmethod
    def setUpClass(cls):
        cls.room = tempfile.mkdtemp(prefix="microloan-branches-")
        os.chmod(cls.room, 0o755)
        cls.addClassCleanup(run, "rm", "-r", cls.room)
        make_certificates(cls.room)
        front_tls.tell_tools(NAME, f"{cls.room}/ca.pem", f"{cls.room}/client")
        for name in (DESK, BRANCH):
            run("ip", "netns", "add", name)
            cls.addClassCleanup(run, "ip", "netns", "del", name)
        run("ip", "link", "add", "mlink", "netns", DESK, "type", "veth", "peer", "name", "mlink", "netns", BRANCH)
        for name, address in zip((DESK, BRANCH), ADDRESSES):
            run("ip", "-n", name, "address", "add", f"{address}/24", "dev", "mlink")
            for link in ("lo", "mlink"):
                run("ip", "-n", name, "link", "set", link, "up")
        hosts = f"/etc/netns/{BRANCH}/hosts"  # what `ip netns exec` shows as /etc/hosts
        os.makedirs(os.path.dirname(hosts))
        cls.addClassCleanup(run, "rm", "-r", os.path.dirname(hosts))
        with open(hosts, "w", encoding="ascii") as file:
            file.write(f"127.0.0.1 localhost\n{ADDRESSES[0]} {NAME}\n")
        words = ["ip", "netns", "exec", DESK, sys.executable, "-c", INSIDE, os.path.dirname(__file__), cls.room]
        cls.server = subprocess.Popen(words, stdin=subprocess.PIPE, stdout=subprocess.PIPE, text=True)
        cls.addClassCleanup(cls.end)
        cls.port = int(cls.server.stdout.readline())

    @classmethod
    def end(cls):
        cls.server.stdin.close()
        cls.server.wait()
        cls.server.stdout.close()

    def at_branch(self, *words, given=None, wanted=0):
        return run("ip", "netns", "exec", BRANCH, *words, given=given, wanted=wanted)

    def tool(self, name, *words, client=None, wanted=0, password=desk.PASSWORD.format("tom")):
        """Runs a tool at the branch as a user who may do nothing, with what the branch keeps of the front."""
        act = "import sys, runpy; sys.dont_write_bytecode = True; sys.path.insert(0, sys.argv[1]); import front_client; "
        act += "front_client.KEPT = sys.argv[2]; sys.argv = sys.argv[3:]; runpy.run_path(sys.argv[0], run_name='__main__')"
        as_nobody = ["setpriv", "--reuid=65534", "--regid=65534", "--clear-groups", sys.executable, "-c", act]
        words = [*as_nobody, TOOLS, client or f"{self.room}/client", os.path.join(TOOLS, name), "--user", "tom", *words]
        return self.at_branch(*words, given=password + "\n", wanted=wanted)

    def test_a_tool_finds_the_front_as_any_user(self):
        self.assertIn("all", self.tool("microloan-report").stdout)
        self.assertEqual(self.tool("microloan-day").stdout, "2024-01-01\n")
        sheet = os.path.join(self.room, "sheet.csv")
        with open(sheet, "w", encoding="ascii") as file:
            file.write("r-1,0002-000001,2024-01-01,1.00\n")
        self.assertIn("F4", self.tool("microloan-collect", sheet).stdout)

    def test_the_ca_can_be_named(self):
        address = ["--address", f"https://{NAME}"]
        told = self.tool("microloan-report", *address, client=self.room + "/none", wanted=1).stderr
        self.assertIn("its certificate", told)
        self.tool("microloan-report", *address, "--ca", f"{self.room}/ca.pem", client=self.room + "/none")

    def test_no_password_goes_without_tls(self):
        told = self.tool("microloan-report", "--address", f"http://{NAME}", wanted=1).stderr
        self.assertEqual(told, f"microloan-report: http://{NAME}: a password leaves this machine by https:// alone\n")
        closed = os.path.join(self.room, "closed")
        os.makedirs(closed, exist_ok=True)
        with open(os.open(f"{closed}/address", os.O_CREAT | os.O_WRONLY, 0o600), "w", encoding="ascii") as file:
            file.write(f"https://{NAME}\n")
        self.assertIn("Permission denied", self.tool("microloan-report", client=closed, wanted=1).stderr)

    def test_what_a_branch_sees(self):
        curl = ["curl", "-s", "--max-time", "10", "--cacert", f"{self.room}/ca.pem"]
        sent_on = self.at_branch(*curl, "-o", "/dev/null", "-w", "%{http_code} %{redirect_url}", f"http://{NAME}/x?y")
        self.assertEqual(sent_on.stdout, f"301 https://{NAME}/x?y")
        head = self.at_branch(*curl, "-D", "-", "-o", "/dev/null", f"https://{NAME}/sign-in.html").stdout
        self.assertIn("\nStrict-Transport-Security: max-age=31536000\n", head.replace("\r", ""))
        self.assertIn("\nContent-Security-Policy: default-src 'self'", head)
        form = f"user=tom&password={desk.PASSWORD.format('tom')}"
        signed = self.at_branch(*curl, "-D", "-", "-H", "X-Desk: 1", "-d", form, f"https://{NAME}/session").stdout
        self.assertRegex(signed, r"Set-Cookie: desk=[0-9a-f]{64}; Path=/; HttpOnly; SameSite=Strict; Secure\n")
        self.assertEqual(self.at_branch(*curl, f"http://{ADDRESSES[0]}:{self.port}/", wanted=None).returncode, 7)

    def test_only_todays_ciphers(self):
        client = ["openssl", "s_client", "-connect", f"{NAME}:443", "-CAfile", f"{self.room}/ca.pem", "-verify_return_error"]
        for words, wanted in (
            (["-tls1_3"], 0),
            (["-tls1_2"], 0),
            (["-tls1_1", "-cipher", "ALL:@SECLEVEL=0"], 1),
            (["-tls1_2", "-cipher", "AES128-SHA:@SECLEVEL=0"], 1),
            (["-tls1_2", "-cipher", "ECDHE-RSA-AES128-SHA:@SECLEVEL=0"], 1),
        ):
            with self.subTest(words):
                self.assertEqual(self.at_branch(*client, *words, given="", wanted=None).returncode, wanted)

    def test_what_is_not_taken(self):
        """What stands against a certificate is said, and the site stays as it was."""
        folder = os.path.join(self.room, "site")
        for name, certificate, key, told in (
            ("other.example.org", "desk.pem", "desk.key", "is not a certificate of other.example.org"),
            (NAME, "desk.pem", "ca.key", "desk.pem and "),
            (NAME, "old.pem", "desk.key", "no longer valid"),
            (NAME, "none.pem", "desk.key", "none.pem"),
        ):
            with self.subTest(told), self.assertRaisesRegex(front_tls.Failed, told):
                front_tls.write(name, f"{self.room}/{certificate}", f"{self.room}/{key}", lambda: True, folder)
        paths = f"{self.room}/desk.pem", f"{self.room}/desk.key"
        with self.assertRaisesRegex(front_tls.Failed, "nothing is changed"):
            front_tls.write(NAME, *paths, lambda: False, folder)
        self.assertEqual(os.listdir(folder), [])
        with contextlib.suppress(FileNotFoundError):
            os.chmod(f"{self.room}/desk.key", 0o604)
            with self.assertRaisesRegex(front_tls.Failed, "can be read by anyone"):
                front_tls.write(NAME, *paths, lambda: True, folder)
            os.chmod(f"{self.room}/desk.key", 0o600)


if __name__ == "__main__":
    unittest.main()
