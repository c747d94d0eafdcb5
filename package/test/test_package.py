"""Tests of the package: built, looked at by lintian, and installed in a fresh root of Debian, which needs root."""
import json
import os
import re
import shlex
import shutil
import subprocess
import tempfile
import time
import unittest

import roots

PASSWORD = "the head's password"
RUNTIME = "/run/microloan"


def setUpModule():
    global PACKAGE
    room = tempfile.mkdtemp()
    unittest.addModuleCleanup(shutil.rmtree, room)
    PACKAGE = roots.built_package(room)


class Built(unittest.TestCase):
    """The module's beginning has built it, and lintian found no error and no warning."""

    def test_what_it_holds(self):
        listed = subprocess.run(["dpkg", "-c", PACKAGE], stdout=subprocess.PIPE, text=True, check=True).stdout
        modes = {line.split()[-1]: line.split()[0] for line in listed.splitlines()}
        for path in ("usr/bin/microloan", "usr/bin/microloan-collect", "usr/sbin/microloan-setup"):
            self.assertEqual(modes["./" + path], "-rwxr-xr-x")
        for path in ("lib/systemd/system/microloan.service", "etc/nginx/sites-available/microloan"):
            self.assertEqual(modes["./" + path], "-rw-r--r--")
        for path in ("usr/share/microloan/pages/index.html", "usr/share/man/man1/microloan.1.gz"):
            self.assertIn("./" + path, modes)
        for name in ("handbook", "operator", "recovery"):
            self.assertIn(f"./usr/share/doc/microloan/{name}.md", modes)
        self.assertEqual([path for path in modes if "pycache" in path], [])

    def test_what_the_documents_link_is_there(self):
        room = tempfile.mkdtemp()
        self.addCleanup(shutil.rmtree, room)
        subprocess.run(["dpkg", "-x", PACKAGE, room], check=True)
        documents = os.path.join(room, "usr/share/doc/microloan")
        version = re.search(r"_([0-9.]+)_", os.path.basename(PACKAGE))[1]
        for name in filter(lambda it: it.endswith(".md"), os.listdir(documents)):
            with open(os.path.join(documents, name), encoding="utf-8") as file:
                text = file.read()
            for link in re.findall(r"\]\((?!https?:)([^)#]+)", text):
                self.assertTrue(os.path.exists(os.path.join(documents, link)), f"{name}: {link}")
            self.assertLessEqual(set(re.findall(r"microloan_([0-9.]+)_amd64", text)), {version}, name)
        help_of = [os.path.join(room, "usr/share/microloan/audit", name) for name in ("compare", "lines")]
        for path in help_of:
            subprocess.run([path, "--help"], stdout=subprocess.DEVNULL, check=True)

    def test_its_checksum_is_signed(self):
        room = tempfile.mkdtemp()
        self.addCleanup(shutil.rmtree, room)
        key, public = os.path.join(room, "key"), os.path.join(room, "key.pub")
        subprocess.run(["minisign", "-G", "-W", "-s", key, "-p", public], stdout=subprocess.DEVNULL, check=True)
        words = [os.path.join(roots.TOP, "package", "build"), "--out", room, "--sign", key]
        built = subprocess.run(words, stdout=subprocess.PIPE, stderr=subprocess.DEVNULL, text=True, check=True)
        package = built.stdout.strip()
        subprocess.run(["minisign", "-V", "-q", "-p", public, "-m", package + ".sha256"], check=True)
        name = os.path.basename(package)
        subprocess.run(["sha256sum", "--check", "--quiet", name + ".sha256"], cwd=room, check=True)

    def test_the_site_is_filled_in(self):
        words = f"dpkg --fsys-tarfile {shlex.quote(PACKAGE)} | tar xO ./etc/nginx/sites-available/microloan"
        site = subprocess.run(words, shell=True, stdout=subprocess.PIPE, text=True, check=True).stdout
        self.assertEqual(re.findall(r"@[A-Z_]+@", site), [])
        self.assertIn("server unix:/run/microloan-port/desk.sock ", site)


@unittest.skipUnless(os.geteuid() == 0 and shutil.which("mmdebstrap"), "needs root and mmdebstrap")
class Installed(unittest.TestCase):
    @classmethod
    def setUpClass(cls):
        cls.root = roots.Root()
        cls.addClassCleanup(cls.root.end)
        shutil.copy(PACKAGE, os.path.join(cls.root.path, "root/microloan.deb"))

    def install(self):
        return self.root.run("apt-get -qq update && apt-get -qq install -y /root/microloan.deb 2>&1", network=True)

    def ask(self, user, password, method, path, members=None):
        return roots.ask(self.root, user, password, method, path, members)

    def start(self):
        """Starts the program as the unit has it, waits as the unit does, and starts nginx."""
        unit = self.root.run("cat /lib/systemd/system/microloan.service")
        settings = dict(line.split("=", 1) for line in unit.splitlines() if re.match("[A-Z]", line))
        user, mask = settings["User"], settings["UMask"]
        as_user = f"umask {mask}; exec setpriv --reuid={user} --regid={user} --clear-groups"
        self.root.run(f"install -d -m 700 -o {user} {RUNTIME}")
        self.root.start(f"sh -c '{as_user} env RUNTIME_DIRECTORY={RUNTIME} {settings['ExecStart']}'")
        port = self.root.run("cat /lib/systemd/system/microloan-port.socket")
        address = re.search("ListenStream=(.*)", port)[1]
        passed_on = "/lib/systemd/systemd-socket-proxyd 127.0.0.1:8180"
        self.root.run(f"install -d {os.path.dirname(address)}; rm -f {address}")
        self.root.start(f"systemd-socket-activate --listen={address} {passed_on}")
        self.root.run(f"while ! chmod 660 {address}; do sleep 0.1; done; chgrp www-data {address}")
        # port 8180, listening
        self.wait_until(lambda: ":1FF4 00000000:0000 0A" in self.root.run("cat /proc/net/tcp"))
        self.root.run("nginx")

    def stop(self):
        self.root.run(
            "kill $(cat /run/nginx.pid); kill $(pidof systemd-socket-proxyd systemd-socket-activate);"
            "kill $(pidof microloan); while pidof microloan; do sleep 0.1; done"
        )

    def modes(self, *paths):
        shown = self.root.run("stat -c '%n %a %U:%G' " + " ".join(paths))
        return {line.split()[0]: " ".join(line.split()[1:]) for line in shown.splitlines()}

    def test_from_nothing_to_restored(self):
        self.first_day()
        backup = self.back_up()
        self.purge(backup)
        self.restore(backup)
        self.remove_and_install()

    def first_day(self):
        said = self.install()
        self.assertIn("microloan: now run microloan-setup, as root", said)
        self.assertEqual(self.root.run("pidof microloan nginx", wanted=1), "")
        units = "$(ls -d /lib/systemd/system/microloan*.* | grep -v @)"
        self.assertEqual(self.root.run(f"systemd-analyze verify --man=no {units}"), "")
        said = self.root.run("microloan-setup --user amina --day 2026-11-26", given=PASSWORD + "\n")
        self.assertIn("its business day is 2026-11-26", said)
        self.assertIn("amina signs in as 1/1", said)
        wanted = {
            "/var/lib/microloan": "700 microloan:microloan",
            "/var/lib/microloan/desk.db": "600 microloan:microloan",
            "/var/lib/microloan-visits": "700 www-data:www-data",
            "/var/backups/microloan": "700 root:root",
            "/etc/microloan/keys": "700 root:root",
            "/etc/microloan/keys/sign.key": "600 root:root",
            "/etc/microloan/keys/machine.key": "600 root:root",
            "/etc/microloan": "750 root:www-data",
            "/etc/microloan/passwords": "640 root:www-data",
            "/var/log/microloan/messages.log": "640 www-data:adm",
        }
        self.assertEqual(self.modes(*wanted), wanted)
        said = self.root.run("microloan-setup", given=PASSWORD + "\n")
        self.assertIn("is there, and is kept", said)
        self.start()
        self.assertEqual(self.ask("amina", PASSWORD, "GET", "/me"), (200, {"user": "amina", "staff": "1/1"}))
        self.assertEqual(self.ask("amina", "wrong", "GET", "/api/offices")[0], 401)
        staff = {"office": 1, "name": "Zoë", "role": "officer"}
        self.assertEqual(self.ask("amina", PASSWORD, "POST", "/api/staff", staff), (201, {"staff": "1/2"}))
        self.root.run("microloan-people add zoe 1/2 --reload", given="a password of zoe's\n")
        client = {"office": 1, "name": "Awa Diallo"}
        self.wait_until(lambda: self.ask("zoe", "a password of zoe's", "GET", "/api/offices")[0] == 200)
        self.assertEqual(self.ask("zoe", "a password of zoe's", "POST", "/api/clients", client)[0], 201)
        note = {"key": "0" * 32, "day": "2026-11-26", "text": "not at home"}
        kept = self.ask("zoe", "a password of zoe's", "POST", "/visits/0001-000001", note)
        self.assertEqual(kept, (201, {"visit": "entered"}))
        notes = "/var/lib/microloan-visits/0001-000001"
        self.assertEqual(self.modes(notes), {notes: "600 www-data:www-data"})
        script = "import urllib.request as r\nprint(r.urlopen('http://127.0.0.1:8190{}').headers['Content-Type'])"
        scripts = ("/lib/chart/chart.min.js", "/lib/dsv/d3-dsv.min.js", "/lib/qrcode/qrcode.js")
        for path in ("/lib/bootstrap/css/bootstrap.min.css", *scripts):
            kind = "text/css" if path.endswith(".css") else "application/javascript"
            self.assertEqual(self.root.run("python3 -", given=script.format(path)).strip(), kind)
        words = " ".join(map(shlex.quote, ("zoe", "a password of zoe's", "GET", "/", "")))
        self.assertIn("<!doctype html>", self.root.run(f"python3 - {words}", given=roots.ASK).lower())

    def wait_until(self, holds):
        end = time.monotonic() + 20
        while not holds():
            self.assertLess(time.monotonic(), end)
            time.sleep(0.2)

    def back_up(self):
        self.assertIn(" all ", self.root.run("microloan-report --user zoe", given="a password of zoe's\n"))
        moved = self.root.run("microloan-day 2026-11-27 --user amina", given=PASSWORD + "\n")
        self.assertEqual(moved, "2026-11-26 -> 2026-11-27\n")
        said = self.root.run("microloan-backup")
        self.assertIn("business day 2026-11-27, 1 clients, 0 loans, 0 entries", said)
        backup = said.split(": ")[0]
        self.assertEqual(self.modes(backup)[backup], "600 root:root")
        self.assertIn("amina 1/1 200 PUT /api/business-day", self.root.run("microloan-who day"))
        # a rotated log is read too, and what comes after it goes into the new one
        self.root.run("logrotate --force /etc/logrotate.d/microloan")
        self.wait_until(lambda: self.log_grows())
        self.assertIn("Awa Diallo", self.root.run("microloan-who client"))
        log = "/var/log/microloan/messages.log"
        self.assertEqual(self.modes(log), {log: "640 www-data:adm"})
        said = self.root.run(f"microloan-restore {backup}", wanted=1)
        self.assertIn("stop the service first", said)
        return backup

    def log_grows(self):
        self.ask("zoe", "a password of zoe's", "GET", "/api/offices")
        return "GET" in self.root.run("cat /var/log/microloan/messages.log")

    def purge(self, backup):
        self.stop()
        said = self.root.run("apt-get -qq purge -y microloan 2>&1")
        self.assertIn("the backups in /var/backups/microloan are kept", said)
        gone = ("/var/lib/microloan", "/etc/microloan", "/var/log/microloan", "/etc/nginx/sites-available/microloan")
        gone += ("/var/lib/microloan-visits",)
        for path in gone + ("/etc/nginx/sites-enabled/microloan", "/usr/share/microloan", "/usr/bin/microloan"):
            self.assertEqual(self.root.run(f"ls -d {path} 2>/dev/null", wanted=2), "")
        self.root.run(f"test -s {backup} && nginx -q -t")

    def restore(self, backup):
        self.install()
        said = self.root.run(f"microloan-restore {backup}")
        self.assertIn("business day 2026-11-27, 1 clients, 0 loans, 0 entries", said)
        said = self.root.run("microloan-setup --user amina", given=PASSWORD + "\n")
        self.assertIn("is there, and is kept", said)
        self.start()
        reply = self.ask("amina", PASSWORD, "GET", "/api/clients/0001-000001")
        self.assertEqual(reply, (200, {"client": "0001-000001", "name": "Awa Diallo"}))
        self.stop()

    def remove_and_install(self):
        self.root.run("apt-get -qq remove -y microloan")
        self.root.run("test -s /var/lib/microloan/desk.db && test -s /etc/microloan/passwords && nginx -q -t")
        self.assertEqual(self.root.run("ls /etc/nginx/sites-enabled/microloan 2>/dev/null", wanted=2), "")
        self.install()
        self.assertIn("amina is 1/1 already", self.root.run("microloan-setup"))
        self.start()
        self.assertEqual(self.ask("amina", PASSWORD, "GET", "/api/clients/0001-000001")[0], 200)
        self.stop()


if __name__ == "__main__":
    unittest.main()
