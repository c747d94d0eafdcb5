"""Tests of microloan-check and its watch, under a running systemd: each thing that it looks at is broken in turn.

They need root and mmdebstrap. Where a machine lets no systemd run in namespaces, it says why and skips them.
"""
import contextlib
import os
import time
import unittest
import urllib.parse

import roots
from roots import BACKUPS, FILE

LOG = "/var/log/microloan/messages.log"
MARK, HEADS = "/etc/microloan/journal", f"{BACKUPS}/journal-heads"
AS_OWNER = "setpriv --reuid=microloan --regid=microloan --clear-groups"
OFFSITE = "/etc/microloan/hooks/offsite"
WITHIN = 60  # seconds in which the institution is told of what is urgent
MOST_ENTERED = 3000  # clients that are entered until a small disk is full


SMS_GATEWAY = """
import http.server
class Gateway(http.server.BaseHTTPRequestHandler):
    def do_POST(self):
        body = self.rfile.read(int(self.headers["Content-Length"])).decode()
        with open("/root/sms", "a") as file:
            print(self.path, self.headers["Authorization"], body, file=file)
        self.send_response(200)
        self.end_headers()
http.server.HTTPServer(("127.0.0.1", 2526), Gateway).serve_forever()
"""


class Check(roots.ServedDesk):
    packages = ("curl", "msmtp-mta", "python3-aiosmtpd")

    @classmethod
    def setUpClass(cls):
        super().setUpClass()
        cls.root.run(f"printf '#!/bin/sh\\nexit 0\\n' >{OFFSITE}; chmod 755 {OFFSITE}")
        cls.root.run("systemctl stop microloan-check.timer; microloan-backup")
        cls.root.run("systemctl restart microloan")

    def setUp(self):
        super().setUp()
        self.root.run("systemctl stop microloan-check.timer; rm -f /run/microloan-check/state.json")

    @contextlib.contextmanager
    def institution_kept(self):
        """Puts the institution back as it was before."""
        self.root.run("rm -rf /root/kept-lib; cp -a /var/lib/microloan /root/kept-lib")
        try:
            yield
        finally:
            self.root.run("systemctl kill --signal=KILL microloan; systemctl stop microloan microloan-check.timer;"
                          "umount /var/lib/microloan 2>/dev/null; rm -rf /var/lib/microloan /run/microloan-check/*")
            self.root.run("mv /root/kept-lib /var/lib/microloan; systemctl reset-failed; systemctl start microloan")

    def look(self, wanted):
        """What the check says, in one line."""
        said = self.root.run("microloan-check", wanted=wanted)
        self.assertEqual(said.count("\n"), 1)
        return said

    def watch(self):
        self.root.run("systemctl start microloan-check; true")

    def wait_until_told(self, text):
        self.wait_until(lambda: text in self.told(), 20)

    def test_in_order(self):
        today = self.root.run("date +%F").strip()
        self.ask("PUT", "/api/business-day", {"day": today})
        said = self.look(0)
        good = rf"answers in \d+ ms, business day {today}, [0-9.]+ GB free, backup 0 h old"
        self.assertRegex(said, rf"DESK OK - {good} \| answer=0\.\d+s;")
        before = self.root.run("wc -l <" + LOG)
        self.look(0)
        self.assertEqual(self.root.run("wc -l <" + LOG), before)
        self.watch()
        self.assertEqual(self.told(), "")
        nobody = "setpriv --reuid=nobody --regid=nogroup --clear-groups microloan-check"
        self.assertIn("DESK UNKNOWN - run it as root", self.root.run(nobody, wanted=3))

    def test_the_hooks_of_the_examples_send_mail_and_sms(self):
        """To a mail server and a gateway of the test: by SMTP and by HTTP, as the documents have them."""
        alert, examples = "/etc/microloan/hooks/alert", "/usr/share/doc/microloan/examples"
        self.root.run(f"cp {alert} /root/kept-alert")
        self.addCleanup(self.root.run, f"cp /root/kept-alert {alert}")
        self.root.run("printf 'account default\nhost 127.0.0.1\nport 2525\nfrom desk@example.org\n' >/etc/msmtprc")
        mail = "-m aiosmtpd -n -l 127.0.0.1:2525 -c aiosmtpd.handlers.Mailbox /root/mailbox"
        self.root.run(f"systemd-run --quiet --unit=mail-server python3 {mail}")
        self.root.run("cat >/root/gateway.py", given=SMS_GATEWAY)
        self.root.run("systemd-run --quiet --unit=sms-gateway python3 /root/gateway.py")
        self.wait_until(lambda: self.root.run("ss -ltn").count(":252") == 2)
        self.root.run(f"install -m 755 {examples}/alert-mail {alert} && microloan-alert microloan 'Backup née à 5 heures'")
        mail = self.root.run("cat /root/mailbox/new/*")
        for line in ("To: it@example.org", "From: desk@example.org", "Backup née à 5 heures"):
            self.assertIn(line, mail)
        self.root.run(f"sed s,https://sms.example.org,http://127.0.0.1:2526, {examples}/alert-sms >{alert}; chmod 700 {alert}")
        self.root.run("microloan-alert microloan 'disk & log'")
        path, how, key, form = self.root.run("cat /root/sms").split()
        self.assertEqual((path, how, key), ("/send", "Bearer", "THE-KEY"))
        text = f"{self.root.run('hostname').strip()}: microloan: disk & log"
        self.assertEqual(urllib.parse.parse_qs(form), {"to": ["+254700000000"], "text": [text]})
        self.root.run("systemctl stop sms-gateway")
        self.assertIn("status 7", self.root.run("microloan-alert microloan lost 2>&1", wanted=1))

    def test_a_service_that_is_stopped_or_failed(self):
        self.root.run("systemctl stop microloan")
        self.assertIn("DESK CRITICAL - the service is stopped", self.look(2))
        self.root.run(f"mv {FILE} {FILE}.kept; systemctl start microloan", wanted=1)
        self.assertIn("the service failed (exit-code)", self.look(2))
        self.watch()
        self.wait_until_told("the service failed")
        self.assertEqual(self.shown("ActiveState")["ActiveState"], "failed")
        self.root.run(f"mv {FILE}.kept {FILE}; systemctl reset-failed; systemctl start microloan")
        self.watch()
        self.wait_until_told("in order again: service")

    def test_a_program_that_stands_still_goes_on(self):
        self.root.run("systemctl kill --signal=STOP --kill-who=main microloan")
        self.assertIn("the program doesn't answer", self.look(2))
        self.watch()
        self.wait_until_told("stood still, and was told to go on")
        self.assertEqual(self.ask("GET", "/api/business-day")[0], 200)

    def test_a_program_that_does_not_answer_is_started_again(self):
        """What leads to it hangs; both are started again."""
        before = self.shown("MainPID")["MainPID"]
        client = self.enter("Before it hung")
        self.root.run("systemctl kill --signal=STOP --kill-who=main microloan-port")
        self.watch()
        self.wait_until_told("didn't answer for a minute, and is started again")
        self.wait_until(lambda: self.shown("ActiveState", "MainPID")["MainPID"] not in (before, "0"))
        self.wait_until(lambda: self.shown("ActiveState")["ActiveState"] == "active")
        self.assertEqual(self.name_of(client), "Before it hung")

    def test_a_program_that_a_backup_has_stand_still_is_left(self):
        """The folder is locked, as by a backup that copies a large file."""
        self.root.start("flock /var/lib/microloan sleep 30")
        self.root.run("systemctl kill --signal=STOP --kill-who=main microloan")
        before = self.shown("MainPID", "NRestarts")
        self.watch()
        self.assertEqual(self.shown("MainPID", "NRestarts"), before)
        self.assertNotIn("go on", self.told())
        self.root.run("systemctl kill --signal=CONT --kill-who=main microloan")

    def test_a_file_that_is_removed_or_replaced_is_told_within_a_minute(self):
        for spoil in (f"rm {FILE}-wal", f"cp {FILE} {FILE}.new; mv {FILE}.new {FILE}", f"ln {FILE} {FILE}.second"):
            with self.subTest(spoil), self.institution_kept():
                self.root.run("truncate -s 0 /root/told; systemctl start microloan-check.timer")
                time.sleep(2)
                self.root.run(spoil)
                began = time.monotonic()
                name = "has a second name" if "ln " in spoil else "was removed or replaced while it is served"
                self.wait_until(lambda: name in self.told(), WITHIN + 10)
                took = time.monotonic() - began
                print(f"{spoil}: told after {took:.0f} s", flush=True)
                self.assertLess(took, WITHIN)

    def test_what_recovery_says_of_a_file_that_was_removed(self):
        for spoil in (f"rm {FILE}-wal", f"rm {FILE} {FILE}-wal"):
            with self.subTest(spoil):
                names = ["Before it was removed", "After it was removed"]
                clients = [self.enter(names[0])]
                self.root.run(spoil)
                clients.append(self.enter(names[1]))
                with open(os.path.join(roots.TOP, "docs", "recovery.md"), encoding="utf-8") as file:
                    text = file.read().split("**A file that was removed while it is served.**")[1].split("```")[1]
                commands = text.replace("\\\n", "").replace("$ sudo ", "").strip().splitlines()
                self.assertEqual(len(commands), 6)
                for command in commands:
                    # a stop may fail, since the file isn't there
                    self.root.run(f"{command}; true" if command == "systemctl stop microloan" else command)
                self.assertEqual([self.name_of(it) for it in clients], names)

    def test_a_log_that_is_replaced_or_cut_short(self):
        self.root.run(f"mv {LOG} {LOG}.kept; install -m 640 -o www-data -g adm /dev/null {LOG}")
        self.assertIn("isn't the file any more that nginx writes", self.look(2))
        self.root.run(f"mv {LOG}.kept {LOG}; printf cut >>{LOG}")
        self.assertIn(f"the last line of {LOG} is cut short", self.look(2))
        self.root.run(f"truncate -s -3 {LOG}")

    def test_a_full_disk(self):
        """Nothing more is entered; it isn't started again while there is no room, and is when there is."""
        owner = "mode=700,uid=$(id -u microloan),gid=$(id -g microloan)"
        with self.institution_kept():
            self.root.run(f"systemctl stop microloan; mount -t tmpfs -o size=1m,{owner} none /var/lib/microloan;"
                          f"cp -a /root/kept-lib/desk.db* /var/lib/microloan; systemctl start microloan")
            for place in range(MOST_ENTERED):
                if self.ask("POST", "/api/clients", {"office": 1, "name": f"Client {place} {'x' * 80}"})[0] != 201:
                    break
            said = self.look(2)
            self.assertIn("the last that was entered was answered F20", said)
            self.assertIn("/var/lib/microloan has 0 MB free", said)
            before = self.shown("MainPID")
            self.watch()
            self.wait_until_told("the last that was entered was answered F20")
            self.watch()
            self.assertEqual(self.told().count("was answered F20"), 1)
            self.assertEqual(self.shown("MainPID"), before)
            self.root.run("mount -o remount,size=200m /var/lib/microloan")
            self.watch()
            self.wait_until_told("was shut by a fault of its file or disk, and is started again")
            client = {"office": 1, "name": "After the full disk"}
            self.wait_until(lambda: self.ask("POST", "/api/clients", client)[0] == 201)
        self.root.run(f"truncate -s 0 {LOG}")

    def test_notes_of_visits_that_others_read_or_nobody_keeps(self):
        folder = "/var/lib/microloan-visits"
        cases = {"chmod 755": "isn't nginx's alone", "chown root": "isn't nginx's alone",
                 "rmdir": "no note of a visit is kept"}
        for broken, told in cases.items():
            self.root.run(f"{broken} {folder}")
            self.assertIn(told, self.look(1))
            self.root.run(f"install -d -m 700 -o www-data -g www-data {folder}")
        self.assertNotIn(folder, self.root.run("microloan-check; true"))

    def test_backups_that_are_old_or_stay_here(self):
        self.root.run(f"mkdir /root/aside; mv {BACKUPS}/* /root/aside")
        self.assertIn("there is no backup", self.look(2))
        for hours, wanted in ((30, 1), (60, 2)):
            made = self.root.run(f"date -d '{hours} hours ago' +%FT%H%M%S").strip()
            self.root.run(f"touch {BACKUPS}/desk-{made}.tar.age")
            self.assertIn(f"the newest backup is {hours} hours old", self.look(wanted))
            self.root.run(f"rm {BACKUPS}/desk-{made}.tar.age")
        self.root.run(f"mv /root/aside/* {BACKUPS}; rmdir /root/aside; mv {OFFSITE} {OFFSITE}.kept")
        self.assertIn("backups stay on this machine", self.look(1))
        self.root.run(f"mv {OFFSITE}.kept {OFFSITE}; mv /etc/microloan/keys/institution.pub /root")
        self.assertIn("this machine alone has a key", self.look(1))
        self.root.run("mv /root/institution.pub /etc/microloan/keys")

    @contextlib.contextmanager
    def no_journal_afterwards(self):
        with self.institution_kept():
            try:
                yield
            finally:
                self.root.run(f"rm -f {MARK} {HEADS}")

    def restart(self, *between, wanted=0):
        """Stops the service, runs commands, and starts it."""
        self.root.run("systemctl stop microloan; systemctl reset-failed")
        for command in between:
            self.root.run(command)
        self.root.run("systemctl start microloan", wanted=wanted)

    def forge(self, how):
        """A command by which the file's owner forges its journal."""
        with open(os.path.join(roots.HERE, "forge_journal.py"), encoding="utf-8") as file:
            self.root.run("cat >/srv/forge.py; chmod 644 /srv/forge.py", given=file.read())
        return f"{AS_OWNER} sh -c 'umask 077; python3 /srv/forge.py {FILE} {FILE}.new {how} && mv {FILE}.new {FILE}'"

    def found(self):
        """Founds an institution with a journal, enters a client, makes a backup. The client and the backup's line."""
        self.root.run(f"systemctl stop microloan; rm -f {FILE}*")
        said = self.root.run("microloan-setup --journal --day $(date +%F)")
        self.assertIn(f"a new institution is in {FILE}", said)
        client = self.enter("In the journal")
        return client, self.root.run("microloan-backup").splitlines()[0]

    def test_a_journal_that_is_founded_is_served_and_one_that_is_taken_away_is_not(self):
        with self.no_journal_afterwards():
            client, line = self.found()
            self.assertIn(" serve --existing --journal ", self.root.run("ps -o args= -C microloan"))
            self.assertEqual(self.root.run(f"stat -c '%a %U' {MARK} {HEADS}"), "600 root\n600 root\n")
            bundle, head = line.split(": ")[0], line.split("entries, ")[1].split(";")[0]
            self.assertRegex(head, "^journal [0-9]+ head [0-9a-f]{64}$")
            self.assertIn("journal noted up to line ", self.look(0))
            self.restart(self.forge("all"), wanted=1)
            self.wait_until_told("keeps no journal any more, and /etc/microloan/journal asks for one")
            self.assertIn("keeps no journal any more. Restore a backup", self.root.run("microloan-setup", wanted=1))
            self.root.run("rm " + MARK)
            said = self.root.run(f"microloan-restore --whole {bundle}")
            self.assertIn(f"{FILE}: ", said)
            self.assertIn(head, said.splitlines()[0])
            self.restart()
            self.assertIn(" --journal ", self.root.run("ps -o args= -C microloan"))
            self.assertEqual(self.name_of(client), "In the journal")

    def test_a_journal_that_was_made_anew_is_told(self):
        with self.no_journal_afterwards():
            client, line = self.found()
            self.enter("After the backup")
            self.restart(self.forge(1))
            self.assertEqual(self.name_of(client), "In the journal")
            self.root.run("systemctl start microloan-backup", wanted=1)
            wanted = "the journal isn't the one that it was: its line "
            self.assertIn(wanted, self.look(2))
            self.watch()
            self.wait_until_told(wanted)
            self.restart(f"microloan-restore {line.split(': ')[0]} --and-the-log")
            self.root.run("systemctl start microloan-backup")
            self.look(0)
            self.watch()
            self.wait_until_told("in order again: journal")

    def test_a_new_institution_after_one_with_a_journal(self):
        """It keeps one too, unasked, and isn't compared with what was noted of the other."""
        with self.no_journal_afterwards():
            self.found()
            self.root.run(f"systemctl stop microloan; rm -f {FILE}*; microloan-setup")
            self.assertIn(" --journal ", self.root.run("ps -o args= -C microloan"))
            self.assertIn(", journal 0 head ", self.root.run("microloan-backup"))
            self.assertIn("journal noted up to line 0", self.look(0))

    def test_a_journal_is_begun_as_setup_says(self):
        with self.no_journal_afterwards():
            said = self.root.run("microloan-setup --journal", wanted=1)
            self.assertIn("keeps no journal. Make a backup, stop the service, and then: sudo -u microloan ", said)
            self.root.run(f"test ! -e {MARK}")
            self.ask("PUT", "/api/business-day", {"day": self.root.run("date +%F").strip()})
            self.restart(f"{AS_OWNER} {said.split('sudo -u microloan ')[1]}")
            self.assertNotIn("journal", self.look(0))
            self.root.run("microloan-backup")
            self.assertIn("a start doesn't ask for the journal that is kept: microloan-setup", self.look(1))
            self.assertIn("is served, and is kept", self.root.run("microloan-setup"))
            self.assertIn("journal noted up to line ", self.look(0))
            self.restart()
            self.assertIn(" --journal ", self.root.run("ps -o args= -C microloan"))

    def test_a_front_that_is_down(self):
        self.root.run("systemctl stop nginx")
        self.assertIn("the front doesn't answer at http://127.0.0.1:8190", self.look(2))
        self.root.run("systemctl start nginx")


if __name__ == "__main__":
    unittest.main()
