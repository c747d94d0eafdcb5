"""Tests of backups and restores under a running systemd: what is in one, kills, planted links, a lost machine.

They need root and mmdebstrap. Where a machine lets no systemd run in namespaces, it says why and skips them.
"""
import os
import re
import unittest

import roots
from roots import BACKUPS, FILE

KILLS = 50
OFFSITE = "/etc/microloan/hooks/offsite"
OFFSITE_HOOK = """#!/bin/sh
cp "$1" "$2" /srv/microloan/
"""
# Begins backups and kills each at a moment when the program stands still. By its words: `group` or `unit`, how often.
KILL_BACKUPS = """
import os, signal, subprocess, sys, time
how, often = sys.argv[1], int(sys.argv[2])
def state(number):
    with open(f"/proc/{number}/stat") as file:
        return file.read().rpartition(")")[2].split()[0]
def wait(holds, seconds):
    end = time.monotonic() + seconds
    while not holds():
        if time.monotonic() > end:
            return False
    return True
served = int(subprocess.run(["pidof", "microloan"], stdout=subprocess.PIPE).stdout)
still = went_on = 0
for _ in range(often):
    if how == "group":
        backup = subprocess.Popen(["microloan-backup"], start_new_session=True, stdout=subprocess.DEVNULL)
        kill = lambda: os.killpg(backup.pid, signal.SIGKILL)
    else:
        backup = subprocess.Popen(["systemctl", "start", "microloan-backup"], stderr=subprocess.DEVNULL)
        kill = lambda: subprocess.run(["systemctl", "kill", "--signal=KILL", "microloan-backup"])
    wait(lambda: state(served) == "T", 20)
    kill()
    still += state(served) == "T" or how == "group"
    went_on += wait(lambda: state(served) != "T", 10)
    backup.wait()
    subprocess.run(["systemctl", "reset-failed", "microloan-backup"])
print(still, went_on)
"""
# Kills restores at drawn moments. What the file is after each; then what killed ones have left after one more.
KILL_RESTORES = """
import os, random, signal, subprocess, sys, time
draw = random.Random(9)
for _ in range(int(sys.argv[2])):
    restore = subprocess.Popen(["microloan-restore", sys.argv[1]], start_new_session=True,
                               stdout=subprocess.DEVNULL, stderr=subprocess.DEVNULL)
    time.sleep(draw.uniform(0.05, 1.5))
    os.killpg(restore.pid, signal.SIGKILL)
    restore.wait()
    print(subprocess.run("until flock -n /var/lib/microloan true; do sleep 0.01; done; setpriv --reuid=microloan "
        "--regid=microloan --clear-groups microloan why --file /var/lib/microloan/desk.db", shell=True,
        stdout=subprocess.PIPE, text=True).stdout.strip())
"""
KILL_SETUPS = """
import os, random, signal, subprocess, sys, time
draw = random.Random(5)
for _ in range(int(sys.argv[1])):
    subprocess.run("rm -f /var/lib/microloan/desk.db*", shell=True)
    setup = subprocess.Popen(["microloan-setup"], start_new_session=True, stdin=subprocess.DEVNULL,
                             stdout=subprocess.DEVNULL, stderr=subprocess.DEVNULL)
    time.sleep(draw.uniform(0.0, 1.5))
    os.killpg(setup.pid, signal.SIGKILL)
    setup.wait()
    if os.path.exists("/var/lib/microloan/desk.db"):
        print(subprocess.run("until flock -n /var/lib/microloan true; do sleep 0.01; done; microloan why --file "
            "/var/lib/microloan/desk.db", shell=True, stdout=subprocess.PIPE, text=True).stdout.strip())
    else:
        print("none")
"""
# Plants links to a file of root's wherever a restore makes something, as the service's own user.
PLANT_LINKS = """
import os, time
end = time.monotonic() + 60
while time.monotonic() < end and not os.path.exists("/var/lib/microloan/enough"):
    for room in os.scandir("/var/lib/microloan"):
        if room.name.startswith((".restore-", "before-restore-")):
            for name in ("desk.db-wal", "was.db", "was.db-wal", "desk.db", "desk.db-shm", "desk.db.tried"):
                try:
                    os.symlink("/root/secret", os.path.join(room.path, name))
                except OSError:
                    pass
"""


class Backups(roots.ServedDesk):
    packages = ("curl", "rsyslog", "rsync", "restic", "sqlite3")

    @classmethod
    def setUpClass(cls):
        super().setUpClass()
        cls.key = re.search("AGE-SECRET-KEY-[0-9A-Z]+", cls.said)[0]
        cls.signer = re.search("by the word (RW[0-9A-Za-z+/=]+)", cls.said)[1]
        cls.root.run("mkdir -p /srv/microloan")
        cls.root.run(f"cat >{OFFSITE} && chmod 755 {OFFSITE}", given=OFFSITE_HOOK)

    def newest(self):
        return self.root.run(f"ls {BACKUPS}/*.age | sort | tail -n 1").strip()

    def back_up(self, *words):
        return self.root.run(" ".join(["microloan-backup", *words])).split(": ")[0]

    def restore(self, *words, wanted=0):
        self.root.run("systemctl stop microloan")
        said = self.root.run(" ".join(["microloan-restore", *words]), wanted=wanted)
        self.root.run("systemctl reset-failed microloan; systemctl start microloan")
        return said

    def note_visit(self, client, text):
        note = {"key": os.urandom(16).hex(), "day": "2026-11-26", "text": text}
        self.assertEqual(self.ask("POST", f"/visits/{client}", note), (201, {"visit": "entered"}))

    def notes_of(self, client):
        return [one["text"] for one in self.ask("GET", f"/visits/{client}")[1]["visits"]]

    def test_the_timer_s_backup_is_the_whole_desk(self):
        client = self.enter("Before the backup")
        self.note_visit(client, "not at home")
        self.assertIn("microloan-backup.service", self.root.run("systemctl list-timers --no-pager"))
        self.root.run("systemctl start microloan-backup.service")
        bundle = self.newest()
        self.root.run(f"cmp {bundle} /srv/microloan/{os.path.basename(bundle)}")
        self.root.run(f"minisign -V -q -P {self.signer} -m {bundle}")
        # by the institution's key, and none but age, gzip and tar
        self.root.run("cat >/root/paper.key", given=self.key + "\n")
        self.root.run(f"rm -rf /root/out && mkdir /root/out && age -d -i /root/paper.key {bundle} | tar xzC /root/out")
        for name in ("etc/microloan/passwords", "etc/microloan/staff.map", "etc/nginx/sites-available/microloan"):
            self.root.run(f"cmp /root/out/{name} /{name}")
        self.root.run("cmp /root/out/log/messages.log /var/log/microloan/messages.log")
        self.root.run(f"cmp /root/out/visits/{client} /var/lib/microloan-visits/{client}")
        self.assertEqual(self.root.run("cd /root/out && find . -name '*.key'"), "")
        line = f"1/1 GET /clients/{client}\n"
        said = self.root.run("microloan batch --existing --file /root/out/desk.db", given=line)
        self.assertEqual(said, f'200 {{"client":"{client}","name":"Before the backup"}}\n')
        self.assertEqual(self.root.run(f"stat -c '%a %U' {BACKUPS} {bundle}"), "700 root\n600 root\n")

    def test_a_bundle_that_was_changed_is_refused(self):
        bundle = self.back_up()
        for at in (50, 1500, 5000):
            with self.subTest(at):
                self.root.run(f"cp {bundle} {bundle}.minisig /root/ && cd /root && printf x | "
                              f"dd of={os.path.basename(bundle)} bs=1 seek={at} conv=notrunc status=none")
                said = self.root.run(f"microloan-restore --try /root/{os.path.basename(bundle)}", wanted=1)
                self.assertIn("isn't as it was signed", said)
                self.assertIn("Nothing is changed", said)
        other = "RWQf6LRCGA9i53mlYecO4IzT51TGPpvWucNSCh1CBM0QTaLn73Y7GFO3"
        said = self.root.run(f"microloan-restore --try --signed-by {other} {bundle}", wanted=1)
        self.assertIn("wasn't signed by", said)

    def test_killed_while_the_program_stands_still_it_goes_on(self):
        for how in ("group", "unit"):
            with self.subTest(how):
                said = self.root.run(f"python3 - {how} {KILLS}", given=KILL_BACKUPS)
                print(f"{how}: of {KILLS} kills while it stood still, it went on after", said.strip(), flush=True)
                still, went_on = map(int, said.split())
                self.assertEqual(went_on, KILLS)
                self.assertGreater(still, KILLS // 2)
                self.assertEqual(self.ask("GET", "/api/business-day")[0], 200)
        self.back_up()
        self.assertEqual(self.root.run(f"ls -A {BACKUPS} /var/lib/microloan | grep '^[.]'; true"), "")

    def test_a_restore_that_is_killed(self):
        """It leaves what was there, or what was restored, whole; or nothing in place, and what was there beside it."""
        bundle = self.back_up()
        self.root.run("systemctl stop microloan")
        said = self.root.run(f"python3 - {bundle} {KILLS}", given=KILL_RESTORES).splitlines()
        whole = sum(line.endswith("a sound institution, schema 2") for line in said)
        print(f"of {KILLS} killed restores {whole} left a whole institution in place", flush=True)
        self.assertEqual(whole + sum("there is no file" in line for line in said), KILLS)
        self.root.run(f"microloan-restore {bundle}")
        self.assertEqual(self.root.run(f"ls -A /var/lib/microloan {BACKUPS} | grep '^[.]'; true"), "")
        self.root.run("rm -r /var/lib/microloan/before-restore-*")

    def test_a_setup_that_is_killed(self):
        """It leaves no institution or a whole one; run again it does what is left to do."""
        self.root.run("systemctl stop microloan microloan-check.timer && cp -a /var/lib/microloan /root/kept-lib")
        said = self.root.run(f"systemctl mask --quiet microloan; python3 - {KILLS}", given=KILL_SETUPS).splitlines()
        self.root.run("systemctl unmask --quiet microloan")
        self.assertEqual(len(said), KILLS)
        whole = [line for line in said if line.endswith("a sound institution, schema 2")]
        print(f"of {KILLS} kills {len(whole)} left a whole institution, {said.count('none')} none", flush=True)
        self.assertEqual(len(whole) + said.count("none"), KILLS)
        self.root.run("rm -f /var/lib/microloan/desk.db*; microloan-setup")
        self.assertEqual(self.ask("GET", "/api/business-day")[0], 200)
        self.assertEqual(self.root.run("ls -A /var/lib/microloan | grep '^[.]'; true"), "")
        for junk in ("x", "text " * 1000):
            self.root.run(f"systemctl stop microloan; rm -f {FILE}*; cat >{FILE}", given=junk)
            said = self.root.run("microloan-setup", wanted=1)
            self.assertIn("Restore a backup", said)
        self.root.run("systemctl stop microloan; rm -rf /var/lib/microloan; cp -a /root/kept-lib /var/lib/microloan;"
                      "systemctl reset-failed microloan; systemctl start microloan microloan-check.timer")

    def test_root_follows_no_link(self):
        """The service's own user plants links to a file of root's wherever a restore works: it stays root's alone."""
        self.root.run("umask 077; echo secret >/root/secret; chown root: /root/secret")
        before = self.root.run("stat -c '%a %u %g %i %Y' /root/secret")
        bundle = self.back_up()
        self.root.run("systemctl stop microloan")
        as_user = "setpriv --reuid=microloan --regid=microloan --clear-groups"
        self.root.start(f"{as_user} python3 -c '{PLANT_LINKS}'")
        done = 0
        for _ in range(10):
            said = self.root.run(f"microloan-restore {bundle} 2>&1; echo status $?")
            done += "status 0" in said
        self.root.run("touch /var/lib/microloan/enough")
        print(f"of 10 restores among links {done} were done", flush=True)
        for path in ("", "-wal"):
            self.root.run(f"rm -f {FILE}*; ln -s /root/secret {FILE}{path}")
            self.root.run(f"microloan-restore {bundle} 2>&1; true")
        # a backup that is a link, and one that is reached by a link
        self.root.run("ln -s /root/secret /var/lib/microloan/plain.db; ln -s /root /var/lib/microloan/folder")
        for path in ("plain.db", "folder/secret"):
            said = self.root.run(f"microloan-restore /var/lib/microloan/{path}", wanted=1)
            self.assertIn("reached by a link", said)
        self.assertEqual(self.root.run("stat -c '%a %u %g %i %Y' /root/secret"), before)
        self.assertEqual(self.root.run("cat /root/secret"), "secret\n")
        found = self.root.run("find /var/lib/microloan -type f -exec grep -l '^secret$' {} +; true")
        self.assertEqual(found, "")
        self.root.run("rm -rf /var/lib/microloan/plain.db /var/lib/microloan/folder /var/lib/microloan/enough")
        self.root.run(f"rm -f {FILE}*; microloan-restore {bundle}")

    def test_a_full_disk_is_no_backup(self):
        self.root.run(f"mkdir -p /root/kept && cp {BACKUPS}/* /root/kept; mount -t tmpfs -o size=8k none {BACKUPS}")
        try:
            self.root.run("systemctl start microloan-backup", wanted=1)
            self.assertEqual(self.root.run(f"ls -A {BACKUPS}"), "")
            self.wait_until(lambda: "microloan-backup: failed" in self.told())
            self.assertIn("the last backup failed", self.root.run("microloan-check", wanted=2))
        finally:
            self.root.run(f"umount {BACKUPS}; systemctl reset-failed")
        self.assertEqual(self.ask("GET", "/api/business-day")[0], 200)

    def test_what_stands_against_the_hook_is_told(self):
        self.root.run(f"printf '#!/bin/sh\\nexit 7\\n' >{OFFSITE}")
        self.root.run("systemctl start microloan-backup", wanted=1)
        self.wait_until(lambda: "didn't take it off the machine: status 7" in self.told())
        self.root.run(f"cat >{OFFSITE}", given=OFFSITE_HOOK)
        self.root.run("systemctl start microloan-backup")

    def test_the_examples_take_it_off_the_machine(self):
        examples = "/usr/share/doc/microloan/examples"
        self.root.run(f"cp {examples}/offsite-rsync {OFFSITE}")
        bundle = self.back_up()
        self.root.run(f"cmp {bundle} /srv/microloan/{os.path.basename(bundle)}")
        self.root.run("echo a password >/etc/microloan/keys/restic")
        restic = "RESTIC_REPOSITORY=/srv/restic RESTIC_PASSWORD_FILE=/etc/microloan/keys/restic restic --quiet"
        self.root.run(f"{restic} init; cp {examples}/offsite-restic {OFFSITE}")
        self.root.run("systemctl start microloan-backup")
        bundle = self.newest()
        self.root.run(f"{restic} restore latest --target /root/restic && cmp {bundle} /root/restic{bundle}")
        self.root.run(f"cat >{OFFSITE}", given=OFFSITE_HOOK)

    def test_the_log_goes_to_another_machine_as_it_is_written(self):
        """Two rsyslogs by the examples: one sends to the other, which is away for a while and misses nothing."""
        examples = "/usr/share/doc/microloan/examples"
        kept = "/srv/kept/messages.log"
        self.root.run("mkdir -p /srv/kept; printf 'include(file=\"/root/taker.conf\")\n' >/root/rsyslog-taker.conf")
        self.root.run(f"sed 's|/srv/microloan/|/srv/kept/|' {examples}/log-from-a-machine.conf >/root/taker.conf")
        sender = f"sed s/log.example.org/127.0.0.1/ {examples}/log-to-a-machine.conf"
        self.root.run(f"{sender} >/etc/rsyslog.d/microloan.conf")
        taker = "rsyslogd -n -f /root/rsyslog-taker.conf -i /run/taker.pid"
        self.root.start(taker)
        self.root.run("systemctl restart rsyslog")
        self.enter("Sent to the other machine")
        self.wait_until(lambda: "Sent to the other machine" in self.root.run(f"cat {kept}; true"))
        self.root.run("kill $(cat /run/taker.pid)")
        for place in range(5):
            self.enter(f"While it is away {place}")
        self.root.start(taker)
        self.wait_until(lambda: "While it is away 4" in self.root.run(f"cat {kept}"), 120)
        log = "/var/log/microloan/messages.log"
        lines = "grep -E 'Sent to the other machine|While it is away'"
        sent = self.root.run(f"{lines} {log}")
        self.assertEqual(len(sent.splitlines()), 6)
        self.wait_until(lambda: self.root.run(f"{lines} {kept}") == sent)
        self.root.run("kill $(cat /run/taker.pid); rm /etc/rsyslog.d/microloan.conf; systemctl restart rsyslog")

    def test_an_upgrade_makes_one_first(self):
        self.root.run("dpkg -i /root/microloan.deb")
        self.assertRegex(self.newest(), "-before-upgrade.tar.age$")
        self.assertEqual(self.ask("GET", "/api/business-day")[0], 200)
        # and none is made, and nothing upgraded, where it can't be
        self.root.run(f"systemctl stop microloan; mv {FILE} {FILE}.kept; echo x >{FILE}")
        said = self.root.run("dpkg -i /root/microloan.deb 2>&1", wanted=1)
        self.assertIn("no backup was made, so it isn't upgraded", said)
        self.root.run(f"mv {FILE}.kept {FILE}; dpkg -i /root/microloan.deb; systemctl start microloan")

    def test_the_way_back_from_an_upgrade(self):
        """The lines of recovery.md: the package of before, and what stood then with all that came after it."""
        older = "dpkg-deb -R microloan.deb older && sed -i 's/^Version: .*/Version: 1.0/' older/DEBIAN/control"
        self.root.run(f"cd /root && rm -rf older && {older} && dpkg-deb -b older older.deb", network=True)
        before = self.enter("Before the upgrade")
        self.root.run("dpkg -i /root/microloan.deb")
        backup = self.newest()
        self.assertRegex(backup, "-before-upgrade.tar.age$")
        after = self.enter("After the upgrade")
        downgrade = "MICROLOAN_WITHOUT_BACKUP=1 apt-get install --yes --allow-downgrades /root/older.deb"
        self.root.run(f"{downgrade} && systemctl stop microloan && microloan-restore {backup} --and-the-log && "
                      "systemctl start microloan")
        self.assertEqual(self.root.run("dpkg-query -f '${Version}' -W microloan"), "1.0")
        self.assertEqual([self.name_of(it) for it in (before, after)], ["Before the upgrade", "After the upgrade"])
        self.root.run("dpkg -i /root/microloan.deb")

    def test_the_weekly_trial(self):
        self.back_up()
        for place in range(3):
            self.enter(f"After the backup {place}")
        self.root.run("systemctl start microloan-drill")
        said = self.root.run("journalctl --no-pager --output=cat --unit=microloan-drill --lines=20")
        self.assertIn(": sound, business day 2026-11-26", said)
        self.wait_until(lambda: "3 messages after the backup, the same" in self.told())
        self.root.run(f"printf x | dd of={self.newest()} bs=1 seek=900 conv=notrunc status=none")
        self.root.run("truncate -s 0 /root/told")
        self.root.run("systemctl start microloan-drill", wanted=1)
        self.wait_until(lambda: "microloan-drill: failed" in self.told())
        self.assertIn("couldn't be restored", self.root.run("microloan-check", wanted=2))
        self.root.run(f"rm {self.newest()}")

    def test_a_file_of_an_older_schema_is_kept(self):
        """As it was before the program brings it to its own schema, from which there is no way back."""
        first = "drop table instalments; drop table shares; update meta set schema = 1"
        self.root.run(f"systemctl stop microloan; cp -a /var/lib/microloan /root/kept-schema; cd /root; rm -f old.db; "
                      f"sqlite3 {FILE} .dump | sqlite3 old.db; sqlite3 old.db '{first}'; rm {FILE}*; "
                      f"install -m 600 -o microloan -g microloan old.db {FILE}; systemctl start microloan")
        self.assertEqual(self.ask("GET", "/api/business-day")[0], 200)
        folder = self.root.run("ls -d /var/lib/microloan/before-schema-2-*").strip()
        self.root.run(f"cmp /root/old.db {folder}/desk.db")
        self.root.run("systemctl restart microloan")
        self.assertEqual(self.root.run("ls -d /var/lib/microloan/before-schema-2-*").strip(), folder)
        self.root.run("systemctl stop microloan; rm -rf /var/lib/microloan; mv /root/kept-schema /var/lib/microloan")

    def test_to_the_last_answered_request(self):
        self.back_up()
        clients = [self.enter(f"After {place}") for place in range(30)]
        self.root.run("systemctl kill --signal=KILL microloan; systemctl stop microloan; true")
        self.root.run(f"rm {FILE} {FILE}-wal")
        said = self.restore("--and-the-log")
        self.assertIn("30 messages after the backup, the same (30 changed something)", said)
        self.assertEqual([self.name_of(it) for it in clients], [f"After {place}" for place in range(30)])

    def test_where_a_message_was_changed_it_stops(self):
        self.back_up()
        clients = [self.enter(f"Before the change {place}") for place in range(5)]
        log = "/var/log/microloan/messages.log"
        self.root.run(f"cp -p {log} /root/kept.log && sed 's/Before the change 3//' {log} >/root/changed.log")
        said = self.restore("--and-the-log", "/root/changed.log", wanted=1)
        self.assertIn("stopped after 3 of those that changed something: answered '201 {\"client\":", said)
        self.assertIn("' then and '400 {\"fault\":\"F1\"}' now: ", said)
        self.assertEqual(self.name_of(clients[2]), "Before the change 2")
        self.assertEqual(self.ask("GET", f"/api/clients/{clients[3]}")[0], 404)

    def test_a_lost_machine(self):
        """What docs/recovery.md says, from a dead machine to the last answered request on a new one."""
        examples = "/usr/share/doc/microloan/examples"
        self.root.run(f"cp {examples}/log-to-a-disk.conf /etc/rsyslog.d/microloan.conf && systemctl restart rsyslog")
        staff = {"office": 1, "name": "Zoe", "role": "officer"}
        staff = self.ask("POST", "/api/staff", staff)[1]["staff"]
        self.root.run(f"microloan-people add zoe {staff} --reload", given="a password of zoe's\n")
        visited = self.enter("Visited")
        self.note_visit(visited, "before the machine was lost")
        self.back_up()
        self.root.run("logrotate --force /etc/logrotate.d/microloan")
        clients = [self.enter(f"On the lost machine {place}") for place in range(40)]
        copy = "/srv/microloan/messages.log"
        self.wait_until(lambda: "On the lost machine 39" in self.root.run(f"cat {copy}"))
        bundle = "/srv/microloan/" + os.path.basename(self.newest())
        self.root.run("systemctl kill --signal=KILL microloan; systemctl stop microloan; true")
        self.root.run("MICROLOAN_WITHOUT_BACKUP=1 apt-get -qq purge -y microloan 2>&1; systemctl stop rsyslog; rm -rf "
                      f"/etc/microloan /var/lib/microloan /var/lib/microloan-visits /var/log/microloan {BACKUPS} "
                      "/root/paper.key")
        # the new machine: the package, what was taken off the old one, and the sheet of paper
        said = self.follow_the_page(bundle)
        self.assertIn("messages after the backup, the same (40 changed something)", said)
        self.assertIn("amina is 1/1 already", said)
        self.assertNotIn("AGE-SECRET-KEY", said)
        self.assertRegex(said, "DESK (OK|WARNING) - ")
        self.assertEqual([self.name_of(it) for it in clients], [f"On the lost machine {it}" for it in range(40)])
        self.assertEqual(self.notes_of(visited), ["before the machine was lost"])
        zoe = roots.ask(self.root, "zoe", "a password of zoe's", "GET", "/api/business-day")
        self.assertEqual(zoe, (200, {"day": "2026-11-26"}))
        self.assertEqual(self.root.run("microloan-who client | grep -c 'On the lost machine'"), "40\n")
        type(self).signer = re.search("by the word (RW[0-9A-Za-z+/=]+)", said)[1]
        self.root.run("microloan-restore --try --and-the-log")

    def follow_the_page(self, bundle):
        """Runs the lines of its page. What they print."""
        with open(os.path.join(roots.TOP, "docs", "recovery.md"), encoding="utf-8") as file:
            page = file.read().split("## From a dead machine to a running desk")[1].split("\n```\n")[1]
        page = re.sub(r"  +\(.*\)\n", "\n", page.replace("\\\n", " "))
        page = page.replace("RWR5cbL9..", self.signer).replace("apt install", "apt-get -qq install -y")
        page = re.sub(r"\./microloan_[0-9.]+_amd64.deb", "/root/microloan.deb", page)
        page = re.sub(r"/srv/microloan/desk-\S+", bundle, page)
        said = ""
        for line in page.strip().splitlines():
            allowed = "; test $? -le 1" if "microloan-check" in line else ""
            said += self.root.run(line.removeprefix("$ sudo ") + allowed, given=self.key + "\n")
        return said


if __name__ == "__main__":
    unittest.main()
