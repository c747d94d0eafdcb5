"""Tests of the unit under a running systemd, in a fresh root of Debian: starts, stops, crashes, and who reaches it.

They need root and mmdebstrap. Where a machine lets no systemd run in namespaces, it says why and skips them.
"""
import re
import time
import unittest

import roots
from roots import FILE

EMPTY_LOG = 41  # bytes of a log that holds no commit, at most
LIMIT, MOST_ENTERED = 600000, 200  # bytes of a file, and clients that are entered until it is reached
MOST_EXPOSED = 1.0  # of ten, as systemd-analyze counts
FAILS_WITHIN = 2.0  # seconds that a start takes which can't succeed


class Unit(roots.ServedDesk):
    def log_size(self):
        return int(self.root.run(f"stat -c %s {FILE}-wal"))

    def test_a_start_that_waits(self):
        self.root.run("systemctl stop microloan")
        self.root.run("systemctl start microloan")
        self.assertEqual(self.ask("GET", "/api/business-day"), (200, {"day": "2026-11-26"}))
        self.assertEqual(self.shown("ActiveState", "User"), {"ActiveState": "active", "User": "microloan"})

    def test_killed_it_comes_back_with_all_that_was_answered(self):
        client = self.enter("Before the kill")
        before = self.shown("MainPID", "NRestarts")
        self.root.run("systemctl kill --signal=KILL --kill-who=main microloan")
        self.wait_until(lambda: self.shown("MainPID")["MainPID"] not in ("0", before["MainPID"]))
        self.wait_until(lambda: self.shown("ActiveState")["ActiveState"] == "active")
        self.assertEqual(int(self.shown("NRestarts")["NRestarts"]), int(before["NRestarts"]) + 1)
        self.assertEqual(self.name_of(client), "Before the kill")

    def test_a_stop_leaves_one_whole_file(self):
        client = self.enter("Before the stop")
        self.assertGreater(self.log_size(), EMPTY_LOG)
        self.root.run("systemctl stop microloan")
        self.assertLessEqual(self.log_size(), EMPTY_LOG)
        # the file alone
        self.root.run(f"mkdir /root/alone && cp {FILE} /root/alone/desk.db")
        line = f"1/1 GET /clients/{client}\n"
        said = self.root.run("microloan batch --existing --file /root/alone/desk.db", given=line)
        self.assertEqual(said, f'200 {{"client":"{client}","name":"Before the stop"}}\n')
        self.assertEqual(self.shown("Result")["Result"], "success")
        self.root.run("systemctl start microloan")

    def test_a_damaged_log_is_no_start(self):
        """The service says so, and starts once the log is as it was."""
        client = self.enter("In a damaged log")
        self.enter("Behind the damage")
        self.root.run("systemctl kill --signal=KILL microloan; systemctl stop microloan; true")
        if self.log_size() <= EMPTY_LOG:
            self.skipTest("the service was started again before it was stopped")
        self.root.run(f"cp {FILE}-wal /root/kept-wal && printf x | dd of={FILE}-wal bs=1 seek=10 conv=notrunc")
        self.root.run("systemctl start microloan", wanted=1)
        self.assertEqual(self.shown("ActiveState")["ActiveState"], "failed")
        said = self.root.run("journalctl --no-pager --unit=microloan")
        self.assertIn("its header is damaged, and nothing of it would count", said)
        self.root.run(f"cat /root/kept-wal >{FILE}-wal && systemctl reset-failed microloan; systemctl start microloan")
        self.assertEqual(self.name_of(client), "In a damaged log")

    def test_a_start_that_fails_is_failed_and_tells_why(self):
        """Within two seconds, with the line of `microloan why`; the institution is told, and nothing is tried again."""
        damage = f"printf ABCD | dd of={FILE} bs=1 seek=20000 conv=notrunc status=none"
        others = f"import sqlite3; sqlite3.connect('{FILE}').execute('create table other (x)')"
        cases = (
            (f"rm {FILE}", "is missing or empty"),
            (f": >{FILE}", "is missing or empty"),
            (damage, "damaged: a page is not as it was written"),
            (f"chmod 000 {FILE}", "no permission to read it"),
            (f'rm {FILE} && python3 -c "{others}" && chown microloan: {FILE}', "a database of something else"),
        )
        for number, (spoil, line) in enumerate(cases):
            with self.subTest(line):
                self.root.run(f"systemctl stop microloan; cp -a /var/lib/microloan /root/kept{number}")
                self.root.run(f"{spoil} && truncate -s 0 /root/told")
                began = time.monotonic()
                self.root.run("systemctl start microloan", wanted=1)
                took = time.monotonic() - began
                self.assertLess(took, FAILS_WITHIN)
                self.assertEqual(self.shown("ActiveState", "NRestarts"), {"ActiveState": "failed", "NRestarts": "0"})
                self.assertIn("microloan.service", self.root.run("systemctl --failed --no-legend --no-pager"))
                said = self.root.run("journalctl --no-pager --output=cat --unit=microloan --lines=8")
                self.assertIn(line, said)
                self.assertNotIn("F20", said)
                self.wait_until(lambda: line in self.told())
                self.root.run(f"rm -r /var/lib/microloan && cp -a /root/kept{number} /var/lib/microloan")
                self.root.run("systemctl reset-failed microloan; systemctl start microloan")
        self.assertEqual(self.ask("GET", "/api/business-day")[0], 200)

    def test_a_file_without_checksums_is_served_where_it_is_meant(self):
        meant = "/etc/microloan/without-checksums"
        anew = (
            "import sqlite3; old = sqlite3.connect('file:/root/with.db?mode=ro', uri=True); "
            f"new = sqlite3.connect('{FILE}'); new.executescript(''.join(f'{{line}}\n' for line in old.iterdump()))"
        )
        self.root.run("systemctl stop microloan; cp -a /var/lib/microloan /root/kept-with")
        self.root.run(f"cp {FILE} /root/with.db && rm -f {FILE}*")
        self.root.run(f'python3 -c "{anew}" && chown microloan: {FILE}')
        self.root.run("systemctl start microloan", wanted=1)
        self.assertIn("its pages have no checksums", self.root.run("journalctl --no-pager --unit=microloan --lines=8"))
        self.root.run(f"touch {meant} && systemctl reset-failed microloan; systemctl start microloan")
        self.assertEqual(self.ask("GET", "/api/business-day")[0], 200)
        self.root.run(f"systemctl stop microloan; rm -r /var/lib/microloan {meant}")
        self.root.run("cp -a /root/kept-with /var/lib/microloan; systemctl start microloan")

    def test_crashes_again_and_again_end(self):
        """It is started again after each, until the start limit; then it is failed, and the institution is told."""
        crash = "systemctl kill --signal=KILL --kill-who=main microloan; true"
        end = time.monotonic() + 120
        while self.shown("ActiveState")["ActiveState"] != "failed":
            self.assertLess(time.monotonic(), end)
            self.root.run(crash)
            time.sleep(0.1)
        self.assertGreater(int(self.shown("NRestarts")["NRestarts"]), 3)
        self.wait_until(lambda: "microloan: failed" in self.told())

    def test_the_hook_that_tells(self):
        hook = "/etc/microloan/hooks/alert"
        self.root.run("microloan-alert --try")
        self.assertRegex(self.told(), "microloan: this is a test\n$")
        self.root.run("microloan-alert microloan-check 'a line'")
        self.assertRegex(self.told(), "microloan-check: a line\n$")
        self.root.run(f"chmod o+w {hook}; truncate -s 0 /root/told")
        self.assertIn("can be written by others than root", self.root.run("microloan-alert --try", wanted=1))
        self.assertEqual(self.told(), "")
        self.root.run(f"chmod 755 {hook}; mv {hook} {hook}.kept")
        self.assertIn("nobody was told", self.root.run("microloan-alert --try", wanted=1))
        self.root.run(f"mv {hook}.kept {hook}")

    def test_thirty_starts(self):
        """Started thirty times it is there each time: whether the program still runs is never mistaken."""
        for _ in range(6):
            self.root.run("for n in 1 2 3 4 5; do systemctl restart microloan || exit 1; done")
            self.root.run("systemctl reset-failed microloan")
        self.assertEqual(self.shown("NRestarts", "ActiveState"), {"NRestarts": "0", "ActiveState": "active"})

    def test_nobody_of_this_machine_is_past_the_front(self):
        """Neither by the port nor by the socket, but for root and the front; a program on the port meets none."""
        ask = "curl --silent --show-error --max-time 5 --header 'X-Staff: 1/1'"
        by_port, by_socket = "http://127.0.0.1:8180/business-day", "http://desk/business-day"
        socket = "--unix-socket /run/microloan-port/desk.sock"
        for user, words, status in (
            ("nobody", by_port, 7), ("root", by_port, 7), ("nobody", f"{socket} {by_socket}", 7),
            ("www-data", f"{socket} {by_socket}", 0), ("root", f"{socket} {by_socket}", 0),
        ):
            with self.subTest(f"{user} {words}"):
                as_user = f"setpriv --reuid={user} --regid=$(id -g {user}) --clear-groups"
                said = self.root.run(f"{as_user} {ask} {words}", wanted=status)
                self.assertEqual('{"day":"' in said, status == 0)
        self.root.run("cd /tmp && timeout 60 python3 -m http.server 8180 --bind 127.0.0.1 >/dev/null 2>&1 & sleep 1")
        self.root.run("systemctl restart microloan")
        self.assertEqual(self.ask("GET", "/api/business-day")[0], 200)
        self.root.run("systemctl stop microloan")
        self.assertEqual(self.ask("GET", "/api/business-day"), (502, {"front": "down"}))

    def test_a_message_starts_no_desk_that_was_stopped(self):
        self.root.run("systemctl stop microloan")
        for _ in range(5):
            self.assertEqual(self.ask("GET", "/api/business-day"), (502, {"front": "down"}))
        self.assertEqual(self.shown("ActiveState")["ActiveState"], "inactive")
        self.root.run("systemctl start microloan")
        self.assertEqual(self.ask("GET", "/api/business-day")[0], 200)

    def test_a_limit_on_a_file_s_size(self):
        """The signal SIGXFSZ ends the program without a word: the unit starts it again; what was answered stands."""
        room = "/run/systemd/system/microloan.service.d"
        limit = f"printf '[Service]\nLimitFSIZE={LIMIT}\n' >{room}/limit.conf"
        self.root.run(f"mkdir -p {room} && {limit} && systemctl daemon-reload && systemctl restart microloan")
        before = self.shown("NRestarts", "MainPID")
        entered = []
        for place in range(MOST_ENTERED):
            status, reply = self.ask("POST", "/api/clients", {"office": 1, "name": f"Client {place}"})
            if status != 201:
                break
            entered.append(reply["client"])
        self.assertLess(len(entered), MOST_ENTERED)
        self.wait_until(lambda: self.shown("NRestarts")["NRestarts"] != before["NRestarts"])
        self.root.run(f"rm {room}/limit.conf && systemctl daemon-reload && systemctl restart microloan")
        self.assertEqual([self.name_of(it) for it in entered], [f"Client {place}" for place in range(len(entered))])

    def test_how_far_it_is_shut_off(self):
        said = self.root.run("systemd-analyze --no-pager security microloan.service")
        found = re.search(r"Overall exposure level for microloan.service: ([0-9.]+)", said)
        print(found[0], flush=True)
        self.assertLessEqual(float(found[1]), MOST_EXPOSED)


if __name__ == "__main__":
    unittest.main()
