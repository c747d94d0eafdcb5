"""Tests of the packaged sign-in by sessions, and of TLS, under a running systemd in a fresh root; needs root and mmdebstrap."""
import json
import re
import subprocess
import unittest

import roots

PACKAGES = (
    "slapd slapd-contrib lemonldap-ng-fastcgi-server liblemonldap-ng-portal-perl libnet-ldap-perl"
    " libio-socket-timeout-perl libunicode-string-perl libconvert-base32-perl libdigest-hmac-perl python3-ldap curl openssl"
)
FIRST, OWN = "a first word of amina", "amina has her own word"
ZOE = "zoe has a word and a code"
UNITS = ("microloan-directory", "microloan-engine", "microloan-passwords")


def code_of(secret):
    """The code of a second factor's key at this moment, by a second program."""
    words = ["oathtool", "--totp", "--base32", secret.upper()]
    return subprocess.run(words, capture_output=True, text=True, check=True).stdout.strip()


class Sessions(roots.ServedDesk):
    address = "http://127.0.0.1:8190"
    curl = "curl -s --cacert /etc/ssl/certs/desk.pem"

    def post(self, path, form, cookie="none"):
        """The status of the reply, its head, and its body, read where it is JSON."""
        words = " ".join(f"--data-urlencode '{key}={value}'" for key, value in form.items()) or "--data ''"
        words = f"-i -H 'X-Desk: 1' -b {cookie} {words}"
        head, _, body = self.root.run(f"{self.curl} {words} {self.address}{path}").replace("\r", "").partition("\n\n")
        return int(head.split()[1]), head, json.loads(body) if body.startswith("{") else body

    def signed_in(self, path, form):
        """The cookie of a session that begins with this."""
        status, head, _ = self.post(path, form)
        self.assertEqual(status, 200)
        return re.search("Set-Cookie: (desk=[0-9a-f]+)", head)[1]

    def me(self, cookie):
        return self.root.run(f"{self.curl} -b {cookie} {self.address}/me")

    def test_from_basic_to_sessions_and_tls(self):
        said = self.root.run("microloan-setup --sessions --user amina", given=FIRST + "\n", wanted=1)
        self.assertIn("first: apt-get install --no-install-recommends slapd", said)
        self.root.run(f"apt-get -qq install -y --no-install-recommends {PACKAGES}", network=True)
        said = self.root.run("microloan-setup --sessions --user amina", given=FIRST + "\n")
        self.assertIn("amina signs in as 1/1, the head manager", said)
        for unit in UNITS:
            self.assertEqual(self.root.run(f"systemctl is-active {unit}").strip(), "active")
        self.wait_until(lambda: self.post("/session", {"user": "amina", "password": FIRST})[2].get("error") == 25)
        changed = self.post("/session/password", {"user": "amina", "oldpassword": FIRST, "newpassword": OWN})
        self.assertEqual(changed[0], 200)
        self.signs_in_and_is_let_in_by_the_tools()
        self.keeps_people()
        secret = self.has_a_second_factor()
        self.answers_by_tls()
        self.comes_back_with_a_backup()
        self.asks_for_the_second_factor(secret)

    def signs_in_and_is_let_in_by_the_tools(self):
        cookie = self.signed_in("/session", {"user": "amina", "password": OWN})
        shown = self.root.run(f"curl -s -b {cookie} http://127.0.0.1:8190/api/business-day")
        self.assertEqual(shown, '{"day":"2026-11-26"}')
        report = "setpriv --reuid=nobody --regid=nogroup --clear-groups microloan-report --user amina"
        self.assertIn("all", self.root.run(report, given=OWN + "\n"))
        self.root.run("systemctl restart microloan-engine")  # sessions are files, and stay
        self.wait_until(lambda: self.me(cookie).startswith('{"user":"amina"'))
        staff = "-H 'X-Desk: 1' --data '{\"office\":1,\"name\":\"Zoe\",\"role\":\"officer\"}'"
        shown = self.root.run(f"{self.curl} -b {cookie} {staff} {self.address}/api/staff")
        self.assertEqual(shown, '{"staff":"1/2"}')

    def keeps_people(self):
        said = self.root.run("microloan-people add ghost 1/77", given="a word of the ghost\n", wanted=1)
        self.assertIn("the desk has no member of staff 1/77", said)
        self.assertEqual(self.root.run("microloan-people list"), "amina 1/1\n")

    def has_a_second_factor(self):
        """Zoe's, and its key."""
        self.root.run("microloan-people add zoe 1/2", given="a first word of zoe\n")
        form = {"user": "zoe", "oldpassword": "a first word of zoe", "newpassword": ZOE}
        self.assertEqual(self.post("/session/password", form)[0], 200)
        cookie = self.signed_in("/session", {"user": "zoe", "password": ZOE})
        drawn = self.post("/session/getkey", {}, cookie)[2]
        form = {"token": drawn["token"], "code": code_of(drawn["secret"]), "TOTPName": "telephone"}
        self.assertEqual(self.post("/session/verify", form, cookie)[0], 200)
        return drawn["secret"]

    def asks_for_the_second_factor(self, secret):
        """As before the machine was lost: the password begins no session, and the code of the same key does."""
        self.address = "https://desk.example.org"
        _, head, page = self.post("/session", {"user": "zoe", "password": ZOE})
        self.assertNotIn("Set-Cookie: desk=", head)
        token = re.search('name="token" value="([0-9a-f]+)"', page)[1]
        cookie = self.signed_in("/session/code", {"user": "zoe", "token": token, "code": code_of(secret)})
        self.assertTrue(self.me(cookie).startswith('{"user":"zoe"'))

    def answers_by_tls(self):
        subject = "-subj /CN=desk.example.org -addext subjectAltName=DNS:desk.example.org"
        key = "-newkey rsa:2048 -nodes -keyout /etc/ssl/private/desk.key -out /etc/ssl/certs/desk.pem -days 2"
        self.root.run(f"openssl req -x509 {subject} {key} 2>/dev/null && echo '127.0.0.1 desk.example.org' >>/etc/hosts")
        files = "--cert /etc/ssl/certs/desk.pem --key /etc/ssl/private/desk.key --ca /etc/ssl/certs/desk.pem"
        said = self.root.run(f"microloan-setup --name desk.example.org {files}")
        self.assertIn("the desk answers at https://desk.example.org", said)
        report = "setpriv --reuid=nobody --regid=nogroup --clear-groups microloan-report --user amina"
        self.wait_until(lambda: "443" in self.root.run("ss -ltn"))
        self.assertIn("all", self.root.run(report, given=OWN + "\n"))
        shown = self.root.run("curl -s -o /dev/null -w '%{http_code} %{redirect_url}' http://desk.example.org/x")
        self.assertEqual(shown, "301 https://desk.example.org/x")
        self.assertIn("the front's certificate ends within 14 days: renew it", self.root.run("microloan-check; true"))

    def comes_back_with_a_backup(self):
        """The directory is lost; the backup has the people, their own passwords, their keys, and what the engine needs."""
        self.root.run("systemctl start microloan-backup")
        self.root.run("systemctl stop microloan " + " ".join(UNITS) + "; rm -rf /var/lib/microloan-signin")
        said = self.root.run("microloan-restore --whole")
        self.assertIn("the people, the settings and the hooks of the backup are in place", said)
        self.root.run("microloan-setup --sessions")
        self.assertEqual(self.root.run("microloan-people list"), "amina 1/1\nzoe 1/2\n")
        report = "setpriv --reuid=nobody --regid=nogroup --clear-groups microloan-report --user amina"
        self.wait_until(lambda: "all" in self.root.run(f"{report} 2>&1; true", given=OWN + "\n"))


if __name__ == "__main__":
    unittest.main()
