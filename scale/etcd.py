"""The log of replicas in etcd, by its calls in JSON over HTTP. (A process of `etcdctl` takes 20 milliseconds more.)"""
import base64
import http.client
import json
import ssl
import time

GROUP = 100  # lines of one transaction: etcd takes 128 puts
PATIENCE, PASSWORD_PATIENCE = 1, 5  # seconds that one node is waited for; a password takes it longer
WRITER, LOG, KEPT, LAST = "microloan/writer", "microloan/log/", "microloan/kept/", "~"
INSTITUTION, ANSWERED_BY, HEAD = "microloan/institution", "microloan/program", "microloan/head/"
EVERY_LINE = "microloan/every-line"


class Lost(Exception):
    """This process can't go on: it was told to end, or another is the writer."""


class Full(Lost):
    """etcd has no room: it answers readings alone."""


class NoAnswer(Exception):
    """No node gave an answer in time. What was asked for may be carried out all the same."""


def encoded(text):
    return base64.b64encode(text if isinstance(text, bytes) else text.encode()).decode()


def range_of(first, last=None, limit=0):
    """What etcd is asked for the keys from one to another, or for one."""
    return {"key": encoded(first), "limit": limit} | ({"range_end": encoded(last)} if last else {})


def rows_of(told):
    """The keys of a range, with the values and the revisions that made them."""
    text = base64.b64decode
    rows = told.get("kvs", [])
    return [(text(row["key"]).decode(), text(row.get("value", "")), int(row["create_revision"])) for row in rows]


def key_of(number):
    """The key of a line of the log."""
    return f"{LOG}{number:012}"


def add_words(words):
    """The options by which a program reaches etcd."""
    words.add_argument("--etcd", required=True, help="the nodes, each as host:port")
    words.add_argument("--etcd-ca", help="the file of the authority that signed the nodes' certificates: TLS")
    words.add_argument("--etcd-cert", help="the file of this program's certificate, where etcd asks for one")
    words.add_argument("--etcd-key", help="the file of that certificate's key")
    words.add_argument("--etcd-user", help="a file with a name, a colon and a password, where etcd asks for them")


class Access:
    """How etcd is reached: its nodes, TLS, and who asks."""

    def __init__(self, nodes, context=None, user=None):
        self.nodes, self.context, self.user = nodes, context, user

    @staticmethod
    def of_words(asked):
        context = user = None
        if asked.etcd_ca:
            context = ssl.create_default_context(cafile=asked.etcd_ca)
            if asked.etcd_cert:
                context.load_cert_chain(asked.etcd_cert, asked.etcd_key)
        if asked.etcd_user:
            with open(asked.etcd_user, encoding="utf-8") as file:
                user = file.readline().rstrip("\n").split(":", 1)
        return Access(asked.etcd.split(","), context, user)

    def connection(self, node):
        if self.context:
            return http.client.HTTPSConnection(node, timeout=PATIENCE, context=self.context)
        return http.client.HTTPConnection(node, timeout=PATIENCE)


class Etcd:
    """Whichever node answers, until an event says that this process is to end."""

    def __init__(self, access, stopping):
        self.access, self.nodes, self.stopping = access, list(access.nodes), stopping
        self.connection = self.token = None

    def call(self, path, body, within=None):
        """Asks one node after the other until one answers, for so many seconds where they are given. So a call may be
        carried out more than once."""
        end = within and time.monotonic() + within
        while not self.stopping.is_set():
            if end and time.monotonic() > end:
                raise NoAnswer
            try:
                if self.access.user and not self.token:
                    name, password = self.access.user
                    asked = {"name": name, "password": password}
                    self.token = self.exchange("/auth/authenticate", asked, PASSWORD_PATIENCE)[1]["token"]
                status, told = self.exchange(path, body)
                if status in (200, 404):  # 404: it has no such lease
                    return told
                if status < 500 and status not in (401, 408):  # 408: a node that is ending cancels its calls
                    raise (Full if status == 429 else Lost)(f"etcd refuses {path}: {told.get('error')}")
            except (OSError, http.client.HTTPException, ValueError, KeyError):
                pass
            self.connection = self.connection and self.connection.close()
            self.token = None
            self.nodes.append(self.nodes.pop(0))
            time.sleep(0.05)
        raise Lost("told to end")

    def exchange(self, path, body, patience=PATIENCE):
        """The status and the reply of the first node to a call."""
        self.connection = self.connection or self.access.connection(self.nodes[0])
        if not self.connection.sock:
            self.connection.connect()
        self.connection.sock.settimeout(patience)
        fields = {"Authorization": self.token} if self.token else {}
        self.connection.request("POST", "/v3" + path, json.dumps(body), fields)
        reply = self.connection.getresponse()
        return reply.status, json.loads(reply.read())

    def found(self, first, last=None, limit=0, within=None):
        """The keys from one to another, with the values and the revisions that made them, as a majority has them."""
        return rows_of(self.call("/kv/range", range_of(first, last, limit), within))

    def last_of(self, first, last, within=None):
        """The last of the keys from one to another, as `found` gives it; none where there is none."""
        asked = range_of(first, last, 1) | {"sort_order": "DESCEND", "sort_target": "KEY"}
        return next(iter(rows_of(self.call("/kv/range", asked, within))), None)

    def found_at_once(self, *ranges, within=None):
        """What `found` gives for each of several ranges, as all stood at one moment."""
        asked = {"success": [{"request_range": range_of(*words)} for words in ranges]}
        told = self.call("/kv/txn", asked, within)["responses"]
        return [rows_of(response["response_range"]) for response in told]

    def count(self, first, last, within=None):
        """How many keys there are from one to another."""
        body = {"key": encoded(first), "range_end": encoded(last), "count_only": True}
        return int(self.call("/kv/range", body, within).get("count", 0))

    def put_where(self, revisions, puts, lease=0, there=(), values=(), within=None):
        """Puts all, where each of these keys was made at this revision (0: isn't there), those of `there` stand, and
        those of `values` have these; tells whether it did."""
        compare = [{"key": encoded(key), "target": "CREATE", "create_revision": at} for key, at in revisions]
        compare += [{"key": encoded(key), "target": "CREATE", "result": "GREATER"} for key in there]
        compare += [{"key": encoded(key), "target": "VALUE", "value": encoded(value)} for key, value in values]
        puts = [{"key": encoded(key), "value": encoded(value), "lease": lease} for key, value in puts]
        asked = {"compare": compare, "success": [{"request_put": put} for put in puts]}
        return self.call("/kv/txn", asked, within).get("succeeded", False)
