"""What people were told while machines failed, kept in a folder, and the check of it.

    messages    a line of JSON for each message that was sent: who, what line, when, and what was told
    faults      a line of JSON for each fault: what, on which machine, when, until when
    log         the lines of the log, from the first on
    told        where desks keep journals: what they were told of each of these lines
    begin.db    the file of the institution that the log began with (with begin.db-wal, where there is one)
    a.db ..     the files of the replicas at the end
    a.said ..   what the programs of each machine printed

`check` wants nothing else, so a history can be checked again, and by who didn't run it.
"""
import collections
import json
import os
import re
import shutil
import sqlite3
import subprocess
import tempfile

from desk import PROGRAM
from machines import NAMES

UNKNOWN = (0, 502, 504)  # no reply, or one that doesn't say whether the message was carried out


class Message:
    """One sending of a message. `number` is the line of the log behind which it was answered."""

    def __init__(self, who, line, began, ended, status, told, number, with_journal=False):
        self.who, self.line, self.began, self.ended = who, line, began, ended
        self.status, self.told, self.number, self.with_journal = status, told, number, with_journal

    def is_reading(self):
        return self.line.split(" ", 2)[1] == "GET"

    def is_entered(self):
        """Whether it was told that it stands in the log. With a journal a receipt that is sent again doesn't."""
        return not self.is_reading() and self.status // 100 == 2 and not (self.with_journal and self.is_again())

    def is_again(self):
        """Whether its receipt stood already."""
        return self.status == 200 and "/repayments " in self.line

    def is_answered(self):
        return self.status // 100 in (2, 4) and self.number is not None


def empty(folder):
    """Deletes the history that a folder holds, and nothing else."""
    for name in os.listdir(folder):
        if re.fullmatch(r"messages|faults|log|told|(begin|[a-z])\.db(-wal)?|[a-z]\.said", name):
            os.remove(os.path.join(folder, name))


def keep(folder, name, told):
    with open(os.path.join(folder, name), "w", encoding="utf-8") as file:
        file.writelines(json.dumps(it if isinstance(it, dict) else vars(it)) + "\n" for it in told)


def kept(folder):
    """The messages and the lines of a history."""
    with open(os.path.join(folder, "messages"), encoding="utf-8") as file:
        messages = [Message(**json.loads(line)) for line in file]
    with open(os.path.join(folder, "log"), "rb") as file:
        return messages, file.read().split(b"\n")[:-1]


def tables_of(path):
    """The rows of each table."""
    file = sqlite3.connect(path)
    names = [name for (name,) in file.execute("select name from sqlite_schema where type = 'table'")]
    tables = {name: sorted(map(repr, file.execute(f'select * from "{name}"'))) for name in names}
    file.close()
    return tables


def go_back(messages):
    """Messages that were answered from before what somebody had been told when they were sent."""
    answered = [it for it in messages if it.is_answered()]
    by_end, last = sorted(answered, key=lambda it: it.ended, reverse=True), 0
    for message in sorted(answered, key=lambda it: it.began):
        while by_end and by_end[-1].ended < message.began:
            last = max(last, by_end.pop().number)
        if message.number < last:
            yield f"{message.line} was answered behind line {message.number}, and sent after line {last} was told"


def standing_otherwise(messages, lines):
    """Lines that stand in the log more often, or less, than those who sent them were told."""
    sent, stands = collections.defaultdict(list), collections.Counter(lines)
    for message in messages:
        if not message.is_reading():
            sent[message.line.encode()].append(message)
    for line, count in stands.items():
        if line not in sent:
            yield f"{line} stands {count} times, and nobody sent it"
    for line, sendings in sent.items():
        entered = sum(it.is_entered() for it in sendings)
        entered = entered or int(any(it.is_again() for it in sendings))
        unknown = sum(it.status in UNKNOWN for it in sendings)
        if not entered <= stands[line] <= entered + unknown:
            yield f"{line} stands {stands[line]} times: {entered} times it was told so, {unknown} times nothing"


def copy_file(folder, name, path):
    """Copies a file of the program's, with its log: whoever opens it changes both."""
    for more in ("", "-wal"):
        if os.path.exists(os.path.join(folder, name + more)):
            shutil.copy(os.path.join(folder, name + more), path + more)


def single_run(folder, messages, lines, path):
    """The single program answers the lines of the log, and what isn't logged where it was answered. It gives the
    messages that were told something else."""
    between = collections.defaultdict(list)
    for message in messages:
        if message.is_answered() and not message.is_entered():
            between[message.number].append(message)
    stream, places = [], {}
    for number in range(len(lines) + 1):
        if number:
            stream.append(lines[number - 1])
            places[number] = len(stream) - 1
        for message in between[number]:
            message.place = len(stream)
            stream.append(message.line.encode())
    copy_file(folder, "begin.db", path)
    words = [PROGRAM, "batch", "--existing", "--file", path]
    fed = stream
    if os.path.exists(os.path.join(folder, "told")):
        words += ["--journal", "--told"]
        with open(os.path.join(folder, "told"), "rb") as file:
            told = dict(zip(places.values(), file.read().split(b"\n")))
        fed = [told.get(place, b"-") + b" " + line for place, line in enumerate(stream)]
    done = subprocess.run(words, input=b"".join(it + b"\n" for it in fed), stdout=subprocess.PIPE, check=True)
    replies = done.stdout.decode().split("\n")[:-1]
    for message in filter(Message.is_answered, messages):
        place = places.get(message.number) if message.is_entered() else getattr(message, "place", None)
        wanted = replies[place] if place is not None and stream[place] == message.line.encode() else "nothing"
        if f"{message.status} {message.told}" != wanted:
            told = f"{message.status} {message.told}"
            yield f"{message.line} was told {told} behind line {message.number}, by the single program {wanted}"


def receipts_otherwise(messages, path):
    """Repayments that were answered, and don't stand in one entry of the number that was told."""
    file, entries = sqlite3.connect(path), collections.defaultdict(list)
    for office, loan, number, receipt in file.execute("select office, loan, seq, receipt from entries"):
        entries[receipt].append((f"{office:04}-{loan:06}", number))
    file.close()
    for message in messages:
        if (message.is_entered() or message.is_again()) and "/repayments " in message.line:
            path, body = message.line.split(" ", 3)[2:]
            wanted = [(path.split("/")[2], json.loads(message.told)["entry"])]
            found = entries[json.loads(body)["receipt"]]
            if found != wanted:
                yield f"{message.line} was told {message.told}, and stands in {found}"


def files_otherwise(folder, path):
    """Replicas whose file isn't that of the single program, or isn't sound."""
    wanted = tables_of(path)
    for name in NAMES:
        file = os.path.join(os.path.dirname(path), f"{name}.db")
        copy_file(folder, f"{name}.db", file)
        found = tables_of(file)
        for table in sorted(set(wanted) | set(found)):
            if wanted.get(table) != found.get(table):
                yield f"the table {table} of replica {name} isn't the single program's"
        audit = subprocess.run([PROGRAM, "audit", "--file", file], stdout=subprocess.PIPE, check=False)
        if audit.returncode != 0 or b"sound" not in audit.stdout:
            yield f"the audit of replica {name}: {audit.stdout.decode().strip()}"


def check(folder):
    """What is wrong with a history: nothing, where all is as it should be."""
    messages, lines = kept(folder)
    wrong = [*go_back(messages), *standing_otherwise(messages, lines)]
    with tempfile.TemporaryDirectory() as scratch:
        path = os.path.join(scratch, "single.db")
        wrong += single_run(folder, messages, lines, path)
        wrong += receipts_otherwise(messages, path)
        wrong += files_otherwise(folder, path)
    return wrong
