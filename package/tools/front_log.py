"""The front's log of messages, with its rotated files: for the scripts beside this one, and for those of audit/."""
import glob
import gzip
import json
import os
import sys

LOG = "/var/log/microloan/messages.log"


def files_of(path):
    """A log's rotated files, the oldest first, and then the log itself."""
    rotated = sorted(glob.glob(glob.escape(path) + "-*"), key=lambda name: name.removesuffix(".gz"))
    return rotated + ([path] if os.path.exists(path) or not rotated else [])


def messages_of(path):
    """The messages of a log and of its rotated files. Each tells also its `file` and its `line` there."""
    wrong = 0
    for name in files_of(path):
        with (gzip.open if name.endswith(".gz") else open)(name, "rt", encoding="utf-8", errors="replace") as file:
            for number, line in enumerate(file, 1):
                try:
                    yield {**json.loads(line), "file": name, "line": number}
                except (ValueError, TypeError):
                    wrong += 1
    if wrong:
        print(f"{os.path.basename(sys.argv[0])}: {wrong} lines are no messages", file=sys.stderr)
