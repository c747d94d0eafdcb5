"""Processes that are fed by the scripts beside this one, and the processor time that they take: the program, answering
request lines over a file, and the `sqlite3` shell over a file.

What they write goes to a file in memory: replies that come by a pipe cost the waking of their reader, which is the
system's cost and not theirs.
"""
import os
import subprocess
import sys
import tempfile
import time

import institutions as files
from serving import peak_of

CORE = max(os.sched_getaffinity(0))
# The shell holds the file for itself and keeps all of it in memory, as the program does.
SETTINGS = "PRAGMA locking_mode = EXCLUSIVE;\nPRAGMA cache_size = -4000000;\n"


def processor_time(number):
    """Seconds of processor time, the system's for it too, that a process has taken since it was started."""
    return time.clock_gettime(~number << 3 | 2)  # the clock that clock_getcpuclockid(3) names


class Worker:
    """A process that is fed text."""

    def __init__(self, words, folder):
        self.told = tempfile.TemporaryFile(dir=folder)
        self.process = subprocess.Popen(words, stdin=subprocess.PIPE, stdout=self.told)
        self.read = 0

    def stay_on_core(self):
        """Has the process run on the one core that all run on, one at a time, which are to be compared: what else the
        machine does there, or on the core's other half, slows all of them alike."""
        os.sched_setaffinity(self.process.pid, {CORE})

    def fed(self, text, is_all):
        """Processor seconds for a text, and what is written until all of it is there."""
        before = processor_time(self.process.pid)
        self.process.stdin.write(text)
        self.process.stdin.flush()
        found = b""
        while not is_all(found):
            more = os.pread(self.told.fileno(), 1 << 24, self.read)
            self.read += len(more)
            found += more
            if not more:
                self.wait_a_little()
        return processor_time(self.process.pid) - before, found

    def wait_a_little(self):
        """Lets the process work on. It must not have ended."""
        if self.process.poll() is not None:
            sys.exit(f"{self.process.args[0]} ended with status {self.process.returncode}")
        time.sleep(0.0005)

    def peak(self):
        """Peak memory so far, in MiB."""
        return peak_of(self.process.pid)

    def end(self):
        """Lets the process end in order."""
        self.process.stdin.close()
        if self.process.wait() != 0:
            sys.exit(f"{self.process.args[0]} ended with status {self.process.returncode}")


class Desk(Worker):
    """The program over a file that holds an institution. `opened`: the processor seconds until it answers."""

    def __init__(self, path, folder, more=()):
        super().__init__([files.PROGRAM, "batch", "--existing", "--file", path, *more], folder)
        self.answered(["1/1 GET /business-day\n"])
        self.opened = processor_time(self.process.pid)

    def answered(self, lines):
        """Processor seconds for request lines, and their replies, which must be successes."""
        seconds, told = self.fed("".join(lines).encode(), lambda found: found.count(b"\n") == len(lines))
        replies = told.decode().splitlines()
        refused = [reply for reply in replies if not reply.startswith("20")]
        if refused:
            sys.exit(f"the program refuses {len(refused)} of {len(lines)} lines, the first with {refused[0][:100]}")
        return seconds, replies


    def replied(self, line):
        """The reply to a line, whatever it is."""
        return self.fed(line.encode(), lambda found: found.endswith(b"\n"))[1].decode()


class Shell(Worker):
    """The `sqlite3` shell over a file."""

    def __init__(self, path, folder):
        super().__init__(["sqlite3", "-batch", "-bail", path], folder)
        self.done(SETTINGS)

    def done(self, script):
        """Processor seconds for a script, and what it prints."""
        seconds, told = self.fed(f"{script}.print end\n".encode(), lambda found: found.endswith(b"end\n"))
        return seconds, told.decode().splitlines()[:-1]
