"""An institution's file: who holds it open, a copy of it while it is served, what a copy holds, and whether its log is
damaged.

    institution_files.py FILE     what comes before a start: the status is 1, and a line says so, where the log beside
                                  the file is damaged, or the file's pages have no checksums and root hasn't said that
                                  such a file is meant; a file of an older schema than the program's is copied first
    institution_files.py --mean-without-checksums FILE
                                  says for root that it is meant, where the file's pages have no checksums
"""
import contextlib
import fcntl
import json
import os
import pwd
import re
import select
import shutil
import signal
import sqlite3
import stat
import struct
import subprocess
import sys
import tempfile
import time
import traceback

FILE = "/var/lib/microloan/desk.db"
PROGRAM = "/usr/bin/microloan"
MEANT = "/etc/microloan/without-checksums"  # where it is there, a file whose pages have no checksums is served
DIFFERS = 3  # a child's status where it did what it should, and has told of something that isn't as it should be
PATIENCE = 10  # seconds that a process may take to stand still
MAGIC = 0x377F0682  # of a log whose sums are of words with the lowest byte first; with 1 added the other way round
HEADER, FRAME = 32, 24  # bytes before the frames, and of a frame before its page


class Failed(Exception):
    """Why something was not done."""


class Told(Exception):
    """Something was not done, and a child has said why."""


def opened_by(name):
    """What a process has open. What it closes meanwhile, as a connection, is left out."""
    found = []
    for number in os.listdir(f"/proc/{name}/fd"):
        with contextlib.suppress(FileNotFoundError):
            found.append(os.readlink(f"/proc/{name}/fd/{number}"))
    return found


def holders(path):
    """The processes that have the file open, of those that this user may look at."""
    found = []
    wanted = os.path.realpath(path)
    for name in os.listdir("/proc"):
        if name.isdigit() and int(name) != os.getpid():
            with contextlib.suppress(OSError):
                if wanted in opened_by(name):
                    found.append(int(name))
    return found


def stands_still(number):
    """Whether all threads of a process are stopped."""
    for thread in os.listdir(f"/proc/{number}/task"):
        with open(f"/proc/{number}/task/{thread}/stat", encoding="ascii", errors="replace") as file:
            if file.read().rpartition(")")[2].split()[0] not in "Tt":
                return False
    return True


class Standstill:
    """A process that stands still for moments, and goes on afterwards in any case.

    A child sees to that, even where this one is killed, alone or with its group. The child says that it is ready before
    the process is stopped for the first time. Where both are killed at once, as by `systemctl kill`, somebody else has
    to send SIGCONT: the unit of the backup and microloan-check do.
    """

    def __init__(self, number, path):
        self.number = number
        self.handle = os.pidfd_open(number)
        if number not in holders(path):
            raise Failed("the program ended meanwhile")
        (ready, say_ready), (ended, self.end) = os.pipe(), os.pipe()
        self.child = os.fork()
        if self.child == 0:
            os.close(self.end)
            go_on_when_ended(self.handle, say_ready, ended)
        for one in (say_ready, ended):
            os.close(one)
        with os.fdopen(ready, "rb") as file:
            if file.read(1) != b"r":
                raise Failed("no child sees to it that the program goes on")

    def stop(self):
        signal.pidfd_send_signal(self.handle, signal.SIGSTOP)
        until = time.monotonic() + PATIENCE
        while not stands_still(self.number):
            if time.monotonic() > until:
                raise Failed(f"the process {self.number} doesn't stop")
            time.sleep(0.0005)

    def go_on(self):
        signal.pidfd_send_signal(self.handle, signal.SIGCONT)

    def __enter__(self):
        return self

    def __exit__(self, *_):
        os.close(self.end)
        os.waitpid(self.child, 0)
        os.close(self.handle)


def go_on_when_ended(handle, ready, ended):
    """The child: waits until the pipe's other end is closed, by whatever, and has the process go on."""
    os.setsid()
    for number in (signal.SIGINT, signal.SIGTERM, signal.SIGHUP):
        signal.signal(number, signal.SIG_IGN)
    os.write(ready, b"r")
    os.close(ready)
    select.select([ended], [], [])
    with contextlib.suppress(ProcessLookupError):
        signal.pidfd_send_signal(handle, signal.SIGCONT)
    os._exit(0)


def is_idle(number):
    """Whether a served program that stands still has no message in hand: its one socket is that at which it listens."""
    found = 0
    for name in os.listdir(f"/proc/{number}/fd"):
        if int(name) > 2 and os.readlink(f"/proc/{number}/fd/{name}").startswith("socket:"):
            found += 1
    return found <= 1


def owner_of(path):
    """Whose an institution's file is: the owner of its folder."""
    return pwd.getpwuid(os.stat(os.path.dirname(path)).st_uid)


def become(owner):
    """Where root runs this it goes on as the owner, and so follows no link to what isn't theirs."""
    if os.geteuid() == 0 and owner.pw_uid != 0:
        os.setgroups([])
        os.setgid(owner.pw_gid)
        os.setuid(owner.pw_uid)


def end_child(work, owner):
    """A child's whole life: becomes the owner, works, and says what stood against it. Its status: 1 where it did."""
    status = 0
    try:
        become(owner)
        work()
    except BrokenPipeError:
        status = 2  # nobody listens any more: the parent knows why
    except (Failed, OSError) as why:
        print(f"{os.path.basename(sys.argv[0])}: {why}", file=sys.stderr)
        status = 1
    except BaseException:
        traceback.print_exc()
        status = 1
    with contextlib.suppress(OSError):
        sys.stdout.flush()
    sys.stderr.flush()
    os._exit(status)


def end_of_child(child, failed=None):
    """Waits for a child; where it has said why it failed, that counts, else what failed here. Whether it ended by 0."""
    status = os.waitstatus_to_exitcode(os.waitpid(child, 0)[1])
    if status == 1:
        raise Told
    if failed:
        raise failed
    if status not in (0, DIFFERS):
        raise Failed(f"the child that works as the owner ended: {status}")
    return status == 0


def found_as_owner(path, find):
    """What a child that is the owner of the file finds there."""
    reading, writing = os.pipe()
    child = os.fork()
    if child == 0:
        os.close(reading)
        owner = owner_of(path)
        with os.fdopen(writing, "wb") as pipe:

            def tell():
                pipe.write(json.dumps(find(path)).encode())
                pipe.flush()

            end_child(tell, owner)
    os.close(writing)
    with os.fdopen(reading, "rb") as pipe:
        found = pipe.read()
    end_of_child(child)
    return json.loads(found)


def require_own(path):
    """What root runs is root's alone to write."""
    for name in (path, os.path.dirname(path)):
        found = os.stat(name)
        if found.st_uid != 0 or found.st_mode & (stat.S_IWGRP | stat.S_IWOTH):
            raise Failed(f"{name} can be written by others than root, and isn't run")


def sweep(folder, *beginnings):
    """Removes what runs that were killed have left in a folder: folders whose names so begin."""
    for name in os.listdir(folder):
        if name.startswith(beginnings):
            shutil.rmtree(os.path.join(folder, name), ignore_errors=True)


@contextlib.contextmanager
def room_in(folder, beginning):
    """A new folder in another one, for a while. Only one run at a time has one; what killed ones left is removed."""
    lock = os.open(folder, os.O_RDONLY | os.O_DIRECTORY)
    try:
        fcntl.flock(lock, fcntl.LOCK_EX)
        sweep(folder, beginning)
        room = tempfile.mkdtemp(prefix=beginning, dir=folder)
        try:
            yield room
        finally:
            shutil.rmtree(room, ignore_errors=True)
    finally:
        os.close(lock)


def copy_files(path, copy):
    """Copies the file and the log beside it, sharing blocks where the file system can."""
    for ending in ("", "-wal"):
        if os.path.exists(path + ending):
            words = ["cp", "--reflink=auto", "--", path + ending, copy + ending]
            done = subprocess.run(words, stderr=subprocess.PIPE, text=True, check=False)
            if done.returncode:
                raise Failed(done.stderr.strip())


def sums(data, before, order):
    """SQLite's sums over the words of some bytes, going on from those before."""
    first, second = before
    words = struct.unpack(f"{order}{len(data) // 4}I", data)
    for one, other in zip(words[::2], words[1::2]):
        first = first + one + second & 0xFFFFFFFF
        second = second + other + first & 0xFFFFFFFF
    return first, second


def damage_of_log(path):
    """How the log beside a file is damaged otherwise than by a stop or a lost disk write; nothing where it isn't.

    The program, as SQLite does, reads a log up to the first frame whose sums are wrong, and takes what follows for a
    commit that a stop has torn. But each commit is on the disk before the next begins, so that only the last one can
    be torn: a frame that goes on from another commit's end, by its sums, tells of damage. One that stands there without
    going on is left of a longer commit that an earlier stop has torn. A header that is wrong stands after a stop too,
    but only while its first byte is 0, which is written last.
    """
    try:
        with open(path + "-wal", "rb") as file:
            log = file.read()
    except FileNotFoundError:
        return None
    if len(log) <= HEADER + FRAME:
        return None
    magic, _, page, _, *words = struct.unpack_from(">8I", log)
    salts, found = tuple(words[:2]), tuple(words[2:])
    order = ">" if magic & 1 else "<"
    if magic & ~1 != MAGIC or sums(log[:24], (0, 0), order) != found:
        is_written = log[0] != 0 and any(log[HEADER : HEADER + 4])
        return "its header is damaged, and nothing of it would count" if is_written else None
    starts = range(HEADER, len(log) - FRAME - page + 1, FRAME + page)
    heads = [struct.unpack_from(">6I", log, at) for at in starts]

    def goes_on(number, before):
        at = starts[number]
        found = sums(log[at + FRAME : at + FRAME + page], sums(log[at : at + 8], before, order), order)
        return heads[number][2:] == (*salts, *found)

    whole = 0
    while whole < len(heads) and goes_on(whole, heads[whole - 1][4:] if whole else found):
        whole += 1
    for number in range(whole, len(heads) - 1):
        if heads[number][1] and heads[number][2:4] == salts and goes_on(number + 1, heads[number][4:]):
            return f"its frame {whole + 1} of {len(heads)} is damaged, and nothing from there on would count"
    return None


def refuse_damaged_log(path):
    damage = damage_of_log(path)
    if damage:
        raise Failed(f"{path}-wal: {damage}. Keep both files, and see recovery.md of /usr/share/doc/microloan")


def counts_of(path):
    """The business day, and how many clients, loans and entries there are, as SQLite reads them; else it is Failed.

    Closing the last connection copies the log into the file and removes it, so that the file alone is whole then.
    """
    try:
        with contextlib.closing(sqlite3.connect(f"file:{quoted(path)}?mode=rw", uri=True)) as database:
            (day,) = database.execute("select day from meta").fetchone()
            (clients,) = database.execute("select count(*) from clients").fetchone()
            (loans,) = database.execute("select count(*) from loans").fetchone()
            (entries,) = database.execute("select count(*) from entries").fetchone()
            database.execute("pragma wal_checkpoint(truncate)").fetchall()
    except (sqlite3.Error, TypeError) as fault:
        raise Failed(f"{path} holds no institution: {fault}") from None
    if os.path.exists(path + "-wal"):
        raise Failed(f"{path}-wal is still there: something else has the copy open")
    return day, clients, loans, entries


def clients_of(path):
    """The clients of a whole file, by number, as 0021-000007."""
    with contextlib.closing(sqlite3.connect(f"file:{quoted(path)}?mode=ro&immutable=1", uri=True)) as database:
        return [f"{office:04}-{number:06}" for office, number in database.execute("select office, number from clients")]


def quoted(path):
    return path.replace("%", "%25").replace("?", "%3f").replace("#", "%23")


def checked(path, program=PROGRAM):
    """Makes one whole file of a copy that is one's own, has the program check all of it, and tells what it holds.

    SQLite reads the day first: of a file without tables the program would make a new institution.
    """
    before = counts_of(path)
    words = [program, "batch", "--existing", "--file", path]
    done = subprocess.run(words, input=b"1/1 GET /business-day\n", capture_output=True, check=False)
    if done.returncode or done.stdout != f'200 {{"day":"{before[0]}"}}\n'.encode():
        raise Failed(f"the program refuses {path}: {(done.stderr or done.stdout).decode(errors='replace').strip()}")
    if counts_of(path) != before:
        raise Failed(f"{path} has changed while it was checked")
    return before


def audit(path, program=PROGRAM, *more):
    """Has the program audit a copy."""
    done = subprocess.run([program, "audit", "--file", path, *more], capture_output=True, text=True, check=False)
    if done.returncode:
        raise Failed(f"{path}: {(done.stdout + done.stderr).strip()}")


def told(counts):
    return "business day {}, {} clients, {} loans, {} entries".format(*counts)


def keep(path, place):
    """Puts a file in its place for good: its bytes and its name are on the disk when this returns."""
    for name, then in ((path, lambda: os.rename(path, place)), (os.path.dirname(place), lambda: None)):
        descriptor = os.open(name, os.O_RDONLY)
        os.fsync(descriptor)
        os.close(descriptor)
        then()


def schema_of(path):
    """The schema of a file as its own pages have it, without its log; nothing where it is no institution."""
    try:
        with contextlib.closing(sqlite3.connect(f"file:{quoted(path)}?mode=ro&immutable=1", uri=True)) as database:
            return database.execute("select schema from meta").fetchone()[0]
    except (sqlite3.Error, TypeError):
        return None


def lacks_checksums(path):
    """Whether a file holds an institution, and by its header no page ends in a checksum. The program makes none such."""
    with open(path, "rb") as file:
        header = file.read(21)
    return schema_of(path) is not None and header[20:] != bytes([8])


def refuse_without_checksums(path):
    if lacks_checksums(path) and not os.path.exists(MEANT):
        raise Failed(
            f"{path}: its pages have no checksums, so something else than this program made the file, or its release "
            f"1.0.0 did. Restore a backup. If the file is meant: touch {MEANT}"
        )


def mean_without_checksums(path):
    """Lets an institution go on whose file an older release made."""
    if os.path.exists(path) and lacks_checksums(path) and not os.path.exists(MEANT):
        with open(MEANT, "w", encoding="utf-8"):
            print(f"microloan: the pages of {path} have no checksums; it is served, since {MEANT} is there now")


def keep_older_schema(path, program=PROGRAM):
    """Copies a file that opening brings to a newer schema, from which there is no way back, into a folder beside it."""
    version = subprocess.run([program, "--version"], capture_output=True, text=True, check=False).stdout
    newest = re.search(r"\(schema (\d+)\)", version)
    schema = schema_of(path)
    if newest is None or schema is None or schema >= int(newest[1]):
        return
    found = os.stat(path)
    aside = os.path.join(os.path.dirname(path), f"before-schema-{newest[1]}-{found.st_mtime_ns}")
    if os.path.exists(aside):
        return
    with room_in(os.path.dirname(path), ".schema-") as room:
        copy_files(path, os.path.join(room, os.path.basename(path)))
        os.rename(room, aside)
        os.mkdir(room)
    print(f"the file is of schema {schema}, and is brought to {newest[1]}; as it was it is kept in {aside}", flush=True)


if __name__ == "__main__":
    try:
        if sys.argv[1] == "--mean-without-checksums":
            mean_without_checksums(sys.argv[2])
        else:
            refuse_damaged_log(sys.argv[1])
            refuse_without_checksums(sys.argv[1])
            keep_older_schema(sys.argv[1])
    except (Failed, OSError) as why:
        sys.exit(f"microloan: {why}")
