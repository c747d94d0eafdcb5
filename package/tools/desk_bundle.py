"""A backup as a bundle: the whole desk in one file, compressed, encrypted by age and signed by minisign.

The folder of the keys is root's alone:
    machine.key        this machine's key of age: opens the bundles that were made here
    institution.pub    the institution's keys of age, one a line, whose secret halves aren't on this machine
    sign.key, sign.pub the pair of minisign by which bundles are signed

A bundle holds, in this order: desk.json (when and where it was made, what it holds, its place in the log), desk.db,
then the settings as etc/.., the people of the sign-in by sessions as sign-in/.., the notes of visits as visits/.., and
the log as log/.. .
"""
import contextlib
import gzip
import io
import json
import os
import pwd
import re
import stat
import subprocess
import tarfile

KEYS = "/etc/microloan/keys"
LOG_FOLDER = "log/"
SIGN_IN = "/var/lib/microloan-signin"
SETTINGS = ("/etc/microloan", "/etc/microloan-client", "/etc/nginx/sites-available/microloan")
VISITS = "/var/lib/microloan-visits"
NOTES = re.compile(r"visits/([0-9]{4}-[0-9]{6})")  # of one client
RECIPIENT = re.compile(r"age1[0-9a-z]{20,}")


class Failed(Exception):
    """Why there is no bundle, or why one isn't opened."""


def run(*words):
    done = subprocess.run(words, capture_output=True, text=True, check=False)
    if done.returncode:
        raise Failed(f"{words[0]}: {(done.stderr or done.stdout).strip()}")
    return done.stdout.strip()


def make_keys(keys):
    """Makes what keys of the machine's are missing."""
    os.makedirs(keys, mode=0o700, exist_ok=True)
    machine, secret, public = (os.path.join(keys, name) for name in ("machine.key", "sign.key", "sign.pub"))
    with contextlib.suppress(FileNotFoundError):
        os.unlink(machine + ".new")
    if not os.path.exists(machine):
        run("age-keygen", "--output", machine + ".new")
        os.rename(machine + ".new", machine)
    if not os.path.exists(secret):
        # the public half first: where the secret one is there, so is this
        run("minisign", "-G", "-W", "-f", "-s", secret + ".new", "-p", public)
        os.rename(secret + ".new", secret)


def institution_keys(keys):
    """The public keys of the institution's."""
    try:
        with open(os.path.join(keys, "institution.pub"), encoding="ascii") as file:
            lines = [line.strip() for line in file if line.strip() and not line.startswith("#")]
    except FileNotFoundError:
        return []
    wrong = [line for line in lines if not RECIPIENT.fullmatch(line)]
    if wrong:
        raise Failed(f"{keys}/institution.pub: {wrong[0]!r} is no key of age")
    return lines


def add_institution_key(keys, recipient):
    """Puts a public key of the institution's among those that open the next bundles."""
    path = os.path.join(keys, "institution.pub")
    lines = institution_keys(keys) + [recipient]
    with open(path + ".new", "w", encoding="ascii") as file:
        file.write("".join(line + "\n" for line in lines))
        file.flush()
        os.fsync(file.fileno())
    os.rename(path + ".new", path)


def signer_of(keys):
    """The public half by which bundles are signed, as one word."""
    with open(os.path.join(keys, "sign.pub"), encoding="ascii") as file:
        return file.read().splitlines()[1]


@contextlib.contextmanager
def sealed(path, keys):
    """A tar file to be written; what is written comes compressed and encrypted into a file."""
    machine = run("age-keygen", "-y", os.path.join(keys, "machine.key"))
    words = ["age", "--encrypt", "--output", path]
    for recipient in (machine, *institution_keys(keys)):
        words += ["--recipient", recipient]
    age = subprocess.Popen(words, stdin=subprocess.PIPE)
    try:
        with gzip.GzipFile(fileobj=age.stdin, mode="wb", compresslevel=1, mtime=0) as packed:
            with tarfile.open(fileobj=packed, mode="w|", format=tarfile.PAX_FORMAT) as tar:
                yield tar
        age.stdin.close()
        if age.wait():
            raise Failed(f"age: status {age.returncode}")
    finally:
        if age.poll() is None:
            age.kill()
            age.wait()


def add_text(tar, name, text):
    data = text.encode()
    tar.addfile(described(name, len(data), 0o600), io.BytesIO(data))


def described(name, size, mode):
    member = tarfile.TarInfo(name)
    member.size, member.mode = size, mode
    return member


def add_file(tar, name, path):
    """Puts a file into a tar file, as long as it is now; a link or anything else than a plain file isn't followed."""
    with open(os.open(path, os.O_RDONLY | os.O_NOFOLLOW | os.O_NONBLOCK), "rb") as file:
        found = os.fstat(file.fileno())
        if not stat.S_ISREG(found.st_mode):
            return
        member = tar.gettarinfo(arcname=name, fileobj=file)
        member.size = found.st_size
        tar.addfile(member, file)


def add_settings(tar, keys):
    """Puts people, settings of the site and hooks into a tar file, and of the keys the institution's public ones."""
    for top in SETTINGS:
        names = [top] if os.path.isfile(top) else []
        for folder, folders, found in os.walk(top):
            folders[:] = sorted(name for name in folders if os.path.join(folder, name) != keys)
            names += [os.path.join(folder, name) for name in sorted(found)]
        public = os.path.join(keys, "institution.pub")
        names += [public] if public.startswith(top) and os.path.exists(public) else []
        for name in names:
            if not os.path.islink(name):
                add_file(tar, name.lstrip("/"), name)


def add_sign_in(tar):
    """Puts the people of the sign-in by sessions into a tar file: their directory as text, secrets, second factors."""
    settings = os.path.join(SIGN_IN, "slapd.conf")
    if not os.path.exists(settings):
        return
    owner = pwd.getpwuid(os.stat(settings).st_uid).pw_name
    people = run("setpriv", f"--reuid={owner}", f"--regid={owner}", "--clear-groups", "slapcat", "-f", settings)
    add_text(tar, "sign-in/people.ldif", people + "\n")
    codes = os.path.join(SIGN_IN, "engine", "codes")
    names = ["portal.word", "key.word"] + [f"engine/codes/{name}" for name in sorted(os.listdir(codes))]
    for name in names:
        if os.path.isfile(os.path.join(SIGN_IN, name)):
            add_file(tar, f"sign-in/{name}", os.path.join(SIGN_IN, name))


def visited(folder):
    """The clients of which there are notes of visits: a file each, in a folder of nginx's workers."""
    names = sorted(os.listdir(folder)) if os.path.isdir(folder) else []
    return [name for name in names if NOTES.fullmatch(f"visits/{name}")]


def add_visits(tar, folder):
    """Puts the notes of visits into a tar file."""
    for name in visited(folder):
        if not os.path.islink(os.path.join(folder, name)):
            add_file(tar, f"visits/{name}", os.path.join(folder, name))


def sign(path, keys, comment):
    secret = os.path.join(keys, "sign.key")
    run("minisign", "-S", "-W", "-s", secret, "-m", path, "-x", path + ".minisig", "-t", comment)


def verify(path, signature, signer):
    """Refuses a bundle that isn't as it was signed."""
    try:
        run("minisign", "-V", "-q", "-P", signer, "-m", path, "-x", signature)
    except Failed:
        raise Failed(f"{os.path.basename(path)} isn't as it was signed, or wasn't signed by {signer}") from None


def newest(folder):
    """The newest bundle of a folder."""
    names = sorted(name for name in os.listdir(folder) if re.fullmatch(r"desk-[0-9T-]{17}.*\.tar\.age", name))
    if not names:
        raise Failed(f"there is no backup in {folder}")
    return os.path.join(folder, names[-1])


@contextlib.contextmanager
def opened(path, identity):
    """The members of a bundle, one after the other, and what is told of it."""
    age = subprocess.Popen(
        ["age", "--decrypt", "--identity", identity, path], stdout=subprocess.PIPE, stderr=subprocess.PIPE
    )
    try:
        with gzip.GzipFile(fileobj=age.stdout) as unpacked, tarfile.open(fileobj=unpacked, mode="r|") as tar:
            first = tar.next()
            if first is None or first.name != "desk.json":
                raise Failed(f"{path} is no bundle of a desk")
            yield tar, json.loads(tar.extractfile(first).read())
    except (tarfile.TarError, EOFError, gzip.BadGzipFile):
        age.stdout.close()
        said = age.stderr.read().decode(errors="replace").strip() or "it is cut short"
        raise Failed(f"{path} isn't opened: {said}") from None
    finally:
        age.kill()
        age.communicate()
