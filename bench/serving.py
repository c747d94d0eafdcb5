"""A server of the program over a file, and messages to it: for the scripts beside this one."""
import socket
import subprocess
import sys
import time

PATIENCE = 60  # seconds that a client waits for the server


def free_port():
    """A port where nobody listens, below those that the system gives to clients."""
    for port in range(20000, 32768):
        with socket.socket() as client:
            if client.connect_ex(("127.0.0.1", port)) != 0:
                return port
    sys.exit("no port is free")


def message(method, path, body="", told=()):
    """A message from the head's manager, with these bytes in fields X-Told."""
    length = f"Content-Length: {len(body)}\r\n" if body else ""
    fields = b"".join(b"X-Told: " + value + b"\r\n" for value in told)
    head = f"{method} {path} HTTP/1.1\r\nHost: localhost\r\nX-Staff: 1/1\r\n{length}".encode()
    return head + fields + b"\r\n" + body.encode()


def received(stream):
    """What comes until the other side closes."""
    found = []
    while more := stream.recv(1 << 16):
        found.append(more)
    return b"".join(found)


def peak_of(number):
    """Peak memory of a process that runs, in MiB."""
    with open(f"/proc/{number}/status") as status:
        for line in status:
            if line.startswith("VmHWM"):
                return int(line.split()[1]) / 1024
    return 0.0


class Server:
    """The program's `serve` over a file, for so many connections; for 0 without end. It waits for a silent client for so
    many seconds, or for as long as the program does by itself. It is given more words."""

    def __init__(self, program, path, count=0, patience=None, more=()):
        self.port = free_port()
        words = [program, "serve", "--file", path, "--port", str(self.port), "--count", str(count), *more]
        if patience is not None:
            words += ["--patience", str(patience)]
        self.process = subprocess.Popen(words, stdin=subprocess.DEVNULL)

    def connect(self, patience=PATIENCE):
        """A connection, as soon as the server listens; its client waits for the server for so many seconds."""
        while True:
            stream = socket.socket()
            stream.settimeout(patience)
            if stream.connect_ex(("127.0.0.1", self.port)) == 0:
                return stream
            stream.close()
            if self.process.poll() is not None:
                sys.exit(f"the server ended with status {self.process.returncode}")
            time.sleep(0.005)

    def exchange(self, sent, patience=PATIENCE):
        """The reply to a message, which goes over a connection of its own."""
        with self.connect(patience) as stream:
            stream.sendall(sent)
            return received(stream)

    def peak(self):
        """Peak memory so far, in MiB."""
        return peak_of(self.process.pid)

    def end(self):
        """Waits until all connections were served. It must end well."""
        if self.process.wait() != 0:
            sys.exit(f"the server ended with status {self.process.returncode}")

    def stop(self):
        """Ends the server where it stands."""
        self.process.kill()
        self.process.wait()
