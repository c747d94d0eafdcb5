"""Messages that wait for the one thread of a replica's desk."""
import concurrent.futures
import queue
import threading
import time

from etcd import GROUP
from messages import GIVEN_UP

GROUP_BYTES = 1000000  # of the lines of one transaction: etcd takes 1.5 MB


class Message:
    """A line, and who sent it."""

    def __init__(self, line, sender):
        self.line, self.sender, self.came_at = line, sender, time.monotonic()
        self.seen, self.remark, self.every = sender.seen, sender.remark, sender.every
        self.last_every = None  # the number of the last line for every desk that stands, where the sender asked
        self.reply = concurrent.futures.Future()

    def is_reading(self):
        return self.line.split(b" ", 2)[1] == b"GET"

    def tell(self, number, told):
        """Gives the reply behind a line of the log; None: whether it is carried out isn't known, so there is none."""
        if not self.reply.done():
            self.reply.set_result((number, told))


class Intake:
    """The messages, in the order in which they came. One that has waited for as long as a client does is refused, and
    not carried out; so is one whose sender has gone away."""

    def __init__(self, patience):
        self.patience, self.waiting = patience, queue.Queue()
        self.lock, self.is_open = threading.Lock(), True

    def ask(self, line, sender):
        """Waits for what a message is told. (Each connection has its thread.)"""
        message = Message(line, sender)
        with self.lock:
            if not self.is_open:
                return GIVEN_UP, []
            self.waiting.put(message)
        number, told = message.reply.result()
        more = [("Every-Line", message.last_every)] if message.last_every is not None else []
        return told, [("Log-Number", number), *more]

    def ask_reading(self, line, sender):
        return self.ask(line, sender) if Message(line, sender).is_reading() else (GIVEN_UP, [])

    def take(self, wait, number):
        """The messages that wait, as many as one transaction takes; none where none comes in so many seconds."""
        group, size = [], 0
        try:
            while len(group) < GROUP and size < GROUP_BYTES:
                message = self.waiting.get(timeout=0 if group else wait)
                if not self.refused_as_late(message, number):
                    group.append(message)
                    size += len(message.line)
        except queue.Empty:
            pass
        return group

    def refused_as_late(self, message, number):
        is_late = time.monotonic() - message.came_at > self.patience or message.sender.is_gone()
        if is_late:
            message.tell(number, GIVEN_UP)
        return is_late

    def close(self, number):
        """Takes no more messages, and refuses those that wait."""
        with self.lock:
            self.is_open = False
        while not self.waiting.empty():
            self.waiting.get().tell(number, GIVEN_UP)
