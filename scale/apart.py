"""The desk of a region that is reached by an address: a group of replicas on other machines (scale/replica with
--for-regions), or `serve` behind a proxy.

The lines for every desk have numbers, by their places in every.lines. Beside that, in region-N.told, stand the number
of the last line that may have been sent to this desk, and of the last one that it has; a line is sent once the first
number is on the disk. Where its reply is lost (the connection breaks, 502, 504, no reply in PATIENCE) nobody knows
whether the line was carried out, or comes late and is carried out then:

- A group keeps the number of the last line that it took, and takes none twice. So it is sent again, with its number.
- A desk that keeps no number is never sent it again. The reading that shows the line is asked again and again; until it
  does, and where no reading would show it, nothing more goes to every desk, and a person has to look (--send-again).

503 says that the line was carried out by none, and a connection that couldn't be made sent nothing: these are tried
again. Before the first line of a run all readings that show lines are asked: a desk or a folder that was restored to an
earlier state, or a desk of other lines, is sent nothing.
"""
import http.client
import os
import sys

from every import MOMENT, OFFICES, PATIENCE, PAUSE, READING, Ended, Parted, ended, reading_of, replies_of, shown
from messages import GIVEN_UP
from routing import parts_of

PROBE = b"1/1 POST /offices"  # refused by every desk, and in a group by the writer alone


def is_of_desk(told):
    """Whether a reply is the program's, and not that of something in front of it."""
    return told[:1] == b"2" or told[4:].startswith(b'{"fault":"F')


class DeskApart:
    def __init__(self, region, address, lines, folder):
        self.region, self.address, self.lines, self.path = region, address, lines, f"region {region} at {address}"
        self.note, self.said = os.path.join(folder, f"region-{region}.told"), None
        self.sent = self.has = 0  # the last line that may have been sent, and that it has
        self.keeps_numbers = self.is_ready = False

    # ---- what it is asked

    def ask(self, line, patience=PATIENCE, number=None):
        """The reply to a line, which is that of a number; GIVEN_UP where it was carried out by none, and won't be; none
        where nobody knows."""
        staff, method, path, body = (part.decode("latin-1") for part in parts_of(line))
        fields = {"X-Staff": staff} | ({} if number is None else {"Every-Line": str(number)})
        connection = http.client.HTTPConnection(self.address, timeout=patience)
        try:
            connection.connect()
        except OSError:
            return GIVEN_UP
        try:
            connection.request(method, path, body.encode("latin-1"), fields)
            reply = connection.getresponse()
            told = b"%d %s" % (reply.status, reply.read())
        except (OSError, http.client.HTTPException, ValueError):
            return None
        finally:
            connection.close()
        if reply.status == 503:
            return GIVEN_UP
        if not is_of_desk(told):
            return None
        if number is not None:
            self.keeps_numbers = "Every-Line" in reply.headers
            if int(reply.headers.get("Every-Line", 0)) > len(self.lines):
                raise Parted(f"{self.path} has a line {reply.headers['Every-Line']}, and every.lines {len(self.lines)}")
        return told

    def surely(self, line):
        """The reply to a reading, as soon as the desk gives one."""
        while (reply := self.ask(line)) in (None, GIVEN_UP):
            self.wait("gives no answer")
        return reply

    def is_there(self):
        """Whether it takes what goes to every desk."""
        return self.ask(PROBE, MOMENT, 0) not in (None, GIVEN_UP)

    def wait(self, why):
        """Waits a moment, and says why, but not what was said last."""
        if why != self.said:
            print(f"regions: {self.path} {why}", file=sys.stderr, flush=True)
        self.said = why
        if ended.wait(PAUSE):
            raise Ended

    # ---- the lines for every desk

    def begin(self, send_again=False):
        """Finds out which lines it has, and has it take the others. `send_again`: nothing sent before comes late."""
        while not self.is_there():
            self.wait("gives no answer")
        known = self.noted()
        if known and max(known) > len(self.lines):
            raise Parted(f"{self.path} was sent {max(known)} lines, and every.lines has {len(self.lines)}")
        self.sent, self.has = known or (0, self.found(len(self.lines), 0))
        if known:
            self.has = self.found(self.has, self.sent)
            self.sent = self.has if send_again else max(self.sent, self.has)
        self.take_all()
        self.is_ready, self.said = True, None

    def found(self, *numbers):
        """Which of these numbers of lines it has, by what it shows of all lines."""
        readings = [reading_of(line, reply) for line, reply in zip(self.lines, replies_of(self.lines))]
        readings = list(dict.fromkeys([READING, OFFICES, *filter(None, readings)]))
        told = [self.surely(reading) for reading in readings]
        for number in numbers:
            if replies_of(self.lines[:number] + readings)[number:] == told:
                return number
        wanted = " or ".join(map(str, dict.fromkeys(numbers)))
        raise Parted(f"{self.path} hasn't taken {wanted} of the lines of every.lines")

    def take_all(self):
        """Has it take the lines that it lacks, one after the other. It gives the last one's reply."""
        told = None
        while self.has < len(self.lines):
            told = self.take(self.has + 1)
            self.write(self.has + 1, self.has + 1)
        return told

    def take(self, number):
        """Has it take the next line. It gives the reply."""
        is_lost, is_shown = self.sent >= number, None
        while True:
            if not is_lost or self.keeps_numbers:
                self.write(number, self.has)
                told = self.ask(self.lines[number - 1], PATIENCE, number)
                if told == GIVEN_UP and not is_lost:
                    self.write(self.has, self.has)
                elif told not in (None, GIVEN_UP):
                    return told
                is_lost = is_lost or told is None
            if is_lost:
                told, reading, before, after = is_shown = is_shown or shown(self.lines[:number])
                found = reading and self.surely(reading)
                if found and found == after != before:
                    return told
                if found not in (None, before):
                    raise Parted(f"{self.path} answers {reading.decode()} by {found[:200]}: it took other lines")
            is_stuck = is_lost and not self.keeps_numbers
            self.wait(f"{'may' if is_stuck else 'does'} not have line {number}" + ": look first" * is_stuck)

    # ---- what is known of it

    def noted(self):
        """What was written last; none where nothing was."""
        try:
            with open(self.note, encoding="ascii") as file:
                sent, has = map(int, file.read().split())
                return sent, has
        except FileNotFoundError:
            return None
        except ValueError:
            raise Parted(f"{self.note} can't be read") from None

    def write(self, sent, has):
        """Notes the last line that may have been sent, and that it has; it is on the disk before more is sent."""
        while (self.sent, self.has) != (sent, has) or not os.path.exists(self.note):
            try:
                with open(self.note + ".new", "w", encoding="ascii") as file:
                    file.write(f"{sent} {has}\n")
                    file.flush()
                    os.fsync(file.fileno())
                os.replace(self.note + ".new", self.note)
                self.sent, self.has = sent, has
            except OSError as why:
                self.wait(f"is sent nothing: {why}")

    def stop(self):
        """Nothing of it runs here."""
