"""Messages by `ab` (Debian: apt-get install apache2-utils), for the trials beside this file."""
import re
import subprocess
import tempfile


class Load:
    """So many messages to an address, so many at once, each with the same body; a reading where there is none."""

    def __init__(self, address, staff, count, at_once, body=None):
        self.count, self.file = count, tempfile.NamedTemporaryFile()
        words = ["ab", "-q", "-s", "60", "-n", str(count), "-c", str(at_once), "-H", f"X-Staff: {staff}"]
        if body:
            self.file.write(body.encode())
            self.file.flush()
            words += ["-p", self.file.name, "-T", "application/json"]
        self.process = subprocess.Popen(words + [address], stdout=subprocess.PIPE, stderr=subprocess.STDOUT)

    def rate(self):
        """Messages a second, once all were answered; ValueError where one was refused or failed."""
        said = self.process.communicate()[0].decode()
        complete = re.search(r"Complete requests: +(\d+)", said)
        faults = re.search(r"\(Connect: (\d+), Receive: (\d+), Length: \d+, Exceptions: (\d+)\)", said)
        failed = sum(map(int, faults.groups())) if faults else 0
        if "Non-2xx" in said or not complete or int(complete[1]) != self.count or failed:
            raise ValueError(said.strip()[-400:])
        return float(re.search(r"Requests per second: +([\d.]+)", said)[1])
