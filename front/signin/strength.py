"""What stands against a password, as Debian's cracklib-runtime judges it: for `people` and `passwords`."""
import shutil
import subprocess

LEAST_LENGTH = 10  # with sessions; people.ldif has it too
CHECK = shutil.which("cracklib-check", path="/usr/sbin:/usr/bin")


def weakness(password):
    """What cracklib says against a password, which isn't an argument of a command; None where it says nothing."""
    done = subprocess.run([CHECK], input=password + "\n", capture_output=True, text=True, check=True)
    verdict = done.stdout.strip().rsplit(": ", 1)[-1]
    return None if verdict == "OK" else verdict
