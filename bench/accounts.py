"""The program with one loan, crates/mf_account_program: for the scripts beside this one."""
import os
import subprocess
import sys

TOP = os.path.dirname(os.path.dirname(os.path.abspath(__file__)))
CRATE = os.path.join(TOP, "crates", "mf_account_program")
PROGRAM = os.path.join(CRATE, "out", "mf_account_program")


def have_program():
    """Has the program that the gate built here, or builds it: minutes where the crates below it are not proved here."""
    if not os.access(PROGRAM, os.X_OK):
        words = dict(cwd=CRATE, stdin=subprocess.DEVNULL, capture_output=True, text=True, check=False)
        done = subprocess.run(["rt", "run"], **words)
        if done.returncode != 0 or not os.access(PROGRAM, os.X_OK):
            sys.exit(f"the account's program is not built:\n{done.stdout[-2000:]}{done.stderr[-2000:]}")


def lines(steps):
    """The program's input for steps."""
    return "".join(f"{step}\n" for step in steps).encode()
