"""Which requests a journal has as lines, and what each names, as its rules say.

bench/loan-model and bench/journal-lines use it.
"""
import re


def is_noted(method, path, status):
    """Whether a request changed something, by the status of its reply; a receipt that is sent again didn't."""
    is_reading = method == "GET" or path.startswith("/lists/")
    is_repeated = path.endswith("/repayments") and status == 200
    return status in (200, 201) and not is_reading and not is_repeated


def named(path, told):
    """The office and the loan that the reply to a path names; 0 where it names none."""
    loan = told.get("loan") or (re.match(r"/loans/([0-9]{4}-[0-9]{6})/", path) or [None, None])[1]
    if loan:
        office, loan = loan.split("-")
        return int(office), int(loan)
    if "office" in told:
        return told["office"], 0
    if "staff" in told:
        return int(told["staff"].split("/")[0]), 0
    if "client" in told:
        return int(told["client"].split("-")[0]), 0
    return 0, 0
