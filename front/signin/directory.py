"""People in the directory of the sign-in: who they are, their passwords, and the sessions that the engine holds for them.

For `people` and `passwords`. It needs Debian's python3-ldap.
"""
import contextlib
import datetime
import json
import os
import secrets
import urllib.parse

import ldap
import ldap.controls.ppolicy
import ldap.filter

PEOPLE = "ou=people,o=desk"
READER = "reader"
LOCKED_FOR = datetime.timedelta(seconds=600)  # people.ldif has it too
LETTERS = "abcdefghjkmnpqrstuvwxyz23456789"
NEEDED = ("uid", "employeeNumber", "employeeType", "manager", "pwdReset", "pwdAccountLockedTime")
# what the password policy says of a new password
QUALITY = {5: "easy", 6: "short", 8: "had"}


class Refused(Exception):
    """Why something isn't done, as a word: password, locked, easy, short, had, nobody, other."""


def dn_of(name):
    return f"uid={name},{PEOPLE}"


def address_of(folder):
    return "ldapi://" + urllib.parse.quote(os.path.join(folder, "socket", "directory"), safe="")


def drawn_password():
    return "".join(secrets.choice(LETTERS) for _ in range(12))


@contextlib.contextmanager
def as_user_of_machine(folder):
    """A connection with the rights of the user who runs this: root keeps people, the engine's user reads them."""
    connection = ldap.initialize(address_of(folder))
    connection.sasl_non_interactive_bind_s("EXTERNAL")
    try:
        yield connection
    finally:
        connection.unbind_s()


@contextlib.contextmanager
def as_person(folder, name, password):
    """A connection with a person's own rights."""
    connection = ldap.initialize(address_of(folder))
    asked = [ldap.controls.ppolicy.PasswordPolicyControl()]
    try:
        if not password:  # that would be a bind as nobody, which succeeds
            raise Refused("password")
        try:
            connection.simple_bind_s(dn_of(name), password, serverctrls=asked)
        except ldap.INVALID_CREDENTIALS as fault:
            raise Refused("locked" if policy_error(fault) == 1 else "password") from None
        yield connection
    finally:
        connection.unbind_s()


def policy_error(fault):
    """The number of the password policy's error in what a refusal carries; None where it has none."""
    told = fault.args[0].get("ctrls") or []
    for kind, _, value in told:
        if kind == ldap.controls.ppolicy.PasswordPolicyControl.controlType:
            control = ldap.controls.ppolicy.PasswordPolicyControl()
            control.decodeControlValue(value)
            return control.error
    return None


def set_password(connection, name, old, new):
    """Sets a password: one's own, by the old one, or that of somebody else, where the directory lets the connection."""
    asked = [ldap.controls.ppolicy.PasswordPolicyControl()]
    try:
        connection.passwd_s(dn_of(name), old, new, serverctrls=asked)
    except ldap.CONSTRAINT_VIOLATION as fault:
        raise Refused(QUALITY.get(policy_error(fault), "other")) from None
    except (ldap.INSUFFICIENT_ACCESS, ldap.NO_SUCH_OBJECT, ldap.UNWILLING_TO_PERFORM):
        raise Refused("nobody") from None


def let_in_again(connection, name, must_change):
    """Ends a lock-out; where it is asked for, the next sign-in must begin with a new password."""
    changes = [(ldap.MOD_REPLACE, "pwdAccountLockedTime", None)]
    if must_change:
        changes.append((ldap.MOD_REPLACE, "pwdReset", [b"TRUE"]))
    try:
        connection.modify_s(dn_of(name), changes)
    except (ldap.INSUFFICIENT_ACCESS, ldap.NO_SUCH_OBJECT):
        raise Refused("nobody") from None


def people_of(connection, manager=None):
    """The people, or those of one manager, by name."""
    wanted = "(uid=*)" if manager is None else f"(manager={ldap.filter.escape_filter_chars(dn_of(manager))})"
    found = connection.search_s(PEOPLE, ldap.SCOPE_ONELEVEL, wanted, NEEDED)
    return sorted((person_of(values) for _, values in found), key=lambda person: person["name"])


def person_of(values):
    first = {key: found[0].decode() for key, found in values.items()}
    manager = first.get("manager")
    return {
        "name": first["uid"],
        "staff": first["employeeNumber"],
        "reader": first.get("employeeType") == READER,
        "manager": manager.split(",")[0].removeprefix("uid=") if manager else None,
        "must_change": first.get("pwdReset") == "TRUE",
        "locked": is_locked(first.get("pwdAccountLockedTime")),
    }


def is_locked(since):
    if since is None:
        return False
    began = datetime.datetime.strptime(since, "%Y%m%d%H%M%SZ").replace(tzinfo=datetime.timezone.utc)
    return datetime.datetime.now(datetime.timezone.utc) < began + LOCKED_FOR


def add_person(connection, name, staff, password, reader=False, manager=None):
    members = {"objectClass": "inetOrgPerson", "uid": name, "cn": name, "sn": name, "employeeNumber": staff}
    members |= {"employeeType": READER} if reader else {}
    members |= {"manager": dn_of(manager)} if manager else {}
    connection.add_s(dn_of(name), [(key, [value.encode()]) for key, value in members.items()])
    try:
        set_password(connection, name, None, password)
        let_in_again(connection, name, must_change=True)
    except BaseException:
        connection.delete_s(dn_of(name))
        raise


def remove_person(connection, name):
    try:
        connection.delete_s(dn_of(name))
    except ldap.NO_SUCH_OBJECT:
        raise Refused("nobody") from None


def end_sessions(folder, name, but=None):
    """Ends the sessions of a person, but for one. The engine asks for a session's file at each message."""
    for path, kept in kept_by_engine(folder, "sessions"):
        if kept.get("uid") == name and os.path.basename(path) != but:
            with contextlib.suppress(FileNotFoundError):
                os.unlink(path)


def forget_second_factor(folder, name):
    for path, kept in kept_by_engine(folder, "codes"):
        if kept.get("_session_uid") == name:
            os.unlink(path)


def kept_by_engine(folder, kind):
    """The files in which the engine keeps something, each with what it holds."""
    with os.scandir(os.path.join(folder, "engine", kind)) as entries:
        for entry in entries:
            if entry.is_file():
                with contextlib.suppress(FileNotFoundError, ValueError), open(entry.path, encoding="utf-8") as file:
                    yield entry.path, json.load(file)
