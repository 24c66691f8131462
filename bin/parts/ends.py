"""Why the program ended: what its status means, and what can be told of the cause from outside."""

import contextlib
import errno
import glob
import os
import pathlib
import re
import shutil
import signal
import socket
import sqlite3
import tempfile

import settings as settings_file

MEANS = {
    2: "a read of standard input failed",
    3: "a write to standard output failed: its reader is gone, or the disk is full",
    4: "out of memory; what was answered 2xx is stored",
    8: "standard input has more than 2^40 bytes",
    9: "a reply was none of a server",
    10: "the rows of a reply do not fit what is held, or the settings are others than the server's",
    11: "the line after those that were answered is no event of the rows (docs/API.md)",
    13: "what is wanted doesn't hold where a line begins with fail (docs/AUDIT.md)",
}
SIGNALS = {
    signal.SIGXFSZ: "a file reached the size limit of the shell (ulimit -f) or of the unit "
    "(LimitFSIZE)"
}
UNHELD = {
    errno.EADDRINUSE: "is in use: ss -ltnp says by whom",
    errno.EADDRNOTAVAIL: "isn't one of this machine",
}
# The tables of a store but `format`.
TABLES = {
    "projects",
    "networks",
    "subnets",
    "ports",
    "security_groups",
    "security_group_rules",
    "routers",
    "floating_ips",
    "rbac_policies",
}


def explain(status, given):
    """A line on a status that isn't 0, from the options that the program was given."""
    if status > 128:
        return killed(status - 128)
    causes = {5: bad_settings, 6: broken_rows, 7: failed, 12: bad_wanted}
    why = (
        causes[status](given)
        if status in causes
        else MEANS.get(status, "docs/API.md, Exit status")
    )
    return f"status {status}: {why}"


def killed(number):
    """What is said of a signal that ended the program."""
    name = signal.Signals(number).name if number in set(signal.Signals) else f"signal {number}"
    return f"ended by {name}: {SIGNALS.get(number, 'what was answered 2xx is stored')}"


def bad_settings(given):
    """Which key of the settings is bad."""
    path = pathlib.Path(given["--settings"])
    why = settings_file.mistake(path.read_bytes()) if os.access(path, os.R_OK) else None
    return (
        f"the settings file {path} is refused: {why or 'a key breaks its rule'} (docs/SETTINGS.md)"
    )


def bad_wanted(given):
    """What may be wrong with a wanted file."""
    return (
        f"the wanted file {given['--wanted']} isn't in its grammar, or names a port or an address that "
        f"the rows of {given.get('--store', 'no store')} haven't (docs/AUDIT.md)"
    )


def hosts_of(given):
    """The names of the hosts of the settings, or None where they can't be told."""
    if "--settings" not in given:
        return {"c1", "c2"}
    if settings_file.tomllib is None:
        return None
    table = settings_file.tomllib.loads(
        pathlib.Path(given["--settings"]).read_text(encoding="utf-8")
    )
    return {host["name"] for host in table["hosts"]} if "hosts" in table else {"c1", "c2"}


def broken_rows(given):
    """Why the rows of a store aren't consistent: most often a host that the settings haven't."""
    hosts, path = hosts_of(given), pathlib.Path(given["--store"])
    rows = asked(path, "SELECT id, host_id FROM ports WHERE vif_type = 'ovs' ORDER BY place")
    for port, host in rows if hosts is not None else ():
        if host not in hosts:
            return (
                f"port {port} of the store {path} is bound to host {host}, which the settings haven't: "
                "open the store with the --settings that it was written with"
            )
    return (
        f"the rows of the store {path} break the rules of rows: open it with the --settings that it was written "
        "with, or take a copy that you kept"
    )


def failed(given):
    """Which of the settings, the store, the address and the wanted file failed: the first that is
    found, in the program's order."""
    for option, look in (
        ("--settings", unread_settings),
        ("--store", unopened_store),
        ("--listen", unheld_address),
        ("--wanted", unread_wanted),
    ):
        if option in given and (why := look(given[option])):
            return why
    return (
        "the settings or the wanted file can't be read, the store can't be opened or loaded, the address can't be had, "
        "or a connection can't be taken; nothing is seen from outside, so try again"
    )


def unread_settings(name):
    return unread("settings", name)


def unread_wanted(name):
    return unread("wanted", name)


def unread(what, name):
    """What keeps the program from a file that it reads."""
    path = pathlib.Path(name)
    if not path.exists():
        return f"the {what} file {path} isn't there"
    if path.is_dir():
        return f"the {what} file {path} is a folder"
    return (
        None
        if os.access(path, os.R_OK)
        else f"the {what} file {path} can't be read: see its permissions"
    )


def unopened_store(name):
    """What keeps the program from a store."""
    path = pathlib.Path(name)
    if not path.parent.is_dir():
        return f"the folder {path.parent} of the store isn't there: make it first"
    if path.is_dir():
        return f"the store {path} is a folder: name a file"
    if not path.exists():
        return (
            None
            if os.access(path.parent, os.W_OK)
            else f"the store can't be made: {path.parent} can't be written to"
        )
    if not os.access(path, os.R_OK | os.W_OK):
        lack = "written to" if os.access(path, os.R_OK) else "read"
        return f"the store {path} can't be {lack}: see its permissions"
    if not os.access(path.parent, os.W_OK):
        return f"the log {path}-wal can't be made: {path.parent} can't be written to"
    if is_locked(path):
        user = next(users_of(path), None)
        holder = f"process {user}" if user else "another program"
        return f"the store {path} is in use by {holder}: one program at a time has it open"
    return foreign_store(path)


def is_locked(path):
    """Whether a program holds a lock on a file."""
    locks = pathlib.Path("/proc/locks")
    lock = rf"^\d+: .*:{path.stat().st_ino} \d+ \S+$"
    return locks.exists() and re.search(lock, locks.read_text(encoding="ascii"), re.M) is not None


def users_of(path):
    """The processes that have a file open, as far as this user may see them."""
    wanted = path.stat()
    for link in glob.iglob("/proc/[0-9]*/fd/*"):
        with contextlib.suppress(OSError):
            found = os.stat(link)
            if (found.st_dev, found.st_ino) == (wanted.st_dev, wanted.st_ino):
                yield link.split("/")[2]


def foreign_store(path):
    """Why a file that can be read and written isn't a store."""
    try:
        tables = {
            row[0] for row in asked(path, "SELECT name FROM sqlite_master WHERE type = 'table'")
        }
        numbers = (
            [row[0] for row in asked(path, "SELECT number FROM format")]
            if "format" in tables
            else []
        )
    except sqlite3.Error as error:
        return f"the store {path} is no SQLite database that can be read: {error}"
    if not tables:
        return None
    if "format" not in tables:
        return (
            f"the store {path} is another program's database (it has no table format): name "
            "another file"
        )
    if numbers not in ([1], [2]):
        found = ", ".join(map(str, numbers)) or "none"
        return f"the store {path} has format {found}, and this program reads 1 and 2"
    if lost := sorted(TABLES - tables):
        return f"the store {path} has no table {lost[0]}: take a copy that you kept"
    return f"a row or a column of the store {path} spells no value of its field (docs/STORE.md, Tables)"


def asked(path, query):
    """The rows that a query gives on a copy of a database and its log, so that nothing beside it
    changes."""
    with tempfile.TemporaryDirectory() as folder:
        for end in ("", "-wal"):
            if os.path.exists(f"{path}{end}"):
                shutil.copyfile(f"{path}{end}", os.path.join(folder, f"copy{end}"))
        base = sqlite3.connect(os.path.join(folder, "copy"))
        try:
            return base.execute(query).fetchall()
        finally:
            base.close()


def unheld_address(address):
    """What keeps the program from listening at an address."""
    host, colon, port = address.rpartition(":")
    if not colon or not port.isdigit() or int(port) > 65535:
        return f"the address {address} needs a port from 0 to 65535, as in 127.0.0.1:9696"
    try:
        places = socket.getaddrinfo(host.strip("[]"), int(port), type=socket.SOCK_STREAM)
        for kind, *_, place in places:
            with socket.socket(kind) as tried:
                tried.setsockopt(socket.SOL_SOCKET, socket.SO_REUSEADDR, 1)
                tried.bind(place)
                tried.listen()
                return None
    except socket.gaierror as error:
        return f"the address {address} names no host: {error.strerror}"
    except PermissionError:
        return f"the address {address} needs root: take a port from 1024 on"
    except OSError as error:
        return f"the address {address} {UNHELD.get(error.errno, error.strerror)}"
    return None
