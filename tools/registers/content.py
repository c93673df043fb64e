"""A register's content, read by sqlite3 of Python's standard library. The register is not changed, and what sqlite3
makes beside it for the reading is removed."""
import contextlib
import os
import sqlite3
import urllib.parse
from typing import NamedTuple

DEPOSITS = ("SELECT number, firm, project, date(embargo * 86400, 'unixepoch'), length(body) FROM deposits"
            " ORDER BY number")
LINES = "SELECT deposit, count(*) FROM lines GROUP BY deposit"
ROWS = "SELECT deposit, count(*) FROM lines WHERE kind = 4 GROUP BY deposit"
STEPS = "SELECT deposit, count(*) FROM steps GROUP BY deposit"


class NotRead(Exception):
    """A register that cannot be read, and why."""


class Deposit(NamedTuple):
    """A deposit: its number, firm, project and embargo day, its bytes, its rows of each kind, DATA rows and steps, and
    whether it is withdrawn."""
    number: int
    firm: str
    project: str
    embargo: str
    bytes: int
    lines: int
    rows: int
    steps: int
    is_withdrawn: bool


class Content(NamedTuple):
    """A register: its format, the bytes of its two files and of its dictionary, and its deposits."""
    format: int
    bytes: int
    wal_bytes: int
    dictionary_bytes: int
    deposits: list


def read(path):
    """The content of a register."""
    if not os.path.isfile(path):
        raise NotRead(f"{path} is no file")
    shared, wal = path + "-shm", path + "-wal"
    has_wal = os.path.exists(wal)
    if os.path.exists(shared):
        raise NotRead(f"{shared} is there, so another program has it open, or was ended while it had")
    try:
        with contextlib.closing(sqlite3.connect(f"file:{urllib.parse.quote(path)}?mode=ro", uri=True)) as connection:
            return content_of(connection, path)
    except sqlite3.Error as error:
        is_locked = "locked" in str(error)
        raise NotRead("groundreg has it open: stop it first" if is_locked else f"not a register: {error}") from None
    finally:
        for name in [shared] + [wal] * (not has_wal and os.path.exists(wal) and os.path.getsize(wal) == 0):
            with contextlib.suppress(FileNotFoundError):
                os.remove(name)


def content_of(connection, path):
    numbers = {name: (number, length) for name, number, length in connection.execute(
        "SELECT name, num, length(body) FROM meta")}
    if "format" not in numbers or "dictionary" not in numbers:
        raise NotRead("not a register: meta has no format or no dictionary")
    counts = [dict(connection.execute(text)) for text in (LINES, ROWS, STEPS)]
    is_marked = connection.execute("SELECT count(*) FROM sqlite_master WHERE name = 'withdrawals'").fetchone()[0]
    withdrawn = {number for number, in connection.execute("SELECT deposit FROM withdrawals")} if is_marked else set()
    deposits = [Deposit(*row, *(count.get(row[0], 0) for count in counts), row[0] in withdrawn) for row
                in connection.execute(DEPOSITS)]
    sizes = [os.path.getsize(name) if os.path.exists(name) else 0 for name in (path, path + "-wal")]
    return Content(numbers["format"][0], *sizes, numbers["dictionary"][1], deposits)
