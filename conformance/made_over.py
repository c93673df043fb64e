#!/usr/bin/env python3
"""A register that an earlier program made, made over by the lines of docs/OPERATING.md into one of format 2: it opens,
and lists and extracts what it held.

usage: made_over.py PROGRAM     the last line is 'N passed, M failed'

`old.register` was made by a program whose table of deposits had the key `number INTEGER PRIMARY KEY`: `init` with
samples/mini.ags, then the deposits below; `sqlite3 PATH ".backup old.register"` put it into one file. The lines of SQL
are read from docs/OPERATING.md, so that what the page says is what is tried."""
import os
import shutil
import subprocess
import sys
import tempfile
sys.dont_write_bytecode = True
import servers  # noqa: E402
from servers import asking  # noqa: E402

HERE = os.path.dirname(os.path.abspath(__file__))
PAGE = os.path.join(os.path.dirname(HERE), "docs", "OPERATING.md")
HEADING = "### A register of an earlier program"
# number, token, embargo and file of each deposit of old.register
DEPOSITS = [(1, "t-foxtrot", "2024-05-01", "foxtrot.ags")]


def statements():
    """The lines of SQL below the heading: those that are indented."""
    with open(PAGE, encoding="utf-8") as page:
        section = page.read().split(HEADING + "\n", 1)[1].split("\n#", 1)[0]
    return [line[4:] for line in section.splitlines() if line.startswith("    ") and line.rstrip().endswith(";")]


def try_all(place):
    """Makes the old register over, and asks it and one of the same deposits."""
    lacks_format = (b"", b"groundreg: register version 1\n", 4)
    place.check("the old register", lacks_format, place.run(*asking("list", store="old.register")))
    not_one = (b"", b"groundreg: not a register\n", 4)
    place.check("the old register, to be migrated", not_one, place.run("migrate", "--store=old.register"))
    # the register as this program makes it of the same deposits
    place.check("init", 0, place.run("init", "--store=same.register", "--dictionary=mini.ags")[2])
    for number, token, embargo, file in DEPOSITS:
        words = asking("deposit", file, store="same.register", token=token, embargo=embargo)
        place.check(f"deposit {number}", (f"receipt {number} {embargo}\n".encode(), b"", 0), place.run(*words))
    # the old one, made over
    place.check("init", 0, place.run("init", "--store=new.register", "--dictionary=mini.ags")[2])
    lines = statements()
    place.check("lines of SQL on the page", True, len(lines) >= 6)
    place.check("sqlite3", (b"", b"", 0), by_sqlite3(place, given="\n".join(lines).encode()))
    whole = by_sqlite3(place, "PRAGMA integrity_check; PRAGMA foreign_key_check;")
    place.check("the new register, by sqlite3", (b"ok\n", b"", 0), whole)
    version = (b"", b"groundreg: register version 2\n", 4)
    place.check("the new register, to be migrated", version, place.run("migrate", "--store=new.register"))
    for token in ("t-delta", "t-foxtrot", "t-echo"):
        for words in (["list"], *(["extract", str(number)] for number, *_ in DEPOSITS)):
            same, new = (place.run(*asking(*words, store=store, token=token))
                         for store in ("same.register", "new.register"))
            place.check(f"{words} for {token}", same, new)


def by_sqlite3(place, *words, given=b""):
    run = subprocess.run(["sqlite3", "new.register", *words], cwd=place.folder, input=given, capture_output=True,
                         timeout=120)
    return run.stdout, run.stderr, run.returncode


def main():
    if len(sys.argv) < 2:
        sys.exit(__doc__)
    if servers.lacking("sqlite3"):
        print("no sqlite3 on this machine, so nothing is tried")
        print("0 passed, 0 failed")
        return 0
    with tempfile.TemporaryDirectory() as folder:
        files = {name: servers.sample(name) for name in ("mini.ags", "foxtrot.ags")}
        policy, callers = (servers.sample(name).decode() for name in ("policy.toml", "callers.toml"))
        place = servers.Place(sys.argv[1], folder, policy, callers, files)
        shutil.copy(os.path.join(HERE, "old.register"), folder)
        try_all(place)
        print(f"{place.passed} passed, {place.failed} failed")
    return place.failed > 0


if __name__ == "__main__":
    sys.exit(main())
