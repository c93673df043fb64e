#!/usr/bin/env python3
"""Measures how long registers of several sizes take to open, and the memory of that, by `list`: under a dictionary of
the published size, and under the sample of ten groups.

usage: bench/opening.py PROGRAM [--kit KIT] [CASE..]
A register is made by the program with one generated file; the others are that file with another name of the project,
put in by SQLite.
CASE is a name in CASES. Where none is given, all up to 100 deposits of 100 kB and 10,000 of 1 kB are measured.
KIT is a program that opens the database PATH, its only argument, by the kit's own `Connection::open_from`. Its source
is kit_open.txt. Outside the repository, in a folder with `git init` and a crates.txt of one line, `kit_open: sqlite`,
put it in crates/kit_open/src/main.rt; `rt run` in crates/kit_open makes out/kit_open.
Printed for each: deposits, bytes of them and of the register; of `list` and of KIT, which run one after the other, the
seconds and those of a processor (the shortest of some runs), and MB (1,048,576 bytes)."""
import os
import resource
import sqlite3
import subprocess
import sys
import tempfile
import time
here = os.path.dirname(os.path.abspath(__file__))
sys.path.insert(0, here)
sys.dont_write_bytecode = True
import dictionaries  # noqa: E402
import files  # noqa: E402
import register  # noqa: E402
from servers import asking, limit_memory  # noqa: E402

# What is measured: the file, its bytes, how many of it, how many runs.
CASES = {
    "flat_1": (files.flat, 1_000_000, 1, 3),
    "deep_1": (files.deep, 1_000_000, 1, 3),
    "flat_4": (files.flat, 4_000_000, 1, 3),
    "deep_4": (files.deep, 4_000_000, 1, 3),
    "hundred": (files.deep, 100_000, 100, 3),
    "five_hundred": (files.deep, 100_000, 512, 3),
    "many": (files.deep, 1_000, 10_000, 3),
    "deep_64": (files.deep, 1_000_000, 64, 1),
    "flat_64": (files.flat, 1_000_000, 64, 1),
    "deep_256": (files.deep, 1_000_000, 256, 1),
    "flat_256": (files.flat, 1_000_000, 256, 1),
    "deep_512": (files.deep, 1_000_000, 512, 1),
    "flat_512": (files.flat, 1_000_000, 512, 1),
    "deep_576": (files.deep, 1_000_000, 576, 1),
    "deep_640": (files.deep, 1_000_000, 640, 1),
    "deep_704": (files.deep, 1_000_000, 704, 1),
}
ALONE = ("flat_1", "deep_1", "flat_4", "deep_4", "hundred", "many")
NAME = "North bank"


def renamed(column):
    """The text of SQL for a column of bytes with another name of the project, which has the same length."""
    return f"CAST(replace(CAST({column} AS TEXT), '{NAME}', printf('Site %05d', ?1)) AS BLOB)"


def multiplied(path, count):
    """Puts the register's one deposit into it again and again, until it has so many."""
    db = sqlite3.connect(path, isolation_level=None)
    db.executescript("PRAGMA synchronous = off; PRAGMA cache_size = -200000")
    db.execute("BEGIN")
    for n in range(2, count + 1):
        db.execute(f"INSERT INTO deposits SELECT ?1, firm, project, embargo, {renamed('body')}"
                   " FROM deposits WHERE number = 1", (n,))
        db.execute(
            "INSERT INTO lines SELECT ?1, seq, grp, kind,"
            f" CASE WHEN grp = 'PROJ' AND kind = 4 THEN {renamed('line')} ELSE line END"
            " FROM lines WHERE deposit = 1 ORDER BY seq", (n,))
        db.execute("INSERT INTO steps SELECT ?1, child, target FROM steps WHERE deposit = 1 ORDER BY child, target",
                   (n,))
    db.execute("COMMIT")
    db.execute("PRAGMA wal_checkpoint(TRUNCATE)").fetchall()
    db.close()


def spent():
    """Seconds of a processor, of all commands so far."""
    used = resource.getrusage(resource.RUSAGE_CHILDREN)
    return used.ru_utime + used.ru_stime


def timed(commands, folder, runs):
    """Of each command, which run one after the other: the shortest of some runs in seconds, and in those of a processor,
    the greatest resident memory in MB, the status of the last and what it says."""
    found = [(float("inf"), float("inf"), 0.0, "")] * len(commands)
    for _ in range(runs):
        for at, words in enumerate(commands):
            with tempfile.NamedTemporaryFile() as note:
                begun, before = time.monotonic(), spent()
                run = subprocess.run([*register.noting(note), *words], cwd=folder, stdin=subprocess.DEVNULL,
                                     capture_output=True, preexec_fn=limit_memory)
                taken, used = time.monotonic() - begun, spent() - before
                said = f"{run.returncode} {run.stderr.decode().strip()}".strip()
                best, least, most, _ = found[at]
                found[at] = (min(best, taken), min(least, used), max(most, register.megabytes(note)), said)
    return found


def measured(program, kit, name, under, folder):
    make, size, count, runs = CASES[name]
    place = register.Place(program, folder, limit_memory, dictionaries.ALL[under])
    data = make(size)
    place.put("a", data)
    place.measured(*asking("deposit", "a"))
    multiplied(place.path("register"), count)
    commands = [[program, *asking("list")]] + ([[kit, "register"]] if kit else [])
    cells = [name, under, f"{count:,}", f"{count * len(data):,}", f"{place.bytes_held():,}"]
    for taken, used, most, said in timed(commands, folder, runs):
        cells += [f"{taken:.2f}", f"{used:.2f}", f"{most:.0f}", said]
    print("| " + " | ".join(cells) + " |", flush=True)


def main():
    words = sys.argv[1:]
    kit = None
    if "--kit" in words:
        at = words.index("--kit")
        kit = os.path.abspath(words[at + 1])
        del words[at:at + 2]
    if not words or any(name not in CASES for name in words[1:]):
        sys.exit(__doc__)
    program = os.path.abspath(words[0])
    head = ["Register", "Dictionary", "Deposits", "Bytes of them", "Bytes of the register"]
    for said in ["`list`", "kit"] if kit else ["`list`"]:
        head += [f"{said}, s", "of a processor", "MB", "status"]
    print("| " + " | ".join(head) + " |\n|" + "---|" * len(head))
    for name in words[1:] or ALONE:
        for under in dictionaries.ALL:
            with tempfile.TemporaryDirectory(dir=os.environ.get("TMPDIR", "/tmp")) as folder:
                measured(program, kit, name, under, folder)


main()
