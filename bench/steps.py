#!/usr/bin/env python3
"""Measures what one deposit may cost: a file of 62 kB whose own DICT makes each of 2,000 rows a child of 2,000 others.

usage: bench/steps.py PROGRAM [ROWS]
Printed: bytes of the file, its steps, seconds and MB of its deposit, bytes of the register and of its log after it,
seconds and MB of the next start, which is a listing, and the steps of each deposit as the tables have them."""
import os
import sqlite3
import sys
import tempfile
here = os.path.dirname(os.path.abspath(__file__))
sys.path.insert(0, here)
sys.dont_write_bytecode = True
import files  # noqa: E402
import register  # noqa: E402
from servers import asking, limit_memory  # noqa: E402


def size_of(place, name):
    return os.path.getsize(place.path(name)) if os.path.exists(place.path(name)) else 0


def file_of(rows):
    """The file: so many rows of LOCA, and of a group each row of which belongs to all of these."""
    return (files.FRONT + files.group("LOCA", ["LOCA_ID"], [""], ["ID"], ([f"BH{n}"] for n in range(rows)))
            + files.of_every_hole(rows)).encode()


def main():
    if len(sys.argv) < 2:
        sys.exit(__doc__)
    program, rows = os.path.abspath(sys.argv[1]), int(sys.argv[2]) if len(sys.argv) > 2 else 2000
    with tempfile.TemporaryDirectory() as folder:
        place, data = register.Place(program, folder, limit_memory), file_of(rows)
        place.put("file", data)
        deposited, to_deposit, _ = place.measured(*asking("deposit", "file"))
        sizes = [size_of(place, name) for name in ("register", "register-wal")]
        opened, to_open, _ = place.measured(*asking("list"))
        print(f"{len(data)} bytes, {rows * rows + rows:,} steps: deposit {deposited:.2f} s, {to_deposit:.0f} MB;"
              f" register {sizes[0]} bytes, log {sizes[1]}; the next start {opened:.2f} s, {to_open:.0f} MB")
        connection = sqlite3.connect(place.path("register"))
        print("deposit, steps:", connection.execute("SELECT deposit, count(*) FROM steps GROUP BY deposit").fetchall())
        connection.close()


main()
