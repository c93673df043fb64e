#!/usr/bin/env python3
"""Dictionaries for measurements: the sample of ten groups, and one of the published size, which has the entries of the
sample and many more, so that every file of files.py is clean under both.

usage: bench/dictionaries.py [GROUPS [HEADINGS]] > D.ags
Writes one with so many groups (160) and headings (2,808)."""
import os
import sys
sys.path.insert(0, os.path.dirname(os.path.abspath(__file__)))
sys.dont_write_bytecode = True
from files import row  # noqa: E402

GROUPS, HEADINGS = 160, 2808
# Each further group has these two as its keys.
KEYS = 2


def small():
    """The sample."""
    with open(os.path.join(os.path.dirname(os.path.abspath(__file__)), "..", "samples", "mini.ags"), "rb") as file:
        return file.read()


def further(groups, headings):
    """The rows of DICT of so many groups below LOCA, which have so many headings together."""
    rows = []
    for n in range(groups):
        name = f"G{n:03d}"
        rows += [["GROUP", name, "", "", "LOCA"], ["HEADING", name, "LOCA_ID", "KEY+REQUIRED", ""],
                 ["HEADING", name, f"{name}_TOP", "KEY+REQUIRED", ""]]
        count = headings * (n + 1) // groups - headings * n // groups - KEYS
        rows += [["HEADING", name, f"{name}_{k:03d}", "OTHER", ""] for k in range(count)]
    return rows


def large(groups=GROUPS, headings=HEADINGS):
    """The sample with further groups, until it has so many groups and headings."""
    text = small().decode().rstrip("\r\n") + "\r\n"
    had = {kind: text.count(f'\n"DATA","{kind}"') for kind in ("GROUP", "HEADING")}
    more = further(groups - had["GROUP"], headings - had["HEADING"])
    return (text + "".join(row("DATA", *fields) for fields in more)).encode()


# By name, for measurements that are made under each.
ALL = {"160 groups": large, "10 groups": small}


if __name__ == "__main__":
    sys.stdout.buffer.write(large(*map(int, sys.argv[1:3])))
