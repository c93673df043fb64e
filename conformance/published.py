#!/usr/bin/env python3
"""Writes a dictionary of the form and size of the published one. Its names are made by a rule, and are not the
published ones, except those of the groups that every file has, and of LOCA, SAMP and GEOL.

usage: conformance/published.py [GROUPS] > D.ags      (160 groups, some 2,900 headings)

    published.text(160)         # its bytes
    published.groups(160)       # [(group, parent, [(heading, status, type, unit)])]"""
import string
import sys

COLUMNS = [("DICT_TYPE", "KEY+REQUIRED", "PA", ""), ("DICT_GRP", "KEY+REQUIRED", "X", ""),
           ("DICT_HDNG", "KEY", "X", ""), ("DICT_STAT", "OTHER", "PA", ""), ("DICT_DTYP", "OTHER", "PT", ""),
           ("DICT_DESC", "REQUIRED", "X", ""), ("DICT_UNIT", "OTHER", "PU", ""), ("DICT_EXMP", "OTHER", "X", ""),
           ("DICT_PGRP", "OTHER", "X", ""), ("DICT_REM", "OTHER", "X", ""), ("FILE_FSET", "OTHER", "X", "")]
FILES = ("FILE_FSET", "OTHER", "X", "")
LOCATION = ("LOCA_ID", "KEY+REQUIRED", "ID", "")
SAMPLE = [("LOCA_ID", "KEY", "ID", ""), ("SAMP_TOP", "KEY", "2DP", "m"), ("SAMP_REF", "KEY", "X", ""),
          ("SAMP_TYPE", "KEY", "PA", ""), ("SAMP_ID", "KEY", "ID", "")]
SPECIMEN = [*SAMPLE, ("SPEC_REF", "KEY", "X", ""), ("SPEC_DPTH", "KEY", "2DP", "m")]
# The groups that a file has beside its results: group, parent, and its headings with status, type and unit.
FIXED = [
    ("PROJ", "-", [("PROJ_ID", "KEY+REQUIRED", "ID", ""), ("PROJ_NAME", "OTHER", "X", ""),
                   ("PROJ_LOC", "OTHER", "X", ""), ("PROJ_CLNT", "OTHER", "X", ""), ("PROJ_MEMO", "OTHER", "X", ""),
                   FILES]),
    ("TRAN", "-", [("TRAN_ISNO", "REQUIRED", "X", ""), ("TRAN_DATE", "REQUIRED", "DT", "yyyy-mm-dd"),
                   ("TRAN_PROD", "REQUIRED", "X", ""), ("TRAN_STAT", "REQUIRED", "X", ""),
                   ("TRAN_AGS", "REQUIRED", "X", ""), ("TRAN_RECV", "REQUIRED", "X", ""),
                   ("TRAN_DLIM", "REQUIRED", "X", ""), ("TRAN_RCON", "REQUIRED", "X", ""),
                   ("TRAN_REM", "OTHER", "X", "")]),
    ("ABBR", "-", [("ABBR_HDNG", "KEY+REQUIRED", "X", ""), ("ABBR_CODE", "KEY+REQUIRED", "X", ""),
                   ("ABBR_DESC", "REQUIRED", "X", ""), ("ABBR_REM", "OTHER", "X", "")]),
    ("DICT", "-", COLUMNS),
    ("UNIT", "-", [("UNIT_UNIT", "KEY+REQUIRED", "X", ""), ("UNIT_DESC", "REQUIRED", "X", ""),
                   ("UNIT_REM", "OTHER", "X", "")]),
    ("TYPE", "-", [("TYPE_TYPE", "KEY+REQUIRED", "X", ""), ("TYPE_DESC", "REQUIRED", "X", "")]),
    ("FILE", "-", [("FILE_FSET", "KEY", "X", ""), ("FILE_NAME", "KEY", "X", ""), ("FILE_DESC", "OTHER", "X", "")]),
    ("LOCA", "PROJ", [LOCATION, ("LOCA_TYPE", "OTHER", "PA", ""), ("LOCA_STAT", "OTHER", "PA", ""),
                      ("LOCA_NATE", "OTHER", "2DP", "m"), ("LOCA_NATN", "OTHER", "2DP", "m"),
                      ("LOCA_GL", "OTHER", "2DP", "m"), ("LOCA_FDEP", "OTHER", "2DP", "m"),
                      ("LOCA_STAR", "OTHER", "DT", "yyyy-mm-dd"), ("LOCA_LAT", "OTHER", "DMS", ""),
                      ("LOCA_LON", "OTHER", "DMS", ""), ("LOCA_REM", "OTHER", "X", ""), FILES]),
    ("SAMP", "LOCA", [*SAMPLE, ("SAMP_BASE", "OTHER", "2DP", "m"), ("SAMP_DTIM", "OTHER", "DT", "yyyy-mm-ddThh:mm"),
                      ("SAMP_LINK", "OTHER", "RL", ""), ("SAMP_DESC", "OTHER", "X", ""), FILES]),
    ("GEOL", "LOCA", [LOCATION, ("GEOL_TOP", "KEY+REQUIRED", "2DP", "m"), ("GEOL_BASE", "KEY+REQUIRED", "2DP", "m"),
                      ("GEOL_DESC", "OTHER", "X", ""), ("GEOL_LEG", "OTHER", "PA", ""), FILES]),
]
# The results of a made group, one after the other: end of the name, type and unit.
RESULTS = [("VAL", "2DP", "m"), ("NUM", "0DP", ""), ("STR", "3SF", "kPa"), ("PERM", "2SCI", "m/s"), ("MC", "MC", "%"),
           ("OK", "YN", ""), ("DATE", "DT", "yyyy-mm-dd"), ("TIME", "T", "hh:mm"), ("METH", "X", ""),
           ("KIND", "PA", ""), ("UNIT", "PU", ""), ("LINK", "RL", ""), ("ANY", "XN", ""), ("DENS", "3DP", "Mg/m3"),
           ("REM", "X", "")]


def results(group, at, count):
    """So many headings of results, of which no two groups have quite the same."""
    chosen = [RESULTS[(at + n) % len(RESULTS)] for n in range(count)]
    return [(f"{group}_{end[:4]}", "OTHER", kind, unit) for end, kind, unit in chosen]


def made(at):
    """The made groups of a number: one below LOCA, or a test of samples with its readings below it."""
    name = "".join(string.ascii_uppercase[at // 26 ** n % 26] for n in (1, 0))
    top = [LOCATION, (f"X{name}_TOP", "KEY+REQUIRED", "2DP", "m")]
    test = [*SPECIMEN, (f"Y{name}G_TEST", "KEY", "X", "")]
    step = (f"Y{name}T_STEP", "KEY", "0DP", "")
    return [(f"X{name}", "LOCA", [*top, *results(f"X{name}", at, 14), FILES]),
            (f"Y{name}G", "SAMP", [*test, *results(f"Y{name}G", at + 5, 13), FILES]),
            (f"Y{name}T", f"Y{name}G", [*test, step, *results(f"Y{name}T", at + 9, 9), FILES])]


def groups(count=160):
    """The groups: name, parent, and headings with status, type and unit."""
    out = list(FIXED)
    while len(out) < count:
        out += made(len(out))
    return out[:count]


def spelled(fields):
    return ",".join('"' + field.replace('"', '""') + '"' for field in fields) + "\r\n"


def text(count=160):
    """The dictionary as an AGS4 file of the one group DICT."""
    names, _, kinds, units = zip(*COLUMNS)
    lines = [("GROUP", "DICT"), ("HEADING", *names), ("UNIT", *units), ("TYPE", *kinds)]
    for group, parent, headings in groups(count):
        lines.append(("DATA", "GROUP", group, "", "", "", f"Group {group}", "", "", parent, "", ""))
        lines += [("DATA", "HEADING", group, heading, status, kind, f"Heading {heading}", unit, "", "", "", "")
                  for heading, status, kind, unit in headings]
    return "".join(map(spelled, lines)).encode("ascii")


if __name__ == "__main__":
    sys.stdout.buffer.write(text(int(sys.argv[1]) if len(sys.argv) > 1 else 160))
