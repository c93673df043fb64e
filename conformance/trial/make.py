#!/usr/bin/env python3
"""Files as contractors and laboratories send them, made by this script, and a dictionary in the published form.

usage: make.py         writes dictionary.ags and the files of FILES
The dictionary is this project's own (conformance/mistakes/groups.py), with the texts, types and units of the published
form and its REQUIRED headings of UNIT, TYPE, ABBR and FILE. No file is of a real project."""
import os
import sys

sys.dont_write_bytecode = True
here = os.path.dirname(os.path.abspath(__file__))
sys.path.insert(0, os.path.join(os.path.dirname(here), "mistakes"))
import groups  # noqa: E402

REQUIRED = {"UNIT_DESC", "TYPE_DESC", "ABBR_DESC", "DICT_DESC", "FILE_DESC", "TRAN_DATE", "TRAN_AGS"}
# Headings of the published form that the dictionary of the mistakes lacks: after which one, and what they are.
MORE = {"LLPL": [("LLPL_REM", "OTHER", "X", "")], "LOCA": [], "MOND": [("MOND_REM", "OTHER", "X", "")],
        "GCHM": [("GCHM_NAME", "OTHER", "X", ""), ("GCHM_UNIT", "REQUIRED", "PU", "")]}
TEXT_OF = {"LLPL_PI": ("XN", "%"), "MOND_RDNG": ("XN", "")}
HEADINGS = {}


def row(*fields):
    return ",".join('"%s"' % field.replace('"', '""') for field in fields)


def dictionary():
    rows = []
    for name, parent, given in groups.headings():
        rows.append(("GROUP", name, "", "", "", f"Group {name}", "", parent))
        for heading, status, kind, unit in [*given, *MORE.get(name, [])]:
            kind, unit = TEXT_OF.get(heading, (kind, unit))
            status = "REQUIRED" if heading in REQUIRED else status
            HEADINGS[name, heading] = kind, unit
            rows.append(("HEADING", name, heading, status, kind, f"Heading {heading}", unit, ""))
    return [group("PROJ", "PROJ_ID PROJ_NAME", ("AGS", "Dizkaulo's own dictionary, not the published one")),
            group("TRAN", "TRAN_ISNO TRAN_DATE TRAN_AGS", ("1", "2020-11-27", "4.1")),
            group("DICT", "DICT_TYPE DICT_GRP DICT_HDNG DICT_STAT DICT_DTYP DICT_DESC DICT_UNIT DICT_PGRP", *rows)]


def group(name, headings, *data, **other):
    """The lines of a group, with the types and units of the dictionary but for those that are named."""
    headings = headings.split()
    forms = [other.get(heading, HEADINGS.get((name, heading), ("X", ""))) for heading in headings]
    return [row("GROUP", name), row("HEADING", *headings), row("UNIT", *(unit for _, unit in forms)),
            row("TYPE", *(kind for kind, _ in forms)), *(row("DATA", *one) for one in data)]


def lists(units, kinds, *codes):
    return [group("UNIT", "UNIT_UNIT UNIT_DESC", *((unit, "Unit " + unit) for unit in units.split())),
            group("TYPE", "TYPE_TYPE TYPE_DESC", *((kind, "Type " + kind) for kind in kinds.split())),
            *([group("ABBR", "ABBR_HDNG ABBR_CODE ABBR_DESC", *codes)] if codes else [])]


def file(units, kinds, codes, *parts):
    top = [group("PROJ", "PROJ_ID PROJ_NAME", ("24-11", "A bypass")),
           group("TRAN", "TRAN_ISNO TRAN_DATE TRAN_AGS TRAN_DLIM TRAN_RCON", ("1", "2024-06-14", "4.1", "|", "+"))]
    return [*top, *lists(units, kinds, *codes), *parts]


def text(parts, end="\r\n"):
    return (end * 2).join(end.join(part) for part in parts).encode("latin-1") + end.encode()


HOLES = [("BH01", "CP", "42.15"), ("BH02", "CP", "41.60"), ("BH03", "CP", "40.02")]
CP = ("LOCA_TYPE", "CP", "Cable percussion")


def loca(*rows):
    return group("LOCA", "LOCA_ID LOCA_TYPE LOCA_GL", *(rows or HOLES))


def files():
    """name, lines of the groups, line end."""
    samples = [(hole, "1.50", "S1", "B") for hole, _, _ in HOLES]
    samp = group("SAMP", "LOCA_ID SAMP_TOP SAMP_REF SAMP_TYPE", *samples)
    key = "LOCA_ID SAMP_TOP SAMP_REF SPEC_DPTH"
    bulk = ("SAMP_TYPE", "B", "Bulk")
    results = [(hole, "1.50", "S1", "1.60", code, value, name, unit) for hole, _, _ in HOLES
               for code, value, name, unit in (("7440-38-2", "12", "Arsenic", "mg/kg"), ("7439-92-1", "85", "Lead",
                                                                                         "mg/kg"))]
    yield "laboratory", file("m Mg/m3 % yyyy-mm-dd", "ID X PA PU 2DP 3SF DT", (CP, bulk), loca(), samp, group(
        "GCHM", key + " GCHM_CODE GCHM_RESL GCHM_NAME GCHM_UNIT", *results, GCHM_RESL=("3SF", ""))), "\r\n"
    readings = [(hole, "SP1", f"{day} 09:30", "WLEV", reading, unit) for hole in ("BH01", "BH02", "BH03")
                for day, reading, unit in (("24/05/2024", "2.40", "m"), ("07/06/2024", "dry", "m"),
                                           ("21/06/2024", "2.62", "mbgl"))]
    yield "monitoring", file("m mg/l yyyy-mm-dd yyyy-mm-ddThh:mm", "ID X XN PA PU 2DP DT", (CP,), loca(), group(
        "MONG", "LOCA_ID MONG_ID MONG_TRZ", ("BH01", "SP1", "3.00"), ("BH02", "SP1", "3.00")), group(
        "MOND", "LOCA_ID MONG_ID MOND_DTIM MOND_TYPE MOND_RDNG MOND_UNIT", *readings)), "\r\n"
    limits = [(hole, "1.50", "S1", "1.60", limit, "17", plastic) for (hole, _, _), (limit, plastic) in
              zip(HOLES, (("38", "21"), ("NP", "21"), ("NP", "")))]
    yield "liquid_limit", file("m % yyyy-mm-dd", "ID X XN PA 0DP 2DP DT", (CP, bulk), loca(), samp, group(
        "LLPL", key + " LLPL_LL LLPL_PL LLPL_PI", *limits)), "\r\n"
    cones = [("BH01", "1", f"{depth * 2 / 100:.2f}".rstrip("0"), f"{1 + depth / 700:.{2 + depth % 3}f}",
              f"{depth / 900:.{3 + depth % 2}f}") for depth in range(1, 200)]
    yield "cones", file("m MPa yyyy-mm-dd", "ID X PA 2DP 3DP 4DP DT", (CP,), loca(), group(
        "SCPG", "LOCA_ID SCPG_TESN", ("BH01", "1")), group(
        "SCPT", "LOCA_ID SCPG_TESN SCPT_DPTH SCPT_RES SCPT_FRES", *cones, SCPT_RES=("2DP", "MPa"),
        SCPT_FRES=("3DP", "MPa"))), "\n"
    whole = group("ISPT", "LOCA_ID ISPT_TOP ISPT_NVAL ISPT_WAT", *((hole, "1.50", "12", "") for hole, _, _ in HOLES))
    geol = group("GEOL", "LOCA_ID GEOL_TOP GEOL_BASE GEOL_DESC", *((hole, "0.00", "4.00", "Firm CLAY") for hole, _,
                                                                   _ in HOLES))
    geol[0] = row("GROUP", "Geol")
    yield "by_hand", file("m yyyy-mm-dd", "ID X PA 0DP 2DP DT", (CP,), loca(("BH01", "CP", "42.15"),
                                                                            ("BH02", "CP", "41.60"),
                          ("bh03", "CP", "40.02"), ("", "", "")), geol,
                          [line for line in whole if '"UNIT"' not in line]), "\r\n"
    own = group("LOCA", "LOCA_ID LOCA_CNTR LOCA_CHNG LOCA_TYPE LOCA_GL", *((hole, "Own Ltd", "No", kind, level)
                                                                         for hole, kind, level in HOLES))
    yield "own_headings", file("m yyyy-mm-dd", "ID X PA 2DP DT", (CP,), own), "\r\n"
    yield "clean", file("m yyyy-mm-dd", "ID X PA 2DP DT", (CP,), loca()), "\r\n"


def main():
    written = {"dictionary": text(dictionary()), **{name: text(parts, end) for name, parts, end in files()}}
    for name, data in written.items():
        with open(os.path.join(here, name + ".ags"), "wb") as out:
            out.write(data)


if __name__ == "__main__":
    main()
