#!/usr/bin/env python3
"""Random files without findings, under any dictionary: written apart from the tools, which are tried on them.

    for groups in made(random.Random(1), BUILT_IN):    # or published.groups(160)
        text(groups)                                   # bytes in the register's own form
    Plain(random.Random(1), BUILT_IN).file()           # groups that a mistake can be put into and taken out of

Entries are what a spreadsheet or a careless reader may change: leading zeros, formulas, spaces, quotes, commas, control
characters, numbers of many forms. conformance/tables has reference.py find nothing in them.

usage: conformance/clean_files.py SEED [GROUPS] > FILE.ags    GROUPS: under conformance/published.py's of so many"""
import itertools
import os
import random
import sys
from dataclasses import dataclass, field

sys.dont_write_bytecode = True
home = os.path.dirname(os.path.dirname(os.path.realpath(__file__)))
sys.path[:0] = [os.path.join(home, "conformance")]
import published  # noqa: E402
import reference  # noqa: E402

HEADS = ("PROJ", "TRAN", "UNIT", "TYPE", "ABBR", "DICT", "FILE")
# The types and units of the built-in dictionary's headings that are no plain text: it does not have them.
FORMS = {"PROJ_ID": ("ID", ""), "LOCA_ID": ("ID", ""), "LOCA_TYPE": ("PA", ""), "LOCA_STAT": ("PA", ""),
         "LOCA_GL": ("2DP", "m"), "SAMP_TOP": ("2DP", "m"), "SAMP_BASE": ("2DP", "m"), "SAMP_LINK": ("RL", ""),
         "SPEC_DPTH": ("2DP", "m"), "LNMC_MC": ("MC", "%"), "TRAN_DATE": ("DT", "yyyy-mm-dd")}
# Forms that a file may give a heading that is not KEY.
OTHERS = [("X", ""), ("ID", ""), ("2DP", "m"), ("0DP", ""), ("3SF", "kPa"), ("2SCI", "m/s"), ("MC", "%"), ("YN", ""),
          ("DT", "yyyy-mm-dd"), ("DT", "yyyy-mm-ddThh:mm:ss"), ("T", "hh:mm"), ("DMS", "deg"), ("PA", ""), ("PU", ""),
          ("XN", ""), ("U", "")]
ODD = ["=1+1", "=HYPERLINK(\"x\")", "+1", "-1", "@x", "007", "1.50", "1E5", "TRUE", "#N/A", "2024-05-01", "1/2", "'x",
       " x", "x ", " ", "a,b", "say \"so\"", "\"", "\"\"", ",", "_x0041_", "_x005F_", "a\tb", "\x01\x1f\x7f",
       "<b>&amp;", "x;y", "NULL", "nan", "0", "00:30", "1e400", "DATA", "HEADING", "a" * 300]
PLAIN = ["Firm brown CLAY", "north bank", "BS 1377-2", "see remark", "A1"]
SIGNS = ("TRAN_DLIM", "TRAN_RCON")
CODES, UNITS = ["CP", "RC", "TP", "WLS", "01"], ["m", "mm", "kPa", "%", "Mg/m3"]


@dataclass
class Group:
    """A group: its rows have an entry for each heading."""
    name: str
    headings: list
    units: list
    types: list
    rows: list = field(default_factory=list)

    def column(self, heading):
        return self.headings.index(heading)

    def key(self, row, keys):
        return tuple(row[self.column(heading)] for heading in keys)


def built_in():
    """The built-in dictionary as conformance/published.py has one."""
    out = {}
    for entry in reference.built_in():
        name = entry[1].decode()
        if entry[0] == "G":
            out[name] = (name, entry[2].decode(), [])
        else:
            heading = entry[2].decode()
            out[name][2].append((heading, entry[3].decode(), *FORMS.get(heading, ("X", ""))))
    return list(out.values())


BUILT_IN = built_in()


def entries(groups, made=None):
    """The entries of a dictionary as reference.py takes them; with a file, of its groups alone, since it is slow."""
    out, names = [], {group.name for group in made or ()}
    for name, parent, headings in groups:
        if made and name not in names:
            continue
        out.append(("G", name.encode(), parent.encode()))
        out += [("H", name.encode(), heading.encode(), status.encode()) for heading, status, *_ in headings]
    return out


class Maker:
    """Makes one file."""

    def __init__(self, chance, groups):
        self.chance = chance
        self.parents = {name: parent for name, parent, _ in groups}
        self.order = {name: headings for name, _, headings in groups}
        self.listed, self.made, self.abbreviations, self.sets = {}, {}, set(), set()
        self.delimiter, self.joined = chance.choice([("|", "+"), ("|", "+"), ("/", ";")])

    def keys(self, name):
        return [heading for heading, status, *_ in self.order[name] if "KEY" in status.split("+")]

    def above(self, name):
        """The parent group, or None."""
        parent = None if name in HEADS else self.parents[name]
        return None if parent in (None, "", "-") else parent

    def file(self):
        """The groups of a file, parents first, definitions before them."""
        self.add_groups()
        self.links()
        self.definitions()
        tail = [name for name in self.made if name not in HEADS]
        return [self.made[name] for name in HEADS if name in self.made] + [self.made[name] for name in tail]

    def add_groups(self):
        for name in ("PROJ", "TRAN"):
            self.add(name)
        if self.chance.random() < 0.3:
            self.own_names()
        others = [name for name in self.order if name not in HEADS and name not in ("LOCA", "SAMP")]
        count = min(len(others), self.chance.randrange(0, 4))
        for name in ["LOCA"] * (self.chance.random() < 0.95) + ["SAMP"] * (self.chance.random() < 0.7):
            self.add_with_parents(name)
        for name in self.chance.sample(others, count):
            self.add_with_parents(name)

    def own_names(self):
        """A heading and a group of the file's own."""
        self.order["LOCA"] = [*self.order["LOCA"], ("LOCA_OWN", "OTHER", "1DP", "m")]
        self.parents["OWN1"] = "LOCA"
        self.order["OWN1"] = [("LOCA_ID", "KEY", "ID", ""), ("OWN1_REF", "KEY", "X", ""),
                              ("OWN1_VAL", "OTHER", "2DP", "m")]
        rows = [["HEADING", "LOCA", "LOCA_OWN", "OTHER", ""], ["GROUP", "OWN1", "", "", "LOCA"]]
        rows += [["HEADING", "OWN1", heading, status, ""] for heading, status, *_ in self.order["OWN1"]]
        names = ["DICT_TYPE", "DICT_GRP", "DICT_HDNG", "DICT_STAT", "DICT_PGRP"]
        texts = {"DICT_DESC": "of its own"}
        all_names = [heading for heading, status, *_ in self.order["DICT"] if heading in names or "REQUIRED" in status]
        self.made["DICT"] = Group("DICT", all_names, [""] * len(all_names), ["X"] * len(all_names), [
            [dict(zip(names, row)).get(heading, texts.get(heading, "")) for heading in all_names] for row in rows])

    def add_with_parents(self, name):
        """Adds a group, and before it those above it; one without a row is left out."""
        if name in self.made:
            return True
        parent = self.above(name)
        return (parent is None or self.add_with_parents(parent)) and self.add(name)

    def chosen(self, name):
        """The headings that the file has of a group."""
        return [one for one in self.order[name] if one[1] != "OTHER" or one[0] in SIGNS or self.chance.random() < 0.6]

    def form(self, heading, status, kind, unit):
        """The type and unit that the file gives a heading."""
        is_other = status == "OTHER" and self.chance.random() < 0.15 and heading not in ("FILE_FSET", *SIGNS)
        return self.chance.choice(OTHERS) if is_other else (kind, unit)

    def times(self, name):
        """How many rows a group has below a row of its parent group."""
        return 1 if name in ("PROJ", "TRAN") else self.chance.choice((0, 1, 1, 2, 4))

    def add(self, name):
        """Adds a group with its rows, if there are any."""
        chosen = self.chosen(name)
        forms = [self.form(*one) for one in chosen]
        group = Group(name, [one[0] for one in chosen], [unit for _, unit in forms], [kind for kind, _ in forms])
        keys, seen, parent = self.keys(name), set(), self.above(name)
        above = [(self.made[parent], row) for row in self.made[parent].rows] if parent else [(None, None)]
        for over, of in above:
            for _ in range(self.times(name)):
                given = dict(zip(over.headings, of)) if parent else {}
                inherited = {heading: given[heading] for heading in self.keys(parent)} if parent else {}
                row = [inherited.get(heading, None) for heading in group.headings]
                row = [self.entry(chosen[at], group, at) if entry is None else entry for at, entry in enumerate(row)]
                if not keys or group.key(row, keys) not in seen:
                    seen.add(group.key(row, keys) if keys else None)
                    group.rows.append(row)
        if group.rows:
            self.made[name] = group
        return bool(group.rows)

    def entry(self, heading, group, at):
        """An entry under a heading of the dictionary, in the form that the file gives it."""
        name, status, *_ = heading
        if name in SIGNS:
            return self.delimiter if name == "TRAN_DLIM" else self.joined
        if status == "OTHER" and self.chance.random() < 0.25 or name == "SAMP_LINK" or group.types[at] == "RL":
            return ""
        if name == "FILE_FSET":
            self.sets.add("FS1")
            return "FS1"
        made = self.text(group.types[at], group.units[at], name)
        return made or ("x" if "REQUIRED" in status else "")

    def text(self, kind, unit, name):
        """An entry of a type and a unit."""
        chance = self.chance
        if kind == "PA":
            code = self.joined.join(chance.sample(CODES, chance.choice((1, 1, 2))))
            self.abbreviations |= {(name, part) for part in code.split(self.joined)}
            return code
        if kind in ("PU", "PT"):
            return chance.choice(UNITS) if kind == "PU" else ""
        if kind[1:] in ("DP", "SF", "SCI") or kind == "MC":
            return self.number(kind)
        if kind in ("DT", "T"):
            return self.time(unit)
        if kind == "DMS":
            sign, degrees = chance.choice(["", "-", "+"]), chance.randrange(90)
            return f"{sign}{degrees}:{chance.randrange(60):02}:00.{chance.randrange(9)}"
        if kind == "YN":
            return chance.choice("YNyn")
        if kind == "ID":
            usual = f"BH{chance.randrange(1000):03}"
            return usual if chance.random() < 0.9 else chance.choice(["007", "1.0", "=1", "X Y"])
        return chance.choice(PLAIN if chance.random() < 0.6 else ODD)

    def number(self, kind):
        """A number in one of its spellings: with a sign, leading zeros, of many digits."""
        chance = self.chance
        sign = chance.choice(["", "", "", "", "-", "+"])
        whole = chance.choice([str(chance.randrange(100)), str(chance.randrange(100)), "0", "007", "12345678901234567"])
        decimals = "".join(chance.choice("0123456789") for _ in range(int(kind[0]) if kind[0].isdigit() else 1))
        if kind.endswith("SCI"):
            power = chance.choice(["E+04", "E-03", "E4", "e+004", "E+00"])
            return f"{sign}{chance.randrange(10)}{'.' if decimals else ''}{decimals}{power}"
        if kind.endswith("SF") or kind == "MC":
            power = "E5" if kind != "MC" and chance.random() < 0.1 else ""
            return sign + whole + chance.choice(["", ".5", ".50", ".0"]) + power
        return f"{sign}{whole}{'.' if decimals else ''}{decimals}"

    def time(self, unit):
        chance = self.chance
        day = f"20{chance.randrange(100):02}-{chance.randrange(1, 13):02}-{chance.randrange(1, 29):02}"
        clock = f"{chance.randrange(24):02}:{chance.randrange(60):02}"
        return {"yyyy-mm-dd": day, "yyyy-mm-ddThh:mm": f"{day}T{clock}", "yyyy-mm-ddThh:mm:ss": f"{day}T{clock}:09",
                "hh:mm": clock}.get(unit, "some time")

    def links(self):
        """Fills some record links in with rows of the file whose keys can be named."""
        rows = [(group.name, group.key(row, self.keys(group.name))) for group in self.made.values()
                for row in group.rows if self.keys(group.name)]
        named = [(name, *key) for name, key in rows if not any(sign in part for part in key
                                                               for sign in (self.delimiter, self.joined))]
        for group in self.made.values():
            for at, kind in enumerate(group.types):
                for row in group.rows if kind == "RL" and group.name not in HEADS[1:6] else ():
                    count = min(len(named), self.chance.choice((0, 1, 1, 2)))
                    row[at] = self.joined.join(self.delimiter.join(one) for one in self.chance.sample(named, count))

    def definitions(self):
        """FILE, ABBR, UNIT and TYPE, with all that the file uses."""
        if self.sets:
            self.listing("FILE", [{"FILE_FSET": "FS1", "FILE_NAME": name} for name in ("a.pdf", "b.pdf")])
        if self.abbreviations:
            self.listing("ABBR", [{"ABBR_HDNG": heading, "ABBR_CODE": code, "ABBR_DESC": f"what {code} means"}
                                  for heading, code in sorted(self.abbreviations)])
        self.listing("UNIT", [{"UNIT_UNIT": unit, "UNIT_DESC": f"unit {unit}"} for unit in sorted(self.units())])
        kinds = {kind for group in self.made.values() for kind in group.types} | {"X"}
        self.listing("TYPE", [{"TYPE_TYPE": kind, "TYPE_DESC": f"type {kind}"} for kind in sorted(kinds - {""})])

    def units(self):
        """The units that the file lists: those that it uses, and some more."""
        return used_units(self.made.values()) | set(UNITS)

    def listing(self, name, rows):
        headings = [heading for heading, status, *_ in self.order[name] if heading in rows[0] or status != "OTHER"]
        self.made[name] = Group(name, headings, [""] * len(headings), ["X"] * len(headings),
                                [[row.get(heading, "") for heading in headings] for row in rows])


class Plain(Maker):
    """Makes one file of entries that read back in one way only, with all headings of the groups that mistakes are put
    into. It lists what it uses and nothing else."""
    WHOLE = ("PROJ", "TRAN", "LOCA", "SAMP", "LNMC", "ISPT", "MOND")
    TEXTS = ("Firm brown CLAY", "MADE GROUND: ash, brick - loose", "Dense SAND, dipping 20 deg", "area of 5 m2",
             'Stiff "blocky" CLAY', "Rock of 1.5x10^3 kPa", "SILT in lenses of 2 1/2 m")

    def __init__(self, chance, groups):
        super().__init__(chance, groups)
        self.numbers, self.texts = itertools.count(1), {"LNMC_MC"} if groups is BUILT_IN else set()

    def add_groups(self):
        for name in self.WHOLE:
            if name in self.order and (name not in ("ISPT", "MOND") or self.chance.random() < 0.7):
                self.add_with_parents(name)
        others = [name for name in self.order if name not in HEADS and name not in self.WHOLE]
        for name in self.chance.sample(others, min(len(others), self.chance.randrange(0, 3))):
            self.add_with_parents(name)

    def chosen(self, name):
        return list(self.order[name]) if name in self.WHOLE else super().chosen(name)

    def form(self, heading, status, kind, unit):
        return ("X", "") if heading in self.texts else (kind, unit)

    def times(self, name):
        if name in ("PROJ", "TRAN", "LNMC"):
            return 1
        return self.chance.randint(3, 5) if name == "LOCA" else self.chance.choice((1, 2))

    def entry(self, heading, group, at):
        """An entry; keys that are text are numbered."""
        if "KEY" in heading[1].split("+") and group.types[at] in ("X", "ID"):
            return f"{'BH' if heading[0] == 'LOCA_ID' else group.name[:2]}{next(self.numbers):02}"
        return super().entry(heading, group, at)

    def text(self, kind, unit, name):
        return self.chance.choice(self.TEXTS) if kind in ("X", "XN", "U") else super().text(kind, unit, name)

    def time(self, unit):
        """A time whose day cannot be taken for a month."""
        day = f"2024-{self.chance.randrange(1, 13):02}-{self.chance.randrange(13, 29):02}"
        return day + super().time(unit)[10:] if unit.startswith("yyyy-mm-dd") else super().time(unit)

    def units(self):
        return used_units(self.made.values())


def used_units(groups):
    """The units of headings, and those that are entries of type PU."""
    groups = list(groups)
    return ({unit for group in groups for unit in group.units}
            | {row[at] for group in groups for at, kind in enumerate(group.types) if kind == "PU" for row in group.rows}
            ) - {""}


def made(chance, groups):
    """The groups of one random file."""
    return Maker(chance, groups).file()


def row_of(*fields):
    return ",".join('"' + each.replace('"', '""') + '"' for each in fields) + "\r\n"


def text(groups):
    """The file of groups, in the register's own form."""
    out = []
    for group in groups:
        rows = [row_of("DATA", *row) for row in group.rows]
        out.append(row_of("GROUP", group.name) + row_of("HEADING", *group.headings) + row_of("UNIT", *group.units)
                   + row_of("TYPE", *group.types) + "".join(rows))
    return "\r\n".join(out).encode("ascii")


if __name__ == "__main__":
    if not 2 <= len(sys.argv) <= 3:
        sys.exit(__doc__)
    chosen = published.groups(int(sys.argv[2])) if len(sys.argv) > 2 else BUILT_IN
    sys.stdout.buffer.write(text(made(random.Random(int(sys.argv[1])), chosen)))
