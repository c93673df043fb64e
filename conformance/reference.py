#!/usr/bin/env python3
"""A second checker of this profile, written apart from the product: slow, plain, and straight from the rules.

usage: reference.py [--phases N] < FILE.ags

Prints one line `code line subject` a finding, or `clean`, as groundreg does.
It proves nothing. It is here so that what the files of files/ must give was computed twice: by hand in cases.py and by
this program. Every rule is written as a search over all lines, rows or pairs of rows; no index, no order that
matters."""
import re
import sys

CODES = "1 2 2a 2b 3 4 5 6 7 8 9 10a 10b 10c 11a 11b 11c 13 14 15 16 17 18 19 19a 19b 20 P1 P2".split()
DESCRIPTORS = (b"GROUP", b"HEADING", b"UNIT", b"TYPE", b"DATA")
FOLLOWS = {b"GROUP": (b"HEADING",), b"HEADING": (b"UNIT",), b"UNIT": (b"TYPE",), b"TYPE": (b"DATA", b"GROUP"),
           b"DATA": (b"DATA", b"GROUP")}
DEFINITIONS = (b"TRAN", b"ABBR", b"UNIT", b"TYPE", b"DICT")
NO_PARENT = (b"PROJ", b"TRAN", b"ABBR", b"DICT", b"UNIT", b"TYPE", b"FILE")

# The built-in dictionary: a line is a group, its parent and its headings; K is KEY, R is REQUIRED, O is OTHER.
MINI = """
PROJ - PROJ_ID KR, PROJ_NAME O, FILE_FSET O
TRAN - TRAN_ISNO K, TRAN_DATE O, TRAN_AGS O, TRAN_DLIM O, TRAN_RCON O
ABBR - ABBR_HDNG K, ABBR_CODE K, ABBR_DESC O
UNIT - UNIT_UNIT K, UNIT_DESC O
TYPE - TYPE_TYPE K, TYPE_DESC O
DICT - DICT_TYPE K, DICT_GRP K, DICT_HDNG K, DICT_STAT O, DICT_PGRP O
FILE - FILE_FSET K, FILE_NAME K, FILE_DESC O
LOCA PROJ LOCA_ID KR, LOCA_TYPE O, LOCA_STAT O, LOCA_GL O, FILE_FSET O
SAMP LOCA LOCA_ID K, SAMP_TOP K, SAMP_REF K, SAMP_BASE O, SAMP_LINK O
LNMC SAMP LOCA_ID K, SAMP_TOP K, SAMP_REF K, SPEC_DPTH K, LNMC_MC O
"""
STATUS = {b"K": b"KEY", b"R": b"REQUIRED", b"KR": b"KEY+REQUIRED", b"O": b"OTHER"}


def built_in():
    """The entries of the built-in dictionary: ("G", group, parent) and ("H", group, heading, status)."""
    entries = []
    for line in MINI.strip().encode().splitlines():
        group, parent, headings = line.split(b" ", 2)
        entries.append(("G", group, parent))
        for item in headings.split(b", "):
            name, status = item.split(b" ")
            entries.append(("H", group, name, STATUS[status]))
    return entries


# ---- lines and rows

def lines_of(data):
    """(number, content, ending) of each line."""
    if data.startswith(b"\xef\xbb\xbf"):
        data = data[3:]
    out = []
    while data:
        at = data.find(b"\n")
        piece, data = (data, b"") if at < 0 else (data[:at + 1], data[at + 1:])
        if piece.endswith(b"\r\n"):
            out.append((len(out) + 1, piece[:-2], "CRLF"))
        elif piece.endswith(b"\n"):
            out.append((len(out) + 1, piece[:-1], "LF"))
        else:
            out.append((len(out) + 1, piece, ""))
    return out


PIECE = rb' *"((?:[^"\r\n]|"")*)" *'
ROW = re.compile(rb"(?:" + PIECE + rb",)*" + PIECE)


def fields_of(content):
    """The fields that spell a line, or None."""
    if not ROW.fullmatch(content):
        return None
    fields, rest = [], content
    while True:
        m = re.match(PIECE, rest)
        fields.append(m[1].replace(b'""', b'"'))
        rest = rest[m.end():]
        if not rest:
            return fields
        rest = rest[1:]


def blank(content):
    return content.strip(b" ") == b""


class Row:
    def __init__(self, line, descriptor, items):
        self.line, self.descriptor, self.items = line, descriptor, items


class Group:
    def __init__(self, rows):
        self.name, self.line = rows[0].items[0], rows[0].line
        self.heading, self.unit, self.type = rows[1], rows[2], rows[3]
        self.headings = rows[1].items
        self.data = rows[4:]

    def under(self, row, heading):
        return row.items[self.headings.index(heading)] if heading in self.headings else b""


def first_phase(lines, loose):
    found, rows = set(), []
    for number, content, ending in lines:
        fields = None if b"\r" in content or blank(content) else fields_of(content)
        if not loose and any(b >= 128 for b in content):
            found.add((number, "1", b""))
        if not loose and ending == "LF":
            found.add((number, "2a", b""))
        if b"\r" in content:
            found.add((number, "6", b""))
        elif not blank(content) and fields is None:
            found.add((number, "5", b""))
        elif fields is not None and fields[0] not in DESCRIPTORS:
            found.add((number, "3", b""))
        elif fields is not None:
            rows.append(Row(number, fields[0], fields[1:]))
    return found, rows


def second_phase(rows):
    found = set()
    if not rows:
        found.add((0, "2", b""))
    for k, row in enumerate(rows):
        first_wrong = k == 0 and row.descriptor != b"GROUP"
        follows_wrong = k > 0 and row.descriptor not in FOLLOWS[rows[k - 1].descriptor]
        last_wrong = k == len(rows) - 1 and row.descriptor in (b"GROUP", b"HEADING", b"UNIT")
        if first_wrong or follows_wrong or last_wrong:
            found.add((row.line, "2b", b""))
        if row.descriptor == b"GROUP" and len(row.items) != 1:
            found.add((row.line, "4", b""))
    return found


def cut(rows):
    starts = [k for k, row in enumerate(rows) if row.descriptor == b"GROUP"] + [len(rows)]
    return [Group(rows[a:b]) for a, b in zip(starts, starts[1:])]


def third_phase(groups):
    found = set()
    for k, g in enumerate(groups):
        if not g.data:
            found.add((g.line, "2", g.name))
        if not g.headings:
            found.add((g.heading.line, "4", g.name))
        for row in [g.unit, g.type] + g.data:
            if len(row.items) != len(g.headings):
                found.add((row.line, "4", g.name))
        if not re.fullmatch(rb"[A-Z0-9]{1,4}", g.name):
            found.add((g.line, "19", g.name))
        for heading in g.headings:
            if not re.fullmatch(rb"[A-Z0-9_]{1,9}", heading):
                found.add((g.heading.line, "19a", heading))
            if g.headings.count(heading) > 1:
                found.add((g.heading.line, "P2", heading))
        if any(other.name == g.name for other in groups[:k]):
            found.add((g.line, "P1", g.name))
    return found


# ---- dictionary

def own_entries(groups):
    entries = []
    for g in groups:
        if g.name == b"DICT":
            for row in g.data:
                kind = g.under(row, b"DICT_TYPE")
                if kind == b"GROUP":
                    entries.append(("G", g.under(row, b"DICT_GRP"), g.under(row, b"DICT_PGRP")))
                if kind == b"HEADING":
                    entries.append(("H", g.under(row, b"DICT_GRP"), g.under(row, b"DICT_HDNG"),
                                    g.under(row, b"DICT_STAT")))
    return entries


def extended(standard, own):
    """The entries that restate no earlier one, each with whether it came from the file."""
    kept = []
    for is_own, entries in ((False, standard), (True, own)):
        for e in entries:
            size = 2 if e[0] == "G" else 3
            if not any(k[:size] == e[:size] for k, _ in kept):
                kept.append((e, is_own))
    return kept


class Dictionary:
    def __init__(self, entries):
        self.entries = entries

    def has_group(self, group):
        return any(e[0] == "G" and e[1] == group for e, _ in self.entries)

    def order(self, group):
        return [e[2] for e, _ in self.entries if e[0] == "H" and e[1] == group]

    def with_part(self, group, part):
        return [e[2] for e, _ in self.entries if e[0] == "H" and e[1] == group and part in e[3].split(b"+")]

    def keys(self, group):
        return self.with_part(group, b"KEY")

    def required(self, group):
        return self.with_part(group, b"REQUIRED")

    def parent(self, group):
        if group in NO_PARENT:
            return None
        for e, _ in self.entries:
            if e[0] == "G" and e[1] == group:
                return None if e[2] in (b"", b"-") else e[2]
        return None

    def is_own(self, group, heading):
        return any(own and e[0] == "H" and e[1] == group and e[2] == heading for e, own in self.entries)

    def elsewhere(self, group, heading):
        return any(e[0] == "H" and e[1] != group and e[2] == heading for e, _ in self.entries)


def fourth_phase(groups, words):
    found = set()
    names = [g.name for g in groups]
    unknown = "9" if b"DICT" in names else "18"
    for g in groups:
        if not words.has_group(g.name):
            found.add((g.line, unknown, g.name))
            continue
        order = words.order(g.name)
        for k, heading in enumerate(g.headings):
            if heading not in order:
                found.add((g.heading.line, unknown, heading))
            elif any(e in order and order.index(e) > order.index(heading) for e in g.headings[:k]):
                found.add((g.heading.line, "7", heading))
            own_prefix = heading.startswith(g.name + b"_")
            if words.is_own(g.name, heading) and not own_prefix and not words.elsewhere(g.name, heading):
                found.add((g.heading.line, "19b", heading))
        for heading in words.keys(g.name):
            if heading not in g.headings:
                found.add((g.heading.line, "10a", heading))
        for heading in words.required(g.name):
            if heading not in g.headings:
                found.add((g.heading.line, "10b", heading))
        parent = words.parent(g.name)
        if parent is not None and parent not in names:
            found.add((g.line, "10c", g.name))
    for name, code in ((b"PROJ", "13"), (b"TRAN", "14")):
        if name not in names:
            found.add((0, code, name))
        for g in groups:
            if g.name == name:
                for row in g.data[1:]:
                    found.add((row.line, code, name))
    for name, code in ((b"UNIT", "15"), (b"TYPE", "17")):
        if name not in names:
            found.add((0, code, name))
    for g in groups:
        if g.name == b"TRAN" and g.data:
            for heading, code in ((b"TRAN_DLIM", "11a"), (b"TRAN_RCON", "11b")):
                if len(g.under(g.data[0], heading)) > 1:
                    found.add((g.data[0].line, code, heading))
    return found


# ---- cell types

DATE = r"(\d{4})-(\d\d)-(\d\d)"


def day_exists(text):
    m = re.fullmatch(DATE, text, re.A)
    if not m:
        return False
    y, mo, d = map(int, m.groups())
    leap = y % 4 == 0 and (y % 100 != 0 or y % 400 == 0)
    days = (31, 29 if leap else 28, 31, 30, 31, 30, 31, 31, 30, 31, 30, 31)
    return 1 <= mo <= 12 and 1 <= d <= days[mo - 1]


def clock(text, seconds, many_hours=False):
    hours = r"\d{2,4}" if many_hours else r"(?:[01]\d|2[0-3])"
    return re.fullmatch(hours + r":[0-5]\d" + (r":[0-5]\d" if seconds else ""), text, re.A) is not None


def fits(kind, unit, cell):
    if cell == b"":
        return True
    kind, unit, text = kind.decode("latin-1"), unit.decode("latin-1"), cell.decode("latin-1")
    if re.fullmatch(r"[0-9]DP", kind):
        n = int(kind[0])
        return re.fullmatch(r"[+-]?[0-9]+" + (r"\.[0-9]{%d}" % n if n else ""), text) is not None
    if re.fullmatch(r"[0-9]SF", kind):
        return re.fullmatch(r"[+-]?[0-9]+(\.[0-9]+)?([Ee][+-]?[0-9]{1,3})?", text) is not None
    if re.fullmatch(r"[0-9]SCI", kind):
        n = int(kind[0])
        decimals = r"\.[0-9]{%d}" % n if n else ""
        return re.fullmatch(r"[+-]?[0-9]" + decimals + r"[Ee][+-]?[0-9]{1,3}", text) is not None
    if kind == "MC":
        return re.fullmatch(r"[+-]?[0-9]+(\.[0-9]+)?", text) is not None
    if kind == "YN":
        return text in ("Y", "N", "y", "n")
    if kind == "DMS":
        return re.fullmatch(r"[+-]?[0-9]{1,3}:[0-5][0-9]:[0-5][0-9](\.[0-9]+)?", text) is not None
    if kind in ("DT", "T"):
        if unit == "yyyy":
            return re.fullmatch(r"[0-9]{4}", text) is not None
        if unit == "yyyy-mm":
            return re.fullmatch(r"[0-9]{4}-(0[1-9]|1[0-2])", text) is not None
        if unit == "yyyy-mm-dd":
            return day_exists(text)
        if unit in ("yyyy-mm-ddThh:mm", "yyyy-mm-ddThh:mm:ss"):
            seconds = unit.endswith("ss")
            return day_exists(text) or (len(text) > 10 and text[10] == "T" and day_exists(text[:10])
                                        and clock(text[11:], seconds))
        if unit in ("hh:mm", "hh:mm:ss"):
            return clock(text, unit.endswith("ss"), kind == "T")
        return True
    return True


# ---- keys, parents, record links

def key(g, row, words):
    return [g.under(row, k) for k in words.keys(g.name)]


def parent_rows(g, row, groups, words):
    out = []
    for p in groups:
        if p.name == words.parent(g.name):
            link = [h for h in words.keys(p.name) if h in g.headings]
            out += [s for s in p.data if all(p.under(s, h) == g.under(row, h) for h in link)]
    return out


def separators(groups):
    delimiter, concatenator = b"|", b"+"
    for g in groups:
        if g.name == b"TRAN" and g.data:
            if len(g.under(g.data[0], b"TRAN_DLIM")) == 1:
                delimiter = g.under(g.data[0], b"TRAN_DLIM")
            if len(g.under(g.data[0], b"TRAN_RCON")) == 1:
                concatenator = g.under(g.data[0], b"TRAN_RCON")
    return delimiter, concatenator


def names_a_row(part, delimiter, groups, words):
    pieces = part.split(delimiter)
    return any(pieces[0] == g.name and pieces[1:] == key(g, s, words) for g in groups for s in g.data)


def listed(groups, group, **wanted):
    return any(all(g.under(row, h.encode()) == v for h, v in wanted.items()) for g in groups if g.name == group
               for row in g.data)


def fifth_phase(groups, words):
    found = set()
    delimiter, concatenator = separators(groups)
    for g in groups:
        keys = words.keys(g.name)
        is_data = g.name not in DEFINITIONS
        for heading, unit, kind in zip(g.headings, g.unit.items, g.type.items):
            if unit and not listed(groups, b"UNIT", UNIT_UNIT=unit):
                found.add((g.unit.line, "15", heading))
            if kind and not listed(groups, b"TYPE", TYPE_TYPE=kind):
                found.add((g.type.line, "17", heading))
            for row in g.data:
                entry = g.under(row, heading)
                if not entry:
                    continue
                if not fits(kind, unit, entry):
                    found.add((row.line, "8", heading))
                if kind == b"PU" and not listed(groups, b"UNIT", UNIT_UNIT=entry):
                    found.add((row.line, "15", heading))
                if kind == b"PT" and not listed(groups, b"TYPE", TYPE_TYPE=entry):
                    found.add((row.line, "17", heading))
                if kind == b"PA" and not listed(groups, b"ABBR", ABBR_HDNG=heading, ABBR_CODE=entry):
                    if not all(listed(groups, b"ABBR", ABBR_HDNG=heading, ABBR_CODE=part)
                               for part in entry.split(concatenator)):
                        found.add((row.line, "16", heading))
                if kind == b"RL" and is_data:
                    if not all(names_a_row(part, delimiter, groups, words) for part in entry.split(concatenator)):
                        found.add((row.line, "11c", heading))
        for k, row in enumerate(g.data):
            if keys and any(key(g, other, words) == key(g, row, words) for other in g.data[:k]):
                found.add((row.line, "10a", g.name))
            for heading in words.required(g.name):
                if not g.under(row, heading):
                    found.add((row.line, "10b", heading))
            if words.parent(g.name) is not None and not parent_rows(g, row, groups, words):
                found.add((row.line, "10c", g.name))
            fset = g.under(row, b"FILE_FSET")
            if is_data and g.name != b"FILE" and fset and not listed(groups, b"FILE", FILE_FSET=fset):
                found.add((row.line, "20", b"FILE_FSET"))
    return found


def steps(data, standard=None):
    """For each DATA row of a file without findings the numbers of the rows that it belongs to or links to, rising;
    rows are numbered from 0."""
    _, rows = first_phase(lines_of(data), False)
    groups = cut(rows)
    words = Dictionary(extended(built_in() if standard is None else standard, own_entries(groups)))
    numbered = [(g, row) for g in groups for row in g.data]
    targets = [targets_of(g, row, groups, words) for g, row in numbered]
    return [[n for n, (_, s) in enumerate(numbered) if any(s is t for t in found)] for found in targets]


def targets_of(g, row, groups, words):
    """The rows that a row has a step to."""
    found = parent_rows(g, row, groups, words)
    if g.name in DEFINITIONS:
        return found
    delimiter, concatenator = separators(groups)
    for heading, kind in zip(g.headings, g.type.items):
        if kind == b"RL" and g.under(row, heading):
            for part in g.under(row, heading).split(concatenator):
                pieces = part.split(delimiter)
                found += [s for h in groups for s in h.data if pieces[0] == h.name and pieces[1:] == key(h, s, words)]
    files = g.under(row, b"FILE_FSET")
    if g.name != b"FILE" and files:
        found += [s for h in groups if h.name == b"FILE" for s in h.data if h.under(s, b"FILE_FSET") == files]
    return found


def findings(data, phases=5, standard=None):
    """All findings of the first of the phases that has any, in order, under the entries of a standard dictionary (the
    built-in one)."""
    found, rows = first_phase(lines_of(data), False)
    if not found and phases >= 2:
        found = second_phase(rows)
    if not found and phases >= 3:
        groups = cut(rows)
        found = third_phase(groups)
    if not found and phases >= 4:
        words = Dictionary(extended(built_in() if standard is None else standard, own_entries(groups)))
        found = fourth_phase(groups, words)
        if not found and phases >= 5:
            found = fifth_phase(groups, words)
    return sorted(found, key=lambda f: (f[0], CODES.index(f[1]), f[2]))


def printed(found):
    out = []
    for line, code, subject in found:
        text = "".join("?" if b < 32 or b > 126 else chr(b) for b in subject) or "-"
        out.append(f"{code} {line} {text}")
    return out or ["clean"]


if __name__ == "__main__":
    phases = int(sys.argv[2]) if len(sys.argv) > 2 else 5
    out = printed(findings(sys.stdin.buffer.read(), phases))
    sys.stdout.buffer.write(("\n".join(out) + "\n").encode("latin-1"))
    sys.exit(0 if out == ["clean"] else 1)
