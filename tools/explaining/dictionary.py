"""The command bin/dictionary: what a dictionary has, before it is used, and what files have that it lacks.

    described(data, name)              # lines about a dictionary, and its warnings
    compared(file, name, words, said)  # warnings about a file beside it"""
import argparse
import sys

import ags
from . import texts
from .command import bytes_of

STATUS = (b"KEY", b"REQUIRED", b"OTHER", b"")
SPELLED = {b"KEYREQUIRED": b"KEY+REQUIRED", b"REQUIREDKEY": b"KEY+REQUIRED", b"KEY": b"KEY", b"REQUIRED": b"REQUIRED",
           b"OTHER": b"OTHER",
           b"*R": b"KEY+REQUIRED", b"R*": b"KEY+REQUIRED", b"*": b"KEY", b"R": b"REQUIRED", b"GROUP": b"GROUP",
           b"HEADING": b"HEADING"}


class Said:
    """What the rows of a dictionary's DICT say beside the entries that they make."""

    def __init__(self, file):
        self.statuses, self.kinds, self.twice, self.seen, self.forms = {}, {}, [], {}, {}
        group = file.by_name[b"DICT"]
        for row in group.data:
            self.add(row.line, {heading: group.entry(row, heading) for heading in group.headings})

    def add(self, line, entry):
        kind, group, heading = entry[b"DICT_TYPE"], entry[b"DICT_GRP"], entry[b"DICT_HDNG"]
        if kind not in (b"GROUP", b"HEADING"):
            self.kinds.setdefault(kind, []).append(line)
            return
        name = (group,) if kind == b"GROUP" else (group, heading)
        if name in self.seen:
            self.twice.append((name, self.seen[name], line))
            return
        self.seen[name] = line
        if kind == b"HEADING":
            self.forms[name] = entry.get(b"DICT_DTYP", b""), entry.get(b"DICT_UNIT", b"")
            if any(part not in STATUS for part in entry[b"DICT_STAT"].split(b"+")):
                self.statuses.setdefault(entry[b"DICT_STAT"], []).append((line, name))


def spelling(given):
    """How a status or a kind of entry is spelled that has these letters, or None."""
    plain = given.upper().strip()
    return SPELLED.get(plain) or SPELLED.get(bytes(byte for byte in plain if 65 <= byte <= 90))


def warnings_of(words, said):
    out = []
    for status, rows in said.statuses.items():
        right = spelling(status)
        names = texts.listing(f"{ags.shown(heading)} of {ags.shown(group)}" for _, (group, heading) in rows)
        out.append(f"DICT_STAT {texts.value(status)} makes no KEY and no REQUIRED heading where that is meant "
                   f"({names}; {texts.lines(line for line, _ in rows)})"
                   + (f": it is spelled {texts.value(right)}." if right else "."))
    for kind, lines in said.kinds.items():
        right = spelling(kind)
        out.append(f"DICT_TYPE {texts.value(kind)} makes no entry ({texts.count(len(lines), 'row')}, "
                   f"{texts.lines(lines)})"
                   + (f": it is spelled {texts.value(right)}." if right in (b"GROUP", b"HEADING")
                      else ": it is GROUP or HEADING."))
    for name, first, line in said.twice:
        out.append(f"{ags.shown(b' '.join(name))} has an entry in line {first} and again in line {line}: the first "
                   "counts.")
    return out + warnings_of_tree(words, said)


def warnings_of_tree(words, said):
    out, parents = [], {}
    for group in words.parents:
        parent = words.parent(group)
        if parent is not None:
            parents.setdefault(parent, []).append(group)
    for parent, children in parents.items():
        if not words.has_group(parent):
            out.append(f"{ags.shown(parent)} is the parent of {texts.names(children, 4)} and no group: every such "
                       "group is a finding of Rule 10c.")
        elif not words.keys(parent):
            out.append(f"{ags.shown(parent)} is the parent of {texts.names(children, 4)} and has no KEY headings: any "
                       "of its rows is a parent then.")
    for group in words.orders:
        if not words.has_group(group):
            out.append(f"{ags.shown(group)} has {texts.count(len(words.order(group)), 'heading')} and no entry of its "
                       "own (DICT_TYPE GROUP), so that the group is unknown (line "
                       f"{said.seen[group, words.order(group)[0]]}).")
    for group in words.parents:
        if not words.order(group):
            out.append(f"{ags.shown(group)} has no headings (line {said.seen[(group,)]}).")
        if is_in_ring(words, group):
            out.append(f"{ags.shown(group)} is above itself: its parents form a ring.")
    return out


def is_in_ring(words, group):
    above, seen = words.parent(group), set()
    while above is not None and above not in seen and above != group:
        seen.add(above)
        above = words.parent(above)
    return above == group


def tree(words):
    """The groups with their parents above them, indented."""
    below, out = {}, []
    for group in words.parents:
        below.setdefault(words.parent(group), []).append(group)

    def add(group, depth):
        out.append(f"{'  ' * (depth + 1)}{ags.shown(group)}: {texts.count(len(words.order(group)), 'heading')}, "
                   f"{len(words.keys(group))} KEY, {len(words.required(group))} REQUIRED")
        for child in below.get(group, ()):
            add(child, depth + 1)
    tops = [parent for parent in below if parent is None or not words.has_group(parent)]
    for parent in tops:
        for group in below[parent]:
            add(group, 0)
    return out


def described(data, name):
    """The dictionary, its file, what its rows say, the lines about it and its warnings."""
    words, file = ags.read_dictionary(data)
    said = Said(file)
    edition, project = words.edition, file.entry_of(b"PROJ", b"PROJ_NAME")
    names = ([f"TRAN_AGS says {texts.value(edition)}"] * bool(edition)
             + [f"PROJ_NAME says {texts.value(project)}"] * bool(project))
    keys, required = (sum(map(len, lists.values())) for lists in (words.key_lists, words.required_lists))
    out = [f"{name}: {texts.count(len(words.parents), 'group')}, {texts.count(len(words.status), 'heading')}, {keys:,} "
           f"KEY, {required:,} REQUIRED.",
           f"  {'; '.join(names) if names else 'It names no edition and no project'}."]
    lack = [heading for heading in (b"DICT_DTYP", b"DICT_UNIT") if heading not in file.by_name[b"DICT"].columns]
    if lack:
        out.append(f"  It has no {texts.names(lack)}, so that types and units of files are not compared.")
    return words, said, out + ["Groups below their parents:"] + tree(words), warnings_of(words, said)


def compared(file, name, words, said):
    """What a file has that a dictionary lacks, and which of its types and units differ."""
    out, words = [], words.extended(ags.own_entries(file))
    for group in file.groups:
        if group.heading is None:
            continue
        if not words.has_group(group.name):
            out.append(f"the group {ags.shown(group.name)} is not in it, nor in the file's DICT (line {group.line}).")
            continue
        known = words.places.get(group.name, {})
        lacks = [heading for heading in group.headings if heading not in known]
        if lacks:
            out.append(f"{ags.shown(group.name)}: {texts.names(lacks, 8)} {'is' if len(lacks) == 1 else 'are'} not in "
                       f"it, nor in the file's DICT (line {group.heading.line}).")
        for heading in group.headings:
            kind, unit = said.forms.get((group.name, heading), (b"", b""))
            out += differs(group, heading, b"TYPE", kind, group.type, group.kind(heading))
            out += differs(group, heading, b"UNIT", unit, group.unit, group.measure(heading))
    return [f"{name}: {one}" for one in out]


def differs(group, heading, what, wanted, row, given):
    if row is None or not wanted or given == wanted:
        return []
    of = "DICT_DTYP" if what == b"TYPE" else "DICT_UNIT"
    return [f"{ags.shown(heading)} of {ags.shown(group.name)} has the {ags.shown(what)} {texts.value(given)} (line "
            f"{row.line}), and {of} is {texts.value(wanted)}."]


def main(given):
    """0 without warnings, 1 with, 2 where an argument is wrong, a file cannot be read or the dictionary is refused."""
    parser = argparse.ArgumentParser(prog="dictionary", usage="bin/dictionary DICTIONARY [FILE.ags ..]",
                                     description="What a dictionary has, before it is used, and what files have that "
                                                 "it lacks.")
    parser.add_argument("dictionary")
    parser.add_argument("files", nargs="*", default=[])
    asked = parser.parse_args(given)
    try:
        words, said, out, warnings = described(bytes_of(asked.dictionary), asked.dictionary)
        for path in asked.files:
            found = compared(ags.File(bytes_of(path)), path, words, said)
            warnings += found
    except ags.NoDictionary as fault:
        print(f"dictionary refused: {fault}", file=sys.stderr)
        return 2
    except OSError as fault:
        print(f"dictionary: cannot read {fault.filename}", file=sys.stderr)
        return 2
    print("\n".join(out + [f"{texts.count(len(warnings), 'warning')}{':' if warnings else '.'}"]
                    + [f"  {one}" for one in warnings]))
    return 1 if warnings else 0
