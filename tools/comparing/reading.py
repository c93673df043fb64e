"""A file that can be compared, though a person has to put it right: its UNIT or TYPE rows are missing, a group is in
parts, or names have another form.

    file, flaws = read_named(data, "a.ags")"""
from typing import NamedTuple

import ags
from tables import Refused
from tables.layout import read

NO_UNITS, NO_TYPES, IN_PARTS = "no UNIT row", "no TYPE row", "in parts"


class Flaw(NamedTuple):
    """What of a group can be compared in part, or as if it were right, with its line."""
    what: str
    group: bytes
    line: int


def read_named(data, name):
    """A file, with its groups whole, and its flaws."""
    try:
        file = read(data, allowed)
    except Refused as refused:
        raise Refused(*(f"{name}: {reason}" for reason in refused.reasons)) from None
    flaws = []
    for group in file.groups:
        flaws += [Flaw(what, group.name, group.line) for what, row in ((NO_UNITS, group.unit), (NO_TYPES, group.type))
                  if row is None]
        first = file.by_name[group.name]
        if group.line != first.line:
            flaws.append(Flaw(IN_PARTS, group.name, group.line))
            file.by_name[group.name] = ags.Group([*first.rows, *group.data])
    return file, flaws


def allowed(file):
    """The codes of findings with which a file can be compared."""
    if not all(map(is_headed, file.groups)):
        return ()
    parts = {}
    for group in file.groups:
        head = [row.items if row else None for row in (group.heading, group.unit, group.type)]
        parts.setdefault(group.name, []).append(head)
    is_alike = all(head == heads[0] for heads in parts.values() for head in heads)
    return ("2b", "19", "19a", "P1") if is_alike else ("2b", "19", "19a")


def is_headed(group):
    """Whether a group begins with its GROUP and its HEADING row, and has each of its header rows at most once."""
    found = [row.descriptor for row in group.rows]
    return found[:2] == [b"GROUP", b"HEADING"] and all(found.count(each) < 2 for each in ags.DESCRIPTORS[:4])
