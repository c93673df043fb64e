"""The findings of a file by itself: of its lines, of the order of its rows, and of its groups.

    line_findings(file), order_findings(file), group_findings(file)    # phases 1 to 3, each a set"""
import re

from .finding import Finding

FOLLOWS = {b"GROUP": (b"HEADING",), b"HEADING": (b"UNIT",), b"UNIT": (b"TYPE",), b"TYPE": (b"DATA", b"GROUP"),
           b"DATA": (b"DATA", b"GROUP")}


def line_findings(file, is_loose=False):
    found = set()
    for number, (content, end) in enumerate(zip(file.lines, file.ends), 1):
        if not is_loose and not content.isascii():
            found.add(Finding(number, "1", b""))
        if not is_loose and end == "LF":
            found.add(Finding(number, "2a", b""))
        if b"\r" in content:
            found.add(Finding(number, "6", b""))
    found |= {Finding(number, "5", b"") for number in file.unreadable}
    return found | {Finding(number, "3", b"") for number in file.descriptorless}


def order_findings(file):
    found, before = set(), None
    if not file.rows:
        found.add(Finding(0, "2", b""))
    for row in file.rows:
        descriptor = row.descriptor
        if (descriptor != b"GROUP") if before is None else descriptor not in FOLLOWS[before]:
            found.add(Finding(row.line, "2b", b""))
        if descriptor == b"GROUP" and len(row.items) != 1:
            found.add(Finding(row.line, "4", b""))
        before = descriptor
    if before in (b"GROUP", b"HEADING", b"UNIT"):
        found.add(Finding(file.rows[-1].line, "2b", b""))
    return found


def group_findings(file):
    found, names = set(), set()
    for group in file.groups:
        name, headings = group.name, group.headings
        if not group.data:
            found.add(Finding(group.line, "2", name))
        if not headings:
            found.add(Finding(group.heading.line, "4", name))
        found |= {Finding(row.line, "4", name) for row in group.rows[2:] if len(row.items) != len(headings)}
        if not re.fullmatch(rb"[A-Z0-9]{1,4}", name):
            found.add(Finding(group.line, "19", name))
        for column, heading in enumerate(headings):
            if not re.fullmatch(rb"[A-Z0-9_]{1,9}", heading):
                found.add(Finding(group.heading.line, "19a", heading))
            if group.columns[heading] != column:
                found.add(Finding(group.heading.line, "P2", heading))
        if name in names:
            found.add(Finding(group.line, "P1", name))
        names.add(name)
    return found
