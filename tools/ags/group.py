"""A group of an AGS4 file: its rows from a GROUP row to the next, and what a row has under a heading.

    group.headings, group.data           # what the HEADING row names, and the DATA rows
    group.entry(row, b"LOCA_ID")         # null where the group lacks the heading
    written([(name, headings, units, types, rows)])    # groups as the register spells them"""
from .line import line_of

# Groups that define what the others use: their rows are of no caller, and have no record links.
DEFINITIONS = (b"TRAN", b"ABBR", b"UNIT", b"TYPE", b"DICT")


class Row:
    __slots__ = ("line", "descriptor", "items")

    def __init__(self, line, descriptor, items):
        self.line, self.descriptor, self.items = line, descriptor, items


class Group:
    """The rows from a GROUP row to the next; what is missing is None."""

    def __init__(self, rows):
        self.rows, self.line = rows, rows[0].line
        self.name = rows[0].items[0] if rows[0].descriptor == b"GROUP" and rows[0].items else b""
        self.heading = self.unit = self.type = None
        for row in rows:
            if row.descriptor == b"HEADING" and self.heading is None:
                self.heading = row
            elif row.descriptor == b"UNIT" and self.unit is None:
                self.unit = row
            elif row.descriptor == b"TYPE" and self.type is None:
                self.type = row
        self.data = [row for row in rows if row.descriptor == b"DATA"]
        self.headings = self.heading.items if self.heading else []
        self.columns = {}
        for column, heading in enumerate(self.headings):
            self.columns.setdefault(heading, column)

    def entry(self, row, heading):
        """What a row has under a heading; null where the group lacks it."""
        column = self.columns.get(heading, -1)
        return row.items[column] if row is not None and 0 <= column < len(row.items) else b""

    def kind(self, heading):
        return self.entry(self.type, heading)

    def measure(self, heading):
        return self.entry(self.unit, heading)

    def entries(self, row, headings):
        items, find = row.items, self.columns.get
        size = len(items)
        return tuple([items[column] if (column := find(heading, size)) < size else b"" for heading in headings])


def written(groups):
    """A file of groups (name, headings, units, types, rows), with CR LF and one empty line between two groups."""
    texts = []
    for name, headings, units, types, rows in groups:
        lines = [(b"GROUP", name), (b"HEADING", *headings), (b"UNIT", *units), (b"TYPE", *types)]
        lines += [(b"DATA", *row) for row in rows]
        texts.append(b"".join(line_of(fields) + b"\r\n" for fields in lines))
    return b"\r\n".join(texts)
