"""An AGS4 file: its lines, the rows that can be read among them, and its groups, with an index for each look-up.

    file = File(data)                 # .lines .ends .rows .groups .by_name .by_line
    file.column(b"LOCA", b"LOCA_ID")  # what a group lists under a heading"""
import bisect

from .group import Group, Row
from .line import DESCRIPTORS, fields_of

# The most bytes that a file, a policy, callers or a dictionary may have.
LIMIT = 16_777_216
MARK = b"\xef\xbb\xbf"


class File:
    """A file's lines, the rows that can be read among them, and its groups."""

    def __init__(self, data):
        self.data, self.has_mark = data, data.startswith(MARK)
        pieces = data.removeprefix(MARK).split(b"\n")
        last = pieces.pop()
        self.lines = [piece[:-1] if piece[-1:] == b"\r" else piece for piece in pieces]
        self.ends = ["CRLF" if piece[-1:] == b"\r" else "LF" for piece in pieces]
        if last:
            self.lines.append(last)
            self.ends.append("")
        self.rows, self.descriptorless, self.unreadable = [], [], []
        for number, content in enumerate(self.lines, 1):
            self.add_line(number, content)
        starts = [k for k, row in enumerate(self.rows) if row.descriptor == b"GROUP" or k == 0] + [len(self.rows)]
        self.groups = [Group(self.rows[a:b]) for a, b in zip(starts, starts[1:])]
        self.starts = [group.line for group in self.groups]
        self.by_name = {}
        for group in self.groups:
            self.by_name.setdefault(group.name, group)
        self.by_line = {row.line: row for row in self.rows}

    def add_line(self, number, content):
        """Reads a line as a row, where it is one."""
        if b"\r" in content or content.strip(b" ") == b"":
            return
        fields = fields_of(content)
        if fields is None:
            self.unreadable.append(number)
        elif fields[0] in DESCRIPTORS:
            self.rows.append(Row(number, fields[0], fields[1:]))
        else:
            self.descriptorless.append(number)

    def line(self, number):
        return self.lines[number - 1] if 1 <= number <= len(self.lines) else b""

    def group_at(self, number):
        """The group that a line is in, or None before the first."""
        at = bisect.bisect_right(self.starts, number)
        return self.groups[at - 1] if at else None

    def entry_of(self, group, heading):
        """What the first DATA row of a group has under a heading."""
        given = self.by_name.get(group)
        return given.entry(given.data[0], heading) if given and given.data else b""

    def column(self, group, heading):
        """What a group lists under a heading."""
        given = self.by_name.get(group)
        return [given.entry(row, heading) for row in given.data] if given else []

    def separators(self):
        """The delimiter and the concatenator of record links (Rules 11a and 11b)."""
        signs = []
        for heading, usual in ((b"TRAN_DLIM", b"|"), (b"TRAN_RCON", b"+")):
            given = self.entry_of(b"TRAN", heading)
            signs.append(given if len(given) == 1 else usual)
        return signs
