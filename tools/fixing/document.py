"""A file as lines that keep their identity while fixes change, move, add and take out lines.

    document = Document.of(data)
    changed = document.edited(edits)          # a new document; the first is as before
    changed.data()                            # its bytes
    changes(document, changed)                # what differs, by line"""
from dataclasses import dataclass, field
from typing import NamedTuple

import ags


class Line(NamedTuple):
    """A line: its number in the file as it was given (0 where it was added), a name of its own, content and end."""
    origin: int
    name: object
    content: bytes
    end: bytes


class Change(NamedTuple):
    """A line before and after a fix: the number in the file as given (0 where added), the one in the fixed file (0
    where taken out)."""
    code: str
    fix: str
    about: str
    line: int
    new_line: int
    before: bytes
    after: bytes
    name: object = None


@dataclass
class Edits:
    """What a fix does, by the line numbers of the file that it saw: contents to write, entries to write (by line and
    column), line ends to put right, lines to take out, lines to add below one (0: at the start), and lines to move
    below one. `targets` are the findings that have to be gone then."""
    targets: set = field(default_factory=set)
    contents: dict = field(default_factory=dict)
    entries: dict = field(default_factory=dict)
    ends: set = field(default_factory=set)
    removed: set = field(default_factory=set)
    added: dict = field(default_factory=dict)
    moved: dict = field(default_factory=dict)

    def __bool__(self):
        return bool(self.contents or self.entries or self.ends or self.removed or self.added or self.moved)

    def joined(self, other):
        """These and others, which change other lines."""
        return Edits(self.targets | other.targets, {**self.contents, **other.contents},
                     {**self.entries, **other.entries}, self.ends | other.ends,
                     self.removed | other.removed, both(self.added, other.added), both(self.moved, other.moved))


def both(one, other):
    """Two maps to lists as one."""
    return {at: [*one.get(at, ()), *other.get(at, ())] for at in {**one, **other}}


class Document:
    def __init__(self, lines, mark=b""):
        self.lines, self.mark = lines, mark

    @staticmethod
    def of(data):
        """A document of a file's bytes, cut as ags.File cuts them."""
        mark = ags.MARK if data.startswith(ags.MARK) else b""
        pieces = data.removeprefix(ags.MARK).split(b"\n")
        last = pieces.pop()
        lines = []
        for number, piece in enumerate(pieces, 1):
            is_whole = piece[-1:] == b"\r"
            lines.append(Line(number, number, piece[:-1] if is_whole else piece, b"\r\n" if is_whole else b"\n"))
        if last:
            lines.append(Line(len(lines) + 1, len(lines) + 1, last, b""))
        return Document(lines, mark)

    def data(self):
        return self.mark + b"".join(line.content + line.end for line in self.lines)

    def name_of(self, number):
        """The identity of a line; 0 is the file as a whole."""
        return self.lines[number - 1].name if 1 <= number <= len(self.lines) else 0

    def edited(self, edits):
        out = [*self.new_lines(0, edits)]
        moving = {number for numbers in edits.moved.values() for number in numbers}
        contents = {**edits.contents, **self.rows_with(edits.entries)}
        for number, line in enumerate(self.lines, 1):
            if number not in edits.removed and number not in moving:
                out.append(self.written(number, line, contents, edits))
            if number in edits.moved:
                out += [self.written(other, self.lines[other - 1], contents, edits) for other in edits.moved[number]]
            out += self.new_lines(number, edits)
        # A line that has no end is the last one: what came below it is not to be read as part of it.
        out = [line if line.end or at == len(out) - 1 else line._replace(end=b"\r\n") for at, line in enumerate(out)]
        return Document(out, self.mark)

    @staticmethod
    def written(number, line, contents, edits):
        if number in contents:
            line = line._replace(content=contents[number])
        return line._replace(end=b"\r\n") if number in edits.ends and line.end else line

    def rows_with(self, entries):
        """The contents of rows with these entries in them, by line and column."""
        rows = {}
        for (number, column), entry in entries.items():
            fields = rows.setdefault(number, None) or ags.fields_of(self.lines[number - 1].content)
            fields[column + 1] = entry
            rows[number] = fields
        return {number: ags.line_of(fields) for number, fields in rows.items()}

    @staticmethod
    def new_lines(number, edits):
        return [Line(0, object(), content, b"\r\n") for content in edits.added.get(number, ())]


def changes(before, after, edits, code, fix, about):
    """What a fix changed, line by line. A line that moved, or whose end alone differs, has the same text before and
    after."""
    old = {line.name: line for line in before.lines}
    moved = {before.name_of(number) for numbers in edits.moved.values() for number in numbers}
    out, kept = [], set()
    for number, line in enumerate(after.lines, 1):
        kept.add(line.name)
        was = old.get(line.name)
        if was is None:
            out.append(Change(code, fix, about, 0, number, b"", line.content, line.name))
        elif was.content != line.content or was.end != line.end and was.end == b"\n" or line.name in moved:
            out.append(Change(code, fix, about, line.origin, number, was.content, line.content, line.name))
    return out + [Change(code, fix, about, line.origin, 0, line.content, b"", line.name) for line in before.lines
                  if line.name not in kept]


def numbered(changes, last):
    """The changes with the numbers that their lines have in the fixed file; 0 is a line that is not in it."""
    numbers = {line.name: number for number, line in enumerate(last.lines, 1)}
    return [change if change.name is None else change._replace(new_line=numbers.get(change.name, 0))
            for change in changes]
