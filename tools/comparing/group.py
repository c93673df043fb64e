"""What differs in one group of two files.

    both(first, second, words, renames)    # Differences
    one(None, second, words)               # of a group that only one of them has"""
from dataclasses import dataclass, field
from typing import List, NamedTuple, Tuple

from .pairs import Pairs, keys_of, value_of


class Change(NamedTuple):
    """An entry that was another one; is_spelling: it is the same number."""
    heading: bytes
    old: bytes
    new: bytes
    is_spelling: bool = False


class Row(NamedTuple):
    """A row by its key: headings and entries; its lines in the old and in the new file, 0 where it is not in one; what
    has changed of it, and of a renamed row how many rows below it follow."""
    key: List[Tuple[bytes, bytes]]
    old_line: int
    new_line: int
    changes: List[Change] = []
    following: int = 0


@dataclass
class Differences:
    """What differs in a group. state: both, added or gone."""
    name: bytes
    state: str = "both"
    headings_added: List[bytes] = field(default_factory=list)
    headings_gone: List[bytes] = field(default_factory=list)
    units: List[Change] = field(default_factory=list)
    types: List[Change] = field(default_factory=list)
    added: List[Row] = field(default_factory=list)
    gone: List[Row] = field(default_factory=list)
    changed: List[Row] = field(default_factory=list)
    renamed: List[Row] = field(default_factory=list)
    spelled: List[Row] = field(default_factory=list)
    rows_in_other_order: bool = False
    headings_in_other_order: bool = False

    def counts(self):
        return {name: len(getattr(self, name)) for name in ("added", "gone", "changed", "renamed", "spelled")}

    def __bool__(self):
        return self.state != "both" or any((
            self.headings_added, self.headings_gone, self.units, self.types, *self.counts().values(),
            self.rows_in_other_order, self.headings_in_other_order))


def keyed(group, row, headings):
    return list(zip(headings, group.entries(row, headings)))


def one(first, second, words):
    """The differences of a group that one of two files has."""
    group = second if first is None else first
    out = Differences(group.name, "added" if first is None else "gone")
    headings = keys_of(group.name, group.headings, words)
    for row in group.data:
        place = (0, row.line) if first is None else (row.line, 0)
        (out.added if first is None else out.gone).append(Row(keyed(group, row, headings), *place))
    return out


def both(first, second, words, renames):
    """The differences of a group that both files have."""
    out, pairs = Differences(first.name), Pairs(first, second, words, renames)
    out.headings_added = [heading for heading in second.headings if heading not in first.columns]
    out.headings_gone = [heading for heading in first.headings if heading not in second.columns]
    shared = [heading for heading in first.headings if heading in second.columns]
    out.headings_in_other_order = shared != [heading for heading in second.headings if heading in first.columns]
    out.units = changes_of(first.unit, second.unit, shared, first.measure, second.measure)
    out.types = changes_of(first.type, second.type, shared, first.kind, second.kind)
    out.gone = [Row(keyed(first, first.data[n], pairs.keys), first.data[n].line, 0) for n in pairs.gone]
    out.added = [Row(keyed(second, second.data[m], pairs.keys), 0, second.data[m].line) for m in pairs.added]
    out.renamed = [renamed(first.data[n], second.data[m], pairs, n, m) for n, m in pairs.renamed]
    for n, m in pairs.rows:
        add_changes(out, pairs, n, m)
    news = [m for _, m in sorted([*pairs.rows, *pairs.renamed])]
    out.rows_in_other_order = news != sorted(news)
    return out


def changes_of(old, new, headings, before, after):
    """The changes of a UNIT or TYPE row, if both files have it."""
    if old is None or new is None:
        return []
    return [Change(heading, before(heading), after(heading)) for heading in headings
            if before(heading) != after(heading)]


def renamed(old, new, pairs, n, m):
    entries = zip(pairs.keys, pairs.first.key(n), pairs.second.key(m))
    changes = [Change(heading, before, after) for heading, before, after in entries if before != after]
    return Row(keyed(pairs.first.group, old, pairs.keys), old.line, new.line, changes)


def add_changes(out, pairs, n, m):
    """Notes what has changed between two rows of one key: a value, or only how numbers are spelled."""
    old, new = pairs.first.entries[n], pairs.second.entries[m]
    if old == new:
        return
    entries = zip(pairs.headings, old, new, pairs.is_number)
    changes = [Change(heading, before, after, value_of(before, is_number) == value_of(after, is_number))
               for heading, before, after, is_number in entries if before != after]
    row = Row(keyed(pairs.second.group, pairs.second.group.data[m], pairs.keys), pairs.first.group.data[n].line,
              pairs.second.group.data[m].line, changes)
    (out.spelled if all(change.is_spelling for change in changes) else out.changed).append(row)
