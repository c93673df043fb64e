"""The DATA rows of a file without findings, numbered from 0, and the rows that each has a step to: those that it
belongs to (Rule 10c), those that its record links name (Rule 11c) and those of its file set (Rule 20).

    rows = rows_of(data, words)        # or Rows(file, words.extended(own_entries(file)))
    rows.rows[n]                       # (group, row)
    rows.steps[n], rows.reach(n)       # rising numbers, and a set with n in it
    key_of(group, row, words)          # the KEY entries of a row"""
import functools

from .dictionary import own_entries
from .file import File
from .group import DEFINITIONS


def rows_of(data, words):
    """The rows of the bytes of a file without findings, under a standard dictionary."""
    file = File(data)
    return Rows(file, words.extended(own_entries(file)))


def key_of(group, row, words):
    """The KEY entries of a row, in the dictionary's order."""
    return group.entries(row, words.keys(group.name))


class Rows:
    """The DATA rows of a file, under a dictionary that has the entries of the file's own DICT."""

    def __init__(self, file, words):
        self.file, self.words, self.groups = file, words, file.groups
        self.rows = [(group, row) for group in file.groups for row in group.data]
        self.delimiter, self.concatenator = file.separators()
        self.firsts, self.indexes, size = {}, {}, 0
        for group in file.groups:
            self.firsts.setdefault(group.name, size)
            size += len(group.data)

    @functools.cached_property
    def steps(self):
        """For each row the numbers of the rows that it has a step to, rising."""
        return [sorted({*self.parents(n), *self.linked(n), *self.of_file_set(n)}) for n in range(len(self.rows))]

    def rows_with(self, name, headings, wanted):
        """The numbers of the rows of a group that have these entries under these headings, rising."""
        index = self.indexes.get((name, headings))
        if index is None:
            group, index = self.file.by_name.get(name), {}
            for n, row in enumerate(group.data if group else (), self.firsts.get(name, 0)):
                index.setdefault(group.entries(row, headings), []).append(n)
            self.indexes[name, headings] = index
        return index.get(wanted, [])

    def parents(self, n):
        """The rows of the parent group with equal entries under each of its KEY headings that the group has."""
        group, row = self.rows[n]
        parent = self.words.parent(group.name)
        if parent is None:
            return []
        shared = self.words.link_headings(parent, group)
        return self.rows_with(parent, shared, group.entries(row, shared))

    def linked(self, n):
        """The rows that the parts of the record links name."""
        group, row = self.rows[n]
        if group.name in DEFINITIONS:
            return
        for heading, kind in zip(group.headings, group.type.items):
            entry = group.entry(row, heading) if kind == b"RL" else b""
            for part in entry.split(self.concatenator) if entry else ():
                name, *key = part.split(self.delimiter)
                yield from self.rows_with(name, tuple(self.words.keys(name)), tuple(key))

    def of_file_set(self, n):
        """The rows of FILE that list the row's file set."""
        group, row = self.rows[n]
        entry = group.entry(row, b"FILE_FSET")
        if not entry or group.name in DEFINITIONS or group.name == b"FILE":
            return []
        return self.rows_with(b"FILE", (b"FILE_FSET",), (entry,))

    def reach(self, n):
        """The numbers of the rows that a row reaches, itself included."""
        seen, work = {n}, [n]
        while work:
            for m in self.steps[work.pop()]:
                if m not in seen:
                    seen.add(m)
                    work.append(m)
        return seen
