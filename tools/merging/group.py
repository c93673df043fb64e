"""One group of several files, joined by the keys of its rows.

    join = Join(name, [("a.ags", group), ("b.ags", group)], words, chosen)
    join.clashes      # same key, other entry: each with both files and lines
    join.group()      # (name, headings, units, types, rows)"""
from typing import List, NamedTuple, Tuple


class Source(NamedTuple):
    """A line of a file."""
    name: str
    line: int


class Clash(NamedTuple):
    """Two entries for one place: of a row by its key, or of the UNIT or TYPE row. is_null: one of them is null."""
    group: bytes
    key: List[Tuple[bytes, bytes]]
    heading: bytes
    old: bytes
    old_source: Source
    new: bytes
    new_source: Source
    what: str = ""

    @property
    def is_null(self):
        return not self.old or not self.new


class Row:
    """A row with its entries by heading, and for each of these and for the row itself where they come from."""

    def __init__(self, entries, source):
        self.entries, self.sources = dict(entries), [source]
        self.origins = dict.fromkeys(self.entries, source)


class Join:
    """A group of several files. What contradicts is a clash, or settled where a preferred file has one of both."""

    def __init__(self, name, parts, words, chosen):
        self.name, self.parts, self.chosen, self.clashes, self.settled = name, parts, chosen, [], []
        places = words.places.get(name, {})
        found = list(dict.fromkeys(heading for _, group in parts for heading in group.headings))
        self.headings = sorted(found, key=lambda heading: places.get(heading, len(places)))
        self.header = Source(parts[0][0], parts[0][1].line)
        self.units, self.types = {}, {}
        for heading in self.headings:
            self.add_header(heading)
        # Without a key, a row is the same as another one where all is.
        self.keys = [heading for heading in words.keys(name) if heading in found] or self.headings
        self.rows, self.by_key = [], {}
        for of, group in parts:
            for row in group.data:
                self.add(group.entries(row, self.headings), Source(of, row.line))

    def add_header(self, heading):
        """The unit and type of a heading, of the files that have entries under it, or of the first file."""
        having = [(of, group) for of, group in self.parts if heading in group.columns]
        filled = [(of, group) for of, group in having if any(group.entry(row, heading) for row in group.data)]
        for what, into, row_of in (("UNIT", self.units, lambda group: group.unit),
                                   ("TYPE", self.types, lambda group: group.type)):
            row = Row([], None)
            for of, group in filled or having[:1]:
                self.fill(row, heading, group.entry(row_of(group), heading), Source(of, row_of(group).line), what)
            into[heading] = row.entries[heading]

    def rank(self, source):
        """The place of a file among those whose entries hold."""
        prefer = self.chosen.prefer
        return prefer.index(source.name) if source.name in prefer else len(prefer)

    def add(self, entries, source):
        """Adds a row, or what it has to the row of its key."""
        entries = dict(zip(self.headings, entries))
        key = tuple(entries[heading] for heading in self.keys)
        row = self.by_key.get(key)
        if row is None:
            self.by_key[key] = Row(entries, source)
            self.rows.append(self.by_key[key])
            return
        row.sources.append(source)
        for heading, entry in entries.items():
            self.fill(row, heading, entry, source)

    def fill(self, row, heading, entry, source, what=""):
        """Adds an entry to those of a row: a first one, an equal one, one for a null, one that holds, or a clash."""
        if heading not in row.entries:
            row.entries[heading], row.origins[heading] = entry, source
            return
        old, origin = row.entries[heading], row.origins[heading]
        if old == entry:
            return
        takes = self.chosen.fills and not old
        if takes or self.chosen.fills and not entry:
            if takes:
                row.entries[heading], row.origins[heading] = entry, source
            return
        key = [] if what else [(heading, row.entries[heading]) for heading in self.keys]
        clash = Clash(self.name, key, heading, old, origin, entry, source, what)
        ranks = self.rank(origin), self.rank(source)
        # Entries under another unit would be other values, whosever unit holds.
        if what == "UNIT" or ranks[0] == ranks[1]:
            self.clashes.append(clash)
            return
        self.settled.append((clash, min(origin, source, key=self.rank).name))
        if ranks[1] < ranks[0]:
            row.entries[heading], row.origins[heading] = entry, source

    def group(self):
        """The group as it is written."""
        return (self.name, self.headings, [self.units[heading] for heading in self.headings],
                [self.types[heading] for heading in self.headings],
                [[row.entries[heading] for heading in self.headings] for row in self.rows])
