"""The groups of an AGS4 file as tables of text, with what is asked to be beside their entries.

    for table in tables_of(data, Chosen(names=True)):
        table.name, table.columns, table.rows          # "LOCA", [Column ..], and for each row a text for each column"""
import re
from typing import List, NamedTuple, Tuple, Union

import ags

ENCODINGS = ("utf-8", "cp1252", "latin-1")


class Refused(Exception):
    """What cannot be done, with a line of text for each reason."""

    def __init__(self, *reasons):
        super().__init__("; ".join(reasons))
        self.reasons = list(reasons)


class Chosen(NamedTuple):
    """Which groups (none: all), whether the names of codes are beside them, and whether the entries of parent rows are
    beside each row, by a dictionary or its bytes (None: the built-in one)."""
    groups: Tuple[bytes, ...] = ()
    names: bool = False
    parents: bool = False
    dictionary: Union[ags.Dictionary, bytes, None] = None


class Column(NamedTuple):
    """A heading with its unit and type. What is beside the group's own entries has a point in its name."""
    name: str
    unit: str
    kind: str


class Table(NamedTuple):
    """A group: a text for each column of each row."""
    name: str
    columns: List[Column]
    rows: List[List[str]]


def read(data, allowed=lambda file: ()):
    """The file, if its rows can be laid out as tables. Rules 1 and 2a, groups without DATA rows, and findings of the
    allowed codes do not matter."""
    file = ags.File(data)
    codes = allowed(file)
    for phase in (lambda given: ags.line_findings(given, True), ags.order_findings, ags.group_findings):
        found = ags.in_order(one for one in phase(file)
                             if one.code not in codes and (one.code != "2" or one.line == 0))
        if found:
            others = f" and {len(found) - 1:,} more" if len(found) > 1 else ""
            raise Refused(f"its rows cannot be laid out: it has the finding {found[0].printed()}{others}. Fix these "
                          "first: bin/fix FILE -o NEW --diff does what it can, and bin/explain says how")
    return file


def encoding_of(data):
    """UTF-8 where the bytes are, else that of Windows. A file without findings has ASCII alone, which both are."""
    for encoding in ENCODINGS:
        try:
            data.decode(encoding)
            return encoding
        except UnicodeDecodeError:
            continue
    raise AssertionError("any byte is one of latin-1")


def dictionary_of(given, own=()):
    """A dictionary, or that of these bytes, or the built-in one; with the entries of files' own DICT after its own."""
    try:
        words = ags.built_in() if given is None else given
        words = words if isinstance(words, ags.Dictionary) else ags.read_dictionary(words)[0]
    except ags.NoDictionary as fault:
        raise Refused(f"dictionary refused: {fault}") from None
    return words.extended(own) if own else words


def tables_of(data, chosen=Chosen()):
    """The tables of the chosen groups, in the order of the file."""
    file = read(data)
    lacks = [name for name in chosen.groups if name not in file.by_name]
    if lacks:
        raise Refused(*(f"it has no group {ags.shown(name)}" for name in lacks))
    beside = [Names(file)] if chosen.names else []
    if chosen.parents:
        beside.append(Parents(file, dictionary_of(chosen.dictionary, ags.own_entries(file)), chosen.groups))
    encoding = encoding_of(data)
    return [table(group, beside, encoding) for group in file.groups if not chosen.groups or group.name in chosen.groups]


def table(group, beside, encoding):
    """One group, with what is beside its entries."""
    parts = [list(zip(group.headings, group.unit.items, group.type.items))]
    rows = [list(row.items) for row in group.data]
    for each in beside:
        columns, entries = each.of(group)
        parts.append(columns)
        for row, more in zip(rows, entries):
            row.extend(more)
    columns = [Column(*(text.decode(encoding) for text in column)) for part in parts for column in part]
    return Table(group.name.decode(encoding), columns, [[entry.decode(encoding) for entry in row] for row in rows])


class Names:
    """The names of codes: ABBR_DESC of the abbreviations that entries of type PA are, or are joined of (Rule 16)."""

    def __init__(self, file):
        self.joined = file.separators()[1]
        given = zip(file.column(b"ABBR", b"ABBR_HDNG"), file.column(b"ABBR", b"ABBR_CODE"),
                    file.column(b"ABBR", b"ABBR_DESC"))
        self.names = {(heading, code): name for heading, code, name in given}

    def name(self, heading, entry):
        if (heading, entry) in self.names or not entry:
            return self.names.get((heading, entry), b"")
        parts = [self.names.get((heading, part), b"") for part in entry.split(self.joined)]
        return b" + ".join(parts) if all(parts) else b""

    def of(self, group):
        codes = [heading for heading in group.headings if group.kind(heading) == b"PA"]
        columns = [(heading + b".name", b"", b"X") for heading in codes]
        return columns, [[self.name(heading, group.entry(row, heading)) for heading in codes] for row in group.data]


class Parents:
    """The entries of the row that each row belongs to (Rule 10c), of the row that this one belongs to, and so on below
    PROJ. Where there is not exactly one such row, they are null."""

    def __init__(self, file, words, names):
        lacks = [name for name in names or file.by_name if not words.has_group(name)]
        if lacks:
            raise Refused(f"no parents: the dictionary has no {', '.join(map(ags.shown, lacks))}; --dictionary D names "
                          "another one")
        self.file, self.words = file, words
        self.rows = ags.Rows(file, self.words)

    def above(self, name):
        """The groups above a group, from the nearest on."""
        out, parent = [], self.words.parent(name)
        while parent is not None and parent not in (b"PROJ", name, *out) and parent in self.file.by_name:
            out.append(parent)
            parent = self.words.parent(parent)
        return [self.file.by_name[each] for each in out]

    def of(self, group):
        columns, taken = [], []
        for above in self.above(group.name):
            shared = self.words.link_headings(above.name, group)
            fresh = [heading for heading in above.headings if heading not in shared]
            taken.append((above, fresh))
            columns += [(above.name + b"." + each, above.measure(each), above.kind(each)) for each in fresh]
        first = self.rows.firsts[group.name]
        return columns, [self.entries(first + at, taken) for at in range(len(group.data))]

    def entries(self, n, taken):
        out = []
        for above, headings in taken:
            found = self.rows.parents(n) if n is not None else []
            n = found[0] if len(found) == 1 else None
            row = self.rows.rows[n][1] if n is not None else None
            out += [above.entry(row, heading) for heading in headings]
        return out


def is_beside(name):
    """Whether a column is beside the group's own entries."""
    return re.fullmatch(r"[A-Z0-9_]+\.[A-Za-z0-9_]+", name) is not None
