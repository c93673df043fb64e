"""Rows to add to a file, whole: every heading of the group, what the dictionary says of each, and texts that are known.

    known = Known(context)                                # or Known(context, codes): a former clean file
    known.unit(b"kPa"), known.abbreviation(b"LOCA_TYPE", b"CP"), known.type(b"2DP")     # its text, or None
    row_of(context, b"UNIT", {b"UNIT_UNIT": b"kPa"})      # the items of the row
    block(context, b"UNIT", rows)                         # the lines to paste, with a missing group's header

bin/explain prints such a block, and bin/fix adds it."""
import functools

import ags
from . import units

TO_WRITE = b"(to be written)"
TEXT_TYPES = (b"X", b"XN", b"ID", b"U", b"")


class Known:
    """Texts for units, types and abbreviations: those of a former clean file, of the dictionary's own lists, of the
    file, and of the common units and types."""

    def __init__(self, context, codes=None):
        self.context = context
        self.sources = [source for source in (codes, context.standard_file) if source is not None]

    def listed(self, group, heading, value, text):
        """What the sources say of a value, or None."""
        for source in self.sources:
            found = text_by_value(source, group, heading, text).get(value)
            if found:
                return found
        return None

    def unit(self, unit):
        return self.listed(b"UNIT", b"UNIT_UNIT", unit, b"UNIT_DESC") or units.meaning_of_unit(unit)

    def type(self, kind):
        return self.listed(b"TYPE", b"TYPE_TYPE", kind, b"TYPE_DESC") or units.meaning_of_type(kind)

    def of_source(self, heading, code):
        """What the lists say of an abbreviation, or None."""
        found = [abbreviations_of(source).get((heading, code)) for source in self.sources]
        return next((text for text in found if text), None)

    def abbreviation(self, heading, code):
        return self.of_source(heading, code) or self.context.names_of_codes(heading).get(code)


@functools.lru_cache(16)
def text_by_value(file, group, heading, text):
    return dict(zip(reversed(file.column(group, heading)), reversed(file.column(group, text))))


@functools.lru_cache(16)
def abbreviations_of(file):
    given = file.by_name.get(b"ABBR")
    wanted = (b"ABBR_HDNG", b"ABBR_CODE", b"ABBR_DESC")
    return {entries[:2]: entries[2] for row in (given.data if given else ())
            for entries in [given.entries(row, wanted)]}


def names_of_codes(file, heading):
    """Of each code under a heading such as ERES_CODE what the same rows call it under ERES_NAME, where it is one name
    in all of them."""
    if not heading.endswith(b"_CODE"):
        return {}
    found = {}
    for group in file.groups:
        for other in (heading[:-4] + b"NAME", heading[:-4] + b"DESC"):
            if heading in group.columns and other in group.columns:
                for row in group.data:
                    found.setdefault(group.entry(row, heading), set()).add(group.entry(row, other))
    return {code: next(iter(names)) for code, names in found.items() if len(names) == 1 and b"" not in names}


def headings_of(context, group, entries):
    """The headings of a group that the file lacks: those that it has to have, and those of these entries that the
    dictionary has. Of a group that it does not have they are those of the entries."""
    words = context.words
    needed = {*words.keys(group), *words.required(group), *(heading for entry in entries for heading in entry)}
    return [heading for heading in words.order(group) if heading in needed] or list(next(iter(entries), ()))


def items_of(context, group, headings, entries):
    """A row's items: what is known, and a mark for a text that is to be written, or that the dictionary asks for."""
    needed = {*context.words.required(group), *context.words.keys(group)}
    return [TO_WRITE if entries.get(heading, b"" if heading not in needed else None) is None else entries[heading]
            if heading in entries else b"" for heading in headings]


def header_of(context, group, headings):
    """The header rows of a group that is added, with the dictionary's units and types."""
    words = context.words
    return [[b"GROUP", group], [b"HEADING", *headings],
            [b"UNIT", *(words.unit(group, heading) for heading in headings)],
            [b"TYPE", *(words.kind(group, heading) or b"X" for heading in headings)]]


def rows_of(context, group, entries):
    """The fields of the lines to add: of each entry a row, under a header where the file lacks the group. An entry is a
    map from headings to what is known, None where a text is to be written."""
    given = context.file.by_name.get(group)
    headings = given.headings if given is not None else headings_of(context, group, entries)
    rows = [[b"DATA", *items_of(context, group, headings, entry)] for entry in entries]
    return rows if given is not None else header_of(context, group, headings) + rows


def block(context, group, entries):
    """The lines to paste, as text."""
    return [ags.shown(ags.line_of(fields)) for fields in rows_of(context, group, entries)]


def place_of(context, group):
    """Where a block goes, in words."""
    given = context.file.by_name.get(group)
    if given is None:
        return "at the end of the file, below an empty line"
    return f"below line {(given.data or given.rows)[-1].line}, the last row of {ags.shown(group)}"


def has_gaps(context, group, entries):
    return any(item == TO_WRITE for fields in rows_of(context, group, entries) for item in fields)
