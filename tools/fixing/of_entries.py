"""Fixes of the fifth phase: DATA rows (Rules 8, 10a, 10c, 15, 16 and 17)."""
import re

import ags
from explaining import forms, lists, units, values

from .document import Edits
from .of_headings import add_rows, known_entries

# Mistakes of an entry that are put right without a loss, by the name that explaining.forms has.
CERTAIN = {"spaces", "fewer decimals", "bare point", "blank for T", "day's signs", "day first", "one digit", "time"}
YES_OR_NO = (b"YES", b"NO", b"TRUE", b"FALSE", b"Y", b"N")


def write(edits, group, row, heading, entry, *targets):
    """Has an entry written anew."""
    edits.entries[row.line, group.columns[heading]] = entry
    edits.targets.update(targets)


def places(work, *codes):
    """Each finding of these codes with its group and row."""
    for finding in work.of(*codes):
        yield finding, work.group_of(finding), work.file.by_line[finding.line]


def null_rows(work):
    """DATA rows without any entry, as spreadsheets leave them."""
    lines = {finding.line for finding, _, row in places(work, "8", "10a", "10b", "10c")
             if row.descriptor == b"DATA" and not any(row.items)}
    return [Edits({one for one in work.findings if one.line in lines}, removed=lines)]


def same_rows(work):
    """Rows that are in a group twice, byte for byte."""
    found, firsts = Edits(), {}
    for finding, group, row in places(work, "10a"):
        if group.line not in firsts:
            firsts[group.line] = {}
            for one in group.data:
                firsts[group.line].setdefault(tuple(one.items), one)
        if firsts[group.line][tuple(row.items)] is not row:
            found.removed.add(row.line)
            found.targets |= {one for one in work.findings if one.line == row.line}
    return [found]


# ---- Rule 8

def forms_of_entries(work):
    """Zeros padded to the decimals of the type, spaces, days, and Y or N for a word. Days are put right all together or
    not at all: those that can be read one way only show how the others are meant."""
    parts, days_wait = {}, not work.options.days and has_open_day(work)
    for finding, group, row in places(work, "8"):
        right = right_form(work, group, row, finding.subject, days_wait)
        if right and ags.fits(group.kind(finding.subject), group.measure(finding.subject), right):
            write(parts.setdefault(finding.subject, Edits()), group, row, finding.subject, right, finding)
    return list(parts.values())


def has_open_day(work):
    """Whether an entry can be read with the day or with the month first."""
    return any(values.mistake(work.context, group, row, finding.subject)[0] == "day and month"
               for finding, group, row in places(work, "8"))


def right_form(work, group, row, heading, days_wait):
    """An entry in the form of its type, where that loses nothing and can be read in no other way; else None."""
    kind, unit, entry = group.kind(heading), group.measure(heading), group.entry(row, heading)
    name, _, right = forms.mistake(kind, unit, entry, work.options.days)
    if name == "day first" and days_wait:
        return None
    if name in CERTAIN or name == "day and month" and work.options.days:
        return right
    if kind == b"YN" and entry.strip().upper() in YES_OR_NO:
        return right
    parts = re.fullmatch(rb"([+-]?[0-9.]+) *([A-Za-z%/0-9]+)", entry.strip())
    if name == "unit within" and parts and unit and (parts[2] == unit or units.is_same(parts[2], unit)):
        return forms.as_number(kind, parts[1]) if forms.pads(kind, parts[1]) else None
    return None


def decimal_commas(work):
    """Commas for the decimal point, where a whole column has them."""
    found, columns = Edits(), {}
    for finding, group, _ in places(work, "8"):
        columns[group.line, finding.subject] = group
    for (_, heading), group in columns.items():
        kind = group.kind(heading)
        given = [(row, group.entry(row, heading)) for row in group.data if group.entry(row, heading)]
        if not kind[1:] in (b"DP", b"SF") and kind != b"MC" or not are_commas(entry for _, entry in given):
            continue
        lines = {finding.line: finding for finding in work.of("8") if finding.subject == heading}
        for row, entry in given:
            right = forms.as_number(kind, entry.replace(b",", b"."))
            if row.line in lines and right and forms.pads(kind, entry.replace(b",", b".")):
                write(found, group, row, heading, right, lines[row.line])
    return [found]


def are_commas(entries):
    """Whether the entries of a column are numbers with a comma for the point: none has a point, and one cannot be a
    number with a comma between thousands."""
    entries = list(entries)
    return all(re.fullmatch(rb"[+-]?[0-9]+(,[0-9]+)?", entry) for entry in entries) and any(
        b"," in entry and not re.fullmatch(rb"[+-]?[0-9]{1,3},[0-9]{3}", entry) for entry in entries)


def types(work):
    """A TYPE of more decimals, where the dictionary has it and each entry under the heading then fits, zeros added."""
    out, seen = [], set()
    for finding, group, _ in places(work, "8"):
        heading = finding.subject
        kind, wanted = group.kind(heading), work.context.words.kind(group.name, heading)
        if (group.line, heading) in seen or not (kind[1:] == wanted[1:] == b"DP" and kind < wanted):
            continue
        seen.add((group.line, heading))
        given = [(row, group.entry(row, heading)) for row in group.data if group.entry(row, heading)]
        if (wanted not in work.context.listed.types or all(forms.pads(kind, entry) for _, entry in given)
                or not all(forms.pads(wanted, entry) for _, entry in given)):
            continue
        found = Edits()
        write(found, group, group.type, heading, wanted)
        for row, entry in given:
            write(found, group, row, heading, forms.as_number(wanted, entry))
        found.targets = {one for one in work.of("8") if one.subject == heading and work.group_of(one) is group}
        out.append(found)
    return out


# ---- spaces in entries that are looked up

def spaces(work):
    """Spaces at the ends of an entry that is listed, or names a row, without them."""
    found = Edits()
    for finding, group, row in places(work, "15", "16", "17", "20"):
        if row.descriptor != b"DATA":
            continue
        entry, listed = group.entry(row, finding.subject), work.context.listed
        kept = entry.strip(b" ")
        is_listed = {"15": kept in listed.units, "17": kept in listed.types, "20": kept in listed.sets,
                     "16": bool(kept) and listed.is_abbreviation(finding.subject, kept)}[finding.code]
        if kept != entry and is_listed:
            write(found, group, row, finding.subject, kept, finding)
    for finding, group, row in places(work, "10c"):
        parents = work.context.parents(group)
        key = group.entries(row, parents.joined)
        kept = tuple(entry.strip(b" ") for entry in key)
        if kept != key and kept in parents.keys:
            for heading, entry, right in zip(parents.joined, key, kept):
                if entry != right:
                    write(found, group, row, heading, right, finding)
    return [found]


# ---- what has to be listed

def spellings(work):
    """A unit or a type in other capitals or with other spaces than the one that is listed, which is the same."""
    found = Edits()
    for finding, group, row in places(work, "15", "17"):
        listed = work.context.listed.units if finding.code == "15" else work.context.listed.types
        right = lists.near(work.context, finding.code, lists.value_of(finding, group, row), group.name, finding.subject)
        if right in listed:
            write(found, group, row, finding.subject, right, finding)
    return [found]


def types_to_list(work):
    return rows_to_list(work, "17", b"TYPE")


def units_to_list(work):
    return rows_to_list(work, "15", b"UNIT")


def abbreviations_to_list(work):
    return rows_to_list(work, "16", b"ABBR")


def rows_to_list(work, code, name):
    """Rows for what is used and not listed, where it is known what it means."""
    findings = work.of(code)
    values = lists.unlisted(work.context, code, findings) if findings else {}
    entries = known_entries(work, code, [value for value in values if is_meant(work, code, value)])
    edits = Edits()
    if entries:
        add_rows(work, edits, name, entries)
    added = {value_in(code, entry) for entry in entries}
    rest = {one for value, given in values.items() if value not in added for one in given}
    edits.targets = {one for value, given in values.items() if value in added for one in given} - rest
    return [edits]


def value_in(code, entry):
    if code == "16":
        return entry[b"ABBR_HDNG"], entry[b"ABBR_CODE"]
    return entry[lists.LISTS[code][1]]


def is_meant(work, code, value):
    """Whether a value is no other spelling of a listed one: such a one is written as it is listed, or by a person."""
    if code == "16":
        return work.known.of_source(*value) or lists.near_code(work.context, *value) is None
    listed = work.context.listed.units if code == "15" else work.context.listed.types
    same = units.other_spelling if code == "15" else units.other_type
    return same(value, sorted(listed)) is None
