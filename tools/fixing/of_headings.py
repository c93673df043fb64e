"""Fixes of the fourth phase: groups against the dictionary (Rules 7, 9, 13, 14, 15, 17 and 18)."""
import re

import ags
from explaining import additions, headings, lists

from .document import Edits


def reordered(group, right):
    """The contents of a group's rows with its headings in another order."""
    columns = [group.headings.index(heading) for heading in right]
    return {row.line: ags.line_of([row.descriptor, *(row.items[at] for at in columns)]) for row in group.rows[1:]}


def order(work):
    """The headings in the order of the dictionary and the file's own after them, with the items of each row."""
    out = []
    for group in {id(one): one for one in map(work.group_of, work.of("7"))}.values():
        right = headings.right_order(work.context, group)
        out.append(Edits({one for one in work.of("7") if one.line == group.heading.line}, reordered(group, right)))
    return out


def same_rows(work):
    """Further rows of PROJ or TRAN that are an earlier one once more."""
    found = Edits()
    for finding in work.of("13", "14"):
        group, row = work.group_of(finding), work.file.by_line.get(finding.line)
        if row is not None and any(one.items == row.items for one in group.data if one.line < row.line):
            found.removed.add(finding.line)
            found.targets.add(finding)
    return [found]


def lists_of_file(work):
    """A group UNIT or TYPE that the file lacks, with a row for each one that is used and whose meaning is known."""
    out = []
    for code, name in (("15", b"UNIT"), ("17", b"TYPE")):
        findings = {one for one in work.of(code) if one.line == 0}
        entries = known_entries(work, code, lists.used(work.context, code)) if findings else []
        if not entries:
            continue
        rows = [b"", *map(ags.line_of, additions.rows_of(work.context, name, entries))]
        at = len(work.file.lines)
        out.append(Edits(findings, added={at: rows}))
    return out


def known_entries(work, code, values):
    """The rows that list these values, as far as what they mean is known: no row has a text that is to be written."""
    group = lists.LISTS[code][0] if code != "16" else b"ABBR"
    entries = [lists.entry_of(work.context, code, value) for value in values]
    return [entry for entry in entries if None not in entry.values() and not additions.has_gaps(work.context, group,
                                                                                                [entry])]


# ---- own headings (--own-headings)

def own_headings(work):
    """Headings that no dictionary has: the file's DICT defines them, and they go to the end of their HEADING rows."""
    if not work.options.own_headings:
        return []
    of = {}
    for finding in work.of("9", "18"):
        row, group = work.file.by_line.get(finding.line), work.group_of(finding)
        if row is not None and row.descriptor == b"HEADING" and is_own(work, group, finding.subject):
            of.setdefault(group.line, (group, []))[1].append(finding)
    if not of:
        return []
    entries = [{**headings.own_entry(work.context, group, heading),
                b"DICT_DESC": b"Own heading %s of %s" % (heading, group.name)}
               for group, findings in of.values() for heading in group.headings
               if any(finding.subject == heading for finding in findings)]
    if additions.has_gaps(work.context, b"DICT", entries):
        return []
    edits = Edits({finding for _, findings in of.values() for finding in findings})
    for group, _ in of.values():
        right = headings.right_order(work.context, group)
        if right != group.headings:
            edits.contents.update(reordered(group, right))
    add_rows(work, edits, b"DICT", entries)
    add_codes(work, edits)
    return [edits]


def is_own(work, group, heading):
    """Whether a heading is one of the file's own by its name, and not nearly one of the dictionary."""
    return (heading.startswith(group.name + b"_") and re.fullmatch(rb"[A-Z0-9_]{1,9}", heading) is not None
            and work.context.near_heading(group.name, heading) is None)


def add_rows(work, edits, group, entries):
    """Adds rows below the last one of a group, or the group at the end of the file."""
    given = work.file.by_name.get(group)
    rows = list(map(ags.line_of, additions.rows_of(work.context, group, entries)))
    if given is None:
        edits.added.setdefault(len(work.file.lines), []).extend([b"", *rows])
    else:
        edits.added.setdefault((given.data or given.rows)[-1].line, []).extend(rows)


def add_codes(work, edits):
    """DICT_TYPE and DICT_STAT are abbreviations where their type is PA: ABBR lists what the new rows have."""
    given, listed = work.file.by_name.get(b"DICT"), work.context.listed.abbreviations
    kinds = {heading: given.kind(heading) if given else work.context.words.kind(b"DICT", heading)
             for heading in (b"DICT_TYPE", b"DICT_STAT")}
    wanted = [(b"DICT_TYPE", b"HEADING", b"Heading"), (b"DICT_STAT", b"OTHER", b"Other")]
    entries = [{b"ABBR_HDNG": heading, b"ABBR_CODE": code, b"ABBR_DESC": text} for heading, code, text in wanted
               if kinds[heading] == b"PA" and (heading, code) not in listed]
    if entries:
        add_rows(work, edits, b"ABBR", entries)
