"""Fixes of the second and third phase: header rows, items, names of groups and headings (Rules 2, 2b, 4, 19, 19a, P1
and P2)."""
import ags
from explaining import groups

from .document import Edits

HEADER = (b"GROUP", b"HEADING", b"UNIT", b"TYPE")


def of_group(work, group, *codes):
    """The findings of these codes on the rows of a group."""
    lines = {row.line for row in group.rows}
    return {finding for finding in work.of(*codes) if finding.line in lines}


def concerned(work):
    """The groups whose rows are out of order, each with its findings."""
    found = {}
    for finding in work.of("2b"):
        group = groups.concerned(work.file, finding.line)
        if group is not None:
            found.setdefault(group.line, (group, set()))[1].add(finding)
    return list(found.values())


def header_again(work):
    """Header rows that are in a group twice, byte for byte, as on each page of a printout."""
    out = []
    for group, findings in concerned(work):
        first = {row.descriptor: row for row in reversed(group.rows)}
        again = {row.line for row in group.rows if row.descriptor in HEADER[1:] and row is not first[row.descriptor]
                 and row.items == first[row.descriptor].items}
        if again:
            out.append(Edits(findings, removed=again))
    return out


def header_order(work):
    """A group that has each of its header rows once, in another order."""
    out = []
    for group, findings in concerned(work):
        rows = [row for row in group.rows if row.descriptor in HEADER]
        if sorted(row.descriptor for row in rows) != sorted(HEADER) or group.rows[0].descriptor != b"GROUP":
            continue
        right = sorted(rows[1:], key=lambda row: HEADER.index(row.descriptor))
        out.append(Edits(findings, moved={group.line: [row.line for row in right]}))
    return out


def header_row(work):
    """The UNIT or TYPE row that a group lacks, where the dictionary has the unit or type of each of its headings."""
    out = []
    for group, findings in concerned(work):
        kinds = [row.descriptor for row in group.rows]
        missing = [one for one in HEADER[1:] if one not in kinds]
        is_cut = not group.data
        if is_cut or missing not in ([b"UNIT"], [b"TYPE"], [b"UNIT", b"TYPE"]) or kinds[:2] != [b"GROUP", b"HEADING"]:
            continue
        name, words = groups.name_of(work.context, group), work.context.words
        if not all(words.kind(name, heading) for heading in groups.known_headings(work.context, group)):
            continue
        above = group.heading if missing[0] == b"UNIT" else group.unit
        rows = [ags.line_of(groups.missing_header(work.context, group, one)) for one in missing]
        out.append(Edits(findings, added={above.line: rows}))
    return out


def group_row(work):
    """A GROUP row that is missing above headings that begin with the name of one group of the dictionary, which the
    file does not have elsewhere."""
    out = []
    for group, findings in concerned(work):
        lost = groups.without_group_row(group) if group.rows[0].descriptor == b"GROUP" else next(
            (row for row in group.rows if row.descriptor == b"HEADING"), None)
        name = groups.names_of([lost]) if lost else None
        if name and work.context.words.has_group(name) and name not in work.file.by_name:
            out.append(Edits({one for one in findings if one.line >= lost.line or group.rows[0].descriptor != b"GROUP"},
                             added={lost.line - 1: [ags.line_of([b"GROUP", name])]}))
    return out


def padding(work):
    """Nulls at the end of a row that has more items than its group has headings, or than a GROUP row has."""
    found = Edits()
    for finding in work.of("4"):
        row, group = work.file.by_line[finding.line], work.file.group_at(finding.line)
        size = 1 if row.descriptor == b"GROUP" else len(group.headings)
        if size and len(row.items) > size and not any(row.items[size:]):
            found.contents[row.line] = ags.line_of([row.descriptor, *row.items[:size]])
            found.targets.add(finding)
    return [found]


def without_columns(group, columns):
    """The contents of a group's rows without these columns."""
    return {row.line: ags.line_of([row.descriptor, *(item for at, item in enumerate(row.items) if at not in columns)])
            for row in group.rows[1:]}


def empty_headings(work):
    """Headings without a name and without an entry in any row."""
    out = []
    for group in {id(one): one for one in map(work.group_of, work.of("19a"))}.values():
        columns = {at for at, heading in enumerate(group.headings) if not heading
                   and not any(row.items[at] for row in group.rows[1:] if at < len(row.items))}
        findings = {one for one in of_group(work, group, "19a", "P2") if not one.subject}
        if columns and len(columns) == group.headings.count(b""):
            out.append(Edits(findings, without_columns(group, columns)))
    return out


def group_names(work):
    """A group in lower-case letters, or with spaces, whose name in capitals the dictionary has."""
    out = []
    for finding in work.of("19"):
        name, group = finding.subject.strip().upper(), work.group_of(finding)
        if not work.context.words.has_group(name):
            continue
        first = work.file.by_name.get(name)
        edits = Edits(contents={finding.line: ags.line_of([b"GROUP", name])}) if first is None else merged(first, group)
        if edits is not None:
            edits.targets = {finding}
            out.append(edits)
    return out


def heading_names(work):
    """Headings in lower-case letters, or with spaces, whose names in capitals the dictionary has for the group."""
    out = []
    for group in {id(one): one for one in map(work.group_of, work.of("19a"))}.values():
        right = groups.known_headings(work.context, group)
        changed = {heading for heading, other in zip(group.headings, right) if heading != other}
        if changed and len(set(right)) == len(right):
            out.append(Edits({one for one in of_group(work, group, "19a") if one.subject in changed},
                             {group.heading.line: ags.line_of([b"HEADING", *right])}))
    return out


def heading_twice(work):
    """A heading that is in the HEADING row twice, with the same unit, type and entries."""
    out = []
    for group in {id(one): one for one in map(work.group_of, work.of("P2"))}.values():
        seen, columns = {}, set()
        for at, heading in enumerate(group.headings):
            column = [row.items[at] if at < len(row.items) else b"" for row in group.rows[1:]]
            if seen.setdefault(heading, column) is not column and seen[heading] == column:
                columns.add(at)
        names = {group.headings[at] for at in columns}
        if columns and all(sum(group.headings[at] == name for at in columns) == group.headings.count(name) - 1
                           for name in names):
            out.append(Edits({one for one in of_group(work, group, "P2") if one.subject in names},
                             without_columns(group, columns)))
    return out


def group_twice(work):
    """A group that is in the file twice under the same headings, units and types: its rows go below those of the
    first."""
    out = []
    for finding in work.of("P1"):
        edits = merged(work.file.by_name[finding.subject], work.group_of(finding))
        if edits is not None:
            edits.targets = {finding}
            out.append(edits)
    return out


def merged(first, again):
    """The edits that put the rows of a group below those of another, or None where their headers differ by more than
    the order of headings."""
    if sorted(columns_of(first)) != sorted(columns_of(again)) or len(set(first.headings)) != len(first.headings):
        return None
    columns = [again.columns[heading] for heading in first.headings]
    is_ordered = columns == sorted(columns)
    if not is_ordered and any(len(row.items) != len(again.headings) for row in again.data):
        return None
    contents = {} if is_ordered else {
        row.line: ags.line_of([b"DATA", *(row.items[at] for at in columns)]) for row in again.data}
    return Edits(contents=contents, removed={row.line for row in again.rows if row.descriptor != b"DATA"},
                 moved={(first.data or first.rows)[-1].line: [row.line for row in again.data]})


def columns_of(group):
    return list(zip(group.headings, group.unit.items, group.type.items))


def without_data(work):
    """A group without a DATA row, whose header says nothing of any row. The last group of a file may have been cut off,
    and the rows of another group may belong to one that lacks its rows."""
    parents = {work.context.words.parent(group.name) for group in work.file.groups if group.data}
    found = [(finding, work.group_of(finding)) for finding in work.of("2") if finding.line]
    return [Edits({finding}, removed={row.line for row in group.rows}) for finding, group in found
            if group is not work.file.groups[-1] and group.name not in parents]
