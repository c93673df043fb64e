"""How the entries of a file are judged while its fourth phase has findings that need a person: the program sees the
file with what is missing added for it, or what is too many left out. None of that stays in the file.

    edits = probe(work)                     # what is added and left out for the program, or None
    document = without(probed, work, edits) # the document as it is after fixes, without that

A missing parent group is added with the rows that are needed, unknown groups and headings are defined in DICT, and the
further rows of PROJ and TRAN are left out."""
import ags
from explaining import headings

from .document import Document, Edits

STANDS_IN = b"-"


class StandIn:
    """The name of a line that is there for the program alone."""


def probe(work):
    """The edits that take away each finding of the fourth phase, or None where one of them stays."""
    edits, missing, own = Edits(), {}, []
    for finding in work.findings:
        row, group = work.file.by_line.get(finding.line), work.group_of(finding)
        if finding.code in ("13", "14") and finding.line:
            edits.removed.add(finding.line)
        elif finding.code == "10c" and row.descriptor == b"GROUP":
            missing.setdefault(work.context.words.parent(finding.subject), []).append(group)
        elif finding.code in ("9", "18") and row.descriptor == b"GROUP":
            own += headings.own_group(work.context, finding.subject)
        elif finding.code in ("9", "18") and headings.right_order(work.context, group) == group.headings:
            own.append(headings.own_entry(work.context, group, finding.subject))
        else:
            return None
    for parent, groups in missing.items():
        add_group(work, edits, parent, rows_needed(work, parent, groups))
    if own:
        add_own(work, edits, own)
    return edits


def rows_needed(work, parent, groups):
    """The KEY entries that the rows of these groups need in their parent group."""
    found = {}
    for group in groups:
        joined = work.context.words.link_headings(parent, group)
        found.update(((joined, group.entries(row, joined)), None) for row in group.data if any(row.items))
    return [dict(zip(joined, entries)) for joined, entries in found]


def add_group(work, edits, name, entries):
    """A group at the end of the file, of type X throughout, so that nothing has to be listed for it."""
    words = work.context.words
    columns = [heading for heading in words.order(name) if heading in {*words.keys(name), *words.required(name),
                                                                       *(one for entry in entries for one in entry)}]
    rows = [[b"GROUP", name], [b"HEADING", *columns], [b"UNIT", *(b"" for _ in columns)],
            [b"TYPE", *(b"X" for _ in columns)]]
    rows += [[b"DATA", *(entry.get(heading, STANDS_IN) for heading in columns)] for entry in entries]
    edits.added.setdefault(len(work.file.lines), []).extend([b"", *map(ags.line_of, rows)])


def add_own(work, edits, entries):
    """Rows of DICT that define what the file has of its own."""
    given = work.file.by_name.get(b"DICT")
    entries = [{heading: entry or (STANDS_IN if entry is None else b"") for heading, entry in one.items()}
               for one in entries]
    if given is None:
        add_group(work, edits, b"DICT", entries)
    else:
        rows = [ags.line_of([b"DATA", *(entry.get(heading, b"") for heading in given.headings)]) for entry in entries]
        edits.added.setdefault((given.data or given.rows)[-1].line, []).extend(rows)


def with_stand_ins(document, edits):
    """The document as the program sees it."""
    probed = document.edited(edits)
    known = {line.name for line in document.lines}
    return Document([line if line.name in known else line._replace(name=StandIn()) for line in probed.lines],
                    probed.mark)


def without(probed, before, edits):
    """The document after fixes, without the lines that were there for the program and with those that were left out for
    it, each below the line that it was below."""
    lines = [line for line in probed.lines if not isinstance(line.name, StandIn)]
    for number in sorted(edits.removed):
        line, above = before.lines[number - 1], before.name_of(number - 1)
        place = next((at for at, one in enumerate(lines, 1) if one.name == above), 0)
        lines.insert(place, line)
    return Document(lines, probed.mark)
