"""A preview of the phases after the one that has findings: what they would find, as far as that can be seen.

    phases, left_out = preview(explained)
    for phase, context, grouped in phases: ..

Line ends, mark and encoding are put right in memory, and quotes where it is plain how. Lines that are no rows then, and
groups without a sound header, are left out of what follows them, and so is every finding that would follow from that
alone. It is not the program's answer."""
import ags
from . import cause, context, kinds, quotes

LISTS = {b"UNIT": "15", b"TYPE": "17", b"ABBR": "16", b"FILE": "20"}


def without_lines(file, numbers):
    """The file with these lines emptied, so that the others keep their numbers."""
    numbers = set(numbers)
    return changed(file, {number: b"" for number in numbers})


def changed(file, lines):
    kept = [lines.get(number, line) for number, line in enumerate(file.lines, 1)]
    return ags.File(b"".join(line + b"\r\n" for line in kept))


def of_items(file):
    """The rows of another count than their HEADING row, filled up or cut to it."""
    out = {}
    for group in file.groups:
        for row in group.rows[2:]:
            size = len(group.headings)
            if len(row.items) != size:
                items = (row.items + [b""] * size)[:size]
                out[row.line] = b",".join(map(ags.quoted, [row.descriptor, *items]))
    return out


def of_quotes(file):
    """The lines whose quotes, commas or descriptor can be put right: a row that goes on in the next lines is put into
    its first."""
    out = {}
    for first, last in quotes.broken_fields(file):
        out[first] = b" ".join(line.replace(b"\r", b" ") for line in file.lines[first - 1:last])
        out.update({line: b"" for line in range(first + 1, last + 1)})
    headings, width = {row.line: row for row in file.rows if row.descriptor == b"HEADING"}, None
    for line in sorted([*file.unreadable, *headings]):
        right = None if line in out or line in headings else quotes.mistake(file.line(line), width)[2]
        if right is not None:
            out[line] = right
        row = headings[line].items if line in headings else (ags.fields_of(right) or [])[1:] if (right
            or b"").startswith(b'"HEADING"') else None
        width = width if row is None else len(row)
    for line in file.descriptorless:
        descriptor, *items = ags.fields_of(file.line(line))
        if descriptor.strip().upper() in ags.DESCRIPTORS:
            out[line] = b",".join(map(ags.quoted, [descriptor.strip().upper(), *items]))
    return out


def of_names(file, words):
    """The GROUP and HEADING rows whose names are those of the dictionary once they are in capitals."""
    out = {}
    for group in file.groups:
        name = group.name.strip().upper()
        if name != group.name and words.has_group(name) and name not in file.by_name:
            out[group.line] = ags.line_of([b"GROUP", name])
        known = words.places.get(name, {})
        right = [heading.strip().upper() if heading.strip().upper() in known else heading for heading in group.headings]
        if right != group.headings and len(set(right)) == len(right):
            out[group.heading.line] = ags.line_of([b"HEADING", *right])
    return out


def rows_of(groups):
    return [row.line for group in groups for row in group.rows]


def is_sound(group):
    """Whether a group has its header rows in order, with a name and headings, and DATA rows alone below them."""
    order = [row.descriptor for row in group.rows]
    return (order[:4] == list(ags.DESCRIPTORS[:4]) and set(order[4:]) <= {b"DATA"} and len(group.rows[0].items) == 1
            and bool(group.headings))


class Preview:
    """The file as each phase would see it, and the groups that it lacks then."""

    def __init__(self, explained):
        self.standard, self.out = explained.standard, []
        self.rules, self.standard_file = explained.context.rules, explained.context.standard_file
        self.gone, self.lists, self.shown_from = set(), set(), (explained.phase or 0) + 1
        self.file = ags.File(kinds.put_right(explained.file))
        self.run()

    def note(self, phase, found):
        if phase >= self.shown_from and found:
            seen = context.Context(self.file, self.standard, self.rules, self.standard_file)
            self.out.append((phase, seen, ags.in_order(found)))

    def run(self):
        right = of_quotes(self.file)
        self.file = changed(self.file, right) if right else self.file
        rest = {finding.line for finding in ags.line_findings(self.file)}
        self.left_out = len(rest)
        self.file = without_lines(self.file, rest) if rest else self.file
        found = ags.order_findings(self.file)
        self.note(2, found)
        if not self.file.rows:
            return
        self.leave_out([group for group in self.file.groups if not is_sound(group)])
        if not self.file.rows:
            return
        found = ags.group_findings(self.file)
        self.note(3, found)
        self.leave_out([self.file.group_at(finding.line) for finding in found if finding.code in ("P1", "P2")
                        or not finding.subject])
        named = of_names(self.file, self.standard)
        self.file = changed(self.file, named) if named else self.file
        items = of_items(self.file)
        self.file = changed(self.file, items) if items else self.file
        if self.file.rows:
            self.entries()

    def leave_out(self, groups):
        if groups:
            self.gone |= {group.name for group in groups}
            self.file = without_lines(self.file, rows_of(groups))

    def entries(self):
        """The fourth and fifth phase, without what follows from groups that were left out or are missing."""
        words = self.standard.extended(ags.own_entries(self.file))
        found = {f for f in ags.dictionary_findings(self.file, words) if not self.follows(f, words)}
        self.note(4, found)
        absent = {f.subject for f in found if f.line == 0} | self.gone
        keyless = {self.file.group_at(f.line).name for f in found if f.code == "10a"}
        lists = {code for name, code in LISTS.items() if name in absent}
        keyless |= {f.subject for f in found if f.code in ("13", "14") and f.line}
        self.note(5, {f for f in ags.entry_findings(self.file, words) if f.code not in lists
                      and not self.echoes(f, words, keyless)})

    def follows(self, finding, words):
        """Whether a finding of the fourth phase follows from a group that was left out."""
        missing = (finding.subject if finding.line == 0 else words.parent(finding.subject) if finding.code == "10c"
                   else None)
        return missing in self.gone or finding.code in ("9", "18") and b"DICT" in self.gone

    def echoes(self, finding, words, keyless):
        """Whether a finding of the fifth phase follows from a group that is missing, or lacks its KEY headings."""
        if finding.code not in ("10a", "10c", "11c"):
            return False
        group = self.file.group_at(finding.line).name
        parent = words.parent(group)
        return group in keyless or finding.code == "10c" and (parent in keyless or parent not in self.file.by_name) \
            or finding.code == "11c" and bool(keyless | self.gone)


def preview(explained):
    """(phase, its context, its causes as `cause.grouped` has them) of each later phase with findings, and how many
    lines were left out."""
    seen = Preview(explained)
    return [(phase, given, cause.grouped(given, found)) for phase, given, found in seen.out], seen.left_out
