"""A script that follows a printed fix to the letter, as somebody would by hand in an editor.

    changed = follow(data, cause)      # the file's bytes then, or None where the fix is a question to a person
It reads the words of the fix and the rows below it, and what the page shows of a cause: its lines and its subject."""
import csv
import re

import ags

QUOTED = r'"((?:[^"]|"")*)"'
QUESTION = re.compile(
    r"person decides|[Aa]sk whoever|whoever made|Get the whole file|(Export|send|Send) |Was it cut|"
    r"if the group is the file's own|Name the (heading|dictionary)|may not be null|comes first|row of .* first|"
    r"Take the groups? without|such as|Correct the entr(y|ies) (in|that)|Take the line out, or|"
    r"Give the group and all|Give all KEY|or give TRAN_DLIM|Add the group|to the HEADING row, and an item|"
    r"its right name|Name it|Give the row an item|Round|has the time too|Add the missing rows|A file has|Fill in|"
    r"Check under|such a name|or remove the line|or put the GROUP row|under one HEADING row|is no (group|heading)|"
    r"Take the item|Correct the|Put the|or correct|Give the heading a|Without")


class Editor:
    """The lines of a file that is open in an editor, which writes CR LF."""

    def __init__(self, data):
        self.file, self.lines = ags.File(data), list(ags.File(data).lines)
        self.ends_of = data
        self.added = {}

    def row(self, line):
        return ags.fields_of(self.lines[line - 1])

    def entry(self, line, heading, text):
        group = self.file.group_at(line)
        fields = self.row(line)
        fields[group.headings.index(heading) + 1] = text
        self.lines[line - 1] = ags.line_of(fields)

    def take_out(self, lines):
        for line in lines:
            self.lines[line - 1] = None

    def add(self, below, rows):
        self.added.setdefault(below, []).extend(rows)

    def data(self, is_crlf):
        out = list(self.added.get(0, []))
        for number, line in enumerate(self.lines, 1):
            out += ([] if line is None else [line]) + self.added.get(number, [])
        if is_crlf:
            return b"".join(line.rstrip(b"\r") + b"\r\n" for line in out)
        ends = [b"\n" if end == "LF" else b"\r\n" for end in self.file.ends] + [b"\r\n"] * len(out)
        return b"".join(line + end for line, end in zip(out, ends))


def follow(data, cause):
    """The file's bytes once a printed fix was followed, or None where it is a question."""
    editor, fix = Editor(data), cause.fix
    for pattern, act in ACTS:
        found = re.search(pattern, fix)
        if found:
            is_crlf = act(editor, cause, found)
            return editor.data(is_crlf is True)
    if QUESTION.search(fix):
        return None
    raise ValueError(f"no fix that can be followed, and no question: {fix}")


def unquoted(text):
    return text.replace('""', '"').encode()


def heading_of(cause, found=None):
    return (found or cause.subject.split(",")[0].split(" and ")[0]).encode()


def numbers(text):
    """The numbers of lines that are named."""
    return [int(number) for number in re.findall(r"\d+", text.replace(",", " "))]


# ---- what a fix says, and what is done then

def write_line(editor, cause, found):
    """`Write line 1 as: .. and lines 2, 3 and 4 alike`: fields without quotes get them, commas at the end go."""
    first, right = int(found[1]), re.sub(r" and lines? [^\"]* alike$", "", found[2]).encode()
    before = editor.lines[first - 1]
    sign = b";" if b";" in before else b","
    for one in cause.findings if right.decode() != found[2] else ():
        line = editor.lines[one.line - 1]
        if line and not line.startswith(b'"'):
            fields = next(csv.reader([line.decode("latin-1")], delimiter=sign.decode()))
            editor.lines[one.line - 1] = with_quotes(editor, one.line, fields)
        elif before.rstrip(b", ") == right:
            editor.lines[one.line - 1] = line.rstrip(b", ")
    editor.lines[first - 1] = right


def with_quotes(editor, line, fields):
    """The fields in quotes, without the empty ones at the end that a spreadsheet adds to its short rows."""
    while fields[0] in ("GROUP", "HEADING") and not fields[-1]:
        fields.pop()
    return ags.line_of(field.encode("latin-1") for field in fields)


def write_lines_as_one(editor, cause, found):
    first, last = int(found[1]), int(found[2])
    editor.lines[first - 1] = found[3].encode()
    editor.take_out(range(first + 1, last + 1))
    return True


def write_entry(editor, cause, found):
    """`Write "12.40" in line 62, and the others alike`: zeros are added to the others alike, and the same entry is
    written in the same way."""
    heading, right, line = heading_of(cause), unquoted(found[1]), int(found[2])
    group = editor.file.group_at(line)
    before = group.entry(editor.file.by_line[line], heading)
    for one in cause.findings:
        given = editor.file.group_at(one.line).entry(editor.file.by_line[one.line], heading)
        if given == before:
            editor.entry(one.line, heading, right)
        elif right.startswith(before) and not right[len(before):].strip(b"0."):
            size = len(right.partition(b".")[2])
            whole, _, rest = given.partition(b".")
            editor.entry(one.line, heading, whole + b"." + rest.ljust(size, b"0"))


def write_pairs(editor, cause, found):
    pairs = {unquoted(before): unquoted(right) for right, before in re.findall(f"{QUOTED} for {QUOTED}", cause.fix)}
    for one in cause.findings:
        group, row = editor.file.group_at(one.line), editor.file.by_line[one.line]
        if group.entry(row, one.subject) in pairs:
            editor.entry(one.line, one.subject, pairs[group.entry(row, one.subject)])


def write_instead(editor, cause, found):
    right, before = unquoted(found[1]), unquoted(found[2])
    for one in cause.findings:
        if editor.file.group_at(one.line).entry(editor.file.by_line[one.line], one.subject) == before:
            editor.entry(one.line, one.subject, right)


def write_under(editor, cause, found):
    """`Write "BH102" under LOCA_ID in line 121, as line 63 does`."""
    lines = [int(found[3])] if "as the other rows" in cause.fix else [one.line for one in cause.findings]
    for line in lines:
        editor.entry(line, found[2].encode(), unquoted(found[1]))
    kind = re.search(r"give the heading the TYPE (\w+) in (\w+) too", cause.fix)
    if kind:
        group = editor.file.by_name[kind[2].encode()]
        editor.entry(group.type.line, found[2].encode(), kind[1].encode())


def write_name(editor, cause, found):
    """`Write GEOL (line 58).`, or a heading's name."""
    for one in cause.findings:
        fields = editor.row(one.line)
        fields[fields.index(one.subject)] = found[1].encode()
        editor.lines[one.line - 1] = ags.line_of(fields)


def write_headings(editor, cause, found):
    line, right = int(found[1]), [name.encode() for name in found[2].split(", ")]
    group = editor.file.group_at(line)
    for row in group.rows[1:]:
        items = [row.items[group.headings.index(name)] for name in right]
        editor.lines[row.line - 1] = ags.line_of([row.descriptor, *items])


def define_own(editor, cause, found):
    """Headings are put in order, and rows are added to DICT."""
    for one in re.finditer(r"Write the headings of line (\d+) as ([A-Z0-9_, ]+), and the items", cause.fix):
        write_headings(editor, cause, one)
    below = re.search(r"below line ([\d,]+), the last row", cause.fix)
    (add_below if below else add_group)(editor, cause, below)


def write_link(editor, cause, found):
    for one in cause.findings:
        group, row = editor.file.group_at(one.line), editor.file.by_line[one.line]
        entry = group.entry(row, one.subject)
        editor.entry(one.line, one.subject, entry.replace(cause.value.encode(), unquoted(found[1])))


def write_type(editor, cause, found):
    editor.entry(int(found[3]), found[2].encode(), found[1].encode())


def add_below(editor, cause, found):
    editor.add(int(found[1]), [row.encode() for row in cause.rows])


def add_group(editor, cause, found):
    editor.add(len(editor.lines), [b"", *(row.encode() for row in cause.rows)])


def take_lines_out(editor, cause, found):
    editor.take_out(numbers(found[1]) if "more" not in found[1] else cause.lines)


def begin_with(editor, cause, found):
    for one in cause.findings:
        fields = editor.row(one.line)
        editor.lines[one.line - 1] = ags.line_of([found[1].encode(), *fields[1:]])


def put_group_row(editor, cause, found):
    editor.add(int(found[2]) - 1, [found[1].encode()])


def move_rows(editor, cause, found):
    for first, last in re.findall(r"lines? (\d+)(?: to (\d+))?", found[1]):
        again = editor.file.group_at(int(first))
        editor.add(int(found[2]), editor.lines[int(first) - 1:int(last or first)])
        editor.take_out(row.line for row in again.rows)


def take_group_out(editor, cause, found):
    editor.take_out(range(int(found[1]), int(found[2]) + 1))


def take_columns_out(editor, group, columns):
    for row in group.rows[1:]:
        items = [item for at, item in enumerate(row.items) if at not in columns]
        editor.lines[row.line - 1] = ags.line_of([row.descriptor, *items])


def take_empty_out(editor, cause, found):
    for group in {id(one): one for one in (editor.file.group_at(finding.line) for finding in cause.findings)}.values():
        take_columns_out(editor, group, {at for at, heading in enumerate(group.headings) if not heading})


def take_repeated_out(editor, cause, found):
    for finding in cause.findings:
        group = editor.file.group_at(finding.line)
        places = [at for at, heading in enumerate(group.headings) if heading == finding.subject]
        take_columns_out(editor, group, set(places[1:]))


def take_found_out(editor, cause, found):
    editor.take_out(finding.line for finding in cause.findings)


def end_lines(editor, cause, found):
    return True


def take_nulls_out(editor, cause, found):
    for one in cause.findings:
        size = len(editor.file.group_at(one.line).headings)
        editor.lines[one.line - 1] = ags.line_of(editor.row(one.line)[:size + 1])


def write_characters(editor, cause, found):
    """Each character by the spelling that is named, first of those whose place is named."""
    encoding = "utf-8" if "UTF-8" in cause.here[0] else "cp1252"
    text = b"\n".join(editor.lines).decode(encoding, "surrogateescape")
    named = [re.match(r"U\+([0-9A-F]+) .*?( after a digit| beside a letter| around a field|): "
                      r"(?:write (.+?)|(take it out)) \(", said) for said in cause.here]
    for one in sorted(filter(None, named), key=lambda one: not one[2]):
        character, right = chr(int(one[1], 16)), (one[3] or "").replace("a space and ", " ").replace("a space", " ")
        places = {" after a digit": [rf"(?<=[0-9]){character}"], " around a field": [
            rf"(?m)(?<=^){character}|(?<=,){character}|{character}(?=,)|{character}(?=\r?$)"],
            " beside a letter": [rf"(?<=[^\W\d_]){character}", rf"{character}(?=[^\W\d_])"]}
        for place in places.get(one[2], [character]):
            text = re.sub(place, lambda _: right, text)
    editor.lines = text.encode(encoding, "surrogateescape").split(b"\n")


def make_empty(editor, cause, found):
    for one in cause.findings:
        editor.lines[one.line - 1] = b""


def move_result(editor, cause, found):
    """A result under a heading that takes text; the heading is added where the group lacks it."""
    wanted, heading = found[2].encode(), found[1].encode()
    group = editor.file.group_at(cause.findings[0].line)
    lines = {one.line for one in cause.findings}
    added = re.search(r"Add the heading (\w+) to \w+, (?:after (\w+)|first), with the TYPE X", cause.fix)
    at = group.headings.index(added[2].encode()) + 1 if added and added[2] else 0
    for row in group.rows[1:]:
        items = dict(zip(group.headings, row.items))
        entry = items[heading] if row.line in lines else b""
        if row.line in lines:
            items[heading] = b""
        values = [items[name] for name in group.headings]
        if added:
            values.insert(at, {b"HEADING": wanted, b"TYPE": b"X", b"DATA": entry}.get(row.descriptor, b""))
        elif row.line in lines:
            values[group.headings.index(wanted)] = entry
        editor.lines[row.line - 1] = ags.line_of([row.descriptor, *values])


ACTS = [
    (r"^Take the extra CR out", end_lines), (r"^End (each line|it) with CR LF", end_lines),
    (r"write lines (\d+) to (\d+) as one: (.*)$", write_lines_as_one),
    (r"Write line (\d+) as: (.*)$", write_line), (r"^Make the line empty|^Take the sign out", make_empty),
    (r"^Write each in ASCII", write_characters),
    (r"Move .+ from (\w+) to (\w+), which takes text", move_result),
    (r"^Begin the row with \"(\w+)\"", begin_with),
    (r"^Put the row (\"GROUP\",\"\w+\") above line (\d+)", put_group_row),
    (r"^Move the DATA rows \((.+?)\) below .*, line (\d+),", move_rows),
    (r"^Take the group \w+ out, lines (\d+) to (\d+)", take_group_out),
    (r"^Take the (?:empty item|\d+ empty items) out of the HEADING row", take_empty_out),
    (r"^Keep the first of them, and take what repeats it out", take_repeated_out),
    (r"^Take the lines of empty fields out", take_found_out),
    (r"^Take the empty items at the end out", take_nulls_out),
    (r"[Dd]efine (?:it|them) in the file's group DICT", define_own),
    (r"^Write the headings of line (\d+) as (.*), and the items", write_headings),
    (r"^Write the TYPE \"(\w+)\" for (\w+) in line (\d+)", write_type),
    (f"^Write {QUOTED} instead of {QUOTED} under", write_instead),
    (f"^Write {QUOTED} under (\\w+) in lines? ([\\d,]+)", write_under),
    (f"^Write {QUOTED} for {QUOTED}", write_pairs),
    (f"^Write {QUOTED} in line (\\d+)", write_entry),
    (f"^Write {QUOTED}, if that row is meant", write_link),
    (f"^Write {QUOTED}, or give TRAN_DLIM", write_link),
    (r"^Write ([A-Z0-9_]+) instead of \S+ in line", write_name), (r"^Write ([A-Z0-9_]+)(?: \(line|\.$)", write_name),
    (r"^Take (lines? [\d, and]+(?:more)?) out", take_lines_out),
    (r"(?:[Aa]dd|and) .*?below line ([\d,]+), the last row", add_below),
    (r"^Add this row between line (\d+)", add_below),
    (r"at the end of the file, below an empty line", add_group)]
