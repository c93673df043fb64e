"""Fixes of the first phase: marks, line ends, characters, quotes and descriptors (Rules 1, 2a, 3, 5 and 6).

Each function takes the work (the file with its findings) and gives edits, one for each part that is a fix by itself."""
import ags
from explaining import kinds, quotes, spellings

from .document import Edits

# Mistakes of a line's quotes and commas that are put right without a loss, by the name that explaining.quotes has.
CERTAIN = {"padding", "tab", "tabs for commas", "no quotes", "semicolons", "nothing between commas", "unquoted",
           "quote within", "not opened", "not closed", "single quotes", "control"}
# Those of them whose line has to have as many items as the HEADING row above it.
COUNTED = {"quote within", "not opened", "not closed", "unquoted", "single quotes"}


def targets(work, *lines):
    """The findings of these lines."""
    wanted = set(lines)
    return {finding for finding in work.findings if finding.line in wanted}


def marks(work):
    """Marks EF BB BF within the file: the one at its start is passed over, and all others are taken out."""
    found = Edits()
    for number, content in enumerate(work.file.lines, 1):
        if ags.MARK in content:
            found.contents[number] = content.replace(ags.MARK, b"")
            found.targets |= {one for one in targets(work, number) if found.contents[number].isascii()
                              and one.code == "1"}
    return [found]


def over_lines(work):
    """A field that goes on in the next lines is written on one, with a space for each line end."""
    out = []
    for first, last in quotes.broken_fields(work.file):
        joined = b" ".join(line.replace(b"\r", b" ").strip(b" ") if number else line.replace(b"\r", b" ").rstrip(b" ")
                           for number, line in enumerate(work.file.lines[first - 1:last]))
        if ags.fields_of(joined) is not None and is_counted(work, first, joined):
            out.append(Edits(targets(work, *range(first, last + 1)), contents={first: joined}, ends={first},
                             removed=set(range(first + 1, last + 1))))
    return out


def is_counted(work, line, content):
    """Whether a row has as many items as the HEADING row above it, where that can be read."""
    row, above = ags.fields_of(content), work.context.heading_row(line)
    if not row or row[0] not in ags.DESCRIPTORS or row[0] in (b"GROUP", b"HEADING") or above is None:
        return True
    return len(row) - 1 == len(above.items)


def returns(work):
    """A CR before the line end, or within a line."""
    found = Edits()
    for finding in work.of("6"):
        content = work.file.line(finding.line)
        right = content.rstrip(b"\r")
        right = right.replace(b"\r", b" ") if ags.fields_of(right.replace(b"\r", b" ")) is not None else right
        if b"\r" not in right:
            found.contents[finding.line] = right
            found.ends.add(finding.line)
            found.targets.add(finding)
    return [found]


def line_ends(work):
    lines = {finding.line for finding in work.of("2a") if finding.line not in work.context.broken}
    return [Edits({finding for finding in work.of("2a") if finding.line in lines}, ends=lines)]


def characters(work):
    """Each character beyond ASCII by its usual spelling; a line with one that has none stays as it is."""
    found = Edits()
    for finding in work.of("1"):
        content = work.file.line(finding.line)
        right = spellings.spelled(kinds.decoded(content)[0])
        if right is None:
            continue
        was_row, is_row = (ags.fields_of(text) is not None for text in (content, right.encode("ascii")))
        if is_row or not was_row:
            found.contents[finding.line] = right.encode("ascii")
            found.targets |= {one for one in targets(work, finding.line)
                              if one is finding or one.code == "5" and is_row}
    return [found]


def fields(work):
    """Quotes and commas, where it is plain how they belong."""
    found, width = Edits(), None
    headings = {row.line: len(row.items) for row in work.file.rows if row.descriptor == b"HEADING"}
    wrong = {finding.line: finding for finding in work.of("5") if finding.line not in work.context.broken}
    for line in sorted({*headings, *wrong}):
        width = headings.get(line, width)
        if line not in wrong:
            continue
        name, _, right = quotes.mistake(work.file.line(line), width)
        if right is None or name not in CERTAIN or right == b"" and name == "no row":
            continue
        row = ags.fields_of(right)
        if name in COUNTED and row and row[0] in (b"UNIT", b"TYPE", b"DATA") and width not in (None, len(row) - 1):
            continue
        found.contents[line] = right
        found.targets.add(wrong[line])
        width = len(row) - 1 if row and row[0] == b"HEADING" else width
    return [found]


def descriptors(work):
    """A descriptor in other capitals, with spaces or in the plural; a line of empty fields is made empty."""
    found = Edits()
    for finding in work.of("3"):
        first, *items = ags.fields_of(work.file.line(finding.line))
        name = first.strip().upper()
        name = name[:-1] if name not in ags.DESCRIPTORS and name[-1:] == b"S" else name
        if name in ags.DESCRIPTORS:
            found.contents[finding.line] = ags.line_of([name, *items])
        elif not first.strip() and not any(items):
            found.contents[finding.line] = b""
        else:
            continue
        found.targets.add(finding)
    return [found]


# ---- the file as a whole

def recoded(data):
    """The bytes of a file of two bytes a character, in UTF-8; or None."""
    text, encoding = kinds.decoded(data)
    if encoding != "UTF-16" or "\ufffd" in text:
        return None
    return text.lstrip("\ufeff").encode("utf-8")


def with_feeds(data):
    """The bytes of a file whose lines all end with CR alone, with CR LF; or None."""
    return data.replace(b"\r", b"\r\n") if b"\n" not in data and data.count(b"\r") > 2 else None
