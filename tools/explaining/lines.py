"""The first phase: characters, line ends, quotes and descriptors (Rules 1, 2a, 3, 5, 6); and where in its line a
finding is."""
import re

import ags
from . import kinds, texts
from .near import difference

FIELD = re.compile(rb' *"(?:[^"\r\n]|"")*" *')


def key(context, finding):
    code, line = finding.code, finding.line
    if code in ("2a", "5") and line in context.broken:
        first, last = context.broken[line]
        if code == "5" or context.file.ends[line - 1] == "LF" != context.file.ends[last - 1] and line < last:
            return "5", "over lines"
    if code == "5" and is_row_but_for_marks(context.file.line(line)):
        return ("1",)
    if code == "5":
        return "5", context.mistake(line)[0]
    if code == "6":
        return "6", return_at(context.file, line)
    if code == "3":
        return "3", descriptor(context.file, line)
    return (code,)


def is_row_but_for_marks(content):
    """Whether a line is a row once its marks EF BB BF are taken out, which Rule 1 finds too."""
    return ags.MARK in content and ags.fields_of(content.replace(ags.MARK, b"")) is not None


def descriptor(file, line):
    """What a line begins with that is no descriptor."""
    return (ags.fields_of(file.line(line)) or [b""])[0]


def return_at(file, line):
    content = file.line(line)
    if b"\n" not in file.data:
        return "no feed"
    if file.ends[line - 1] == "" and content.rstrip(b"\r") + b"\r" == content:
        return "last line"
    inner = content.rstrip(b"\r")
    return "within" if b"\r" in inner else "doubled"


def tell(context, key, findings):
    return {"1": beyond_ascii, "2a": line_ends, "3": descriptors, "5": quotes, "6": returns}[key[0]](context, key,
        findings)


def beyond_ascii(context, key, findings):
    text, encoding = kinds.decoded(context.file.data)
    found = kinds.characters(text.removeprefix("\ufeff"))
    few = found[:kinds.MOST_CHARACTERS]
    here = [f"{texts.count(len(findings), 'line')} with characters beyond ASCII (read as {encoding})."]
    here += [kinds.character_line(one) + "." for one in few]
    if len(found) > len(few):
        here.append(f"{len(found) - len(few):,} more characters.")
    if context.file.has_mark and encoding == "UTF-8" and "\ufeff" in text[1:]:
        here.append("One mark EF BB BF is passed over at the start of the file alone.")
    codepage = "WINDOWS-1252" if encoding == "Windows-1252" else "UTF-8"
    fix = ("Write each in ASCII, as named here; bin/fix does so where a usual spelling is named. "
           f"iconv -f {codepage} -t ASCII//TRANSLIT writes ? for some.")
    return encoding, here, fix


def line_ends(context, key, findings):
    file, alone = context.file, context.file.ends.count("LF")
    whole = len(file.ends) - (file.ends[-1:] == [""])
    if alone == whole:
        here = [f"All {whole:,} lines end with LF alone, as Unix and some editors write them."]
    else:
        here = [f"LF alone ends {alone:,} of {whole:,} lines, CR LF the others "
                f"({texts.lines(f.line for f in findings)})."]
    return "LF", here, ("End each line with CR LF: in Notepad++ by Edit, EOL Conversion, Windows (CR LF); bin/fix "
                        "does so "
                        "too.")


def descriptors(context, key, findings):
    given = key[1]
    upper = given.strip().upper()
    here = [f"{texts.value(given)} is no descriptor ({texts.lines(f.line for f in findings)})."]
    fix = None
    if given == b"":
        here[0] = f"The first field is empty ({texts.lines(f.line for f in findings)})."
        if all(not any(ags.fields_of(context.file.line(f.line)) or []) for f in findings):
            fix = "Take the lines of empty fields out: a spreadsheet left them there for empty rows."
    elif upper in ags.DESCRIPTORS:
        here[0] = here[0][:-1] + f": {ags.shown(upper)} differs in {difference(given, upper)}."
        fix = f"Begin the row with \"{ags.shown(upper)}\"."
    elif upper.rstrip(b"S") in ags.DESCRIPTORS or upper + b"S" in ags.DESCRIPTORS:
        right = upper.rstrip(b"S")
        fix = f"Begin the row with \"{ags.shown(right)}\"."
    elif given.startswith((b"*", b"<")):
        here.append("It is a line of AGS3.")
    return ags.shown(given), here, fix


def returns(context, key, findings):
    if key[1] == "no feed":
        return "CR", ["No line ends with LF: the lines end with CR alone, so that the whole file is one line."], \
            "End each line with CR LF: in Notepad++ by Edit, EOL Conversion, Windows (CR LF); bin/fix does so too."
    if key[1] == "last line":
        return "CR", ["The last line ends with CR alone: its LF is missing."], "End it with CR LF, or with nothing."
    if key[1] == "doubled":
        here = (f"{texts.count(len(findings), 'line')} with one CR too many before the line end, as after a conversion "
                f"that was done twice ({texts.lines(f.line for f in findings)}).")
        return "CR CR LF", [here], ("Take the extra CR out, so that each line ends with one CR LF: in Notepad++ "
                                    "replace "
                                    "\\r\\r\\n by \\r\\n (extended search); bin/fix does so too.")
    line = findings[0].line
    right = context.file.line(line).replace(b"\r", b" ")
    fix = None if ags.fields_of(right) is None else f"Write line {line} as: {ags.shown(right)}"
    return "CR", [f"A CR is within a field ({texts.lines(f.line for f in findings)})."], fix


def over_lines(context, findings):
    spans = sorted({context.broken[finding.line] for finding in findings if finding.line in context.broken})
    (first, last), file = spans[0], context.file
    joined = b" ".join(line.strip(b"\r") for line in file.lines[first - 1:last])
    here = [f"A line break within a field: lines {a} to {b} are one row." for a, b in spans[:3]]
    if len(spans) > 3:
        here.append(f"{len(spans) - 3:,} more rows that go on in the next line.")
    return ("line break", here,
            f"Take the line break out: write lines {first} to {last} as one: {ags.shown(joined)}")


FIXES = {
    "tab": "Take the tab out.",
    "tabs for commas": "Put each field in quotes, and commas between them: bin/fix does so.",
    "no quotes": "Put each field in quotes: spreadsheets do not save them, and bin/fix writes them.",
    "semicolons": "Put each field in quotes, and commas between them: spreadsheets do not save them so, and bin/fix "
                  "does.",
    "AGS3": "Export the file as AGS4 from the program that made it.", "control": "Take the sign out.",
    "no row": "Take the line out, or begin it with its descriptor and put each field in quotes.",
    "padding": "Take the commas at the end out.", "unquoted": "Put each of these fields in quotes.",
    "nothing between commas": 'Write a null as "".', "quote within": "Double each quote within a field.",
    "no comma": "Put one comma between two fields.", "not opened": "Put the quote at its start.",
    "not closed": "Put the quote at its end.", "single quotes": "Put each field in double quotes."}


def quotes(context, key, findings):
    if key[1] == "over lines":
        return over_lines(context, findings)
    line = findings[0].line
    name, words, right = context.mistake(line)
    begins = words[0].upper() + words[1:]
    here = [f"{begins} ({texts.lines(f.line for f in findings)})."]
    fix = FIXES.get(name)
    if right == b"" and name in ("padding", "tab"):
        fix = "Make the line empty, or take it out."
    elif right:
        more = f"{texts.lines(f.line for f in findings[1:])} alike" if len(findings) > 1 else ""
        fix = f"{fix} Write line {line} as: {ags.shown(right)}{f' and {more}' if more else ''}"
    return name, here, fix


# ---- where in its line a finding is

def spans_of(line):
    """The place and length of each quoted field that is found, from the left, and where the fields end."""
    spans, at = [], 0
    while True:
        match = FIELD.match(line, at)
        if not match:
            return spans, at
        start = line.index(b'"', at)
        spans.append((start, line.rindex(b'"', start, match.end()) + 1 - start))
        at = match.end()
        if line[at:at + 1] != b",":
            return spans, at
        at += 1


def place(context, finding):
    """Where in its line a finding is, as (place, length), or None where it is the whole line."""
    file, line, code, subject = context.file, context.file.line(finding.line), finding.code, finding.subject
    if code == "1":
        return next(((at, 1) for at, byte in enumerate(line) if byte >= 128), None)
    if code == "2a":
        return len(line), 1
    if code == "6":
        return (line.index(b"\r"), 1) if b"\r" in line else None
    row, group = file.by_line.get(finding.line), file.group_at(finding.line)
    column = group.columns.get(subject) if group else None
    if code in ("10a", "10c", "2") and column is None and row is not None and row.descriptor == b"DATA":
        return None
    spans, end = spans_of(line)
    if code == "5":
        return end, 1
    if code in ("3", "2b", "13", "14") and spans:
        return spans[0]
    if code == "4":
        is_group, above = row is not None and row.descriptor == b"GROUP", context.heading_row(finding.line)
        count = 2 if is_group else len(above.items) + 1 if above else 0
        return spans[count] if len(spans) > count else (len(line), 1)
    if row is not None and row.descriptor in (b"GROUP", b"HEADING"):
        same = [at for at, item in enumerate(row.items, 1) if item == subject]
        return spans[same[1 if code == "P2" and len(same) > 1 else 0]] if same else None
    return spans[column + 1] if column is not None and column + 1 < len(spans) else None
