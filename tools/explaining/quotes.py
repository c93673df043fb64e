"""Rule 5: what is wrong with the quotes and commas of a line, and the line put right.

    mistake(b'"DATA",BH1')      # ('unquoted', 'a field without quotes: BH1', b'"DATA","BH1"')
    broken_fields(file)         # the first and last line of each field that goes on in the next line"""
import csv
import re

import ags
from . import texts

FIELD = rb'"(?:[^"]|"")*"'
TOKEN = re.compile(rb' *("(?:[^"]|"")*"|[^",]*) *(?:,|$)')
DESCRIPTOR = re.compile(rb'["\']?(GROUP|HEADING|UNIT|TYPE|DATA)["\']?(?=[,;\t"\'|]|$)')
MOST_LINES = 8


def broken_fields(file):
    """(first line, last line) of each field that a line end cuts: the lines are a row where the line ends are taken
    out."""
    spans, done = [], 0
    for first in file.unreadable:
        if first <= done or file.lines[first - 1].count(b'"') % 2 == 0:
            continue
        joined = file.lines[first - 1]
        for last in range(first + 1, min(first + MOST_LINES, len(file.lines)) + 1):
            joined += b" " + file.lines[last - 1]
            if joined.count(b'"') % 2 == 0:
                if ags.fields_of(joined.replace(b"\r", b" ")) is not None:
                    spans.append((first, last))
                    done = last
                break
    return spans


def right_or_none(text):
    """A line, if it is one of quoted fields."""
    return text if ags.fields_of(text) is not None else None


def with_tabs(text):
    """What a line with tabs beside its fields is."""
    if not text.strip():
        return "tab", "a tab in a line that is otherwise empty", b""
    right = right_or_none(re.sub(FIELD + rb"|\t", lambda found: b"," if found[0] == b"\t" else found[0], text))
    if right:
        return "tabs for commas", "tabs between the fields, where commas belong", right
    right = right_or_none(re.sub(FIELD + rb"|\t", lambda found: b"" if found[0] == b"\t" else found[0], text))
    if right:
        return "tab", "a tab beside a field, where only spaces may be", right
    if b'"' not in text and text.split(b"\t")[0] in ags.DESCRIPTORS:
        return "tabs for commas", "tabs between fields without quotes", b",".join(map(ags.quoted, text.split(b"\t")))
    return None


def of_a_spreadsheet(text, width):
    """What a line is that begins with a descriptor without quotes, or None; of a row with more items than headings,
    nulls at its end are cut."""
    for sign, name, words in ((b",", "no quotes", "fields without quotes, as a spreadsheet saves CSV"),
                              (b";", "semicolons", "semicolons between fields without quotes, as a spreadsheet saves "
                                                   "CSV")):
        if text.split(sign)[0].strip() in ags.DESCRIPTORS:
            parts = next(csv.reader([text.decode("latin-1")], delimiter=sign.decode()), [])
            least = {"GROUP": 2, "HEADING": 2}.get(parts[0], len(parts) if width is None else width + 1)
            while len(parts) > least and not parts[-1].strip():
                parts.pop()
            return name, words, right_or_none(b",".join(ags.quoted(part.strip().encode("latin-1")) for part in parts))
    return None


def without_quotes(text):
    """What a line without any quote is."""
    if re.match(rb"\*\*?[A-Z]|<(UNITS|CONT)>", text):
        return "AGS3", "a line of AGS3", None
    if re.fullmatch(rb"[\x00-\x1f]+", text):
        return "control", f"a control sign, {text[0]:02X}, as old programs end a file with", b""
    return "no row", "text that is no row, such as a title, a comment or the rest of a field", None


def some_unquoted(text):
    """What a line is where some fields have quotes and others not, or None."""
    fields, at = [], 0
    while True:
        found = TOKEN.match(text, at)
        if not found:
            return None
        fields.append(found[1].strip())
        at = found.end()
        if found[0][-1:] != b",":
            break
    if at < len(text):
        return None
    bare = [field for field in fields if field[:1] != b'"']
    right = right_or_none(b",".join(field if field[:1] == b'"' else ags.quoted(field) for field in fields))
    if not bare or right is None:
        return None
    if not any(bare):
        return "nothing between commas", 'nothing between two commas, where a null is ""', right
    return ("unquoted", f"{texts.count(len(bare), 'field')} without quotes: "
                        f"{texts.names([name for name in bare if name], 3)}", right)


def quote_within(text):
    """What a line is where a quote within a field is not doubled, or None."""
    if len(text) < 2 or text[:1] != b'"' or text[-1:] != b'"':
        return None
    parts = re.split(rb'" *, *"', text[1:-1])
    inner = [part.replace(b'""', b'"') for part in parts]
    odd = [part for part, one in zip(parts, inner) if b'"' in one and part.replace(b'""', b"").count(b'"')]
    right = right_or_none(b",".join(map(ags.quoted, inner)))
    if not odd or right is None:
        return None
    if re.fullmatch(rb' *" *', odd[0][odd[0].find(b'"'):]) is None and b'" "' in text:
        return "no comma", "no comma between two fields", right_or_none(text.replace(b'" "', b'","'))
    return "quote within", f"a quote within a field that is not doubled: {ags.shown(odd[0])[:60]}", right


def unclosed(text):
    """What a line is whose first field is not opened or whose last field is not closed, or None."""
    if text.endswith(b'"') and not text.startswith(b'"') and right_or_none(b'"' + text):
        return "not opened", "a quote missing at its start", b'"' + text
    if text.startswith(b'"') and right_or_none(text + b'"'):
        return "not closed", "a quote missing at its end", text + b'"'
    return None


def mistake(content, width=None):
    """What is wrong with a line: a name that is the same for lines with the same mistake, words, and the line put
    right or None. `width` is how many headings the row has, where that is known: nulls beyond them are cut."""
    name, words, right = named(content.strip(b" "), width)
    return name, words, right if right is None else trimmed(right, width)


def trimmed(line, width):
    """A row without the nulls at its end that are more than it has headings."""
    fields = ags.fields_of(line) if line.endswith(b'""') else None
    least = {b"GROUP": 2, b"HEADING": 2}.get(fields[0], width and width + 1) if fields else None
    while least and len(fields) > least and not fields[-1]:
        fields.pop()
    return line if fields is None else ags.line_of(fields)


def padded(text, width):
    """What a line is with commas at its end: so many of them as headings are left are nulls."""
    bare = text.rstrip(b", ")
    if bare == text or right_or_none(bare) is None:
        return None
    commas, fields = text[len(bare):].count(b","), ags.fields_of(bare)
    short = 0 if width is None or fields[0] in (b"GROUP", b"HEADING") else max(0, width + 1 - len(fields))
    said = texts.count(commas, "comma")
    if short:
        return ("nothing between commas", f"{said} at the end, where a null is \"\"",
                ags.line_of(fields + [b""] * min(short, commas)))
    return "padding", f"{said} at the end, as spreadsheets pad short rows", bare


def tabs(text, width):
    """What a line with a tab beside a field is, also one with another mistake."""
    without = re.sub(FIELD + rb"|\t", lambda found: b"" if found[0] == b"\t" else found[0], text).strip(b" ")
    if without == text:
        return None
    found = with_tabs(text)
    right = named(without, width)[2] if found is None and b'"' in text else None
    return found if right is None else ("tab", "a tab beside a field, where only spaces may be", right)


def named(text, width):
    """What is wrong with a line, as `mistake` has it."""
    if re.fullmatch(rb"[,; \t]*[,;][,; \t]*", text):
        return "padding", "commas alone, as spreadsheets pad an empty row", b""
    found = tabs(text, width) if b"\t" in text else None
    if found:
        return found
    found = of_a_spreadsheet(text, width)
    if found:
        return found
    found = padded(text, width)
    if found:
        return found
    if b'"' not in text and b"'" in text and right_or_none(text.replace(b"'", b'"')):
        return "single quotes", "single quotes, where double ones belong", text.replace(b"'", b'"')
    if b'"' not in text:
        return without_quotes(text)
    if b";" in re.sub(FIELD, b"", text):
        right = right_or_none(re.sub(FIELD + rb"|;", lambda found: b"," if found[0] == b";" else found[0], text))
        if right:
            return "semicolons", "semicolons between the fields, where commas belong", right
    found = some_unquoted(text) or quote_within(text) or unclosed(text)
    if found:
        return found
    if text.startswith((b'"**', b'"*', b'"<')):
        return "AGS3", "a line of AGS3", None
    if text.count(b'"') % 2:
        return "odd quotes", "an odd number of quotes: one is missing, or one within a field is not doubled", None
    if not DESCRIPTOR.match(text):
        return "no row", "text that is no row, such as a title, a comment or the rest of a field", None
    return "other", "a sign beside a field that is neither a comma nor a space", None
