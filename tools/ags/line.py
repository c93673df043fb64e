"""A line of an AGS4 file: the fields that spell a row, and the line that spells fields (Rules 3 to 5).

    fields_of(b'"DATA","BH1"')        # [b"DATA", b"BH1"], or None
    line_of([b"DATA", b"BH1"])        # b'"DATA","BH1"'"""
import re

DESCRIPTORS = (b"GROUP", b"HEADING", b"UNIT", b"TYPE", b"DATA")
# A field with spaces around it, and the comma after it or the end of the line.
FIELD = re.compile(rb' *"([^"\r\n]*(?:""[^"\r\n]*)*)" *(?:(,)|\Z)')
PRINTED = bytes(byte if 32 <= byte < 127 else 63 for byte in range(256))


def fields_of(content):
    """The fields that spell a line, or None."""
    if content[:1] == b'"' == content[-1:] and len(content) > 1:
        parts = content[1:-1].split(b'","')
        if content.count(b'"') == 2 * len(parts) and b"\r" not in content and b"\n" not in content:
            return parts
    fields, at = [], 0
    while True:
        match = FIELD.match(content, at)
        if match is None:
            return None
        fields.append(match[1].replace(b'""', b'"'))
        if match[2] is None:
            return fields
        at = match.end()


def quoted(entry):
    """An entry as a field spells it."""
    return b'"' + entry.replace(b'"', b'""') + b'"'


def line_of(fields):
    """The line that spells fields, without its end."""
    return b",".join(map(quoted, fields))


def shown(text):
    """Bytes as ASCII text; what does not print is a question mark."""
    return text.translate(PRINTED).decode("ascii")
