"""What a file really is, where it is no AGS4 text as it should be: said once, above all findings.

    kind_of(file)          # ('UTF-16', ['The file is UTF-16 ..'])
    characters(text)       # what is beyond ASCII: each character with its lines and its usual spelling
    put_right(file)        # the bytes with line ends, mark and encoding as they should be"""
import re
import unicodedata

import ags
from . import spellings, texts

MOST_CHARACTERS = 12
ZIP, PDF = b"PK\x03\x04", b"%PDF"


def decoded(data):
    """The text of a file and the name of its encoding."""
    if data[:2] in (b"\xff\xfe", b"\xfe\xff"):
        return data.decode("utf-16", "replace"), "UTF-16"
    head = data[:400]
    if len(head) > 20 and head.count(0) * 3 > len(head):
        little = head[1::2].count(0) > head[::2].count(0)
        return data.decode("utf-16-le" if little else "utf-16-be", "replace"), "UTF-16"
    try:
        return data.decode("utf-8"), "ASCII" if data.isascii() else "UTF-8"
    except UnicodeDecodeError:
        return data.decode("cp1252", "replace"), "Windows-1252"


def characters(text):
    """(character, where, times, first line, usual spelling) of each character beyond ASCII, the most frequent first."""
    times, first, rights = {}, {}, {}
    for number, line in enumerate(text.split("\n"), 1):
        for character, where, right in spellings.pieces(line.rstrip("\r")) if not line.isascii() else ():
            times[character, where] = times.get((character, where), 0) + 1
            first.setdefault((character, where), number)
            rights[character, where] = right
    return [(*one, times[one], first[one], rights[one]) for one in sorted(times, key=lambda one: (-times[one], one))]


def character_line(one):
    character, where, times, line, right = one
    name = unicodedata.name(character, "no name").lower()
    write = ("take it out" if right == "" else "write a space" if right == " " else "no usual spelling in ASCII"
             if right is None else f"write {right}" if right[0] != " " else f"write a space and {right[1:]}")
    return f"U+{ord(character):04X} {name}{where}: {write} ({texts.count(times, 'time')}, first in line {line})"


def is_ags3(file):
    return sum(line.lstrip(b'" ').startswith((b"**", b"*", b"<UNITS>", b"<CONT>")) for line in file.lines[:200]) >= 2


def bare_descriptors(file, sign):
    """How many of the first lines begin with a descriptor that this sign ends, without quotes."""
    begins = tuple(descriptor + sign for descriptor in ags.DESCRIPTORS)
    return sum(line.startswith(begins) for line in file.lines[:200])


def packed(data):
    """What a file is that is no text, by name and in sentences, or None."""
    if data[:4] == ZIP:
        if b"xl/" in data or b"[Content_Types]" in data[:4000]:
            return "ZIP", ["The file is a workbook (.xlsx) and no text.",
                           "Export it as AGS4 by the program or add-in that keeps it, or write it by bin/tables "
                           "BOOK.xlsx -o FILE.ags, where each sheet is a group. A workbook that is renamed to .ags "
                           "stays one."]
        return "ZIP", ["The file is a ZIP archive, perhaps a workbook (.xlsx), and no text.",
                       "Take the AGS file out of the archive, or export a workbook as AGS4."]
    if data[:4] == PDF:
        return "PDF", ["The file is a PDF, and no AGS text.", "Send the AGS file itself."]
    if data[:2] == b"\x1f\x8b":
        return "gzip", ["The file is packed by gzip.", "Unpack it first (gzip -d)."]
    if re.match(rb"\s*<(!DOCTYPE|html|\?xml)", data[:200], re.I):
        return "HTML", ["The file is HTML or XML, such as a page that a download left in its place, and no AGS text.",
                        "Download or export the AGS file again."]
    return None


def kind_of(file):
    """A name and sentences that say what the file is; the name is None for a text of AGS4."""
    data, said = file.data, []
    found = packed(data)
    if found:
        return found
    text, encoding = decoded(data)
    if encoding == "UTF-16":
        return encoding, ["The file is UTF-16 (\"Unicode text\" of a spreadsheet): two bytes a character, so that no "
                          "line can be read.",
                          "Save it as plain text in ASCII, with CR LF (in Notepad++: Encoding, Convert to UTF-8, then "
                          "Edit, EOL Conversion, Windows), or convert it (iconv -f UTF-16 -t ASCII//TRANSLIT FILE > "
                          "NEW), then look for ?"]
    if is_ags3(file):
        return "AGS3", ["The file is AGS3: its groups begin with **, its headings with *. This checker reads AGS4.",
                        "Export it as AGS4 from the program that made it; changing single lines does not make it AGS4."]
    strange = characters(text.removeprefix("\ufeff"))
    if encoding != "ASCII" and strange:
        what = ("is UTF-8 with characters beyond ASCII" if encoding == "UTF-8"
                else "is no UTF-8; it is read as Windows-1252 here")
        count = len({character for character, *_ in strange})
        said.append(f"The file {what}: {texts.count(count, 'character')}, named below.")
    for sign, name in ((b",", "commas"), (b";", "semicolons"), (b"\t", "tabs")):
        if bare_descriptors(file, sign) >= 2:
            said.append(f"The file is a spreadsheet's CSV: fields between {name} without quotes. Each field of AGS4 is "
                        "in quotes.")
            return "CSV", said
    if data and b"\n" not in data and data.count(b"\r") > 2:
        return "CR", said + ["The lines end with CR alone, as on old Macintosh computers, so that the whole file is "
                             "one line."]
    return encoding if strange else None, said


def put_right(file):
    """The bytes with CR LF at each line's end, without a mark, and in ASCII where each character has a usual spelling.
    A CR within a line stays, so that lines keep their numbers."""
    text, _ = decoded(file.data)
    text = text.lstrip("\ufeff")
    text = re.sub(r"\r*\n", "\n", text) if "\n" in text else text.replace("\r", "\n")
    if not text.isascii():
        text = "\n".join(line if line.isascii() else spellings.spelled(line, "?") for line in text.split("\n"))
    return text.replace("\n", "\r\n").encode("ascii")
