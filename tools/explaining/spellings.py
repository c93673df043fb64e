"""The usual ASCII spelling of characters beyond ASCII. None changes a number: 10 with a raised 3 is `10^3`, and 2 with
a half is `2 1/2`.

    pieces("5 m\\u00b2")              # [("\\u00b2", "", "2")]: a character, where it is, its spelling or None
    spelled("5 m\\u00b2")             # "5 m2", or None where a character has no usual spelling"""
import re
import unicodedata

import ags

OTHERS = {
    "\u00b0": "deg", "\u00ba": "deg", "\u00b5": "u", "\u03bc": "u", "\u03a9": "ohm", "\u2030": "per mille",
    "\u00d7": "x", "\u00f7": "/", "\u2044": "/", "\u00b1": "+/-", "\u2264": "<=", "\u2265": ">=", "\u2300": "dia",
    "\u2010": "-", "\u2011": "-", "\u2013": "-", "\u2014": "-", "\u2212": "-", "\u207b": "-", "\u2022": "-",
    "\u2018": "'", "\u2019": "'", "\u00b4": "'", "\u2032": "'", "\u201c": '""', "\u201d": '""', "\u201e": '""',
    "\u2033": '""', "\u2026": "...", "\u00a3": "GBP", "\u20ac": "EUR", "\u00ae": "(R)", "\u2122": "(TM)",
    "\u00a9": "(C)", "\u00df": "ss", "\u00e4": "ae", "\u00f6": "oe", "\u00fc": "ue", "\u00c4": "Ae", "\u00d6": "Oe",
    "\u00dc": "Ue", "\u00e6": "ae", "\u00f8": "oe", "\u00e5": "aa", "\u00d8": "dia", "\u0394": "delta",
    "\u03b1": "alpha", "\u03b2": "beta", "\u03b3": "gamma", "\u03c3": "sigma", "\u03c4": "tau", "\u03c6": "phi"}
# Characters without a width, which nobody sees.
NOTHING = "\ufeff\u00ad\u200b\u200c\u200d\u200e\u200f\u2060"
DOUBLE_QUOTES = "\u201c\u201d\u201e"
RAISED = "\u00b9\u00b2\u00b3\u2070\u2074\u2075\u2076\u2077\u2078\u2079\u207b"
AFTER_DIGIT, BEFORE_DIGIT = " after a digit", " before a digit"
BESIDE_LETTER, AROUND_FIELD = " beside a letter", " around a field"


def spelling(character):
    """The usual spelling of a character by itself, or None."""
    if character in NOTHING:
        return ""
    if character in OTHERS:
        return OTHERS[character]
    parts = unicodedata.normalize("NFKD", character)
    if parts == " ":
        return parts
    known = [part if part.isascii() else OTHERS.get(part) for part in parts if not unicodedata.combining(part)]
    text = "" if None in known or len(parts) > 1 and parts[0] == " " else "".join(known)
    return text if text and text.isprintable() else None


def within(character, before, after):
    """Where a character is, if it has another spelling there, and its spelling or None."""
    right = spelling(character)
    if character == "\u00d8" and (before.isalpha() or after.isalpha()):
        return BESIDE_LETTER, "Oe"
    if right and after.isascii() and after.isdigit() and right[-1:].isdigit():
        return BEFORE_DIGIT, None
    if right and before.isascii() and before.isdigit() and (character in RAISED or right[:1].isdigit()):
        return AFTER_DIGIT, f"^{right}" if character in RAISED else f" {right}" if "/" in right else None
    return "", right


def are_of_fields(line):
    """Whether typographic quotes are around the fields of a line, instead of plain ones."""
    if not any(sign in line for sign in DOUBLE_QUOTES):
        return False
    plain = re.sub(f"[{DOUBLE_QUOTES}]", '"', line)
    return ags.fields_of(line.encode()) is None and ags.fields_of(plain.encode()) is not None


def pieces(line):
    """Each character of a line beyond ASCII: the character, where it is if that matters, and its spelling or None."""
    is_around, out = are_of_fields(line), []
    for found in re.finditer(r"[^\x00-\x7f]", line):
        at, character = found.start(), found[0]
        if is_around and character in DOUBLE_QUOTES:
            out.append((character, AROUND_FIELD, '"'))
        else:
            out.append((character, *within(character, line[at - 1:at], line[at + 1:at + 2])))
    return out


def spelled(line, unknown=None):
    """A line in ASCII, with `unknown` for each character without a usual spelling; or None where there is one and
    nothing is given for it."""
    rights = [unknown if right is None else right for _, _, right in pieces(line)]
    if None in rights:
        return None
    given = iter(rights)
    return re.sub(r"[^\x00-\x7f]", lambda _: next(given), line)
