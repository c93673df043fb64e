"""Names and entries that are nearly alike: the nearest of a list, and in what two of them differ.

    Near([b"FINAL", b"PRELIM"]).nearest(b"Final")     # b"FINAL"
    difference(b"Final", b"FINAL")                    # 'capitals'"""
import difflib
import functools
import re
from decimal import Decimal, InvalidOperation

LONGEST = 40
LEAST_LIKE = 0.6
NUMBER = re.compile(rb" *[+-]?[0-9]+(\.[0-9]*)? *")


def number(text):
    """The number that a text spells, or None."""
    if len(text) > LONGEST or not NUMBER.fullmatch(text):
        return None
    try:
        return Decimal(text.strip().decode())
    except InvalidOperation:
        return None


@functools.lru_cache(1 << 17)
def normal(text):
    """The same for texts that differ in capitals, spaces, signs between letters, or in how a number is spelled."""
    value = number(text)
    if value is not None:
        return b"%s" % str(value.normalize() + 0).encode()
    return re.sub(rb"0+(?=[0-9])", b"", re.sub(rb"[^A-Z0-9.<>*]", b"", text.upper()))


def spaces(text):
    """The spaces and tabs at the ends of a text, by name."""
    told = []
    for name, size in (("at its start", len(text) - len(text.lstrip())),
                       ("at its end", len(text) - len(text.rstrip()))):
        if size:
            part = text[:size] if name == "at its start" else text[len(text) - size:]
            sort = "tab" if b"\t" in part else "space"
            told.append(f"{'a' if size == 1 else size} {sort}{'' if size == 1 else 's'} {name}")
    return " and ".join(told)


def difference(given, other):
    """In what two texts differ that are nearly alike, or the empty text."""
    if given.strip() == other.strip():
        return spaces(given) or f"the other has {spaces(other)}"
    if given.upper() == other.upper():
        return "capitals"
    if number(given) is not None and number(given) == number(other):
        return "the same number, spelled in another way"
    if re.sub(rb"[^A-Z0-9]", b"", given.upper()) == re.sub(rb"[^A-Z0-9]", b"", other.upper()):
        return "spaces or signs between the letters"
    if normal(given) == normal(other):
        return "zeros before a number"
    return ""


def shortened(text, times):
    """A text and what is left of it when up to so many characters are taken out."""
    out, last = {text}, {text}
    for _ in range(times):
        last = {one[:at] + one[at + 1:] for one in last for at in range(len(one))}
        out |= last
    return out


def likeness(one, other):
    """How alike two texts are, from 0 to 1; capitals do not count."""
    return difflib.SequenceMatcher(None, one.upper(), other.upper()).ratio()


class Near:
    """The names of a list, indexed by what they are in normal form and by what is left of them without a character or
    two."""

    def __init__(self, names):
        self.names, self.forms, self.parts = list(dict.fromkeys(names)), {}, None
        for name in self.names:
            self.forms.setdefault(normal(name), name)

    def times(self, name):
        """How many characters may be taken out: two of names as long as a heading's, where there are few; none of
        short ones."""
        return 0 if len(name) < 4 or len(name) > LONGEST else 2 if len(name) <= 9 and len(self.names) <= 4000 else 1

    def index(self):
        self.parts = {}
        for form, name in self.forms.items():
            for part in shortened(form, self.times(form)):
                self.parts.setdefault(part, []).append(name)

    def nearest(self, given, but=()):
        """The nearest name, or None where none is near."""
        form = normal(given)
        same = self.forms.get(form)
        if same is not None and same != given and same not in but:
            return same
        if self.times(form) == 0:
            return None
        if self.parts is None:
            self.index()
        found = [name for part in shortened(form, self.times(form)) for name in self.parts.get(part, ())[:8]]
        found = [name for name in dict.fromkeys(found) if name != given and name not in but]
        if not found:
            return None

        best = max(sorted(found), key=lambda name: likeness(given, name))
        return best if likeness(given, best) >= LEAST_LIKE else None
