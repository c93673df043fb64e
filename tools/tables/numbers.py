"""Numbers in cells. An entry is a number there only if the cell's number and form give back each of its characters.

    cell_of("2DP", "1.50")                     # (1.5, "0.00")
    cell_of("2DP", "01.50")                    # None: it stays text
    text_of(1.5, "2DP", "General")             # "1.50" """
import re
from decimal import Decimal

# A spreadsheet keeps this many digits of a number.
DIGITS = 15
TYPES = re.compile(r"([0-9])(DP|SF|SCI)|MC")
PLAIN = re.compile(r"-?(?:0|[1-9][0-9]*)(?:\.([0-9]+))?")
POWER = re.compile(r"-?[0-9](?:\.([0-9]+))?E[+-][0-9]{2,3}")
PLAIN_FORM, POWER_FORM = re.compile(r"0(?:\.(0+))?"), re.compile(r"0(?:\.(0+))?E\+00")


class Loses(Exception):
    """A number of a cell that its type cannot say whole."""


def cell_of(kind, entry):
    """The number of an entry and the form of its cell, or None where it stays text."""
    if not TYPES.fullmatch(kind) or sum(map(str.isdigit, entry)) > DIGITS:
        return None
    for pattern, is_power in ((PLAIN, False), (POWER, True)):
        match = pattern.fullmatch(entry)
        if match:
            number, decimals = float(entry), len(match[1] or "")
            if spelled(number, decimals, is_power) == entry and (number or entry[0] != "-"):
                return number, form_of(decimals, is_power)
    return None


def spelled(number, decimals, is_power):
    return f"{number:.{decimals}{'E' if is_power else 'f'}}"


def form_of(decimals, is_power):
    return "0" + ("." + "0" * decimals if decimals else "") + ("E+00" if is_power else "")


def form_of_type(kind):
    """The form of the numbers of a type; none said where their decimals differ, and None where they are no numbers."""
    match = TYPES.fullmatch(kind)
    if match is None:
        return None
    return form_of(int(match[1]), match[2] == "SCI") if match[2] in ("DP", "SCI") else ""


def text_of(number, kind, form):
    """The entry of a number in a cell of a form: with the decimals of its type, or where these are too few or none, of
    its form; without either, with as few as do."""
    whole = Decimal(f"{number:.{DIGITS}g}")
    ways = list(wanted(kind, form))
    if not ways:
        return spelled(whole, max(0, -whole.normalize().as_tuple().exponent), False)
    texts = [spelled(number, decimals, is_power) for is_power, decimals in ways]
    text = next((text for text in texts if Decimal(text) == whole), None)
    if text is None:
        raise Loses(f"{whole.normalize():f} has more decimals than the {ways[0][1]} of its type or form")
    return text


def wanted(kind, form):
    """The ways to spell a number by its type, and then by the form of its cell: whether with a power of ten, and its
    decimals."""
    match = TYPES.fullmatch(kind)
    if match and match[2] in ("DP", "SCI"):
        yield match[2] == "SCI", int(match[1])
    for pattern, is_power in ((PLAIN_FORM, False), (POWER_FORM, True)):
        match = pattern.fullmatch(form or "")
        if match:
            yield is_power, len(match[1] or "")
