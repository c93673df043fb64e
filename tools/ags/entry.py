"""An entry of a type and a unit (Rule 8).

    fits(b"2DP", b"m", b"1.50")"""
import calendar
import functools
import re

# The types of any text, and those whose entries have to be listed somewhere: any entry fits them.
TEXTS, LISTED = (b"X", b"ID", b"XN", b"U", b""), (b"PA", b"PT", b"PU", b"RL")
NUMBER = re.compile(rb"([0-9])(DP|SF|SCI)")
WHOLE, POWER = rb"[+-]?[0-9]+", rb"[Ee][+-]?[0-9]{1,3}"
FORMS = {b"MC": WHOLE + rb"(?:\.[0-9]+)?", b"YN": rb"[YNyn]",
         b"DMS": rb"[+-]?[0-9]{1,3}:[0-5][0-9]:[0-5][0-9](?:\.[0-9]+)?"}
YEAR, MONTH = rb"[0-9]{4}", rb"-(?:0[1-9]|1[0-2])"
# A time of the day, and one of the type T, which is a length of time and may have more hours than a day.
OF_DAY, OF_LENGTH = rb"(?:[01][0-9]|2[0-3]):[0-5][0-9]", rb"[0-9]{2,4}:[0-5][0-9]"


def fits(kind, unit, entry):
    """Whether an entry is of a type, under a unit. Null fits each, and any text fits a type without a form."""
    form = form_of(kind, unit) if entry else None
    if form is None:
        return True
    match = form.fullmatch(entry)
    return match is not None and (not match.groups() or is_day(*map(int, match.groups())))


@functools.lru_cache(1000)
def form_of(kind, unit):
    """The pattern that the entries of a type and a unit match, or None; a day's parts are its groups."""
    number = NUMBER.fullmatch(kind)
    if number:
        pattern = number_form(int(number[1]), number[2])
    elif kind in (b"DT", b"T"):
        pattern = time_form(unit, OF_LENGTH if kind == b"T" else OF_DAY)
    else:
        pattern = FORMS.get(kind)
    return re.compile(pattern) if pattern else None


def number_form(digits, kind):
    """The form of numbers with so many decimals (DP, SCI) or significant figures (SF)."""
    if kind == b"SF":
        return WHOLE + rb"(?:\.[0-9]+)?(?:" + POWER + rb")?"
    decimals = rb"\.[0-9]{%d}" % digits if digits else b""
    return WHOLE + decimals if kind == b"DP" else rb"[+-]?[0-9]" + decimals + POWER


def time_form(unit, clock):
    """The form of a time under its unit, or None. With a clock in the unit, a day alone will do."""
    day = rb"([0-9]{4})-([0-9]{2})-([0-9]{2})"
    return {b"yyyy": YEAR, b"yyyy-mm": YEAR + MONTH, b"yyyy-mm-dd": day,
            b"yyyy-mm-ddThh:mm": day + rb"(?:T" + OF_DAY + rb")?",
            b"yyyy-mm-ddThh:mm:ss": day + rb"(?:T" + OF_DAY + rb":[0-5][0-9])?",
            b"hh:mm": clock, b"hh:mm:ss": clock + rb":[0-5][0-9]"}.get(unit)


def is_day(year, month, day):
    """Whether a day is of the calendar."""
    return 1 <= month <= 12 and 1 <= day <= calendar.monthrange(year, month)[1]
