"""Rule 8: the form that a TYPE and UNIT ask for, in words with an example, and what is wrong with an entry that does
not have it.

    form(b"2DP", b"m")                    # 'two decimals, as 1.50'
    mistake(b"2DP", b"m", b"1,234.50")    # ('thousands', 'a comma between thousands', b'1234.50')"""
import datetime
import re
from decimal import Decimal

import ags

NUMBERS = "no one two three four five six seven eight nine".split()
UNITS = {
    b"yyyy": ("a year of four digits", "2024"), b"yyyy-mm": ("a year and a month", "2024-02"),
    b"yyyy-mm-dd": ("a day of the calendar", "2024-02-29"),
    b"yyyy-mm-ddThh:mm": ("a day, alone or with T and a time", "2024-02-29T09:30"),
    b"yyyy-mm-ddThh:mm:ss": ("a day, alone or with T and a time", "2024-02-29T09:30:00"),
    b"hh:mm": ("hours and minutes, two digits each", "09:30"),
    b"hh:mm:ss": ("hours, minutes and seconds, two digits each", "09:30:00")}
WORDS = {b"YES": b"Y", b"TRUE": b"Y", b"1": b"Y", b"NO": b"N", b"FALSE": b"N", b"0": b"N"}
# Words that spreadsheets and people write where there is no value. What may be a result (NP, dry, nil) is none of them.
NULLS = (b"-", b"--", b"N/A", b"NA", b"NONE", b"NULL", b"#N/A", b"?", b".")
# Entries that are a result, which a number cannot say: they are kept, in a heading that takes them.
RESULTS = ("less than", "star", "range", "text", "result")
ORDERS = {"dmy": "the day first", "mdy": "the month first"}


def form(kind, unit):
    """The form that a TYPE and UNIT ask for, with an example."""
    digits = int(kind[:1]) if kind[:1].isdigit() else 0
    zeros = "." + "50000000000"[:digits] if digits else ""
    if kind[1:] == b"DP":
        return f"{decimals(digits)}, as 1{zeros}" if digits else "a whole number, as 12"
    if kind[1:] == b"SF":
        return "a number, as 12.5 or 1.25E+01; figures are not counted"
    if kind[1:] == b"SCI":
        return f"one digit, {decimals(digits) if digits else 'no point'} and an exponent, as 1{zeros}E+04"
    if kind == b"MC":
        return "a number without exponent, as 12.5"
    if kind == b"YN":
        return "Y or N"
    if kind == b"DMS":
        return "degrees:minutes:seconds, as 51:28:40.12"
    words, example = UNITS.get(unit, ("any text", ""))
    more = "; of type T the hours may go beyond 23" if kind == b"T" and unit[:2] == b"hh" else ""
    return f"{words}, as {example}{more}"


def spelled(kind, value):
    """A number as a type asks for it, or None where it is no number of that form without rounding."""
    digits = int(kind[:1]) if kind[:1].isdigit() else 0
    if kind[1:] == b"DP":
        text = f"{value:.{digits}f}"
        return text.encode() if Decimal(text) == value else None
    if kind[1:] == b"SCI":
        text = f"{value:.{digits}E}"
        return text.encode() if Decimal(text) == value else None
    return format(value, "f").encode()


def as_number(kind, text):
    """What a plain number is written as under a type, or None. Where zeros at its end are enough, the rest of it stays
    as it is."""
    parts = re.fullmatch(rb"([+-]?[0-9]{1,20})(?:\.([0-9]{0,20}))?|([+-]?)\.([0-9]{1,20})", text)
    if parts is None:
        return None
    whole, decimals_given = parts[1] or parts[3] + b"0", parts[2] or parts[4] or b""
    digits = int(kind[:1]) if kind[1:] == b"DP" else -1
    if len(decimals_given) <= digits:
        return whole + b"." * (digits > 0) + decimals_given.ljust(digits, b"0")
    return spelled(kind, Decimal(text.decode()))


def wrong_number(kind, entry):
    """What is wrong with an entry where a number is asked for, by name and in words, and the entry put right or
    None."""
    text = entry.strip()
    if text != entry and as_number(kind, text):
        return "spaces", "spaces at an end", as_number(kind, text)
    if re.fullmatch(rb"[+-]?([0-9]+\.?[0-9]*|\.[0-9]+)", text):
        return wrong_decimals(kind, text)
    plain = text.replace(b",", b"")
    if re.fullmatch(rb"[+-]?[0-9]{1,3}(,[0-9]{3})+(\.[0-9]*)?", text):
        return "thousands", "a comma between thousands, as spreadsheets show it", as_number(kind, plain)
    if re.fullmatch(rb"[+-]?[0-9]*,[0-9]+", text):
        return "decimal comma", "a comma for the decimal point", as_number(kind, text.replace(b",", b"."))
    if re.fullmatch(rb"[+-]?[0-9]{1,3}( [0-9]{3})+(\.[0-9]*)?", text):
        return "spaces within", "spaces between thousands", as_number(kind, text.replace(b" ", b""))
    if re.match(rb"[<>]|&[lg]t;", text):
        return "less than", f'the sign "{ags.shown(text[:1])}", and the form is a number alone', None
    if b"*" in text:
        return "star", "a *, and the form is a number alone", None
    if re.fullmatch(rb"[+-]?[0-9]+(\.[0-9]+)?[Ee][+-]?[0-9]{1,3}", text):
        value = spelled(kind, Decimal(text.decode())) if abs(int(re.split(rb"[Ee]", text)[1])) < 30 else None
        return "exponent", "an exponent, as spreadsheets show small and large numbers", value
    if text.upper() in NULLS:
        return "word", "a word for no value", b""
    if re.fullmatch(rb"[A-Za-z][A-Za-z .]*", text):
        return "result", "a word, and the form is a number alone", None
    parts = re.fullmatch(rb"([+-]?[0-9]+(?:\.[0-9]+)?) *[A-Za-z%][A-Za-z%/0-9]{0,11}", text)
    if parts:
        return "unit within", "a unit beside the number; it belongs in the UNIT row alone", as_number(kind, parts[1])
    if re.fullmatch(rb"[0-9.]+ *(-|to) *[0-9.]+", text):
        return "range", "two numbers, where one is asked for", None
    return "text", "no number", None


def decimals(count):
    """`two decimals`, for any count."""
    return f"{NUMBERS[count] if count < 10 else count} decimal{'' if count == 1 else 's'}"


def wrong_decimals(kind, text):
    """What is wrong with an entry of digits and a point alone."""
    right = as_number(kind, text)
    if text.startswith((b".", b"+.", b"-.")) or text.endswith(b"."):
        return "bare point", "a point without a digit on each side of it", right
    if kind[1:] == b"SCI":
        return "no exponent", "no exponent", right
    have, want = len(text.partition(b".")[2]), int(kind[:1]) if kind[:1].isdigit() else 0
    words = f"{decimals(have)} where {ags.shown(kind)} asks for {NUMBERS[want] if want else 'none'}"
    return ("fewer decimals" if have < want else "more decimals"), words, right


def day(year, month, date):
    try:
        return datetime.date(int(year), int(month), int(date)).isoformat().encode()
    except ValueError:
        return None


def time_for(unit, text):
    """What a time is written as after a day under a unit, or None where something of it would be lost."""
    parts = re.fullmatch(rb" *T? *([0-9]{1,2}):([0-5][0-9])(?::([0-5][0-9])(?:\.0+)?)?", text)
    if not text.strip():
        return b""
    if parts is None or int(parts[1]) > 23:
        return None
    hour, minute, second = b"%02d" % int(parts[1]), parts[2], parts[3] or b"00"
    if b"T" not in unit:
        return b"" if hour + minute + second == b"000000" else None
    if unit.endswith(b"ss"):
        return b"T" + b":".join((hour, minute, second))
    return b"T" + hour + b":" + minute if second == b"00" else None


def with_time(unit, date, more):
    """A day with its time in the form of the unit, or None."""
    time = time_for(unit, more)
    return None if date is None or time is None else date + time


def serial_time(fraction):
    """The time of a spreadsheet's part of a day, to the second."""
    seconds = round(float(b"0" + (fraction or b"")) * 86400)
    return b" %02d:%02d:%02d" % (seconds // 3600 % 24, seconds // 60 % 60, seconds % 60)


def readings(text):
    """What an entry with day, month and year in this order may mean: {order: day}, and the text after it; None for
    any other entry."""
    parts = re.fullmatch(rb"([0-9]{1,2})[/.-]([0-9]{1,2})[/.-]([0-9]{4})(.*)", text.strip())
    if not parts:
        return None
    first, second, year, more = parts.groups()
    found = {"dmy": day(year, second, first), "mdy": day(year, first, second)}
    return {order: date for order, date in found.items() if date}, more


def day_first(unit, text, days):
    """What is wrong with an entry whose year comes last, where it is one."""
    dates, more = readings(text)
    if not dates:
        return "no such day", "no day of the calendar", None
    if len(set(dates.values())) > 1:
        said = "the day or the month first, and nothing in the entry says which"
        return "day and month", said, with_time(unit, dates.get(days), more)
    right = with_time(unit, next(iter(dates.values())), more)
    return "day first", "another order of day, month and year", right


def wrong_day(unit, entry, days):
    """What is wrong with an entry where a day or a time is asked for."""
    text, has_day = entry.strip(), unit.startswith(b"yyyy-mm-dd")
    if text != entry and (ags.fits(b"DT", unit, text) or not has_day):
        return "spaces", "spaces at an end", text
    serial = re.fullmatch(rb"([0-9]{5})(\.[0-9]+)?", text)
    if serial and has_day:
        date = datetime.date(1899, 12, 30) + datetime.timedelta(int(serial[1]))
        more = serial_time(serial[2]) if serial[2] else b""
        return "serial date", "a spreadsheet's number of a day", with_time(unit, date.isoformat().encode(), more)
    if has_day and readings(text):
        return day_first(unit, text, days)
    if re.fullmatch(rb"[0-9]{4}-[0-9]{2}-[0-9]{2} [0-9:]+", text) and b"T" in unit:
        return ("blank for T", "a space between day and time, where a T belongs",
                with_time(unit, day(text[:4], text[5:7], text[8:10]), text[10:]))
    parts = re.fullmatch(rb"([0-9]{4})[-/.]?([0-9]{1,2})[-/.]?([0-9]{1,2})(.*)", text)
    if parts and has_day:
        right = day(*parts.groups()[:3])
        if right is None or right == text:
            return "no such day", "no day of the calendar", None
        if not parts[4]:
            return "day's signs", "other signs or fewer digits than yyyy-mm-dd", right
        return "time", f"a time in another form than {ags.shown(unit)}", with_time(unit, right, parts[4])
    if re.fullmatch(rb"[0-9]:[0-5][0-9](:[0-5][0-9])?", text) and unit.startswith(b"hh"):
        right = b"0" + text
        return "one digit", "an hour of one digit", right if ags.fits(b"T", unit, right) else None
    if text.upper() in NULLS:
        return "word", "a word for no value", b""
    return "text", "another form", None


def mistake(kind, unit, entry, days=""):
    """What is wrong with an entry, by a name that is the same for entries of the same mistake and in words, and it put
    right, or None. `days` says which comes first in an entry that can be read both ways: `dmy` or `mdy`."""
    if kind == b"YN":
        text = entry.strip().upper()
        return "word", "a word for Y or N", text if text in (b"Y", b"N") else WORDS.get(text)
    if kind in (b"DT", b"T"):
        return wrong_day(unit, entry, days)
    if kind == b"DMS":
        return "text", "another form", None
    return wrong_number(kind, entry)


def pads(kind, text):
    """Whether a number has no more decimals than its type asks for, so that zeros alone are added."""
    if not re.fullmatch(rb"[+-]?([0-9]+\.?[0-9]*|\.[0-9]+)", text):
        return False
    return kind[1:] != b"DP" or len(text.partition(b".")[2]) <= int(kind[:1])
