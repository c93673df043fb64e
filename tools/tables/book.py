"""The AGS4 file of a workbook: of each sheet of a group, as bin/tables or python-ags4 lays it out.

    ags_of(book).data         # the bytes of an AGS4 file, in the register's own form
    ags_of(book).left_out     # a line for each sheet, and for the columns of each sheet, that are no part of it"""
import datetime
import re
from typing import List, NamedTuple

import ags

from . import cells, numbers
from .layout import Refused, is_beside
from .sheets import letters

SHOWN, FEW = 20, 3
GROUP, HEADING = re.compile(r"[A-Z0-9]{1,4}"), re.compile(r"[A-Z0-9_]{1,9}")
HEADERS = {1: "HEADING", 2: "UNIT", 3: "TYPE"}
DAY, CLOCK = "%Y-%m-%d", "%H:%M"
DAYS = {"yyyy": "%Y", "yyyy-mm": "%Y-%m", "yyyy-mm-dd": DAY, "yyyy-mm-ddThh:mm": f"{DAY}T{CLOCK}",
        "yyyy-mm-ddThh:mm:ss": f"{DAY}T{CLOCK}:%S"}
CLOCKS = {"hh:mm": CLOCK, "hh:mm:ss": f"{CLOCK}:%S"}
# A time without a day is on the first one, in either way of counting days.
FIRST = (datetime.date(1899, 12, 30), datetime.date(1904, 1, 1))


class Written(NamedTuple):
    """An AGS4 file, what of the workbook is no part of it, and how many groups and DATA rows it has."""
    data: bytes
    left_out: List[str]
    groups: int
    rows: int


class Wrong(Exception):
    """What is wrong with a cell."""


def ags_of(book):
    """The AGS4 file of a workbook's bytes."""
    try:
        sheets = [Sheet(name, rows) for name, rows in cells.sheets(book)]
    except cells.NoWorkbook as fault:
        raise Refused(str(fault)) from None
    groups = [sheet.group() for sheet in sheets if sheet.is_group()]
    reasons = [reason for sheet in sheets for reason in sheet.reasons]
    if not reasons and not groups:
        reasons.append("it has no sheet of a group: with HEADING in its first cell, and the group as its name")
    if reasons:
        more = [f"and {len(reasons) - SHOWN:,} more"] if len(reasons) > SHOWN else []
        raise Refused(*reasons[:SHOWN], *more)
    left_out = [line for sheet in sheets for line in sheet.left_out]
    return Written(ags.written(groups), left_out, len(groups), sum(len(rows) for *_, rows in groups))


class Sheet:
    """A sheet of a workbook, with the reasons for which it cannot be written, and what is left out of it."""

    def __init__(self, name, rows):
        self.name, self.rows, self.reasons, self.left_out = name, rows or {}, [], []
        self.kinds, self.units = {}, {}

    def says(self, row, column, text):
        self.reasons.append(f"{self.name}!{letters(column)}{row} {text}")

    def is_group(self):
        """Whether the sheet is one of a group. Another one is left out, unless its name is that of a group."""
        is_headed, is_named = self.value(1, 1) == "HEADING", GROUP.fullmatch(self.name) is not None
        if is_headed and not is_named:
            self.reasons.append(f"the sheet {self.name} begins with HEADING, and its name is no group's: one to four "
                                "capital letters or digits")
        elif is_named and not is_headed:
            self.says(1, 1, "is not HEADING, which the first cell of a group's sheet is")
        elif not is_headed:
            self.left_out.append(f"the sheet {self.name}, which has no HEADING in its first cell")
        return is_headed and is_named

    def group(self):
        """The group: its name, headings, units, types and rows, in bytes."""
        headings = {column: self.text(1, column) for column in sorted({at for row in self.rows.values() for at in row})
                    if column > 1}
        own = [column for column, heading in headings.items() if self.is_own(column, heading)]
        beside = [heading for heading in headings.values() if is_beside(heading)]
        if beside:
            self.left_out.append(f"{listing(beside)} of {self.name}")
        units, kinds = ([self.text(row, column) for column in own] for row in (2, 3))
        self.units, self.kinds = dict(zip(own, units)), dict(zip(own, kinds))
        for row, descriptor in HEADERS.items():
            if self.value(row, 1) != descriptor:
                self.says(row, 1, f"is not {descriptor}")
        data = [row for row in sorted(self.rows) if row > 3 and self.is_data(row)]
        rows = [in_bytes([self.text(row, column) for column in own]) for row in data]
        names = [headings[column] for column in own]
        return (in_bytes([self.name])[0], *map(in_bytes, (names, units, kinds)), rows)

    def is_own(self, column, heading):
        """Whether a column is one of the group's own."""
        if HEADING.fullmatch(heading):
            return True
        if heading and not is_beside(heading):
            self.says(1, column, f"is no heading: {heading!r}")
        elif not heading:
            self.says(1, column, "is empty, and its column has entries")
        return False

    def is_data(self, row):
        """Whether a row is a DATA row. One without any entry is none."""
        if self.value(row, 1) != "DATA":
            self.says(row, 1, "is not DATA, and its row has entries")
            return False
        return True

    def value(self, row, column):
        cell = self.rows.get(row, {}).get(column)
        return cell.value if cell else None

    def text(self, row, column):
        """The entry of a cell; what is wrong with it is said."""
        cell = self.rows.get(row, {}).get(column)
        if cell is None:
            return ""
        try:
            text = entry_of(cell, self.kinds.get(column, ""), self.units.get(column, ""))
        except (Wrong, numbers.Loses) as wrong:
            self.says(row, column, str(wrong))
            return ""
        bad = next((character for character in text if character in "\r\n" or not character.isascii()), None)
        if bad is not None:
            what = "a line end (Rule 6)" if bad in "\r\n" else f"{bad!r}, which is not ASCII (Rule 1)"
            self.says(row, column, f"has {what}")
        return text


def entry_of(cell, kind, unit):
    """The entry of a cell under its type and unit."""
    if cell.kind == "text":
        return cell.value
    if cell.kind == "number":
        if "%" in cells.PLAIN.sub("", cell.form):
            raise Wrong(f"is {cell.value:.15g}, and is shown as a percentage: write the number that is meant, "
                        "without %")
        return numbers.text_of(cell.value, kind, cell.form)
    if cell.kind == "time":
        return time_text(cell.value, kind, unit)
    if cell.kind == "formula":
        raise Wrong("has a formula: paste its value")
    raise Wrong(f"has the error {cell.value}" if cell.kind == "error" else
                "is TRUE or FALSE, and no text: write it as text")


def listing(names):
    """Names of columns: all, or the first few and how many more."""
    more = len(names) - FEW
    return f"{', '.join(names[:FEW])} and {more} more columns" if more > 1 else ", ".join(names)


def in_bytes(texts):
    """Texts as bytes. One that is not ASCII has been refused, and is no part of what is written."""
    return [text.encode("ascii", "replace") for text in texts]


def time_text(moment, kind, unit):
    """A day or time of a cell under the unit of its column."""
    forms = CLOCKS if moment.date() in FIRST else DAYS
    form = forms.get(unit) if kind in ("DT", "T") else None
    if form is None:
        raise Wrong(f"is the day or time {moment}, and its column has not the type and unit of one: write it as text")
    text = moment.strftime(form)
    again = datetime.datetime.strptime(text, form)
    if (again.time() if forms is CLOCKS else again) != (moment.time() if forms is CLOCKS else moment):
        raise Wrong(f"is {moment}, of which the unit {unit} says only {text}")
    return text
