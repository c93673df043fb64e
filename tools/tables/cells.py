"""What the sheets of a workbook have in their cells (XLSX, ISO/IEC 29500), as any program may have written it.

    for name, rows in sheets(book):      # rows: {row from 1: {column from 1: Cell}}; a chart has None
        rows[1][1].kind, rows[1][1].value"""
import datetime
import io
import posixpath
import re
import xml.etree.ElementTree as tree
import zipfile
import zlib
from typing import NamedTuple, Union

# What the parts of a workbook may come to, unpacked.
LIMIT = 1 << 28
PLACE = re.compile("([A-Z]{1,3})([0-9]+)")
FORMS = {1: "0", 2: "0.00", 9: "0%", 10: "0.00%", 11: "0.00E+00"}
TIMES = {*range(14, 23), *range(27, 37), *range(45, 48), *range(50, 59)}
# Of a form what is no sign of a day or time: texts, single characters, colours and conditions.
PLAIN = re.compile(r'"[^"]*"|\\.|_.|\*.|\[(?![hms]+\])[^\]]*\]|General')
ESCAPE = re.compile("_x([0-9A-Fa-f]{4})_")
# What reading a part of another form raises.
FAULTS = (LookupError, ValueError, TypeError, AttributeError, StopIteration, OverflowError, RuntimeError,
          tree.ParseError, zlib.error)


class NoWorkbook(Exception):
    """What is wrong with the bytes."""


class Cell(NamedTuple):
    """What a cell has: its kind (text, number, time, formula, error or truth), value, and the form of its number."""
    kind: str
    value: Union[str, float, datetime.datetime]
    form: str = ""


def local(element):
    return element.tag.rpartition("}")[2]


def sheets(book):
    """The sheets in their order, each with its name and rows."""
    try:
        with zipfile.ZipFile(io.BytesIO(book)) as archive:
            if sum(part.file_size for part in archive.infolist()) > LIMIT:
                raise NoWorkbook(f"its parts come to more than {LIMIT:,} bytes")
            return list(Book(archive).sheets())
    except (zipfile.BadZipFile, zipfile.LargeZipFile, EOFError, NotImplementedError):
        raise NoWorkbook("it is no workbook (XLSX)") from None
    except FAULTS as fault:
        raise NoWorkbook(f"a part of it cannot be read: {fault}") from None


class Book:
    """The parts of a workbook."""

    def __init__(self, archive):
        self.archive = archive
        self.main = next(path for _, kind, path in self.links("") if kind == "officeDocument")
        self.parts = {name: (kind, path) for name, kind, path in self.links(self.main)}
        by_kind = {kind: path for kind, path in self.parts.values()}
        self.texts = self.shared(by_kind["sharedStrings"]) if "sharedStrings" in by_kind else []
        self.forms = self.forms_of(by_kind["styles"]) if "styles" in by_kind else []
        self.first_day = datetime.datetime(1899, 12, 30)

    def root(self, path):
        return tree.fromstring(self.archive.read(path))

    def links(self, path):
        """The parts that a part names, each with its name there, its kind and its path."""
        folder, name = posixpath.split(path)
        for link in self.root(posixpath.join(folder, "_rels", f"{name}.rels")):
            if link.get("TargetMode") != "External":
                target = posixpath.normpath(posixpath.join("/", folder, link.get("Target")))
                yield link.get("Id"), link.get("Type").rpartition("/")[2], target.lstrip("/")

    def shared(self, path):
        """The texts that cells share."""
        return [text_in(each) for each in self.root(path)]

    def forms_of(self, path):
        """The form of numbers of each style of cells, and whether it is one of days or times."""
        own, out = {}, []
        for part in self.root(path):
            if local(part) == "numFmts":
                own = {int(each.get("numFmtId")): each.get("formatCode") for each in part}
            if local(part) == "cellXfs":
                out = [int(each.get("numFmtId", "0")) for each in part]
        return [(own.get(number, FORMS.get(number, "")), is_time(number, own.get(number, ""))) for number in out]

    def sheets(self):
        root, listed = self.root(self.main), []
        for part in root:
            if local(part) == "workbookPr" and part.get("date1904") in ("1", "true"):
                self.first_day = datetime.datetime(1904, 1, 1)
            if local(part) == "sheets":
                listed = list(part)
        for each in listed:
            name = next(value for key, value in each.items() if key.endswith("}id"))
            kind, path = self.parts[name]
            yield each.attrib["name"], self.rows(path) if kind == "worksheet" else None

    def rows(self, path):
        """The cells of a sheet that have something in them, by row and column."""
        rows, at = {}, 0
        with self.archive.open(path) as file:
            for _, element in tree.iterparse(file):
                if element.tag.endswith("}row"):
                    at = int(element.get("r", at + 1))
                    cells = self.cells(element)
                    if cells:
                        rows[at] = cells
                    element.clear()
        return rows

    def cells(self, row):
        cells, column = {}, 0
        for element in row:
            match = PLACE.fullmatch(element.get("r", ""))
            column = number_of(match[1]) if match else column + 1
            cell = self.cell(element)
            if cell is not None:
                cells[column] = cell
        return cells

    def cell(self, element):
        """What a cell has, or None."""
        kind, value = element.get("t", "n"), None
        for part in element:
            name = local(part)
            if name == "f":
                return Cell("formula", part.text or "")
            if name == "v":
                value = part.text
            elif name == "is":
                value = text_in(part)
        if not value:
            return None
        if kind in ("s", "inlineStr", "str"):
            text = self.texts[int(value)] if kind == "s" else value
            return Cell("text", ESCAPE.sub(lambda found: chr(int(found[1], 16)), text)) if text else None
        if kind in ("b", "e"):
            return Cell("truth" if kind == "b" else "error", value)
        return self.number(kind, value, int(element.get("s", "0")))

    def number(self, kind, value, style):
        form, is_time_form = self.forms[style] if style < len(self.forms) else ("", False)
        if kind == "d":
            return Cell("time", datetime.datetime.fromisoformat(value.removesuffix("Z")))
        number = float(value)
        if number != number or abs(number) == float("inf"):
            raise ValueError(f"{value} is no number")
        if not is_time_form:
            return Cell("number", number, form)
        moment = self.first_day + datetime.timedelta(days=number)
        return Cell("time", (moment + datetime.timedelta(microseconds=500)).replace(microsecond=0))


def text_in(element):
    """The text of a cell: one piece, or several with fonts of their own, without what says how it is spoken."""
    if local(element) == "t":
        return element.text or ""
    return "".join(text_in(part) for part in element if local(part) in ("t", "r"))


def is_time(number, form):
    return number in TIMES or bool(re.search("[dmyhs]", PLAIN.sub("", form), re.I))


def number_of(letters):
    """The number of a column, from 1."""
    number = 0
    for letter in letters:
        number = number * 26 + ord(letter) - 64
    return number
