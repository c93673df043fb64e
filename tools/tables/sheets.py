"""A workbook (XLSX, ISO/IEC 29500) of tables: a sheet a group, with its headings, units and types in the first three
rows, and DATA rows below. The first column has the descriptors.

    book_of(tables)    # the bytes of an XLSX file; the same tables give the same bytes"""
import io
import re
import zipfile
from xml.sax.saxutils import escape, quoteattr

from . import numbers
from .layout import Refused

# What a sheet holds at most.
ROWS, COLUMNS, CHARACTERS = 1_048_576, 16_384, 32_767
WIDEST = 40
# Characters that XML lacks are `_x0001_` in a workbook, and a text that looks so has its low line written so.
ESCAPED = re.compile("[\x00-\x08\x0b-\x1f\ufffe\uffff]|_(?=x[0-9A-Fa-f]{4}_)")
MAIN = "http://schemas.openxmlformats.org/spreadsheetml/2006/main"
LINKS = "http://schemas.openxmlformats.org/officeDocument/2006/relationships"
PACKAGE = "http://schemas.openxmlformats.org/package/2006"
KIND = "application/vnd.openxmlformats-officedocument.spreadsheetml"
# The styles of cells: any, a heading, text. Those of numbers come after them.
GENERAL, BOLD, TEXT = range(3)


def book_of(tables):
    """An XLSX file of tables."""
    reasons = [reason for table in tables for reason in beyond(table)]
    if reasons:
        raise Refused(*reasons)
    forms, out = Forms(), io.BytesIO()
    paths = [f"worksheets/sheet{at}.xml" for at in range(1, len(tables) + 1)]
    with zipfile.ZipFile(out, "w") as archive:
        for path, table in zip(paths, tables):
            add(archive, f"xl/{path}", sheet_of(table, forms))
        add(archive, "xl/styles.xml", forms.styles())
        add(archive, "xl/workbook.xml", list_of(tables))
        links = [(path, "worksheet") for path in paths] + [("styles.xml", "styles")]
        add(archive, "xl/_rels/workbook.xml.rels", links_of(links))
        add(archive, "_rels/.rels", links_of([("xl/workbook.xml", "officeDocument")]))
        add(archive, "[Content_Types].xml", kinds_of(paths))
    return out.getvalue()


def beyond(table):
    """What of a table a sheet cannot hold."""
    if len(table.rows) + 3 > ROWS or len(table.columns) + 1 > COLUMNS:
        yield f"{table.name} has more rows or columns than a sheet: {ROWS:,} and {COLUMNS:,}"
    for at, row in enumerate(table.rows, 1):
        for column, entry in zip(table.columns, row):
            if len(entry) > CHARACTERS // 7 and len(escaped(entry)) > CHARACTERS:
                yield (f"{column.name} of DATA row {at} of {table.name} has {len(entry):,} characters, and a cell at "
                       f"most {CHARACTERS:,}")


def escaped(entry):
    return ESCAPED.sub(lambda found: f"_x{ord(found[0]):04X}_", entry)


def add(archive, path, text):
    """Adds a part, with one day for all: the first that an archive has."""
    part = zipfile.ZipInfo(path, (1980, 1, 1, 0, 0, 0))
    part.compress_type = zipfile.ZIP_DEFLATED
    archive.writestr(part, '<?xml version="1.0" encoding="UTF-8" standalone="yes"?>\n' + text)


class Forms:
    """The styles of a workbook's cells, one for each form of numbers."""

    def __init__(self):
        self.numbers = {}

    def style(self, form):
        return self.numbers.setdefault(form, TEXT + 1 + len(self.numbers))

    def styles(self):
        """The part of the styles. Forms of one's own have numbers from 164 on, and the form of text has 49."""
        own = [(164 + at, form) for at, form in enumerate(self.numbers)]
        styles = [(0, 0), (49, 1), (49, 0)] + [(number, 0) for number, _ in own]
        forms = "".join(f'<numFmt numFmtId="{number}" formatCode={quoteattr(form)}/>' for number, form in own)
        font = '<sz val="11"/><name val="Calibri"/>'
        border = "<left/><right/><top/><bottom/><diagonal/>"
        return (f'<styleSheet xmlns="{MAIN}">' + (f'<numFmts count="{len(own)}">{forms}</numFmts>' if own else "")
                + f'<fonts count="2"><font>{font}</font><font><b/>{font}</font></fonts>'
                + '<fills count="2"><fill><patternFill patternType="none"/></fill>'
                + '<fill><patternFill patternType="gray125"/></fill></fills>'
                + f'<borders count="1"><border>{border}</border></borders>'
                + '<cellStyleXfs count="1"><xf numFmtId="0" fontId="0" fillId="0" borderId="0"/></cellStyleXfs>'
                + f'<cellXfs count="{len(styles)}">'
                + "".join(f'<xf numFmtId="{number}" fontId="{font}" fillId="0" borderId="0" xfId="0" '
                          'applyNumberFormat="1" applyFont="1"/>' for number, font in styles)
                + '</cellXfs><cellStyles count="1"><cellStyle name="Normal" xfId="0" builtinId="0"/></cellStyles>'
                + "</styleSheet>")


def letters(column):
    """The letters of a column, from 1: A to Z, AA and so on."""
    out = ""
    while column:
        column, rest = divmod(column - 1, 26)
        out = chr(65 + rest) + out
    return out


def sheet_of(table, forms):
    """The part of a sheet. The first three rows and the first column stay in view."""
    names = [letters(at) for at in range(1, len(table.columns) + 2)]
    kinds = [column.kind for column in table.columns]
    lines = []
    for at, descriptor in enumerate(("HEADING", "UNIT", "TYPE"), 1):
        texts = [descriptor, *(column[at - 1] for column in table.columns)]
        cells = [text_cell(f"{name}{at}", text, BOLD if at == 1 else TEXT) for name, text in zip(names, texts)]
        lines.append(f'<row r="{at}">{"".join(cells)}</row>')
    for at, row in enumerate(table.rows, 4):
        cells = [cell(f"{name}{at}", kind, entry, forms) for name, kind, entry in zip(names[1:], kinds, row)]
        lines.append(f'<row r="{at}">{text_cell(f"A{at}", "DATA", TEXT)}{"".join(cells)}</row>')
    return (f'<worksheet xmlns="{MAIN}"><sheetViews><sheetView workbookViewId="0"><pane xSplit="1" ySplit="3" '
            'topLeftCell="B4" activePane="bottomRight" state="frozen"/></sheetView></sheetViews>'
            f'<cols>{"".join(widths(table, forms))}</cols><sheetData>{"".join(lines)}</sheetData>'
            f'<ignoredErrors><ignoredError sqref="A1:{names[-1]}{ROWS}" numberStoredAsText="1"/></ignoredErrors>'
            "</worksheet>")


def widths(table, forms):
    """For each column its width, and the style of cells that are filled in later: text, or the form of its numbers."""
    yield f'<col min="1" max="1" width="10" customWidth="1" style="{TEXT}"/>'
    for at, column in enumerate(table.columns):
        longest = max([len(column.name), len(column.unit)] + [len(row[at]) for row in table.rows])
        form = numbers.form_of_type(column.kind)
        style = TEXT if form is None else forms.style(form) if form else GENERAL
        yield (f'<col min="{at + 2}" max="{at + 2}" width="{min(longest, WIDEST) + 2}" customWidth="1" '
               f'style="{style}"/>')


def text_cell(place, text, style):
    """A cell that a spreadsheet takes for text, whatever is in it, a formula or a day too; nothing for null."""
    if not text:
        return ""
    return (f'<c r="{place}" s="{style}" t="inlineStr"><is><t xml:space="preserve">{escape(escaped(text))}</t></is>'
            "</c>")


def cell(place, kind, entry, forms):
    """The cell of an entry: a number where its type is one and it can be read back the same, else text."""
    found = numbers.cell_of(kind, entry) if entry else None
    if found is None:
        return text_cell(place, entry, TEXT)
    return f'<c r="{place}" s="{forms.style(found[1])}"><v>{found[0]!r}</v></c>'


def list_of(tables):
    """The part that lists the sheets."""
    sheets = [f'<sheet name={quoteattr(table.name)} sheetId="{at}" r:id="rId{at}"/>'
              for at, table in enumerate(tables, 1)]
    return f'<workbook xmlns="{MAIN}" xmlns:r="{LINKS}"><sheets>{"".join(sheets)}</sheets></workbook>'


def links_of(links):
    """A part that names others, by path and kind."""
    each = [f'<Relationship Id="rId{at}" Type="{LINKS}/{kind}" Target="{path}"/>'
            for at, (path, kind) in enumerate(links, 1)]
    return f'<Relationships xmlns="{PACKAGE}/relationships">{"".join(each)}</Relationships>'


def kinds_of(paths):
    """The part that says what each part is."""
    parts = [(f"/xl/{path}", "worksheet") for path in paths] + [("/xl/workbook.xml", "sheet.main"),
                                                                ("/xl/styles.xml", "styles")]
    each = [f'<Override PartName="{path}" ContentType="{KIND}.{kind}+xml"/>' for path, kind in parts]
    links = "application/vnd.openxmlformats-package.relationships+xml"
    return (f'<Types xmlns="{PACKAGE}/content-types"><Default Extension="rels" ContentType="{links}"/>'
            f'<Default Extension="xml" ContentType="application/xml"/>{"".join(each)}</Types>')
