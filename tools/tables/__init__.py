"""AGS4 files as tables for spreadsheets, databases and maps, and workbooks as AGS4 files.

    csv_files(data)                          # {"headings.csv": .., "LOCA.csv": ..}, a CSV a group
    workbook(data, Chosen(groups=(b"LOCA",), names=True))    # an XLSX file, a sheet a group
    ags_of(book).data                        # the AGS4 file of such a workbook
    geojson(data)                            # the rows of LOCA on a map

Bytes in, bytes out. Nothing prints, and nothing reads or writes a file. What cannot be done is Refused, with
reasons."""
from .book import Written, ags_of  # noqa: F401
from .layout import Chosen, Refused, Table, tables_of  # noqa: F401
from .places import geojson  # noqa: F401
from .sheets import book_of  # noqa: F401
from .texts import csv_of  # noqa: F401


def csv_files(data, chosen=Chosen()):
    """The CSV files of an AGS4 file, by their names."""
    return csv_of(tables_of(data, chosen))


def workbook(data, chosen=Chosen()):
    """The workbook of an AGS4 file."""
    return book_of(tables_of(data, chosen))
