"""The command bin/tables: an AGS4 file as tables, and a workbook as an AGS4 file."""
import argparse
import errno
import gc
import os
import sys

from . import Chosen, Refused, ags_of, book_of, csv_of, geojson, tables_of

USAGE = """bin/tables FILE.ags -o FOLDER [options]       a CSV a group
       bin/tables FILE.ags -o BOOK.xlsx [options]    a workbook with a sheet a group
       bin/tables BOOK.xlsx -o FILE.ags              back"""
ABOUT = "Writes an AGS4 file as tables, or a workbook as an AGS4 file. What is there already is never written over."


def arguments(given):
    parser = argparse.ArgumentParser(prog="tables", usage=USAGE, description=ABOUT)
    parser.add_argument("file", metavar="FILE")
    parser.add_argument("-o", dest="out", metavar="OUT", required=True, help="a folder, BOOK.xlsx or FILE.ags")
    parser.add_argument("--groups", metavar="G,G", default="", help="these groups alone")
    parser.add_argument("--names", action="store_true", help="the names of codes (ABBR_DESC) beside them")
    parser.add_argument("--parents", action="store_true", help="the entries of parent rows (LOCA, SAMP) beside rows")
    parser.add_argument("--dictionary", metavar="D", help="the dictionary for --parents, if not the built-in one")
    parser.add_argument("--geojson", action="store_true", help="the places of LOCA too: LOCA.geojson or BOOK.geojson")
    asked = parser.parse_args(given)
    if is_workbook(asked.file) and is_workbook(asked.out):
        parser.error("FILE and OUT are both a workbook")
    if not is_workbook(asked.file) and asked.out.lower().endswith((".ags", ".csv", ".xls", ".ods")):
        parser.error("OUT of an AGS4 file is a folder, or a workbook (BOOK.xlsx)")
    if is_workbook(asked.file) and (asked.groups or asked.names or asked.parents or asked.geojson):
        parser.error("the way back takes no other option")
    return asked


def is_workbook(path):
    return path.lower().endswith(".xlsx")


def bytes_of(path):
    with open(path, "rb") as file:
        return file.read()


def is_folder(asked):
    return not is_workbook(asked.file) and not is_workbook(asked.out)


def write(asked, files):
    """Writes new files, in a folder that is new or empty."""
    if is_folder(asked):
        os.makedirs(asked.out, exist_ok=True)
        if os.listdir(asked.out):
            raise FileExistsError(errno.EEXIST, "it is a folder that is not empty", asked.out)
    there = next((path for path in files if os.path.lexists(path)), None)
    if there is not None:
        raise FileExistsError(errno.EEXIST, "it is there already", there)
    for path, data in files.items():
        with open(path, "xb") as file:
            file.write(data)


def counted(path, groups, rows):
    return f"{path}: {groups} group{'s' * (groups != 1)}, {rows:,} DATA row{'s' * (rows != 1)}"


def outputs(asked):
    """The files to write, by path, and the lines to print."""
    data = bytes_of(asked.file)
    if is_workbook(asked.file):
        written = ags_of(data)
        said = [f"left out: {each}" for each in written.left_out]
        return {asked.out: written.data}, [*said, counted(asked.out, written.groups, written.rows)]
    groups = tuple(name.encode() for name in asked.groups.split(",") if name)
    dictionary = bytes_of(asked.dictionary) if asked.dictionary else None
    tables = tables_of(data, Chosen(groups, asked.names, asked.parents, dictionary))
    if is_workbook(asked.out):
        files, place = {asked.out: book_of(tables)}, os.path.splitext(asked.out)[0] + ".geojson"
    else:
        files = {os.path.join(asked.out, name): text for name, text in csv_of(tables).items()}
        place = os.path.join(asked.out, "LOCA.geojson")
    if asked.geojson:
        files[place] = geojson(data)
    return files, [counted(asked.out, len(tables), sum(len(table.rows) for table in tables))]


def main(given):
    """0, or 2 where an argument, the dictionary or a file is refused."""
    asked = arguments(given)
    gc.disable()
    try:
        files, said = outputs(asked)
        write(asked, files)
        print("\n".join(said), flush=True)
    except BrokenPipeError:
        os.dup2(os.open(os.devnull, os.O_WRONLY), sys.stdout.fileno())
    except Refused as refused:
        print("\n".join(f"tables: {asked.file}: {reason}" for reason in refused.reasons), file=sys.stderr)
        return 2
    except FileExistsError as fault:
        print(f"tables: {fault.filename} is not written over: {fault.strerror}", file=sys.stderr)
        return 2
    except OSError as fault:
        print(f"tables: cannot read or write {fault.filename or asked.out}: {fault.strerror}", file=sys.stderr)
        return 2
    return 0
