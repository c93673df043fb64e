"""The table of fixes: one entry a fix, in the order in which they are tried. Each loses nothing: what it changes is
named, and every other entry of the file reads back as before."""
from typing import Callable, NamedTuple

from . import of_entries, of_groups, of_headings, of_lines


class Fix(NamedTuple):
    """A fix: its name, its phase, the codes of the rules whose findings it takes away, what it changes, and the
    function that gives its edits."""
    name: str
    phase: int
    codes: tuple
    about: str
    edits: Callable


class WholeFix(NamedTuple):
    """A fix of the bytes as a whole, before their lines can be read."""
    name: str
    codes: tuple
    about: str
    bytes_of: Callable


WHOLE = (
    WholeFix("recoded", ("1",), "two bytes a character (UTF-16) are written as one", of_lines.recoded),
    WholeFix("with feeds", ("6",), "lines that end with CR alone end with CR LF", of_lines.with_feeds))

FIXES = (
    Fix("marks", 1, ("1", "5"), "a mark EF BB BF within the file is taken out", of_lines.marks),
    Fix("over lines", 1, ("5", "2a", "6"),
        "a field that goes on in the next line is written on one, with a space for the "
        "line end", of_lines.over_lines),
    Fix("returns", 1, ("6",), "a CR within a line is a space, one before the line end is taken out", of_lines.returns),
    Fix("line ends", 1, ("2a",), "lines end with CR LF", of_lines.line_ends),
    Fix("characters", 1, ("1",), "characters beyond ASCII have their usual spelling", of_lines.characters),
    Fix("fields", 1, ("5",), "fields are in quotes, with one comma between two", of_lines.fields),
    Fix("descriptors", 1, ("3",), "rows begin with their descriptor", of_lines.descriptors),
    Fix("header again", 2, ("2b",), "header rows that are in a group twice are there once", of_groups.header_again),
    Fix("header order", 2, ("2b",), "header rows are in their order", of_groups.header_order),
    Fix("header row", 2, ("2b",), "a UNIT or TYPE row is added, as the dictionary has it", of_groups.header_row),
    Fix("group row", 2, ("2b",), "a GROUP row is added above its headings", of_groups.group_row),
    Fix("padding of rows", 2, ("4",), "nulls beyond the name of a group are taken out", of_groups.padding),
    Fix("padding", 3, ("4",), "nulls beyond the last heading are taken out", of_groups.padding),
    Fix("empty headings", 3, ("19a", "P2"), "headings without a name and without an entry are taken out",
        of_groups.empty_headings),
    Fix("group names", 3, ("19",), "the name of a group is in capitals", of_groups.group_names),
    Fix("heading names", 3, ("19a",), "names of headings are in capitals", of_groups.heading_names),
    Fix("heading twice", 3, ("P2",), "a heading that is in a group twice, with the same entries, is there once",
        of_groups.heading_twice),
    Fix("group twice", 3, ("P1",), "rows of a group that is in the file twice are under one header",
        of_groups.group_twice),
    Fix("without data", 3, ("2",), "a group without DATA rows is taken out", of_groups.without_data),
    Fix("own headings", 4, ("9", "18"), "the file's own headings are defined in its DICT, and come after the others",
        of_headings.own_headings),
    Fix("order", 4, ("7",), "headings are in the order of the dictionary, with their items", of_headings.order),
    Fix("rows of the file", 4, ("13", "14"), "rows that are in PROJ or TRAN twice are there once",
        of_headings.same_rows),
    Fix("lists", 4, ("15", "17"), "the group UNIT or TYPE is added, with what the file uses",
        of_headings.lists_of_file),
    Fix("null rows", 5, ("10a", "10b", "10c"), "DATA rows without any entry are taken out", of_entries.null_rows),
    Fix("rows twice", 5, ("10a",), "rows that are in a group twice, byte for byte, are there once",
        of_entries.same_rows),
    Fix("spaces", 5, ("15", "16", "17", "20", "10c"), "spaces at the ends of entries are taken out", of_entries.spaces),
    Fix("spellings", 5, ("15", "17"), "units and types are spelled as the file lists them", of_entries.spellings),
    Fix("types listed", 5, ("17",), "types that are used are listed", of_entries.types_to_list),
    Fix("units listed", 5, ("15",), "units that are used are listed", of_entries.units_to_list),
    Fix("abbreviations listed", 5, ("16",), "abbreviations that are used are listed", of_entries.abbreviations_to_list),
    Fix("types", 5, ("8",), "a heading has the decimals of the dictionary's type", of_entries.types),
    Fix("forms", 5, ("8",), "entries have the form of their type", of_entries.forms_of_entries),
    Fix("decimal commas", 5, ("8",), "decimal commas are points", of_entries.decimal_commas))
