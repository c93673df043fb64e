#!/usr/bin/env python3
"""Broken AGS4 files as firms make them, and what bin/explain must name in each.

usage: make.py          writes dictionary.ags, sound.ags, NAME.ags for each mistake, and expected.tsv
The dictionary is this project's own (groups.py). A row of expected.tsv has a file, how many findings
conformance/reference.py has in it, of how many causes, one finding (code, line, subject), and the words that the
explanation of its cause must have, `;` between two. All but the number of a line was written by hand; the line is
that of the row that was changed."""
import csv
import io
import os
import sys

sys.dont_write_bytecode = True
here = os.path.dirname(os.path.abspath(__file__))
sys.path.insert(0, here)
import groups  # noqa: E402


def row(descriptor, *items):
    return ",".join('"%s"' % item.replace('"', '""') for item in (descriptor, *items))


def group(name, headings, *data, units=None, types=None):
    """The lines of a group, with the types and units of the dictionary."""
    of = {one: (kind, unit) for other, _, given in groups.headings() if other == name for one, _, kind, unit in given}
    types = types or [of[heading][0] for heading in headings]
    units = units or [of[heading][1] for heading in headings]
    return [row("GROUP", name), row("HEADING", *headings), row("UNIT", *units),
            row("TYPE", *types)] + [row("DATA", *one) for one in data]


def dictionary():
    """The text of the dictionary, which says whose it is."""
    rows = []
    for name, parent, given in groups.headings():
        rows.append(["GROUP", name, "", "", "", "", parent])
        rows += [["HEADING", name, heading, status, kind, unit, ""] for heading, status, kind, unit in given]
    told = [["P0", "Dizkaulo's own dictionary for conformance/mistakes; it is not the published dictionary of AGS4"]]
    parts = [group("PROJ", ["PROJ_ID", "PROJ_NAME"], *told),
             group("TRAN", ["TRAN_ISNO", "TRAN_AGS"], ["1", "4.1 (Dizkaulo's own)"]),
             group("DICT", ["DICT_TYPE", "DICT_GRP", "DICT_HDNG", "DICT_STAT", "DICT_DTYP", "DICT_UNIT", "DICT_PGRP"],
                   *rows)]
    return text(parts)


def text(parts, end="\r\n"):
    return end.join(end.join(part) + end for part in parts).encode("latin-1")


ABBREVIATIONS = [("LOCA_TYPE", "CP"), ("LOCA_TYPE", "RC"), ("LOCA_TYPE", "TP"), ("LOCA_STAT", "FINAL"),
                 ("LOCA_STAT", "PRELIM"), ("SAMP_TYPE", "U"),
                 ("SAMP_TYPE", "B"), ("MOND_TYPE", "WLEV"), ("GEOL_LEG", "101"), ("GEOL_LEG", "201")]
SOUND = [
    group("PROJ", ["PROJ_ID", "PROJ_NAME"], ["P7", "North bank"]),
    group("TRAN", ["TRAN_ISNO", "TRAN_DATE", "TRAN_AGS", "TRAN_DLIM", "TRAN_RCON"],
          ["1", "2024-05-31", "4.1", "|", "+"]),
    group("ABBR", ["ABBR_HDNG", "ABBR_CODE"], *ABBREVIATIONS),
    group("UNIT", ["UNIT_UNIT"], ["m"], ["mm"], ["%"], ["kPa"], ["MPa"], ["yyyy-mm-dd"], ["yyyy-mm-ddThh:mm"]),
    group("TYPE", ["TYPE_TYPE"], *[[one] for one in "ID X PA PU RL DT YN MC 0DP 1DP 2DP 3DP 4DP".split()]),
    group("LOCA", ["LOCA_ID", "LOCA_TYPE", "LOCA_STAT", "LOCA_NATE", "LOCA_GL", "LOCA_STAR", "LOCA_REM"],
          ["BH101", "CP+RC", "FINAL", "523145.00", "12.40", "2024-05-02", "North of the road"],
          ["BH102", "CP", "FINAL", "523160.50", "12.15", "2024-05-06", ""],
          ["TP103", "TP", "PRELIM", "523171.25", "11.90", "2024-05-07", "Beside a \"soft\" verge"]),
    group("MONG", ["LOCA_ID", "MONG_ID", "MONG_TRZ"], ["BH101", "P1", "3.00"]),
    group("MOND", ["LOCA_ID", "MONG_ID", "MOND_DTIM", "MOND_TYPE", "MOND_RDNG", "MOND_UNIT"],
          ["BH101", "P1", "2024-05-20T09:30", "WLEV", "2.45", "m"],
          ["BH101", "P1", "2024-05-27T10:00", "WLEV", "2.61", "m"]),
    group("WSTG", ["LOCA_ID", "WSTG_DPTH", "WSTG_FLOW"], ["BH101", "2.80", "Y"]),
    group("GEOL", ["LOCA_ID", "GEOL_TOP", "GEOL_BASE", "GEOL_DESC", "GEOL_LEG"],
          ["BH101", "0.00", "0.60", "Made ground", "101"],
          ["BH101", "0.60", "5.20", "Firm brown CLAY", "201"], ["BH102", "0.00", "4.80", "Stiff grey CLAY", "201"],
          ["TP103", "0.00", "1.90", "Soft CLAY", "201"]),
    group("ISPT", ["LOCA_ID", "ISPT_TOP", "ISPT_NVAL"], ["BH101", "1.50", "12"], ["BH101", "3.00", "18"],
          ["BH102", "1.50", "1250"]),
    group("SCPG", ["LOCA_ID", "SCPG_TESN"], ["BH102", "1"]),
    group("SCPT", ["LOCA_ID", "SCPG_TESN", "SCPT_DPTH", "SCPT_RES", "SCPT_FRES"],
          ["BH102", "1", "0.02", "1.250", "0.0125"], ["BH102", "1", "0.04", "1.375", "0.0140"]),
    group("SAMP", ["LOCA_ID", "SAMP_TOP", "SAMP_REF", "SAMP_TYPE", "SAMP_DTIM", "SAMP_LINK"],
          ["BH101", "1.50", "S9", "U", "2024-05-02", ""],
          ["BH101", "3.00", "S10", "B", "2024-05-02", "SAMP|BH101|1.50|S9"],
          ["BH102", "2.20", "S1", "U", "2024-05-06", "GEOL|BH102|0.00|4.80+LOCA|BH102"],
          ["TP103", "1.00", "S1", "B", "2024-05-07", ""]),
    group("LNMC", ["LOCA_ID", "SAMP_TOP", "SAMP_REF", "SPEC_DPTH", "LNMC_MC", "LNMC_ISNT"],
          ["BH101", "1.50", "S9", "1.60", "23", "N"],
          ["BH101", "3.00", "S10", "3.10", "25", "N"], ["BH102", "2.20", "S1", "2.30", "21", "Y"]),
    group("LDEN", ["LOCA_ID", "SAMP_TOP", "SAMP_REF", "SPEC_DPTH", "LDEN_BDEN"],
          ["BH101", "1.50", "S9", "1.60", "1.95"], units=["", "m", "", "m", ""])]
TEXT = text(SOUND).decode("latin-1")


def line_of(content, within=None):
    """The number of the first line that has this content, or begins with it."""
    lines = (within or TEXT).split("\r\n")
    return next(number for number, line in enumerate(lines, 1) if line.startswith(content))


def put(old, new, times=1):
    """The sound file with one text in place of another, which it has so many times, or at least once where `times` is
    0."""
    assert TEXT.count(old) == times or times == 0 and old in TEXT, (old, TEXT.count(old))
    return TEXT.replace(old, new).encode("latin-1")


def without(name):
    """The sound file without a group."""
    return text([part for part in SOUND if part[0] != row("GROUP", name)])


def with_part(name, part):
    """The sound file with other lines for a group."""
    return text([part if one[0] == row("GROUP", name) else one for one in SOUND])


def as_csv(sign):
    """The sound file as a spreadsheet saves it: quotes where a field needs them alone, and no null at a row's end."""
    out = io.StringIO()
    writer = csv.writer(out, delimiter=sign, lineterminator="\r\n")
    for fields in csv.reader(TEXT.splitlines()):
        writer.writerow(fields)
    return out.getvalue().encode("latin-1")


BH101, TP103 = line_of('"DATA","BH101","CP+RC"'), line_of('"DATA","TP103","TP"')
LOCA, GEOL, SAMP, LNMC = (line_of(row("GROUP", name)) for name in ("LOCA", "GEOL", "SAMP", "LNMC"))
COUNT = TEXT.count("\r\n")
DICT = ["DICT_TYPE", "DICT_GRP", "DICT_HDNG", "DICT_STAT", "DICT_PGRP"]
AGS3 = ['"**PROJ"', '"*PROJ_ID","*PROJ_NAME"', '"<UNITS>",""', '"P7","North bank"', "", '"**HOLE"',
        '"*HOLE_ID","*HOLE_TYPE"', '"BH101","CP"', ""]


def cases():
    """name, bytes, findings, causes, (code, line, subject), words."""
    yield from of_lines()
    yield from of_quotes()
    yield from of_order()
    yield from of_groups()
    yield from of_headings()
    yield from of_lists()
    yield from of_forms()
    yield from of_keys()
    yield from of_links()


def of_lines():
    yield ("line_ends_of_unix", TEXT.replace("\r\n", "\n").encode(),
           COUNT, 1, ("2a", 1, "-"),
           f"All {COUNT} lines end with LF alone;Notepad++")
    yield ("line_ends_of_unix_in_one_group", TEXT.replace("\r\n", "\n", 5).encode(),
           5, 1, ("2a", 5, "-"),
           f"LF alone ends 5 of {COUNT} lines;Notepad++")
    yield ("line_ends_of_old_macintosh", TEXT.replace("\r\n", "\r").encode(),
           1, 1, ("6", 1, "-"),
           "CR alone;the whole file is one line")
    yield ("line_ends_converted_twice", TEXT.replace("\r\n", "\r\r\n").encode(),
           COUNT, 1, ("6", 1, "-"),
           "one CR too many;conversion")
    degree = TEXT.replace("Soft CLAY", "Soft CLAY dipping 20\u00b0, 5 m\u00b2").encode()
    yield ("degree_sign_in_utf8", degree,
           1, 1, ("1", line_of('"DATA","TP103","0.00"'), "-"),
           "U+00B0 degree sign: write deg;U+00B2 superscript two: write 2;UTF-8;writes ? for some")
    quotes = TEXT.replace("Firm brown CLAY", "Firm \u2018brown\u2019 CLAY \u2013 sandy").encode()
    yield ("typographic_quotes_and_dash", quotes,
           1, 1, ("1", line_of('"DATA","BH101","0.60"'), "-"),
           "U+2013 en dash: write -;U+2019 right single quotation mark: write '")
    yield ("windows_1252_names", TEXT.replace("North bank", "Stra\xdfe \xb5").encode("latin-1"),
           1, 1, ("1", 5, "-"),
           "Windows-1252;write ss;U+00B5 micro sign: write u")
    yield ("no_break_spaces_from_a_web_page", TEXT.replace("Made ground", "Made\u00a0ground").encode(),
           1, 1, ("1", line_of('"DATA","BH101","0.00"'), "-"),
           "U+00A0 no-break space: write a space")
    yield ("mark_twice", b"\xef\xbb\xbf\xef\xbb\xbf" + TEXT.encode(),
           2, 1, ("1", 1, "-"),
           "U+FEFF;take it out")
    joined = TEXT.encode().replace(b'"GROUP","GEOL"', b'\xef\xbb\xbf"GROUP","GEOL"')
    yield ("mark_of_a_file_joined_on", joined,
           2, 1, ("5", GEOL, "-"),
           "U+FEFF;take it out")
    yield ("utf16_of_a_spreadsheet", b"\xff\xfe" + TEXT.encode("utf-16-le"),
           None, 1, ("1", 1, "-"),
           "UTF-16;convert it (iconv -f UTF-16;then look for ?")
    yield ("workbook_instead_of_text", b"PK\x03\x04\x14\x00\x06\x00\x08\x00\x00\x00" + bytes(range(256)) * 4,
           None, 1, ("2a", 1, "-"),
           "workbook")
    ags3 = "\r\n".join(AGS3 * 3).encode()
    yield ("ags3_file", ags3,
           21, 1, ("3", 1, "-"),
           "The file is AGS3;Export it as AGS4")


def of_quotes():
    rows = sum(bool(line) for line in TEXT.split("\r\n"))
    yield ("spreadsheet_csv_without_quotes", as_csv(","),
           rows, 1, ("5", 1, "-"),
           'fields without quotes, as a spreadsheet saves CSV;"GROUP","PROJ"')
    yield ("spreadsheet_csv_with_semicolons", as_csv(";"),
           rows, 1, ("5", 1, "-"),
           'semicolons between fields;"GROUP","PROJ"')
    yield ("spreadsheet_padding_of_short_rows", put('"GROUP","PROJ"', '"GROUP","PROJ",,,'),
           1, 1, ("5", 1, "-"),
           '3 commas at the end, as spreadsheets pad;Write line 1 as: "GROUP","PROJ"')
    empty = TEXT.split("\r\n").index("") + 1
    yield ("spreadsheet_padding_of_empty_rows", put("\r\n\r\n", "\r\n,,,,\r\n", 0),
           15, 1, ("5", empty, "-"),
           "Commas alone;Make the line empty")
    yield ("numbers_without_quotes", put('"DATA","BH101","1.50","12"', '"DATA","BH101",1.50,12'),
           1, 1, ("5", line_of('"DATA","BH101","1.50","12"'), "-"),
           '2 fields without quotes: 1.50 and 12;as: "DATA","BH101","1.50","12"')
    yield ("line_break_in_a_remark", put("North of the road", "North of\r\nthe road"),
           2, 1, ("5", BH101, "-"),
           f"A line break within a field: lines {BH101} to {BH101 + 1} are one row;North of the road")
    yield ("line_break_of_a_spreadsheet_cell", put("North of the road", "North of\nthe road"),
           3, 1, ("5", BH101 + 1, "-"),
           f"A line break within a field: lines {BH101} to {BH101 + 1} are one row;North of the road")
    yield ("inch_sign_in_a_description", put("Made ground", 'Made ground with 2" pipe'),
           1, 1, ("5", line_of('"DATA","BH101","0.00"'), "-"),
           'a quote within a field that is not doubled: made ground with 2" pipe;2"" pipe')
    yield ("quote_left_out_at_the_end", put('"North of the road"', '"North of the road'),
           1, 1, ("5", BH101, "-"),
           'a quote missing at its end;"North of the road"')
    yield ("tab_between_fields", put('"DATA","BH101","P1","3.00"', '"DATA","BH101"\t"P1"\t"3.00"'),
           1, 1, ("5", line_of('"DATA","BH101","P1","3.00"'), "-"),
           'Tabs between the fields;"DATA","BH101","P1","3.00"')
    yield ("tab_at_the_end_of_a_line", put('"DATA","BH102","1"\r\n', '"DATA","BH102","1"\t\r\n'),
           1, 1, ("5", line_of('"DATA","BH102","1"'), "-"),
           "A tab beside a field;Take the tab out")
    yield ("null_without_quotes", put('"2024-05-06",""', '"2024-05-06",'),
           1, 1, ("5", line_of('"DATA","BH102","CP"'), "-"),
           "comma at the end")
    yield ("nulls_without_quotes_within", put('"PRELIM","523171.25"', '"PRELIM",'),
           1, 1, ("5", TP103, "-"),
           'Nothing between two commas, where a null is "";"PRELIM","","11.90"')
    yield ("title_above_the_file", b"Exported by our program on 31 May\r\n" + TEXT.encode(),
           1, 1, ("5", 1, "-"),
           "text that is no row;Take the line out")
    yield ("end_sign_of_an_old_program", TEXT.encode() + b"\x1a",
           1, 1, ("5", COUNT + 1, "-"),
           "control sign, 1A;Take the sign out")
    yield ("single_quotes", put('"DATA","BH101","2.80","Y"', "'DATA','BH101','2.80','Y'"),
           1, 1, ("5", line_of('"DATA","BH101","2.80"'), "-"),
           "Single quotes;double")
    yield ("descriptor_in_other_capitals", put('"DATA","P7"', '"Data","P7"'),
           1, 1, ("3", 5, "-"),
           '"Data" is no descriptor;DATA differs in capitals')
    yield ("descriptor_with_a_trailing_space", put('"DATA","P7"', '"DATA ","P7"'),
           1, 1, ("3", 5, "-"),
           "a space at its end")
    yield ("descriptor_units",
           put('"UNIT","","m",""\r\n"TYPE","ID","2DP","YN"', '"UNITS","","m",""\r\n"TYPE","ID","2DP","YN"'),
           1, 1, ("3", line_of('"DATA","BH101","2.80"') - 2, "-"),
           '"UNITS" is no descriptor;Begin the row with "UNIT"')


def of_order():
    unit, kind = LOCA + 2, LOCA + 3
    lines = TEXT.split("\r\n")
    swapped = lines[:unit - 1] + [lines[kind - 1], lines[unit - 1]] + lines[kind:]
    joined = "\r\n".join
    yield ("unit_row_left_out", joined(lines[:unit - 1] + lines[unit:]).encode(),
           1, 1, ("2b", unit, "-"),
           f"Group LOCA (line {LOCA}) has no UNIT row;between line {LOCA + 1} (HEADING) and line {LOCA + 2} (TYPE)")
    yield ("unit_and_type_row_exchanged", joined(swapped).encode(),
           3, 1, ("2b", unit, "-"),
           "in the order GROUP;it has to be GROUP, HEADING, UNIT, TYPE")
    yield ("group_row_left_out", joined(lines[:GEOL - 1] + lines[GEOL:]).encode(),
           1, 1, ("2b", GEOL, "-"),
           f'The GROUP row is missing above the HEADING row in line {GEOL};Put the row "GROUP","GEOL"')
    yield ("file_cut_off", joined(lines[:LNMC + 1]).encode() + b"\r\n",
           1, 1, ("2b", LNMC + 1, "-"),
           "The file ends after the HEADING row;Was it cut off?;Get the whole file again")
    yield ("header_on_each_page", joined(lines[:GEOL + 4] + lines[GEOL:GEOL + 3] + lines[GEOL + 4:]).encode(),
           1, 1, ("2b", GEOL + 5, "-"),
           f"The GROUP row is missing above the HEADING row in line {GEOL + 5}")
    yield ("group_row_padded", put('"GROUP","LOCA"', '"GROUP","LOCA","",""'),
           1, 1, ("4", LOCA, "-"),
           f'3 items;Write line {LOCA} as: "GROUP","LOCA"')
    yield ("nothing_sent", b"",
           1, 1, ("2", 0, "-"),
           "The file has no bytes;curl")


def of_groups():
    yield ("item_too_few", put('"12.40","2024-05-02","North of the road"', '"12.40","2024-05-02"'),
           1, 1, ("4", BH101, "LOCA"),
           f"has 6 items;(line {LOCA + 1}) has 7 headings;LOCA_REM")
    rows = "\r\n".join(SOUND[9][4:])
    padded = put(rows, "\r\n".join(line + ',"",""' for line in SOUND[9][4:]))
    yield ("rows_padded_with_nulls", padded,
           4, 1, ("4", GEOL + 4, "GEOL"),
           "4 DATA rows;have 7 items;has 5 headings;2 items too many;spreadsheets pad")
    yield ("heading_left_out_of_its_row", put('"LOCA_ID","ISPT_TOP","ISPT_NVAL"', '"LOCA_ID","ISPT_TOP"'),
           5, 1, ("4", line_of('"DATA","BH101","1.50","12"'), "ISPT"),
           "has 2 headings;all other rows of ISPT have 3 items;1 heading too few;ISPT_NVAL;"
           "Name the heading that is missing")
    yield ("group_without_rows", put('"DATA","BH102","1"\r\n', ""),
           1, 1, ("2", line_of('"GROUP","SCPG"'), "SCPG"),
           "no DATA row below the TYPE row;Take the groups")
    yield ("group_in_lower_case", put('"GROUP","LOCA"', '"GROUP","loca"'),
           1, 1, ("19", LOCA, "loca"),
           "four capital letters;Write LOCA")
    yield ("group_of_five_letters", put('"GROUP","GEOL"', '"GROUP","GEOLO"'),
           1, 1, ("19", GEOL, "GEOLO"),
           "5 characters;Write GEOL")
    yield ("heading_in_lower_case",
           put('"LOCA_ID","GEOL_TOP","GEOL_BASE","GEOL_DESC"', '"LOCA_ID","GEOL_TOP","GEOL_BASE","Geol_Desc"'),
           1, 1, ("19a", GEOL + 1, "Geol_Desc"),
           "no name of a heading;Write GEOL_DESC")
    yield ("heading_of_ten_characters", put('"LOCA_REM"', '"LOCA_REMAR"'),
           1, 1, ("19a", LOCA + 1, "LOCA_REMAR"),
           "10 characters;Write LOCA_REM")
    again = "\r\n" + "\r\n".join(SOUND[9][:4]) + "\r\n" + row("DATA", "TP103", "1.90", "2.50", "Dense SAND",
                                                              "101") + "\r\n"
    yield ("group_twice", (TEXT + again).encode(),
           1, 1, ("P1", COUNT + 2, "GEOL"),
           f"line {GEOL} and again in line {COUNT + 2};headings are the same;Move the DATA rows")
    yield ("heading_twice", put('"LOCA_ID","ISPT_TOP","ISPT_NVAL"', '"LOCA_ID","ISPT_TOP","ISPT_TOP"'),
           1, 1, ("P2", line_of('"HEADING","LOCA_ID","ISPT_TOP"'), "ISPT_TOP"),
           "heading 2 and 3;differ")


def of_headings():
    moved = group("SAMP", ["SAMP_LINK", "LOCA_ID", "SAMP_TOP", "SAMP_REF", "SAMP_TYPE", "SAMP_DTIM"],
                  ["", "BH101", "1.50", "S9", "U", "2024-05-02"],
                  ["", "BH101", "3.00", "S10", "B", "2024-05-02"], ["", "BH102", "2.20", "S1", "U", "2024-05-06"])
    yield ("one_heading_out_of_order", with_part("SAMP", moved),
           5, 1, ("7", SAMP + 1, "SAMP_TOP"),
           "SAMP_LINK has to move: it belongs after SAMP_DTIM;can stay")
    two = group("ISPT", ["ISPT_NVAL", "LOCA_ID", "ISPT_TOP"], ["12", "BH101", "1.50"])
    yield ("first_heading_out_of_order", with_part("ISPT", two),
           2, 1, ("7", line_of('"HEADING","LOCA_ID","ISPT_TOP"'), "LOCA_ID"),
           "ISPT_NVAL has to move: it belongs after ISPT_TOP")
    yield ("heading_misspelled", put('"LOCA_NATE"', '"LOCA_NATX"'),
           1, 1, ("18", LOCA + 1, "LOCA_NATX"),
           "no heading of LOCA;nearest heading;LOCA_NATE")
    yield ("heading_of_another_group", put('"MONG_TRZ"', '"GEOL_BASE"'),
           1, 1, ("18", line_of('"GROUP","MONG"') + 1, "GEOL_BASE"),
           "It is a heading of GEOL")
    yield ("heading_of_another_edition", put('"LNMC_ISNT"', '"LNMC_TEMP"'),
           1, 1, ("18", LNMC + 1, "LNMC_TEMP"),
           "Known under another edition?;TRAN_AGS says 4.1;Define it in the file's group DICT")
    strange = text(SOUND
                   + [["\"GROUP\",\"STCN\"", row("HEADING", "LOCA_ID", "STCN_DPTH"), row("UNIT", "", "m"),
                       row("TYPE", "ID", "2DP"), row("DATA", "BH102", "0.02")]])
    yield ("group_of_another_edition", strange,
           1, 1, ("18", COUNT + 2, "STCN"),
           "STCN is no group of the dictionary;Known under another edition?")
    yield ("group_misspelled", put('"GROUP","LDEN"', '"GROUP","LDNE"'),
           1, 1, ("18", line_of('"GROUP","LDEN"'), "LDNE"),
           "The nearest name is L")
    own = text(SOUND + [group("DICT", DICT,
                              ["HEADING", "LOCA", "LOCA_RIG", "OTHER", ""])]).decode().replace('"LOCA_REM"',
                                  '"LOCA_RIGS"')
    yield ("own_heading_not_as_in_dict", own.encode(),
           1, 1, ("9", LOCA + 1, "LOCA_RIGS"),
           "nor in the file's DICT;LOCA_RIG")
    other = text(SOUND + [group("DICT", DICT,
                                ["HEADING", "LOCA", "RIG_NAME", "OTHER", ""])]).decode().replace('"LOCA_REM"',
                                    '"RIG_NAME"')
    yield ("own_heading_of_another_name", other.encode(),
           1, 1, ("19b", LOCA + 1, "RIG_NAME"),
           "begin with LOCA_;LOCA_NAME")
    keyless = group("ISPT", ["LOCA_ID", "ISPT_NVAL"], ["BH101", "12"])
    yield ("key_heading_left_out", with_part("ISPT", keyless),
           1, 1, ("10a", line_of('"GROUP","ISPT"') + 1, "ISPT_TOP"),
           "The KEY heading ISPT_TOP is not in the HEADING row;LOCA_ID and ISPT_TOP")
    bare = group("GEOL", ["LOCA_ID", "GEOL_TOP", "GEOL_BASE", "GEOL_LEG"], ["BH101", "0.00", "0.60", "101"])
    yield ("required_heading_left_out", with_part("GEOL", bare),
           1, 1, ("10b", GEOL + 1, "GEOL_DESC"),
           "The REQUIRED heading GEOL_DESC is not in the HEADING row")
    orphans = without("SAMP")
    yield ("parent_group_left_out", orphans,
           2, 1, ("10c", line_of('"GROUP","LNMC"', orphans.decode()), "LNMC"),
           "LNMC and LDEN belong to the group SAMP;the file has no group SAMP;3 SAMP rows;"
           "(LOCA_ID=BH101, SAMP_TOP=1.50, SAMP_REF=S9);LOCA_ID, SAMP_TOP and SAMP_REF")
    yield ("two_projects", put('"DATA","P7","North bank"', '"DATA","P7","North bank"\r\n"DATA","P8","South bank"'),
           1, 1, ("13", 6, "PROJ"),
           "2 DATA rows;lines 5 and 6")
    yield ("no_transmission", without("TRAN"),
           1, 1, ("14", 0, "TRAN"),
           "The file has no group TRAN;Headings of TRAN: TRAN_ISNO, TRAN_DATE, TRAN_PROD, TRAN_AGS, TRAN_RECV,"
           " TRAN_DLIM and TRAN_RCON.;KEY headings: TRAN_ISNO.")
    yield ("no_units", without("UNIT"),
           1, 1, ("15", 0, "UNIT"),
           "The file has no group UNIT;Headings of UNIT: UNIT_UNIT and UNIT_DESC.;KEY headings: UNIT_UNIT.")
    yield ("delimiter_of_two_characters", put('"4.1","|","+"', '"4.1","||","+"'),
           1, 1, ("11a", 11, "TRAN_DLIM"),
           'TRAN_DLIM is "||";one character')


def of_lists():
    yield ("abbreviation_in_other_capitals", put('"CP","FINAL"', '"CP","Final"'),
           1, 1, ("16", BH101 + 1, "LOCA_STAT"),
           '"Final" is not listed in ABBR under LOCA_STAT;"FINAL";capitals')
    yield ("abbreviation_with_a_trailing_space", put('"TP103","TP","PRELIM"', '"TP103","TP","PRELIM "'),
           1, 1, ("16", TP103, "LOCA_STAT"),
           '"PRELIM";a space at its end')
    yield ("abbreviation_of_two_parts", put('"CP+RC"', '"CP+RO"'),
           1, 1, ("16", BH101, "LOCA_TYPE"),
           '"RO", a part of "CP+RO", is not listed in ABBR under LOCA_TYPE')
    yield ("abbreviation_with_another_sign", put('"CP+RC"', '"CP/RC"'),
           1, 1, ("16", BH101, "LOCA_TYPE"),
           '"CP/RC" is not listed in ABBR under LOCA_TYPE')
    yield ("abbreviation_of_another_heading", put('"BH101","3.00","S10","B"', '"BH101","3.00","S10","TP"'),
           1, 1, ("16", SAMP + 5, "SAMP_TYPE"),
           '"TP" is not listed in ABBR under SAMP_TYPE;It is listed under LOCA_TYPE')
    yield ("unit_in_other_capitals", put('"UNIT","","m","","m",""', '"UNIT","","m","","m","KPA"'),
           1, 1, ("15", line_of('"GROUP","LDEN"') + 2, "LDEN_BDEN"),
           '"KPA" is not listed in UNIT;"kPa";capitals')
    yield ("unit_not_listed", put('"UNIT","","m","","m",""', '"UNIT","","m","","m","Mg/m3"'),
           1, 1, ("15", line_of('"GROUP","LDEN"') + 2, "LDEN_BDEN"),
           '"Mg/m3" is not listed in UNIT;Add this row below line 38, the last row of UNIT;"DATA","Mg/m3"')
    yield ("type_not_listed", put('"DATA","MC"\r\n', ""),
           1, 1, ("17", LNMC + 2, "LNMC_MC"),
           '"MC" is not listed in TYPE;LNMC_MC')
    files = group("SCPG", ["LOCA_ID", "SCPG_TESN", "FILE_FSET"], ["BH102", "1", "FS1"])
    yield ("file_set_without_file_group", with_part("SCPG", files),
           1, 1, ("20", line_of('"DATA","BH102","1"'), "FILE_FSET"),
           'The file set "FS1" is not listed in FILE;no group FILE')
    listed = text([files if one[0] == row("GROUP", "SCPG") else one for one in SOUND]
                  + [group("FILE", ["FILE_FSET", "FILE_NAME"], ["fs1", "cpt.pdf"])])
    yield ("file_set_in_other_capitals", listed,
           1, 1, ("20", line_of('"DATA","BH102","1"'), "FILE_FSET"),
           '"FS1" is not listed in FILE;"fs1";capitals')


def of_forms():
    """Rule 8, under TYPE and UNIT as they are in the sound file."""
    gl, n = BH101, line_of('"DATA","BH102","1.50","1250"')
    for name, old, new, line, heading, words in (
            ("one_decimal_of_two", '"12.40"', '"12.4"', gl, "LOCA_GL",
             'one decimal where 2DP asks for two;two decimals, as 1.50;Write "12.40"'),
            ("three_decimals_of_two", '"12.40"', '"12.401"', gl, "LOCA_GL", "three decimals where 2DP asks for two"),
            ("thousands_separator", '"1250"', '"1,250"', n, "ISPT_NVAL", 'a comma between thousands;Write "1250"'),
            ("decimal_comma", '"12.40"', '"12,40"', gl, "LOCA_GL", 'a comma for the decimal point;Write "12.40"'),
            ("serial_date_of_a_spreadsheet", '"2024-05-06",""', '"45418",""', BH101 + 1, "LOCA_STAR",
             "a spreadsheet's number of a day;Write \"2024-05-06\""),
            ("day_first", '"2024-05-31","4.1"', '"31/05/2024","4.1"', 11, "TRAN_DATE",
             'another order of day, month and year;Write "2024-05-31"'),
            ("day_or_month_first", '"2024-05-07","Beside', '"07/05/2024","Beside', TP103, "LOCA_STAR",
             "the day or the month first;would otherwise be after TRAN_DATE, 2024-05-31;Write \"2024-05-07\""),
            ("space_between_day_and_time", '"2024-05-20T09:30"', '"2024-05-20 09:30"',
             line_of('"DATA","BH101","P1","2024-05-20'), "MOND_DTIM",
             'a space between day and time, where a T belongs;Write "2024-05-20T09:30"'),
            ("day_that_is_not", '"2024-05-02","North', '"2024-06-31","North', gl, "LOCA_STAR",
             "no day of the calendar"),
            ("exponent_of_a_spreadsheet", '"523160.50"', '"5.23E+05"', BH101 + 1, "LOCA_NATE",
             'an exponent, as spreadsheets show;Write "523000.00"'),
            ("less_than", '"1.250"', '"<1.250"', line_of('"DATA","BH102","1","0.02"'), "SCPT_RES",
             'the sign "<";three decimals, as 1.500'),
            ("star_for_an_estimate", '"1250"', '"50*"', n, "ISPT_NVAL", "a *;a whole number, as 12"),
            ("unit_beside_the_number", '"12.40"', '"12.40m"', gl, "LOCA_GL", 'a unit beside the number;Write "12.40"'),
            ("word_for_no_value", '"12.40"', '"N/A"', gl, "LOCA_GL", 'a word for no value;Write ""'),
            ("space_before_the_number", '"12.40"', '" 12.40"', gl, "LOCA_GL", 'spaces at an end;Write "12.40"'),
            ("yes_for_y", '"2.80","Y"', '"2.80","Yes"', line_of('"DATA","BH101","2.80"'), "WSTG_FLOW",
             'Y or N;Write "Y"')):
        yield (name, put(old, new),
               1, 1, ("8", line, heading),
               words)
    many = group("ISPT", ["LOCA_ID", "ISPT_TOP", "ISPT_NVAL"],
                 *[["BH101", f"{depth}.5", "12"] for depth in range(1, 9)])
    yield ("one_decimal_in_every_row", with_part("ISPT", many),
           8, 1, ("8", line_of('"DATA","BH101","1.50","12"'), "ISPT_TOP"),
           "8 entries of this sort;give the heading the TYPE 1DP")


def of_keys():
    first = line_of('"DATA","BH101","1.50","12"')
    yield ("row_twice", put('"DATA","BH101","1.50","12"', '"DATA","BH101","1.50","12"\r\n"DATA","BH101","1.50","12"'),
           1, 1, ("10a", first + 1, "ISPT"),
           f"line {first} of ISPT;LOCA_ID=BH101, ISPT_TOP=1.50;the same in every entry;Take line {first + 1} out")
    yield ("key_twice", put('"DATA","BH101","3.00","18"', '"DATA","BH101","1.50","18"'),
           1, 1, ("10a", first + 1, "ISPT"),
           'have the same KEY entries: LOCA_ID=BH101, ISPT_TOP=1.50;'
           f'ISPT_NVAL ("12" in line {first}, "18" in line {first + 1})')
    yield ("required_entry_left_out", put('"Stiff grey CLAY"', '""'),
           1, 1, ("10b", GEOL + 6, "GEOL_DESC"),
           "GEOL_DESC is null;REQUIRED")
    test = line_of('"DATA","BH101","1.50","S9","1.60","23"')
    yield ("sample_of_another_name", put('"BH101","1.50","S9","1.60","23"', '"BH101","1.50","9","1.60","23"'),
           1, 1, ("10c", test, "LNMC"),
           'LNMC row needs a SAMP row with LOCA_ID=BH101, SAMP_TOP=1.50, SAMP_REF=9;'
           f' line {SAMP + 4} differs in SAMP_REF;"S9"')
    depth = SOUND[14][:3] + [row("TYPE", "ID", "1DP", "X", "2DP", "MC", "YN"),
                             row("DATA", "BH101", "1.5", "S9", "1.60", "23", "N"),
                             row("DATA", "BH101", "1.5", "S9", "1.70", "24", "N")]
    yield ("depth_of_other_decimals", with_part("LNMC", depth),
           2, 1, ("10c", test, "LNMC"),
           f'line {SAMP + 4} differs in SAMP_TOP;"1.5" here and "1.50" there;'
           'the same number, spelled in another way;2 rows of LNMC need it;'
           'give the heading the TYPE 2DP in LNMC too')
    yield ("borehole_with_a_hyphen", put('"DATA","BH102","2.20","S1","U"', '"DATA","BH-102","2.20","S1","U"'),
           2, 2, ("10c", SAMP + 6, "SAMP"),
           f'LOCA_ID=BH-102; line {BH101 + 1} differs in LOCA_ID;"BH102" there;signs between the letters')
    renamed = put('"DATA","BH101","1.50","S9","U"', '"DATA","BH101","1.50","S99","U"')
    yield ("sample_renamed_in_its_own_row", renamed,
           3, 2, ("10c", test, "LNMC"),
           f"SAMP_REF=S9; line {SAMP + 4} differs in SAMP_REF;2 rows of LNMC and LDEN need it")
    yield ("borehole_left_out", put('"DATA","BH101","3.00","18"', '"DATA","BH7","3.00","18"'),
           1, 1, ("10c", first + 1, "ISPT"),
           "ISPT row needs a LOCA row with LOCA_ID=BH7; no LOCA row has LOCA_ID=BH7")


def of_links():
    link = SAMP + 5
    for name, new, words in (
            ("link_with_too_few_keys", "SAMP|BH101|1.50",
             'too few keys;3 KEY headings (LOCA_ID, SAMP_TOP, SAMP_REF);the link gives 2 entries;"SAMP|BH101|1.50|S9" '
             f'for line {SAMP + 4}'),
            ("link_with_too_many_keys", "SAMP|BH101|1.50|S9|U", "too many keys;3 KEY headings;4 entries;"
             "Give the group and all its KEY entries, in this order: SAMP|LOCA_ID|SAMP_TOP|SAMP_REF"),
            ("link_of_other_decimals", "SAMP|BH101|1.5|S9",
             f'line {SAMP + 4} of SAMP differs in SAMP_TOP;"1.5" in the link and "1.50" there;the same number'),
            ("link_with_spaces", "SAMP|BH101|1.50| S9", "differs in SAMP_REF;a space at its start"),
            ("link_with_another_delimiter", "SAMP:BH101:1.50:S9",
             'cut at "|";":" between its entries;"SAMP|BH101|1.50|S9"'),
            ("link_to_a_missing_group", "CORE|BH101|1.50|2.00", 'the file has no group "CORE"'),
            ("link_without_its_group", "BH101|1.50|S9", "names no row"),
            ("link_to_a_missing_borehole", "SAMP|BH7|9.00|S7",
             "no SAMP row has LOCA_ID=BH7;in this order: SAMP|LOCA_ID|SAMP_TOP|SAMP_REF, of a row that is there"),
            ("link_of_two_parts", "SAMP|BH101|1.50|S9+SAMP|BH102|2.20|S2",
             f'The part "SAMP|BH102|2.20|S2";line {SAMP + 6} of SAMP differs in SAMP_REF')):
        yield (name, put('"2024-05-02","SAMP|BH101|1.50|S9"', f'"2024-05-02","{new}"'),
               1, 1, ("11c", link, "SAMP_LINK"),
               words)


def write(name, data):
    with open(os.path.join(here, name), "wb") as file:
        file.write(data)


def main():
    write("dictionary.ags", dictionary())
    write("sound.ags", TEXT.encode("latin-1"))
    table = ["file\tfindings\tcauses\tcode\tline\tsubject\twords"]
    for name, data, findings, causes, (code, line, subject), words in cases():
        write(name + ".ags", data)
        table.append("\t".join(map(str, (name, findings or "many", causes, code, line, subject, words))))
    write("expected.tsv", "\n".join(table + [""]).encode())


if __name__ == "__main__":
    main()
