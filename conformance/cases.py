#!/usr/bin/env python3
"""The files of files/, each with what the rules find in it, worked out by hand.

usage: cases.py

Writes files/NAME.ags for each case and files/expected.tsv, and compares each case with reference.py.
The phase of a case is the phase whose findings it shows; a checker of fewer phases has to call the file clean."""
import os
import reference

FILES = os.path.join(os.path.dirname(os.path.abspath(__file__)), "files")



def row(descriptor, *items):
    return ",".join('"%s"' % t.replace('"', '""') for t in (descriptor,) + items)


def group(name, headings, *data, units=None, types=None):
    """The lines of a group; types are X and units null unless they are given."""
    return [row("GROUP", name), row("HEADING", *headings), row("UNIT", *(units or [""] * len(headings))),
            row("TYPE", *(types or ["X"] * len(headings)))] + [row("DATA", *d) for d in data]


PROJ = group("PROJ", ["PROJ_ID", "PROJ_NAME"], ["P7", "North bank"], types=["ID", "X"])
TRAN = group("TRAN", ["TRAN_ISNO", "TRAN_DLIM", "TRAN_RCON"], ["1", "|", "+"])
UNIT = group("UNIT", ["UNIT_UNIT", "UNIT_DESC"], ["m", "metre"], ["yyyy-mm-dd", "day"])
TYPES = ["ID", "X", "2DP", "RL", "PA", "PU", "PT", "DT", "YN", "MC", "0DP", "3SF", "1SCI", "DMS", "T"]
TYPE = group("TYPE", ["TYPE_TYPE"], *[[t] for t in TYPES])
LOCA = group("LOCA", ["LOCA_ID"], ["BH1"], types=["ID"])
DICT_HEADINGS = ["DICT_TYPE", "DICT_GRP", "DICT_HDNG", "DICT_STAT", "DICT_PGRP"]
SAMP_HEADINGS = ["LOCA_ID", "SAMP_TOP", "SAMP_REF", "SAMP_LINK"]
SAMP_UNITS = ["", "m", "", ""]
SAMP_TYPES = ["ID", "2DP", "X", "RL"]


def text(*groups, end="\r\n"):
    """The groups with an empty line between two."""
    return end.join(end.join(g) + end for g in groups).encode("latin-1")


def base(*more, proj=PROJ, tran=TRAN, unit=UNIT, types=TYPE, loca=LOCA):
    """PROJ on lines 1 to 5, TRAN on 7 to 11, UNIT on 13 to 18, TYPE on 20 to 38, LOCA from line 40 on, then more."""
    return text(*[g for g in (proj, tran, unit, types, loca) if g], *more)


def at(data, number, line):
    """With this in place of a line's content; None leaves the line out."""
    lines = data.split(b"\r\n")
    lines[number - 1:number] = [] if line is None else [line.encode("latin-1")]
    return b"\r\n".join(lines)


def loca(headings, *data, units=None, types=None):
    return group("LOCA", headings, *data, units=units, types=types)


def samp(*data, types=None):
    return group("SAMP", SAMP_HEADINGS, *data, units=SAMP_UNITS, types=types or SAMP_TYPES)


def dictionary(*entries):
    return group("DICT", DICT_HEADINGS, *entries)


def keyed(name, parent, *keys):
    """The entries of a group, its parent group and its KEY headings."""
    return [["GROUP", name, "", "", parent]] + [["HEADING", name, key, "KEY", ""] for key in keys]


def siblings(last):
    """Two groups under one, which have its KEY headings in their own orders; the second on line 59, with this row on
    line 64."""
    return (group("PARE", ["PARE_ONE", "PARE_TWO"], ["x", "1"], ["y", "2"]),
            group("ABCD", ["PARE_ONE", "PARE_TWO"], ["x", "1"]),
            group("EFGH", ["PARE_TWO", "PARE_ONE"], ["1", "x"], last),
            dictionary(*keyed("PARE", "", "PARE_ONE", "PARE_TWO"), *keyed("ABCD", "PARE", "PARE_ONE", "PARE_TWO"),
                       *keyed("EFGH", "PARE", "PARE_TWO", "PARE_ONE")))


BASE = base()
S1 = ["BH1", "1.50", "S1", ""]
S2 = ["BH1", "2.50", "S2", ""]

CASES = [
    # name, phase, bytes, findings
    ("clean_base", 5, BASE, []),
    ("clean_without_last_line_end", 5, BASE[:-2], []),
    ("clean_with_mark", 5, b"\xef\xbb\xbf" + BASE, []),
    ("clean_with_spaces_around_fields", 5, at(BASE, 44, '  "DATA"  ,  "BH1"  '), []),
    ("clean_with_spaces_alone_in_a_line", 5, at(BASE, 39, "   "), []),
    ("clean_with_quote_and_comma_in_a_field", 5, at(BASE, 5, '"DATA","P7","a ""b"", c"'), []),
    # ---- phase 1
    ("1_high_byte", 1, at(BASE, 5, '"DATA","P7","\xe4"'), ["1 5 -"]),
    ("1_byte_128", 1, at(BASE, 5, '"DATA","P7","\x80"'), ["1 5 -"]),
    ("1_clean_byte_127", 1, at(BASE, 5, '"DATA","P7","\x7f"'), []),
    ("2a_line_feed_alone", 1, BASE.replace(b'"North bank"\r\n', b'"North bank"\n'), ["2a 5 -"]),
    ("2a_line_feed_alone_after_the_last_line", 1, BASE + b"\n", ["2a 45 -"]),
    ("6_return_within_a_line", 1, at(BASE, 5, '"DATA","P7","North\rbank"'), ["6 5 -"]),
    ("6_return_at_the_end_without_feed", 1, BASE[:-1], ["6 44 -"]),
    ("5_unquoted_field", 1, at(BASE, 44, '"DATA",BH1'), ["5 44 -"]),
    ("5_unclosed_field", 1, at(BASE, 44, '"DATA","BH1'), ["5 44 -"]),
    ("5_single_quote_in_a_field", 1, at(BASE, 44, '"DATA","B"H1"'), ["5 44 -"]),
    ("5_comma_at_the_end", 1, at(BASE, 44, '"DATA","BH1",'), ["5 44 -"]),
    ("5_comma_alone", 1, at(BASE, 39, ","), ["5 39 -"]),
    ("5_tab_alone", 1, at(BASE, 39, "\t"), ["5 39 -"]),
    ("3_unknown_descriptor", 1, at(BASE, 44, '"ROW","BH1"'), ["3 44 -"]),
    ("3_descriptor_with_a_space", 1, at(BASE, 44, '"DATA ","BH1"'), ["3 44 -"]),
    ("3_empty_descriptor", 1, at(BASE, 44, '""'), ["3 44 -"]),
    # ---- phase 2
    ("2_no_row", 2, b"\r\n  \r\n", ["2 0 -"]),
    ("2b_first_row_is_no_group", 2, at(BASE, 1, None), ["2b 1 -"]),
    ("2b_unit_row_left_out", 2, at(BASE, 42, None), ["2b 42 -"]),
    ("2b_heading_row_twice", 2, at(BASE, 41, '"HEADING","LOCA_ID"\r\n"HEADING","LOCA_ID"'), ["2b 42 -"]),
    ("2b_ends_with_a_unit_row", 2, at(at(BASE, 44, None), 43, None), ["2b 42 -"]),
    ("2b_second_type_row_after_data", 2, BASE + b'"TYPE","ID"\r\n', ["2b 45 -"]),
    ("4_group_row_of_two_items", 2, at(BASE, 40, '"GROUP","LOCA",""'), ["4 40 -"]),
    ("4_group_row_without_item", 2, at(BASE, 40, '"GROUP"'), ["4 40 -"]),
    # ---- phase 3
    ("2_group_without_data_row", 3, at(BASE, 44, None), ["2 40 LOCA"]),
    ("4_data_row_too_long", 3, at(BASE, 44, '"DATA","BH1",""'), ["4 44 LOCA"]),
    ("4_data_row_too_short", 3, at(BASE, 5, '"DATA","P7"'), ["4 5 PROJ"]),
    ("4_unit_row_too_long", 3, at(BASE, 42, '"UNIT","",""'), ["4 42 LOCA"]),
    ("4_type_row_too_short", 3, at(BASE, 43, '"TYPE"'), ["4 43 LOCA"]),
    ("4_no_headings_at_all", 3, base(loca=['"GROUP","LOCA"', '"HEADING"', '"UNIT"', '"TYPE"', '"DATA"']),
     ["4 41 LOCA"]),
    ("19_lower_case_group", 3, at(BASE, 40, '"GROUP","Loca"'), ["19 40 Loca"]),
    ("19_group_of_five_letters", 3, at(BASE, 40, '"GROUP","LOCAL"'), ["19 40 LOCAL"]),
    ("19_group_without_letters", 3, at(BASE, 40, '"GROUP",""'), ["19 40 -"]),
    ("19_group_with_a_low_line", 3, at(BASE, 40, '"GROUP","LO_A"'), ["19 40 LO_A"]),
    ("19a_lower_case_heading", 3, at(BASE, 41, '"HEADING","LOCA_Id"'), ["19a 41 LOCA_Id"]),
    ("19a_heading_of_ten_letters", 3, at(BASE, 41, '"HEADING","LOCA_IDENT"'), ["19a 41 LOCA_IDENT"]),
    ("19a_heading_without_letters", 3, at(BASE, 41, '"HEADING",""'), ["19a 41 -"]),
    ("P1_group_twice", 3, base(group("LOCA", ["LOCA_ID"], ["BH2"], types=["ID"])), ["P1 46 LOCA"]),
    ("P1_group_three_times", 3, base(LOCA, LOCA), ["P1 46 LOCA", "P1 52 LOCA"]),
    ("P2_heading_twice", 3, base(loca=loca(["LOCA_ID", "LOCA_ID"], ["BH1", "BH1"], types=["ID", "ID"])),
     ["P2 41 LOCA_ID"]),
    ("P2_heading_three_times", 3, base(loca=loca(["LOCA_ID"] * 3, ["BH1"] * 3, types=["ID"] * 3)), ["P2 41 LOCA_ID"]),
    # ---- phase 4
    ("18_unknown_group", 4, base(group("ABCD", ["ABCD_ID"], ["1"])), ["18 46 ABCD"]),
    ("18_unknown_heading", 4, base(loca=loca(["LOCA_ID", "LOCA_ABCD"], ["BH1", "1"], types=["ID", "X"])),
     ["18 41 LOCA_ABCD"]),
    ("9_unknown_group_beside_a_dict", 4,
     base(group("ABCD", ["ABCD_ID"], ["1"]), dictionary(["GROUP", "ABCE", "", "", ""])), ["9 46 ABCD"]),
    ("9_unknown_heading_beside_a_dict", 4,
     base(dictionary(["HEADING", "LOCA", "LOCA_ABCE", "OTHER", ""]),
          loca=loca(["LOCA_ID", "LOCA_ABCD"], ["BH1", "1"], types=["ID", "X"])), ["9 41 LOCA_ABCD"]),
    ("9_clean_group_of_the_own_dict", 5,
     base(group("ABCD", ["ABCD_ID"], ["1"]),
          dictionary(["GROUP", "ABCD", "", "", ""], ["HEADING", "ABCD", "ABCD_ID", "KEY", ""])), []),
    ("9_heading_entry_without_group_entry", 4,
     base(group("ABCD", ["ABCD_ID"], ["1"]), dictionary(["HEADING", "ABCD", "ABCD_ID", "KEY", ""])), ["9 46 ABCD"]),
    ("7_headings_out_of_order", 4, base(loca=loca(["LOCA_STAT", "LOCA_ID"], ["", "BH1"], types=["X", "ID"])),
     ["7 41 LOCA_ID"]),
    ("7_not_against_the_neighbour_alone", 4,
     base(loca=loca(["LOCA_ID", "LOCA_GL", "LOCA_TYPE", "LOCA_STAT"], ["BH1", "", "", ""])),
     ["7 41 LOCA_STAT", "7 41 LOCA_TYPE"]),
    ("7_clean_with_headings_left_out", 5, base(loca=loca(["LOCA_ID", "LOCA_GL"], ["BH1", ""])), []),
    ("7_own_heading_before_a_standard_one", 4,
     base(dictionary(["HEADING", "LOCA", "LOCA_ABCD", "OTHER", ""]),
          loca=loca(["LOCA_ID", "LOCA_ABCD", "LOCA_GL"], ["BH1", "", ""])), ["7 41 LOCA_GL"]),
    ("10a_key_heading_absent", 4, base(group("SAMP", ["LOCA_ID", "SAMP_TOP"], ["BH1", "1.50"], types=["ID", "2DP"])),
     ["10a 47 SAMP_REF"]),
    ("10b_required_heading_absent", 4, base(dictionary(["HEADING", "LOCA", "LOCA_ABCD", "REQUIRED", ""])),
     ["10b 41 LOCA_ABCD"]),
    ("10b_clean_status_with_spaces_is_none", 5,
     base(dictionary(["HEADING", "LOCA", "LOCA_ABCD", "KEY + REQUIRED", ""])), []),
    ("10a_10b_both_of_one_heading", 4, base(loca=loca(["LOCA_STAT"], [""])), ["10a 41 LOCA_ID", "10b 41 LOCA_ID"]),
    ("10c_parent_group_absent", 4,
     base(group("LNMC", ["LOCA_ID", "SAMP_TOP", "SAMP_REF", "SPEC_DPTH"], ["BH1", "1.50", "S1", "1.50"])),
     ["10c 46 LNMC"]),
    ("10c_clean_group_without_a_parent", 5, base(group("FILE", ["FILE_FSET", "FILE_NAME"], ["F1", "a.pdf"])), []),
    ("11a_delimiter_of_two_characters", 4,
     base(tran=group("TRAN", ["TRAN_ISNO", "TRAN_DLIM", "TRAN_RCON"], ["1", "||", "+"])), ["11a 11 TRAN_DLIM"]),
    ("11b_concatenator_of_two_characters", 4,
     base(tran=group("TRAN", ["TRAN_ISNO", "TRAN_DLIM", "TRAN_RCON"], ["1", "|", "++"])), ["11b 11 TRAN_RCON"]),
    ("11b_clean_without_either", 5, base(tran=group("TRAN", ["TRAN_ISNO"], ["1"])), []),
    ("11a_clean_with_null_entries", 5, base(tran=group("TRAN", ["TRAN_ISNO", "TRAN_DLIM", "TRAN_RCON"], ["1", "", ""])),
     []),
    ("13_no_project", 4, text(TRAN, UNIT, TYPE), ["13 0 PROJ"]),
    ("13_two_projects", 4, base(proj=PROJ + ['"DATA","P8",""']), ["13 6 PROJ"]),
    ("14_no_transmission", 4, base(tran=None), ["14 0 TRAN"]),
    ("14_two_transmissions", 4, base(tran=TRAN + ['"DATA","2","|","+"', '"DATA","3","|","+"']),
     ["14 12 TRAN", "14 13 TRAN"]),
    ("15_no_units_group", 4, base(unit=None), ["15 0 UNIT"]),
    ("17_no_types_group", 4, base(types=None), ["17 0 TYPE"]),
    ("19b_heading_not_of_its_group", 4,
     base(dictionary(["HEADING", "LOCA", "ABC_X", "OTHER", ""]), loca=loca(["LOCA_ID", "ABC_X"], ["BH1", ""])),
     ["19b 41 ABC_X"]),
    ("19b_group_name_without_low_line", 4,
     base(dictionary(["HEADING", "LOCA", "LOCAX", "OTHER", ""]), loca=loca(["LOCA_ID", "LOCAX"], ["BH1", ""])),
     ["19b 41 LOCAX"]),
    ("19b_clean_heading_of_another_group", 5,
     base(dictionary(["HEADING", "LOCA", "SAMP_TOP", "OTHER", ""]), loca=loca(["LOCA_ID", "SAMP_TOP"], ["BH1", ""])),
     []),
    # ---- phase 5
    ("8_two_decimals_of_one", 5, base(samp(["BH1", "1.5", "S1", ""])), ["8 50 SAMP_TOP"]),
    ("8_clean_null_of_any_type", 5, base(loca=loca(["LOCA_ID", "LOCA_GL"], ["BH1", ""], types=["ID", "2DP"])), []),
    ("8_day_that_is_not", 5,
     base(loca=loca(["LOCA_ID", "LOCA_GL"], ["BH1", "2023-02-29"], units=["", "yyyy-mm-dd"], types=["ID", "DT"])),
     ["8 44 LOCA_GL"]),
    ("8_clean_leap_day", 5,
     base(loca=loca(["LOCA_ID", "LOCA_GL"], ["BH1", "2024-02-29"], units=["", "yyyy-mm-dd"], types=["ID", "DT"])), []),
    ("8_neither_yes_nor_no", 5, base(loca=loca(["LOCA_ID", "LOCA_GL"], ["BH1", "yes"], types=["ID", "YN"])),
     ["8 44 LOCA_GL"]),
    ("8_in_a_definition_group", 5, base(tran=group("TRAN", ["TRAN_ISNO", "TRAN_DATE"], ["1", "x"], types=["X", "YN"])),
     ["8 11 TRAN_DATE"]),
    ("10a_key_repeated", 5, base(samp(S1, S1)), ["10a 51 SAMP"]),
    ("10a_key_repeated_with_another_row_between", 5, base(samp(S1, S2, S1)), ["10a 52 SAMP"]),
    ("10a_unit_listed_twice", 5, base(unit=group("UNIT", ["UNIT_UNIT", "UNIT_DESC"], ["m", "metre"], ["m", "again"])),
     ["10a 18 UNIT"]),
    ("10a_clean_keys_that_differ_in_spelling", 5,
     base(group("SAMP", ["LOCA_ID", "SAMP_TOP", "SAMP_REF"], ["BH1", "1.0", "S1"], ["BH1", "1.00", "S1"])), []),
    ("10b_required_entry_null", 5, base(loca=loca(["LOCA_ID"], [""], types=["ID"])), ["10b 44 LOCA_ID"]),
    ("10b_own_required_entry_null", 5,
     base(dictionary(["HEADING", "LOCA", "LOCA_ABCD", "REQUIRED", ""]),
          loca=loca(["LOCA_ID", "LOCA_ABCD"], ["BH1", ""])), ["10b 44 LOCA_ABCD"]),
    ("10c_no_parent_row", 5, base(samp(["BH2", "1.50", "S1", ""])), ["10c 50 SAMP"]),
    ("10c_keys_compared_by_bytes", 5,
     base(group("SAMP", ["LOCA_ID", "SAMP_TOP", "SAMP_REF"], ["BH1", "1.0", "S1"]),
          group("LNMC", ["LOCA_ID", "SAMP_TOP", "SAMP_REF", "SPEC_DPTH"], ["BH1", "1.00", "S1", "1"])),
     ["10c 56 LNMC"]),
    ("10c_clean_every_row_of_a_parent_without_link_headings", 5,
     base(group("ABCD", ["ABCD_ID"], ["1"], ["2"]),
          dictionary(["GROUP", "ABCD", "", "", "LOCA"], ["HEADING", "ABCD", "ABCD_ID", "KEY", ""])), []),
    ("10c_no_parent_row_under_keys_in_another_order", 5, base(*siblings(["2", "x"])), ["10c 64 EFGH"]),
    ("10c_clean_keys_in_another_order", 5, base(*siblings(["2", "y"])), []),
    ("10c_parent_row_in_the_parent_of_the_parent_alone", 5,
     base(group("PARE", ["PARE_ONE"], ["x"], ["y"]), group("ABCD", ["PARE_ONE"], ["x"]),
          group("EFGH", ["PARE_ONE"], ["y"]),
          dictionary(*keyed("PARE", "", "PARE_ONE"), *keyed("ABCD", "PARE", "PARE_ONE"),
                     *keyed("EFGH", "ABCD", "PARE_ONE"))), ["10c 63 EFGH"]),
    ("11c_link_to_no_row", 5, base(samp(["BH1", "1.50", "S1", "SAMP|BH1|2.50|S3"], S2)), ["11c 50 SAMP_LINK"]),
    ("11c_one_part_of_two_names_no_row", 5, base(samp(["BH1", "1.50", "S1", "SAMP|BH1|2.50|S2+LOCA|BH9"], S2)),
     ["11c 50 SAMP_LINK"]),
    ("11c_second_key_left_out", 5, base(samp(["BH1", "1.50", "S1", "SAMP|BH1|2.50"], S2)), ["11c 50 SAMP_LINK"]),
    ("11c_one_key_too_many", 5, base(samp(["BH1", "1.50", "S1", "LOCA|BH1|"])), ["11c 50 SAMP_LINK"]),
    ("11c_clean_two_links", 5, base(samp(["BH1", "1.50", "S1", "SAMP|BH1|2.50|S2+LOCA|BH1"], S2)), []),
    ("11c_clean_ring_of_links", 5,
     base(samp(["BH1", "1.50", "S1", "SAMP|BH1|2.50|S2"], ["BH1", "2.50", "S2", "SAMP|BH1|1.50|S1"])), []),
    ("11c_clean_link_in_a_definition_group", 5,
     base(tran=group("TRAN", ["TRAN_ISNO", "TRAN_DATE"], ["1", "x|y"], types=["X", "RL"])), []),
    ("11c_clean_with_other_separators", 5,
     base(samp(["BH1", "1.50", "S1", "SAMP/BH1/2.50/S2;LOCA/BH1"], S2),
          tran=group("TRAN", ["TRAN_ISNO", "TRAN_DLIM", "TRAN_RCON"], ["1", "/", ";"])), []),
    ("15_unit_not_listed", 5, base(loca=loca(["LOCA_ID", "LOCA_GL"], ["BH1", ""], units=["", "ft"])),
     ["15 42 LOCA_GL"]),
    ("15_unit_that_is_only_a_type", 5, base(loca=loca(["LOCA_ID", "LOCA_GL"], ["BH1", ""], units=["", "ID"])),
     ["15 42 LOCA_GL"]),
    ("15_unit_entry_not_listed", 5, base(loca=loca(["LOCA_ID", "LOCA_GL"], ["BH1", "ft"], types=["ID", "PU"])),
     ["15 44 LOCA_GL"]),
    ("15_clean_unit_entry", 5, base(loca=loca(["LOCA_ID", "LOCA_GL"], ["BH1", "m"], types=["ID", "PU"])), []),
    ("16_abbreviation_not_listed", 5, base(loca=loca(["LOCA_ID", "LOCA_TYPE"], ["BH1", "CP"], types=["ID", "PA"])),
     ["16 44 LOCA_TYPE"]),
    ("16_one_part_of_two_not_listed", 5,
     base(group("ABBR", ["ABBR_HDNG", "ABBR_CODE"], ["LOCA_TYPE", "CP"]),
          loca=loca(["LOCA_ID", "LOCA_TYPE"], ["BH1", "CP+RC"], types=["ID", "PA"])), ["16 44 LOCA_TYPE"]),
    ("16_listed_under_another_heading", 5,
     base(group("ABBR", ["ABBR_HDNG", "ABBR_CODE"], ["LOCA_STAT", "CP"]),
          loca=loca(["LOCA_ID", "LOCA_TYPE"], ["BH1", "CP"], types=["ID", "PA"])), ["16 44 LOCA_TYPE"]),
    ("16_clean_listed_whole", 5,
     base(group("ABBR", ["ABBR_HDNG", "ABBR_CODE"], ["LOCA_TYPE", "CP+RC"]),
          loca=loca(["LOCA_ID", "LOCA_TYPE"], ["BH1", "CP+RC"], types=["ID", "PA"])), []),
    ("16_clean_both_parts_listed", 5,
     base(group("ABBR", ["ABBR_HDNG", "ABBR_CODE"], ["LOCA_TYPE", "CP"], ["LOCA_TYPE", "RC"]),
          loca=loca(["LOCA_ID", "LOCA_TYPE"], ["BH1", "CP+RC"], types=["ID", "PA"])), []),
    ("17_type_not_listed", 5, base(loca=loca(["LOCA_ID"], ["BH1"], types=["U"])), ["17 43 LOCA_ID"]),
    ("17_type_entry_not_listed", 5, base(loca=loca(["LOCA_ID", "LOCA_GL"], ["BH1", "U"], types=["ID", "PT"])),
     ["17 44 LOCA_GL"]),
    ("17_clean_null_type", 5, base(loca=loca(["LOCA_ID", "LOCA_GL"], ["BH1", "x"], types=["ID", ""])), []),
    ("20_file_set_not_listed", 5, base(loca=loca(["LOCA_ID", "FILE_FSET"], ["BH1", "F2"])), ["20 44 FILE_FSET"]),
    ("20_another_file_set_listed", 5,
     base(group("FILE", ["FILE_FSET", "FILE_NAME"], ["F1", "a.pdf"]),
          loca=loca(["LOCA_ID", "FILE_FSET"], ["BH1", "F2"])), ["20 44 FILE_FSET"]),
    ("20_clean_file_set_listed", 5, base(group("FILE", ["FILE_FSET", "FILE_NAME"], ["F1", "a.pdf"], ["F1", "b.pdf"]),
                                         loca=loca(["LOCA_ID", "FILE_FSET"], ["BH1", "F1"])), []),
    # ---- one phase hides the next
    ("first_phase_hides_the_second", 1, at(at(BASE, 44, None), 43, None) + b"x\r\n", ["5 43 -"]),
    ("second_phase_hides_the_third", 2, at(at(BASE, 40, '"GROUP","loca"'), 42, None), ["2b 42 -"]),
    ("third_phase_hides_the_fourth", 3, at(base(tran=None), 34, '"GROUP","loca"'), ["19 34 loca"]),
    ("fourth_phase_hides_the_fifth", 4, base(tran=None, loca=loca(["LOCA_ID"], [""], types=["ID"])), ["14 0 TRAN"]),
    ("findings_sorted_by_line_then_code", 5, base(samp(["BH2", "1.5", "S1", "x"])),
     ["8 50 SAMP_TOP", "10c 50 SAMP", "11c 50 SAMP_LINK"]),
    ("every_phase_1_code", 1, b'\x80\n"A"\r\n\r\r\n', ["1 1 -", "2a 1 -", "5 1 -", "3 2 -", "6 3 -"]),
]


def main():
    table, wrong = ["file\tphase\tprinted"], 0
    for name, phase, data, want in CASES:
        want = want or ["clean"]
        got = reference.printed(reference.findings(data))
        if got != want:
            wrong += 1
            print(f"{name}: by hand {want}, by reference.py {got}")
        with open(os.path.join(FILES, name + ".ags"), "wb") as file:
            file.write(data)
        table.append(f"{name}\t{phase}\t{';'.join(want)}")
    with open(os.path.join(FILES, "expected.tsv"), "w", encoding="latin-1", newline="\n") as file:
        file.write("\n".join(table) + "\n")
    print(f"{len(CASES)} files, {wrong} on which the two differ")
    return 1 if wrong else 0


if __name__ == "__main__":
    raise SystemExit(main())
