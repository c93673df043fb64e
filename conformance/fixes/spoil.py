"""Mistakes put into a clean file, apart from what fixes them.

    file = File(groups)                                # of conformance/clean_files.py
    mistakes = chosen(chance, is_published)
    data = spoil(file, chance, mistakes)               # bytes with these mistakes
A mistake of the first kind is one that can be put right without a loss, so that the file's contents are those of
before. One of the other kind needs a person: its rows stay as they are."""
import re

from clean_files import HEADS, Group, text, used_units


class File:
    """The groups of a file, which mistakes change."""

    def __init__(self, groups):
        self.groups = groups

    def group(self, name):
        return next((group for group in self.groups if group.name == name), None)

    def of_data(self):
        """The groups that are no lists and have the rows of results."""
        return [group for group in self.groups if group.name not in HEADS]

    def columns(self, is_wanted):
        """Each group and place of a heading with such a unit and type."""
        return [(group, at) for group in self.groups for at, (unit, kind) in enumerate(zip(group.units, group.types))
                if is_wanted(unit, kind)]

    def text(self):
        return text(self.groups)


# ---- of groups: what a row has is changed before it is written

def zeros_left_out(file, chance):
    group, at = chance.choice(file.columns(lambda unit, kind: kind == "2DP"))
    heading = group.headings[at]
    for other in file.groups:
        if heading in other.headings:
            column = other.column(heading)
            for row in other.rows:
                row[column] = row[column][:-1] if re.fullmatch(r"[0-9.]+0", row[column]) else row[column]


def decimal_commas(file, chance):
    for group in file.groups:
        for row in group.rows if "LOCA_GL" in group.headings else ():
            row[group.column("LOCA_GL")] = row[group.column("LOCA_GL")].replace(".", ",")


def days_first(file, chance):
    group, at = chance.choice(file.columns(lambda unit, kind: unit.startswith("yyyy-mm-dd")))
    for row in group.rows:
        row[at] = re.sub(r"^(\d+)-(\d+)-(\d+)T?", lambda found: f"{found[3]}/{found[2]}/{found[1]} ", row[at]).strip()


def row_twice(file, chance):
    group = chance.choice(file.groups)
    at = chance.randrange(len(group.rows))
    group.rows.insert(at + 1, list(group.rows[at]))


def null_row(file, chance):
    group = chance.choice(file.of_data())
    group.rows.insert(chance.randrange(len(group.rows)) + 1, [""] * len(group.headings))


def headings_out_of_order(file, chance):
    group = chance.choice([group for group in file.groups if len(group.headings) > 2])
    order = list(range(len(group.headings)))
    while order == sorted(order):
        chance.shuffle(order)
    group.headings, group.units, group.types = ([given[at] for at in order] for given in (group.headings, group.units,
                                                                                          group.types))
    group.rows = [[row[at] for at in order] for row in group.rows]


def used(file, name):
    """What a file uses of what a list has, each as the first entries of its row."""
    if name == "UNIT":
        return {(unit,) for unit in used_units(file.groups)}
    if name == "TYPE":
        return {(kind,) for group in file.groups for kind in group.types}
    sign = file.group("TRAN").rows[0][file.group("TRAN").column("TRAN_RCON")]
    return {(group.headings[at], code) for group, at in file.columns(lambda unit, kind: kind == "PA")
            for row in group.rows for code in row[at].split(sign)}


def row_of_list_left_out(file, chance):
    """Leaves out a row that the file uses: where a person's mistake has taken away the last use of a code, its row can
    go without a finding."""
    name, size = chance.choice([("UNIT", 1), ("TYPE", 1), ("ABBR", 2)])
    group = file.group(name)
    rows = [at for at, row in enumerate(group.rows) if tuple(row[:size]) in used(file, name)] if group else []
    if rows and len(group.rows) > 1:
        del group.rows[chance.choice(rows)]


def list_left_out(file, chance):
    name = chance.choice(["UNIT", "TYPE"])
    file.groups = [group for group in file.groups if group.name != name]


def group_in_two(file, chance):
    group = chance.choice([group for group in file.of_data() if len(group.rows) > 1])
    at = chance.randrange(1, len(group.rows))
    again = Group(group.name, group.headings, group.units, group.types, group.rows[at:])
    group.rows = group.rows[:at]
    file.groups.append(again)


def yes_in_full(file, chance):
    group = file.group("LNMC")
    for row in group.rows if "YN" in group.types else ():
        at = group.types.index("YN")
        row[at] = {"Y": "Yes", "N": "No"}.get(row[at], row[at])


def space_in_code(file, chance):
    group = file.group("LOCA")
    at = group.column("LOCA_STAT")
    codes = [row[at] for row in group.rows]
    several = [row for row in group.rows if row[at] and codes.count(row[at]) > 1]
    if several:
        several[0][at] += " "


# ---- of lines: what is written is changed

def name_in_lower_case(lines, chance):
    at = chance.choice([at for at, line in enumerate(lines) if line.startswith('"GROUP"')])
    lines[at] = '"GROUP"' + lines[at][7:].title()


def heading_in_lower_case(lines, chance):
    at = chance.choice([at for at, line in enumerate(lines) if line.startswith('"HEADING"')])
    names = lines[at].split(",")
    one = chance.randrange(1, len(names))
    names[one] = names[one].title()
    lines[at] = ",".join(names)


def descriptor_in_lower_case(lines, chance):
    at = chance.choice([at for at, line in enumerate(lines) if line.startswith('"DATA"')])
    lines[at] = '"Data"' + lines[at][6:]


def unit_row_left_out(lines, chance):
    at = chance.choice([at for at, line in enumerate(lines) if line.startswith('"UNIT"')])
    del lines[at]


def type_row_left_out(lines, chance):
    at = chance.choice([at for at, line in enumerate(lines) if line.startswith('"TYPE"')])
    del lines[at]


def header_exchanged(lines, chance):
    at = chance.choice([at for at, line in enumerate(lines) if line.startswith('"UNIT"') and lines[at + 1:at + 2]
                        and lines[at + 1].startswith('"TYPE"')])
    lines[at], lines[at + 1] = lines[at + 1], lines[at]


def padded_with_nulls(lines, chance):
    for at, line in enumerate(lines):
        if line.startswith('"DATA"') and chance.random() < 0.3:
            lines[at] = line + ',"",""'


def padded_with_commas(lines, chance):
    for at, line in enumerate(lines):
        if chance.random() < 0.3:
            lines[at] = line + ",,," if line else ",,,,,"


def fields_without_quotes(lines, chance):
    for at, line in enumerate(lines):
        if line.startswith('"DATA"') and '""' not in line and chance.random() < 0.3:
            lines[at] = re.sub(r'"([0-9][0-9.]*)"', r"\1", line)


def nulls_without_quotes(lines, chance):
    for at, line in enumerate(lines):
        if line.startswith('"DATA"') and ',"",' in line and chance.random() < 0.5:
            lines[at] = line.replace(',"",', ",,")


def tabs(lines, chance):
    for at, line in enumerate(lines):
        if line and chance.random() < 0.2:
            lines[at] = line + "\t"


def spaces_beside(lines, chance):
    for at, line in enumerate(lines):
        if line and chance.random() < 0.2:
            lines[at] = "  " + line.replace('","', '" , "') + " "


def beyond_ascii(lines, chance):
    for at, line in enumerate(lines):
        lines[at] = line.replace(" deg", " \u00b0").replace("m2\"", "m\u00b2\"").replace(" - ", " \u2013 ").replace(
            "10^3", "10\u00b3").replace("2 1/2", "2\u00bd")


def mark_within(lines, chance):
    at = chance.choice([at for at, line in enumerate(lines) if line.startswith('"GROUP"')])
    lines[at] = "\ufeff" + lines[at]


def as_unix(data, chance):
    return data.replace(b"\r\n", b"\n")


def some_as_unix(data, chance):
    return data.replace(b"\r\n", b"\n", chance.randrange(1, 30))


def converted_twice(data, chance):
    return data.replace(b"\r\n", b"\r\r\n")


def as_utf16(data, chance):
    return b"\xff\xfe" + data.decode("utf-8").encode("utf-16-le")


# ---- what needs a person

def parent_left_out(file, chance):
    group = file.group("LOCA")
    del group.rows[chance.randrange(len(group.rows))]
    return "10c"


def key_with_other_entry(file, chance):
    group = chance.choice([group for group in (file.group("ISPT"), file.group("LNMC")) if group])
    row = list(chance.choice(group.rows))
    at = group.column("ISPT_NVAL" if group.name == "ISPT" else "LNMC_MC")
    row[at] = "99" if row[at] != "99" else "98"
    group.rows.append(row)
    return "10a"


def code_without_meaning(file, chance):
    group = file.group("LOCA")
    chance.choice(group.rows)[group.column("LOCA_TYPE")] = "QQ9"
    return "16"


def result_no_number(file, chance):
    group = file.group("LOCA")
    chance.choice(group.rows)[group.column("LOCA_GL")] = chance.choice(["<50", "NP", "dry", ">100"])
    return "8"


def too_many_decimals(file, chance):
    group = file.group("LOCA")
    chance.choice(group.rows)[group.column("LOCA_GL")] = "12.3456"
    return "8"


def field_left_out(file, chance):
    group = file.group("LNMC")
    row = chance.choice(group.rows)
    del row[-1]
    return "4"


def parents_left_out(file, chance):
    file.groups = [group for group in file.groups if group.name != "LOCA"]
    return "10c"


def two_projects(file, chance):
    group = file.group("PROJ")
    group.rows.append(["P8", *group.rows[0][1:]])
    return "13"


OF_GROUPS = (zeros_left_out, decimal_commas, days_first, row_twice, null_row, headings_out_of_order,
             row_of_list_left_out,
             list_left_out, group_in_two, yes_in_full, space_in_code)
OF_LINES = (name_in_lower_case, heading_in_lower_case, descriptor_in_lower_case, header_exchanged, padded_with_nulls,
            padded_with_commas, fields_without_quotes, nulls_without_quotes, tabs, spaces_beside, beyond_ascii,
            mark_within)
# These need units and types of the dictionary, which the built-in one does not have.
OF_PUBLISHED = (unit_row_left_out, type_row_left_out)
OF_BYTES = (as_unix, some_as_unix, converted_twice, as_utf16)
OF_PERSON = (parent_left_out, key_with_other_entry, code_without_meaning, result_no_number, too_many_decimals,
             field_left_out, parents_left_out, two_projects)


# What hides a mistake that needs a person, or makes it another one.
APART = {result_no_number: {decimal_commas}, too_many_decimals: {decimal_commas},
         parents_left_out: {decimal_commas, space_in_code, row_of_list_left_out, list_left_out},
         field_left_out: {padded_with_nulls, padded_with_commas, nulls_without_quotes, fields_without_quotes,
                          headings_out_of_order, yes_in_full}}


def spoil(file, chance, mistakes):
    """The bytes of a file with these mistakes of the first kind."""
    for mistake in mistakes:
        if mistake in OF_GROUPS:
            mistake(file, chance)
    lines = file.text().decode().split("\r\n")[:-1]
    for mistake in mistakes:
        if mistake in OF_LINES or mistake in OF_PUBLISHED:
            mistake(lines, chance)
    data = ("\r\n".join(lines) + "\r\n").encode("utf-8")
    for mistake in mistakes:
        if mistake in OF_BYTES:
            data = mistake(data, chance)
    return data


def chosen(chance, is_published, of_person=None):
    """One to five mistakes of the first kind, none of which hides one that needs a person."""
    every = OF_GROUPS + OF_LINES + (OF_PUBLISHED if is_published else ()) + OF_BYTES
    every = [mistake for mistake in every if mistake not in APART.get(of_person, ())]
    found = chance.sample(every, chance.randint(1, 5))
    return [mistake for mistake in found if mistake not in OF_BYTES] + [mistake for mistake in found
                                                                        if mistake in OF_BYTES][:1]
