"""The second and third phase: the order of rows, and groups by themselves (Rules 2, 2b, 4, 19, 19a, P1, P2)."""
import bisect
import re

import ags
from . import texts

HEADER = (b"GROUP", b"HEADING", b"UNIT", b"TYPE")


def key(context, finding):
    code, line, subject = finding.code, finding.line, finding.subject
    row = context.file.by_line.get(line)
    if code == "2":
        return "2", "file" if line == 0 else "group"
    if code == "2b":
        group = concerned(context.file, line) if row else None
        return "2b", context.kept(("2b", group.line), lambda: signature(group)) if group else ()
    if code == "4" and row:
        above, group = context.heading_row(line), context.file.group_at(line)
        is_of_heading = context.kept(("4", group.line), lambda: is_of_heading_row(group))
        if is_of_heading and row.descriptor not in (b"GROUP", b"HEADING"):
            return "4", subject, "all rows", len(row.items), len(above.items)
        return "4", subject, row.descriptor, len(row.items), len(above.items) if above else 0
    return code, subject


def concerned(file, line):
    """The group whose rows are out of order: a GROUP row that comes too early cuts the group before it short."""
    at = bisect.bisect_right(file.starts, line) - 1
    is_early = at > 0 and file.starts[at] == line and file.by_line[line].descriptor == b"GROUP"
    return file.groups[at - 1 if is_early else at] if at >= 0 else None


def is_of_heading_row(group):
    """Whether all rows of a group have one count of items, which the HEADING row alone has not."""
    rows = [row for row in group.rows if row.descriptor not in (b"GROUP", b"HEADING")]
    return len(rows) > 2 and len({len(row.items) for row in rows}) == 1 and any(any(row.items[len(group.headings):])
        for row in rows)


def signature(group):
    """The descriptors of a group's rows, rows of the same descriptor one after the other as one or two."""
    out = []
    for row in group.rows if group else ():
        if out[-1:] != [row.descriptor] or row.descriptor != b"DATA" and out[-2:] != [row.descriptor] * 2:
            out.append(row.descriptor)
        if len(out) > 12:
            break
    return tuple(out)


def tell(context, key, findings):
    tellers = {"2": no_data, "2b": order, "4": counts, "19": group_name, "19a": heading_name, "P1": group_twice,
               "P2": heading_twice}
    return tellers[key[0]](context, key, findings)


def no_data(context, key, findings):
    if key[1] == "file":
        size = len(context.file.data)
        here = ("The file has no bytes." if size == 0 else "The file has a mark EF BB BF and nothing else."
                if context.file.data == ags.MARK else f"None of its {texts.count(size, 'byte')} belongs to a row.")
        return "", [here], "Export or send the file again. curl without the file that it names sends nothing."
    empty = [finding.subject for finding in findings]
    here = [f"{texts.names(empty)}: no DATA row below the TYPE row."]
    return (texts.names(empty), here,
            "Take the groups without DATA rows out, with their GROUP, HEADING, UNIT and TYPE rows, or add their rows.")


def names_of(group):
    """The group that headings begin with, or None."""
    found = [re.match(rb"[A-Z0-9]{1,4}(?=_)", heading) for row in group for heading in row.items]
    begins = [match[0] for match in found if match]
    return max(sorted(set(begins)), key=begins.count) if begins else None


def without_group_row(group):
    """The first HEADING row of a group after its own, above which a GROUP row is missing, or None."""
    seen = False
    for before, row in zip(group.rows, group.rows[1:]):
        if row.descriptor == b"HEADING" and seen and before.descriptor in (b"DATA", b"TYPE"):
            return row
        seen = seen or row.descriptor in (b"UNIT", b"TYPE", b"DATA")
    return None


def order(context, key, findings):
    """What is wrong with the order of a group's rows."""
    group, line = concerned(context.file, findings[0].line), findings[0].line
    if group is None:
        return "", [], None
    name = (f"Group {ags.shown(group.name)} (line {group.line})" if group.name
            else f"The first rows (from line {group.line})")
    kinds = [row.descriptor for row in group.rows if row.descriptor != b"DATA"]
    lost = without_group_row(group)
    if kinds[:1] != [b"GROUP"]:
        return before_any_group(group)
    if lost:
        begins = names_of([lost])
        says = f": its headings begin with {ags.shown(begins)}_" if begins else ""
        fix = f"Put the row \"GROUP\",\"{ags.shown(begins)}\" above line {lost.line}." if begins else None
        return "GROUP", [f"The GROUP row is missing above the HEADING row in line {lost.line}{says}."], fix
    missing = [one for one in HEADER if one not in kinds]
    twice = next((row for row in group.rows if kinds.count(row.descriptor) > 1
                  and row is not first_of(group, row.descriptor)), None)
    more = len({concerned(context.file, finding.line).line for finding in findings}) - 1
    also = [f"{texts.count(more, 'more group')} in the same way."] if more else []
    if missing:
        return missing_row(context, group, name, missing, also)
    if twice:
        word = ags.shown(twice.descriptor)
        here = [f"{name} has a second {word} row in line {twice.line}."] + also
        if twice.items == first_of(group, twice.descriptor).items and not also:
            return word, here + ["It is the same as the first."], f"Take line {twice.line} out."
        return word, here, f"Take the second {word} row out, or put the GROUP row of its own group above it."
    return order_of(group, name, line, also)


def first_of(group, descriptor):
    return next(row for row in group.rows if row.descriptor == descriptor)


def before_any_group(group):
    first = group.rows[0]
    begins = names_of([row for row in group.rows if row.descriptor == b"HEADING"][:1])
    says = f": the headings begin with {ags.shown(begins)}_" if begins else ""
    fix = f"Put the row \"GROUP\",\"{ags.shown(begins)}\" above line {first.line}." if begins else None
    return "GROUP", [f"The first row, line {first.line}, is {ags.shown(first.descriptor)}; a GROUP row is missing "
                     f"above it{says}."], fix


def missing_row(context, group, name, missing, also):
    """A group lacks a row of its header."""
    words = texts.names(missing)
    above = [first_of(group, one) for one in HEADER[:HEADER.index(missing[0])]][-1]
    after = next((row for row in group.rows if row.line > above.line), None)
    if after is None and group is not context.file.groups[-1]:
        after = context.file.groups[context.file.groups.index(group) + 1].rows[0]
    if after is None:
        here = (f"The file ends after the {ags.shown(above.descriptor)} row in line {above.line}: {words} and DATA "
                f"rows of {ags.shown(group.name)} are missing. Was it cut off?")
        return words, [here] + also, "Get the whole file again; if it is whole, add the missing rows."
    place = (f"between line {above.line} ({ags.shown(above.descriptor)}) and line {after.line} "
             f"({ags.shown(after.descriptor)})")
    here = (f"{name} has no {words} row{'' if len(missing) == 1 else 's'}: "
            f"{'it belongs' if len(missing) == 1 else 'they belong'} {place}.")
    row = missing_header(context, group, missing[0]) if b"HEADING" not in missing else None
    if row is None:
        return words, [here] + also, None
    count = texts.count(len(row) - 1, "item")
    fix = f"Add this row {place}, with {count}, one for each heading:"
    return words, [here] + also + said_of_header(context, group, missing[0]), fix, [ags.shown(ags.line_of(row))]


def missing_header(context, group, descriptor):
    """The fields of the UNIT or TYPE row that a group lacks, with the units or types of the dictionary; None for
    another row."""
    words, name = context.words, name_of(context, group)
    headings = known_headings(context, group)
    if descriptor == b"UNIT":
        return [descriptor, *(words.unit(name, heading) for heading in headings)]
    if descriptor == b"TYPE":
        return [descriptor, *(words.kind(name, heading) or b"X" for heading in headings)]
    return None


def known_headings(context, group):
    """The headings of a group, in capitals where the dictionary has them so."""
    known = context.words.places.get(name_of(context, group), {})
    return [heading.strip().upper() if heading.strip().upper() in known else heading for heading in group.headings]


def name_of(context, group):
    """The name of a group, in capitals where the dictionary has it so."""
    upper = group.name.strip().upper()
    return group.name if context.words.has_group(group.name) or not context.words.has_group(upper) else upper


def said_of_header(context, group, descriptor):
    """What the dictionary does not say of the headings of a missing row."""
    words, name = context.words, name_of(context, group)
    if not any(words.kind(name, heading) for heading in words.order(name)):
        return ["The dictionary has no types and no units: write the real "
                + ("types, as ID, 2DP, RL or PA, since X takes any text." if descriptor == b"TYPE"
                   else "units, as m or kPa, where an entry has one.")]
    lacks = [heading for heading in known_headings(context, group) if heading not in words.order(name)]
    if lacks:
        return [f"The dictionary does not have {texts.names(lacks)}: write its "
                f"{'type, since X takes any text' if descriptor == b'TYPE' else 'unit, if it has one'}."]
    return ["The " + ("types" if descriptor == b"TYPE" else "units") + " are those of the dictionary."]


def order_of(group, name, line, also):
    """A group has each row of its header, in another order."""
    header = sorted((first_of(group, one) for one in HEADER), key=lambda row: row.line)
    rows = ", ".join(f"{ags.shown(row.descriptor)} (line {row.line})" for row in header)
    data = [row for row in group.data if row.line < header[-1].line]
    here = [f"{name} has its rows in the order {rows}; it has to be GROUP, HEADING, UNIT, TYPE, then DATA."]
    if data:
        here.append(f"{texts.count(len(data), 'DATA row')} from line {data[0].line} above the "
                    f"{ags.shown(header[-1].descriptor)} row.")
    return "order", here + also, None


def counts(context, key, findings):
    """A row has more or fewer items than its HEADING row."""
    _, subject, descriptor, items, wanted = key
    row, above = context.file.by_line[findings[0].line], context.heading_row(findings[0].line)
    here, at = [], texts.lines(finding.line for finding in findings)
    if descriptor == "all rows":
        return heading_row_count(context, items, wanted, above, findings)
    word = ags.shown(descriptor)
    if descriptor == b"GROUP":
        here.append(f"The GROUP row has {texts.count(items, 'item')} ({at}); it has one, the group's name.")
        fix = f"Write line {row.line} as: {texts.row(b'GROUP', row.items[:1])}" if items else None
        if items > 1 and not any(row.items[1:]):
            here.append("What is too many is null, as spreadsheets pad short rows.")
        return str(items), here, fix
    if descriptor == b"HEADING" or above is None:
        return str(items), [f"The HEADING row has no headings ({at})."], "Name the headings of the group in it."
    is_one = len(findings) == 1
    here.append(f"{texts.count(len(findings), word + ' row')} ({at}) {'has' if is_one else 'have'} "
                f"{texts.count(items, 'item')}, and the HEADING row (line {above.line}) has "
                f"{texts.count(wanted, 'heading')}: "
                f"{texts.count(abs(items - wanted), 'item')} too {'many' if items > wanted else 'few'}.")
    return str(items), here + count_hints(context, row, above, findings), count_fix(row, above)


def heading_row_count(context, items, wanted, above, findings):
    """All rows of a group have the same count of items, and the HEADING row another."""
    group = context.file.group_at(above.line)
    word = "few" if wanted < items else "many"
    here = [f"The HEADING row (line {above.line}) has {texts.count(wanted, 'heading')}, and all other rows of "
            f"{ags.shown(group.name)} have {texts.count(items, 'item')}: {texts.count(abs(items - wanted), 'heading')} "
            f"too {word}."]
    absent = [heading for heading in context.words.order(group.name) if heading not in group.columns]
    if wanted < items and absent:
        here.append(f"Headings of {ags.shown(group.name)} in the dictionary that it does not have: "
                    f"{texts.names(absent, 8)}.")
    fix = "Name the heading that is missing" if wanted < items else "Take the heading out that has no items"
    return str(items), here, f"{fix} in the HEADING row, line {above.line}."


def count_hints(context, row, above, findings):
    hints = []
    if len(row.items) > len(above.items) and not any(row.items[len(above.items):]):
        hints.append("What is too many is null, as spreadsheets pad short rows.")
    elif len(row.items) < len(above.items):
        hints.append(f"Without an item at the end of the row: {texts.names(above.items[len(row.items):])}.")
    else:
        hints.append(f"The first item beyond the headings is {texts.value(row.items[len(above.items)])}.")
    return hints


def count_fix(row, above):
    spare = row.items[len(above.items):]
    if len(row.items) < len(above.items):
        return 'Give the row an item for each heading, "" for a null, in the order of the headings.'
    return ("Take the empty items at the end out." if not any(spare)
            else "Take the item that is too many out, or name its heading in the HEADING row.")


def group_name(context, key, findings):
    name = findings[0].subject
    upper = name.strip().upper()
    near = upper if context.words.has_group(upper) else context.near_group(name)
    here = [f"{texts.value(name)} is no name of a group: one to four capital letters or digits."]
    if len(name) > 4:
        here.append(f"It has {len(name)} characters.")
    return (ags.shown(name), here,
            f"Write {ags.shown(near)} ({texts.lines(f.line for f in findings)})." if near else None)


def heading_name(context, key, findings):
    name, group = findings[0].subject, context.file.group_at(findings[0].line)
    upper = name.strip().upper()
    known = group is not None and (group.name, upper) in context.words.status
    near = upper if known else context.near_heading(group.name, name) if group else None
    here = [f"{texts.value(name)} is no name of a heading: one to nine capital letters, digits or underscores."]
    if len(name) > 9:
        here.append(f"It has {len(name)} characters.")
    fix = None
    if near:
        fix = f"Write {ags.shown(near)}."
    elif name == b"" and group:
        fix = fix_of_empty(group)
    return ags.shown(name), here, fix


def fix_of_empty(group):
    """A heading without a name goes where nothing is under it, and else gets a name."""
    empty = {at for at, heading in enumerate(group.headings) if not heading}
    row = next((row for row in group.data if any(row.items[at:at + 1] > [b""] for at in empty)), None)
    if row is not None:
        return f"Name the heading that belongs there: line {row.line} has an entry under it."
    which = "empty item" if len(empty) == 1 else f"{len(empty)} empty items"
    return f"Take the {which} out of the HEADING row, with the items under {'it' if len(empty) == 1 else 'them'}."


def group_twice(context, key, findings):
    name = findings[0].subject
    first = context.file.by_name[name]
    here, same = [], True
    for finding in findings:
        again = context.file.group_at(finding.line)
        same = same and again.headings == first.headings
        here.append(f"{ags.shown(name)} is in line {first.line} and again in line {finding.line}, with "
                    f"{texts.count(len(again.data), 'DATA row')}.")
    here = here[:4]
    if same:
        moved = [rows_from(context.file.group_at(finding.line)) for finding in findings]
        last = (first.data or first.rows)[-1].line
        fix = (f"Move the DATA rows ({texts.listing(moved, len(moved))}) below the last DATA row of the first, line "
               f"{last}, and take the {'second header' if len(moved) == 1 else 'other headers'} out.")
        return ags.shown(name), here + ["Its headings are the same in each place."], fix
    return ags.shown(name), here + ["Its headings differ."], \
        "Put all rows under one HEADING row with the headings of both, and \"\" where a row has no entry."


def rows_from(group):
    """The DATA rows of a group, in words."""
    first, last = (group.data or group.rows)[0].line, (group.data or group.rows)[-1].line
    return f"line {first}" if first == last else f"lines {first} to {last}"


def heading_twice(context, key, findings):
    name, group = findings[0].subject, context.file.group_at(findings[0].line)
    columns = [column for column, heading in enumerate(group.headings) if heading == name]
    equal = all(len({row.items[column] for column in columns if column < len(row.items)}) <= 1
                for row in group.rows[1:])
    here = [f"{ags.shown(name) or 'The empty heading'} is heading "
            f"{texts.listing([str(column + 1) for column in columns])} of the HEADING row "
            f"in line {group.heading.line}."]
    here.append("What is under them is the same in each row." if equal else "What is under them differs.")
    return (ags.shown(name), here,
            "Keep the first of them, and take what repeats it out, with its item in each row." if equal
            else "Give one of the two its right name, or take it out with its item in each row.")
