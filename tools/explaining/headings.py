"""The fourth phase: groups against the dictionary (Rules 7, 9, 10a, 10b, 10c, 11a, 11b, 13, 14, 15, 17, 18, 19b)."""
import bisect

import ags
from . import additions, lists, texts
from .groups import names_of

WANTED = {b"PROJ": "one DATA row that names the project", b"TRAN": "one DATA row that tells of the transmission",
          b"UNIT": "a DATA row for each unit that is used", b"TYPE": "a DATA row for each type that is used"}


def key(context, finding):
    code, line, subject = finding.code, finding.line, finding.subject
    row, group = context.file.by_line.get(line), context.file.group_at(line)
    if code in ("9", "18"):
        return name_key(context, code, subject, row, group)
    if code == "7":
        return "7", line
    if code in ("13", "14") and line:
        return code, "rows"
    if code == "10c":
        return code, "group", context.words.parent(subject)
    return (code, "heading" if row and row.descriptor == b"HEADING" else "group", subject,
            group.name if group and line else b"")


def name_key(context, code, subject, row, group):
    """Unknown names are a cause each. Under the built-in dictionary those of a file with unknown groups are one."""
    is_group = row is not None and row.descriptor == b"GROUP"
    if context.standard.is_built_in and context.has_strange_groups:
        near = context.near_group(subject) if is_group else context.near_heading(group.name, subject) if group else None
        if near is None:
            return code, "names"
    if is_group or group is None:
        return code, "group", subject
    if context.near_heading(group.name, subject) is None:
        return code, "headings"
    return code, "heading", subject, group.name


def tell(context, key, findings):
    code = key[0]
    if code in ("9", "18"):
        tellers = {"heading": unknown_heading, "headings": own_headings, "group": unknown_group, "names": unknown_names}
        return tellers[key[1]](context, key, findings)
    if code == "7":
        return order(context, key, findings)
    if code in ("10a", "10b"):
        return absent_heading(context, key, findings)
    tellers = {"10c": absent_parent, "11a": sign, "11b": sign, "13": one_row, "14": one_row, "15": one_row,
               "17": one_row, "19b": own_name}
    return tellers[code](context, key, findings)


def edition(context):
    """Whether the name may be one of another edition."""
    says = ags.shown(context.file.entry_of(b"TRAN", b"TRAN_AGS"))
    named = context.standard.edition
    here = f"the dictionary is of {ags.shown(named)}" if named else "the dictionary names no edition"
    if context.standard.is_built_in:
        here = "the built-in dictionary has ten groups alone"
    return f"Known under another edition? TRAN_AGS says {says or 'nothing'}; {here}."


def unknown_names(context, key, findings):
    """Groups and headings that the built-in dictionary does not have."""
    strange = [f.subject for f in findings if context.file.by_line[f.line].descriptor == b"GROUP"]
    others = [f.subject for f in findings if context.file.by_line[f.line].descriptor == b"HEADING"]
    here = []
    if strange:
        here.append(f"The built-in dictionary has ten groups, and not {texts.names(strange)}.")
    if others:
        here.append(f"The built-in dictionary does not have {texts.count(len(others), 'heading')} of this file: "
                    f"{texts.names(others)}.")
    fix = ("Check under the dictionary that has them, as the published one: "
           "bin/groundreg check --dictionary DICT.ags FILE")
    return texts.names(strange or others), here + [edition(context)], fix


def unknown_group(context, key, findings):
    name = findings[0].subject
    here = [f"{ags.shown(name)} is no group of the dictionary, nor of the file's DICT."]
    near, heading = context.near_group(name), context.file.by_name[name].heading
    if near and near not in context.file.by_name and not (heading and names_of([heading]) == name):
        return (ags.shown(name), here + [f"The nearest name is {ags.shown(near)}."],
                f"Write {ags.shown(near)} instead of {ags.shown(name)} in {texts.lines(f.line for f in findings)}, if "
                f"that "
                "is meant.")
    fix = (f"Check under the dictionary that has it; or, if the group is the file's own, add these rows "
           f"{additions.place_of(context, b'DICT')}:")
    return ags.shown(name), here + [edition(context)], fix, additions.block(context, b"DICT", own_group(context, name))


def own_group(context, name):
    """What the file's DICT has to have for a group of its own: the group and its headings. The deepest group whose KEY
    headings it has is the one that it belongs to."""
    group, words = context.file.by_name[name], context.words
    above = [other for other in words.parents if words.keys(other) and other in context.file.by_name
             and set(words.keys(other)) <= set(group.headings)]
    parent = max(above, key=lambda other: (len(words.keys(other)), words.depth(other)), default=b"PROJ")
    entries = [{b"DICT_TYPE": b"GROUP", b"DICT_GRP": name, b"DICT_HDNG": b"", b"DICT_DESC": None, b"DICT_PGRP": parent}]
    return entries + [own_entry(context, group, heading, b"KEY" if heading in words.keys(parent) else b"OTHER")
                      for heading in group.headings]


def unknown_heading(context, key, findings):
    """A heading that is nearly one of the dictionary."""
    heading, group = findings[0].subject, context.file.group_at(findings[0].line)
    near = context.near_heading(group.name, heading)
    here = [f"{ags.shown(heading)} is no heading of {ags.shown(group.name)} in the dictionary, nor in the file's DICT.",
            f"The nearest heading of {ags.shown(group.name)} that its HEADING row does not have is {ags.shown(near)}."]
    fix = (f"Write {ags.shown(near)} instead of {ags.shown(heading)} in line {group.heading.line}, if that is meant; "
           f"else "
           f"add this row {additions.place_of(context, b'DICT')}:")
    return (ags.shown(heading), here, fix,
            additions.block(context, b"DICT", [own_entry(context, group, heading)]))


def own_headings(context, key, findings):
    """Headings that no dictionary has: the rows that define them, as one block, in the order of their HEADING rows."""
    given = sorted(((context.file.group_at(finding.line), finding.subject) for finding in findings),
                   key=lambda one: (one[0].line, one[0].columns[one[1]]))
    here = [said_of_heading(context, group, heading) for group, heading in given[:lists.MOST_SAID]]
    if len(given) > lists.MOST_SAID:
        here.append(f"Nor does it have {texts.count(len(given) - lists.MOST_SAID, 'more heading')}; each is in the "
                    f"rows below.")
    moved = [words for group in {group.line: group for group, _ in given}.values() for words in moves(context, group)]
    is_one, has_dict = len(given) == 1, b"DICT" in context.file.by_name
    what = ("this group" if not has_dict else "this row" if is_one else "these rows")
    fix = (f"{' '.join(moved)}{'Define' if not moved else ' Then define'} {'it' if is_one else 'them'} in the file's "
           f"group "
           f"DICT: add {what} {additions.place_of(context, b'DICT')}:")
    return (texts.names([heading for _, heading in given]), here + [edition(context)], fix,
            additions.block(context, b"DICT", [own_entry(context, group, heading) for group, heading in given]))


def said_of_heading(context, group, heading):
    others = [name for name in context.words.groups_of.get(heading, ()) if name != group.name]
    of = f" It is a heading of {texts.names(others, 4)}." if others else ""
    return (f"{ags.shown(heading)} is no heading of {ags.shown(group.name)} in the dictionary, nor in the file's "
            f"DICT.{of}")


def moves(context, group):
    """How the headings of a group are written once its own are defined: after those of the dictionary (Rule 7)."""
    right = right_order(context, group)
    if right == group.headings:
        return []
    return [f"Write the headings of line {group.heading.line} as {', '.join(map(ags.shown, right))}, and the items of "
            f"each "
            f"row of {ags.shown(group.name)} in the same order: own headings come after those of the dictionary."]


def own_entry(context, group, heading, status=b"OTHER"):
    """What the file's DICT has to have for a heading; its text is to be written."""
    return {b"DICT_TYPE": b"HEADING", b"DICT_GRP": group.name, b"DICT_HDNG": heading, b"DICT_STAT": status,
            b"DICT_DTYP": group.kind(heading), b"DICT_DESC": None, b"DICT_UNIT": group.measure(heading),
            b"DICT_PGRP": b""}


def longest_in_order(places):
    """The places in the list of one longest run that rises, the earliest of its kind."""
    tails, at, before = [], [], []
    for here, place in enumerate(places):
        size = bisect.bisect_left(tails, place)
        before.append(at[size - 1] if size else None)
        tails[size:size + 1] = [place]
        at[size:size + 1] = [here]
    out, last = [], at[-1] if at else None
    while last is not None:
        out.append(last)
        last = before[last]
    return out[::-1]


def right_order(context, group):
    """The headings of a group in the order of the dictionary, and after them those that it does not have: the place
    that is theirs once the file's DICT defines them too."""
    places = context.words.places.get(group.name, {})
    known = sorted((heading for heading in group.headings if heading in places), key=places.get)
    return known + [heading for heading in group.headings if heading not in places]


def order(context, key, findings):
    """The headings that have to move, and not those that they passed."""
    group = context.file.group_at(findings[0].line)
    places = context.words.places[group.name]
    known = [heading for heading in group.headings if heading in places]
    kept = {known[at] for at in longest_in_order([places[heading] for heading in known])}
    right = sorted(known, key=places.get)
    here = []
    moved = [heading for heading in known if heading not in kept]
    for heading in moved[:6]:
        at = right.index(heading)
        where = f"after {ags.shown(right[at - 1])}" if at else f"before {ags.shown(right[1])}"
        here.append(f"{ags.shown(heading)} has to move: it belongs {where}.")
    if len(moved) > 6:
        here.append(f"{len(moved) - 6} more headings have to move.")
    passed = [heading for heading in dict.fromkeys(finding.subject for finding in findings) if heading in kept]
    if passed:
        here.append(f"{texts.names(passed, 5)} can stay: "
                    f"{'a heading that has to move comes' if len(moved) == 1 else 'headings that have to move come'} "
                    "first.")
    own = [heading for heading in known if (group.name, heading) in context.words.own]
    if own:
        here.append(f"{texts.names(own)} {'is' if len(own) == 1 else 'are'} in the file's own DICT, and not in the "
                    "dictionary: own headings come after those of the dictionary.")
    return (texts.names(moved), here,
            f"Write the headings of line {group.heading.line} as "
            f"{', '.join(map(ags.shown, right_order(context, group)))}, "
            f"and the items of each row of {ags.shown(group.name)} in the same order.")


def absent_heading(context, key, findings):
    heading, group = findings[0].subject, context.file.group_at(findings[0].line)
    what, all_of = ("KEY", context.words.keys(group.name)) if key[0] == "10a" else ("REQUIRED",
        context.words.required(group.name))
    here = [f"The {what} heading {ags.shown(heading)} is not in the HEADING row of {ags.shown(group.name)}, line "
            f"{group.heading.line}."]
    here.append(f"{what} headings of {ags.shown(group.name)}: {texts.names(all_of, 12)}.")
    strange = [name for name in group.headings if name not in context.words.places.get(group.name, {})]
    near = next((name for name in strange if context.near_heading(group.name, name) == heading), None)
    if near:
        here.append(f"Is {ags.shown(near)} meant for it? The dictionary does not have that one.")
    return (ags.shown(heading), here,
            f"Add {ags.shown(heading)} to the HEADING row, and an item to each other row of {ags.shown(group.name)}: "
            "its unit, its type and "
            f"{'the entry that makes the row its own' if key[0] == '10a' else 'an entry that is not null'}.")


def absent_parent(context, key, findings):
    """The parent group is missing: which group, and the rows that it has to have, as one block."""
    parent, needed = key[2], {}
    for finding in findings:
        group = context.file.by_name[finding.subject]
        joined = context.words.link_headings(parent, group)
        needed.update(((joined, group.entries(row, joined)), None) for row in group.data if any(row.items))
    names, over = texts.names([finding.subject for finding in findings]), ags.shown(parent)
    belong = "belongs" if len(findings) == 1 else "belong"
    here = [f"{names} {belong} to the group {over}, and the file has no group {over}."]
    if not any(joined for joined, _ in needed):
        return over, here, f"Add the group {over}."
    rows = [f"({texts.pairs(joined, entries)})" for joined, entries in needed]
    here.append(f"Its rows need {texts.count(len(rows), over + ' row')}: {texts.listing(rows, 3)}.")
    keys = context.words.keys(parent)
    fix = (f"Add the group {over}, with the KEY heading{'s' * (len(keys) > 1)} {texts.names(keys, 12)} and these rows, "
           f"{additions.place_of(context, parent)}:")
    entries = [dict(zip(joined, entries)) for joined, entries in needed]
    return over, here, fix, additions.block(context, parent, entries)


def sign(context, key, findings):
    heading = findings[0].subject
    given, usual = context.file.entry_of(b"TRAN", heading), "|" if key[0] == "11a" else "+"
    here = [f"{ags.shown(heading)} is {texts.value(given)}, which has {len(given)} characters; it has one."]
    return ags.shown(given), here, f"Write one character, such as \"{usual}\"."


def one_row(context, key, findings):
    name = findings[0].subject
    if findings[0].line == 0:
        return absent_group(context, name)
    rows = context.file.by_name[name].data
    here = [f"{ags.shown(name)} has {texts.count(len(rows), 'DATA row')}, from line {rows[0].line} to line "
            f"{rows[-1].line}; it has one."]
    if all(row.items == rows[0].items for row in rows[1:]):
        return (ags.shown(name), here + ["Each is the same as the first."],
                f"Take {texts.lines(row.line for row in rows[1:])} out.")
    group = context.file.by_name[name]
    differ = [heading for heading in group.headings if len({group.entry(row, heading) for row in rows}) > 1]
    here.append(f"They differ in {texts.names(differ, 5)}.")
    return (ags.shown(name), here,
            f"A person decides: keep one of {texts.lines(row.line for row in rows)}, and take the others out.")


def absent_group(context, name):
    """A group that each file has is missing: it is added whole."""
    near = next((other for other in context.file.by_name if other.upper() == name and other != name), None)
    here = [f"The file has no group {ags.shown(name)}, with {WANTED[name]}."]
    here += [f"It has {ags.shown(near)}."] if near else headings_of(context, name)
    if name in (b"UNIT", b"TYPE"):
        code = "15" if name == b"UNIT" else "17"
        entries = [lists.entry_of(context, code, value) for value in lists.used(context, code)]
    else:
        entries = [{b"TRAN_DLIM": b"|", b"TRAN_RCON": b"+"} if name == b"TRAN" else {}]
    if not entries:
        return ags.shown(name), here, f"Add the group {ags.shown(name)}, with {WANTED[name]}."
    return (ags.shown(name), here, f"Add this group {additions.place_of(context, name)}:",
            additions.block(context, name, entries))


def headings_of(context, name):
    """The headings of a group in the order of the dictionary, and which of them are KEY and REQUIRED."""
    words = context.words
    lists = ((f"Headings of {ags.shown(name)}", words.order(name)), ("KEY headings", words.keys(name)),
             ("REQUIRED headings", words.required(name)))
    return [f"{what}: {texts.names(given, 20)}." for what, given in lists if given]


def own_name(context, key, findings):
    heading, group = findings[0].subject, context.file.group_at(findings[0].line)
    begins = ags.shown(group.name) + "_"
    here = [f"{ags.shown(heading)} is one of the file's own headings of {ags.shown(group.name)}: it has to begin with "
            f"{begins}, or be a heading of another group."]
    rest = ags.shown(heading.removeprefix(group.name)).rpartition("_")[2] or "X"
    right = (begins + rest)[:9]
    return ags.shown(heading), here, f"Name it {right}, say, in the HEADING row and in DICT."
