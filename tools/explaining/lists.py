"""What has to be listed (Rules 15, 16, 17 and 20): units, types, abbreviations and file sets.

A value that is another spelling of a listed one is a cause of its own. All others of a list are one cause, whose fix is
the rows to add as one block."""
import ags
from . import additions, texts, units
from .near import difference

MOST_SAID = 12
LISTS = {"15": (b"UNIT", b"UNIT_UNIT", b"UNIT_DESC"), "17": (b"TYPE", b"TYPE_TYPE", b"TYPE_DESC"),
         "20": (b"FILE", b"FILE_FSET", None)}
SIGNS = b"/,;&|+ "


def key(context, finding, group, row):
    """What findings of one cause have alike."""
    code, heading = finding.code, finding.subject
    if code == "16":
        parts = unlisted_parts(context, heading, group.entry(row, heading))
        is_other = other_sign(context, heading, group.entry(row, heading)) or any(
            near_code(context, heading, part) for part in parts)
        return ("16", heading, parts) if is_other else ("16", "add")
    value = value_of(finding, group, row)
    return (code, value) if near(context, code, value, group.name, heading) else (code, "add")


def value_of(finding, group, row):
    """The unit, type or file set that is not listed."""
    of = {b"UNIT": group.measure, b"TYPE": group.kind}.get(row.descriptor)
    return of(finding.subject) if of else group.entry(row, finding.subject)


def tell(context, key, findings):
    if key[1] == "add":
        return rows_to_add(context, key[0], findings)
    return abbreviation(context, key, findings) if key[0] == "16" else other_spelling(context, key, findings)


def at(findings):
    return texts.lines(finding.line for finding in findings)


# ---- other spellings

def near(context, code, value, group, heading):
    """The listed spelling of a value, or the dictionary's where none is listed, or None."""
    listed, words = context.listed, context.words
    if code == "15":
        return (units.other_spelling(value, sorted(listed.units))
                or units.other_spelling(value, [words.unit(group, heading)]))
    if code == "17":
        return (units.other_type(value, sorted(listed.types)) or units.other_type(value, [words.kind(group, heading)]))
    found = context.near(("listed", code), lambda: sorted(listed.sets)).nearest(value)
    return found if found and difference(value, found) else None


def other_spelling(context, key, findings):
    code, value = key
    group, heading, _ = LISTS[code]
    first = findings[0]
    right = near(context, code, value, context.file.group_at(first.line).name, first.subject)
    subjects = list(dict.fromkeys(finding.subject for finding in findings))
    here = [f"{texts.value(value)} is not listed in {ags.shown(group)}; it is used under {texts.names(subjects, 5)} "
            f"({at(findings)})."]
    is_listed = right in context.file.column(group, heading)
    why = difference(value, right)
    here.append(f"{'It lists' if is_listed else 'The dictionary has'} {texts.value(right)}, another spelling of the "
                f"same {'unit' if code == '15' else 'type' if code == '17' else 'name'}{f': {why}' if why else ''}.")
    fix = (f"Write {texts.value(right)} instead of {texts.value(value)} under {texts.names(subjects, 5)} in "
           f"{at(findings)}")
    if is_listed:
        return ags.shown(value), here, fix + "."
    rows = [entry_of(context, code, right)]
    return ags.shown(value), here, f"{fix}, and add this row {additions.place_of(context, group)}:", additions.block(
        context, group, rows)


# ---- rows to add

def unlisted(context, code, findings):
    """The values that are not listed, each with its findings, in the order in which they come; of abbreviations the
    heading and the code."""
    found = {}
    for finding in findings:
        group, row = context.file.group_at(finding.line), context.file.by_line[finding.line]
        if code == "16":
            for part in unlisted_parts(context, finding.subject, group.entry(row, finding.subject)):
                found.setdefault((finding.subject, part), []).append(finding)
        else:
            found.setdefault(value_of(finding, group, row), []).append(finding)
    return found


def entry_of(context, code, value):
    """What is known of a row that lists a value; None is for what is to be written."""
    known = context.known
    if code == "16":
        return {b"ABBR_HDNG": value[0], b"ABBR_CODE": value[1], b"ABBR_DESC": known.abbreviation(*value)}
    group, heading, text = LISTS[code]
    said = known.unit(value) if code == "15" else known.type(value) if code == "17" else None
    return {heading: value, **({text: said} if text else {})}


def rows_to_add(context, code, findings):
    group = b"ABBR" if code == "16" else LISTS[code][0]
    found = unlisted(context, code, findings)
    here = [said_of(context, code, value, given) for value, given in list(found.items())[:MOST_SAID]]
    if len(found) > MOST_SAID:
        here.append(f"Nor are {texts.count(len(found) - MOST_SAID, 'more value')} listed; each is in the rows below.")
    if group not in context.file.by_name:
        here.append(f"The file has no group {ags.shown(group)}.")
    entries = [entry_of(context, code, value) for value in found]
    one = len(entries) == 1
    what = "group" if group not in context.file.by_name else "row" if one else f"{len(entries):,} rows"
    fix = f"Add {'this' if one or what == 'group' else 'these'} {what} {additions.place_of(context, group)}:"
    first = next(iter(found))
    return (ags.shown(first[1] if code == "16" else first), here,
            fix, additions.block(context, group, entries))


def said_of(context, code, value, findings):
    """What is said of one value that is not listed."""
    if code == "16":
        return said_of_code(context, *value, findings)
    group, subjects = LISTS[code][0], list(dict.fromkeys(finding.subject for finding in findings))
    what = "The file set " if code == "20" else ""
    return (f"{what}{texts.value(value)} is not listed in {ags.shown(group)}; it is used under "
            f"{texts.names(subjects, 5)} "
            f"({at(findings)}).")


def said_of_code(context, heading, part, findings):
    said = (f"{of_entry(context, heading, part, findings)} is not listed in ABBR under {ags.shown(heading)}; "
            f"{texts.count(len(findings), 'entry')} ({at(findings)}).")
    others = [other for other in context.kept("headings", lambda: headings_by_code(context)).get(part, ())
              if other != heading]
    codes = context.kept("codes", lambda: codes_by_heading(context)).get(heading)
    if others:
        return f"{said} It is listed under {texts.names(others, 4)}, which does not count for {ags.shown(heading)}."
    if codes:
        few, more = [texts.value(code) for code in codes[:5]], len(codes) - 5
        return f"{said} Listed there: {texts.listing(few + [f'{more:,} more'] * (more > 0), 6)}."
    return said if b"ABBR" not in context.file.by_name else f"{said} ABBR has no row of {ags.shown(heading)}."


def of_entry(context, heading, part, findings):
    """A code, and the entry that it is a part of."""
    line = findings[0].line
    entry = context.file.group_at(line).entry(context.file.by_line[line], heading)
    return texts.value(part) + (f", a part of {texts.value(entry)}," if part != entry else "")


# ---- abbreviations

def unlisted_parts(context, heading, entry):
    listed = context.listed.abbreviations
    return tuple(part for part in entry.split(context.listed.concatenator) if (heading, part) not in listed)


def near_code(context, heading, part):
    """The nearest code of a heading, or None. Codes of one or two characters are all near each other."""
    codes = context.kept("codes", lambda: codes_by_heading(context))
    return context.near(("listed", "16", heading), lambda: codes.get(heading, [])).nearest(part)


def other_sign(context, heading, entry):
    """The entry with the concatenator between its parts, where another sign is and all parts are listed, or None."""
    listed = context.listed
    for byte in SIGNS:
        parts = entry.split(bytes([byte]))
        if len(parts) > 1 and all((heading, part) in listed.abbreviations for part in parts):
            return listed.concatenator.join(parts)
    return None


def abbreviation(context, key, findings):
    """A code that is nearly one that is listed, or codes with another sign between them."""
    _, heading, parts = key
    line = findings[0].line
    entry = context.file.group_at(line).entry(context.file.by_line[line], heading)
    right = other_sign(context, heading, entry)
    if right:
        here = [f"{texts.value(entry)} is not listed in ABBR under {ags.shown(heading)}; "
                f"{texts.count(len(findings), 'entry')} ({at(findings)}).",
                f"Its parts are listed, and the sign between two is {texts.value(context.listed.concatenator)} "
                "(TRAN_RCON)."]
        return (ags.shown(entry), here,
                f"Write {texts.value(right)} instead of {texts.value(entry)} under {ags.shown(heading)} in "
                f"{at(findings)}.")
    part = next(one for one in parts if near_code(context, heading, one))
    found, right = near_code(context, heading, part), entry
    right = context.listed.concatenator.join(found if one == part else one
                                             for one in entry.split(context.listed.concatenator))
    why = difference(part, found)
    here = [said_of_code(context, heading, part, findings).split(". ")[0].rstrip(".") + ".",
            f"The nearest that is listed is {texts.value(found)}{f', which differs: {why}' if why else ''}."]
    fix = (f"Write {texts.value(right)} instead of {texts.value(entry)} under {ags.shown(heading)} in {at(findings)}, "
           f"if "
           f"that is meant; else add this row {additions.place_of(context, b'ABBR')}:")
    return ags.shown(part), here, fix, additions.block(context, b"ABBR", [entry_of(context, "16", (heading, part))])


def codes_by_heading(context):
    out = {}
    for heading, code in sorted(context.listed.abbreviations):
        out.setdefault(heading, []).append(code)
    return out


def headings_by_code(context):
    out = {}
    for heading, code in sorted(context.listed.abbreviations):
        out.setdefault(code, []).append(heading)
    return out


# ---- a missing group UNIT or TYPE

def used(context, code):
    """The units or types that a file uses, in the order in which they come."""
    found, kind = {}, b"PU" if code == "15" else b"PT"
    for group in context.file.groups:
        row = group.unit if code == "15" else group.type
        found.update(dict.fromkeys(row.items if row else ()))
        for column, heading in enumerate(group.headings):
            if group.kind(heading) == kind:
                found.update(dict.fromkeys(one.items[column] for one in group.data if column < len(one.items)))
    found.pop(b"", None)
    return list(found)
