"""Rule 10c: rows whose parent row is missing: which row it is, the nearest that is there, or the row to add."""
import re

import ags
from . import additions, texts
from .near import difference, normal


def key(context, finding, group, row):
    joined = context.parents(group).joined
    return "10c", context.words.parent(group.name), joined, group.entries(row, joined)


def at(findings):
    return texts.lines(finding.line for finding in findings)


def tell(context, key, findings):
    _, parent, joined, entries = key
    group = context.file.group_at(findings[0].line)
    parents, over = context.parents(group), ags.shown(parent)
    wanted = texts.pairs(joined, entries)
    if not joined:
        said = f"{ags.shown(group.name)} row needs a row of {over}, and the group has none."
        return over, [said], f"Add the {over} row."
    here = f"{ags.shown(group.name)} row needs {texts.a(over)} row with {wanted}"
    row = nearest(parents, entries)
    if row is None:
        told = no_near_row(context, parents, entries, here)
        return wanted, told + several(context, findings), *missing_row(context, parents, entries, findings)
    given = parents.group.entries(row, joined)
    differ = [(heading, one, two) for heading, one, two in zip(joined, entries, given) if one != two]
    told = [here + f"; line {row.line} differs in {texts.names(heading for heading, _, _ in differ)}."]
    for heading, one, two in differ[:3]:
        why = difference(one, two) if one and two else ""
        told.append(f"{ags.shown(heading)} is {texts.value(one)} here and {texts.value(two)} "
                    f"there{f' ({why})' if why else ''}.")
    return wanted, told + several(context, findings), *fix_of(context, parents, row, differ, entries, findings)


def nearest(parents, entries):
    """The row of the parent group that is nearest: one of the same first entry, as of a borehole, or of the same but
    for its spelling. The row of another borehole is none."""
    row = parents.nearest(entries)
    if row is None:
        return None
    first = parents.group.entries(row, parents.joined)[0]
    return row if first == entries[0] or normal(first) == normal(entries[0]) else None


def no_near_row(context, parents, entries, here):
    """No row of the parent group has even the first of the entries."""
    first, name = parents.joined[0], ags.shown(parents.group.name)
    if not entries[0]:
        return [f"{here}: {ags.shown(first)} is null here."]
    listed = context.near(("10c", parents.group.name),
                          lambda: [parents.group.entry(row, first) for row in parents.group.data])
    near = listed.nearest(entries[0])
    told = [f"{here}; no {name} row has {texts.pairs(parents.joined[:1], entries[:1])}.",
            f"{name} has no row of {ags.shown(entries[0])}."]
    if near and difference(entries[0], near):
        told.append(f"The nearest is {texts.value(near)}. They differ in {difference(entries[0], near)}.")
    return told


def missing_row(context, parents, entries, findings):
    """How rows are fixed whose parent row is missing in any spelling."""
    over, first = ags.shown(parents.group.name), parents.joined[0]
    if not entries[0]:
        return (f"Fill in {ags.shown(first)} in {at(findings)}: whoever made the file knows which row of {over} it "
                "belongs to.",)
    above = context.words.parent(parents.group.name)
    if above in context.file.by_name and above != b"PROJ":
        over_parents = context.parents(parents.group)
        wanted = dict(zip(parents.joined, entries))
        key = tuple(wanted.get(heading, b"") for heading in over_parents.joined)
        if over_parents.joined and key not in over_parents.keys:
            return (f"Add the row of {ags.shown(above)} with {texts.pairs(over_parents.joined, key)} first, then that "
                    f"of "
                    f"{over}; or correct the entries in {at(findings)}, if another row is meant.",)
    row = dict(zip(parents.joined, entries))
    return (f"Correct the entries in {at(findings)}, if another row is meant; else add the {over} row "
            f"{additions.place_of(context, parents.group.name)}:",
            additions.block(context, parents.group.name, [row]))


def shape(text):
    """The pattern of a name: `AA00` of BH01, `aa00` of bh01."""
    text = re.sub(rb"[0-9]+", b"0", text)
    return re.sub(rb"[a-z]+", b"a", re.sub(rb"[A-Z]+", b"A", text))


def fix_of(context, parents, row, differ, entries, findings):
    """How rows without a parent row are fixed, where this row is the nearest."""
    above, over = context.words.parent(parents.group.name), ags.shown(parents.group.name)
    if above in context.file.by_name:
        of = context.parents(parents.group)
        if of.joined and parents.group.entries(row, of.joined) not in of.keys:
            return (f"Line {row.line} comes first: that row has no parent row itself. Fix it, then check again.",)
    heading, given, right = differ[0]
    if len(differ) > 1 or not given or not right or normal(given) != normal(right):
        wanted = dict(zip(parents.joined, entries))
        return (f"Correct the entries in {at(findings)}, if line {row.line} is meant; else add the {over} row "
                f"{additions.place_of(context, parents.group.name)}:",
                additions.block(context, parents.group.name, [wanted]))
    shapes = [shape(parents.group.entry(one, heading)) for one in parents.group.data]
    if shape(given) != shape(right) and shapes.count(shape(right)) == 1 and shapes.count(shape(given)) > 1:
        return (f"Write {texts.value(given)} under {ags.shown(heading)} in line {row.line}, as the other rows of "
                f"{over} "
                f"are spelled, and wherever else {texts.value(right)} is.",)
    fix = f"Write {texts.value(right)} under {ags.shown(heading)} in {at(findings)}, as line {row.line} does"
    group = context.file.group_at(findings[0].line)
    if not ags.fits(group.kind(heading), group.measure(heading), right):
        kind = ags.shown(parents.group.kind(heading))
        fix += f", and give the heading the TYPE {kind} in {ags.shown(group.name)} too"
    return (fix + ".",)


def several(context, findings):
    if len(findings) == 1:
        return []
    names = list(dict.fromkeys(context.file.group_at(finding.line).name for finding in findings))
    return [f"{len(findings):,} rows of {texts.names(names, 4)} need it ({at(findings)})."]
