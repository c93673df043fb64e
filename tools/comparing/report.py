"""How differences are printed: as text, and as JSON."""
import json

import ags
from explaining import texts

from . import reading

NAMES = {"added": "added", "gone": "gone", "changed": "changed", "renamed": "renamed",
         "spelled": "with numbers spelled in another way"}


def key_text(key):
    return texts.pairs(*zip(*key)) if key else "its row"


def count_text(counts):
    """`1 row added, 2 gone`."""
    parts = [f"{number:,} {NAMES[name]}" for name, number in counts.items() if number]
    if not parts:
        return "no row"
    number, rest = parts[0].split(" ", 1)
    return ", ".join([f"{number} {'row' if number == '1' else 'rows'} {rest}", *parts[1:]])


def text(found, names):
    """The lines of all that differs."""
    if found.is_same:
        return [f"{names[0]} and {names[1]} are the same.", *limits(found, names)]
    out = [f"{names[0]} and {names[1]} differ: {count_text(found.counts())}."]
    if found.is_in_other_order:
        out.append("Groups are in another order.")
    out += limits(found, names)
    for group in found.groups:
        out += ["", *group_text(group)]
    return out


def limits(found, names):
    """What is compared in part, and why."""
    for name, flaws in zip(names, found.flaws):
        for what, group, line in flaws:
            if what == reading.IN_PARTS:
                yield f"{name} has {ags.shown(group)} {what} (line {line}), which are compared as one group."
            else:
                part = "units" if what == reading.NO_UNITS else "types"
                yield f"{name} has {what} in {ags.shown(group)} (line {line}), so its {part} are not compared."
        if flaws:
            yield f"bin/fix {name} -o NEW --diff puts that right where it can."
    if found.without_keys:
        yield (f"The dictionary has no {texts.names(found.without_keys)}, so rows there have no key: one that changed "
               "is one gone and one added. --dictionary D names another dictionary.")


def group_text(group):
    """The lines of a group."""
    name = ags.shown(group.name)
    if group.state != "both":
        rows = group.added or group.gone
        return [f"{name} is {group.state}: {texts.count(len(rows), 'row')}.", *map(row_text, rows)]
    out = [f"{name}: {count_text(group.counts())}."]
    for what, headings in (("added", group.headings_added), ("gone", group.headings_gone)):
        if headings:
            out.append(f"  headings {what}: {', '.join(map(ags.shown, headings))}")
    for what, changes in (("UNIT", group.units), ("TYPE", group.types)):
        out += [f"  {what} of {change_text(change)}" for change in changes]
    for rows in (group.added, group.gone, group.renamed, group.changed, group.spelled):
        for row in rows:
            out += [row_text(row), *(f"    {change_text(change)}" for change in row.changes)]
    for what, differs in (("rows", group.rows_in_other_order), ("headings", group.headings_in_other_order)):
        out += [f"  {what} are in another order"] * differs
    return out


def row_text(row):
    """A row with what has become of it and its lines."""
    key = key_text(row.key)
    if not row.old_line:
        return f"  added {key} (line {row.new_line})"
    if not row.new_line:
        return f"  gone {key} (line {row.old_line})"
    place = f"(line {row.old_line}, now {row.new_line})"
    if row.changes and all(change.heading in dict(row.key) and not change.is_spelling for change in row.changes):
        follow = f"; {texts.count(row.following, 'row')} below follow" + "s" * (row.following == 1)
        return f"  renamed {key} {place}{follow if row.following else ''}"
    is_spelled = all(change.is_spelling for change in row.changes)
    return f"  {'same numbers, other spelling:' if is_spelled else 'changed'} {key} {place}"


def change_text(change):
    same = ", the same number" if change.is_spelling else ""
    return f"{ags.shown(change.heading)}: {texts.value(change.old)} is now {texts.value(change.new)}{same}"


# ---- JSON

def whole(text):
    """Bytes as a text of JSON, which has each character."""
    try:
        return text.decode("utf-8")
    except UnicodeDecodeError:
        return text.decode("latin-1")


def shown_row(row):
    out = {"key": {whole(heading): whole(entry) for heading, entry in row.key}}
    if row.old_line:
        out["old_line"] = row.old_line
    if row.new_line:
        out["new_line"] = row.new_line
    if row.changes:
        out["entries"] = [{**shown_change(change), "same_number": change.is_spelling} for change in row.changes]
    if row.following:
        out["rows_below"] = row.following
    return out


def shown_flaw(flaw):
    return {"what": flaw.what, "group": whole(flaw.group), "line": flaw.line}


def shown_change(change):
    return {name: whole(getattr(change, name)) for name in ("heading", "old", "new")}


def as_json(found, names):
    """All that differs, as one JSON text."""
    groups = []
    for group in found.groups:
        rows = {name: [shown_row(row) for row in getattr(group, name)] for name in group.counts()}
        groups.append({
            "group": whole(group.name), "is_in": {"both": "both", "added": "new", "gone": "old"}[group.state],
            "headings_added": [whole(heading) for heading in group.headings_added],
            "headings_gone": [whole(heading) for heading in group.headings_gone],
            "units": [shown_change(change) for change in group.units],
            "types": [shown_change(change) for change in group.types], **rows,
            "rows_in_other_order": group.rows_in_other_order,
            "headings_in_other_order": group.headings_in_other_order})
    return json.dumps({"old": names[0], "new": names[1], "same": found.is_same, "counts": found.counts(),
                       "groups_in_other_order": found.is_in_other_order,
                       "flaws": {side: [shown_flaw(one) for one in each]
                                 for side, each in zip(("old", "new"), found.flaws)},
                       "groups_without_keys": list(map(whole, found.without_keys)), "groups": groups}, indent=1)
