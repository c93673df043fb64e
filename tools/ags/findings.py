"""The findings of a file, in time linear in it.

    first_findings(file, words)    # (phase, findings) of the first phase that has any, or (None, [])"""
from .dictionary import own_entries
from .entry import LISTED, TEXTS, fits
from .finding import Finding, in_order
from .group import DEFINITIONS
from .listed import Listed
from .phases import group_findings, line_findings, order_findings
from .rows import key_of


def first_findings(file, words):
    """The first phase that has findings, with them in order; (None, []) for a clean file. `words` is the standard
    dictionary."""
    for phase, find in enumerate((line_findings, order_findings, group_findings), 1):
        found = find(file)
        if found:
            return phase, in_order(found)
    extended = words.extended(own_entries(file))
    for phase, find in enumerate((dictionary_findings, entry_findings), 4):
        found = find(file, extended)
        if found:
            return phase, in_order(found)
    return None, []


def heading_findings(group, words, unknown):
    """What is wrong with a known group's HEADING row under the dictionary."""
    found, line, places, last = set(), group.heading.line, words.places.get(group.name, {}), -1
    for heading in group.headings:
        place = places.get(heading)
        if place is None:
            found.add(Finding(line, unknown, heading))
        elif place < last:
            found.add(Finding(line, "7", heading))
        last = max(last, -1 if place is None else place)
        is_misnamed = not heading.startswith(group.name + b"_") and not words.elsewhere(group.name, heading)
        if (group.name, heading) in words.own and is_misnamed:
            found.add(Finding(line, "19b", heading))
    found |= {Finding(line, "10a", heading) for heading in words.keys(group.name) if heading not in group.columns}
    return found | {Finding(line, "10b", heading) for heading in words.required(group.name)
                    if heading not in group.columns}


def dictionary_findings(file, words):
    found, names = set(), file.by_name
    unknown = "9" if b"DICT" in names else "18"
    for group in file.groups:
        if not words.has_group(group.name):
            found.add(Finding(group.line, unknown, group.name))
            continue
        found |= heading_findings(group, words, unknown)
        parent = words.parent(group.name)
        if parent is not None and parent not in names:
            found.add(Finding(group.line, "10c", group.name))
    for name, code in ((b"PROJ", "13"), (b"TRAN", "14"), (b"UNIT", "15"), (b"TYPE", "17")):
        if name not in names:
            found.add(Finding(0, code, name))
        elif code in ("13", "14"):
            found |= {Finding(row.line, code, name) for row in names[name].data[1:]}
    for heading, code in ((b"TRAN_DLIM", "11a"), (b"TRAN_RCON", "11b")):
        if len(file.entry_of(b"TRAN", heading)) > 1:
            found.add(Finding(names[b"TRAN"].data[0].line, code, heading))
    return found


def column_findings(group, listed):
    """What is wrong with entries, UNIT and TYPE by themselves."""
    found, is_data = set(), group.name not in DEFINITIONS
    for column, (heading, unit, kind) in enumerate(zip(group.headings, group.unit.items, group.type.items)):
        if unit and unit not in listed.units:
            found.add(Finding(group.unit.line, "15", heading))
        if kind and kind not in listed.types:
            found.add(Finding(group.type.line, "17", heading))
        if kind in TEXTS:
            continue
        codes = {b"": None}
        for row in group.data:
            entry = row.items[column]
            if entry not in codes:
                is_fit = kind in LISTED or fits(kind, unit, entry)
                codes[entry] = listed.broken(kind, heading, is_data, entry) if is_fit else "8"
            if codes[entry]:
                found.add(Finding(row.line, codes[entry], heading))
    return found


def entry_findings(file, words, listed=None):
    found = set()
    listed = listed or Listed(file, words)
    for group in file.groups:
        found |= column_findings(group, listed)
        name, keys, required = group.name, words.keys(group.name), words.required(group.name)
        parent, links, seen = words.parent(name), None, set()
        if parent is not None:
            given = file.by_name.get(parent)
            joined = words.link_headings(parent, group)
            links = {given.entries(row, joined) for row in given.data} if given else set()
        for row in group.data:
            key = key_of(group, row, words)
            if keys and key in seen:
                found.add(Finding(row.line, "10a", name))
            seen.add(key)
            found |= {Finding(row.line, "10b", heading) for heading in required if not group.entry(row, heading)}
            if links is not None and group.entries(row, joined) not in links:
                found.add(Finding(row.line, "10c", name))
            files = group.entry(row, b"FILE_FSET")
            if files and name not in DEFINITIONS and name != b"FILE" and files not in listed.sets:
                found.add(Finding(row.line, "20", b"FILE_FSET"))
    return found
