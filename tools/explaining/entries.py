"""The fifth phase: DATA rows (Rules 8, 10a, 10b, 10c, 11c, 15, 16, 17, 20)."""
import ags
from . import links, lists, parents, texts, values


def key(context, finding):
    code, line, subject = finding.code, finding.line, finding.subject
    group, row = context.file.group_at(line), context.file.by_line.get(line)
    if row is None or group is None:
        return code, "gone"
    if row.descriptor == b"DATA" and not any(row.items):
        return ("10b", "null row") if has_entries(context, group) else ("10b", "null group", group.name)
    if code == "10a":
        return "10a", group.name, group.entries(row, context.words.keys(group.name))
    if code == "11c":
        return "11c", group.name, subject, links.broken_part(context, group.entry(row, subject))
    keys = {"8": values.key, "10c": parents.key, "15": lists.key, "16": lists.key, "17": lists.key, "20": lists.key}
    return keys[code](context, finding, group, row) if code in keys else (code, group.name, subject)


def tell(context, key, findings):
    if key[1:] == ("gone",):
        return "", ["The line is no row of this file."], None
    if key[1] in ("null row", "null group"):
        return null_rows(context, findings) if key[1] == "null row" else null_group(context, key, findings)
    tellers = {"8": values.tell, "10a": repeated_key, "10b": null_entry, "10c": parents.tell, "11c": links.link,
               "15": lists.tell, "16": lists.tell, "17": lists.tell, "20": lists.tell}
    return tellers[key[0]](context, key, findings)


def at(findings):
    return texts.lines(finding.line for finding in findings)


def null_rows(context, findings):
    """Rows without any entry, as spreadsheets leave them: they belong to no parent row and have no key."""
    lines = sorted({finding.line for finding in findings})
    here = [f"{texts.count(len(lines), 'DATA row')} without any entry ({at(findings)}): each item is null."]
    return "", here, f"Take {at(findings)} out: nothing is lost."


def has_entries(context, group):
    """Whether a DATA row of a group has an entry."""
    return context.kept(("entries", group.line), lambda: any(any(row.items) for row in group.data))


def null_group(context, key, findings):
    """A group whose DATA rows are all without an entry: without them it would have none."""
    group = context.file.by_name[key[2]]
    here = [f"No DATA row of {ags.shown(group.name)} has an entry ({at(findings)})."]
    parents_of = {context.words.parent(name) for name in context.file.by_name}
    if group.name in {b"PROJ", b"TRAN", b"UNIT", b"TYPE", *parents_of}:
        return "", here, f"Fill in the entries in {at(findings)}; whoever made the file knows them."
    return "", here, (f"Take the group {ags.shown(group.name)} out, lines {group.line} to {group.rows[-1].line}: it "
                      "says nothing of any row.")


# ---- Rules 10a and 10b

def repeated_key(context, key, findings):
    _, name, entries = key
    group, keys = context.file.by_name[name], context.words.keys(name)
    first = context.listed.rows_by_key(name)[entries]
    here = [f"{at(findings).capitalize()} and line {first.line} of {ags.shown(name)} have the same KEY entries: "
            f"{texts.pairs(keys, entries)}."]
    if not any(entries):
        here.append("All of them are null.")
    if all(context.file.by_line[finding.line].items == first.items for finding in findings):
        which = "The two rows are" if len(findings) == 1 else "These rows are"
        return texts.pairs(keys, entries), here + [f"{which} the same in every entry."], f"Take {at(findings)} out."
    line, row = next((finding.line, context.file.by_line[finding.line]) for finding in findings
                     if context.file.by_line[finding.line].items != first.items)
    other = [heading for heading, one, two in zip(group.headings, first.items, row.items) if one != two]
    differ = texts.listing(f"{ags.shown(heading)} ({texts.value(group.entry(first, heading))} in line {first.line}, "
                           f"{texts.value(group.entry(row, heading))} in line {line})" for heading in other[:4])
    here.append(f"They differ in {differ}.")
    fix = f"Correct the entry that is wrong under {texts.names(keys, 12)} in one of the two rows."
    return texts.pairs(keys, entries), here, fix


def null_entry(context, key, findings):
    _, name, heading = key
    group = context.file.by_name[name]
    here = [f"{ags.shown(heading)} is null in {texts.count(len(findings), 'row')} of {ags.shown(name)} "
            f"({at(findings)}), and it is REQUIRED."]
    if len(findings) == len(group.data) > 1:
        here.append("It is null in every row of the group.")
    return "", here, (f"Fill in {ags.shown(heading)} in {at(findings)}; whoever made the file knows the "
                      f"{'entry' if len(findings) == 1 else 'entries'}.")
