"""Rule 11c: record links that name no row."""
import ags
from . import texts
from .near import difference

SIGNS = b"|+,;:/~^&#"


def broken_part(context, entry):
    """The first part of a record link that names no row."""
    parts = entry.split(context.listed.concatenator)
    return next((part for part in parts if not context.listed.is_link(part)), entry)


def link(context, key, findings):
    _, _, heading, part = key
    listed, words = context.listed, context.words
    delimiter = listed.delimiter
    name, *given = part.split(delimiter)
    entry = context.file.group_at(findings[0].line).entry(context.file.by_line[findings[0].line], heading)
    which = f"The part {texts.value(part)} of {texts.value(entry)}" if part != entry else texts.value(part)
    here = f"{which} names no row"
    if name not in context.file.by_name:
        return ags.shown(part), [here + unknown_target(context, part, name)], other_sign(context, part)
    keys = words.keys(name)
    if len(given) != len(keys):
        return ags.shown(part), *wrong_count(context, here, name, given)
    row = nearest_row(context, name, tuple(given))
    if row is None:
        return (ags.shown(part), [here + f": no {ags.shown(name)} row has {texts.pairs(keys[:1], given[:1])}."],
                form_of_link(context, name) + ", of a row that is there; or add the row.")
    target = context.file.by_name[name].entries(row, keys)
    said = [here + f": line {row.line} of {ags.shown(name)} differs in "
                   f"{texts.names(h for h, a, b in zip(keys, given, target) if a != b)}."]
    for name_of, one, two in zip(keys, given, target):
        if one != two:
            why = difference(one, two) if one and two else ""
            said.append(f"{ags.shown(name_of)} is {texts.value(one)} in the link and {texts.value(two)} "
                        f"there{f' ({why})' if why else ''}.")
    right = delimiter.join((name, *target))
    return ags.shown(part), said[:4], f"Write {texts.value(right)}, if that row is meant, or add the row."


def form_of_link(context, name):
    """What a link to a row of a group is made of."""
    form = context.listed.delimiter.join([name, *context.words.keys(name)])
    return f"Give the group and all its KEY entries, in this order: {ags.shown(form)}"


def wrong_count(context, here, name, given):
    """A link with too few or too many entries: what is said, and how it is fixed."""
    keys, delimiter, few = (context.words.keys(name), context.listed.delimiter,
                            len(given) < len(context.words.keys(name)))
    said = [f"{here}: too {'few' if few else 'many'} keys. {ags.shown(name)} has "
            f"{texts.count(len(keys), 'KEY heading')} ({', '.join(map(ags.shown, keys))}), and the link gives "
            f"{texts.count(len(given), 'entry')}."]
    fix = form_of_link(context, name)
    if not few:
        return (said + [f"Is the delimiter {texts.value(delimiter)} within an entry? Such a row cannot be linked to."],
                fix)
    rows = context.kept(("11c", name, len(given)), lambda: begins_of(context, name, len(given))).get(tuple(given), [])
    if given and rows:
        said.append(f"{texts.count(len(rows), 'row')} of {ags.shown(name)} {'begins' if len(rows) == 1 else 'begin'} "
                    f"so ({texts.lines(rows)}).")
        group = context.file.by_name[name]
        right = delimiter.join((name, *group.entries(context.file.by_line[rows[0]], keys)))
        fix = f"Give all KEY entries, as {texts.value(right)} for line {rows[0]}."
    return said, fix


def begins_of(context, name, size):
    out = {}
    for key, row in context.listed.rows_by_key(name).items():
        out.setdefault(key[:size], []).append(row.line)
    return out


def nearest_row(context, name, key):
    """The row of a group whose KEY entries are nearest."""
    from .context import Parents
    group = context.file.by_name[name]
    return context.kept(("11c", name), lambda: Parents(group, tuple(context.words.keys(name)))).nearest(key)


def unknown_target(context, part, name):
    sign = sign_between(context, part)
    if sign:
        return (f": it is cut at {texts.value(context.listed.delimiter)}, and it has {texts.value(sign)} between its "
                "entries.")
    if not name or name == part and name not in context.words.parents:
        return f": it does not begin with a group and {texts.value(context.listed.delimiter)}."
    near = next((one for one in context.file.by_name if one.upper() == name.strip().upper()), None)
    return f": the file has no group {texts.value(name)}{f'; it has {ags.shown(near)}' if near else ''}."


def sign_between(context, part):
    """Another sign in the places of the delimiter, or None."""
    for byte in SIGNS:
        sign = bytes([byte])
        if sign != context.listed.delimiter and part.split(sign)[0] in context.file.by_name and sign in part:
            return sign
    return None


def other_sign(context, part):
    sign, delimiter = sign_between(context, part), context.listed.delimiter
    if sign is None:
        return None
    right = part.replace(sign, delimiter)
    given = context.file.entry_of(b"TRAN", b"TRAN_DLIM")
    says = (f"TRAN_DLIM says {texts.value(delimiter)}" if given
            else f"TRAN_DLIM says nothing, and it is {texts.value(delimiter)} then")
    return f"Write {texts.value(right)}, or give TRAN_DLIM {texts.value(sign)} for all links ({says})."
