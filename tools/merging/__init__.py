"""One AGS4 file of several.

    merged = merge([("a.ags", bytes), ("b.ags", bytes)], Chosen())
    merged.data, merged.notes

Bytes in, bytes out; nothing prints. Files that contradict each other are refused by Clashes, which names each clash;
what cannot be read is tables.Refused."""
from typing import List, NamedTuple, Optional, Tuple, Union

import ags
from tables import Refused
from tables.layout import dictionary_of, read

from .group import Clash, Join, Source

ONE_ROW = (b"PROJ", b"TRAN")
HEADS = (*ONE_ROW, b"UNIT", b"TYPE", b"ABBR", b"DICT", b"FILE")


class Chosen(NamedTuple):
    """The dictionary or its bytes (None: the built-in one), a file whose PROJ and TRAN hold, whether a null is filled
    with the entry that another file has, and the names of the files whose entries hold, the first of them first."""
    dictionary: Union[ags.Dictionary, bytes, None] = None
    tran: Optional[Tuple[str, bytes]] = None
    fills: bool = False
    prefer: Tuple[str, ...] = ()


class Clashes(Exception):
    """Files that contradict each other."""

    def __init__(self, clashes):
        super().__init__(f"{len(clashes)} clashes")
        self.clashes = clashes


class Merged(NamedTuple):
    """A file of several: where its lines come from (None: a line that comes from no row); a line of text for each row
    of PROJ and TRAN that is left out, and for each file set that is one of two; the clashes that a preferred file
    settled, with its name; and the groups that the dictionary lacks."""
    data: bytes
    origins: List[Optional[Source]]
    notes: List[str]
    settled: List[Tuple[Clash, str]]
    unknown: List[bytes]
    groups: int
    rows: int


def merge(inputs, chosen=Chosen()):
    """One file of the inputs, by their names and bytes."""
    files = [(name, opened(name, data)) for name, data in inputs]
    heads = [(chosen.tran[0], opened(*chosen.tran))] if chosen.tran else []
    words = dictionary_of(chosen.dictionary, [entry for _, file in files for entry in ags.own_entries(file)])
    check_separators(files, heads)
    left_out, joined, clashes = [], {}, []
    for name in order_of(files, heads, words):
        parts = [(of, file.by_name[name]) for of, file in files if name in file.by_name]
        if name in ONE_ROW:
            first = [(of, file.by_name[name]) for of, file in heads if name in file.by_name]
            parts = [one_row(name, first, parts, chosen.prefer, clashes, left_out)]
        joined[name] = Join(name, parts, words, chosen)
        clashes += joined[name].clashes
    if clashes:
        raise Clashes(clashes)
    groups = [join.group() for join in joined.values()]
    settled = [each for join in joined.values() for each in join.settled]
    notes = [f"left out: {each}" for each in left_out]
    notes += joined_sets([(of, file.by_name[b"FILE"]) for of, file in files if b"FILE" in file.by_name])
    return Merged(ags.written(groups), origins_of(joined.values()), notes, settled,
                  [name for name in joined if not words.has_group(name)], len(groups),
                  sum(len(rows) for *_, rows in groups))


def opened(name, data):
    try:
        return read(data)
    except Refused as refused:
        raise Refused(*(f"{name}: {reason}" for reason in refused.reasons)) from None


def check_separators(files, heads):
    """The record links and codes of all files are cut by the signs of one TRAN."""
    name, first = next(((name, file) for name, file in heads + files if b"TRAN" in file.by_name), (heads + files)[0])
    reasons = []
    for other, file in files:
        is_cut = any(kind in (b"RL", b"PA") for group in file.groups for kind in group.type.items)
        if is_cut and file.separators() != first.separators():
            signs = [" and ".join(map(ags.shown, each.separators())) for each in (file, first)]
            reasons.append(f"{other} has the delimiter and concatenator {signs[0]}, and {name} {signs[1]} (Rules 11a "
                           "and 11b): write them alike first")
    if reasons:
        raise Refused(*reasons)


def order_of(files, heads, words):
    """The names of all groups: in the order of the first file, then of the others; definitions before what is new, and
    each group after its parent."""
    names = []
    for _, file in [*files, *heads]:
        for name in file.by_name:
            if name not in names and (file in [each for _, each in files] or name in ONE_ROW):
                at = next((at for at, other in enumerate(names) if other not in HEADS), len(names))
                names.insert(at if name in HEADS else len(names), name)
    out = []
    for name in names:
        chain = [name]
        while words.parent(chain[-1]) in names and words.parent(chain[-1]) not in chain:
            chain.append(words.parent(chain[-1]))
        out += [each for each in reversed(chain) if each not in out]
    return out


def one_row(name, first, parts, prefer, clashes, left_out):
    """Of PROJ or TRAN the part that holds: that of the file named for it, or the first. Two projects are a clash,
    unless one of them is preferred."""
    of, group = holds = (first + parts)[0]
    if name == b"PROJ" and not first:
        others = [part for part in parts if project(part[1]) != project(group)]
        preferred = [part for each in prefer for part in parts if part[0] == each]
        if others and preferred:
            of, group = holds = preferred[0]
        else:
            clashes += [Clash(name, [], b"PROJ_ID", project(group), Source(of, row_line(group)), project(other),
                              Source(each, row_line(other))) for each, other in others]
    left_out += [f"{ags.shown(name)} of {each} (line {row_line(other)})" for each, other in first + parts
                 if other is not group and contents(other) != contents(group)]
    return holds


def joined_sets(parts):
    """A line for each file set that is one of two by now: each of two files has a name in it that the other lacks."""
    sets, out = {}, []
    for of, group in parts:
        for row in group.data:
            by_file = sets.setdefault(group.entry(row, b"FILE_FSET"), {})
            by_file.setdefault(of, (row.line, set()))[1].add(group.entry(row, b"FILE_NAME"))
    for name, by_file in sets.items():
        (first, (line, names)), *others = by_file.items()
        out += [f"FILE_FSET={ags.shown(name)} has other files in {first} (line {line}) and in {other} (line {at}): its "
                "rows now have all of them. If these are two sets, rename one first"
                for other, (at, more) in others if names - more and more - names]
    return out


def project(group):
    return group.entry(group.data[0] if group.data else None, b"PROJ_ID")


def row_line(group):
    return group.data[0].line if group.data else group.line


def contents(group):
    """What the rows of a group have that is not null."""
    return [{heading: entry for heading, entry in zip(group.headings, row.items) if entry} for row in group.data]


def origins_of(joins):
    """For each line of the merged file the line of an input that it comes from."""
    out = []
    for join in joins:
        out += ([None] if out else []) + [join.header] * 4 + [row.sources[0] for row in join.rows]
    return out
