"""Doubts: what AGS4 permits and is often a mistake. They are no findings, and the program says nothing of them.

    for line, said in doubts(context, project=""): ..      # by line; 0 is the file as a whole"""
import statistics

import ags
from . import near, texts
from .additions import TO_WRITE

FAR = 20_000
MOST_OF_A_KIND = 10
DEPTHS = (b"_TOP", b"_BASE", b"_DPTH")


def doubts(context, project=""):
    """Each doubt as (line, words), in the order of lines; of many of one kind the first ones and their number."""
    out = []
    for kind in (expected, others_than_dictionary, to_write, upside_down, overlaps, below_the_end, coordinates):
        found = list(kind(context, project) if kind is expected else kind(context))
        out += found[:MOST_OF_A_KIND]
        if len(found) > MOST_OF_A_KIND:
            out.append((found[MOST_OF_A_KIND][0],
                        f"{len(found) - MOST_OF_A_KIND:,} more of this kind, from this line on."))
    return sorted(out, key=lambda one: one[0])


def number(entry):
    found = near.number(entry)
    return None if found is None else float(found)


def named(heading, row, group):
    return f"{ags.shown(heading)} {ags.shown(group.entry(row, heading))}"


def expected(context, project):
    """The project and the edition, where they are not those that were expected."""
    group = context.file.by_name.get(b"PROJ")
    given = context.file.entry_of(b"PROJ", b"PROJ_ID")
    if project and group and group.data and given != project.encode():
        yield group.data[0].line, f"PROJ_ID is {texts.value(given)}, and {texts.value(project.encode())} was expected."
    says, named_edition = context.file.entry_of(b"TRAN", b"TRAN_AGS"), context.standard.edition
    if says and named_edition and says != named_edition:
        yield (context.file.by_name[b"TRAN"].data[0].line,
               f"TRAN_AGS is {texts.value(says)}, and the dictionary is of {texts.value(named_edition)}.")


def others_than_dictionary(context):
    """Units and types other than those of the dictionary."""
    for group in context.file.groups:
        for heading in group.headings:
            for row, given, wanted, what in (
                    (group.unit, group.measure(heading), context.standard.unit(group.name, heading), "UNIT"),
                    (group.type, group.kind(heading), context.standard.kind(group.name, heading), "TYPE")):
                if row is not None and wanted and given != wanted:
                    yield (row.line, f"{ags.shown(heading)} has the {what} {texts.value(given)}; the dictionary has "
                                     f"{texts.value(wanted)}.")


def to_write(context):
    """Texts that advice left to be written."""
    for group in context.file.groups:
        for row in group.data:
            for heading in group.headings:
                if group.entry(row, heading) == TO_WRITE:
                    yield row.line, f"{ags.shown(heading)} is {texts.value(TO_WRITE)}: it is still to be written."


def spans(group):
    """The pairs of headings that are the top and the base of one thing."""
    return [(heading, heading[:-3] + b"BASE") for heading in group.headings
            if heading.endswith(b"_TOP") and heading[:-3] + b"BASE" in group.columns]


def upside_down(context):
    """A base above its top."""
    for group in context.file.groups:
        for top, base in spans(group):
            for row in group.data:
                one, two = number(group.entry(row, top)), number(group.entry(row, base))
                if one is not None and two is not None and two < one:
                    yield row.line, f"{named(base, row, group)} is above {named(top, row, group)}."


def overlaps(context):
    """Strata of one borehole that overlap."""
    group = context.file.by_name.get(b"GEOL")
    if group is None or b"GEOL_BASE" not in group.columns:
        return
    holes = {}
    for row in group.data:
        top, base = (number(group.entry(row, heading)) for heading in (b"GEOL_TOP", b"GEOL_BASE"))
        if top is not None and base is not None:
            holes.setdefault(group.entry(row, b"LOCA_ID"), []).append((top, base, row))
    for hole, strata in holes.items():
        strata.sort(key=lambda one: one[:2])
        for (_, base, above), (top, _, below) in zip(strata, strata[1:]):
            if top < base:
                yield below.line, (f"{ags.shown(hole)}: the stratum from {named(b'GEOL_TOP', below, group)} overlaps "
                                   f"the one "
                                   f"of line {above.line}, which ends at {named(b'GEOL_BASE', above, group)}.")


def below_the_end(context):
    """Depths below the end of the borehole (LOCA_FDEP)."""
    loca = context.file.by_name.get(b"LOCA")
    if loca is None or b"LOCA_FDEP" not in loca.columns:
        return
    ends = {loca.entry(row, b"LOCA_ID"): number(loca.entry(row, b"LOCA_FDEP")) for row in loca.data}
    for group in context.file.groups:
        wanted = [heading for heading in group.headings if heading.endswith(DEPTHS) and group.measure(heading) == b"m"]
        for row in group.data if b"LOCA_ID" in group.columns else ():
            end = ends.get(group.entry(row, b"LOCA_ID"))
            for heading in wanted if end is not None else ():
                depth = number(group.entry(row, heading))
                if depth is not None and depth > end:
                    yield (row.line, f"{named(heading, row, group)} is below the end of "
                                     f"{ags.shown(group.entry(row, b'LOCA_ID'))} "
                                     f"(LOCA_FDEP {end:g}).")


def coordinates(context):
    """Coordinates that are degrees, exchanged, or far from the others."""
    group = context.file.by_name.get(b"LOCA")
    if group is None or not {b"LOCA_NATE", b"LOCA_NATN"} <= set(group.columns):
        return
    points = [(row, number(group.entry(row, b"LOCA_NATE")), number(group.entry(row, b"LOCA_NATN")))
              for row in group.data]
    points = [(row, east, north) for row, east, north in points if east is not None and north is not None]
    if len(points) < 3:
        points = [one for one in points if abs(one[1]) <= 180 and abs(one[2]) <= 180]
    middle = [statistics.median(point[axis] for point in points) for axis in (1, 2)] if points else None
    for row, east, north in points:
        said = f"{named(b'LOCA_NATE', row, group)} and {named(b'LOCA_NATN', row, group)}"
        if abs(east) <= 180 and abs(north) <= 180:
            yield row.line, f"{said} may be degrees, where metres of a grid belong."
        elif away(north, east, middle) * 4 < away(east, north, middle) and away(east, north, middle) > FAR:
            yield row.line, f"{said} may be exchanged: the others are near them the other way round."
        elif away(east, north, middle) > FAR:
            yield row.line, f"{said} is {away(east, north, middle) / 1000:,.0f} km from the middle of the others."


def away(east, north, middle):
    return ((east - middle[0]) ** 2 + (north - middle[1]) ** 2) ** 0.5


def printed(context, project=""):
    """The doubts as lines of text."""
    found = doubts(context, project)
    if not found:
        return ["", "Doubts: none."]
    return ["", f"Doubts ({len(found):,}): AGS4 permits each, and none is a finding."] + [
        f"  line {line}: {said}" for line, said in found]
