"""The command bin/merge: one AGS4 file of several."""
import argparse
import gc
import os
import sys

import ags
from explaining import texts
from tables import Refused

from . import Chosen, Clashes, merge
from .findings import findings

USAGE = "bin/merge FILE FILE .. -o OUT [--dictionary D] [--tran FILE] [--fill] [--prefer FILE]"
ABOUT = "Writes one AGS4 file of several, if they do not contradict each other and it has no findings."
SHOWN = 20
# Groups whose rows say what a unit, a type or a code is.
LISTS = (b"UNIT", b"TYPE", b"ABBR")


def arguments(given):
    parser = argparse.ArgumentParser(prog="merge", usage=USAGE, description=ABOUT)
    parser.add_argument("files", metavar="FILE", nargs="+")
    parser.add_argument("-o", dest="out", metavar="OUT", required=True, help="the file to write, not there yet")
    parser.add_argument("--dictionary", metavar="D", help="the dictionary, if not the built-in one")
    parser.add_argument("--tran", metavar="FILE", help="the file whose PROJ and TRAN hold, if not the first")
    parser.add_argument("--fill", action="store_true", help="fill a null with the entry that another file has")
    parser.add_argument("--prefer", metavar="FILE", action="append", default=[],
                        help="the file whose entries hold where files clash; more than once, the first first")
    asked = parser.parse_args(given)
    if len(asked.files) < 2 or len(set(asked.files)) < len(asked.files):
        parser.error("at least two files are merged, and each once")
    lacks = [name for name in asked.prefer if name not in asked.files]
    if lacks:
        parser.error(f"{lacks[0]} is none of the files")
    return asked


def bytes_of(path):
    with open(path, "rb") as file:
        return file.read()


def entry_text(entry, source):
    return f"{texts.value(entry) if entry else 'null'} in {source.name} (line {source.line})"


def clash_texts(clashes):
    """The clashes with both files and lines: those of one row of which the one file has nulls are one line, and come
    last."""
    alike = {}
    for clash in clashes:
        single = None if clash.is_null else clash.heading
        name = clash.group, clash.what, clash.old_source, clash.new_source, not clash.old, single
        alike.setdefault(name, []).append(clash)
    return [clash_text(each) for each in sorted(alike.values(), key=lambda each: each[0].is_null)]


def clash_text(clashes):
    one = clashes[0]
    row = texts.pairs(*zip(*one.key)) if one.key else one.what or "its row"
    headings = ", ".join(ags.shown(clash.heading) for clash in clashes)
    if len(clashes) == 1:
        said = f"is {entry_text(one.old, one.old_source)} and {entry_text(one.new, one.new_source)}"
    else:
        null, other = (one.new_source, one.old_source) if one.old else (one.old_source, one.new_source)
        said = f"are null in {null.name} (line {null.line}), and not in {other.name} (line {other.line})"
    return f"{ags.shown(one.group)} {row}: {headings} {said}"


def advice(clashes):
    """How to go on: what the options would do, and what has to be put right first."""
    nulls = sum(clash.is_null for clash in clashes)
    if nulls:
        yield f"{nulls:,} {'clash' if nulls == 1 else 'clashes'} with a null: --fill takes the entry that is not null."
    sources = [{clash.old_source.name, clash.new_source.name} for clash in clashes if clash.what != "UNIT"]
    names = sorted(set().union(*(each for each in sources if len(each) > 1)))
    if names:
        yield (f"{' or '.join(f'--prefer {name}' for name in names)} takes the entries of that file"
               f"{', its nulls too unless --fill is given' if nulls else ''}.")
    if any(clash.group in LISTS and not clash.what and not clash.is_null for clash in clashes):
        yield "Two descriptions of one unit, type or code: if they mean the same, either file can be preferred."
    if any(clash.what == "TYPE" for clash in clashes):
        yield ("Numbers keep the decimals that they have: write the type of one file as the other's first, and bin/fix "
               "pads them with zeros.")
    if any(clash.what == "UNIT" for clash in clashes):
        yield "Entries under different units are different values: convert one of the files first."
    if any(len(each) == 1 for each in sources):
        yield "A file that has two rows of one key has to be put right first: bin/explain says how."


def finding_text(merged, finding):
    """A finding of the merged file, with the line of an input that it comes from."""
    code, line, subject = finding
    origin = merged.origins[line - 1] if 0 < line <= len(merged.origins) else None
    content = ags.shown(merged.data.split(b"\r\n")[line - 1]) if origin else ""
    place = f", from {origin.name} (line {origin.line}): {texts.clipped(content)}" if origin else ""
    return f"finding {code}{' of ' + subject if subject else ''}{place}"


def refused(reasons, status):
    print("\n".join(f"merge: {reason}" for reason in (*reasons, "nothing is written")), file=sys.stderr)
    return status


def attempt(asked):
    """The status, once the file is written or it is said why not."""
    dictionary = bytes_of(asked.dictionary) if asked.dictionary else None
    tran = (asked.tran, bytes_of(asked.tran)) if asked.tran else None
    inputs = [(path, bytes_of(path)) for path in asked.files]
    merged = merge(inputs, Chosen(dictionary, tran, asked.fill, tuple(asked.prefer)))
    if len(merged.data) > ags.LIMIT:
        return refused([f"the merged file has {len(merged.data):,} bytes, and a file at most {ags.LIMIT:,}"], 1)
    found, by = findings(merged.data, dictionary)
    if found:
        more = [f"and {texts.count(len(found) - SHOWN, 'more finding')}"] if len(found) > SHOWN else []
        shown = [finding_text(merged, each) for each in found[:SHOWN]]
        unknown = [f"the dictionary has no {texts.names(merged.unknown)}: --dictionary D names another dictionary"] \
            if merged.unknown else []
        said = f"the merged file has {texts.count(len(found), 'finding')} by {by}"
        return refused([said, *shown, *more, *unknown], 1)
    with open(asked.out, "xb") as file:
        file.write(merged.data)
    for line in merged.notes:
        print(line)
    for name in dict.fromkeys(holder for _, holder in merged.settled):
        for line in clash_texts([clash for clash, holder in merged.settled if holder == name]):
            print(f"{name} holds: {line}")
    print(f"{asked.out}: {texts.count(len(inputs), 'file')}, {texts.count(merged.groups, 'group')}, "
          f"{texts.count(merged.rows, 'DATA row')}; clean by {by}", flush=True)
    return 0


def main(given):
    """0 where the file is written, 1 where files clash or it has findings, 2 where an argument or a file is refused."""
    asked = arguments(given)
    gc.disable()
    try:
        if os.path.lexists(asked.out):
            return refused([f"{asked.out} is not written over: it is there already"], 2)
        return attempt(asked)
    except BrokenPipeError:
        os.dup2(os.open(os.devnull, os.O_WRONLY), sys.stdout.fileno())
        return 0
    except Clashes as fault:
        return refused([*clash_texts(fault.clashes), *advice(fault.clashes)], 1)
    except Refused as fault:
        return refused(fault.reasons, 2)
    except OSError as fault:
        return refused([f"cannot read or write {fault.filename}: {fault.strerror}"], 2)
