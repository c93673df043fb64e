"""The command bin/fix: a file in, the same file with what can be put right without a loss out, and what was changed."""
import argparse
import gc
import json
import os
import sys
import tempfile

import ags
from explaining import report, texts
from explaining.command import bytes_of

from . import Options, Refused, checker, fix
from .program import PROGRAM

FEW = 3
WIDTH = 150


def arguments(given):
    parser = argparse.ArgumentParser(prog="fix", usage="bin/fix FILE -o CLEAN [options]",
                                     description="Changes what can be put right without a loss, and explains the rest.")
    parser.add_argument("-o", dest="clean", metavar="CLEAN", help="where the fixed file is written")
    parser.add_argument("--dictionary", metavar="D", help="the dictionary to check under, if not the built-in one")
    parser.add_argument("--codes", metavar="FILE", help="a former clean file: what its units and abbreviations mean")
    parser.add_argument("--days", choices=("dmy", "mdy"), help="which comes first where day and month can be exchanged")
    parser.add_argument("--own-headings", action="store_true", help="define the file's own headings in its group DICT")
    parser.add_argument("--only", metavar="CODE,..", type=codes_of, default=(),
                        help="fix the findings of these rules alone")
    parser.add_argument("--diff", action="store_true", help="print the lines that differ, as a unified diff")
    parser.add_argument("--json", action="store_true", help="print the changes and what remains as JSON")
    parser.add_argument("--dry-run", action="store_true", help="write no file")
    parser.add_argument("--program", metavar="P", default=PROGRAM, help="the program that checks, if not bin/groundreg")
    parser.add_argument("file", metavar="FILE")
    asked = parser.parse_args(given)
    if not asked.clean and not asked.dry_run:
        parser.error("-o CLEAN says where the fixed file is written; --dry-run writes none")
    return asked


def codes_of(given):
    codes = tuple(given.split(","))
    strange = [code for code in codes if code not in ags.CODES]
    if strange:
        raise argparse.ArgumentTypeError(f"{strange[0]} is no code of a rule")
    return codes


def refuse_over_input(asked):
    """The fixed file is never written over a file that was read."""
    for path in (asked.file, asked.dictionary, asked.codes):
        if path and asked.clean and os.path.exists(asked.clean) and os.path.samefile(path, asked.clean):
            raise Refused(f"{asked.clean} is a file that is read: name another one after -o")


def write(path, data):
    """Writes a file whole or not at all."""
    folder = os.path.dirname(os.path.abspath(path))
    handle, made = tempfile.mkstemp(dir=folder, prefix=".fix-")
    try:
        with os.fdopen(handle, "wb") as file:
            file.write(data)
        os.chmod(made, 0o666 & ~umask())
        os.replace(made, path)
    except OSError:
        os.unlink(made)
        raise


def umask():
    mask = os.umask(0)
    os.umask(mask)
    return mask


def change_line(change):
    """One change, in words."""
    before, after = (texts.clipped(ags.shown(text), WIDTH) for text in (change.before, change.after))
    if not change.line and not change.new_line:
        return "the file as a whole"
    if not change.line:
        return f"added as line {change.new_line}: {after}"
    if not change.new_line:
        return f"line {change.line} taken out: {before or 'an empty line'}"
    if change.before == change.after:
        now = f", now line {change.new_line}" if change.new_line != change.line else ""
        return f"line {change.line}{now}: {after or 'an empty line'}"
    start = differs_from(change.before, change.after)
    return f"line {change.line}: {part(change.before, start)} -> {part(change.after, start)}"


def differs_from(before, after):
    """Where two lines begin to differ, a little before it."""
    same = next((at for at, (one, two) in enumerate(zip(before, after)) if one != two), min(len(before), len(after)))
    return max(0, same - 40)


def part(text, start):
    shown = ags.shown(text[start:start + 80])
    return ("..." if start else "") + shown + ("..." if len(text) > start + 80 else "")


def said(done, asked):
    """What was changed, and what remains, as text."""
    counted = done.counted()
    state = "clean" if done.is_clean else f"{texts.count(len(done.remaining.findings), 'finding')} left for a person"
    changes = texts.count(len(done.changes), "change") if counted else "no change"
    where = f"; written to {asked.clean}" if not asked.dry_run else ""
    out = [f"{asked.file}: {changes}, {state}{where}."]
    for code, about, made in counted:
        out.append(f"  Rule {code}: {about} ({texts.count(len(made), 'line')})")
        out += [f"    {change_line(one)}" for one in made[:FEW]]
        out += [f"    and {len(made) - FEW:,} more: --diff or --json shows each"] if len(made) > FEW else []
    for code, about, reason in done.taken_back:
        out.append(f"  Taken back, Rule {code}: {about}: {reason}")
    if not done.is_clean:
        out += ["", "What needs a person (the lines are those of the file as written):", *report.text(done.remaining),
                *report.preview(done.remaining)]
    return out


def run(asked):
    refuse_over_input(asked)
    data = bytes_of(asked.file)
    dictionary = bytes_of(asked.dictionary) if asked.dictionary else None
    codes = bytes_of(asked.codes) if asked.codes else b""
    options = Options(asked.days or "", asked.own_headings, codes, asked.only)
    done = fix(data, checker(asked.program, asked.dictionary), dictionary, options)
    done.remaining.name = asked.clean or asked.file
    if not asked.dry_run:
        write(asked.clean, done.data)
    if asked.json:
        print(json.dumps({"file": asked.file, "written": None if asked.dry_run else asked.clean, **done.as_json()}))
    elif asked.diff:
        print("\n".join(done.diff(asked.file, asked.clean or "fixed")))
    else:
        print("\n".join(said(done, asked)))
    sys.stdout.flush()
    return 0 if done.is_clean else 1


def main(given):
    """0 where the file is clean, 1 where findings remain, 2 where an argument, a file or the program is refused."""
    asked = arguments(given)
    gc.disable()
    try:
        return run(asked)
    except Refused as fault:
        print(f"fix: {fault}", file=sys.stderr)
    except BrokenPipeError:
        os.dup2(os.open(os.devnull, os.O_WRONLY), sys.stdout.fileno())
    except OSError as fault:
        print(f"fix: cannot read or write {fault.filename}", file=sys.stderr)
    return 2
