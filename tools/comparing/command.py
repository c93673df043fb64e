"""The command bin/compare: what differs between two AGS4 files."""
import argparse
import gc
import os
import sys

from tables import Refused

from . import compare, report

ABOUT = "What differs between two AGS4 files, by keys of rows. Status 0: nothing; 1: something; 2: one is refused."


def arguments(given):
    parser = argparse.ArgumentParser(prog="compare", usage="bin/compare OLD NEW [--dictionary D] [--json]",
                                     description=ABOUT)
    parser.add_argument("files", metavar="FILE", nargs=2)
    parser.add_argument("--dictionary", metavar="D", help="the dictionary of keys and parents, if not the built-in one")
    parser.add_argument("--json", action="store_true", help="as JSON")
    return parser.parse_args(given)


def bytes_of(path):
    with open(path, "rb") as file:
        return file.read()


def main(given):
    """0 where the files are the same, 1 where they differ, 2 where an argument, the dictionary or a file is refused."""
    asked = arguments(given)
    gc.disable()
    try:
        dictionary = bytes_of(asked.dictionary) if asked.dictionary else None
        found = compare(*map(bytes_of, asked.files), dictionary, asked.files)
        print(report.as_json(found, asked.files) if asked.json else "\n".join(report.text(found, asked.files)))
        sys.stdout.flush()
    except Refused as refused:
        print("\n".join(f"compare: {reason}" for reason in refused.reasons), file=sys.stderr)
        return 2
    except BrokenPipeError:
        os.dup2(os.open(os.devnull, os.O_WRONLY), sys.stdout.fileno())
        return 1
    except OSError as fault:
        print(f"compare: cannot read {fault.filename}: {fault.strerror}", file=sys.stderr)
        return 2
    return 0 if found.is_same else 1
