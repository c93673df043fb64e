"""The command bin/explain: findings on standard input, what explains them on standard output."""
import argparse
import gc
import os
import sys

import ags
from . import doubts, explain, page, read_findings, report

ABOUT = "Explains findings: reads them from standard input as groundreg prints them, or as the JSON of HTTP."
ADVICE = {"too large": f"A file has at most {ags.LIMIT:,} bytes; docs/COMMANDS.md says how one is split."}


def arguments(given):
    parser = argparse.ArgumentParser(prog="explain", usage="bin/groundreg < FILE | bin/explain [options] FILE",
                                     description=ABOUT)
    parser.add_argument("--dictionary", metavar="D",
                        help="the dictionary that the file was checked under, if not the built-in one")
    parser.add_argument("--all", action="store_true", help="each finding, and not each cause")
    parser.add_argument("--phase", action="store_true",
                        help="the phase that was checked alone, without a preview of the later ones")
    parser.add_argument("--doubts", action="store_true", help="also what AGS4 permits and is often a mistake")
    parser.add_argument("--project", metavar="ID", default="", help="the PROJ_ID that is expected, for --doubts")
    form = parser.add_mutually_exclusive_group()
    form.add_argument("--json", action="store_true", help="the causes as JSON")
    form.add_argument("--sarif", action="store_true", help="the findings as SARIF 2.1.0")
    form.add_argument("--html", metavar="PAGE", help="write one HTML page there")
    parser.add_argument("file", metavar="FILE")
    return parser.parse_args(given)


def bytes_of(path):
    with open(path, "rb") as file:
        return file.read()


def doubts_of(explained, asked):
    """The doubts, or None where they were not asked for."""
    return doubts.doubts(explained.context, asked.project) if asked.doubts else None


def page_text(explained, asked, others):
    found = doubts_of(explained, asked)
    return page.html(explained, not asked.phase, found) if explained.findings else page.page_of(others, found)


def lines_of(explained, asked, others):
    """What is printed."""
    if asked.json:
        return [report.as_json(explained, not asked.phase, doubts_of(explained, asked))]
    if asked.sarif:
        return [report.sarif(explained)]
    out = list(others) + [ADVICE[line] for line in others if line in ADVICE]
    if explained.findings:
        out += report.every(explained) if asked.all else report.text(explained)
    is_ahead = explained.findings and not asked.phase and not asked.all
    out += report.preview(explained) if is_ahead else []
    return out + (doubts.printed(explained.context, asked.project) if asked.doubts else [])


def write_page(path, text):
    with open(path, "w", encoding="utf-8") as file:
        file.write(text)


def main(given):
    """0, or 2 where an argument is wrong or a file cannot be read or written."""
    asked = arguments(given)
    if sys.stdin.isatty():
        print("explain: findings come on standard input: bin/groundreg < FILE | bin/explain FILE", file=sys.stderr)
        return 2
    gc.disable()
    try:
        dictionary = bytes_of(asked.dictionary) if asked.dictionary else None
        data = bytes_of(asked.file)
        findings, others = read_findings(sys.stdin.buffer.read())
        explained = explain(data, findings, dictionary, asked.file)
        if asked.html:
            write_page(asked.html, page_text(explained, asked, others))
            return 0
        print("\n".join(lines_of(explained, asked, others)))
        sys.stdout.flush()
    except ags.NoDictionary as fault:
        print(f"explain: dictionary refused: {fault}", file=sys.stderr)
        return 2
    except BrokenPipeError:
        os.dup2(os.open(os.devnull, os.O_WRONLY), sys.stdout.fileno())
    except OSError as fault:
        print(f"explain: cannot read or write {fault.filename}", file=sys.stderr)
        return 2
    return 0
