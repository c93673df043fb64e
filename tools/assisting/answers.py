"""What is answered about a file: each answer takes the file's bytes and those of the dictionary (None: the built-in
one), and gives a content type and bytes."""
import json

import ags
import explaining
import fixing
import tables

# So many causes are answered in full, each with so many of its findings.
MOST_CAUSES, FEW = 50, 3
JSON = "application/json"


def cause_as_json(cause):
    """A cause as the page shows it: its first findings, and between which lines all of them are."""
    lines = [line for line in cause.lines if line]
    return {"code": cause.code, "title": cause.title, "rule": cause.rule, "subject": cause.subject, "here": cause.here,
            "fix": cause.fix, "rows": cause.rows, "count": len(cause.findings),
            "lines": [len(lines), min(lines, default=0), max(lines, default=0)],
            "findings": [{"code": each.code, "line": each.line, "subject": ags.shown(each.subject)}
                         for each in cause.findings[:FEW]]}


def finder(dictionary):
    """A function from a file's bytes to the findings that it has under the dictionary, as the program has them."""
    standard = ags.read_dictionary(dictionary)[0] if dictionary is not None else ags.built_in()
    return lambda data: ags.first_findings(ags.File(data), standard)[1]


def explain(data, dictionary):
    """The causes of the findings that the file has under the dictionary."""
    found = finder(dictionary)(data)
    explained = explaining.explain(data, found, dictionary)
    causes = explained.causes(MOST_CAUSES)
    told = {"findings": len(found), "causes": len(explained.grouped()), "said": explained.context.kind[1],
            "first": [cause_as_json(cause) for cause in causes]}
    return JSON, json.dumps(told).encode()


def fix(data, dictionary):
    """What was changed, as a line of JSON, and below it the fixed file."""
    done = fixing.fix(data, finder(dictionary), dictionary)
    told = {"clean": done.is_clean, "remaining": len(done.remaining.findings), "changes": [
        {"code": code, "about": about, "count": len(changes),
         "lines": [change.line or change.new_line for change in changes[:FEW]]}
        for code, about, changes in done.counted()]}
    return "application/octet-stream", json.dumps(told).encode() + b"\n" + done.data


def workbook(data, dictionary):
    """An XLSX file: a sheet a group, numbers as numbers."""
    chosen = tables.Chosen(dictionary=dictionary)
    return "application/vnd.openxmlformats-officedocument.spreadsheetml.sheet", tables.workbook(data, chosen)


OFFERED = {"explain": explain, "fix": fix, "tables": workbook}
# What says that a file or the dictionary cannot be answered about.
REFUSALS = (ags.NoDictionary, fixing.Refused, tables.Refused)
