"""Findings explained: what causes them, what is missing, and how a file is fixed.

    `findings, others = read_findings(b"2a 5 -\\n")`         the program's lines, or the JSON of HTTP
    `explained = explain(data, findings)`                    or `explain(data, findings, dictionary=bytes)`
    `explained.causes()`                                     groups, each with what is wrong here and its fix
    `report.text(explained)`, `report.as_json(explained)`, `report.sarif(explained)`, `page.html(explained)`

It is built on the package ags beside it and on the texts of docs/RULES.md."""
import json
import re

import ags
from . import cause, context


LINE = re.compile(rb"(\w+) ([0-9]{1,10}) (.*)")


def read_findings(given):
    """The findings of an answer, and its other lines: the program's lines, or the JSON of HTTP."""
    try:
        answer = json.loads(given)
    except ValueError:
        answer = None
    if isinstance(answer, dict):
        return findings_of_json(answer, given)
    findings, others = [], []
    for line in given.splitlines():
        match = LINE.fullmatch(line)
        if match and match[1].decode() in ags.RANK:
            findings.append(ags.Finding(int(match[2]), match[1].decode(), b"" if match[3] == b"-" else match[3]))
        elif line:
            others.append(ags.shown(line))
    return findings, others


def findings_of_json(answer, given):
    """The findings of a reply to POST .. /check or .. /deposits; any other reply is a line by itself."""
    try:
        found = [ags.Finding(int(one["line"]), one["code"], one["subject"].encode("latin-1", "replace"))
                 for one in answer["findings"]]
        if all(one.code in ags.RANK for one in found):
            return found, []
    except (KeyError, TypeError, ValueError, AttributeError):
        pass
    return [], ["clean" if answer.get("clean") is True else ags.shown(given.strip())]


class Told:
    """The findings of a file with what explains them."""

    def __init__(self, data, findings, dictionary=None, name="FILE"):
        self.file, self.findings, self.name = ags.File(data), findings, name
        self.standard, of = ags.read_dictionary(dictionary) if dictionary is not None else (ags.built_in(), None)
        self.context = context.Context(self.file, self.standard, standard_file=of)
        self.context.own = None if self.is_of_file() else set(self.own())
        self.phase = max((cause.phase_of(self.context, finding) for finding in findings), default=None)

    def own(self):
        """The findings that this file has under this dictionary."""
        return self.context.kept("own findings", lambda: ags.first_findings(self.file, self.standard)[1])

    def is_of_file(self):
        """Whether the findings are those of this file under this dictionary."""
        def printed(findings):
            return {(f.line, f.code, ags.shown(f.subject).replace("-", "", f.subject == b"-")) for f in findings}
        return self.findings == self.own() or printed(self.findings) == printed(self.own())

    def grouped(self):
        return self.context.kept("grouped", lambda: cause.grouped(self.context, self.findings))

    def causes(self, most=None):
        """The causes in the order in which to fix them, or so many of them."""
        return [cause.cause_of(self.context, key, given) for key, given in self.grouped()[:most]]

    def singles(self):
        """Each finding as a cause of its own."""
        return (cause.single(self.context, finding) for finding in self.findings)


def explain(data, findings, dictionary=None, name="FILE"):
    """What explains the findings of a file, under the dictionary whose bytes are given, or the built-in one."""
    return Told(data, findings, dictionary, name)
