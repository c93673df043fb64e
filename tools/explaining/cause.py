"""Findings grouped by what causes them, each cause with what is wrong here and how it is fixed.

    context = Context(File(data), built_in())
    for cause in causes(context, findings):       # in the order in which to fix them
        print(cause.code, cause.subject, cause.value, len(cause.findings), cause.here, cause.fix)"""
from dataclasses import dataclass

import ags
from . import additions, entries, groups, headings, lines, texts

# In which order the causes of one phase are fixed: what other findings follow from comes first.
ORDER = {code: rank for rank, code in enumerate(
    "1 2a 6 5 3 2b 2 P1 19 19a P2 4 13 14 17 15 18 9 10a 10b 7 10c 19b 11a 11b 16 8 11c 20".split())}
IN_ENTRIES = {code: rank for rank, code in enumerate("17 15 16 20 8 10b 10a 10c 11c".split())}
# The phase of the codes that one phase alone has.
OF_PHASE = {code: phase for phase,
            codes in ((1, "1 2a 3 5 6"), (2, "2b"), (3, "19 19a P1 P2"), (4, "7 9 18 19b 11a 11b 13 14"),
                      (5, "8 11c 16 20"))
            for code in codes.split()}
NO_TEXT = ("ZIP", "PDF", "gzip", "HTML", "UTF-16", "AGS3")


@dataclass
class Cause:
    """Findings that one change, or the same change in several places, would take away."""
    code: str
    title: str
    rule: str
    subject: str
    value: str
    findings: list
    here: list
    fix: str
    context: object
    rows: list

    @property
    def place(self):
        """Where its first finding is, as `place` gives it."""
        return (0, 0, 0) if self.context.kind[0] in NO_TEXT else place(self.context, self.findings[0])

    @property
    def lines(self):
        return sorted({finding.line for finding in self.findings})


def phase_of(context, finding):
    """The phase that gives a finding."""
    code, line = finding.code, finding.line
    if code in OF_PHASE:
        return OF_PHASE[code]
    row = context.file.by_line.get(line)
    if code == "2" and line == 0 or code == "4" and row and row.descriptor == b"GROUP":
        return 2
    if code in ("2", "4"):
        return 3
    if line == 0:
        return 4
    if code in ("10a", "10b", "10c") and row and row.descriptor in (b"GROUP", b"HEADING"):
        return 4
    return 5


TELLERS = {1: lines, 2: groups, 3: groups, 4: headings, 5: entries}


def key_of(context, finding):
    """What findings of one cause have alike: the phase, the code under which it is explained, and more."""
    if context.kind[0] in NO_TEXT:
        return 1, "file", context.kind[0]
    phase = phase_of(context, finding)
    if context.is_strange(finding):
        return phase, finding.code, "elsewhere"
    return phase, *TELLERS[phase].key(context, finding)


def place(context, finding):
    """Where a finding is, as (line, place in the line, length); a length of 0 marks nothing, a line of 0 is the file
    as a whole."""
    if not 1 <= finding.line <= len(context.file.lines):
        return 0, 0, 0
    return finding.line, *(lines.place(context, finding) or (0, 0))


def cause_of(context, key, findings):
    """The cause of findings that have a key alike."""
    first, (phase, *key) = findings[0], key
    if key[0] == "file":
        rule = context.rules[first.code]
        said = context.kind[1]
        return Cause(first.code, rule.title, rule.rule, "", context.kind[0], findings, said[:1],
                     " ".join(said[1:] or said), context, [])
    rule = context.rules[key[0]]
    same = [finding for finding in findings if finding.code == key[0]] or findings
    subjects = list(dict.fromkeys(finding.subject for finding in same if finding.subject))
    value, here, fix, *rows = elsewhere(context, findings) if key[1:] == ["elsewhere"] else TELLERS[phase].tell(
        context, tuple(key), same)
    rows = rows[0] if rows else []
    if any(ags.shown(additions.TO_WRITE) in row for row in rows) and fix.endswith(":"):
        fix = f"{fix[:-1]}, with your own text where it says {ags.shown(additions.TO_WRITE)}:"
    return Cause(key[0], rule.title, rule.rule, texts.names(subjects, 4) if subjects else "", value,
                 [*same, *(one for one in findings if one.code != key[0])],
                 here, fix or rule.fix, context, rows)


def elsewhere(context, findings):
    """What is said of findings that the file does not have under this dictionary: they came from another check."""
    names = list(dict.fromkeys(group.name for finding in findings
                               if (group := context.file.group_at(finding.line)) is not None))
    here = ["The file has no such finding under this dictionary."]
    lacks = [name for name in names if not context.words.has_group(name)]
    here += [f"{texts.names([name])} is no group of this dictionary." for name in lacks[:4]]
    here += [f"{texts.names([name])} has no KEY headings in this dictionary." for name in names[:4]
             if name not in lacks and not context.words.keys(name)]
    return "", here, "Name the dictionary that the file was checked under: --dictionary D."


def grouped(context, findings):
    """The findings by their key, in the order in which their causes are fixed."""
    found = {}
    for finding in findings:
        if finding.code in context.rules:
            found.setdefault(key_of(context, finding), []).append(finding)

    depths = {group.name: context.words.depth(group.name) for group in context.file.groups}

    def order(item):
        (phase, code, *_), given = item
        ranks = IN_ENTRIES if phase == 5 else ORDER
        group = context.file.group_at(given[0].line) if phase == 5 and code in ("10a", "10c") else None
        return phase, ranks.get(code, 0) if phase in (1, 4, 5) else 0, depths[group.name] if group else 0, given[0].line
    return sorted(found.items(), key=order)


def causes(context, findings):
    """The causes of findings, in the order in which to fix them."""
    return [cause_of(context, key, given) for key, given in grouped(context, findings)]


def single(context, finding):
    """A finding as a cause of its own."""
    return cause_of(context, key_of(context, finding), [finding])
