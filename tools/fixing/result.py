"""What a run did: the fixed bytes, each change, what was taken back and what remains for a person."""
import itertools

import ags
from explaining import report
from explaining.headings import longest_in_order

from .document import numbered

AROUND = 2


class Done:
    """`first` and `last` are the documents before and after the fixes of lines."""

    def __init__(self, given, first, last, changes, taken_back, remaining):
        self.given, self.first, self.last = given, first, last
        self.changes, self.taken_back, self.remaining = numbered(changes, last), taken_back, remaining
        self.data = last.data() if changes else given

    @property
    def is_clean(self):
        return not self.remaining.findings

    def counted(self):
        """The changes by fix: (code, about, changes), in the order in which they were made."""
        found = {}
        for change in self.changes:
            found.setdefault((change.fix, change.code, change.about), []).append(change)
        return [(code, about, changes) for (_, code, about), changes in found.items()]

    def as_json(self):
        """All of it but the bytes, for programs."""
        return {"clean": self.is_clean,
                "changes": [{"code": code, "about": about, "count": len(changes), "changes": [
                    {"line": one.line, "new_line": one.new_line, "before": ags.shown(one.before),
                     "after": ags.shown(one.after)} for one in changes]} for code, about, changes in self.counted()],
                "taken_back": [{"code": code, "about": about, "reason": reason} for code, about, reason
                               in self.taken_back],
                "remaining": {"phase": self.remaining.phase, "findings": len(self.remaining.findings),
                              "causes": [report.cause_as_json(one) for one in self.remaining.causes()]}}

    def diff(self, name, new_name):
        """The lines that differ as a unified diff; a line whose end alone differs is none of them."""
        out = []
        for hunk in hunks(pairs(self.first.lines, self.last.lines)):
            out += hunk
        return [f"--- {name}", f"+++ {new_name}", *out] if out else []


def pairs(before, after):
    """The lines of two documents side by side, as (old, new) with their numbers, None where one has no such line."""
    place = {line.name: at for at, line in enumerate(before)}
    known = [line for line in after if line.name in place]
    stays = {known[at].name for at in longest_in_order([place[line.name] for line in known])}
    out, at = [], 0
    for number, line in enumerate(after):
        if line.name not in stays:
            out.append((None, number, None, line))
            continue
        while before[at].name != line.name:
            out.append((at, None, before[at], None))
            at += 1
        out.append((at, number, before[at], line))
        at += 1
    return out + [(number, None, line, None) for number, line in enumerate(before[at:], at)]


def is_same(pair):
    return pair[2] is not None and pair[3] is not None and pair[2].content == pair[3].content


def hunks(given):
    """The parts of a diff, each with a few lines around what differs."""
    near = sorted({at for place, pair in enumerate(given) if not is_same(pair)
                   for at in range(max(0, place - AROUND), min(len(given), place + AROUND + 1))})
    olds, news = ([0, *itertools.accumulate(pair[side] is not None for pair in given)] for side in (2, 3))
    start = 0
    for end in range(1, len(near) + 1):
        if end == len(near) or near[end] != near[end - 1] + 1:
            first = near[start]
            yield hunk([given[at] for at in near[start:end]], olds[first], news[first])
            start = end


def hunk(part, olds, news):
    """The lines of a part, below how many lines of each file come before it."""
    old = sum(pair[2] is not None for pair in part)
    new = sum(pair[3] is not None for pair in part)
    out = [f"@@ -{olds + bool(old)},{old} +{news + bool(new)},{new} @@"]
    for pair in part:
        if is_same(pair):
            out.append(" " + ags.shown(pair[2].content))
            continue
        out += ["-" + ags.shown(pair[2].content)] if pair[2] is not None else []
        out += ["+" + ags.shown(pair[3].content)] if pair[3] is not None else []
    return out
