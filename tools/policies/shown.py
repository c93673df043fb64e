"""What a policy shows of a file without findings, whose rows are those of tools/ags.

    hidden = hidden_rows(rules, caller, deposit, day, rows)    # by number, each with the row and the rule that hide it
    counts(rows, hidden)                                       # of each group how many rows are shown, of how many"""
import collections

import ags
from .rules import decide

Hidden = collections.namedtuple("Hidden", "row by rule")


def decisions(rules, caller, deposit, day, rows):
    """For each row None where it may be seen by itself, and else the number of the rule that denies it."""
    for g, row in rows.rows:
        if g.name in ags.DEFINITIONS:
            yield None
            continue
        facts = {"group": g.name, "own": deposit["firm"] == caller["firm"], "past": day >= deposit["embargo"],
                 "headings": g.headings, "cells": row.items}
        effect, number = decide(rules, caller, deposit["project"], "see", day, facts)
        yield None if effect == "permit" else number


def hidden_rows(rules, caller, deposit, day, rows):
    """Each hidden row with a denied row that it reaches, by the fewest steps, and the rule that denies that one."""
    denied = list(decisions(rules, caller, deposit, day, rows))
    backwards = [[] for _ in rows.rows]
    for n, targets in enumerate(rows.steps):
        for m in targets:
            backwards[m].append(n)
    by = {n: n for n, number in enumerate(denied) if number is not None}
    work = collections.deque(by)
    while work:
        m = work.popleft()
        for n in backwards[m]:
            if n not in by:
                by[n] = by[m]
                work.append(n)
    return {n: Hidden(n, m, denied[m]) for n, m in by.items()}


def is_project_shown(rows, hidden):
    """Whether the row of PROJ is shown: without it the deposit is neither listed nor drawn."""
    return any(g.name == b"PROJ" and n not in hidden for n, (g, _) in enumerate(rows.rows))


def counts(rows, hidden):
    """For each group in the file's order: its name, how many of its rows are shown, and how many it has."""
    at = 0
    for g in rows.groups:
        numbers = range(at, at + len(g.data))
        at += len(g.data)
        yield g.name.decode(), sum(n not in hidden for n in numbers), len(g.data)


def row_text(rows, n):
    """A row as a reader finds it: its line, its group and its key."""
    group, row = rows.rows[n]
    key = ags.key_of(group, row, rows.words) or row.items[:1]
    return f"line {row.line} {ags.shown(group.name)} " + ", ".join(ags.shown(entry) for entry in key if entry)
