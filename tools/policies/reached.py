"""Whether a rule is reached: whether there is a request, or a row, that it matches and no earlier rule decides.

    deciding(rule, earlier, callers, days, is_of_rows)    # the numbers of the rules that leave nothing for it, or None

Callers are those of the list. A project or a group is one that the rules name, or another one; a row has the entry
under a heading that the rule sets, and no other that a rule could set."""
from .rules import decide, matches
from .values import VERBS

REQUEST_VERBS = tuple(verb for verb in VERBS if verb != "see")


def deciding(rule, earlier, callers, days, is_of_rows):
    """The numbers of the earlier rules that together decide each request, or each row, that a rule matches; None where
    one is left for it, or where it matches none."""
    numbers, seen = set(), set()
    people = sorted({(caller["firm"], caller["role"]) for caller in callers.values()})
    for firm, role in people:
        for day in days:
            caller = {"firm": firm, "role": role}
            near = [other for other in earlier if is_for(other, caller, day)]
            key = tuple(other["number"] for other in near)
            if key in seen or not is_for(rule, caller, day):
                continue
            seen.add(key)
            found = [decide(near, caller, project, verb, day, row)[1]
                     for project, verb, row in cases(rule, near, is_of_rows)
                     if matches(rule, caller, project, verb, day, row)]
            if 0 in found:
                return None
            numbers.update(found)
    return sorted(numbers) or None


def is_for(rule, caller, day):
    """Whether a rule may match what a caller asks on a day."""
    is_caller = all(rule.get(key, caller[key]) == caller[key] for key in ("firm", "role"))
    return is_caller and rule.get("from", day) <= day <= rule.get("until", day)


def cases(rule, near, is_of_rows):
    """(project, verb, row) of each request or row that the rules tell apart."""
    projects = values_of("project", rule, near)
    if not is_of_rows:
        return [(project, verb, None) for project in projects for verb in REQUEST_VERBS]
    headings, cells = ([rule["heading"].encode()], [rule["value"].encode()]) if "heading" in rule else ([], [])
    rows = [{"group": group.encode(), "own": own, "past": past, "headings": headings, "cells": cells}
            for group in values_of("group", rule, near) for own in (True, False) for past in (True, False)]
    return [(project, "see", row) for project in projects for row in rows]


def values_of(key, rule, near):
    """The values of a key that a rule and those before it name, and one more, which none names."""
    return [rule[key]] if key in rule else sorted({other[key] for other in near if key in other}) + [""]
