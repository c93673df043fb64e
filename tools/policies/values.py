"""The keys of a rule and of a caller: what each may have, in words, and whether a table has it.

    RULE["verb"].text                     # "deposit, check, list, extract, withdraw, see, or *"
    RULE["verb"].is_value(rule)           # whether the rule's verb is one of them"""
import datetime
import re
from typing import Callable, NamedTuple

FIRST_DAY, LAST_DAY = "1970-01-01", "9999-12-31"
VERBS = ("deposit", "check", "list", "extract", "withdraw", "see")
DAY_KEYS = ("from", "until")
NAME = "1 to 32 letters, digits, - or _"
DAY = f'a day of the calendar in quotes, "yyyy-mm-dd" from {FIRST_DAY} to {LAST_DAY}'


class Value(NamedTuple):
    """What a key may have, in words; whether a table has such a value under it; and whether it has to be there."""
    text: str
    is_value: Callable
    is_required: bool = False


def is_name(text):
    """Whether a text may be a firm, a role or a project."""
    return is_text(text, r"[A-Za-z0-9_-]{1,32}")


def is_group_name(text):
    return is_text(text, r"[A-Z0-9]{1,4}")


def is_text(value, pattern):
    return isinstance(value, str) and re.fullmatch(pattern, value) is not None


def day_of(text):
    """The day that a text `yyyy-mm-dd` names, from 1970-01-01 on, as that text, or None. Days compare as their
    texts."""
    if not is_text(text, r"[0-9]{4}-[0-9]{2}-[0-9]{2}") or text < FIRST_DAY:
        return None
    try:
        datetime.date.fromisoformat(text)
    except ValueError:
        return None
    return text


def is_number(rule):
    value = rule.get("number")
    return isinstance(value, int) and not isinstance(value, bool) and 1 <= value <= 9999


def or_any(key, is_value):
    """The values of a key, and `*`."""
    return lambda table: table.get(key) == "*" or is_value(table.get(key))


def one_of(key, *words):
    return lambda table: isinstance(table.get(key), str) and table[key] in words


def is_last_day(rule):
    day, first = day_of(rule.get("until")), day_of(rule.get("from"))
    return day is not None and (first is None or first <= day)


RULE = {
    "number": Value("a whole number from 1 to 9999", is_number, True),
    "effect": Value("permit or deny", one_of("effect", "permit", "deny"), True),
    "firm": Value(f"{NAME}, or *", or_any("firm", is_name)),
    "role": Value(f"{NAME}, or *", or_any("role", is_name)),
    "project": Value(f"{NAME}, or *", or_any("project", is_name)),
    "verb": Value(", ".join(VERBS) + ", or *", one_of("verb", *VERBS, "*")),
    "group": Value("1 to 4 capital letters or digits, or *", or_any("group", is_group_name)),
    "owner": Value("own, other or *", one_of("owner", "own", "other", "*")),
    "embargo": Value("past, running or *", one_of("embargo", "past", "running", "*")),
    "heading": Value("1 to 9 capital letters, digits or _, with a value beside it",
                     lambda rule: is_text(rule.get("heading"), "[A-Z0-9_]{1,9}") and "value" in rule),
    "value": Value("a text, with a heading beside it",
                   lambda rule: isinstance(rule.get("value"), str) and "heading" in rule),
    "from": Value(DAY, lambda rule: day_of(rule.get("from")) is not None),
    "until": Value(f"{DAY}, not before the rule's from", is_last_day),
}
CALLER = {
    "token": Value("1 to 64 characters from ! to ~", lambda caller: is_text(caller.get("token"), "[!-~]{1,64}"), True),
    "firm": Value(NAME, lambda caller: is_name(caller.get("firm")), True),
    "role": Value(NAME, lambda caller: is_name(caller.get("role")), True),
}
