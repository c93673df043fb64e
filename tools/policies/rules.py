"""The rules of a policy and its callers, and what the rules decide.

    rules = read_policy(text)                    # or Refused, with the name of the first refusal
    callers = read_callers(text)                 # by token
    decide(rules, caller, project, verb, day)    # ("permit", 20); ("deny", 0) where no rule matches"""
from . import refusals

# What a rule sets of a row; a request has none.
ROW_KEYS = ("group", "owner", "embargo", "heading", "value")


class Refused(Exception):
    """A text that is not read, with the reason's name."""


def read_policy(text):
    """The rules of a policy, each with the keys that it sets."""
    rules = items_of(text, "rule", refusals.policy_refusals)
    return [{key: value for key, value in rule.items() if key in ("heading", "value") or value != "*"}
            for rule in rules]


def read_callers(text):
    """The callers, by token."""
    callers = items_of(text, "caller", refusals.caller_refusals)
    return {caller["token"]: {"firm": caller["firm"], "role": caller["role"]} for caller in callers}


def items_of(text, array, refused):
    """The tables of an array, where nothing of the text is refused."""
    for name, _ in refused(text):
        raise Refused(name)
    return refusals.document(text).get(array, [])


def decide(rules, caller, project, verb, day, row=None):
    """("permit", n) or ("deny", n) of the first rule that matches; ("deny", 0) where none does."""
    for rule in rules:
        if matches(rule, caller, project, verb, day, row):
            return rule["effect"], rule["number"]
    return "deny", 0


def matches(rule, caller, project, verb, day, row):
    """Whether a rule matches on the day of the request; row is None for a request, else what is known of a row."""
    if day < rule.get("from", day) or day > rule.get("until", day):
        return False
    asked = {"firm": caller["firm"], "role": caller["role"], "project": project, "verb": verb}
    if any(key in rule and rule[key] != value for key, value in asked.items()):
        return False
    sets = [key for key in ROW_KEYS if key in rule]
    if sets and row is None:
        return False
    if "group" in rule and rule["group"].encode() != row["group"]:
        return False
    if "owner" in rule and (rule["owner"] == "own") != row["own"]:
        return False
    if "embargo" in rule and (rule["embargo"] == "past") != row["past"]:
        return False
    if "heading" in rule:
        want = (rule["heading"].encode(), rule["value"].encode())
        return want in zip(row["headings"], row["cells"])
    return True
