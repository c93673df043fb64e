"""Rules of a policy that do less or more than they seem to.

    warnings(rules, callers, words)              # a line each, under the dictionary `words` (tools/ags)
    warnings(rules, callers, words, ["N1"])      # of a register of these projects alone"""
import datetime
import difflib

from .reached import REQUEST_VERBS, deciding
from .rules import ROW_KEYS, decide
from .values import DAY_KEYS, FIRST_DAY, LAST_DAY

SHORT_TOKEN = 16


def warnings(rules, callers, words, projects=()):
    """Each warning as a line. `projects` are all that there are, where that is known."""
    found = [f"rule {number} {text}" for number, text in rule_warnings(rules, callers, words, projects)]
    if not any(rule["effect"] == "permit" and rule.get("verb", "see") == "see" for rule in rules):
        found.append("no rule permits see: no row of a data group is shown to anybody, and every listing is empty")
    elif not any(may_show_project(rule, rules[:index], words) for index, rule in enumerate(rules)):
        found.append("no rule permits see of PROJ under this dictionary: no deposit is listed or extracted")
    short = [caller for token, caller in callers.items() if len(token) < SHORT_TOKEN]
    if short:
        found.append(f"{len(short)} of {len(callers)} tokens have fewer than {SHORT_TOKEN} characters:"
                     " whoever guesses one is that caller")
    return found


def asks_of_rows(rule):
    return any(key in rule for key in ROW_KEYS)


def days_of(rule):
    """The first and the last day on which a rule may match."""
    return rule.get("from", FIRST_DAY), rule.get("until", LAST_DAY)


def turning_days(rule, rules):
    """The first day of a rule, and each later one of its days on which another rule begins or has ended."""
    first, last = days_of(rule)
    after = [datetime.date.fromisoformat(other["until"]) + datetime.timedelta(1)
             for other in rules if other.get("until", LAST_DAY) < LAST_DAY]
    turns = {other["from"] for other in rules if "from" in other} | {day.isoformat() for day in after}
    return sorted({first, *(day for day in turns if first < day <= last)})


def keys_set(rule):
    """What a rule sets beside its days; one that sets something of a row is of verb see."""
    keys = {key: value for key, value in rule.items() if key not in ("number", "effect", *DAY_KEYS)}
    return {"verb": "see", **keys} if asks_of_rows(rule) else keys


def never_matches(rule, words):
    """Why a rule can match nothing, or None."""
    verb = rule.get("verb")
    if verb in REQUEST_VERBS and asks_of_rows(rule):
        told = ", ".join(key for key in ROW_KEYS if key in rule and key != "value")
        return f"never matches: a request of verb {verb} has no row, so the rule may not set {told}"
    group, heading = rule.get("group"), rule.get("heading")
    if group is not None and not words.has_group(group.encode()):
        return f"never matches under this dictionary, unless a file's own DICT has it: no group {group}"
    if heading is None:
        return None
    under = {name.decode() for name in words.groups_of.get(heading.encode(), ())}
    if not under or (group is not None and group not in under):
        where = f"group {group} has no heading" if group is not None else "no group has the heading"
        return f"never matches under this dictionary, unless a file's own DICT has it: {where} {heading}"
    return None


def decides_before(rule, earlier):
    """The first earlier rule that decides all that this one could, or None."""
    own, (first, last) = keys_set(rule), days_of(rule)

    def decides(other):
        begin, end = days_of(other)
        return begin <= first and last <= end and all(own.get(key) == value for key, value in keys_set(other).items())
    return next(filter(decides, earlier), None)


def misspelt(rule, key, callers):
    """A firm or a role that no caller has. Another rule that has it does not make it known."""
    name, known = rule.get(key), sorted({caller[key] for caller in callers.values()})
    if name is None or name in known:
        return None
    alike = nearest(name, known)
    return f"no caller has the {key} {name}" + (f": is {alike} meant?" if alike else "")


def nearest(name, known):
    """A name that is spelled as another one but for capitals, or nearly so, or None."""
    alike = [other for other in known if other.casefold() == name.casefold()]
    return next(iter(alike or difflib.get_close_matches(name, known, 1, 0.75)), None)


def misspelt_project(rule, rules, projects):
    """A project that there is not, where it is known which there are: no rule and no caller tells. Otherwise one that
    differs from that of an earlier rule by capitals alone, or nearly is one that other rules name."""
    name = rule.get("project")
    if name is not None and projects:
        alike = nearest(name, projects)
        return None if name in projects else f"there is no project {name}" + (f": is {alike} meant?" if alike else "")
    named = [other["project"] for other in rules if other is not rule and "project" in other]
    first = next((other for other in rules if other.get("project", "").casefold() == (name or "").casefold()), None)
    if name is None:
        return None
    if first["project"] != name:
        return f"has the project {name}, and rule {first['number']} has {first['project']}: which one is meant?"
    others = {other for other in named if other.casefold() != name.casefold()}
    alike = None if name in named else nearest(name, sorted(others))
    return f"no other rule has the project {name}: is {alike} meant?" if alike else None


def never_reached(rule, earlier, callers):
    """That earlier rules, one of them or several together, leave no request and no row for a rule, or no request for a
    denial that has no verb."""
    one = decides_before(rule, earlier)
    if one:
        return f"is never reached: rule {one['number']} decides all that it could"
    verb, days = rule.get("verb"), turning_days(rule, earlier)
    of_requests = None if verb == "see" or asks_of_rows(rule) else deciding(rule, earlier, callers, days, False)
    of_rows = None if verb in REQUEST_VERBS else deciding(rule, earlier, callers, days, True)
    if verb is None and not asks_of_rows(rule):
        if of_requests and of_rows:
            return f"is never reached: {that_decide(of_requests + of_rows)} all that it could"
        if of_requests and rule["effect"] == "deny":
            return f"denies no request: {that_decide(of_requests)} each that it could. Put it before them"
        return None
    numbers = of_requests or of_rows
    return f"is never reached: {that_decide(numbers)} all that it could" if numbers else None


def that_decide(numbers):
    """`rule 10 decides`, `rules 10, 20 and 30 together decide`."""
    *first, last = map(str, sorted(set(numbers)))
    return f"rules {', '.join(first)} and {last} together decide" if first else f"rule {last} decides"


def still_served(rule, rules, callers):
    """Of a denial of deposits alone: a caller whom it is for and who still lists, draws or withdraws on some of its
    days."""
    if rule["effect"] != "deny" or rule.get("verb") != "deposit" or "firm" not in rule:
        return None
    days = turning_days(rule, rules)
    for caller in callers.values():
        if caller["firm"] == rule["firm"]:
            project, verbs = rule.get("project", ""), ("list", "extract", "withdraw")
            may = " and ".join(verb for verb in verbs if any(
                decide(rules, caller, project, verb, day)[0] == "permit" for day in days))
            if may:
                return (f"denies deposits alone: {caller['firm']} may still {may}."
                        " A denial without verb ends every access")
    return None


def hides_by_value(rule):
    """A denial of rows by a value lets through every other spelling of it, and rows without the heading."""
    if rule["effect"] != "deny" or "heading" not in rule or rule.get("verb", "see") != "see":
        return None
    group = rule.get("group", "the group")
    heading = rule["heading"]
    return (f"hides {heading} {rule['value']!r} alone: other spellings, an empty entry and files without {heading}"
            f" are not hidden. Permit the values that may be seen, then deny {group}")


def rule_warnings(rules, callers, words, projects):
    """(number of the rule, warning), in the order of the rules."""
    for index, rule in enumerate(rules):
        told = [never_matches(rule, words),
                *(misspelt(rule, key, callers) for key in ("firm", "role")), misspelt_project(rule, rules, projects),
                never_reached(rule, rules[:index], callers)]
        told += [still_served(rule, rules, callers), hides_by_value(rule)]
        yield from ((rule["number"], text) for text in told if text)


def may_show_project(rule, earlier, words):
    """Whether a rule may permit rows of PROJ that no earlier rule decides."""
    is_of_rows = rule["effect"] == "permit" and rule.get("verb", "see") == "see"
    is_of_project = rule.get("group", "PROJ") == "PROJ"
    is_known = "heading" not in rule or rule["heading"].encode() in words.order(b"PROJ")
    return is_of_rows and is_of_project and is_known and decides_before({**rule, "group": "PROJ"}, earlier) is None
