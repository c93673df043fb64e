"""What of a policy or of callers is refused, each with its line, its key and what may be there.

    policy_refusals(text), caller_refusals(text)    # (refusal, where and what may be there), first that of the program
    document(text)                                  # the table that a TOML text is, or NoTable"""
import difflib
import re
try:
    import tomllib
except ImportError:  # a Python before 3.11: what reads no policy and no callers does without
    tomllib = None

from . import values

HAS_TOML = tomllib is not None
ORDER = ("Syntax", "UnknownKey", "BadValue", "Order", "DuplicateToken")
TEXTS = {"Syntax": "the text is no TOML", "UnknownKey": "a key that may not be there",
         "BadValue": "a value that may not be there", "Order": "numbers do not rise",
         "DuplicateToken": "a token that is there twice"}


class NoTable(Exception):
    """A text that is no TOML, with the parser's own words."""


def policy_refusals(text):
    return refusals(text, "rule", values.RULE)


def caller_refusals(text):
    return refusals(text, "caller", values.CALLER)


def refusals(text, array, known):
    """(refusal, where and what may be there) of each fault of a text, in the order in which the program looks for
    them."""
    try:
        table = document(text)
    except NoTable as why:
        return [("Syntax", str(why))]
    places, given = Places(text, array), table.get(array, [])
    found = [("UnknownKey", f"key {key}: the one key here is {array}") for key in table if key != array]
    if not isinstance(given, list):
        found.append(("BadValue", f"key {array}: an array of tables, each begun by [[{array}]]"))
    items = list(enumerate(given if isinstance(given, list) else []))
    for index, item in items:
        found += item_refusals(places, index, item, known)
    found += twice_or_falling([(index, item) for index, item in items if isinstance(item, dict)], places)
    return sorted(found, key=lambda one: ORDER.index(one[0]))


def document(text):
    """The table that a TOML text is, with no number beyond 64 bits."""
    try:
        table = tomllib.loads(text)
    except (tomllib.TOMLDecodeError, RecursionError) as error:
        raise NoTable(str(error) or "too deep") from None
    stack = [table]
    while stack:
        value = stack.pop()
        if isinstance(value, int) and not -(2**63) <= value < 2**63:
            raise NoTable("a whole number of more than 64 bits")
        stack += value.values() if isinstance(value, dict) else value if isinstance(value, list) else []
    return table


class Places:
    """The lines of the tables of an array, and of their keys, as far as the text tells them."""

    def __init__(self, text, array):
        self.array, self.lines = array, text.splitlines()
        self.tables = [n for n, line in enumerate(self.lines, 1) if re.match(rf"\s*\[\[\s*{array}\s*\]\]", line)]

    def of(self, index, item, key=None):
        """`line 12, the 3rd rule (number 30), key verb`; without a line where the tables are written in another form,
        and without a number where the rule has none."""
        number = item.get("number") if self.array == "rule" and isinstance(item, dict) else None
        numbered = f" (number {number})" if isinstance(number, int) and not isinstance(number, bool) else ""
        told = f"the {ordinal(index + 1)} {self.array}{numbered}" + (f", key {key}" if key else "")
        if index >= len(self.tables):
            return told
        begin = self.tables[index]
        end = self.tables[index + 1] if index + 1 < len(self.tables) else len(self.lines) + 1
        found = [n for n in range(begin, end) if key
                 and re.match(rf"\s*[\"']?{re.escape(key)}[\"']?\s*=", self.lines[n - 1])]
        return f"line {found[0] if found else begin}, {told}"


def ordinal(number):
    """`1st`, `2nd`, `3rd`, `11th`."""
    last = "th" if number % 100 in (11, 12, 13) else {1: "st", 2: "nd", 3: "rd"}.get(number % 10, "th")
    return f"{number}{last}"


def item_refusals(places, index, item, known):
    """Unknown keys of a table of the array, and values that may not be there."""
    if not isinstance(item, dict):
        return [("BadValue", f"{places.of(index, item)}: a table, begun by [[{places.array}]]")]
    keys = "keys are " + ", ".join(known)
    found = [("UnknownKey", f"{places.of(index, item, key)}: {nearest(key, known, keys)}")
             for key in item if key not in known]
    return found + [("BadValue", f"{places.of(index, item, key)}: {value.text}") for key, value in known.items()
                    if (key in item or value.is_required) and not value.is_value(item)]


def nearest(word, words, otherwise):
    close = difflib.get_close_matches(word, list(words), 1)
    return f"did you mean {close[0]}?" if close else otherwise


def twice_or_falling(items, places):
    """Numbers of rules that do not rise, and tokens of callers that are there twice."""
    found, greatest, seen = [], None, set()
    for index, item in items:
        number, token = item.get("number"), item.get("token")
        if places.array == "rule" and isinstance(number, int):
            if greatest is not None and number <= greatest:
                found.append(("Order", f"{places.of(index, item, 'number')}: a number above {greatest},"
                                       " that of the rule before it"))
            greatest = number
        if places.array == "caller" and isinstance(token, str):
            if token in seen:
                found.append(("DuplicateToken", f"{places.of(index, item, 'token')}: a token that no other caller has"))
            seen.add(token)
    return found
