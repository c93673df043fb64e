"""What explaining one file looks up: the file, its dictionary, the texts of the rules, and indexes made when first
asked for."""
import bisect
import functools
import os
import re
from typing import NamedTuple

import ags
from . import additions, kinds, quotes
from .near import LEAST_LIKE, Near, likeness, normal

RULES = os.path.join(os.path.dirname(os.path.realpath(__file__)), "..", "..", "docs", "RULES.md")


class Rule(NamedTuple):
    title: str
    rule: str
    fix: str


@functools.cache
def rules_of(path=RULES):
    """For each code its title, what docs/RULES.md says of the rule without this profile's own choices, and how a file
    is fixed."""
    some = r"((?:(?!\n\n).)*?)"
    paragraph = rf"^## (\w+) ([^\n]*)\n+\*\*Rule\.\*\* {some}(?: \*\*Here\.\*\* {some})? \*\*Fix\.\*\* {some}\n\n"
    with open(path, encoding="utf-8") as file:
        parts = re.findall(paragraph, file.read(), re.MULTILINE | re.DOTALL)
    return {code: Rule(title, *(" ".join(text.replace("`", "").split()) for text in (rule, fix)))
            for code, title, rule, _, fix in parts}


class Parents:
    """The rows of a parent group by the entries that join them, and by what is left of these without one of them."""

    def __init__(self, group, joined):
        self.group, self.joined = group, joined
        self.keys, self.forms, self.without, self.first = {}, {}, [{} for _ in joined], {}
        for row in group.data if group else ():
            key = group.entries(row, joined)
            self.keys.setdefault(key, row)
            self.forms.setdefault(tuple(map(normal, key)), row)
            self.first.setdefault(key[:1], row)
            for at, rest in enumerate(self.without):
                rest.setdefault(key[:at] + key[at + 1:], row)

    def nearest(self, key):
        """The row that differs least, or None where none has even the first entry: alike but for spelling, in one
        entry, or with the same first one."""
        row = self.forms.get(tuple(map(normal, key)))
        for at, rest in reversed(list(enumerate(self.without))):
            if row is None and len(key) > 1:
                row = rest.get(key[:at] + key[at + 1:])
        return row if row is not None else self.first.get(key[:1])


class Context:
    """A file, the dictionary that it was checked under (the standard one, without the file's own DICT) and the
    rules."""

    def __init__(self, file, standard, rules=None, standard_file=None):
        self.file, self.standard, self.rules = file, standard, rules or rules_of()
        self.standard_file, self.own = standard_file, None
        self.words = standard.extended(ags.own_entries(file))
        self.memory = {}

    def kept(self, name, make):
        """A value that is made once."""
        if name not in self.memory:
            self.memory[name] = make()
        return self.memory[name]

    def is_strange(self, finding):
        """Whether the file does not have this finding, where its own are known."""
        return self.own is not None and finding not in self.own

    @functools.cached_property
    def known(self):
        return additions.Known(self)

    def names_of_codes(self, heading):
        return self.kept(("names", heading), lambda: additions.names_of_codes(self.file, heading))

    @functools.cached_property
    def listed(self):
        return ags.Listed(self.file, self.words)

    @functools.cached_property
    def kind(self):
        return kinds.kind_of(self.file)

    @functools.cached_property
    def has_strange_groups(self):
        """Whether the file has a group that the dictionary does not have, and no name near it."""
        return any(not self.words.has_group(name) and self.near_group(name) is None for name in self.file.by_name)

    @functools.cached_property
    def broken(self):
        """The first and last line of each field over several lines, by each of its lines."""
        return {line: span for span in quotes.broken_fields(self.file) for line in range(span[0], span[1] + 1)}

    def mistake(self, line):
        """What Rule 5 finds wrong with a line."""
        above = self.heading_row(line)
        return self.kept(("5", line), lambda: quotes.mistake(self.file.line(line), len(above.items) if above else None))

    def parents(self, group):
        """The index of the rows that a group's rows may belong to."""
        return self.kept(("10c", group.line), lambda: self.parents_by(self.words.parent(group.name), group))

    def parents_by(self, parent, group):
        joined = self.words.link_headings(parent, group)
        return self.kept(("10c", parent, joined), lambda: Parents(self.file.by_name.get(parent), joined))

    def near(self, name, names):
        """The index of near names of a list that has this name; `names` gives the list when it is first asked for."""
        return self.kept(("near", name), lambda: Near(names()))

    def near_group(self, name):
        return self.near("groups", lambda: self.words.parents).nearest(name)

    def near_heading(self, group, heading):
        """The nearest heading of a group that its HEADING row does not have yet."""
        given = self.file.by_name.get(group)
        found = self.near(group, lambda: self.words.order(group)).nearest(heading, given.columns if given else ())
        begins = group + b"_"
        if found is None or not (found.startswith(begins) and heading.upper().startswith(begins)):
            return found
        rest, other = heading.upper()[len(begins):], found[len(begins):]
        return found if likeness(rest, other) >= LEAST_LIKE else None

    def heading_row(self, line):
        """The last HEADING row above a line or in it."""
        rows = self.kept("heading rows", lambda: [row for row in self.file.rows if row.descriptor == b"HEADING"])
        at = bisect.bisect_right(self.kept("their lines", lambda: [row.line for row in rows]), line)
        return rows[at - 1] if at else None
