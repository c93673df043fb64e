"""A dictionary of groups and headings: what of them is KEY and REQUIRED, which group is above which, and what a
published dictionary says of each heading.

    words = built_in()                           # that of samples/mini.ags
    words, file = read_dictionary(data)          # that of an AGS4 file with a group DICT, or NoDictionary
    words.keys(b"SAMP"), words.parent(b"SAMP"), words.unit(b"SAMP", b"SAMP_TOP")
    words.extended(own_entries(file))            # with the entries of a file's own DICT after its own"""
import os
from typing import NamedTuple

from .file import LIMIT, File
from .finding import in_order
from .line import shown
from .phases import group_findings, line_findings, order_findings

BUILT_IN = os.path.join(os.path.dirname(os.path.realpath(__file__)), "..", "..", "samples", "mini.ags")
NO_PARENT = (b"PROJ", b"TRAN", b"ABBR", b"DICT", b"UNIT", b"TYPE", b"FILE")
NEEDED = (b"DICT_TYPE", b"DICT_GRP", b"DICT_HDNG", b"DICT_STAT", b"DICT_PGRP")


class GroupEntry(NamedTuple):
    """A group, with its parent and its text (DICT_DESC)."""
    mark: str
    group: bytes
    parent: bytes
    text: bytes = b""


class HeadingEntry(NamedTuple):
    """A heading of a group, with its status, unit, type (DICT_DTYP), text (DICT_DESC) and example (DICT_EXMP)."""
    mark: str
    group: bytes
    heading: bytes
    status: bytes
    unit: bytes = b""
    kind: bytes = b""
    text: bytes = b""
    example: bytes = b""


class NoDictionary(Exception):
    """The program answers `dictionary refused`; the text says why, and `name` is the refusal's."""

    def __init__(self, name, text):
        super().__init__(text)
        self.name = name


class Dictionary:
    """The entries of a dictionary, and after them those of a file's own DICT; the first of a name counts. An entry may
    be a tuple of its first parts."""

    def __init__(self, entries, own=(), is_built_in=False, edition=b""):
        self.standard, self.is_built_in, self.edition = entries, is_built_in, edition
        self.group_entries, self.heading_entries = {}, {}
        self.parents, self.status, self.orders, self.own, self.groups_of = {}, {}, {}, set(), {}
        for is_own, given in ((False, entries), (True, own)):
            for entry in given:
                self.add(entry, is_own)
        self.places = {group: {heading: at for at, heading in enumerate(order)} for group, order in self.orders.items()}
        self.key_lists = {group: self.with_part(group, b"KEY") for group in self.orders}
        self.required_lists = {group: self.with_part(group, b"REQUIRED") for group in self.orders}

    def add(self, entry, is_own):
        """Adds an entry that restates no earlier one."""
        entry = (GroupEntry if entry[0] == "G" else HeadingEntry)(*entry)
        if entry.mark == "G":
            self.parents.setdefault(entry.group, entry.parent)
            self.group_entries.setdefault(entry.group, entry)
            return
        name = entry.group, entry.heading
        if name in self.status:
            return
        self.status[name], self.heading_entries[name] = entry.status, entry
        self.orders.setdefault(entry.group, []).append(entry.heading)
        self.groups_of.setdefault(entry.heading, []).append(entry.group)
        if is_own:
            self.own.add(name)

    def extended(self, own):
        """This dictionary with a file's own entries after its own."""
        return Dictionary(self.standard, own, self.is_built_in, self.edition)

    def with_part(self, group, part):
        return [heading for heading in self.order(group) if part in self.status[group, heading].split(b"+")]

    def has_group(self, group):
        return group in self.parents

    def order(self, group):
        return self.orders.get(group, [])

    def keys(self, group):
        return self.key_lists.get(group, [])

    def required(self, group):
        return self.required_lists.get(group, [])

    def parent(self, group):
        """The parent group, or None where the group has none."""
        named = None if group in NO_PARENT else self.parents.get(group)
        return None if named in (None, b"", b"-") else named

    def link_headings(self, parent, group):
        """The KEY headings of a parent group that the group has: by these its rows name their parent rows."""
        return tuple(heading for heading in self.keys(parent) if heading in group.columns)

    def depth(self, group):
        """How many steps it is to a group without a parent; a ring ends by itself."""
        seen = []
        while group is not None and group not in seen:
            seen.append(group)
            group = self.parent(group)
        return len(seen)

    def elsewhere(self, group, heading):
        return any(other != group for other in self.groups_of.get(heading, ()))

    # What a published dictionary says beside this; null where this one does not say it.

    def heading_entry(self, group, heading):
        return self.heading_entries.get((group, heading)) or HeadingEntry("H", group, heading, b"")

    def unit(self, group, heading):
        return self.heading_entry(group, heading).unit

    def kind(self, group, heading):
        return self.heading_entry(group, heading).kind

    def text(self, group, heading):
        return self.heading_entry(group, heading).text

    def example(self, group, heading):
        return self.heading_entry(group, heading).example

    def group_text(self, group):
        return self.group_entries[group].text if group in self.group_entries else b""


def own_entries(file):
    """The entries of a file's group DICT."""
    given, entries = file.by_name.get(b"DICT"), []
    wanted = (*NEEDED, b"DICT_UNIT", b"DICT_DTYP", b"DICT_DESC", b"DICT_EXMP")
    for row in given.data if given else ():
        mark, group, heading, status, parent, unit, kind, text, example = given.entries(row, wanted)
        if mark == b"GROUP":
            entries.append(GroupEntry("G", group, parent, text))
        elif mark == b"HEADING":
            entries.append(HeadingEntry("H", group, heading, status, unit, kind, text, example))
    return entries


def built_in():
    """The built-in dictionary."""
    with open(BUILT_IN, "rb") as file:
        return Dictionary(own_entries(File(file.read())), is_built_in=True)


def read_dictionary(data, limit=LIMIT):
    """The dictionary of an AGS4 file and that file, or NoDictionary. It is read without Rules 1 and 2a. A register
    keeps one as its own rows, which may be longer than the file was."""
    if len(data) > limit:
        raise NoDictionary("TooLarge", f"it has more than {limit:,} bytes")
    file = File(data)
    for phase in (lambda f: line_findings(f, True), order_findings, group_findings):
        found = in_order(phase(file))
        if found:
            raise NoDictionary("NotDictionary", f"it has the finding {found[0].printed()}")
    given = file.by_name.get(b"DICT")
    if given is None:
        raise NoDictionary("NoDict", "it has no group DICT")
    for heading in NEEDED:
        if heading not in given.columns:
            raise NoDictionary("MissingHeading", f"its group DICT has no heading {shown(heading)}")
    return Dictionary(own_entries(file), edition=file.entry_of(b"TRAN", b"TRAN_AGS")), file
