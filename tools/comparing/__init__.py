"""What differs between two AGS4 files, by the keys of their rows and not by their lines.

    found = compare(old, new, dictionary)     # bytes; dictionary: None for the built-in one
    found.is_same, found.counts()
    found.groups                              # of each group that differs: rows added, gone, changed, renamed

Bytes in; nothing prints. What cannot be compared is tables.Refused, with reasons."""
from collections import Counter
from typing import List, NamedTuple, Tuple

import ags
from tables.layout import dictionary_of

from .group import Differences, both, one
from .pairs import Renames
from .reading import Flaw, read_named


class Comparison(NamedTuple):
    """The groups that differ; whether the groups of both are in another order; the flaws of each file; and the groups
    among those that differ whose rows have no key, since the dictionary lacks them."""
    groups: List[Differences]
    is_in_other_order: bool
    flaws: Tuple[List[Flaw], List[Flaw]] = ([], [])
    without_keys: List[bytes] = []

    @property
    def is_same(self):
        old, new = ([(one.what, one.group) for one in each] for each in self.flaws)
        return not self.groups and not self.is_in_other_order and old == new

    def counts(self):
        """How many rows were added, are gone, were changed, were renamed, and are spelled otherwise."""
        out = Counter(added=0, gone=0, changed=0, renamed=0, spelled=0)
        for group in self.groups:
            out.update(group.counts())
        return dict(out)


def compare(old, new, dictionary=None, names=("the first file", "the second file")):
    """What differs between two files. Keys and parents are those of the dictionary, and of what the files' DICT add."""
    files, flaws = zip(*(read_named(data, name) for data, name in zip((old, new), names)))
    words = dictionary_of(dictionary, [entry for file in files for entry in ags.own_entries(file)])
    first, second = (file.by_name for file in files)
    renames, found = Renames(words), {}
    for name in sorted(first.keys() & second.keys(), key=words.depth):
        found[name] = both(first[name], second[name], words, renames)
    for name in first.keys() ^ second.keys():
        found[name] = one(first.get(name), second.get(name), words)
    for each in found.values():
        each.renamed = [row._replace(following=renames.following[each.name, row.old_line]) for row in each.renamed]
    order = [name for name in first] + [name for name in second if name not in first]
    shared = [name for name in first if name in second]
    groups = [found[name] for name in order if found[name]]
    return Comparison(groups, shared != [name for name in second if name in first], flaws,
                      [each.name for each in groups if each.state == "both" and not words.has_group(each.name)])
