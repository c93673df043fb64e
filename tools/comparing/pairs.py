"""Which rows of two files are the same row: those with equal keys, where numbers may be spelled in another way; and
those of which the key alone has changed.

    paired = Pairs(first, second, words, renames)    # two groups of one name
    paired.rows, paired.renamed, paired.gone, paired.added"""
import re
from collections import Counter
from decimal import Decimal

NUMBERS = re.compile(rb"[0-9](?:DP|SF|SCI)|MC")
NUMBER = re.compile(rb"[+-]?[0-9]+(?:\.[0-9]+)?(?:[Ee][+-]?[0-9]{1,3})?")


def value_of(entry, is_number):
    """A number's value, whichever way it is spelled; else the entry."""
    return Decimal(entry.decode("ascii")) if is_number and NUMBER.fullmatch(entry) else entry


def keys_of(name, headings, words):
    """The headings that tell the rows of a group apart: those of its key, or all where it has none. PROJ and TRAN have
    one row each, which is the same row whatever is in it."""
    if name in (b"PROJ", b"TRAN"):
        return []
    return [heading for heading in words.keys(name) if heading in headings] or headings


class Renames:
    """The keys of rows that have changed alone, for the rows below them: these follow, and have not changed by it."""

    def __init__(self, words):
        self.words, self.by_group, self.following = words, {}, Counter()

    def add(self, name, renamed, shared):
        """Notes of a group the old keys that have become others: each with the new one, and the row that was renamed
        first, by its group and line. `shared` are the keys of rows that both files have."""
        self.by_group[name] = renamed, shared

    def of(self, group):
        """For a group, the headings that it shares with its parent's key, by their old entries the new ones, and their
        entries in rows that both files have; nothing where the parent group is not in both files."""
        parent = self.words.parent(group.name)
        if parent not in self.by_group:
            return [], {}, set()
        keys, found, (renamed, shared) = self.words.keys(parent), {}, self.by_group[parent]
        headings = self.words.link_headings(parent, group)
        places = [keys.index(heading) for heading in headings]
        for old, (new, origin) in renamed.items():
            found.setdefault(tuple(old[at] for at in places), set()).add((tuple(new[at] for at in places), origin))
        only = {old: news.pop() for old, news in found.items() if len(news) == 1}
        return headings, only, {tuple(key[at] for at in places) for key in shared}


class Rows:
    """The rows of a group, with entries under the headings of both; those of renamed parents have the new ones."""

    def __init__(self, group, headings, keys, links=(), renamed=None):
        self.group, self.renamed = group, renamed or {}
        self.places = [headings.index(heading) for heading in links]
        self.at = [headings.index(heading) for heading in keys]
        self.rest = [at for at in range(len(headings)) if at not in self.at]
        self.origins = {}
        self.entries = [self.followed(n, list(group.entries(row, headings))) for n, row in enumerate(group.data)]

    def followed(self, n, entries):
        """The entries of a row, and where its parent was renamed, the parent's new ones."""
        found = self.renamed.get(tuple(entries[at] for at in self.places)) if self.places else None
        if found:
            self.origins[n] = found[1]
            for at, entry in zip(self.places, found[0]):
                entries[at] = entry
        return tuple(entries)

    def key(self, n):
        return tuple(self.entries[n][at] for at in self.at)

    def link(self, n):
        """The entries that a row shares with its parent's key."""
        return tuple(self.entries[n][at] for at in self.places)

    def beside(self, n):
        """The entries beside the key."""
        return tuple(self.entries[n][at] for at in self.rest)


class Pairs:
    """The rows of two groups of one name, by their numbers there."""

    def __init__(self, first, second, words, renames):
        self.headings = list(dict.fromkeys((*first.headings, *second.headings)))
        self.keys = keys_of(first.name, self.headings, words)
        links, renamed, self.shared = renames.of(first)
        links = [heading for heading in links if heading in self.keys]
        self.first = Rows(first, self.headings, self.keys, links, renamed)
        self.second = Rows(second, self.headings, self.keys, links)
        self.is_number = [all(NUMBERS.fullmatch(group.kind(heading)) or heading not in group.columns
                              for group in (first, second)) for heading in self.headings]
        self.rows, self.gone, self.added = [], range(len(first.data)), range(len(second.data))
        self.pair(lambda rows, n: rows.entries[n])
        self.pair(lambda rows, n: rows.key(n))
        self.pair(self.values)
        self.renamed = []
        self.rename(lambda rows, n: (rows.link(n), rows.beside(n)))
        # A row may also belong to another parent now, if both files have the old and the new one.
        self.rename(lambda rows, n: rows.beside(n) if rows.link(n) in self.shared else None)
        self.rows.sort()
        keys = words.keys(first.name)
        shared = [second.entries(second.data[m], keys) for _, m in (*self.rows, *self.renamed)]
        renames.add(first.name, self.new_keys(keys), shared)
        renames.following.update(self.first.origins.values())

    def new_keys(self, keys):
        """By the old key of each row that was renamed, or whose parent was, the new key and where that began."""
        out, seconds = {}, dict(self.renamed)
        for n in {*self.first.origins, *seconds}:
            row = self.first.group.data[n]
            entries = self.second.entries[seconds[n]] if n in seconds else self.first.entries[n]
            new = dict(zip(self.headings, entries))
            origin = (self.first.group.name, row.line) if n in seconds else self.first.origins[n]
            out[self.first.group.entries(row, keys)] = tuple(new.get(heading, b"") for heading in keys), origin
        return out

    def values(self, rows, n):
        return tuple(value_of(rows.entries[n][at], self.is_number[at]) for at in rows.at)

    def pair(self, what):
        """Pairs the rows that are left and have the same of something, one after the other."""
        left = {}
        for m in self.added:
            left.setdefault(what(self.second, m), []).append(m)
        for found in left.values():
            found.reverse()
        gone = []
        for n in self.gone:
            found = left.get(what(self.first, n))
            if found:
                self.rows.append((n, found.pop()))
            else:
                gone.append(n)
        self.gone, self.added = gone, sorted(m for found in left.values() for m in found)

    def rename(self, what):
        """Pairs of the rows that are left those that have the same of something, and no other row of either file has.
        What they have beside their keys is alike, and not null."""
        firsts, seconds = {}, {}
        for rows, left, into in ((self.first, self.gone, firsts), (self.second, self.added, seconds)):
            for n in left:
                if any(rows.beside(n)):
                    into.setdefault(what(rows, n), []).append(n)
        found = {ns[0]: seconds[same][0] for same, ns in firsts.items()
                 if same is not None and len(ns) == 1 and len(seconds.get(same, ())) == 1}
        news = set(found.values())
        self.gone = [n for n in self.gone if n not in found]
        self.added = [m for m in self.added if m not in news]
        self.renamed = sorted([*self.renamed, *found.items()])
