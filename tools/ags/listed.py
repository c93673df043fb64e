"""What a file lists: units, types, abbreviations, file sets, and the rows that record links can name."""
from .rows import key_of


class Listed:
    """What a file lists: units, types, abbreviations, file sets, and the rows that record links can name."""

    def __init__(self, file, words):
        self.words, self.file = words, file
        self.units, self.types, self.sets = (set(file.column(group, heading)) for group, heading in (
            (b"UNIT", b"UNIT_UNIT"), (b"TYPE", b"TYPE_TYPE"), (b"FILE", b"FILE_FSET")))
        self.abbreviations = set(zip(file.column(b"ABBR", b"ABBR_HDNG"), file.column(b"ABBR", b"ABBR_CODE")))
        self.delimiter, self.concatenator = file.separators()
        self.named = {}

    def rows_by_key(self, name):
        """The rows of a group by their KEY entries, the first of each key."""
        if name not in self.named:
            group, self.named[name] = self.file.by_name.get(name), {}
            for row in group.data if group else ():
                self.named[name].setdefault(key_of(group, row, self.words), row)
        return self.named[name]

    def is_link(self, part):
        name, *keys = part.split(self.delimiter)
        return tuple(keys) in self.rows_by_key(name)

    def is_abbreviation(self, heading, entry):
        listed = self.abbreviations
        return (heading, entry) in listed or all((heading, part) in listed for part in entry.split(self.concatenator))

    def broken(self, kind, heading, is_data, entry):
        """The code of the rule that an entry breaks by itself, besides 8."""
        if kind == b"PU" and entry not in self.units:
            return "15"
        if kind == b"PT" and entry not in self.types:
            return "17"
        if kind == b"PA" and not self.is_abbreviation(heading, entry):
            return "16"
        if kind == b"RL" and is_data and not all(self.is_link(part) for part in entry.split(self.concatenator)):
            return "11c"
        return None
