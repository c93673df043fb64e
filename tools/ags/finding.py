"""A finding: the code of a rule that a file breaks, the line, and what it is about."""
from typing import NamedTuple

from .line import shown

CODES = ("1", "2", "2a", "2b", "3", "4", "5", "6", "7", "8", "9", "10a", "10b", "10c", "11a", "11b", "11c", "13", "14",
         "15", "16", "17", "18", "19", "19a", "19b", "20", "P1", "P2")
RANK = {code: rank for rank, code in enumerate(CODES)}
PHASES = {1: "lines", 2: "order of rows", 3: "groups by themselves", 4: "groups against the dictionary", 5: "DATA rows"}


class Finding(NamedTuple):
    """A code, a line (0 for the file as a whole) and a subject (a group, a heading or nothing)."""
    line: int
    code: str
    subject: bytes

    def printed(self):
        return f"{self.code} {self.line} {shown(self.subject) or '-'}"


def in_order(found):
    return sorted(found, key=lambda f: (f.line, RANK[f.code], f.subject))
