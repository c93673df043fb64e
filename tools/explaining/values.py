"""Rule 8: entries that are not of the form of their TYPE and UNIT."""
import collections
from typing import NamedTuple

import ags
from . import forms, texts

TEXT_TYPES = (b"X", b"XN")
DECIMALS = ("more decimals", "fewer decimals", "bare point")
DAYS = ("day first", "day and month")
MOST_PAIRS = 6


def key(context, finding, group, row):
    """What findings of one cause have alike. All decimals of a heading are one cause, and all days of one."""
    heading = finding.subject
    name, words, _ = mistake(context, group, row, heading)
    sort = "decimals" if name in DECIMALS else "days" if name in DAYS else name
    return "8", group.name, heading, sort, words if sort == name else ""


def mistake(context, group, row, heading, days=""):
    return forms.mistake(group.kind(heading), group.measure(heading), group.entry(row, heading), days)


class Found:
    """The entries of a cause: each once, with its first line, what is wrong with it and it put right."""

    def __init__(self, context, key, findings):
        self.context, self.findings = context, findings
        _, _, self.heading, self.sort, _ = key
        self.group = context.file.group_at(findings[0].line)
        self.kind, self.unit = self.group.kind(self.heading), self.group.measure(self.heading)
        self.lines, self.times = {}, {}
        for finding in findings:
            entry = self.group.entry(context.file.by_line[finding.line], self.heading)
            self.lines.setdefault(entry, finding.line)
            self.times[entry] = self.times.get(entry, 0) + 1
        self.mistakes = {entry: forms.mistake(self.kind, self.unit, entry) for entry in self.lines}
        self.first = next(iter(self.lines))

    @property
    def of_dictionary(self):
        """The type that the dictionary has for the heading, where it is another one."""
        kind = self.context.words.kind(self.group.name, self.heading)
        return kind if kind and kind != self.kind else b""

    def fits(self, kind):
        """Whether each entry under the heading is of a type."""
        return self.context.kept(("fits", self.group.line, self.heading, kind), lambda: all(
            ags.fits(kind, self.unit, self.group.entry(row, self.heading)) for row in self.group.data))

    @property
    def decimals(self):
        """How many of all entries under the heading have how many decimals; a null has none and does not count."""
        return self.context.kept(("decimals", self.group.line, self.heading), lambda: collections.Counter(
            decimals_of(entry) for row in self.group.data if (entry := self.group.entry(row, self.heading))))

    def is_needed(self):
        """Whether the heading is KEY or REQUIRED, so that no entry under it may be null."""
        words, name = self.context.words, self.group.name
        return self.heading in words.keys(name) or self.heading in words.required(name)

    def writes(self):
        """Each entry that can be put right by itself, and how it is written then."""
        return {entry: right for entry, (_, _, right) in self.mistakes.items() if right is not None}


def tell(context, key, findings):
    found = Found(context, key, findings)
    here = said(found)
    if found.sort == "decimals":
        return ags.shown(found.first), here, fix_of_decimals(found)
    if found.sort == "days":
        told, fix = fix_of_days(found)
        return ags.shown(found.first), here + told, fix
    if found.sort in forms.RESULTS:
        told, fix = fix_of_result(found)
        return ags.shown(found.first), here + told, fix
    if found.sort == "word" and b"" in found.writes().values() and found.is_needed():
        return ags.shown(found.first), here, \
            f"{ags.shown(found.heading)} may not be null: ask whoever made the file for the entry."
    return ags.shown(found.first), here, written(found)


def said(found):
    name, words, _ = found.mistakes[found.first]
    heading = ags.shown(found.heading)
    here = [f"{texts.value(found.first)} under {heading}: {words}."]
    here.append(f"TYPE is {ags.shown(found.kind)} and UNIT {ags.shown(found.unit) or 'null'}: "
                f"{forms.form(found.kind, found.unit)}.")
    if len(found.findings) > 1:
        here.append(f"{texts.count(len(found.findings), 'entry')} of this sort: "
                    f"{texts.listing(map(texts.value, found.lines))}.")
    if found.sort == "decimals" and len(found.findings) > 1:
        here.append(counts_of_decimals(found))
    if found.of_dictionary:
        here.append(f"The dictionary gives {heading} the TYPE {ags.shown(found.of_dictionary)}.")
    return here


def written(found):
    """Each entry put right, where it can be; None where none can."""
    writes = found.writes()
    if not writes:
        return None
    if len(found.lines) == 1 or len(writes) > MOST_PAIRS:
        entry, right = next(iter(writes.items()))
        return (f"Write {texts.value(right)} in line {found.lines[entry]}"
                f"{', and the others alike' if len(found.findings) > 1 else ''}.")
    pairs = [f"{texts.value(right)} for {texts.value(entry)}" for entry, right in writes.items()]
    return f"Write {texts.listing(pairs, MOST_PAIRS)} under {ags.shown(found.heading)}."


# ---- decimals

def decimals_of(entry):
    return len(entry.partition(b".")[2])


def counts_of_decimals(found):
    """How many of all entries under the heading have how many decimals."""
    counts = found.decimals
    return (f"Of the entries under {ags.shown(found.heading)} "
            f"{texts.listing((f'{counts[size]:,} have {forms.decimals(size)}' for size in sorted(counts)), 10)}.")


def fix_of_decimals(found):
    """Zeros are added; what has too many decimals is rounded by a person alone, or the heading gets another type."""
    writes, kind = found.writes(), found.kind
    row = found.group.type.line
    if found.of_dictionary and found.fits(found.of_dictionary):
        return (f"Write the TYPE {texts.value(found.of_dictionary)} for {ags.shown(found.heading)} in line {row}, as "
                "the dictionary has it: each entry fits it.")
    if len(writes) == len(found.lines):
        more = typed(found)
        return written(found) + (f" Or, as all entries have {more}." if more else "")
    if not kind.endswith(b"DP"):
        return written(found)
    most = max(found.decimals)
    return (f"A person decides: rounding to {forms.decimals(int(kind[:1]))} loses digits. Round each entry, or give "
            f"{ags.shown(found.heading)} the TYPE {min(most, 9)}DP in line {row}, list it in TYPE, and write each "
            f"entry with "
            f"{forms.decimals(min(most, 9))}: zeros at the end lose nothing.")


def typed(found):
    """The type that all entries of a heading have, in words, where none has the one asked for."""
    counts = found.decimals
    if len(found.findings) < 2 or len(counts) != 1 or sum(counts.values()) != len(found.findings):
        return ""
    other = next(iter(counts))
    return f"{forms.decimals(other)}: give the heading the TYPE {other}DP and list it in TYPE"


# ---- days

class Order(NamedTuple):
    """Which of day and month comes first in a file, and the entry that shows it: by itself, or since it would be after
    TRAN_DATE (`sent`) otherwise."""
    name: str
    line: int
    entry: bytes
    sent: bytes = b""

    def said(self):
        front = f"{texts.value(self.entry)} in line {self.line}"
        why = (f"{front} would otherwise be after TRAN_DATE, {ags.shown(self.sent)}" if self.sent
               else f"{front} has {forms.ORDERS[self.name]}")
        return f"{why}: so this file has {forms.ORDERS[self.name]} (bin/fix --days {self.name})."


def order_told(context):
    """Which of day and month comes first in this file, where an entry shows it; or None."""
    return context.kept("order of days", lambda: find_order(context))


def find_order(context):
    """Entries that can be read one way only tell it; without any, those that would be later than the transmission."""
    given = [(row.line, entry, found[0]) for group in context.file.groups for heading in group.headings
             if group.kind(heading) == b"DT" for row in group.data
             if (entry := group.entry(row, heading)) and (found := forms.readings(entry)) and found[0]]
    told = {}
    for line, entry, dates in given:
        if len(dates) == 1:
            name = next(iter(dates))
            told.setdefault(name, Order(name, line, entry))
    sent = context.file.entry_of(b"TRAN", b"TRAN_DATE")[:10]
    if not told and ags.fits(b"DT", b"yyyy-mm-dd", sent):
        for line, entry, dates in given:
            possible = [name for name, date in dates.items() if date <= sent]
            if len(set(dates.values())) > 1 and len(possible) == 1:
                told.setdefault(possible[0], Order(possible[0], line, entry, sent))
    return next(iter(told.values())) if len(told) == 1 else None


def fix_of_days(found):
    """Days that can be read one way only are written; of the others the file may tell which number is the month."""
    open_ones = [entry for entry, (name, _, _) in found.mistakes.items() if name == "day and month"]
    lost = [entry for entry, right in ((one, forms.mistake(found.kind, found.unit, one, "dmy")[2])
                                       for one in found.lines)
            if right is None]
    told, fix = [], written(found)
    if open_ones and fix:
        told.append(f"{texts.value(open_ones[0])} can be read two ways: the day or the month first.")
    order = order_told(found.context) if open_ones else None
    if order:
        told.append(order.said())
        found.mistakes = {entry: forms.mistake(found.kind, found.unit, entry, order.name) for entry in found.lines}
        return told, written(found)
    if lost and fix is None and not open_ones:
        return told, (f"Give the heading a UNIT that has the time too, such as yyyy-mm-ddThh:mm:ss, and write the "
                      f"entry by it: "
                      f"under {ags.shown(found.unit)} the time of {texts.value(lost[0])} would be lost.")
    if open_ones:
        which = ("Write the day as yyyy-mm-dd; whoever made the file knows which of the two numbers is the month "
                 "(bin/fix "
                 "--days dmy or mdy then).")
        return told, f"{fix} {which}" if fix else which
    return told, fix


# ---- results that are no number

def text_heading(found):
    """The heading of the group that takes a result which is no number, and why, or None."""
    words, name = found.context.words, found.group.name
    order = words.order(name)
    is_plastic = found.first.strip().upper() == b"NP"
    for end in ((b"_PI",) if is_plastic else ()) + (b"_RTXT", b"_REP", b"_REM"):
        heading = name + end
        is_text = (words.kind(name, heading) or (b"X" if end == b"_REM" else b"")) in TEXT_TYPES
        if heading in order and heading != found.heading and is_text:
            yield heading


def fix_of_result(found):
    """A result stays in the file: the heading takes it as text, or another heading does, or a person is asked."""
    heading, value = ags.shown(found.heading), texts.value(found.first)
    where = texts.lines(finding.line for finding in found.findings)
    if found.of_dictionary in TEXT_TYPES:
        kind = ags.shown(found.of_dictionary)
        return [], (f"Write the TYPE \"{kind}\" for {heading} in line {found.group.type.line}, as the dictionary has "
                    f"it, and "
                    f"leave the {'entries' if len(found.findings) > 1 else 'entry'}.")
    if found.heading in found.context.words.keys(found.group.name):
        return [f"{heading} is a KEY heading, so its entry may not be null."], \
            f"Ask whoever made the file for the number that {value} stands for ({where})."
    told = []
    for other in text_heading(found):
        taken = next((finding.line for finding in found.findings if other in found.group.columns
                      and found.group.entry(found.context.file.by_line[finding.line], other)), None)
        if taken is None:
            return told, moved(found, other, where)
        entry = found.group.entry(found.context.file.by_line[taken], other)
        told.append(f"{ags.shown(other)} takes {value}, and has {texts.value(entry)} in line {taken} already.")
    return told, (f"Ask whoever made the file what {value} means ({where}), and keep it until then: no heading of "
                  f"{ags.shown(found.group.name)} that is free takes text. A heading of TYPE X would.")


def moved(found, other, where):
    """The entry goes under another heading, which takes text."""
    heading, name = ags.shown(found.heading), ags.shown(other)
    entries = texts.value(found.first) if len(found.lines) == 1 else "each of these entries"
    fix = f"Move {entries} from {heading} to {name}, which takes text, in {where}: {heading} is null there then"
    if other not in found.group.columns:
        order = found.context.words.order(found.group.name)
        before = [one for one in order[:order.index(other)] if one in found.group.columns]
        place = f"after {ags.shown(before[-1])}" if before else "first"
        fix = (f"Add the heading {name} to {ags.shown(found.group.name)}, {place}, with the TYPE X and a null in each "
               f"other row. {fix}")
    return f"{fix}. If a number is meant, ask whoever made the file for it."
