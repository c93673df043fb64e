"""One run over a file: the program judges it, the fixes of the first phase that has findings are tried one after the
other, and so on, until it is clean or only findings remain that need a person."""
import functools
from dataclasses import dataclass, field

import ags
import explaining
from explaining import additions, cause, context, values

from . import document, probe, table
from .document import Change, Document, Edits
from .program import Refused
from .result import Done

# So many parts of a fix are tried one by one where they fail together.
MOST_PARTS = 100
NO_TEXT = tuple(kind for kind in cause.NO_TEXT if kind != "UTF-16")


@dataclass(frozen=True)
class Options:
    """The options of a run: which of day and month comes first (`dmy` or `mdy`) where an entry can be read both ways,
    whether own headings are defined, a former clean file with codes and their meanings, and the codes to fix."""
    days: str = ""
    own_headings: bool = False
    codes: bytes = b""
    only: tuple = ()


@dataclass
class Settings:
    """What is the same in all steps of a run."""
    check: object
    dictionary: bytes
    options: Options
    standard: object
    standard_file: object
    codes: object
    rules: dict = field(default_factory=context.rules_of)


class Work:
    """A file with its findings, as a fix sees it."""

    def __init__(self, paper, findings, settings, data=None):
        self.document, self.findings, self.settings, self.options = paper, findings, settings, settings.options
        self.file = ags.File(paper.data() if data is None else data)
        self.context = context.Context(self.file, settings.standard, settings.rules, settings.standard_file)
        self.known = self.context.known = additions.Known(self.context, settings.codes)

    @functools.cached_property
    def phase(self):
        return max((cause.phase_of(self.context, finding) for finding in self.findings), default=0)

    def of(self, *codes):
        """The findings of these codes, as far as they are to be fixed."""
        only = self.options.only
        return [finding for finding in self.findings if finding.code in codes and (not only or finding.code in only)]

    def group_of(self, finding):
        return self.file.group_at(finding.line)

    def named(self, findings):
        """Findings by the identity of their lines, which stays where lines are added above; a name stays the same in
        capitals."""
        return {(one.code, self.document.name_of(one.line), one.subject.strip().upper()) for one in findings}


def settings_of(check, dictionary, options):
    try:
        standard, file = ags.read_dictionary(dictionary) if dictionary is not None else (ags.built_in(), None)
    except ags.NoDictionary as fault:
        raise Refused(f"dictionary refused: {fault}") from fault
    codes = ags.File(options.codes) if options.codes else None
    if codes is not None and b"ABBR" not in codes.by_name and b"UNIT" not in codes.by_name:
        raise Refused("the file of --codes has neither a group ABBR nor a group UNIT")
    return Settings(check, dictionary, options, standard, file, codes)


def fix(data, check, dictionary=None, options=Options()):
    """A file fixed, as far as that loses nothing. `check` gives the findings of bytes, by the program; `dictionary` is
    the bytes of the one that it checks under, or None for the built-in one."""
    settings = settings_of(check, dictionary, options)
    work = Work(Document.of(data), check(data), settings, data)
    if work.findings and work.context.kind[0] in NO_TEXT:
        return Done(data, work.document, work.document, [], [], explaining.explain(data, work.findings, dictionary))
    changes, taken_back, tried = [], [], set()
    work = whole(work, settings, changes)
    refuse_other_order(work)
    first = work.document
    work = stepped(work, settings, changes, taken_back, tried)
    if work.findings and work.phase == 4:
        work = entries_too(work, settings, changes, taken_back, tried)
    fixed = work.document.data()
    remaining = explaining.explain(fixed, work.findings, dictionary)
    return Done(data, first, work.document, changes, taken_back, remaining)


def stepped(work, settings, changes, taken_back, tried):
    """The work after all fixes that hold."""
    while work.findings:
        following = step(work, settings, changes, taken_back, tried)
        if following is None:
            break
        work = following
    return work


def refuse_other_order(work):
    """Refuses an order of day and month that the file contradicts."""
    order = values.order_told(work.context) if work.options.days else None
    if order and order.name != work.options.days:
        raise Refused(f"--days {work.options.days}: {order.said()}")


def entries_too(work, settings, changes, taken_back, tried):
    """The work once its entries are fixed too, where the fourth phase keeps findings that need a person: the program
    sees a probe without them. What comes of it has those findings alone, or nothing of it is kept."""
    edits = probe.probe(work)
    if not edits:
        return work
    probed = probe.with_stand_ins(work.document, edits)
    seen = Work(probed, settings.check(probed.data()), settings)
    if not seen.findings or seen.phase < 5:
        return work
    made, back = [], []
    seen = stepped(seen, settings, made, back, tried)
    paper = probe.without(seen.document, work.document, edits)
    after = Work(paper, settings.check(paper.data()), settings)
    if not made or after.named(after.findings) != work.named(work.findings):
        return work
    changes += made
    taken_back += back
    return after


def is_asked(settings, codes):
    return not settings.options.only or any(code in settings.options.only for code in codes)


def whole(work, settings, changes):
    """The work once its bytes are as a text of AGS4 has them."""
    for one in table.WHOLE:
        found = one.bytes_of(work.file.data) if work.findings and is_asked(settings, one.codes) else None
        if found is not None:
            findings = settings.check(found)
            work = Work(Document.of(found), findings, settings, found)
            changes.append(Change(one.codes[0], one.name, one.about, 0, 0, b"", b""))
    return work


def step(work, settings, changes, taken_back, tried):
    """The work after the next fix that holds, or None where none does."""
    for one in table.FIXES:
        codes = {finding.code for finding in work.findings}
        if one.phase != work.phase or not codes & set(one.codes) or not is_asked(settings, codes & set(one.codes)):
            continue
        data = work.file.data
        if (one.name, data) in tried:
            continue
        tried.add((one.name, data))
        parts = [edits for edits in one.edits(work) if edits]
        after, edits = held(work, parts, settings, taken_back, one)
        if after is not None:
            told = {finding.code for finding in edits.targets} or codes
            code = next((code for code in one.codes if code in told), one.codes[0])
            changes += document.changes(work.document, after.document, edits, code, one.name, one.about)
            return after
    return None


def held(work, parts, settings, taken_back, one):
    """The work after the parts of a fix that hold, all of them or those that hold one by one, and their edits; or
    nothing."""
    if not parts:
        return None, None
    edits = functools.reduce(Edits.joined, parts)
    after, reason = tried_out(work, edits, settings)
    if reason is None:
        return after, edits
    kept, after = Edits(), None
    for part in parts[:MOST_PARTS] if len(parts) > 1 else ():
        found, why = tried_out(work, kept.joined(part), settings)
        if why is None:
            kept, after = kept.joined(part), found
        else:
            reason = why
    taken_back.append((one.codes[0], one.about, reason))
    return after, kept


def tried_out(work, edits, settings):
    """The work after edits, and why they do not hold, or None: the findings that they are for have to be gone, and the
    file may have none that it did not have."""
    paper = work.document.edited(edits)
    data = paper.data()
    if data == work.file.data:
        return None, "it changes nothing"
    after = Work(paper, settings.check(data), settings, data)
    if after.findings and after.phase < work.phase:
        return None, f"it makes a finding of an earlier phase: {after.findings[0].printed()}"
    if after.phase > work.phase or not after.findings:
        return after, None
    before, now = work.named(work.findings), after.named(after.findings)
    targets = work.named(edits.targets)
    new = {one for one in now - before if not is_shown_now(one, targets)}
    if new:
        code, _, subject = sorted(new, key=str)[0]
        return None, f"it makes a finding that the file did not have: Rule {code} {ags.shown(subject)}"
    if targets & now:
        return None, "findings that it is for remain"
    return after, None


def is_shown_now(finding, targets):
    """Whether a finding was hidden by one that a fix is for: a line with a CR is not read, and one that is no row has
    no descriptor."""
    code, name, subject = finding
    return code == "5" and ("6", name, subject) in targets or code == "3" and bool(
        {("5", name, subject), ("6", name, subject)} & targets)
