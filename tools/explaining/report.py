"""What explains findings, as text, JSON or SARIF; page.py has the HTML page.

    `text(explained)`, `every(explained)`, `as_json(explained)`, `sarif(explained)`"""
import json
import urllib.parse

import ags
from . import ahead, cause, texts

WIDTH = 110
IN_SUMMARY = 15
OF_A_KIND = 10


def heading(explained):
    """How many findings of how many causes, of which phase."""
    causes = len(explained.grouped())
    of = f"{texts.count(len(explained.findings), 'finding')} of {texts.count(causes, 'cause')}"
    return f"{explained.name}: {of}, in phase {explained.phase} of {len(ags.PHASES)} ({ags.PHASES[explained.phase]})."


def above(explained):
    """What is said once, above all findings."""
    said = list(explained.context.kind[1])
    if not explained.is_of_file():
        under = "the built-in dictionary" if explained.standard.is_built_in else "this dictionary"
        said.append(f"These are not the findings of this file under {under}: is it the file that was checked, and the "
                    "dictionary that it was checked under (--dictionary)?")
    return said


def part_of_line(file, place):
    """What is shown of a line: its number and dots where it is cut, its text, and where in it the mark is."""
    line, at, size = place
    content = file.line(line)
    start = max(0, at - WIDTH // 2) if len(content) > WIDTH else 0
    front = f"line {line}: {'...' if start else ''}"
    return front, ags.shown(content[start:start + WIDTH]), at - start, min(size, start + WIDTH - at)


def line_shown(file, place):
    """The line of a finding, and a mark under its place in the line where that is known."""
    if not place[0]:
        return ["the file"]
    front, text, at, size = part_of_line(file, place)
    return [front + text, *([" " * (len(front) + at) + "^" * max(1, size)] if place[2] else [])]


def block(one):
    """The lines that explain a cause; under its fix are the rows to paste."""
    about = f" ({one.subject})" if one.subject else ""
    return line_shown(one.context.file, one.place) + [f"  Rule {one.code}, {one.title}{about}: {one.rule}"] + \
        [f"  Here: {said}" for said in one.here] + [f"  Fix: {one.fix}"] + [f"    {row}" for row in one.rows]


def summary_line(one):
    about = f", {one.subject}" if one.subject else ""
    first = one.here[0].split(". ")[0].rstrip(".") if one.here else one.rule
    where = (f"from line {one.lines[0]}" if len(one.lines) > 1 else f"line {one.lines[0]}" if one.lines[0]
             else "the file")
    return f"Rule {one.code}{about}: {texts.clipped(first)} ({texts.count(len(one.findings), 'finding')}, {where})"


def shown_causes(context, grouped):
    """The causes that are shown in full, and of each rule and subject how many more there are, as (code, subject,
    causes, findings)."""
    full, more, kinds = [], {}, {}
    for key, given in grouped:
        kind = (given[0].code if key[1] == "file" else key[1], given[0].subject if key[1] not in ("15", "17") else b"")
        kinds[kind] = kinds.get(kind, 0) + 1
        if kinds[kind] <= OF_A_KIND:
            full.append(cause.cause_of(context, key, given))
        else:
            causes, findings = more.get(kind, (0, 0))
            more[kind] = causes + 1, findings + len(given)
    return full, [(*kind, *counts) for kind, counts in more.items()]


def numbered(context, grouped):
    """A summary of one screen, and a block for each cause."""
    full, more = shown_causes(context, grouped)
    out = []
    if len(full) > 1:
        out += [f"  {number}. {summary_line(one)}" for number, one in enumerate(full[:IN_SUMMARY], 1)]
        rest = len(grouped) - min(len(full), IN_SUMMARY)
        out += [f"  and {texts.count(rest, 'more cause')}"] if rest else []
    for number, one in enumerate(full, 1):
        out.append("")
        if len(full) > 1 or len(one.findings) > 1:
            front = f"{number}. " if len(full) > 1 else ""
            out.append(f"{front}{texts.count(len(one.findings), 'finding')}, {texts.lines(one.lines)}")
        out += block(one)
    for code, subject, causes, findings in more:
        about = f", {ags.shown(subject)}" if subject else ""
        out += ["", f"{texts.count(causes, 'more cause')} of Rule {code}{about} ({texts.count(findings, 'finding')}): "
                    "--all shows each finding."]
    return out


def text(explained):
    """The summary of one screen, and a block for each cause."""
    out = [heading(explained)] + [f"  {said}" for said in above(explained)]
    if len(explained.grouped()) > 1:
        out.append("Fix in this order, then check again:")
    return out + numbered(explained.context, explained.grouped())


def every(explained):
    """Each finding in the order in which it came."""
    out = [heading(explained)] + [f"  {said}" for said in above(explained)]
    for one in explained.singles():
        out += [""] + block(one)
    return out


def preview(explained):
    """What the later phases would find; nothing in the last phase and of what is no text."""
    if explained.phase == max(ags.PHASES) or explained.context.kind[0] in cause.NO_TEXT:
        return []
    phases, left_out = ahead.preview(explained)
    if not phases:
        return ["", "Ahead: nothing is seen that the later phases would find. This is no answer of the program."]
    out = ["", "Ahead: what the later phases would find when this is fixed, as far as it can be seen. It is no answer "
               "of "
               "the program."]
    if left_out:
        out.append(f"{texts.count(left_out, 'line')} with other findings {'is' if left_out == 1 else 'are'} left out.")
    for phase, context, grouped in phases:
        findings = sum(len(given) for _, given in grouped)
        out += ["", f"Phase {phase} ({ags.PHASES[phase]}): {texts.count(findings, 'finding')} of "
                    f"{texts.count(len(grouped), 'cause')}."]
        out += numbered(context, grouped)
    return out


# ---- for programs

def cause_as_json(one):
    return {"code": one.code, "title": one.title, "rule": one.rule, "subject": one.subject, "value": one.value,
            "count": len(one.findings), "lines": one.lines, "here": one.here, "fix": one.fix, "rows": one.rows,
            "findings": [{"code": f.code, "line": f.line, "subject": ags.shown(f.subject)} for f in one.findings]}


def as_json(explained, is_ahead=True, doubts=None):
    """The causes with all their findings, and those of the later phases as far as they can be seen."""
    of_doubts = {} if doubts is None else {"doubts": [{"line": line, "said": said} for line, said in doubts]}
    if not explained.findings:
        return json.dumps({"causes": [], **of_doubts})
    out = {"file": explained.name, "phase": explained.phase, "findings": len(explained.findings),
           "said": above(explained), "causes": [cause_as_json(one) for one in explained.causes()]}
    if is_ahead:
        phases, left_out = ahead.preview(explained)
        out["ahead"] = {"left_out": left_out, "phases": [
            {"phase": phase, "findings": sum(len(given) for _, given in grouped),
             "causes": [cause_as_json(cause.cause_of(context, key, given)) for key, given in grouped]}
            for phase, context, grouped in phases]}
    return json.dumps({**out, **of_doubts})


def sarif_result(explained, one, finding, index):
    line, at, size = cause.place(explained.context, finding)
    where = {"artifactLocation": {"uri": urllib.parse.quote(explained.name)}}
    if line:
        where["region"] = {"startLine": line, **({"startColumn": at + 1, "endColumn": at + 1 + size} if size else {})}
    return {"ruleId": finding.code, "ruleIndex": index[finding.code], "level": "error",
            "locations": [{"physicalLocation": where}],
            "message": {"text": "\n".join([" ".join([*one.here, f"Fix: {one.fix}"]), *one.rows])}}


def sarif(*files):
    """SARIF 2.1.0 of what explains one or more files: a result for each finding, with the text of its cause."""
    rules = files[0].context.rules
    index = {code: at for at, code in enumerate(rules)}
    described = [{"id": code, "name": rule.title, "shortDescription": {"text": f"Rule {code}, {rule.title}"},
                  "fullDescription": {"text": rule.rule}, "help": {"text": rule.fix}} for code, rule in rules.items()]
    results = [sarif_result(explained, one, finding, index) for explained in files for one in explained.causes()
               for finding in one.findings]
    return json.dumps({"$schema": "https://json.schemastore.org/sarif-2.1.0.json", "version": "2.1.0", "runs": [
        {"tool": {"driver": {"name": "groundreg", "rules": described}}, "results": results}]})
