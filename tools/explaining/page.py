"""What explains findings, as one HTML page that needs nothing else. It can be read at 360 pixels.

    `html(explained)`, or of an answer without findings `page_of(lines)`

What files contain is only ever text in it."""
import html as markup
import re

from . import ahead, cause, texts
from .report import above, heading, line_shown, part_of_line, summary_line

MOST_CAUSES = 1000
# Words of so many letters are never in two lines.
SHORT = 24
PAGE = """<!doctype html>
<html lang="en"><head><meta charset="utf-8"><title>{title}</title>
<meta name="viewport" content="width=device-width, initial-scale=1">
<style>
body {{ font: 16px/1.5 system-ui, sans-serif; max-width: 70rem; margin: 2rem auto; padding: 0 1rem; color: #1a1a1a;
background: #fff; overflow-wrap: anywhere; }}
h1 {{ font-size: 1.4rem; line-height: 1.3; }}
h2 {{ font-size: 1.15rem; line-height: 1.3; }}
pre {{ background: #f2f2f2; padding: .6rem; white-space: pre-wrap; }}
mark {{ background: #ffe08a; color: inherit; }}
ol, ul {{ padding-left: 1.6rem; }}
section {{ border-top: 1px solid #999; margin-top: 1.5rem; }}
.fix {{ font-weight: 600; }}
.whole {{ white-space: nowrap; }}
@media (max-width: 30rem) {{ body {{ margin: 1rem auto; padding: 0 .6rem; }} pre {{ font-size: .8rem; }} }}
</style></head><body>
{body}
</body></html>
"""


def escaped(said):
    """Text whose lines end between words, and within a long word after a comma, a slash or an underscore."""
    return "".join(map(word, re.split(r"(\s+)", said)))


def word(said):
    parts = [said] if len(said) <= SHORT else re.split("(?<=[,/_])", said)
    return "<wbr>".join(map(part, parts))


def part(said):
    """A word, or a part of a long one. A browser ends lines after some signs, as the hyphens of a day."""
    text = markup.escape(said)
    return f'<span class="whole">{text}</span>' if len(said) <= SHORT and re.search(r"[^\w\s\",.:()]", said) else text


def row(said):
    """A row, or a part of one, whose lines end after the comma of an item or between words."""
    return "<wbr>".join(map(escaped, re.split('(?<=",)', said)))


def line(one):
    """The line of a finding with its place marked; a mark beyond its end is a blank."""
    place = one.place
    if not place[2]:
        return row(line_shown(one.context.file, place)[0])
    front, text, at, size = part_of_line(one.context.file, place)
    end = at + max(1, size)
    return f"{row(front + text[:at])}<mark>{row(text[at:end] or ' ')}</mark>{row(text[end:])}"


def section(number, one):
    about = f" ({one.subject})" if one.subject else ""
    here = "".join(f"<p>{escaped(said)}</p>\n" for said in one.here)
    rows = f"<pre>{chr(10).join(map(row, one.rows))}</pre>\n" if one.rows else ""
    more = ("<details><summary>All "
            f"{texts.count(len(one.lines), 'line')}</summary><p>{', '.join(map(str, one.lines))}</p></details>\n"
            if len(one.lines) > texts.FEW + 1 else "")
    return f'<section id="cause-{number}"><h2>{number}. Rule {one.code}, {escaped(one.title + about)}</h2>\n' \
        f"<p>{texts.count(len(one.findings), 'finding')}, {texts.lines(one.lines)}</p>\n<pre>{line(one)}</pre>\n" \
        f'<p>{escaped(one.rule)}</p>\n{here}<p class="fix">Fix: {escaped(one.fix)}</p>\n{rows}{more}</section>\n'


def listed(causes):
    """The causes as a list that leads to their sections."""
    items = "".join(f'<li><a href="#cause-{number}">{escaped(summary_line(one))}</a></li>\n'
                    for number, one in enumerate(causes, 1))
    return f"<p>Fix in this order, then check again:</p>\n<ol>\n{items}</ol>\n"


def of_doubts(found):
    """The doubts, where they were asked for: they are no findings."""
    if found is None:
        return ""
    items = "".join(f"<li>line {number}: {escaped(said)}</li>\n" for number, said in found)
    said = f"Doubts ({len(found):,}): AGS4 permits each, and none is a finding." if found else "Doubts: none."
    return f"<section><h2>{said}</h2>\n<ul>\n{items}</ul></section>\n"


def html(explained, is_ahead=True, doubts=None):
    """The page of findings."""
    causes = explained.causes(MOST_CAUSES)
    body = f"<h1>{escaped(heading(explained))}</h1>\n"
    body += "".join(f"<p>{escaped(said)}</p>\n" for said in above(explained))
    body += listed(causes) if len(causes) > 1 else ""
    body += "".join(section(number, one) for number, one in enumerate(causes, 1))
    rest = len(explained.grouped()) - len(causes)
    body += f"<p>{texts.count(rest, 'more cause')}.</p>" if rest else ""
    phases = ahead.preview(explained)[0] if is_ahead else []
    if phases:
        body += "<h1>Ahead: what the later phases would find, as far as it can be seen</h1>\n"
    number = len(causes)
    for _, context, grouped in phases:
        later = [cause.cause_of(context, key, given) for key, given in grouped[:MOST_CAUSES]]
        body += "".join(section(number + at, one) for at, one in enumerate(later, 1))
        number += len(later)
    return PAGE.format(title=markup.escape(explained.name), body=body + of_doubts(doubts))


def page_of(lines, doubts=None):
    """The page of an answer without findings."""
    said = " ".join(lines) or "No findings were given."
    return PAGE.format(title=markup.escape(said), body=f"<p>{escaped(said)}</p>\n{of_doubts(doubts)}")
