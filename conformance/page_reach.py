"""Whoever uses the page: names and roles, contrast, keys, widths, large files, and what the browser asks for."""
import hashlib
import os
import re
import sys
import time

sys.dont_write_bytecode = True
import ground_file  # noqa: E402
import machine  # noqa: E402
import page_states  # noqa: E402
from page_driver import UNTIL_DRAWN, home  # noqa: E402

# Each element with text of its own, with an entry or with a placeholder, whose colours have a contrast below 4.5.
CONTRAST = """
const light = (colour) => colour.map((c) => c / 255)
  .map((c) => c <= 0.03928 ? c / 12.92 : ((c + 0.055) / 1.055) ** 2.4)
  .reduce((sum, c, n) => sum + c * [0.2126, 0.7152, 0.0722][n], 0);
const parts = (text) => text.match(/[\\d.]+/g).map(Number);
const ground = (e) => {
  for (; e; e = e.parentElement) {
    const c = parts(getComputedStyle(e).backgroundColor);
    if (c.length < 4 || c[3] > 0) return c.slice(0, 3);
  }
  return [255, 255, 255];
};
const over = ([r, g, b, alpha = 1], below) => [r, g, b].map((c, n) => c * alpha + below[n] * (1 - alpha));
const inks = (e) => {
  const own = [...e.childNodes].some((n) => n.nodeType === 3 && n.data.trim()) || e.matches('input, select, textarea');
  const paint = (part) => getComputedStyle(e, part)[e instanceof SVGElement ? 'fill' : 'color'];
  return [...own ? [paint()] : [], ...e.placeholder ? [paint('::placeholder')] : []];
};
return [...document.querySelectorAll('body *')].filter((e) => e.getClientRects().length).filter((e) =>
  inks(e).some((ink) => {
    const [a, b] = [light(over(parts(ink), ground(e))), light(ground(e))];
    return (Math.max(a, b) + 0.05) / (Math.min(a, b) + 0.05) < 4.5;
  })).map((e) => e.outerHTML.slice(0, 80));"""
# Each number, each heading of AGS, and each word of a heading, that is in more than one line, or is cut by what hides
# the rest of it. A text of several words in a table may end before a number, which is shown whole or not at all: it is
# beyond the cell, or an element that the end of a cut text leaves out.
BROKEN = """
const titles = 'h1, h2, h3, h4, th, legend, dt, summary, [role=tab]';
const found = [];
const isCut = (box, holder) => {
  const cell = holder.closest('td:not(.number)');
  const isOfText = cell && /\\s/.test(cell.textContent.trim());
  const isWhole = getComputedStyle(holder).display === 'inline-block';
  for (let e = holder; e && e !== document.body; e = e.parentElement) {
    const { overflowX } = getComputedStyle(e);
    const { left, right } = e.getBoundingClientRect();
    if (/hidden|clip/.test(overflowX) && (box.right > right + 1 || box.left < left - 1)) {
      return !(isOfText && (isWhole || box.left >= right));
    }
    if (/auto|scroll/.test(overflowX)) return false;
  }
  return false;
};
const walker = document.createTreeWalker(document.body, NodeFilter.SHOW_TEXT);
for (let node = walker.nextNode(); node; node = walker.nextNode()) {
  const e = node.parentElement;
  if (!e.getClientRects().length || e.closest('option, .skip')) continue;
  const words = e.closest(titles) ? /\\S+/g : /[A-Z][A-Z0-9]{0,3}_[A-Z0-9_]+|[-+\\u2212]?\\d+(?:[.,:\\/-]\\d+)*/g;
  for (const match of node.data.matchAll(words)) {
    const range = document.createRange();
    range.setStart(node, match.index);
    range.setEnd(node, match.index + match[0].length);
    const boxes = [...range.getClientRects()].filter((box) => box.width > 0);
    if (new Set(boxes.map((box) => Math.round(box.top))).size > 1) found.push(`in two lines: ${match[0]}`);
    else if (boxes.some((box) => isCut(box, e))) found.push(`cut: ${match[0]} of ${node.data.slice(0, 40)}`);
  }
}
return found;"""
# Whether the page is as wide as the window; the tables without a frame; and of the frames what is wrong, with how many
# there are that scroll: one that is beyond the page, does not scroll to its end, or has no name or place for the keys.
FRAMES = """
const page = document.documentElement;
const shown = (selector) => [...document.querySelectorAll(selector)].filter((e) => e.getClientRects().length);
const loose = shown('table, .sheet').filter((e) => !e.closest('.scroll, .logs')).map((e) => e.outerHTML.slice(0, 80));
const frames = shown('.scroll, .logs, .panels').map((frame) => {
  const { left, right } = frame.getBoundingClientRect();
  const isWide = frame.scrollWidth > frame.clientWidth + 1;
  frame.scrollLeft = 1e6;
  const isScrolled = Math.abs(frame.scrollLeft + frame.clientWidth - frame.scrollWidth) < 2;
  frame.scrollLeft = 0;
  const isReached = frame.tabIndex === 0 && frame.getAttribute('role') && frame.getAttribute('aria-label');
  const isWrong = left < 0 || right > page.clientWidth + 1 || isWide && !(isScrolled && isReached);
  return { isWide, wrong: isWrong ? [frame.outerHTML.slice(0, 120)] : [] };
});
return { isWithin: page.scrollWidth <= page.clientWidth, loose, wrong: frames.flatMap((each) => each.wrong),
  wide: frames.filter((each) => each.isWide).length };"""
# What the Tab key reaches, in the order of the page, and where the focus is.
STOPS = """
const stops = [...document.querySelectorAll('a[href], button, input, select, textarea, summary, [tabindex]')]
  .filter((e) => e.tabIndex >= 0 && !e.disabled && e.getClientRects().length)
  .filter((e) => !e.closest('details:not([open]) > :not(summary)'))
  .filter((e) => !document.querySelector('dialog[open]') || e.closest('dialog[open]'));
for (const stop of stops) stop.dataset.stop ??= String(window.stops = (window.stops ?? 0) + 1);
return stops.map((stop) => stop.dataset.stop);"""
# From here on the stops that the focus comes to are noted.
NOTED = """
window.came = [];
const note = (event) => window.came.push(event.target.dataset.stop ?? event.target.tagName);
window.noting ??= document.addEventListener('focusin', note) ?? true;
document.activeElement.blur();
document.querySelector(`[data-stop="${arguments[0]}"]`).focus();"""
# The states with a table, or a log, that is wider than a window of 360 pixels.
WIDE = ("findings by rule", "findings by cause", "list of deposits", "extract, Log", "extract, Tables", "look, Log",
        "look, Tables", "a row and what it belongs to")


def check_width(page, state, width):
    """At this width nothing is wider than the page, and no number and no heading is broken or cut."""
    b = page.browser
    b.size(width, 1000)
    b.run(UNTIL_DRAWN)
    page.check(f"{state}: so wide is the window", width, b.run("return innerWidth;"))
    frames = b.run(FRAMES)
    page.check(f"{state} at {width} pixels: frames", [True, [], []],
               [frames["isWithin"], frames["loose"], frames["wrong"]])
    page.check(f"{state} at {width} pixels: numbers and headings", [], b.run(BROKEN))
    if width == 360 and state in WIDE:
        page.check(f"{state} at {width} pixels: a frame scrolls", True, frames["wide"] > 0)


def check_keys(page, state):
    """The Tab key alone reaches each control in the order of the page."""
    b = page.browser
    want = b.run(STOPS)
    b.run(NOTED, want[0])
    b.press(*["tab"] * (len(want) - 1))
    page.check(f"{state}: the Tab key goes through {len(want)} stops", want, b.run("return window.came;"))


def controls_once(page, wanted):
    """The controls once they are those that are wanted, or after five seconds: what the service offers comes a moment
    after the rest."""
    for _ in range(50):
        found = page_states.controls(page)
        if found == wanted:
            break
        time.sleep(0.1)
    return found


def of_reach(page):
    """In each state of the page the controls have their roles and names, texts have contrast, and the Tab key goes
    through the page. At 360 and 1280 pixels no number and no heading breaks, and wide tables scroll within their
    frame."""
    number = 0
    for state, wanted in page_states.states(page):
        if wanted is not None:
            page.check(f"{state}: roles and names", sorted(wanted), controls_once(page, sorted(wanted)))
            number += len(wanted)
        page.check(f"{state}: contrast", [], page.browser.run(CONTRAST))
        for width in (360, 1280):
            check_width(page, state, width)
        check_keys(page, state)
    print(f"roles and names of {number} controls", flush=True)


def of_arrows(page):
    """Arrows choose tabs."""
    b = page.browser
    b.run("document.getElementById('tab-check').focus();")
    for key, tab in (("right", "deposit"), ("right", "deposits"), ("left", "deposit"), ("left", "check")):
        b.press(key)
        page.check(f"the arrow to the {key} chooses {tab}", [f"tab-{tab}", False],
                   b.run("return [document.activeElement.id, document.getElementById(arguments[0]).hidden];", tab))


def of_sight(page):
    """The filled list says what each deposit is, and at 1280 pixels that is in sight without scrolling. Its extracts
    are read a few at a time, and once."""
    b = page.browser
    page_states.filled(page)
    page_states.used(page)
    page_states.shown_list(page, 1 + len(page_states.ISSUES))
    loca = ground_file.rows_of(ground_file.data(), "LOCA")
    about = [("1", "2024-05-20", "Draft", "Twelve exploratory holes"), *page_states.ISSUES]
    page.check("what each deposit is", [["G12", "Harbour link road", *each, str(len(loca))] for each in about],
               [row[3:10] for row in page.table("#deposits-result")])
    page.check("that is in sight", True, b.run(IN_SIGHT))
    page.check("extracts, at most three at once", [len(about), True], b.run(ASKED))
    b.click("#list")
    b.wait("#deposits-result .rows tbody:not(.space)", lambda text: "Twelve" in text and ".." not in text)
    page.check("extracts are kept for the tab", len(about), b.run(ASKED)[0])
    b.type("#find", "tp12")
    b.wait("#found")
    found = "TP12 in deposit 1; TP12 in deposit 2;"
    page.check("a borehole over all deposits", [f"{len(about)} deposits", True],
               [b.text("#deposits-result .caption"), b.text("#found").startswith(found)])
    b.type("#find", "corrected")
    b.wait("#deposits-result .caption", lambda text: text.startswith("2 "))
    corrected = [str(number) for number, each in enumerate(about, 1) if "corrected" in each[3]]
    page.check("a part of a description", corrected, [row[0] for row in page.table("#deposits-result")])
    b.go(page.url)


# Whether the last of the columns that say what a deposit is ends before the frame of the list does.
IN_SIGHT = """
const frame = document.querySelector('#deposits-result .rows').getBoundingClientRect();
return document.querySelector("#deposits-result [data-key='Boreholes']").getBoundingClientRect().right < frame.right;"""
# How many extracts were asked for to say what deposits are, and whether at most three of them at a time.
ASKED = """
const calls = performance.getEntriesByType('resource').filter((each) => /deposits\\/\\d+\\?groups=/.test(each.name));
const most = calls.map((each) => calls.filter((other) => other.startTime <= each.startTime
  && other.responseEnd > each.startTime).length);
return [calls.length, Math.max(...most) <= 3];"""


def large_file():
    """A file of 16 MB that is like the sample: its rows again and again, of other boreholes."""
    groups = ground_file.groups_of(ground_file.data())
    parts = ground_file.data().decode().split("\r\n\r\n")
    out, size, copies = [], 0, 0
    while size < 16_000_000:
        copies += 1
        size += 21_500
    for part in parts:
        head, rows = part.split("\r\n")[:4], part.split("\r\n")[4:]
        name = head[0].split('"')[3]
        if "LOCA_ID" in groups[name]["HEADING"]:
            rows = [re.sub(r'"(BH|TP)(?=\d)', rf'"\g<1>{copy}-', row) for copy in range(copies) for row in rows if row]
        out.append("\r\n".join([*head, *rows]))
    return ("\r\n\r\n".join(out) + "\r\n").encode()[:machine.LIMIT]


FIRST = """
window.drawnAt = new Promise((resolve) => {
  new MutationObserver(() => document.querySelector('#look-result .marks path') && resolve(performance.now()))
    .observe(document.getElementById('look-result'), { childList: true, subtree: true });
});
document.getElementById('look-file').addEventListener('change', () => { window.chosenAt = performance.now(); },
  { once: true, capture: true });
document.getElementById('look-result').replaceChildren();"""


def of_large_file(page):
    """A file of 16 MB is drawn within three seconds."""
    b, data = page.browser, large_file()
    path = page.file("large.ags", data)
    b.go(page.url)
    b.click("#tab-look")
    b.run(FIRST)
    begun = time.monotonic()

    def draw():
        b.choose("#look-file", path)
        b.run("return window.drawnAt;")
    taken = b.seconds_of(draw)
    seconds = b.run("return window.drawnAt.then((at) => (at - window.chosenAt) / 1000);")
    page.check("a file of 16 MB is drawn within 3 seconds", [True, True], [len(data) > 15_900_000, taken < 3])
    print(f"16 MB: drawn in {taken:.1f} s of the page's thread, {seconds:.1f} s by the clock", flush=True)
    page.view("Tables")
    page.choose("#look-result [data-choice='group']", "GEOL ")
    page.check("its tables", True, len(page.table("#look-result")) > 5)
    print(f"16 MB: all in {time.monotonic() - begun:.1f} s", flush=True)


def of_vendor(page):
    """What others made and the site serves is what its checksums say, with its licence."""
    folder = os.path.join(home, "web", "vendor")
    with open(os.path.join(folder, "SHA256SUMS"), encoding="ascii") as file:
        sums = dict(reversed(line.split()) for line in file)
    found = {}
    for name in os.listdir(folder):
        with open(os.path.join(folder, name), "rb") as file:
            found[name] = hashlib.sha256(file.read()).hexdigest()
    found.pop("SHA256SUMS")
    page.check("web/vendor", sums, found)
    page.check("a licence for each library", [name for name in sums if name.endswith(".min.js")],
               [name.replace("LICENSE", "min.js") for name in sums if name.endswith(".LICENSE")])


def of_others(page):
    """The page asked no other host for anything, and the console has no error."""
    asked = page.browser.run("return [...new Set(performance.getEntries().map((each) => each.name)"
                             ".filter((name) => /^\\w+:\\/\\//.test(name)).map((name) => new URL(name).host))];")
    page.check("no other host", [page.browser.run("return location.host;")], asked)
    page.check("the console", [], page.browser.errors())


STEPS = (of_sight, of_reach, of_arrows, of_large_file, of_vendor, of_others)
