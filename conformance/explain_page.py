"""The pages of `bin/explain --html` in a headless Chromium, 360 and 1280 pixels wide: none is wider than the window,
no word of up to 24 letters is in two lines, and what is marked in a line is seen.

    cut(pages)      # of pages as bytes by name: what is cut, by name and width, or None without a browser"""
import os
import sys
import tempfile

sys.dont_write_bytecode = True
import browser  # noqa: E402
import servers  # noqa: E402

WIDTHS = (360, 1280)
# What is wider than its place, each short word that is in two lines, and each mark that has no room.
CUT = """
const out = [...document.querySelectorAll('html, pre')].filter((e) => e.scrollWidth > e.clientWidth)
  .map((e) => `${e.tagName} has ${e.scrollWidth} pixels, and room for ${e.clientWidth}`);
const lines = (node, start, end) => {
  const range = document.createRange();
  range.setStart(node, start);
  range.setEnd(node, end);
  return new Set([...range.getClientRects()].map((each) => Math.round(each.top))).size;
};
const texts = document.createTreeWalker(document.body, NodeFilter.SHOW_TEXT);
for (let node = texts.nextNode(); node; node = texts.nextNode()) {
  for (const word of node.data.matchAll(/\\S+/g)) {
    if (word[0].length <= 24 && lines(node, word.index, word.index + word[0].length) > 1) out.push(word[0]);
  }
}
const isSeen = (e) => [...e.getClientRects()].every((each) => each.width > 1 && each.right <= innerWidth);
return out.concat([...document.querySelectorAll('mark')].filter((e) => !isSeen(e)).map((e) => e.outerHTML));"""


def cut(pages):
    """What is cut of each page, at each width."""
    if servers.lacking("chromium", "chromedriver"):
        return None
    found = {}
    with tempfile.TemporaryDirectory() as folder:
        window = browser.Browser([], folder)
        try:
            for width in WIDTHS:
                window.command("Emulation.setDeviceMetricsOverride", width=width, height=900, deviceScaleFactor=1,
                               mobile=width < 500)
                for name, page in pages.items():
                    found[name, width] = cut_of(window, os.path.join(folder, "page.html"), page)
        finally:
            window.end()
    return found


def cut_of(window, path, page):
    with open(path, "wb") as file:
        file.write(page)
    window.go("file://" + path)
    return window.run(CUT)
