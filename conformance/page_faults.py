"""What once went wrong on the page: a token in the address, a tab that froze, answers for somebody else, texts that a
spreadsheet runs."""
import csv
import signal
import sys
import time

sys.dont_write_bytecode = True
import machine  # noqa: E402
from machine import ags  # noqa: E402

FORMULAS = ["=1+1", "+cmd", "-1.50", "@SUM(A1)", "-x"]
MANY = 60000
SOON = 8


def of_scripts(page):
    """Where the scripts do not run, the browser itself sends no token."""
    b = page.browser
    b.command("Emulation.setScriptExecutionDisabled", value=True)
    b.go(page.url)
    b.type("#project", "N1")
    b.type("#token", "t-delta")
    b.press("enter")
    b.click("#use")
    page.check("without scripts the address has no token", page.url, b.address())
    b.command("Emulation.setScriptExecutionDisabled", value=False)
    b.go(page.url)


def of_many_findings(page):
    """So many findings are shown soon, each of them can be scrolled to, and they do not make the page long."""
    b = page.browser
    page.enter("t-delta")
    b.click("#tab-check")
    bad = machine.FILE_A + b"x\n" * MANY
    path = page.file("many.ags", bad)

    def check():
        b.choose("#check-file", path)
        b.wait("#check-result .findings")
    taken = b.seconds_of(check)
    page.check("60,000 lines with findings", [True, True],
               [b.text("#check-result .findings").startswith(f"{2 * MANY:,} findings of "), taken < SOON])
    print(f"{2 * MANY:,} findings are shown in {taken:.1f} s of the page's thread", flush=True)
    page.check("the page is short", True, b.run("return document.documentElement.scrollHeight < 5000;"))
    b.run("const rows = document.querySelector('#check-result .rows'); rows.scrollTop = rows.scrollHeight;")
    lines = machine.FILE_A.count(b"\n") + MANY
    b.wait("#check-result .rows tbody:not(.space) tr:last-child", lambda text: str(lines) in text)
    page.check("the last finding is scrolled to", str(lines), page.table("#check-result")[-1][2])


def of_late_replies(page):
    """A reply that comes once the caller is another is not shown."""
    b = page.browser
    page.enter("t-delta")
    b.click("#tab-deposits")
    page.server.process.send_signal(signal.SIGSTOP)
    try:
        b.click("#list")
        b.click("#forget")
        page.check("what was under way is named", True, "was broken off" in b.wait("#status"))
    finally:
        page.server.process.send_signal(signal.SIGCONT)
    time.sleep(1)
    page.check("a late reply", ["", "", ""], [b.text("#deposits-result"), b.text("#extract-result"), b.text("#fault")])


def of_copying(page):
    """A receipt that could not be copied is not called copied."""
    b = page.browser
    page.enter("t-delta")
    b.click("#tab-deposit")
    page.send(page.file("a.ags", machine.FILE_A.replace(b"North bank", b"East bank")))
    b.wait("#deposit-result .receipt")
    b.run("Object.defineProperty(navigator, 'clipboard', { value: { writeText: () => Promise.reject(new Error()) } });")
    b.click("#deposit-result button")
    page.check("a copy that failed", ["The browser did not copy it. Mark the text and copy it by hand.", ""],
               [b.wait("#fault"), b.text("#status")])
    page.model.deposit(page.rules, page.callers["t-delta"], "N1", machine.SENT,
                       machine.FILE_A.replace(b"North bank", b"East bank"), machine.SENT)


def of_formulas(page):
    """A text that a spreadsheet would run is saved as text, and a number as it is."""
    b = page.browser
    b.click("#tab-look")
    rows = b"".join(ags.line_of([b"DATA", b"Z%d" % at, text.encode()]) + b"\r\n" for at, text in enumerate(FORMULAS))
    b.choose("#look-file", page.file("formulas.ags", machine.FILE_A.replace(b'"DATA","P7","North bank"\r\n', rows)))
    b.wait("#look-result .title")
    b.click("#look-result [data-view='Tables']")
    page.choose("#look-result [data-choice='group']", "PROJ ")
    page.check("the entries as shown", FORMULAS, [row[1] for row in page.table("#look-result")])
    b.click("#look-result [data-save='csv']")
    saved = list(csv.reader(page.downloaded("PROJ.csv").decode().splitlines()))
    page.check("the entries as saved", ["PROJ_NAME", "'=1+1", "'+cmd", "-1.50", "'@SUM(A1)", "'-x"],
               [row[1] for row in saved])


def of_other_kinds(page):
    """A file that is no text of AGS4 is named, and not shown as characters: looked at, checked or deposited."""
    b = page.browser
    page.enter("t-delta")
    others = (("book.xlsx", b"PK\x03\x04 and more", "The file is a workbook (.xlsx)"),
              ("unicode.ags", machine.FILE_A.decode().encode("utf-16"), "The file is UTF-16"))
    for tab, more in (("look", (("words.txt", b"no groups here\r\n", "The file has no GROUP row"),)), ("check", ()),
                      ("deposit", ())):
        b.click(f"#tab-{tab}")
        for name, data, want in (*others, *more):
            b.choose(f"#{tab}-file", page.file(name, data))
            if tab == "deposit":
                b.click("#deposit-send")
            told = b.wait("#fault", lambda text, want=want: text.startswith(want))
            page.check(f"{tab}: {name}", [True, ""], [told.startswith(want), b.text(f"#{tab}-result")])


STEPS = (of_scripts, of_many_findings, of_late_replies, of_copying, of_formulas, of_other_kinds)
