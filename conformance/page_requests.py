"""The page as a caller of a register: checks, deposits, listings, extracts and withdrawals. What it shows is compared
with the answers of the second implementation (machine.py)."""
import csv
import os
import sys

sys.dont_write_bytecode = True
import machine  # noqa: E402
import reference  # noqa: E402
import servers  # noqa: E402
from page_reach import CONTRAST  # noqa: E402
from machine import ags  # noqa: E402

EVIL = '"><img src=x onerror="document.title=1"><script>document.title=2</script>'
HEADERS = """
const call = new XMLHttpRequest();
call.open('GET', '/', false);
call.send();
return ['Content-Security-Policy', 'X-Content-Type-Options'].map((name) => call.getResponseHeader(name));"""


def spelled(rows):
    return b"".join(ags.line_of([entry.encode() for entry in row]) + b"\r\n" for row in rows)


def evil_file():
    """A clean file whose entries are HTML and a script."""
    return machine.FILE_A.replace(b"North bank", EVIL.replace('"', '""').encode())


def of_start(page):
    """The page loads under its policy of content, asks for a token, and keeps it in the tab alone."""
    b = page.browser
    b.go(page.url)
    page.check("the title", "Ground investigation register", b.run("return document.title;"))
    page.check("the policy of content",
               ["default-src 'self'; frame-ancestors 'none'; base-uri 'none'; form-action 'none'", "nosniff"],
               b.run(HEADERS))
    b.choose("#check-file", page.file("first.ags", machine.FILE_A))
    page.check("without a token", "Type in the project and your token first.", b.wait("#fault"))
    page.enter("t-delta")
    page.check("the token is not in the address", page.url, b.run("return location.href;"))
    page.check("the token is in the tab", ["t-delta", 0, ""],
               b.run("return [sessionStorage.getItem('token'), localStorage.length, document.cookie];"))
    page.check("the token is not shown", "", b.run("return document.getElementById('token').value;"))
    page.check("who keeps it", True, b.text("#who-now").endswith(
        "kept in this tab, and in a tab that is duplicated from it, until the tab is closed."))


def of_check(page):
    """A clean file, and one with findings: each with its line and subject, by rule, in the filter and in the CSV."""
    b = page.browser
    b.choose("#check-file", page.file("a.ags", machine.FILE_A))
    page.check("a clean file", "clean: a.ags breaks no rule that the register checks.", b.wait("#check-result .clean"))
    bad = machine.FILE_B.replace(b'"BH1","1.50","S1"', b'"BH7","1.5","S1"').replace(b'"PRELIM"', b'"UNKNOWN"')
    found = reference.findings(bad)
    b.choose("#check-file", page.file("bad.ags", bad))
    b.wait("#check-result .findings")
    want = [[code, str(line), subject.decode()] for line, code, subject in found]
    rows = page.table("#check-result")
    page.check("the findings", want, [[row[0], row[2], row[3]] for row in rows])
    page.check("their rules", list(dict.fromkeys(code for _, code, _ in found)),
               b.run("return [...document.querySelectorAll('#check-result .cause')].map((c) => c.dataset.code);"))
    texts = {row[2]: row[4] for row in rows}
    lines = bad.decode().split("\r\n")
    page.check("the lines", {number: lines[int(number) - 1] for number in texts if number != "0"},
               {number: text for number, text in texts.items() if number != "0"})
    page.check("a place is marked", True, b.run("return document.querySelectorAll('#check-result mark').length > 0;"))
    code = found[0][1]
    b.click("#check-result .actions button")
    saved = list(csv.reader(page.downloaded("findings-bad.ags.csv").decode().splitlines()))
    page.check("the CSV", want, [[row[0], row[2], row[3]] for row in saved[1:]])
    b.type("#check-result [data-filter='Rule']", f"= {code}")
    page.check("the filter", [each for each in want if each[0] == code],
               [[row[0], row[2], row[3]] for row in page.table("#check-result")])


def of_hostile_files(page):
    """Entries that are HTML and scripts are text, in findings and in an extract."""
    b = page.browser
    b.choose("#check-file", page.file("evil.ags", evil_file().replace(b'"P7"', b'P7')))
    b.wait("#check-result .findings", lambda text: text.startswith("1 finding"))
    page.check("a finding shows them as text", [True, 0, "Ground investigation register"],
               [EVIL.replace('"', '""') in b.text("#check-result"),
                b.run("return document.querySelectorAll('main img, main script').length;"),
                b.run("return document.title;")])


def of_deposit(page):
    """A file is deposited, once. Findings, denials and a token that nobody has are shown as such."""
    b = page.browser
    delta = page.callers["t-delta"]
    b.click("#tab-deposit")
    said = {}
    for name, data, embargo in (("a.ags", machine.FILE_A, "2024-05-31"), ("b.ags", machine.FILE_B, "2030-01-01"),
                                ("evil.ags", evil_file(), ""), ("a.ags", machine.FILE_A, "")):
        said[name] = page.send(page.file(name, data), embargo)
        _, number, until = page.model.deposit(page.rules, delta, "N1", embargo or servers.DAY, data, servers.DAY)
        page.check(f"the receipt of {name}", f"receipt {number} {until}", b.wait("#deposit-result .receipt-text"))
    page.check("what is asked before", {"a.ags": [], "b.ags": ["In another deposit already: BH1 (deposit 1)."],
                                        "evil.ags": ["In another deposit already: BH1 (deposits 2, 1)."]},
               {**said, "a.ags": []})
    page.send(page.file("bad.ags", b"x\r\n"))
    page.check("findings of a deposit", True, b.wait("#deposit-result .findings").startswith("1 finding of 1 rule."))
    page.enter("t-echo")
    page.send(page.file("a.ags", machine.FILE_A))
    page.check("a denial", "The policy has no rule that permits this.", b.wait("#fault"))
    page.enter("t-gamma")
    page.send(page.file("a.ags", machine.FILE_A))
    page.check("a denial by a rule", "The policy denies this, by its rule 5.",
               b.wait("#fault", lambda text: "rule 5" in text))
    page.enter("nobody")
    b.choose("#deposit-file", page.file("a.ags", machine.FILE_A))
    b.click("#deposit-send")
    page.check("a token that nobody has", True,
               b.wait("#fault", lambda text: "token" in text).startswith("No caller has this token."))


CHANGED = "The file has changed since it was chosen, or cannot be read. Choose it again."


def of_changed_files(page):
    """A file that is changed on disk, or removed, after it was chosen is not read: the page says so, and takes it once
    it is chosen again. Any other promise that fails is said too."""
    b, fixed = page.browser, machine.FILE_A.replace(b"North bank", b"South bank")
    page.enter("t-delta")
    b.click("#tab-deposit")
    b.type("#embargo", "")
    path = page.file("fixed.ags", fixed.replace(b"\r\n", b"\n", 1))
    b.choose("#deposit-file", path)
    b.click("#deposit-send")
    page.check("a finding of the file", True, b.wait("#deposit-result .findings").startswith("1 finding of 1 rule."))
    page.check("one finding is told", "1 finding.", b.wait("#status"))
    page.file("fixed.ags", fixed)
    b.click("#deposit-send")
    page.check("a file that was changed", [CHANGED, "", ""],
               [b.wait("#fault"), b.text("#status"), b.text("#deposit-result")])
    b.choose("#deposit-file", path)
    b.click("#deposit-send")
    page.agree()
    delta = page.callers["t-delta"]
    _, number, day = page.model.deposit(page.rules, delta, "N1", servers.DAY, fixed, servers.DAY)
    page.check("the receipt of the fixed file", f"receipt {number} {day}", b.wait("#deposit-result .receipt-text"))
    page.check("its first day", f"fixed.ags is deposit {number}, free from {day}.", b.text("#deposit-result .receipt"))
    os.remove(path)
    b.click("#deposit-send")
    page.check("a file that was removed", [CHANGED, ""], [b.wait("#fault"), b.text("#status")])
    b.run("return import('/register.js').then(({ Register }) => { Register.prototype.deposits = null; });")
    b.click("#tab-deposits")
    b.click("#list")
    page.check("any other promise", ["This page failed (asked.deposits is not a function). Load it again, then send a"
                                     " deposit again: it is not kept twice.", ""],
               [b.wait("#fault"), b.text("#status")])
    page.check("no failure is left to the console", [], b.errors())
    b.go(page.url)


def of_deposits(page):
    """The listing and extracts of two callers, beside the model's."""
    b = page.browser
    b.click("#tab-deposits")
    for token in ("t-delta", "t-echo"):
        page.enter(token)
        b.click("#list")
        _, listing = page.model.list(page.rules, page.callers[token], "N1", servers.DAY)
        b.wait("#deposits-result .caption")
        want = [[str(number), firm, embargo] for number, firm, embargo in listing]
        page.check(f"the listing of {token}", want,
                   [[row[0], row[2], row[10].split(" ")[0]] for row in page.table("#deposits-result")])
        texts = {}
        for number, _, _ in listing:
            b.click(f"[data-extract='{number}']")
            b.wait("#extract-result .title", lambda text, number=number: text.endswith(f" {number}"))
            _, text = page.model.extract(page.rules, page.callers[token], "N1", number, [], servers.DAY)
            texts[number] = groups_of(text)
            of_extract(page, f"deposit {number} of {token}", texts[number])
            b.click("#extract-result [data-save$='.ags']")
            page.check(f"the saved deposit {number} of {token}", text, page.downloaded(f"deposit-{number}.ags"))
        page.check(f"what each deposit is, to {token}",
                   [[str(number), groups["PROJ"][0][0], groups["PROJ"][0][1], groups["TRAN"][0][0],
                     str(len(groups["LOCA"]))] for number, groups in texts.items()],
                   [[row[0], row[3], row[4], row[5], row[9]] for row in page.table("#deposits-result")])
    for _ in range(2):
        b.click("#deposits-result [data-key='Free from']")
        b.wait("#deposits-result th[aria-sort$='scending']")
    days = [row[10] for row in page.table("#deposits-result")]
    page.check("the listing by falling days", sorted(days, reverse=True), days)


def of_finding(page):
    """A borehole is found over all deposits, and so is a part of any entry."""
    b = page.browser
    page.enter("t-delta")
    b.click("#list")
    b.wait("#deposits-result .caption")
    b.type("#find", "bh2")
    page.check("a borehole is found", ["BH2 in deposit 2.", ["2"]],
               [b.wait("#found"), [row[0] for row in page.table("#deposits-result")]])
    b.type("#find", "onerror")
    b.wait("#deposits-result .caption", lambda text: text.startswith("1 "))
    page.check("an entry is found", ["", ["3"]],
               [b.text("#found"), [row[0] for row in page.table("#deposits-result")]])


def of_groups(page):
    """An extract of some groups; their names are in capitals."""
    b = page.browser
    page.enter("t-delta")
    b.click("#list")
    b.wait("#deposits-result .caption")
    b.type("#groups", "LOCA")
    b.click("[data-extract='2']")
    b.wait("#extract-result .title", lambda text: text.endswith(" 2"))
    _, text = page.model.extract(page.rules, page.callers["t-delta"], "N1", 2, [b"LOCA"], servers.DAY)
    of_extract(page, "the group LOCA of deposit 2", groups_of(text))
    b.type("#groups", "loca")
    b.click("[data-extract='2']")
    page.check("groups in small letters", ["Groups in capitals, with commas: LOCA,SAMP.", "groups"],
               [b.wait("#fault"), b.run("return document.activeElement.id;")])


def of_withdrawal(page):
    """A withdrawal is asked first. A denial takes the buttons away; one that is done shows the listing without the
    deposit. Once a receipt tells the caller's firm, deposits of others are not offered."""
    b = page.browser
    b.click("#tab-deposits")
    for token, number, answer in (("t-echo", 1, "no"), ("t-echo", 1, "yes"),
                                  ("t-delta", 1, "no"), ("t-delta", 1, "yes")):
        page.enter(token)
        b.click("#list")
        b.wait("#deposits-result .caption")
        page.check(f"who may withdraw, to {token}", True,
                   b.text("#who-withdraws").startswith("Withdraw, in the last column: a firm withdraws its own"))
        b.click(f"[data-withdraw='{number}']")
        page.check(f"the question to {token}", [f"Withdraw deposit {number} of Delta?", True],
                   [b.wait("#question-text"), b.text("#question-list").startswith("It is Delta that sent it")])
        page.check(f"contrast of the question to {token}", [], b.run(CONTRAST))
        b.click(f"#question-{answer}")
        if answer == "no":
            page.check(f"{token} keeps it", [False, True],
                       b.run("return [document.getElementById('question').open,"
                             " document.querySelectorAll('[data-withdraw]').length > 0];"))
            continue
        kind, *told = page.model.withdraw(page.rules, page.callers[token], "N1", number, servers.DAY)
        if kind == "denied":
            page.check(f"a denial of {token}", "The policy has no rule that permits this.", b.wait("#fault"))
            page.check(f"no button for {token}", 0,
                       b.run("return document.querySelectorAll('[data-withdraw]').length;"))
        else:
            page.check(f"the withdrawal of {token}", f"Deposit {told[0]} is withdrawn.",
                       b.wait("#status", lambda text: "withdrawn" in text))
        _, listing = page.model.list(page.rules, page.callers[token], "N1", servers.DAY)
        page.check(f"the listing after it of {token}", [str(each[0]) for each in listing],
                   [row[0] for row in page.table("#deposits-result")])


def groups_of(text):
    """The rows of each group of an extract, by its name."""
    groups = {}
    for line in text.decode().split("\r\n"):
        items = [field.decode() for field in reference.fields_of(line.encode())] if line else []
        if items[:1] == ["GROUP"]:
            rows = groups.setdefault(items[1], [])
        elif items[:1] == ["DATA"]:
            rows.append(items[1:])
    return groups


def of_extract(page, name, groups):
    """Each group with its rows."""
    page.browser.click("#extract-result [data-view='Tables']")
    shown = {}
    for group in groups:
        page.choose("#extract-result [data-choice='group']", f"{group} ")
        shown[group] = page.table("#extract-result")
    page.check(f"{name}: groups and rows", groups, shown)
    page.check(f"{name}: no entry is more than text", [0, "Ground investigation register"],
               page.browser.run("return [document.querySelectorAll('main img, main script').length, document.title];"))


def of_faults(page):
    """A register that is not served."""
    page.server.stop()
    page.browser.click("#tab-deposits")
    page.browser.click("#list")
    page.check("a register that is not served", True,
               page.browser.wait("#fault").startswith("The register does not answer."))
    page.check("nothing in the console", [], page.browser.errors())


STEPS = (of_start, of_check, of_hostile_files, of_deposit, of_changed_files, of_deposits,
         of_finding, of_groups, of_withdrawal)
