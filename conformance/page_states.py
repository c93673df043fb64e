"""The states of the page that are looked at: each is shown with content, and has the controls that it must have, as
pairs of role and name. What is in a list or a view is computed from the sample file."""
import datetime
import re
import sys
import urllib.request

sys.dont_write_bytecode = True
import ground_file  # noqa: E402
import machine  # noqa: E402
from page_driver import UNTIL_ASKED  # noqa: E402

TABS = ("Check a file", "Deposit a file", "Deposits", "Look at a file")
VIEWS = ("Plan", "Log", "Against depth", "Tables")
CHOOSE = ("button", "An AGS4 file: choose it, or drop it here.")
EMBARGO = "First day without embargo (yyyy-mm-dd; empty: no embargo, readable at once where the policy permits)"
ZOOM = [("button", name) for name in ("Zoom in", "Zoom out", "Show all")]
PLAN_KEYS = "Plan. Plus and minus zoom, the arrow keys move it, 0 shows all."
DEPTH_KEYS = "Numbers against depth. Plus and minus zoom, the arrow keys move, 0 shows all, n and p go through points."
OF_LIST = ("Number", "Firm", "Project", "Name", "Issue", "Date", "Status", "Description", "Boreholes", "Free from")
OF_FINDINGS = ("Rule", "Title", "Line", "Subject", "Text")
# Of the deposits that fill the list: kind of issue, status and description, as firms write them.
KINDS = [("P", "Preliminary", "Field data of the first rig"), ("P", "Preliminary", "Field data of both rigs"),
         ("P", "Draft", "Field data, and water contents of 2024-06"), ("D", "Draft", "All laboratory results so far"),
         ("D", "For comment", "All of the main investigation, for comment until 2024-07-19"),
         ("D", "Draft", "Comments of the designer answered"), ("C", "Final", "The whole of the main investigation"),
         ("C", "Final", "Levels of four boreholes corrected")]
# Issue, date, status and description of each.
ISSUES = [(f"{kind}{number:02}", str(datetime.date(2024, 6, 1) + datetime.timedelta(days=7 * number)), status, text)
          for number, (kind, status, text) in enumerate(2 * KINDS, 2)]


def filled(page):
    """Deposits issues of the sample file at the demonstration, so that its list is no longer short; once."""
    if getattr(page, "is_filled", False):
        return
    page.is_filled = True
    for issue, date, status, text in ISSUES:
        data = ground_file.data()
        for heading, entry in (("TRAN_ISNO", issue), ("TRAN_DATE", date), ("TRAN_STAT", status), ("TRAN_DESC", text)):
            data = ground_file.with_entry(data, "TRAN", heading, lambda row, entry=entry: entry)
        sent(page, data)


def sent(page, data, token="sample-token-delta", embargo="2024-06-01"):
    """Deposits a file at the demonstration, beside the page."""
    request = urllib.request.Request(f"{page.demo.address}v1/projects/N1/deposits?embargo={embargo}", data,
                                     {"Authorization": f"Bearer {token}"})
    with urllib.request.urlopen(request) as answer:
        return answer.read()


# ---- controls

def of_page(tab):
    """What is above each tab, and the tab."""
    return [("link", "Skip to the content"), ("textbox", "Project"), ("textbox", "Token"), ("button", "Use"),
            ("button", "Forget the token"), ("tablist", "What to do"), *(("tab", name) for name in TABS), ("main", ""),
            ("tabpanel", tab)]


def of_table(name, columns, actions=()):
    """A table that is sorted and filtered by its columns; columns of actions have a name alone."""
    return [("region", f"Rows: {name}"), ("table", name), *(("columnheader", each) for each in (*columns, *actions)),
            *(("button", column) for column in columns), *(("textbox", f"Filter {column}") for column in columns)]


def of_list(deposits):
    return [("button", "Show the deposits"), ("searchbox", "Find"), ("textbox", "Groups of an extract"),
            *of_table("Deposits", OF_LIST, ("Deposit", "Withdraw")),
            *(("button", f"{verb} {number}") for number in range(1, deposits + 1) for verb in ("Show", "Withdraw"))]


def of_view(title, view, data):
    """What is around a view, and in it."""
    boreholes = [row["LOCA_ID"] for row in ground_file.rows_of(data, "LOCA")]
    around = [("combobox", "Borehole"), ("button", "Save the file"), ("tablist", f"Views of {title}"),
              *(("tab", name) for name in VIEWS), ("tabpanel", view)]
    within = {"Plan": of_plan, "Log": of_log, "Against depth": of_depth, "Tables": of_tables}[view]
    return around + within(data, boreholes)


def of_plan(data, boreholes):
    return [*ZOOM, ("group", PLAN_KEYS), ("image", f"Plan of {len(boreholes)} boreholes"),
            ("region", "The borehole that is chosen")]


def of_log(data, boreholes):
    """BH01 is on two sheets of ten metres, since it is 19.40 m deep."""
    return [("combobox", "Beside it"), ("combobox", "A sheet has"), ("button", "Print"), ("region", "Log"),
            ("image", "Log of BH01, 0 to 10 m"), ("image", "Log of BH01, 10 to 20 m"), ("group", "The strata as text"),
            ("DisclosureTriangle", "The strata as text")]


def of_depth(data, boreholes):
    tests = ground_file.rows_of(data, "ISPT")
    headings = ["CORE_PREC", "CORE_SREC", "CORE_RQD", "ISPT_SEAT", "ISPT_MAIN", "ISPT_NPEN", "ISPT_NVAL", "LNMC_MC"]
    return [*ZOOM, ("group", "Headings"), ("group", "Shown (borehole)"), ("group", DEPTH_KEYS), ("combobox", "Against"),
            ("combobox", "Colours by"), ("image", f"ISPT_NVAL against depth, {len(tests)} points"),
            *(("checkbox", name) for name in (*headings, *sorted({row["LOCA_ID"] for row in tests})))]


def of_tables(data, boreholes, group="PROJ"):
    rows = ground_file.rows_of(data, group)
    return [("combobox", "Group"), ("checkbox", "descriptions beside codes"), ("button", "Save as CSV"),
            *of_table(group, list(rows[0])), *(("button", next(iter(row.values()))) for row in rows)]


# ---- states: each gives its name and its controls, once it is shown

def used(page, token="sample-token-delta"):
    """Goes to the demonstration, as one of its callers."""
    page.browser.go(page.demo.address)
    page.enter(token)


def states(page):
    page.browser.size(1280, 1000)
    filled(page)
    for part in (of_start, of_findings, of_question, of_deposits, of_looks):
        yield from part(page)
    page.browser.go(page.url)


def of_start(page):
    page.browser.go(page.demo.address)
    page.browser.click("#forget")
    yield "start", of_page("Check a file") + [CHOOSE]
    page.browser.click("#tab-deposit")
    yield "deposit", of_page("Deposit a file") + [CHOOSE, ("textbox", EMBARGO), ("button", "Check and deposit")]
    page.browser.click("#tab-deposits")
    yield "deposits, not yet shown", of_page("Deposits") + [("button", "Show the deposits")]
    page.browser.click("#tab-look")
    yield "look", of_page("Look at a file") + [CHOOSE]


def without_borehole(data):
    """The file with samples of a borehole that it does not have: their rows of LNMC lack their sample too."""
    return ground_file.with_entry(data, "SAMP", "LOCA_ID", lambda row:
                                  "BH99" if row["LOCA_ID"] == "BH05" else row["LOCA_ID"])


def of_findings(page):
    """By rule where there is no service, and by cause where there is one."""
    b, data = page.browser, ground_file.data()
    of_all = [CHOOSE, ("button", "Save as CSV"), *of_table("all findings", OF_FINDINGS)]
    b.go(page.url)
    page.enter("t-delta")
    b.choose("#check-file", page.file("lines.ags", machine.FILE_A.replace(b"\r\n", b"\n")))
    b.wait("#check-result .findings")
    yield "findings by rule", of_page("Check a file") + of_all
    used(page)
    b.choose("#check-file", page.file("no_parent.ags", without_borehole(data)))
    b.wait("#check-result .causes", lambda text: "Fix in this order" in text)
    rows = [row for row in ground_file.rows_of(data, "LNMC") if row["LOCA_ID"] == "BH05"]
    causes = range(1, 2 + len(rows))
    yield "findings by cause", of_page("Check a file") + of_all + [
        ("button", "Fix what can be fixed"), *(("region", f"Rows to write for cause {number}") for number in causes),
        *(("button", f"Copy 1 row of cause {number}") for number in causes)]


def of_question(page):
    """What is asked before a deposit; nothing else is a control then."""
    b = page.browser
    used(page)
    b.click("#tab-deposit")
    b.choose("#deposit-file", page.file("other.ags", ground_file.with_entry(
        ground_file.data(), "PROJ", "PROJ_ID", lambda row: "2024-05/G13")))
    b.click("#deposit-send")
    page.check("another project is asked about", "asked", b.run(UNTIL_ASKED))
    yield "question", [("dialog", "Deposit other.ags into project N1?"), ("button", "Deposit it"),
                       ("button", "Do not deposit it")]
    b.click("#question-no")


def of_deposits(page):
    """The list, and each view of an extract below it."""
    b, data = page.browser, ground_file.data()
    deposits = 1 + len(ISSUES)
    used(page)
    shown_list(page, deposits)
    yield "list of deposits", of_page("Deposits") + of_list(deposits)
    b.run("document.querySelector('#deposits-result .rows').scrollTop = 0;")
    b.click("[data-extract='1']")
    b.wait("#extract-result .title")
    title = "Extract of deposit 1"
    for view in VIEWS:
        page.view(view, "#extract-result")
        offer = [("button", "Save all groups as XLSX")] if view == "Tables" else []
        yield f"extract, {view}", of_page("Deposits") + of_list(deposits) + of_view(title, view, data) + offer
    page.choose("#extract-result [data-choice='group']", "LNMC ")
    # So few rows are all drawn: of a longer table the focus makes more, and comes to them.
    b.type("#extract-result [data-filter='LOCA_ID']", "bh01")
    b.click("#extract-result .rows tbody:not(.space) button")
    yield "a row and what it belongs to", None


def shown_list(page, deposits):
    """Shows the list, and waits until it says what each deposit is."""
    b = page.browser
    b.click("#tab-deposits")
    b.click("#list")
    b.wait("#deposits-result .caption", lambda text: text == f"{deposits} deposits")
    b.wait("#deposits-result .rows tbody:not(.space)", lambda text: ".." not in text)


def of_looks(page):
    data = ground_file.data()
    page.look("boreholes.ags", data)
    for view in VIEWS:
        page.view(view)
        yield f"look, {view}", of_page("Look at a file") + [CHOOSE] + of_view("boreholes.ags", view, data)


# ---- what the browser has

def controls(page):
    """Role and name of each control: what the browser's own accessibility tree has of focusable elements, and of those
    that hold them together."""
    roles = {"tablist", "tabpanel", "region", "group", "image", "dialog", "table", "columnheader"}
    found = []
    for node in page.browser.command("Accessibility.getFullAXTree")["nodes"]:
        role = node.get("role", {}).get("value", "")
        is_focusable = any(each["name"] == "focusable" and each["value"].get("value") for each in
                           node.get("properties", []))
        if not node.get("ignored") and role not in ("RootWebArea", "option", "MenuListPopup") and (is_focusable
                                                                                                   or role in roles):
            found.append((role, re.sub(r"\s+", " ", node.get("name", {}).get("value", "")).strip()))
    return sorted(found)
