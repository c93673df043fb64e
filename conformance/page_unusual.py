"""What the page asks before a deposit: what is unusual of a file beside the other deposits of its project. It asks, and
never refuses."""
import re
import sys

sys.dont_write_bytecode = True
import ground_file  # noqa: E402
from page_driver import UNTIL_ASKED  # noqa: E402

# The question, and its details.
ASKED = """
return [document.getElementById('question-text').textContent,
  [...document.querySelectorAll('#question-list li')].map((each) => each.textContent)];"""
# How many deposits the listing has, asked for beside what is shown.
LISTED = """
const token = sessionStorage.getItem('token');
return fetch('/v1/projects/N1/deposits', { headers: { Authorization: `Bearer ${token}` } })
  .then((reply) => reply.json()).then((told) => told.deposits.length);"""
# The listing is denied from now on.
DENIED = """
return import('/register.js').then(({ Register }) => {
  Register.prototype.deposits = async () => ({ status: 403, told: { denied: 0 } });
});"""
OTHER_PROJECT = "PROJ_ID is G13. In the other deposits it is G12."
OTHER_EDITION = "TRAN_AGS is 4.0.4. In the other deposits it is 4.1."
MOVED = "At another place or level in another deposit: "
AGAIN = "In another deposit already: "


def changed(group, heading, entry, only=None):
    """A change of a file: another entry under a heading, of each row or of one borehole's."""
    return lambda data: ground_file.with_entry(
        data, group, heading, lambda row: entry if only in (None, row.get("LOCA_ID")) else row[heading])


PROJECT, EDITION = changed("PROJ", "PROJ_ID", "G13"), changed("TRAN", "TRAN_AGS", "4.0.4")


def renamed(data):
    """The file with other boreholes: A-BH01, A-TP03 and so on."""
    return re.sub(rb'"((?:BH|TP)\d\d)', rb'"A-\1', data)


def several(data, *left_out):
    """The names of the file's boreholes but these, as a sentence has them: eight, and how many more."""
    names = [row["LOCA_ID"] for row in ground_file.rows_of(data, "LOCA") if row["LOCA_ID"] not in left_out]
    return f"{', '.join(names[:8])} and {len(names) - 8} more"


def asked_of(page, name, data):
    """Chooses a file and sends it: what is asked, or nothing where nothing is."""
    b = page.browser
    b.choose("#deposit-file", page.file(name, data))
    page.check(f"{name}: its name beside the project", f"{name}, into project N1", b.text("#deposit-into"))
    b.click("#deposit-send")
    if b.run(UNTIL_ASKED) != "asked":
        return []
    question, said = b.run(ASKED)
    page.check(f"{name}: the question", f"Deposit {name} into project N1?", question)
    return said


def is_deposited(page, name, number):
    """Yes, or no question, deposits the file."""
    if page.browser.run("return document.getElementById('question').open;"):
        page.browser.click("#question-yes")
    page.check(f"{name} is deposited", f"receipt {number}", page.browser.wait("#deposit-result .receipt-text")[:9])


def begin(page, token):
    page.enter(f"sample-token-{token}")
    page.browser.click("#tab-deposit")


def of_one(page, data):
    """Beside one deposit: the same boreholes again, another PROJ_ID or TRAN_AGS, a borehole at another place or level.
    No deposits nothing."""
    b = page.browser
    begin(page, "delta")
    again, but = f"{AGAIN}{several(data)} (deposit 1).", f"{AGAIN}{several(data, 'BH02')} (deposit 1)."
    moved = f"{MOVED}BH02 (deposit 1)."
    for name, change, want in (
            ("again.ags", changed("TRAN", "TRAN_ISNO", "2"), [again]),
            ("project.ags", PROJECT, [OTHER_PROJECT, again]), ("edition.ags", EDITION, [OTHER_EDITION, again]),
            ("east.ags", changed("LOCA", "LOCA_NATE", "351299.00", "BH02"), [moved, but]),
            ("north.ags", changed("LOCA", "LOCA_NATN", "400399.00", "BH02"), [moved, but]),
            ("level.ags", changed("LOCA", "LOCA_GL", "3.00", "BH02"), [moved, but])):
        page.check(f"{name}: what is asked", want, asked_of(page, name, change(data)))
        page.check(f"{name}: the answer is no at first", "question-no", b.run("return document.activeElement.id;"))
        if name == "level.ags":
            b.press("escape")
        else:
            b.click("#question-no")
        page.check(f"{name}: no deposits nothing", ["Nothing was deposited.", "", 1],
                   [b.wait("#status", lambda text: text.startswith("Nothing")), b.text("#deposit-result"),
                    b.run(LISTED)])


def of_several(page, data):
    """Beside several deposits each is named in which a borehole is. Yes deposits the file, whatever is asked."""
    first = renamed(data)
    page.check("other boreholes: nothing is asked", [], asked_of(page, "first.ags", first))
    is_deposited(page, "first.ags", 2)
    lower, but = changed("LOCA", "LOCA_GL", "3.00", "A-BH02"), several(first, "A-BH02")
    page.check("all at once", [OTHER_PROJECT, OTHER_EDITION, f"{MOVED}A-BH02 (deposit 2).",
                               f"{AGAIN}{but} (deposit 2)."],
               asked_of(page, "all.ags", PROJECT(EDITION(lower(first)))))
    is_deposited(page, "all.ags", 3)
    lowest = changed("LOCA", "LOCA_GL", "4.00", "A-BH02")
    page.check("two projects and two editions are known", [f"{MOVED}A-BH02 (deposits 3, 2).",
                                                           f"{AGAIN}{but} (deposits 3, 2)."],
               asked_of(page, "third.ags", PROJECT(EDITION(lowest(first)))))
    is_deposited(page, "third.ags", 4)
    mixed = first.replace(b'"A-BH01', b'"BH01')
    page.check("boreholes of different deposits",
               [f"{MOVED}A-BH02 (deposits 4, 3).", f"{AGAIN}BH01 (deposit 1); A-BH02 (deposit 2); "
                f"{several(mixed, 'BH01', 'A-BH02')} (deposits 4, 3, 2)."], asked_of(page, "mixed.ags", mixed))
    page.browser.click("#question-no")


def of_others(page, data):
    """What a caller does not see is not hinted at: Foxtrot deposits Delta's boreholes, and is asked nothing. The file's
    name stays beside the project when the caller changes. A caller who is denied the listing is asked nothing."""
    begin(page, "foxtrot")
    page.check("nothing of other firms", [], asked_of(page, "foxtrot.ags", PROJECT(data)))
    is_deposited(page, "foxtrot.ags", 5)
    page.enter("sample-token-foxtrot", "N2")
    page.check("another project", "foxtrot.ags, into project N2", page.browser.text("#deposit-into"))
    page.browser.click("#forget")
    page.check("no project", "foxtrot.ags, into project (none yet)", page.browser.text("#deposit-into"))
    begin(page, "delta")
    page.browser.run(DENIED)
    page.check("without a listing", [], asked_of(page, "denied.ags", PROJECT(data)))
    is_deposited(page, "denied.ags", 6)


def of_unusual(page):
    """At a demonstration of its own, which has one deposit at first."""
    data, other = ground_file.data(), page.demonstration("unusual")
    try:
        page.browser.go(other.address)
        for part in (of_one, of_several, of_others):
            part(page, data)
    finally:
        page.browser.go(page.url)
        other.end()


STEPS = (of_unusual,)
