"""The tables that the page shows of the sample file, what it saves of them, and what a reader sees who may see half."""
import csv
import json
import sys

sys.dont_write_bytecode = True
import ground_file  # noqa: E402
import machine  # noqa: E402
from page_plan import MARKS, TEXTS  # noqa: E402

LINEAGE = """
return [...document.querySelectorAll('#look-result .whole')].map((part) => [part.querySelector('h4').textContent,
  Object.fromEntries([...part.querySelectorAll('tbody tr')].map((row) =>
    [row.cells[0].textContent, row.cells[1].textContent]))]);"""
# The last row that is drawn.
LAST = "#look-result .rows tbody:not(.space) tr:last-child"
CAPTION = "#look-result .caption"
MANY = 20000


def group(page, name, place="#look-result"):
    page.choose(f"{place} [data-choice='group']", f"{name} ")


def of_tables(page):
    """All rows can be scrolled to, sorted and filtered; a row is shown with the rows that it belongs to."""
    b, data = page.browser, ground_file.data()
    page.look("boreholes.ags", data)
    page.view("Tables")
    for name in ground_file.groups_of(data):
        group(page, name)
        rows = [list(row.values()) for row in ground_file.rows_of(data, name)]
        shown = page.table("#look-result")
        page.check(f"the rows of {name}", rows[:len(shown)], shown)
        page.check(f"how many rows {name} has", f"{len(rows)} row{'s' if len(rows) > 1 else ''}", b.text(CAPTION))
    group(page, "ISPT")
    tests = ground_file.rows_of(data, "ISPT")
    for falls in (False, True):
        b.click("#look-result [data-key='ISPT_NVAL']")
        want = sorted((int(row["ISPT_NVAL"]) for row in tests), reverse=falls)
        shown = [int(row[5]) for row in page.table("#look-result")]
        page.check(f"sorted by number, falling {falls}", want[:len(shown)], shown)
    b.type("#look-result [data-filter='ISPT_NVAL']", ">= 20")
    b.type("#look-result [data-filter='LOCA_ID']", "bh0")
    want = [row for row in tests if int(row["ISPT_NVAL"]) >= 20 and row["LOCA_ID"].startswith("BH0")]
    page.check("filtered", f"{len(want)} rows of {len(tests)}", b.text(CAPTION))
    page.check("only those", {(row["LOCA_ID"], row["ISPT_NVAL"]) for row in want},
               {(row[0], row[5]) for row in page.table("#look-result")})
    group(page, "LNMC")
    b.click("#look-result .rows tbody:not(.space) button")
    row = ground_file.rows_of(data, "LNMC")[0]
    above = [ground_file.rows_of(data, "LNMC")[0],
             next(each for each in ground_file.rows_of(data, "SAMP") if each["SAMP_ID"] == row["SAMP_ID"]),
             ground_file.rows_of(data, "LOCA", row["LOCA_ID"])[0], ground_file.rows_of(data, "PROJ")[0]]
    titles = ["Row of LNMC", *(f"It belongs to this row of {name}" for name in ("SAMP", "LOCA", "PROJ"))]
    page.check("a row and what it belongs to", [list(each) for each in zip(titles, above)], b.run(LINEAGE))
    group(page, "LOCA")
    b.click("#look-result input[type='checkbox']")
    page.check("descriptions beside codes", "CP+RC Cable percussion + Rotary cored", page.table("#look-result")[0][1])


def of_long_tables(page):
    """The last of many rows is scrolled to, and few are drawn at a time."""
    b = page.browser
    rows = "".join(f'"DATA","BH{at}","{at}.00"\r\n' for at in range(MANY))
    head = '"GROUP","LOCA"\r\n"HEADING","LOCA_ID","LOCA_GL"\r\n"UNIT","","m"\r\n"TYPE","ID","2DP"\r\n'
    page.look("long.ags", (head + rows).encode())
    page.view("Tables")
    page.check("many rows", f"{MANY:,} rows", b.text(CAPTION))
    b.run("const rows = document.querySelector('#look-result .rows'); rows.scrollTop = rows.scrollHeight;")
    last = f"BH{MANY - 1}"
    b.wait(LAST, lambda text: last in text)
    shown = page.table("#look-result")
    page.check("the last row", [last, True], [shown[-1][0], len(shown) < 100])
    page.check("its number", str(MANY + 1),
               b.run("return document.querySelector(arguments[0]).getAttribute('aria-rowindex');", LAST))


def of_saving(page):
    """What is shown is saved as CSV, and LOCA as GeoJSON from latitude and longitude in WGS 84 alone."""
    b, data = page.browser, ground_file.data()
    page.look("boreholes.ags", data)
    page.view("Tables")
    for name, file in (("GEOL", "GEOL.csv"), ("LOCA", "LOCA-OSGB.csv")):
        group(page, name)
        b.click("#look-result [data-save='csv']")
        saved = list(csv.reader(page.downloaded(file).decode().splitlines()))
        page.check(f"{name} as CSV", [ground_file.groups_of(data)[name]["HEADING"],
                                      *(list(row.values()) for row in ground_file.rows_of(data, name))], saved)
    b.click("#look-result [data-save='geojson']")
    saved = json.loads(page.downloaded("LOCA.geojson"))
    loca = ground_file.rows_of(data, "LOCA")
    page.check("LOCA as GeoJSON",
               ["FeatureCollection", [([float(row["LOCA_LON"]), float(row["LOCA_LAT"])], row) for row in loca]],
               [saved["type"], [(each["geometry"]["coordinates"], each["properties"]) for each in saved["features"]]])
    for name, other in (("another datum", data.replace(b"WGS84", b"OSGB36")),
                        ("no latitude", data.replace(b"LOCA_LAT", b"LOCA_XAT"))):
        page.look("other.ags", other)
        page.view("Tables")
        group(page, "LOCA")
        page.check(name, [0, True], [len(b.run(TEXTS, "#look-result [data-save=geojson]")),
                                     "in the grid OSGB (LOCA_GREF)" in b.text("#look-result [role=tabpanel]")])
    degrees = ground_file.with_entry(data, "LOCA", "LOCA_LAT", lambda row: "-53:30:36.0")
    page.look("degrees.ags", degrees)
    page.view("Tables")
    group(page, "LOCA")
    b.click("#look-result [data-save='geojson']")
    saved = json.loads(page.downloaded("LOCA.geojson"))["features"]
    page.check("degrees, minutes and seconds", {-53.51},
               {round(each["geometry"]["coordinates"][1], 6) for each in saved})


HOSTILE = '"><img src=x onerror="document.title=1"><script>document.title=2</script>'
DRAWN = """
return ['Plan', 'Log', 'Against depth', 'Tables'].map((name) => {
  document.querySelector(`#look-result [data-view='${name}']`).click();
  return document.querySelectorAll('main img, main script, main foreignObject, main a').length;
});"""


def of_hostile_cells(page):
    """Cells that are HTML are text in each view."""
    b, data = page.browser, ground_file.data()
    for name, heading in (("LOCA", "LOCA_TYPE"), ("GEOL", "GEOL_DESC"), ("GEOL", "GEOL_LEG"), ("SAMP", "SAMP_REF"),
                          ("ISPT", "ISPT_NVAL"), ("PROJ", "PROJ_NAME")):
        data = ground_file.with_entry(data, name, heading, lambda row: HOSTILE)
    data = data.replace(b'"BH01"', b'"' + HOSTILE.replace('"', '""').encode() + b'"')
    page.look("hostile.ags", data)
    page.check("nothing of them is more than text", [[0, 0, 0, 0], "Ground investigation register", True],
               [b.run(DRAWN), b.run("return document.title;"), HOSTILE in b.run("return document.body.textContent;")])


def of_half(page):
    """A reader who may see half of the boreholes gets the same drawing as of a file that never had the others: no
    element, scale or count tells of them."""
    b, data = page.browser, ground_file.data()
    rules = machine.read_policy(machine_text("policy.toml"))
    register = machine.Register(machine.ags.read_dictionary(sample("ground/dictionary.ags"))[0])
    caller = machine.read_callers(machine_text("callers.toml"))
    register.deposit(rules, caller["sample-token-delta"], "N1", "2024-06-01", data, "2024-06-01")
    _, extract = register.extract(rules, caller["sample-token-echo"], "N1", 1, [], "2026-01-01")
    hidden = [row["LOCA_ID"] for row in ground_file.rows_of(data, "LOCA") if row["LOCA_STAT"] != "FINAL"]
    b.go(page.demo.address)
    b.size(1280, 1000)
    b.type("#project", "N1")
    b.type("#token", "sample-token-echo")
    b.click("#use")
    b.click("#tab-deposits")
    b.click("#list")
    b.wait("#deposits-result .rows tbody:not(.space) tr", lambda text: "Harbour link road" in text)
    page.check("the list counts what is seen", "6", page.table("#deposits-result")[0][9])
    b.click("[data-extract='1']")
    b.wait("#extract-result .title")
    page.check("the boreholes of the reader", 6, len(b.run(MARKS, "#extract-result")))
    seen = views_of(page, "#extract-result")
    page.check("no text names another", [], [name for name in hidden for text in seen.values() if name in text])
    page.look("extract.ags", extract)
    own = views_of(page, "#look-result")
    page.check("as of a file without the others", [], [name for name, text in own.items() if text != seen[name]])
    b.go(page.url)


def of_own_file(page):
    """A file of one's own is shown without a token, and nothing is sent."""
    b = page.browser
    b.click("#forget")
    b.run("performance.clearResourceTimings();")
    page.look("own.ags", ground_file.data())
    shown = views_of(page, "#look-result")
    page.check("all views without a token", [True, None],
               [all("BH01" in shown[name] for name in ("Plan", "Log", "Against depth")),
                b.run("return sessionStorage.getItem('token');")])
    page.check("nothing is sent", [], b.run("return performance.getEntriesByType('resource').map(({ name }) => name);"))


# The drawing of a view, without the numbers that count drawings, the foot, which says where it comes from, and the
# offer of a workbook, which a file that is only looked at does not have.
MARKUP = """
const panel = document.querySelector(arguments[0] + ' [role=tabpanel]').cloneNode(true);
for (const other of panel.querySelectorAll('.sheet-foot, [data-save=xlsx]')) other.remove();
return panel.innerHTML.replaceAll(/pattern-\\d+/g, 'pattern').replaceAll(/view-\\d+/g, 'view');"""


def views_of(page, place):
    shown = {}
    for name in ("Plan", "Log", "Against depth", "Tables"):
        page.view(name, place)
        shown[name] = page.browser.run(MARKUP, place)
    return shown


def sample(name):
    with open(f"{ground_file.here}/../samples/{name}", "rb") as file:
        return file.read()


def machine_text(name):
    return sample(f"office/{name}").decode()


STEPS = (of_tables, of_long_tables, of_saving, of_hostile_cells, of_own_file, of_half)
