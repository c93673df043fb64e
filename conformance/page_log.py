"""The log that the page draws of the sample file, on the screen and as PDF, and numbers against depth."""
import datetime
import math
import re
import subprocess
import sys

sys.dont_write_bytecode = True
import ground_file  # noqa: E402
from page_plan import TEXTS, TICKS, line_through  # noqa: E402

NEAR = 0.6
# The height of a sheet in its own units, and what of it is above the axis and below.
HEIGHT, HEAD, FOOT = 900, 30, 6
# Of each borehole of each sheet what is drawn: boxes of strata, and texts and lines with their places.
SHEETS = """
return [...document.querySelectorAll('#look-result .sheet')].map((sheet) => {
  const number = (each, name) => Number(each.getAttribute(name));
  const at = (each) => ({ text: each.textContent, x: number(each, 'x'), y: number(each, 'y') });
  const drawn = (part, name) => [...part.querySelectorAll(name)].map((path) => path.getAttribute('d'));
  const ticks = [...sheet.querySelectorAll('.depths .tick')].map((tick) =>
    [Number(tick.textContent.replace('\\u2212', '-')), Number(tick.getAttribute('transform').match(/[-.\\d]+/g)[1])]);
  return { ticks, boreholes: [...sheet.querySelectorAll('.borehole')].map((part) => ({
    name: part.dataset.borehole,
    strata: [...part.querySelectorAll('.stratum')].map((box) => [number(box, 'y'), number(box, 'height')]),
    patterns: [...part.querySelectorAll('.pattern')].map((box) => box.getAttribute('fill')),
    texts: Object.fromEntries(['description', 'base', 'sample', 'test', 'water', 'core'].map((name) =>
      [name, [...part.querySelectorAll('text.' + name)].map(at)])),
    leads: drawn(part, '.lead').map((path) => Number(path.match(/[-.\\d]+/g)[1])),
    strikes: drawn(part, '.strike').map((path) => Number(path.match(/,([-.\\d]+)Z/)[1])),
  })) };
});"""


def shown_log(page, borehole, beside="none"):
    page.choose("#look-result [data-choice='borehole']", borehole)
    page.choose("#look-result [data-choice='beside']", beside)
    return page.browser.run(SHEETS)


def numbers(rows, *headings):
    return [[float(row[heading]) for heading in headings] for row in rows]


LABELS = {"sample": ("SAMP", lambda row: row["SAMP_TYPE"] + row["SAMP_REF"]),
          "test": ("ISPT", lambda row: "N=" + row["ISPT_NVAL"]), "water": ("WSTG", lambda row: row["WSTG_DPTH"]),
          "core": ("CORE", lambda row: "/".join(row[f"CORE_{each}"] for each in ("PREC", "SREC", "RQD")))}


class Log:
    """The log of a borehole as it is drawn, and its rows of the file."""

    def __init__(self, page, name):
        sheets, data = shown_log(page, name), ground_file.data()
        self.rows = {group: ground_file.rows_of(data, group, name) for group in
                     ("LOCA", "GEOL", "SAMP", "ISPT", "WSTG", "CORE")}
        self.parts = [sheet["boreholes"][0] for sheet in sheets]
        self.scales = [line_through(sheet["ticks"]) for sheet in sheets]
        self.length = round((HEIGHT - HEAD - FOOT) / self.scales[0][0], 3)

    def all(self, name):
        return [each for part in self.parts for each in part[name]]

    def texts(self, name):
        return [each["text"] for part in self.parts for each in part["texts"][name]]

    def depths(self, name):
        """The depths of what is drawn, by the axis of its sheet."""
        return sorted((at - begin) / slope for part, (slope, begin, _) in zip(self.parts, self.scales)
                      for at in part[name])

    def boxes(self):
        """Where the strata have to be on the sheets: top and height of each part of one."""
        for at, (slope, begin, _) in enumerate(self.scales):
            for top, base in numbers(self.rows["GEOL"], "GEOL_TOP", "GEOL_BASE"):
                top, base = max(top, at * self.length), min(base, (at + 1) * self.length)
                if base > top:
                    yield slope * top + begin, slope * (base - top)


def of_log(page):
    """Strata, samples, SPT, water strikes and core runs of a borehole are at their depths, with their texts."""
    page.browser.size(1280, 1000)
    page.look("boreholes.ags", ground_file.data())
    page.view("Log")
    for name in ("BH01", "BH02", "TP03"):
        log = Log(page, name)
        loca, want = log.rows["LOCA"][0], list(log.boxes())
        page.check(f"{name}: so many sheets that the borehole is on them",
                   math.ceil(float(loca["LOCA_FDEP"]) / log.length), len(log.parts))
        off = [max(abs(y - top), abs(height - size)) for (y, height), (top, size) in zip(log.all("strata"), want)]
        page.check(f"{name}: the strata are at their depths", [len(want), True],
                   [len(log.all("strata")), max(off) < NEAR])
        page.check(f"{name}: each has a pattern", True, len(log.all("patterns")) >= len(want))
        said = " ".join(log.texts("description")).replace("(from above) ", "")
        page.check(f"{name}: the descriptions", [], [row for row in log.rows["GEOL"] if row["GEOL_DESC"] not in said])
        level = float(loca["LOCA_GL"])
        page.check(f"{name}: the bases with their levels",
                   [f"{base:.2f} m ({level - base:.2f})" for (base,) in numbers(log.rows["GEOL"], "GEOL_BASE")],
                   log.texts("base"))
        for kind, (group, label) in LABELS.items():
            page.check(f"{name}: {group}", [label(row) for row in log.rows[group]], log.texts(kind))
        tops = sorted(top for group in ("SAMP", "ISPT", "CORE") for (top,) in numbers(log.rows[group], f"{group}_TOP"))
        page.check(f"{name}: they are led to their depths", [round(top, 1) for top in tops],
                   [round(at, 1) for at in log.depths("leads")])
        page.check(f"{name}: water strikes", [round(each, 1) for (each,) in numbers(log.rows["WSTG"], "WSTG_DPTH")],
                   [round(at, 1) for at in log.depths("strikes")])


def of_pair(page):
    """Two boreholes are side by side at level: the axis has levels, and each stratum is at its level."""
    data = ground_file.data()
    sheets = shown_log(page, "BH01", "BH10")
    good = []
    for at, name in enumerate(("BH01", "BH10")):
        level = float(ground_file.rows_of(data, "LOCA", name)[0]["LOCA_GL"])
        tops = [level - top for (top,) in numbers(ground_file.rows_of(data, "GEOL", name), "GEOL_TOP")]
        slope, begin, _ = line_through(sheets[0]["ticks"])
        boxes = sheets[0]["boreholes"][at]["strata"]
        good.append(all(abs(slope * top + begin - box[0]) < NEAR for top, box in zip(tops, boxes)))
    page.check("two boreholes at level", [["BH01", "BH10"], [True, True]],
               [[part["name"] for part in sheets[0]["boreholes"]], good])
    of_unlevelled(page, data)


def of_unlevelled(page, data):
    """Where a level is not known, two boreholes begin at the depth of 0."""
    page.look("unlevelled.ags", ground_file.with_entry(data, "LOCA", "LOCA_GL", lambda row:
                                                       "" if row["LOCA_ID"] == "BH10" else row["LOCA_GL"]))
    page.view("Log")
    sheet = shown_log(page, "BH01", "BH10")[0]
    slope, begin, _ = line_through(sheet["ticks"])
    tops = [[float(row["GEOL_TOP"]) for row in ground_file.rows_of(data, "GEOL", name)] for name in ("BH01", "BH10")]
    off = [abs(slope * top + begin - y) for part, each in zip(sheet["boreholes"], tops)
           for top, (y, _) in zip(each, part["strata"])]
    page.check("without a level: by depth", [True, True, 0], [slope > 0, max(off) < NEAR, min(sheet["ticks"])[0]])
    page.look("boreholes.ags", data)
    page.view("Log")


def text_of(pdf):
    run = subprocess.run(["pdftotext", "-layout", "-", "-"], input=pdf, capture_output=True, check=True)
    return run.stdout.decode().split("\f")[:-1]


def check_foot(page, name, pages, source):
    """Each page names the borehole, and in its foot project, source, day, the register and its number."""
    day = datetime.datetime.now(datetime.timezone.utc).strftime("%Y-%m-%d")
    for number, text in enumerate(pages, 1):
        flat = re.sub(r"\s+", " ", text)
        want = (name, "G12 Harbour link road", source, day, "Ground investigation register",
                f"Sheet {number} of {len(pages)}")
        page.check(f"{source}: page {number}", [[], False],
                   [[part for part in want if part not in flat],
                    any(word in flat for word in ("Choose File", "Token", "Withdraw"))])


def of_print(page):
    """A log prints on A4: as many pages as it has sheets, each with its foot, and nothing else of the page."""
    b = page.browser
    for name, beside, length in (("BH01", "none", "as it fits"), ("BH01", "none", "5 m"), ("TP03", "BH10", "20 m")):
        page.choose("#look-result [data-choice='length']", length)
        sheets = shown_log(page, name, beside)
        pdf = b.pdf()
        pages = text_of(pdf)
        page.check(f"{name}, {length}: pages", len(sheets), len(pages))
        said = subprocess.run(["pdfinfo", "-"], input=pdf, capture_output=True, check=True).stdout.decode()
        page.check(f"{name}, {length}: the paper", True, bool(re.search(r"Page size: .*\(A4\)", said)))
        check_foot(page, name, pages, "file boreholes.ags, not a deposit")
    page.choose("#look-result [data-choice='length']", "as it fits")


def of_print_of_extract(page):
    """The log of an extract names the project of the register and the deposit in its foot."""
    b = page.browser
    b.go(page.demo.address)
    page.enter("sample-token-delta")
    b.click("#tab-deposits")
    b.click("#list")
    b.wait("#deposits-result .caption")
    b.click("[data-extract='1']")
    b.wait("#extract-result .title")
    page.view("Log", "#extract-result")
    check_foot(page, "BH01", text_of(b.pdf()), "project N1, deposit 1 of Delta")
    b.go(page.url)


LACK = "strata: GEOL with GEOL_TOP, GEOL_BASE, GEOL_LEG and GEOL_DESC"


def of_lacks(page):
    """Without GEOL the log says what it would need, by heading, and shows the rest."""
    b, data = page.browser, ground_file.data()
    page.look("bare.ags", data.replace(b'"GROUP","GEOL"', b'"GROUP","GEOX"'))
    page.view("Log")
    page.check("no strata", [True, 0, True],
               [LACK in b.text("#look-result [role=tabpanel] .hint"),
                b.run("return document.querySelectorAll('#look-result .stratum').length;"),
                b.run("return document.querySelectorAll('#look-result text.test').length > 0;")])


# ---- against depth

PANELS = """
return [...document.querySelectorAll('#look-result .panel')].map((panel) => {
  const svg = panel.querySelector('svg').getBoundingClientRect();
  return { name: panel.dataset.panel, head: panel.querySelector('.head').textContent, left: svg.left, top: svg.top,
    label: panel.querySelector('svg').getAttribute('aria-label') };
});"""
INKED = """
const panel = document.querySelector(`#look-result [data-panel="${arguments[0]}"]`);
const canvas = panel.querySelector('canvas');
const ratio = canvas.width / canvas.getBoundingClientRect().width;
const pen = canvas.getContext('2d');
return arguments[1].map(([x, y]) => [...pen.getImageData(x * ratio, y * ratio, 1, 1).data]);"""
# The colour of each name of the legend, as a pixel has it.
COLOURS = """
const pen = document.createElement('canvas').getContext('2d');
return Object.fromEntries([...document.querySelectorAll('#look-result fieldset.legend label')].map((label) => {
  pen.fillStyle = label.querySelector('path').getAttribute('fill');
  pen.fillRect(0, 0, 1, 1);
  return [label.textContent, [...pen.getImageData(0, 0, 1, 1).data]];
}));"""


def panel_scales(page, heading):
    b = page.browser
    place = f"#look-result [data-panel='{heading}']"
    return line_through(b.run(TICKS, f"{place} .values", 0)), line_through(b.run(TICKS, f"{place} .down", 1))


def point_at(page, heading, x, y):
    """What is said of the point at this place of a panel."""
    page.browser.run("document.querySelector('#look-result .panels').scrollIntoView({ block: 'center' });")
    panel = next(each for each in page.browser.run(PANELS) if each["name"] == heading)
    page.browser.command("Input.dispatchMouseEvent", type="mouseMoved", x=panel["left"] + x, y=panel["top"] + y)
    return page.browser.text("#look-result .readout")


def places_of(page, heading, points):
    """Where the points of a heading, `(borehole, depth or level, entry)`, have to be, by the axes of its panel."""
    across, down = panel_scales(page, heading)
    return [[across[0] * float(entry) + across[1], down[0] * depth + down[1]] for _, depth, entry in points]


def is_lone(place, places):
    """Whether no other point is beside this one."""
    return sum(abs(place[0] - x) + abs(place[1] - y) < 14 for x, y in places) == 1


def check_points(page, heading, points, key):
    """Each point of a heading is drawn at its place."""
    places = places_of(page, heading, points)
    inked = [alpha > 0 for _, _, _, alpha in page.browser.run(INKED, heading, places)]
    page.check(f"{heading}: {len(points)} points by {key}", [True, f"{heading} against {key}, {len(points)} points"],
               [all(inked), next(each for each in page.browser.run(PANELS) if each["name"] == heading)["label"]])
    return places


def tests_of(data, group="ISPT"):
    """Borehole, depth and N value of each test."""
    return [(row["LOCA_ID"], float(row[f"{group}_TOP"]), row[f"{group}_NVAL"])
            for row in ground_file.rows_of(data, group)]


def of_depth(page):
    """Numbers are drawn against depth and level, several headings side by side on one axis, with units and values."""
    b, data = page.browser, ground_file.data()
    b.size(1280, 1000)
    page.look("boreholes.ags", data)
    page.view("Against depth")
    points = tests_of(data)
    places = check_points(page, "ISPT_NVAL", points, "depth")
    lone = next(at for at, place in enumerate(places) if is_lone(place, places))
    name, depth, entry = points[lone]
    page.check("a value", f"{name}, depth {depth:g} m: ISPT_NVAL {entry}", point_at(page, "ISPT_NVAL", *places[lone]))
    b.click("#look-result [data-heading='LNMC_MC']")
    moist = [(row["LOCA_ID"], float(row["SPEC_DPTH"]), row["LNMC_MC"]) for row in ground_file.rows_of(data, "LNMC")]
    check_points(page, "LNMC_MC", moist, "depth")
    panels = b.run(PANELS)
    page.check("side by side", [["ISPT_NVAL", "LNMC_MC"], True, "LNMC_MC (%), by depth (m)"],
               [[each["name"] for each in panels], panels[0]["left"] < panels[1]["left"], panels[1]["head"]])
    page.check("one axis of depth", panel_scales(page, "ISPT_NVAL")[1], panel_scales(page, "LNMC_MC")[1])
    page.choose("#look-result [data-choice='down']", "level")
    levels = {row["LOCA_ID"]: float(row["LOCA_GL"]) for row in ground_file.rows_of(data, "LOCA")}
    check_points(page, "ISPT_NVAL", [(name, levels[name] - depth, entry) for name, depth, entry in points], "level")
    page.choose("#look-result [data-choice='down']", "depth")


def of_colours(page):
    """Each point has the colour that the legend gives to its borehole or group, and none where that is not shown."""
    b, data = page.browser, ground_file.data()
    points = tests_of(data)
    places = places_of(page, "ISPT_NVAL", points)
    lone = [at for at, place in enumerate(places) if is_lone(place, places)]
    boreholes = sorted(row["LOCA_ID"] for row in ground_file.rows_of(data, "LOCA"))
    for by, name_of, names in (("group", lambda at: "ISPT", ["ISPT", "LNMC"]),
                               ("borehole", lambda at: points[at][0], boreholes)):
        page.choose("#look-result [data-choice='by']", by)
        page.check(f"names by {by}", names, b.run(TEXTS, "#look-result fieldset.legend label"))
        colours = b.run(COLOURS)
        page.check(f"colours by {by}", [len(names), [colours[name_of(at)] for at in lone]],
                   [len({tuple(colour) for colour in colours.values()}),
                    b.run(INKED, "ISPT_NVAL", [places[at] for at in lone])])
    b.click("#look-result [data-shown='BH01']")
    hidden = [places[at] for at in lone if points[at][0] == "BH01"]
    page.check("a borehole that is not to be shown", [True, False],
               [bool(hidden), any(alpha for _, _, _, alpha in b.run(INKED, "ISPT_NVAL", hidden))])


def of_unknown_group(page):
    """A group that the page does not know is plotted, if it has a heading of depth."""
    data = ground_file.data().replace(b"ISPT", b"ZZQT")
    page.look("unknown.ags", data)
    page.view("Against depth")
    page.browser.click("#look-result [data-heading='ZZQT_NVAL']")
    check_points(page, "ZZQT_NVAL", tests_of(data, "ZZQT"), "depth")


def of_depth_keys(page):
    """Keys zoom the depth, move it, and go through the points with their values."""
    b = page.browser
    page.view("Against depth")
    first = panel_scales(page, "ISPT_NVAL")[1]
    b.run("document.querySelector('#look-result .panels').focus();")
    for key, want in (("+", 1.5), ("-", 1.0)):
        b.press(key)
        page.check(f"{key} zooms", want, round(panel_scales(page, "ISPT_NVAL")[1][0] / first[0], 2))
    b.press("+", "down")
    page.check("down moves", True, panel_scales(page, "ISPT_NVAL")[1][1] < first[1])
    b.press("0", "n")
    told = b.text("#look-result .readout")
    least = min(ground_file.rows_of(ground_file.data(), "ISPT"), key=lambda row: float(row["ISPT_TOP"]))
    page.check("n shows the uppermost point", True, f"depth {float(least['ISPT_TOP']):g} m: ISPT_NVAL" in told)
    b.press("n", "p")
    page.check("p goes back", told, b.text("#look-result .readout"))


def many_points(number):
    """A file with so many points of two headings, as cone tests give them."""
    rows = "".join(f'"DATA","C{at % 50}","{at // 50 / 100:.2f}","{math.sin(at / 900) * 9 + 12:.3f}",'
                   f'"{at % 977 / 977:.3f}"\r\n' for at in range(number))
    loca = "".join(f'"DATA","C{at}","{at}.00"\r\n' for at in range(50))
    return ('"GROUP","LOCA"\r\n"HEADING","LOCA_ID","LOCA_GL"\r\n"UNIT","","m"\r\n"TYPE","ID","2DP"\r\n' + loca
            + '\r\n"GROUP","SCPT"\r\n"HEADING","LOCA_ID","SCPT_DPTH","SCPT_RES","SCPT_FRES"\r\n'
              '"UNIT","","m","MPa","MPa"\r\n"TYPE","ID","2DP","3DP","3DP"\r\n' + rows).encode()


def of_many_points(page):
    """50,000 points are drawn anew as fast as they are moved."""
    b = page.browser
    page.look("many.ags", many_points(50000))
    page.view("Against depth")
    page.check("50,000 points", "SCPT_RES against depth, 50000 points", b.run(PANELS)[0]["label"])
    b.click("#look-result [data-heading='SCPT_FRES']")
    page.check("cone resistance and friction side by side", ["SCPT_RES (MPa), by depth (m)",
                                                            "SCPT_FRES (MPa), by depth (m)"],
               [each["head"] for each in b.run(PANELS)])
    b.click("#look-result [data-heading='SCPT_FRES']")
    taken = b.seconds_of(lambda: b.run("""
for (const key of '+-+-+-+-') {
  document.querySelector('#look-result .panels').dispatchEvent(new KeyboardEvent('keydown', { key, bubbles: true }));
}""")) / 8
    page.check("a drawing takes less than 0.2 seconds", True, taken < 0.2)
    print(f"50,000 points are drawn in {taken:.3f} s", flush=True)


STEPS = (of_log, of_pair, of_print, of_print_of_extract, of_lacks, of_depth, of_colours, of_depth_keys,
         of_unknown_group, of_many_points)
