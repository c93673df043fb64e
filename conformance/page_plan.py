"""The plan that the page draws of the sample file: each borehole at its coordinates, to scale."""
import re
import sys

sys.dont_write_bytecode = True
import ground_file  # noqa: E402

NEAR = 0.3
# Of each symbol its borehole, its place and its colour; of each tick of an axis its number and its place.
MARKS = """
return [...document.querySelectorAll(arguments[0] + ' .marks path')].map((path) => {
  const [x, y] = path.getAttribute('transform').match(/[-.\\d]+/g).map(Number);
  return [path.dataset.borehole, x, y, path.getAttribute('fill')];
});"""
TICKS = """
const number = (text) => Number(text.replace('\\u2212', '-'));
return [...document.querySelectorAll(arguments[0] + ' .tick')].map((tick) =>
  [number(tick.textContent), number(tick.getAttribute('transform').match(/[-.\\d]+/g)[arguments[1]])]);"""
LABELS = """
return [...document.querySelectorAll(arguments[0] + ' .labels text')].map((text) => {
  const { x, y, width, height } = text.getBBox();
  return [text.textContent, x, y, width, height];
});"""
BAR = """
const text = document.querySelector(arguments[0] + ' .bar text');
return [text.textContent, document.querySelector(arguments[0] + ' .bar path').getBBox().width];"""
TEXTS = "return [...document.querySelectorAll(arguments[0])].map((each) => each.textContent);"


def line_through(pairs):
    """Slope and beginning of the line that these pairs are on, by the two that are furthest apart; and how far the
    others are off it."""
    (a, at), (b, to) = min(pairs), max(pairs)
    slope = (to - at) / (b - a)
    return slope, at - slope * a, max(abs(at + slope * (value - a) - place) for value, place in pairs)


def scales(page, place="#look-result"):
    """Pixels to the metre to the east, and to the north, of the symbols; and whether all are on these scales."""
    rows = {row["LOCA_ID"]: row for row in ground_file.rows_of(ground_file.data(), "LOCA")}
    marks = page.browser.run(MARKS, place)
    east = line_through([(float(rows[name]["LOCA_NATE"]), x) for name, x, _, _ in marks])
    north = line_through([(float(rows[name]["LOCA_NATN"]), y) for name, _, y, _ in marks])
    return east, north


def of_plan(page):
    """Each borehole is drawn at its coordinates, with as many pixels to the metre to the east as to the north; axes and
    scale bar are of that scale."""
    b, data = page.browser, ground_file.data()
    loca = ground_file.rows_of(data, "LOCA")
    b.size(1280, 1000)
    b.command("Emulation.setTouchEmulationEnabled", enabled=True, maxTouchPoints=2)
    b.go(page.url)
    page.look("boreholes.ags", data)
    page.view("Plan")
    marks = b.run(MARKS, "#look-result")
    page.check("the boreholes of the plan", sorted(row["LOCA_ID"] for row in loca), sorted(name for name, *_ in marks))
    east, north = scales(page)
    page.check("they are to scale", [True] * 4,
               [east[0] > 0, abs(east[0] + north[0]) < 0.01, east[2] < NEAR, north[2] < NEAR])
    for axis, at, (slope, begin, _) in ((".east", 0, east), (".north", 1, north)):
        ticks = b.run(TICKS, f"#look-result {axis}", at)
        off = [abs(slope * value + begin - place) for value, place in ticks]
        page.check(f"the axis {axis}", [True, True], [len(ticks) > 1, max(off) < 1.2])
    text, width = b.run(BAR, "#look-result")
    page.check("the scale bar", [True, "m"], [abs(float(text.split()[0]) * east[0] - width) < 1, text.split()[1]])
    page.check("the arrow", ["N"], b.run(TEXTS, "#look-result .arrow text"))
    types = {row["LOCA_ID"]: row["LOCA_TYPE"] for row in loca}
    colours = {types[name]: colour for name, _, _, colour in marks}
    page.check("a colour for each LOCA_TYPE", [True, len(set(types.values()))],
               [all(colours[types[name]] == colour for name, _, _, colour in marks), len(set(colours.values()))])
    page.check("the legend", ["CP Cable percussion (4)", "CP+RC Cable percussion + Rotary cored (4)",
                              "TP Trial pit (4)"], b.run(TEXTS, "#look-result .legend li"))


def overlaps(boxes):
    """The pairs of labels that overlap."""
    return [(a[0], c[0]) for at, a in enumerate(boxes) for c in boxes[at + 1:]
            if a[1] < c[1] + c[3] and c[1] < a[1] + a[3] and a[2] < c[2] + c[4] and c[2] < a[2] + a[4]]


def of_labels(page):
    """The labels name the boreholes, and none is over another, at any width and zoom."""
    b = page.browser
    names = {row["LOCA_ID"] for row in ground_file.rows_of(ground_file.data(), "LOCA")}
    for width in (1280, 360):
        b.size(width, 1000)
        for keys in ("0", "-", "--"):
            b.run("document.querySelector('#look-result .plan').focus();")
            b.press("0", *keys)
            labels = b.run(LABELS, "#look-result")
            least = 3 if keys == "--" else 6
            page.check(f"labels at {width} after {keys}", [True, [], True],
                       [{label[0] for label in labels} <= names, overlaps(labels), len(labels) > least])
    b.size(1280, 1000)
    b.press("0")
    page.check("all labels where there is room", names, {label[0] for label in b.run(LABELS, "#look-result")})


def of_moving(page):
    """Keys, wheel, mouse and fingers zoom the plan and move it."""
    b = page.browser
    b.run("document.querySelector('#look-result .plan').focus();")
    b.press("0")
    first = scales(page)
    b.press("+")
    page.check("plus zooms in", 1.5, b.until(1.5, lambda: round(scales(page)[0][0] / first[0][0], 2)))
    b.press("-")
    page.check("minus zooms out", 1.0, b.until(1.0, lambda: round(scales(page)[0][0] / first[0][0], 2)))
    for key, at, way in (("left", 0, 60), ("right", 0, -60), ("up", 1, 60), ("down", 1, -60)):
        b.press("0", key)
        page.check(f"{key} moves it", way, b.until(way, lambda: round(scales(page)[at][1] - first[at][1])))
    b.press("0")
    x, y, width, height = b.run("const { x, y, width, height } = document.querySelector('#look-result .plan svg')"
                                ".getBoundingClientRect(); return [x, y, width, height];")
    middle = {"x": x + width / 2, "y": y + height / 2}
    b.command("Input.dispatchMouseEvent", type="mouseWheel", deltaX=0, deltaY=-200, **middle)
    page.check("the wheel zooms in", True, b.until(True, lambda: scales(page)[0][0] > 1.1 * first[0][0]))
    # The plan ends what the wheel began a moment later, and with it a move of a finger that has begun by then.
    b.until(True, lambda: b.run("return !document.querySelector('#look-result .plan svg').__zooming;"))
    b.press("0")
    b.command("Input.dispatchMouseEvent", type="mousePressed", button="left", clickCount=1, **middle)
    beside = {"x": middle["x"] + 40, "y": middle["y"]}
    b.command("Input.dispatchMouseEvent", type="mouseMoved", button="left", buttons=1, **beside)
    b.command("Input.dispatchMouseEvent", type="mouseReleased", button="left", clickCount=1, **beside)
    page.check("the mouse moves it", 40, b.until(40, lambda: round(scales(page)[0][1] - first[0][1])))
    b.press("0")
    for kind, right in (("touchStart", 0), ("touchMove", 25), ("touchMove", 50)):
        b.command("Input.dispatchTouchEvent", type=kind, touchPoints=[{"x": middle["x"] + right, "y": middle["y"]}])
    page.check("a finger moves it", 50, b.until(50, lambda: round(scales(page)[0][1] - first[0][1])))
    b.command("Input.dispatchTouchEvent", type="touchEnd", touchPoints=[])
    b.press("0")
    for kind, apart in (("touchStart", 40), ("touchMove", 60), ("touchMove", 80)):
        b.command("Input.dispatchTouchEvent", type=kind, touchPoints=[
            {"x": middle["x"] + each, "y": middle["y"], "id": number} for number, each in enumerate((-apart, apart))])
    page.check("two fingers zoom in", 2.0, b.until(2.0, lambda: round(scales(page)[0][0] / first[0][0], 2)))
    b.command("Input.dispatchTouchEvent", type="touchEnd", touchPoints=[])
    b.press("0")
    whole = round(first[0][0], 3)
    page.check("0 shows all", whole, b.until(whole, lambda: round(scales(page)[0][0], 3)))


def of_choosing(page):
    """A click on a symbol chooses its borehole, and so does the list; its row of LOCA is shown."""
    b = page.browser
    row = ground_file.rows_of(ground_file.data(), "LOCA", "BH07")[0]
    b.click("#look-result .marks [data-borehole='BH07']")
    page.check("a click chooses", ["BH07", "BH07"], [b.text("#look-result .card h4"), b.run(
        "return document.querySelector(\"#look-result [data-choice='borehole']\").value;")])
    shown = dict(zip(b.run(TEXTS, "#look-result .card dt"), b.run(TEXTS, "#look-result .card dd")))
    page.check("its row", [True, {name for name, entry in row.items() if entry}],
               [all(shown[name].startswith(row[name]) for name in shown), set(shown)])
    page.choose("#look-result [data-choice='borehole']", "TP03")
    page.check("the list chooses", ["TP03", ["TP03"]], [b.text("#look-result .card h4"), b.run(
        "return [...document.querySelectorAll('#look-result .marks .chosen')].map((path) => path.dataset.borehole);")])


def of_other_coordinates(page):
    """A borehole without coordinates is beside the plan; without any the page says what it needs. Local coordinates are
    drawn where there are no others."""
    b, data = page.browser, ground_file.data()
    page.look("one.ags", ground_file.with_entry(data, "LOCA", "LOCA_NATE", lambda row:
                                                "" if row["LOCA_ID"] == "BH05" else row["LOCA_NATE"]))
    page.view("Plan")
    page.check("a borehole without an easting", [11, ["BH05"]],
               [len(b.run(MARKS, "#look-result")), b.run(TEXTS, "#look-result .without li")])
    b.click("#look-result .without button")
    page.check("it is chosen there", "BH05", b.text("#look-result .card h4"))
    page.look("local.ags", data.replace(b"LOCA_NATE", b"LOCA_LOCX").replace(b"LOCA_NATN", b"LOCA_LOCY"))
    page.view("Plan")
    page.check("local coordinates", [12, ["Y"]],
               [len(b.run(MARKS, "#look-result")), b.run(TEXTS, "#look-result .arrow text")])
    page.look("none.ags", re.sub(b"LOCA_NAT([EN])", rb"LOCA_XX\1", data))
    page.view("Plan")
    page.check("no coordinates", True,
               b.text("#look-result [role=tabpanel]").startswith("A plan takes LOCA with LOCA_NATE"))


STEPS = (of_plan, of_labels, of_moving, of_choosing, of_other_coordinates)
