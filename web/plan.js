// The plan: the boreholes by their coordinates, to scale.

import { counted, make, swatchOf } from "./element.js";
import { widthOf } from "./text.js";

const MARGIN = { top: 10, right: 14, bottom: 28, left: 64 };
const SHAPES = [d3.symbolCircle, d3.symbolSquare, d3.symbolTriangle, d3.symbolDiamond, d3.symbolStar, d3.symbolCross];
const COLOURS = ["#0b4f6c", "#a4160f", "#14632a", "#7a4b1e", "#6a1b9a", "#8a6d00", "#00695c", "#ad1457", "#37474f",
  "#3949ab"];
const STEP = 60;
const SIZE = 90;
const BAR = 130;
// So much wider to each side is the symbol that is chosen.
const WIDER = 5;
const SQUARE = 40;
// Where a label may be beside its symbol: its anchor, and its distance from the symbol.
const PLACES = [["start", 9, 4], ["end", -9, 4], ["middle", 0, -10], ["middle", 0, 19]];

const whole = d3.format("d");
const FONT = "12px sans-serif";

/** Boxes on a plan, found by their places: two that overlap share a square. */
class Boxes {
  constructor() {
    this.squares = new Map();
  }

  squaresOf([left, top, right, bottom]) {
    const range = (from, to) => d3.range(Math.floor(from / SQUARE), Math.floor(to / SQUARE) + 1);
    return range(left, right).flatMap((x) => range(top, bottom).map((y) => `${x},${y}`));
  }

  add(box) {
    for (const square of this.squaresOf(box)) {
      if (!this.squares.has(square)) this.squares.set(square, []);
      this.squares.get(square).push(box);
    }
  }

  /** Whether a box overlaps none but this one. */
  isFree(box, own) {
    return this.squaresOf(box).every((square) => (this.squares.get(square) ?? []).every((other) => other === own
      || box[0] > other[2] || box[2] < other[0] || box[1] > other[3] || box[3] < other[1]));
  }
}

/** A place for the label of a symbol that is wider by so much to each side. */
const besideSymbol = ([anchor, right, down], room) => [anchor, right + Math.sign(right) * room,
  anchor === "middle" ? down + Math.sign(down) * room : down];

const placeOf = ({ x, y, room }) => `${x.toFixed(1)},${y.toFixed(1)},${room}`;

/** The boxes of the symbols, by their places: symbols at one place have one. */
const symbolsOf = (points) => new Map(points.map((point) => [placeOf(point), [point.x - 6 - point.room,
  point.y - 6 - point.room, point.x + 6 + point.room, point.y + 6 + point.room]]));

/** The labels that overlap no other label or symbol and lie within the plan, with their places, in the order of the
 * boreholes. `others` are boxes that are taken already. */
function placed(points, others, width) {
  const taken = new Boxes();
  const symbols = symbolsOf(points);
  for (const box of [...symbols.values(), ...others]) taken.add(box);
  return points.flatMap((point) => {
    const own = symbols.get(placeOf(point));
    const length = widthOf(point.name, FONT);
    for (const [anchor, right, down] of PLACES.map((place) => besideSymbol(place, point.room))) {
      const left = point.x + right - (anchor === "end" ? length : anchor === "middle" ? length / 2 : 0);
      const box = [left, point.y + down - 11, left + length, point.y + down + 3];
      const isWithin = box[0] > MARGIN.left && box[2] < width - MARGIN.right && box[1] > MARGIN.top;
      if (isWithin && taken.isFree(box, own)) {
        taken.add(box);
        return [{ ...point, anchor, right, down }];
      }
    }
    return [];
  });
}

/** The greatest length of 1, 2 or 5 by a power of ten that is no longer on the plan than the bar may be. */
function lengthOfBar(pixelsPerUnit) {
  const most = BAR / pixelsPerUnit;
  const power = 10 ** Math.floor(Math.log10(most));
  return [5, 2, 1].map((each) => each * power).find((length) => length <= most);
}

export class Plan {
  constructor(ground, choose) {
    this.ground = ground;
    this.choose = choose;
    this.points = ground.boreholes.filter((each) => each.easting !== null && each.northing !== null);
    // How many points each LOCA_TYPE has.
    this.counts = new Map();
    for (const { type } of this.points) this.counts.set(type, (this.counts.get(type) ?? 0) + 1);
    this.types = [...this.counts.keys()].sort();
    this.order = new Map(this.types.map((type, at) => [type, at]));
    this.svg = d3.create("svg").attr("role", "img").attr("aria-label",
      `Plan of ${counted(this.points.length, "borehole")}`);
    this.keys = make("div", { class: "drawing plan", tabindex: "0", role: "group",
      "aria-label": "Plan. Plus and minus zoom, the arrow keys move it, 0 shows all.",
      keydown: (event) => this.press(event) }, this.svg.node());
    this.zoom = d3.zoom().scaleExtent([0.5, 500]).on("zoom", () => this.draw());
    this.svg.call(this.zoom);
    this.element = make("div", {}, this.buttons(), this.keys, this.legend());
    for (const name of ["east", "north", "marks", "labels", "bar", "arrow"]) this.svg.append("g").attr("class", name);
    new ResizeObserver(() => {
      if (this.keys.clientWidth !== this.width) this.draw();
    }).observe(this.keys);
  }

  colour(type) {
    return COLOURS[this.order.get(type) % COLOURS.length];
  }

  shape(type, size = SIZE) {
    return d3.symbol().type(SHAPES[this.order.get(type) % SHAPES.length]).size(size)();
  }

  buttons() {
    const button = (name, act) => make("button", { type: "button", class: "plain", click: act }, name);
    return make("div", { class: "actions" }, button("Zoom in", () => this.scale(1.5)),
      button("Zoom out", () => this.scale(1 / 1.5)), button("Show all", () => this.reset()));
  }

  legend() {
    const grid = this.ground.grid ?? [];
    const loca = this.ground.group("LOCA");
    const names = loca ? [...new Set(loca.rows.map((row) => loca.entry(row, "LOCA_GREF")))].filter((name) => name) : [];
    const items = this.types.map((type) => make("li", {}, swatchOf(this.shape(type), this.colour(type)),
      `${this.ground.withDescription("LOCA_TYPE", type) || "no LOCA_TYPE"} `
      + `(${this.counts.get(type)})`));
    return make("div", { class: "legend" }, make("ul", {}, ...items),
      make("p", { class: "hint" }, `${grid.join(", ")}${names.length ? `, grid ${names.join(", ")}` : ""}`));
  }

  scale(factor) {
    this.zoom.scaleBy(this.svg, factor);
  }

  reset() {
    this.zoom.transform(this.svg, d3.zoomIdentity);
  }

  press(event) {
    const k = d3.zoomTransform(this.svg.node()).k;
    const act = { "+": () => this.scale(1.5), "=": () => this.scale(1.5), "-": () => this.scale(1 / 1.5),
      0: () => this.reset(), ArrowLeft: () => this.zoom.translateBy(this.svg, STEP / k, 0),
      ArrowRight: () => this.zoom.translateBy(this.svg, -STEP / k, 0),
      ArrowUp: () => this.zoom.translateBy(this.svg, 0, STEP / k),
      ArrowDown: () => this.zoom.translateBy(this.svg, 0, -STEP / k) }[event.key];
    if (!act || event.ctrlKey || event.metaKey || event.altKey) return;
    event.preventDefault();
    act();
  }

  /** Shows which borehole is chosen. */
  mark(name) {
    this.marked = name;
    this.draw();
  }

  /** The scales of a plan so wide and high on which all boreholes have room: as many pixels to the east as to the
   * north. */
  scales(width, height) {
    const [west, east] = d3.extent(this.points, (point) => point.easting);
    const [south, north] = d3.extent(this.points, (point) => point.northing);
    const [right, bottom] = [width - MARGIN.right, height - MARGIN.bottom];
    const [room, rise] = [right - MARGIN.left, bottom - MARGIN.top];
    const span = Math.max((east - west) / room, (north - south) / rise) * 1.3 || 0.1;
    const around = (middle, size) => [middle - span * size / 2, middle + span * size / 2];
    return { x: d3.scaleLinear(around((east + west) / 2, room), [MARGIN.left, right]),
      y: d3.scaleLinear(around((south + north) / 2, rise), [bottom, MARGIN.top]) };
  }

  draw() {
    const width = this.width = this.keys.clientWidth;
    if (!width) return;
    const height = Math.round(Math.max(280, Math.min(560, width * 0.7)));
    this.svg.attr("viewBox", `0 0 ${width} ${height}`).attr("width", width).attr("height", height);
    const { x, y } = this.scales(width, height);
    const transform = d3.zoomTransform(this.svg.node());
    const [east, north] = [transform.rescaleX(x), transform.rescaleY(y)];
    this.drawAxes(east, north, width, height);
    const points = this.points.map((point) => ({ ...point, x: east(point.easting), y: north(point.northing),
      room: point.name === this.marked ? WIDER : 0 }))
      .filter(({ x: right, y: down }) => right >= MARGIN.left && right <= width - MARGIN.right && down >= MARGIN.top
        && down <= height - MARGIN.bottom);
    this.drawPoints(points, width, height);
    this.drawBar(Math.abs(east(1) - east(0)), width, height);
  }

  drawAxes(east, north, width, height) {
    const axis = (kind, scale, ticks, size) =>
      kind(scale).ticks(ticks).tickFormat(this.rounded(scale, ticks)).tickSize(-size);
    this.svg.select(".east").attr("transform", `translate(0,${height - MARGIN.bottom})`)
      .call(axis(d3.axisBottom, east, Math.max(2, Math.round(width / 160)), height - MARGIN.top - MARGIN.bottom));
    this.svg.select(".north").attr("transform", `translate(${MARGIN.left},0)`)
      .call(axis(d3.axisLeft, north, 5, width - MARGIN.left - MARGIN.right));
  }

  rounded(scale, ticks) {
    const [first, second] = scale.ticks(ticks);
    return second - first < 1 ? d3.format(".1f") : whole;
  }

  drawPoints(points, width, height) {
    // The arrow and the scale bar have their places in two corners.
    const corners = [[width - 50, 0, width, 62], [width - BAR - 40, height - MARGIN.bottom - 32, width, height]];
    this.svg.select(".marks").selectAll("path").data(points, (point) => point.name)
      .join((enter) => enter.append("path").call((path) => path.append("title"))
        .on("click", (point) => this.choose(point.name)))
      .attr("d", (point) => this.shape(point.type, point.name === this.marked ? 3 * SIZE : SIZE))
      .attr("fill", (point) => this.colour(point.type)).attr("data-borehole", (point) => point.name)
      .attr("class", (point) => point.name === this.marked ? "chosen" : null)
      .attr("transform", ({ x, y }) => `translate(${x.toFixed(1)},${y.toFixed(1)})`)
      .select("title").text((point) => `${point.name} ${point.type}`);
    this.svg.select(".labels").selectAll("text").data(placed(points, corners, width), (point) => point.name)
      .join("text").attr("x", ({ x, right }) => x + right).attr("y", ({ y, down }) => y + down)
      .attr("text-anchor", ({ anchor }) => anchor).text((point) => point.name);
  }

  /** The scale bar, and the arrow to grid north; for local coordinates, to the local one. */
  drawBar(pixels, width, height) {
    const length = lengthOfBar(pixels);
    const unit = this.ground.group("LOCA").unit(this.ground.grid[0]) || "m";
    const [left, down] = [width - MARGIN.right - length * pixels - 10, height - MARGIN.bottom - 14];
    const bar = this.svg.select(".bar").attr("transform", `translate(${left},${down})`);
    bar.selectAll("path").data([0]).join("path").attr("d", `M0,-6V0H${length * pixels}V-6`);
    bar.selectAll("text").data([0]).join("text").attr("x", length * pixels / 2).attr("y", -8)
      .attr("text-anchor", "middle").attr("data-length", length * pixels).text(`${length} ${unit}`);
    const arrow = this.svg.select(".arrow")
      .attr("transform", `translate(${width - MARGIN.right - 18},${MARGIN.top + 34})`);
    arrow.selectAll("path").data([0]).join("path").attr("d", "M0,14V-14M-5,-6L0,-15L5,-6");
    arrow.selectAll("text").data([0]).join("text").attr("y", -19).attr("text-anchor", "middle")
      .text(this.ground.grid[0] === "LOCA_NATE" ? "N" : "Y");
  }
}

/** Shows the plan, with the boreholes that have no coordinates beside it. */
export function showPlan(place, ground, chosen) {
  const absent = ground.boreholes.filter((each) => each.easting === null || each.northing === null);
  const without = absent.length ? [make("div", { class: "without" }, make("h4", {}, "Without coordinates"),
    make("ul", {}, ...absent.map((each) => make("li", {}, make("button", { type: "button", class: "row",
      "data-borehole": each.name, click: () => chosen.choose(each.name) }, each.name)))))] : [];
  if (absent.length === ground.boreholes.length) {
    place.append(make("p", {}, "A plan takes LOCA with LOCA_NATE and LOCA_NATN, or with LOCA_LOCX and LOCA_LOCY. "
      + "Here no borehole has both."), ...without);
    return;
  }
  const plan = new Plan(ground, (name) => chosen.choose(name));
  place.append(make("div", { class: "beside" }, plan.element, make("div", { class: "side" }, chosen.card, ...without)));
  chosen.whenChosen((name) => plan.mark(name));
  plan.mark(chosen.name);
}
