// Numbers against depth or level: a panel for each heading, side by side, with one axis of depth for all.

import { counted, make, swatchOf } from "./element.js";
import { DepthPanel } from "./panel.js";
import { plottedHeadings, pointsOf } from "./series.js";

const COLOURS = [...d3.schemeTableau10];
const HEIGHT = 520;
const STEP = 40;
const NARROWEST = 220;
const HOW = "Numbers against depth. Plus and minus zoom, the arrow keys move, 0 shows all, n and p go through points.";

/** A colour for each name: of ten, or where there are more, all around the wheel. */
function coloursOf(names) {
  const all = names.length <= COLOURS.length ? COLOURS
    : d3.quantize((part) => String(d3.rgb(d3.interpolateRainbow(part * 0.97)).darker(0.6)), names.length);
  return new Map(names.map((name, at) => [name, all[at]]));
}

class Depth {
  constructor(ground) {
    this.ground = ground;
    this.headings = plottedHeadings(ground);
    this.read = new Map();
    this.transform = d3.zoomIdentity;
    this.readout = make("p", { class: "readout", role: "status" });
    this.left = make("p", { class: "hint" });
    this.panels = [];
    this.frame = make("div", { class: "drawing panels", tabindex: "0", role: "group", "aria-label": HOW,
      keydown: (event) => this.press(event) });
    this.by = this.select("by", ["borehole", "group"]);
    this.down = this.select("down", ["depth", "level"]);
    this.boxes = this.headings.map((each) => this.box(each));
    // At first the N values are shown, or what comes first.
    (this.boxes.find(({ heading }) => heading.heading === "ISPT_NVAL") ?? this.boxes[0]).input.checked = true;
    this.legend = make("fieldset", { class: "legend" });
    this.element = make("div", {}, this.choices(), this.readout, this.frame, this.left, this.legend);
    new ResizeObserver(() => {
      if (this.frame.clientWidth !== this.width) this.draw();
    }).observe(this.frame);
  }

  select(name, options) {
    return make("select", { "data-choice": name, change: () => this.show() },
      ...options.map((each) => make("option", { value: each }, each)));
  }

  box(heading) {
    const input = make("input", { type: "checkbox", "data-heading": heading.heading, change: () => this.show() });
    return { input, heading, element: make("label", {}, input, ` ${heading.heading}`) };
  }

  choices() {
    const groups = [...new Set(this.headings.map(({ group }) => group))];
    const button = (name, act) => make("button", { type: "button", class: "plain", click: act }, name);
    return make("div", {}, make("fieldset", { class: "headings" }, make("legend", {}, "Headings"),
      ...groups.map((group) => make("div", { class: "of-group" }, make("strong", {}, group.name),
        ...this.boxes.filter(({ heading }) => heading.group === group).map(({ element }) => element)))),
    make("div", { class: "actions" },
      make("label", {}, "Against ", this.down), make("label", {}, "Colours by ", this.by),
      button("Zoom in", () => this.scale(1.5)), button("Zoom out", () => this.scale(1 / 1.5)),
      button("Show all", () => this.zoomTo(d3.zoomIdentity))));
  }

  /** The points of a heading, read once. */
  pointsOf(heading) {
    if (!this.read.has(heading)) this.read.set(heading, pointsOf(this.ground, heading));
    return this.read.get(heading);
  }

  /** Makes the panels and the legend anew, as chosen. */
  show() {
    const chosen = this.boxes.filter(({ input }) => input.checked).map(({ heading }) => heading);
    const key = this.down.value;
    const read = chosen.map((heading) => ({ heading, ...this.pointsOf(heading) }));
    const all = read.map(({ points }) => points.filter((point) => point[key] !== null));
    const names = [...new Set(all.flat().map((point) => point[this.by.value]))].sort(d3.ascending);
    this.colours = coloursOf(names);
    this.hidden = new Set([...(this.hidden ?? [])].filter((name) => names.includes(name)));
    this.drawLegend(names);
    this.frame.replaceChildren();
    this.panels = read.map(({ heading }, at) => new DepthPanel(this, heading, all[at], key));
    this.frame.append(...this.panels.map((panel) => panel.element));
    this.readout.textContent = chosen.length ? "Move over a point, or press n, to see its value." : "Choose a heading.";
    const left = d3.sum(read, (each, at) => each.left + each.points.length - all[at].length);
    this.left.textContent = left ? `${counted(left, "row")} left out: no number, or no ${key}.` : "";
    this.draw();
  }

  drawLegend(names) {
    this.legend.replaceChildren(make("legend", {}, `Shown (${this.by.value})`), ...names.map((name) => {
      const swatch = swatchOf("M6,0a6,6 0 1 1 -12,0a6,6 0 1 1 12,0", this.colours.get(name));
      const change = () => {
        if (input.checked) this.hidden.delete(name);
        else this.hidden.add(name);
        this.draw();
      };
      const input = make("input", { type: "checkbox", checked: !this.hidden.has(name), "data-shown": name, change });
      return make("label", {}, input, swatch, name || "(none)");
    }));
  }

  isShown(point) {
    return !this.hidden.has(point[this.by.value]);
  }

  colour(point) {
    return this.colours.get(point[this.by.value]);
  }

  /** The scale of all panels: depth downwards, or level upwards. */
  scaleDown() {
    const key = this.down.value;
    const [least, most] = d3.extent(this.panels.flatMap((panel) => panel.range));
    const room = [46, HEIGHT - 14];
    const [low, high] = least === undefined ? [0, 10] : [least, most];
    const spare = (high - low) * 0.03 || 1;
    return key === "depth" ? d3.scaleLinear([Math.min(0, low), high + spare], room)
      : d3.scaleLinear([high + spare, low - spare], room);
  }

  draw() {
    const width = this.width = this.frame.clientWidth;
    if (!width || !this.panels.length) return;
    const each = Math.max(NARROWEST, Math.floor((width - 4) / this.panels.length));
    const y = this.transform.rescaleY(this.scaleDown());
    for (const panel of this.panels) panel.draw(each, HEIGHT, y);
  }

  zoomTo(transform) {
    this.transform = transform;
    for (const panel of this.panels) panel.follow(transform);
    this.draw();
  }

  scale(factor) {
    this.panels[0]?.scaleBy(factor);
  }

  /** The next or the former point from the one that is shown, in order of depth. */
  go(step) {
    const panel = this.panels.find((each) => each.shown) ?? this.panels[0];
    panel?.go(step);
  }

  press(event) {
    const act = { "+": () => this.scale(1.5), "=": () => this.scale(1.5), "-": () => this.scale(1 / 1.5),
      0: () => this.zoomTo(d3.zoomIdentity), ArrowUp: () => this.panels[0]?.moveBy(STEP),
      ArrowDown: () => this.panels[0]?.moveBy(-STEP), n: () => this.go(1), p: () => this.go(-1) }[event.key];
    if (!act || event.ctrlKey || event.metaKey || event.altKey) return;
    event.preventDefault();
    act();
  }

  /** Shows the value of a point. */
  tell(panel, point) {
    for (const each of this.panels) if (each !== panel) each.forget();
    const { heading, unit } = panel.heading;
    const key = this.down.value;
    const at = `${point.borehole}, ${key} ${+point[key].toFixed(3)} m`;
    this.readout.textContent = `${at}: ${heading} ${point.value} ${unit}`.trim();
  }
}

/** Shows numbers against depth. */
export function showDepth(place, ground) {
  if (!plottedHeadings(ground).length) {
    place.append(make("p", {}, "This takes a group with LOCA_ID, a heading that ends in _TOP or _DPTH, and a heading "
      + "of a type with numbers: nDP, nSF, nSCI, MC, XN or U."));
    return;
  }
  const depth = new Depth(ground);
  place.append(depth.element);
  depth.show();
}
