// One panel of numbers against depth: its points on a canvas, which holds 50,000 of them, and axes by d3 above it.

import { make } from "./element.js";

const MARGIN = { left: 46, right: 12, top: 46 };
const RADIUS = 3.5;
const REACH = 18;

/** The places of the pixels of a dot, from its middle. */
function dotOf(radius) {
  const side = d3.range(-Math.ceil(radius), Math.ceil(radius) + 1);
  return side.flatMap((x) => side.map((y) => [x, y])).filter(([x, y]) => Math.hypot(x, y) <= radius);
}

/** A colour as a pixel has it. */
function pixelOf(colour) {
  const { r, g, b } = d3.rgb(colour);
  return new Uint32Array(new Uint8ClampedArray([r, g, b, 255]).buffer)[0];
}

export class DepthPanel {
  /** `chart` has colours, what is shown, and is told what is pointed at. */
  constructor(chart, heading, points, key) {
    Object.assign(this, { chart, heading, points, key, shown: null });
    this.range = d3.extent(points, (point) => point[key]).filter((each) => each !== undefined);
    this.canvas = make("canvas");
    this.svg = d3.create("svg").attr("role", "img")
      .attr("aria-label", `${heading.heading} against ${key}, ${points.length} points`);
    for (const name of ["values", "down", "ring"]) this.svg.append("g").attr("class", name);
    this.svg.append("text").attr("class", "head").attr("y", 14);
    this.zoom = d3.zoom().scaleExtent([1, 200]).on("zoom", () => {
      // A zoom that the panel was told to follow is not told again.
      if (d3.event.sourceEvent || this.isAsked) this.chart.zoomTo(d3.event.transform);
    });
    this.svg.call(this.zoom).on("mousemove", () => this.pointAt(...d3.mouse(this.svg.node())));
    this.element = make("div", { class: "panel", "data-panel": heading.heading }, this.svg.node(), this.canvas);
  }

  follow(transform) {
    this.svg.node().__zoom = transform;
  }

  asked(act) {
    this.isAsked = true;
    act();
    this.isAsked = false;
  }

  scaleBy(factor) {
    this.asked(() => this.zoom.scaleBy(this.svg, factor));
  }

  moveBy(pixels) {
    this.asked(() => this.zoom.translateBy(this.svg, 0, pixels / d3.zoomTransform(this.svg.node()).k));
  }

  draw(width, height, y) {
    Object.assign(this, { width, height, y, tree: null });
    const [least, most] = d3.extent(this.points, (point) => point.value);
    const spare = (most - least) * 0.05 || 1;
    const from = least >= 0 ? 0 : least - spare;
    this.x = d3.scaleLinear([from, (most ?? 1) + spare], [MARGIN.left, width - MARGIN.right]);
    this.svg.attr("viewBox", `0 0 ${width} ${height}`).attr("width", width).attr("height", height);
    this.drawAxes(width, height, y);
    this.seen = this.points.filter((point) => this.chart.isShown(point) && y(point[this.key]) >= MARGIN.top - 1
      && y(point[this.key]) <= height - 13);
    this.drawPoints(width, height);
    this.ring();
  }

  drawAxes(width, height, y) {
    const { heading, unit } = this.heading;
    this.svg.select(".values").attr("transform", `translate(0,${MARGIN.top})`)
      .call(d3.axisTop(this.x).ticks(Math.max(2, width / 70)).tickSize(-(height - MARGIN.top - 14)));
    this.svg.select(".down").attr("transform", `translate(${MARGIN.left},0)`)
      .call(d3.axisLeft(y).ticks(10).tickSize(-(width - MARGIN.left - MARGIN.right)));
    this.svg.select(".head").attr("x", MARGIN.left).text(`${heading}${unit ? ` (${unit})` : ""}, by ${this.key} (m)`);
  }

  /** Sets the pixels of all dots and shows them at once: a call of the canvas for each takes many times as long. */
  drawPoints(width, height) {
    const ratio = window.devicePixelRatio || 1;
    Object.assign(this.canvas, { width: width * ratio, height: height * ratio });
    this.canvas.style.width = `${width}px`;
    this.canvas.style.height = `${height}px`;
    const pen = this.canvas.getContext("2d");
    const image = pen.createImageData(this.canvas.width, this.canvas.height);
    const pixels = new Uint32Array(image.data.buffer);
    const dot = dotOf(RADIUS * ratio).map(([x, y]) => y * image.width + x);
    const colours = new Map();
    for (const point of this.seen) {
      const name = this.chart.colour(point);
      if (!colours.has(name)) colours.set(name, pixelOf(name));
      const across = Math.round(this.x(point.value) * ratio);
      const middle = Math.round(this.y(point[this.key]) * ratio) * image.width + across;
      for (const place of dot) pixels[middle + place] = colours.get(name);
    }
    pen.putImageData(image, 0, 0);
  }

  /** Shows the value of the point that is nearest to a place on the panel. */
  pointAt(x, y) {
    this.tree ??= d3.quadtree(this.seen, (point) => this.x(point.value), (point) => this.y(point[this.key]));
    const found = this.tree.find(x, y, REACH);
    if (found) this.show(found);
  }

  show(point) {
    this.shown = point;
    this.ring();
    this.chart.tell(this, point);
  }

  /** Goes to the point so many steps further down. */
  go(step) {
    if (!this.seen.length) return;
    const order = [...this.seen].sort((a, b) => this.y(a[this.key]) - this.y(b[this.key]));
    const place = this.shown ? order.indexOf(this.shown) : step > 0 ? -1 : 0;
    this.show(order[(place + step + order.length) % order.length]);
  }

  forget() {
    this.shown = null;
    this.ring();
  }

  ring() {
    const shown = this.seen.includes(this.shown) ? [this.shown] : [];
    this.svg.select(".ring").selectAll("circle").data(shown).join("circle").attr("r", 8)
      .attr("cx", (point) => this.x(point.value)).attr("cy", (point) => this.y(point[this.key]));
  }
}
