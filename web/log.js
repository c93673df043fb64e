// The log of a borehole, or of two side by side, on sheets of so many metres.

import { boreholeOf } from "./borehole.js";
import { make } from "./element.js";
import { drawBorehole, HEIGHT, WIDTH } from "./sheet.js";
import { givePatterns } from "./strata.js";

const LENGTHS = [5, 10, 15, 20, 25, 30, 40, 50, 100];
const AXIS = 58;
const HEAD = 30;
let drawings = 0;

const today = () => new Date().toISOString().slice(0, 10);

/** The length of a sheet on which a borehole has at most two sheets. */
const usualLength = (end) => LENGTHS.find((length) => end <= 2 * length) ?? LENGTHS[LENGTHS.length - 1];

/** How far below the top of the drawing each borehole begins: at level, where the level of each is known. */
function offsetsOf(boreholes) {
  const levels = boreholes.map((each) => each.level);
  if (boreholes.length < 2 || levels.includes(null)) return { offsets: boreholes.map(() => 0), top: null };
  const top = d3.max(levels);
  return { offsets: levels.map((level) => top - level), top };
}

/** How far below the top of the drawing the last of the boreholes ends. */
function endOf(boreholes) {
  const { offsets } = offsetsOf(boreholes);
  return d3.max(boreholes, (borehole, at) => borehole.end + offsets[at]) ?? 0;
}

/** The axis of a sheet: depths, or for boreholes at level the levels. */
function drawAxis(svg, y, top) {
  const axis = svg.append("g").attr("class", "depths").attr("transform", `translate(${AXIS},0)`);
  if (top === null) {
    axis.call(d3.axisLeft(y).ticks(10));
  } else {
    const level = d3.scaleLinear(y.domain().map((down) => top - down), y.range());
    axis.call(d3.axisLeft(level).ticks(10));
  }
  svg.append("text").attr("class", "head").attr("x", 0).attr("y", HEAD - 6).text(top === null ? "Depth m" : "Level m");
}

function sheetDrawn(boreholes, begin, end) {
  const prefix = `pattern-${drawings += 1}`;
  const svg = d3.create("svg").attr("role", "img").attr("viewBox", `0 0 ${WIDTH} ${HEIGHT}`)
    .attr("aria-label", `Log of ${boreholes.map((each) => each.name).join(" and ")}, ${begin} to ${end} m`);
  givePatterns(svg, prefix, [...new Set(boreholes.flatMap((each) => each.strata.flatMap(({ kinds }) => kinds)))]);
  const y = d3.scaleLinear([begin, end], [HEAD, HEIGHT - 6]);
  const { offsets, top } = offsetsOf(boreholes);
  drawAxis(svg, y, top);
  const width = (WIDTH - AXIS) / boreholes.length;
  boreholes.forEach((borehole, at) => {
    const part = svg.append("g").attr("class", "borehole").attr("data-borehole", borehole.name);
    drawBorehole(part, { borehole, offset: offsets[at], prefix, left: AXIS + at * width + (at ? 8 : 0),
      width: width - (at ? 8 : 0), y, head: HEAD, isPair: boreholes.length > 1 });
  });
  return svg.node();
}

function headOf(ground, boreholes) {
  const loca = ground.group("LOCA");
  return boreholes.map((borehole) => {
    const entry = (heading) => loca.entry(borehole.row, heading);
    const grid = ground.grid ?? [];
    const parts = [ground.withDescription("LOCA_TYPE", entry("LOCA_TYPE")),
      entry("LOCA_GL") && `ground level ${entry("LOCA_GL")} m`,
      entry("LOCA_FDEP") && `final depth ${entry("LOCA_FDEP")} m`,
      ...grid.map((heading) => entry(heading) && `${heading} ${entry(heading)}`),
      [entry("LOCA_STAR"), entry("LOCA_ENDD")].filter((day) => day).join(" to ")].filter((part) => part);
    return make("div", {}, make("strong", {}, borehole.name), ...parts.flatMap((part, at) =>
      [at ? ", " : " ", make("span", { class: at ? "together" : null }, part)]));
  });
}

/** The sheets of a log. Each has in its foot the project, where it comes from, the day and the register. */
export function sheetsOf(ground, names, length, source) {
  const boreholes = names.map((name) => boreholeOf(ground, name));
  const number = Math.max(1, Math.ceil(endOf(boreholes) / length - 1e-9));
  const proj = ground.group("PROJ");
  const project = ["PROJ_ID", "PROJ_NAME"].map((heading) => proj?.entry(proj.rows[0], heading) ?? "").join(" ").trim();
  const register = `${document.title}, ${location.host}`;
  return d3.range(number).map((at) => make("article", { class: "sheet" },
    make("div", { class: "sheet-head" }, ...headOf(ground, boreholes)),
    sheetDrawn(boreholes, at * length, (at + 1) * length),
    make("div", { class: "sheet-foot" }, ...[project, source, today(), register, `Sheet ${at + 1} of ${number}`]
      .filter((text) => text).map((text) => make("span", {}, text)))));
}

/** What a log lacks, by heading. */
function lackOf(ground, borehole) {
  const lacks = [[borehole.strata, "strata: GEOL with GEOL_TOP, GEOL_BASE, GEOL_LEG and GEOL_DESC"],
    [borehole.samples, "samples: SAMP with SAMP_TOP"], [borehole.tests, "SPT: ISPT with ISPT_TOP and ISPT_NVAL"],
    [borehole.strikes, "water strikes: WSTG with WSTG_DPTH"],
    [borehole.cores, "core runs: CORE with CORE_TOP and CORE_BASE"]];
  const texts = lacks.filter(([rows]) => !rows.length).map(([, text]) => text);
  return texts.length ? `There are no rows here for ${texts.join("; ")}.` : "";
}

/** The strata as a table, for whoever does not see the drawing. */
function strataAsText(boreholes) {
  const name = "The strata as text";
  return make("details", { "aria-label": name }, make("summary", {}, name), ...boreholes.map((borehole) =>
    make("div", { class: "scroll", tabindex: "0", role: "region", "aria-label": `Strata of ${borehole.name}` },
      make("table", {}, make("caption", {}, borehole.name),
        make("thead", {}, make("tr", {}, ...["From", "To", "Legend", "Description"].map((name) =>
          make("th", { scope: "col" }, name)))),
        make("tbody", {}, ...borehole.strata.map((each) => make("tr", {}, ...[String(each.top), String(each.base),
          `${each.code} ${each.described}`.trim(), each.text].map((text) => make("td", {}, text)))))))));
}

const option = (value, text, chosen) => make("option", { value, selected: value === chosen }, text);

/** Shows the log of the chosen borehole. */
export function showLog(place, ground, chosen, { source }) {
  if (!ground.boreholes.length) {
    place.append(make("p", {}, "A log takes the group LOCA, with LOCA_ID."));
    return;
  }
  const beside = make("select", { change: () => show(), "data-choice": "beside" }, option("", "none"),
    ...ground.boreholes.map(({ name }) => option(name, name)));
  const length = make("select", { change: () => show(), "data-choice": "length" }, option("", "as it fits"),
    ...LENGTHS.map((each) => option(String(each), `${each} m`)));
  const frame = make("div", { class: "drawing logs", tabindex: "0", role: "region", "aria-label": "Log" });
  const lack = make("p", { class: "hint" });
  const text = make("div");
  place.append(make("div", { class: "actions" }, make("label", {}, "Beside it ", beside),
    make("label", {}, "A sheet has ", length),
    make("button", { type: "button", class: "plain", click: () => window.print() }, "Print")), lack, frame, text);

  function show() {
    const names = [chosen.name, beside.value].filter((name, at, all) => name && all.indexOf(name) === at);
    const boreholes = names.map((name) => boreholeOf(ground, name));
    const metres = Number(length.value) || usualLength(endOf(boreholes));
    lack.textContent = lackOf(ground, boreholes[0]);
    frame.replaceChildren(make("div", { class: "sheets" }, ...sheetsOf(ground, names, metres, source)));
    text.replaceChildren(strataAsText(boreholes));
  }
  chosen.whenChosen(show);
  show();
}
