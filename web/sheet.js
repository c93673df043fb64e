// One borehole on a sheet of a log: columns for legend, description, samples, tests, water and core runs.

import { fill } from "./strata.js";
import { wrapped } from "./text.js";

export const WIDTH = 720;
export const HEIGHT = 900;
const FONT = "10.5px sans-serif";
const LINE = 12.5;
const LABEL = 11.5;

/** Moves blocks apart, as little as that takes, between a least and a greatest height. Each has `wanted` and `size`,
 * and gets `top`. */
function spread(blocks, least, most) {
  let edge = least;
  for (const block of blocks) {
    block.top = Math.max(edge, block.wanted);
    edge = block.top + block.size;
  }
  edge = most;
  for (const block of [...blocks].reverse()) {
    block.top = Math.max(least, Math.min(block.top, edge - block.size));
    edge = block.top;
  }
  return blocks;
}

/** Takes lines from the longest texts until all have room. The strata as text have them whole. */
function fitted(blocks, room) {
  while (d3.sum(blocks, (block) => block.size) > room) {
    const longest = blocks.reduce((a, b) => b.lines.length > a.lines.length ? b : a);
    if (longest.lines.length < 2) break;
    longest.lines = [...longest.lines.slice(0, -2), `${longest.lines[longest.lines.length - 2]} ..`];
    longest.size -= LINE;
  }
  return blocks;
}

const HEADS = { legend: "Legend", text: "Description", samples: "Samples", tests: "SPT", water: "Water",
  cores: "TCR/SCR/RQD" };
const PAIR_HEADS = { ...HEADS, legend: "", tests: "SPT, core" };

/** The columns of a borehole from left to right: those that have rows, and the description as wide as is left. Where
 * two are side by side, core runs share the column of the SPT. */
function columnsOf({ borehole, left, width, isPair }) {
  const { samples, tests, strikes, cores } = borehole;
  const sizes = [["legend", isPair ? 34 : 54, true], ["text", 0, true], ["samples", isPair ? 54 : 62, samples.length],
    ["tests", isPair ? 64 : 48, isPair ? tests.length + cores.length : tests.length],
    ["water", isPair ? 48 : 44, strikes.length], ["cores", 92, isPair ? 0 : cores.length]]
    .filter(([, , isThere]) => isThere);
  const rest = width - d3.sum(sizes, ([, size]) => size);
  let at = left;
  return Object.fromEntries(sizes.map(([name, size]) => {
    const column = { left: at, width: name === "text" ? rest : size };
    at += column.width;
    return [name, column];
  }));
}

function text(parent, x, y, content, name) {
  return parent.append("text").attr("x", x).attr("y", y).attr("class", name).text(content);
}

function drawStrata(part, columns, { borehole, offset, prefix, y, head, bottom }) {
  const [begin, end] = y.domain().map((down) => down - offset);
  const strata = borehole.strata.filter((each) => each.top < end && each.base > begin);
  const { legend, text: column } = columns;
  const blocks = strata.map((each) => {
    const [top, base] = [y(Math.max(each.top, begin) + offset), y(Math.min(each.base, end) + offset)];
    fill(part, prefix, each.kinds, { x: legend.left, y: top, width: legend.width, height: Math.max(0.5, base - top) });
    const ends = each.base <= end;
    const from = each.top < begin ? "(from above) " : "";
    const lines = wrapped(`${from}${each.text || each.described || each.code}`, column.width - 18, FONT);
    const depth = ends ? [`${each.base.toFixed(2)} m${borehole.level === null ? ""
      : ` (${(borehole.level - each.base).toFixed(2)})`}`] : [];
    return { wanted: top, base, ends, depth, lines, size: (lines.length + depth.length) * LINE + 5 };
  });
  spread(fitted(blocks, bottom - head), head, bottom).forEach((block, at) => {
    // The line below a description is at the base of its stratum, or as near to it as the descriptions leave room.
    const under = Math.min(Math.max(block.base, block.top + block.size), blocks[at + 1]?.top ?? bottom);
    block.lines.forEach((line, row) =>
      text(part, column.left + 12, block.top + (row + 1) * LINE, line, "description"));
    for (const depth of block.depth) {
      text(part, column.left + column.width - 4, under - 4, depth, "base").attr("text-anchor", "end");
    }
    if (block.ends) {
      part.append("path").attr("class", "boundary")
        .attr("d", `M${column.left},${block.base}L${column.left + 8},${under}H${column.left + column.width}`);
    }
  });
}

/** Labels beside their depths, moved apart where they would overlap; each is led to its depth by a line. */
function drawLabels(part, column, rows, { offset, y, head, bottom }) {
  const [begin, end] = y.domain().map((down) => down - offset);
  const blocks = rows.filter((row) => row.top >= begin && row.top < end).map((row) =>
    ({ row, wanted: y(row.top + offset) - LABEL / 2, size: LABEL }));
  for (const { row, top } of spread(blocks, head, bottom)) {
    const [left, at] = [column.left + 3, y(row.top + offset)];
    const bracket = row.base ? `M${left},${at}V${y(Math.min(row.base, end) + offset)}h3` : "";
    part.append("path").attr("class", "lead").attr("d", `M${left},${at}h3L${left + 8},${top + LABEL / 2}${bracket}`);
    text(part, column.left + 13, top + LABEL - 2, row.text, row.kind);
  }
}

function drawWater(part, column, rows, { offset, y }) {
  const [begin, end] = y.domain().map((down) => down - offset);
  for (const row of rows.filter(({ top }) => top >= begin && top < end)) {
    const [x, at] = [column.left + 8, y(row.top + offset)];
    part.append("path").attr("class", "strike").attr("d", `M${x - 5},${at - 8}h10L${x},${at}Z`);
    text(part, x + 7, at - 1, row.top.toFixed(2), "water");
  }
}

/** Draws a borehole: `{ borehole, offset, prefix, left, width, y, head, isPair }`, where `y` gives the height of a
 * depth below the top of the drawing. */
export function drawBorehole(part, given) {
  const bottom = HEIGHT - 6;
  const columns = columnsOf(given);
  const { borehole, left, width, head, isPair } = given;
  const frame = { ...given, bottom };
  for (const [name, column] of Object.entries(columns)) {
    text(part, column.left + 3, head - 6, (isPair ? PAIR_HEADS : HEADS)[name], "head");
    part.append("path").attr("class", "edge").attr("d", `M${column.left},${head - 18}V${bottom}`);
  }
  const right = left + width - 1;
  part.append("path").attr("class", "edge")
    .attr("d", `M${left},${head}H${right}V${head - 18}M${right},${head}V${bottom}`);
  if (isPair) text(part, left + 3, 10, borehole.name, "name");
  drawStrata(part, columns, frame);
  const { samples, tests, cores } = borehole;
  if (columns.samples) drawLabels(part, columns.samples, samples, frame);
  const both = isPair ? [...tests, ...cores].sort((a, b) => a.top - b.top) : tests;
  if (columns.tests) drawLabels(part, columns.tests, both, frame);
  if (columns.water) drawWater(part, columns.water, borehole.strikes, frame);
  if (columns.cores) drawLabels(part, columns.cores, cores, frame);
  const end = given.y(borehole.end + given.offset);
  if (end > head && end <= bottom + 0.5) {
    part.append("path").attr("class", "end").attr("d", `M${left},${end}H${columns.text.left + 8}`);
  }
}
