// What is known of a borehole by depth: strata, samples, tests, water strikes and core runs.

import { kindsOf } from "./strata.js";
import { numberOf } from "./number.js";

/** The rows of a group of a borehole, from the top down, each with the numbers under its headings of top and base. */
function byDepth(ground, name, group, top, base) {
  const of = ground.group(group);
  return ground.rowsOf(group, name).map((row) => ({ row, entry: (heading) => of.entry(row, heading),
    top: numberOf(of.entry(row, top)), base: base ? numberOf(of.entry(row, base)) : null }))
    .filter((each) => each.top !== null).sort((a, b) => a.top - b.top);
}

function strataOf(ground, name) {
  const rows = byDepth(ground, name, "GEOL", "GEOL_TOP", "GEOL_BASE");
  return rows.map(({ top, base, entry }, at) => {
    const [code, text] = [entry("GEOL_LEG"), entry("GEOL_DESC")];
    const described = ground.described("GEOL_LEG", code);
    return { top, base: base ?? rows[at + 1]?.top ?? top, code, described, text,
      kinds: kindsOf(described, code, text) };
  });
}

const RECOVERIES = ["CORE_PREC", "CORE_SREC", "CORE_RQD"];
const percent = (text) => text === "" ? "-" : text;

/** A borehole with all that a log shows of it. */
export function boreholeOf(ground, name) {
  const borehole = ground.byBorehole.get(name);
  const found = { ...borehole, strata: strataOf(ground, name),
    samples: byDepth(ground, name, "SAMP", "SAMP_TOP", "SAMP_BASE").map(({ top, base, entry }) => ({
      top, base, kind: "sample", text: `${entry("SAMP_TYPE")}${entry("SAMP_REF")}` || entry("SAMP_ID") })),
    tests: byDepth(ground, name, "ISPT", "ISPT_TOP").map(({ top, entry }) => ({ top, kind: "test",
      text: entry("ISPT_NVAL") ? `N=${entry("ISPT_NVAL")}` : entry("ISPT_REP") })).filter((each) => each.text),
    strikes: [...byDepth(ground, name, "WSTG", "WSTG_DPTH"), ...byDepth(ground, name, "WSTK", "WSTK_DEP")],
    cores: byDepth(ground, name, "CORE", "CORE_TOP", "CORE_BASE").map(({ top, base, entry }) => ({
      top, base, kind: "core", text: RECOVERIES.map((heading) => percent(entry(heading))).join("/") })) };
  const depths = [found.strata, found.samples, found.tests, found.strikes, found.cores].flat()
    .map((each) => each.base ?? each.top);
  return { ...found, end: d3.max([borehole.depth ?? 0, ...depths]) };
}
