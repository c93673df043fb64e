// Entries against depth: of a heading, each row that has a number and a depth.

import { numberOf } from "./number.js";

/** All headings that are plotted against depth. */
export function plottedHeadings(ground) {
  return ground.plotted().flatMap((group) => ground.numericHeadings(group).map((heading) =>
    ({ group, heading, unit: group.unit(heading) })));
}

/** The points of a heading, `{ borehole, depth, level, value, group }`, and how many rows have an entry but no point,
 * since it is no number, or the depth is missing. */
export function pointsOf(ground, { group, heading }) {
  const at = ["LOCA_ID", ground.depthHeading(group), heading].map((name) => group.headings.indexOf(name));
  let left = 0;
  const points = [];
  for (const row of group.rows) {
    const [borehole, depth, value] = [row[at[0]] ?? "", numberOf(row[at[1]]), numberOf(row[at[2]])];
    if (depth !== null && value !== null) {
      const level = ground.byBorehole.get(borehole)?.level ?? null;
      points.push({ borehole, depth, level: level === null ? null : level - depth, value, group: group.name });
    } else if ((row[at[2]] ?? "") !== "") {
      left += 1;
    }
  }
  return { points, left };
}
