// What a deposit is: read from the groups PROJ, TRAN and LOCA of its extract, and kept for the tab.

import { groupsOf, textOf } from "./ags.js";
import { whenCallerLeaves } from "./caller.js";
import { Ground } from "./ground.js";

const GROUPS = ["PROJ", "TRAN", "LOCA"];
const AT_ONCE = 3;
let kept = new Map();
let lanes = Array.from({ length: AT_ONCE }, () => Promise.resolve());
let lane = 0;

whenCallerLeaves(() => {
  kept = new Map();
  lanes = lanes.map(() => Promise.resolve());
});

/** What of a file says what it is: the row of PROJ and of TRAN, and its boreholes. */
export function summaryOf(groups) {
  const ground = new Ground(groups);
  const first = (name, heading) => {
    const group = ground.group(name);
    return group?.rows.length ? group.entry(group.rows[0], heading) : "";
  };
  return { project: first("PROJ", "PROJ_ID"), name: first("PROJ", "PROJ_NAME"), issue: first("TRAN", "TRAN_ISNO"),
    date: first("TRAN", "TRAN_DATE"), status: first("TRAN", "TRAN_STAT"), description: first("TRAN", "TRAN_DESC"),
    edition: first("TRAN", "TRAN_AGS"), boreholes: ground.boreholes, grid: String(ground.grid) };
}

/** Reads the extract. One that is not given is asked for again the next time. */
async function drawn(asked, number, kept) {
  const reply = await asked.extract(number, GROUPS);
  if (reply.status === 200) return summaryOf(groupsOf(textOf(reply.bytes)));
  kept.delete(number);
  return null;
}

/** What a deposit is, by its number; null where no extract of it is given. A few are asked for at once. */
export function summary(asked, number) {
  if (!kept.has(number)) {
    lane = (lane + 1) % AT_ONCE;
    const mine = kept;
    lanes[lane] = lanes[lane].then(() => drawn(asked, number, mine));
    kept.set(number, lanes[lane]);
  }
  return kept.get(number);
}
