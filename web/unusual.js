// What is unusual of a file that is about to be deposited, beside the other deposits of its project.

import { groupsOf, textOf } from "./ags.js";
import { counted, tell } from "./element.js";
import { summary, summaryOf } from "./summary.js";

// So many names are in a sentence, so many numbers of deposits, and so many sorts of boreholes.
const [NAMED, NUMBERED, SORTS] = [8, 3, 4];

const named = (names, most = NAMED) => names.length <= most ? names.join(", ")
  : `${names.slice(0, most).join(", ")} and ${names.length - most} more`;
const depositsNamed = (numbers) => `deposit${numbers.length === 1 ? "" : "s"} ${named(numbers, NUMBERED)}`;
const distinct = (values) => [...new Set(values.filter((value) => value))];

/** A sentence where the file has another value than all other deposits. */
function otherThan(heading, value, values) {
  const others = distinct(values);
  return value && others.length && !others.includes(value)
    ? [`${heading} is ${value}. In the other deposits it is ${named(others)}.`] : [];
}

/** Whether a borehole is elsewhere in another file. Coordinates of two grids are not compared. */
function isElsewhere(own, borehole, about, other) {
  const keys = own.grid === about.grid ? ["easting", "northing", "level"] : ["level"];
  return keys.some((key) => borehole[key] !== null && other[key] !== null && borehole[key] !== other[key]);
}

/** The deposits that have a borehole: those in which it is elsewhere, and the others. */
function depositsOf(own, borehole, others) {
  const [moved, again] = [[], []];
  for (const { number, about, byName } of others) {
    const other = byName.get(borehole.name);
    if (other) (isElsewhere(own, borehole, about, other) ? moved : again).push(number);
  }
  return { moved, again };
}

/** `BH1, BH2 (deposits 3, 1); BH3 (deposit 2)`: boreholes that the same deposits have are together. */
function together(found) {
  const by = new Map();
  for (const [name, numbers] of found.filter(([, each]) => each.length)) {
    const deposits = depositsNamed(numbers);
    if (!by.has(deposits)) by.set(deposits, []);
    by.get(deposits).push(name);
  }
  const texts = [...by].slice(0, SORTS).map(([deposits, names]) => `${named(names)} (${deposits})`);
  const rest = d3.sum([...by].slice(SORTS), ([, names]) => names.length);
  return [...texts, ...rest ? [counted(rest, "more borehole")] : []].join("; ");
}

/** Sentences on boreholes that other deposits have: at another place, or once more. */
function boreholesAgain(own, known) {
  const others = known.map((each) => ({ ...each, byName: new Map(each.about.boreholes.map((other) =>
    [other.name, other])) }));
  const found = own.boreholes.map((borehole) => [borehole.name, depositsOf(own, borehole, others)]);
  const moved = together(found.map(([name, each]) => [name, each.moved]));
  const again = together(found.map(([name, each]) => [name, each.again]));
  return [...moved ? [`At another place or level in another deposit: ${moved}.`] : [],
    ...again ? [`In another deposit already: ${again}.`] : []];
}

/** Sentences that say what is unusual of a file; none where nothing is, or the listing is denied. */
export async function unusual(task, asked, bytes) {
  const listed = await asked.deposits();
  if (task.isOver || listed.status !== 200) return [];
  const numbers = listed.told.deposits.map((each) => each.number).sort((a, b) => b - a);
  let read = 0;
  const others = await Promise.all(numbers.map(async (number) => {
    const about = await summary(asked, number);
    if (!task.isOver) tell(`${read += 1} of ${numbers.length} deposits read, to compare ..`);
    return { number, about };
  }));
  const known = others.filter(({ about }) => about);
  const own = summaryOf(groupsOf(textOf(bytes)));
  return [...otherThan("PROJ_ID", own.project, known.map(({ about }) => about.project)),
    ...otherThan("TRAN_AGS", own.edition, known.map(({ about }) => about.edition)),
    ...boreholesAgain(own, known)];
}
