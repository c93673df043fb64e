// The groups of a file as tables, and the rows that a row belongs to.

import { offered, workbook } from "./assist.js";
import { counted, fault, make, save } from "./element.js";
import { isNumericType, numberOf } from "./number.js";
import { Table } from "./table.js";

/** The columns of a group. With descriptions, a code of ABBR has its description beside it. */
function columnsOf(ground, group, hasDescriptions, choose) {
  return group.headings.map((heading, at) => {
    const entry = (row) => row[at] ?? "";
    const text = hasDescriptions ? (row) => ground.withDescription(heading, entry(row)) : entry;
    const isNumber = isNumericType(group.types[at] ?? "");
    const cell = at ? undefined : (row) => make("button", { type: "button", class: "row", title: "The whole row, and "
      + "the rows that it belongs to", click: () => choose(row) }, text(row) || "(empty)");
    return { name: heading, unit: group.units[at] ?? "", isNumber, text, cell };
  });
}

/** A row with all its entries, one below the other. */
function rowShown(ground, group, row, title) {
  return make("section", { class: "whole" }, make("h4", {}, title),
    make("div", { class: "scroll", tabindex: "0", role: "region", "aria-label": title },
      make("table", {}, make("thead", {}, make("tr", {}, ...["Heading", "Entry", "Unit", "Description"].map((name) =>
        make("th", { scope: "col" }, name)))),
      make("tbody", {}, ...group.headings.map((heading, at) => make("tr", {}, make("th", { scope: "row" }, heading),
        make("td", { class: "entry" }, row[at] ?? ""), make("td", {}, group.units[at] ?? ""),
        make("td", {}, ground.described(heading, row[at] ?? ""))))))));
}

/** A row, and one after the other the rows that it belongs to. */
function lineage(ground, group, row) {
  const parts = [rowShown(ground, group, row, `Row of ${group.name}`)];
  const seen = new Set([row]);
  for (let up = ground.parentRow(group, row); up && !seen.has(up.row); up = ground.parentRow(up.group, up.row)) {
    seen.add(up.row);
    parts.push(rowShown(ground, up.group, up.row, `It belongs to this row of ${up.group.name}`));
  }
  return parts;
}

/** Degrees, as a number or as degrees, minutes and seconds; null where an entry is neither. */
function degreesOf(entry) {
  const parts = entry.trim().match(/^([-+]?)(\d+)[: ](\d+)[: ](\d+(?:\.\d+)?)$/);
  if (!parts) return numberOf(entry);
  const size = Number(parts[2]) + Number(parts[3]) / 60 + Number(parts[4]) / 3600;
  return parts[1] === "-" ? -size : size;
}

/** The rows of LOCA that have latitude and longitude in WGS 84. */
function located(group) {
  const isElsewhere = (row) => group.has("LOCA_LLZ") && !/^(|WGS ?-?84)$/i.test(group.entry(row, "LOCA_LLZ").trim());
  if (!group.has("LOCA_LAT", "LOCA_LON")) return [];
  const degrees = (row, heading) => degreesOf(group.entry(row, heading));
  return group.rows.map((row) => [row, degrees(row, "LOCA_LON"), degrees(row, "LOCA_LAT")])
    .filter(([row, longitude, latitude]) => longitude !== null && latitude !== null && !isElsewhere(row));
}

/** LOCA as GeoJSON (RFC 7946). */
function geojsonOf(group, rows) {
  return JSON.stringify({ type: "FeatureCollection", features: rows.map(([row, longitude, latitude]) => ({
    type: "Feature", geometry: { type: "Point", coordinates: [longitude, latitude] },
    properties: Object.fromEntries(group.headings.map((heading, at) => [heading, row[at] ?? ""])) })) }, null, 1);
}

/** The grid of the coordinates, as LOCA_GREF names it. */
const gridOf = (group) => [...new Set(group.rows.map((row) => group.entry(row, "LOCA_GREF")).filter((name) => name))];

/** The buttons that save LOCA for a map. */
function mapActions(group) {
  const rows = located(group);
  if (rows.length) {
    return [make("button", { type: "button", class: "plain", "data-save": "geojson",
      click: () => save("LOCA.geojson", "application/geo+json", [geojsonOf(group, rows)]) },
    `Save ${counted(rows.length, "point")} as GeoJSON`)];
  }
  const grids = gridOf(group).join(", ");
  const grid = grids ? `the grid ${grids} (LOCA_GREF)` : "a grid that LOCA_GREF does not name";
  return [make("span", { class: "hint" }, "No GeoJSON: that takes LOCA_LAT and LOCA_LON in WGS 84. "
    + `The CSV has the coordinates in ${grid}.`)];
}

function nameOfCsv(group) {
  const grids = group.name === "LOCA" ? gridOf(group) : [];
  return [group.name, ...grids.map((grid) => grid.replace(/[^A-Za-z0-9_-]/g, "_"))].join("-");
}

/** Offers all groups as a workbook, where there is the service. A file that is only looked at is never sent to it. */
async function offerWorkbook(place, shown) {
  if (!shown.isExtract || !(await offered()).includes("tables")) return;
  place.append(make("button", { type: "button", class: "plain", "data-save": "xlsx", click: async () => {
    const book = await workbook(shown.bytes);
    if (book) save(shown.file.replace(/\.ags$/i, ".xlsx"), "application/octet-stream", [book]);
    else fault("The service that makes workbooks did not answer. Save the groups as CSV.");
  } }, "Save all groups as XLSX"));
}

/** Shows a group, chosen in a list. */
export function showTables(place, ground, chosen, file) {
  const groups = ground.groups;
  const list = make("select", { change: () => show(), "data-choice": "group" }, ...groups.map((group, at) =>
    make("option", { value: String(at) }, `${group.name} (${counted(group.rows.length, "row")})`)));
  const descriptions = make("input", { type: "checkbox", change: () => show() });
  const shown = make("div");
  const actions = make("div", { class: "actions" }, make("label", {}, "Group ", list),
    make("label", {}, descriptions, " descriptions beside codes"));
  place.append(actions, shown);
  offerWorkbook(actions, file);

  function show() {
    const group = groups[list.value];
    const whole = make("div", { class: "lineage" });
    const table = new Table({ name: group.name, noun: "row", rows: group.rows,
      columns: columnsOf(ground, group, descriptions.checked, (row) => {
        whole.replaceChildren(...lineage(ground, group, row));
        whole.scrollIntoView({ block: "nearest" });
      }) });
    shown.replaceChildren(make("div", { class: "actions" }, make("button", { type: "button", class: "plain",
      "data-save": "csv", click: () => save(`${nameOfCsv(group)}.csv`, "text/csv", [table.csv()]) }, "Save as CSV"),
    ...group.name === "LOCA" ? mapActions(group) : []), table.element, whole);
    table.draw();
  }
  if (groups.length) show();
}
