// Findings: by cause, as the service bin/assist explains them, or without it by rule; and each of them in a table.

import { Lines } from "./ags.js";
import { explained } from "./assist.js";
import { byId, copy, counted, make, save, tell } from "./element.js";
import { offerFix } from "./fix.js";
import { ruleOf, rulesLoaded } from "./rules.js";
import { Table } from "./table.js";

const FEW = 3;

/** The line of a finding, with its place marked. */
function lineWithMark(lines, finding) {
  const line = lines.line(finding.line);
  if (line === undefined) {
    return make("code", {}, finding.line === 0 ? "(the file as a whole)" : "(after the last line)");
  }
  const place = lines.place(finding);
  if (!place) return make("code", {}, line);
  return make("code", {}, line.slice(0, place.begin), make("mark", {}, line.slice(place.begin, place.end)),
    line.slice(place.end));
}

/** `line 3`, or `1,895 lines, from 3 to 1,897`. */
function linesNamed([number, first, last]) {
  if (number === 0) return "the file as a whole";
  return number === 1 ? `line ${first}` : `${counted(number, "line")}, from ${first} to ${last}`;
}

/** Without the service, the findings of one rule are taken for one cause. */
function causesByRule(findings) {
  const by = new Map();
  for (const finding of findings) {
    if (!by.has(finding.code)) by.set(finding.code, []);
    by.get(finding.code).push(finding);
  }
  return [...by].map(([code, each]) => {
    const lines = [...new Set(each.map((finding) => finding.line))].filter((line) => line > 0);
    return { code, ...ruleOf(code), subject: "", here: [], rows: [], count: each.length,
      findings: each.slice(0, FEW), lines: [lines.length, d3.min(lines) ?? 0, d3.max(lines) ?? 0] };
  });
}

/** The rows that a fix adds, to copy into the file. */
function rowsShown(rows, number) {
  if (!rows.length) return [];
  return [make("pre", { class: "scroll to-write", tabindex: "0", role: "region",
    "aria-label": `Rows to write for cause ${number}` }, rows.join("\n")),
  make("button", { type: "button", class: "plain", "data-act": "copy-rows",
    click: () => copy(rows.map((row) => `${row}\r\n`).join(""), `${counted(rows.length, "row")} copied.`) },
  `Copy ${counted(rows.length, "row")} of cause ${number}`)];
}

function causeShown(cause, lines, number) {
  const about = cause.subject ? ` (${cause.subject})` : "";
  const shown = cause.findings.slice(0, cause.here.length ? 1 : FEW).map((finding) =>
    make("p", { class: "line" }, make("span", { class: "hint" }, finding.line ? `line ${finding.line} ` : ""),
      lineWithMark(lines, finding)));
  return make("section", { class: "cause", "data-code": cause.code },
    make("h3", {}, `${number}. Rule ${cause.code}, ${cause.title}${about}`),
    make("p", { class: "hint" }, `${counted(cause.count, "finding")}, ${linesNamed(cause.lines)}`),
    make("p", {}, cause.rule), ...shown, ...cause.here.map((text) => make("p", {}, text)),
    make("p", {}, make("strong", {}, "Fix: "), cause.fix), ...rowsShown(cause.rows, number));
}

const causesShown = (causes, lines) => causes.map((cause, at) => causeShown(cause, lines, at + 1));

/** Shows the causes that the service gives, where it finds as many findings as the register did. */
async function showCauses(task, place, findings, bytes, lines) {
  const told = await explained(bytes);
  if (!told || task.isOver || told.findings !== findings.length) return;
  const more = told.causes - told.first.length;
  place.replaceChildren(...told.said.map((text) => make("p", {}, text)),
    make("p", {}, `${counted(told.causes, "cause")}. Fix in this order, then check again.`),
    ...causesShown(told.first, lines), ...more > 0 ? [make("p", {}, `And ${counted(more, "more cause")}.`)] : []);
}

function tableOf(findings, lines) {
  const text = (finding) => lines.line(finding.line) ?? "";
  return new Table({ name: "all findings", noun: "finding", rows: findings, columns: [
    { name: "Rule", width: 8, text: (finding) => finding.code },
    { name: "Title", text: (finding) => ruleOf(finding.code).title },
    { name: "Line", width: 8, isNumber: true, text: (finding) => String(finding.line) },
    { name: "Subject", text: (finding) => finding.subject },
    { name: "Text", width: 90, text, cell: (finding) => lineWithMark(lines, finding) }] });
}

/** The findings by cause, with counts and the CSV, and each in a table. */
export async function showFindings(task, findings, bytes, name) {
  await rulesLoaded;
  if (task.isOver) return;
  const lines = new Lines(bytes);
  const table = tableOf(findings, lines);
  const causes = make("div", { class: "causes" });
  const fix = make("div", { class: "fix" });
  const by = causesByRule(findings);
  causes.append(...causesShown(by, lines));
  byId(task.place).replaceChildren(
    make("p", { class: "findings" }, `${counted(findings.length, "finding")} of ${counted(by.length, "rule")}. `
      + "Fix them and check again: the rules are in five phases, and a later one is checked once these are fixed."),
    make("div", { class: "actions" }, make("button", { type: "button", class: "plain",
      click: () => save(`findings-${name}.csv`, "text/csv", [table.csv()]) }, "Save as CSV")),
    fix, causes, make("h3", {}, "All findings"), table.element);
  table.draw();
  tell(`${counted(findings.length, "finding")}.`);
  await offerFix(task, fix, bytes, name);
  await showCauses(task, causes, findings, bytes, lines);
}
