// The ground that a file or an extract describes: its groups, its boreholes, and what is at which depth.

import { isNumericType, numberOf } from "./number.js";

const GRIDS = [["LOCA_NATE", "LOCA_NATN"], ["LOCA_LOCX", "LOCA_LOCY"]];

export class Ground {
  constructor(groups) {
    this.groups = groups;
    this.byName = new Map(groups.map((group) => [group.name, group]));
    this.boreholes = this.readBoreholes();
    this.byBorehole = new Map(this.boreholes.map((borehole) => [borehole.name, borehole]));
  }

  /** A group by its name, if it has rows. */
  group(name) {
    const group = this.byName.get(name);
    return group?.rows.length ? group : undefined;
  }

  /** The headings of the coordinates: those of the national grid where a row has both, and else the local ones. */
  get grid() {
    const loca = this.group("LOCA");
    const found = GRIDS.find((pair) => loca?.has(...pair) && loca.rows.some((row) =>
      pair.every((heading) => numberOf(loca.entry(row, heading)) !== null)));
    return found ?? null;
  }

  readBoreholes() {
    const loca = this.group("LOCA");
    const grid = this.grid;
    return (loca?.rows ?? []).map((row) => ({
      name: loca.entry(row, "LOCA_ID"), row, type: loca.entry(row, "LOCA_TYPE"),
      easting: grid && numberOf(loca.entry(row, grid[0])), northing: grid && numberOf(loca.entry(row, grid[1])),
      level: numberOf(loca.entry(row, "LOCA_GL")), depth: numberOf(loca.entry(row, "LOCA_FDEP")) }));
  }

  /** The description of a code under a heading, by ABBR; the parts of `CP+RC` one by one. Nothing where it has none. */
  described(heading, code) {
    this.abbreviations ??= this.readAbbreviations();
    const own = this.abbreviations.get(`${heading} ${code}`);
    if (own || !code.includes(this.concatenator)) return own ?? "";
    const parts = code.split(this.concatenator).map((part) => this.abbreviations.get(`${heading} ${part}`));
    return parts.every((part) => part) ? parts.join(" + ") : "";
  }

  get concatenator() {
    const tran = this.group("TRAN");
    return tran && tran.entry(tran.rows[0], "TRAN_RCON") || "+";
  }

  readAbbreviations() {
    const abbr = this.group("ABBR");
    return new Map((abbr?.rows ?? []).map((row) => [
      `${abbr.entry(row, "ABBR_HDNG")} ${abbr.entry(row, "ABBR_CODE")}`, abbr.entry(row, "ABBR_DESC")]));
  }

  /** A code with its description, where it has one. */
  withDescription(heading, code) {
    const text = this.described(heading, code);
    return text && text !== code ? `${code} ${text}` : code;
  }

  /** The rows of a group that name a borehole. */
  rowsOf(name, borehole) {
    const group = this.group(name);
    return group ? group.rows.filter((row) => group.entry(row, "LOCA_ID") === borehole) : [];
  }

  /** The heading of a group that says at which depth a row is: its own, that of the specimen, or that of the parent. */
  depthHeading(group) {
    const all = group.headings.filter((heading) => /_(TOP|DPTH)$/.test(heading));
    const own = all.filter((heading) => heading.startsWith(`${group.name}_`));
    const order = [`${group.name}_DPTH`, `${group.name}_TOP`, "SPEC_DPTH"];
    return order.find((heading) => all.includes(heading)) ?? own[0] ?? all[all.length - 1];
  }

  /** The headings of a group that are plotted against depth: numbers, but depths themselves. */
  numericHeadings(group) {
    const depths = /_(TOP|DPTH|BASE)$/;
    return group.headings.filter((heading, at) => isNumericType(group.types[at] ?? "") && !depths.test(heading)
      && group.rows.some((row) => numberOf(row[at]) !== null));
  }

  /** The groups of which something is plotted against depth. */
  plotted() {
    return this.groups.filter((group) => group.has("LOCA_ID") && group.name !== "LOCA" && this.depthHeading(group)
      && this.numericHeadings(group).length);
  }

  /** The group that the rows of a group belong to: as the file's own DICT says, and else the one whose headings it
   * repeats and which is itself below most of the others. */
  parentOf(group) {
    const own = this.ownParent(group);
    if (own) return own;
    if (group.name === "LOCA") return this.group("PROJ");
    const found = this.groups.filter((other) => other !== group && other.rows.length
      && group.headings.some((heading) => this.isOf(heading, other)));
    return found.sort((a, b) => this.sharedHeadings(group, b).length - this.sharedHeadings(group, a).length)[0];
  }

  ownParent(group) {
    const dict = this.group("DICT");
    const row = dict?.rows.find((each) => dict.entry(each, "DICT_TYPE") === "GROUP"
      && dict.entry(each, "DICT_GRP") === group.name);
    return row && this.group(dict.entry(row, "DICT_PGRP"));
  }

  /** Whether a heading is one of this group's own. */
  isOf(heading, group) {
    return heading.startsWith(`${group.name}_`) && group.name !== "FILE" && group.has(heading);
  }

  /** The headings of others that a group has from a parent group. */
  sharedHeadings(group, parent) {
    return group.headings.filter((heading) => !heading.startsWith(`${group.name}_`) && heading !== "FILE_FSET"
      && parent.has(heading));
  }

  /** The row that a row belongs to, as `{ group, row }`; nothing where there is none. */
  parentRow(group, row) {
    const parent = this.parentOf(group);
    if (!parent) return undefined;
    const shared = this.sharedHeadings(group, parent);
    const found = parent.rows.find((other) =>
      shared.every((heading) => parent.entry(other, heading) === group.entry(row, heading)));
    return found && { group: parent, row: found };
  }
}
