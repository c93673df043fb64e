// AGS4 files as text: lines, fields, groups.

/** The text of a file's bytes: UTF-8, or where they are not that, Windows-1252, in which each byte is a character. */
export function textOf(bytes) {
  try {
    return new TextDecoder("utf-8", { fatal: true }).decode(bytes);
  } catch {
    return new TextDecoder("windows-1252").decode(bytes);
  }
}

const startsWith = (bytes, ...values) => values.every((value, at) => bytes[at] === value);

/** What a file is that is no AGS text at all, in a sentence; nothing where it may be one. */
export function otherKind(bytes) {
  if (startsWith(bytes, 0x50, 0x4b, 3, 4)) {
    return "The file is a workbook (.xlsx) or a ZIP archive. Export it as AGS4, or take the AGS file out of it.";
  }
  if (startsWith(bytes, 0xd0, 0xcf, 0x11, 0xe0)) return "The file is a workbook (.xls). Export it as AGS4.";
  if (startsWith(bytes, 0x25, 0x50, 0x44, 0x46)) return "The file is a PDF, and no AGS text.";
  if (startsWith(bytes, 0x1f, 0x8b)) return "The file is packed by gzip. Unpack it first.";
  const head = bytes.subarray(0, 400);
  if (startsWith(bytes, 0xff, 0xfe) || startsWith(bytes, 0xfe, 0xff)
      || head.length > 20 && head.filter((byte) => byte === 0).length * 3 > head.length) {
    return "The file is UTF-16 (\"Unicode text\" of a spreadsheet). Save it as plain text in ASCII, with CR LF.";
  }
  return "";
}

/** The lines of a text, without their ends and without the mark before the first. */
export function linesOf(text) {
  return text.replace(/^\ufeff/, "").split("\n").map((line) => line.endsWith("\r") ? line.slice(0, -1) : line);
}

/** The quoted fields of a line: where each begins and ends, and its entry. */
export function fieldsOf(line) {
  const found = [];
  const field = / *"((?:[^"]|"")*)" *(,|$)/y;
  for (let match = field.exec(line); match; match = match[2] ? field.exec(line) : null) {
    const begin = match.index + match[0].indexOf('"');
    found.push({ begin, end: begin + match[1].length + 2, entry: match[1].replaceAll('""', '"') });
  }
  return found;
}

/** The entries of a line. */
export function entriesOf(line) {
  // Where no entry has a quote, the line parts at these three characters: ten times as fast as field by field.
  if (line.startsWith('"') && line.endsWith('"')) {
    const parts = line.slice(1, -1).split('","');
    if (!parts.some((part) => part.includes('"'))) return parts;
  }
  return fieldsOf(line).map((field) => field.entry);
}

/** The lines of a file in which findings are, with its HEADING rows looked up once. */
export class Lines {
  constructor(bytes) {
    this.lines = linesOf(textOf(bytes));
    this.headings = [];
    this.lines.forEach((line, at) => {
      if (line.includes('"HEADING"') && entriesOf(line)[0] === "HEADING") this.headings.push(at + 1);
    });
  }

  line(number) {
    return this.lines[number - 1];
  }

  /** The entries of the HEADING row that a line is under. `number` counts from 1. */
  headingsOf(number) {
    const at = d3.bisectRight(this.headings, number) - 1;
    return at < 0 ? [] : entriesOf(this.line(this.headings[at]));
  }

  /** Where in its line a finding is: the field under the heading that is its subject, or a field that is its subject;
   * null where it is not known. */
  place(finding) {
    if (finding.subject === "") return null;
    const fields = fieldsOf(this.line(finding.line) ?? "");
    const under = this.headingsOf(finding.line).indexOf(finding.subject);
    return fields[under] ?? fields.find((field) => field.entry === finding.subject) ?? null;
  }
}

/** A group: its headings with units and types, and its rows of entries. */
export class Group {
  constructor(name) {
    this.name = name;
    this.headings = [];
    this.units = [];
    this.types = [];
    this.rows = [];
  }

  has(...headings) {
    return headings.every((heading) => this.headings.includes(heading));
  }

  /** The entry of a row under a heading; nothing where the group has no such heading. */
  entry(row, heading) {
    return row[this.headings.indexOf(heading)] ?? "";
  }

  unit(heading) {
    return this.units[this.headings.indexOf(heading)] ?? "";
  }

  type(heading) {
    return this.types[this.headings.indexOf(heading)] ?? "";
  }
}

const KEPT_AS = { HEADING: "headings", UNIT: "units", TYPE: "types" };

/** The groups of a file in their order. A file with findings may have rows without a group, which are left out. */
export function groupsOf(text) {
  const groups = [];
  for (const line of linesOf(text)) {
    const [kind, ...entries] = entriesOf(line);
    const group = groups[groups.length - 1];
    if (kind === "GROUP" && entries.length) groups.push(new Group(entries[0]));
    else if (group && kind === "DATA") group.rows.push(entries);
    else if (group && kind in KEPT_AS) group[KEPT_AS[kind]] = entries;
  }
  return groups;
}
