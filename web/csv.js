// Rows as CSV (RFC 4180), for a spreadsheet.

import { numberOf } from "./number.js";

/** An entry as a field. A spreadsheet takes a text that begins with one of these characters for a formula. So where it
 * is no number, an apostrophe makes it text. */
function fieldOf(entry) {
  const text = String(entry);
  const safe = /^[=+\-@\t\r]/.test(text) && numberOf(text) === null ? `'${text}` : text;
  return `"${safe.replaceAll('"', '""')}"`;
}

/** The CSV of rows of entries. */
export function csvOf(rows) {
  return rows.map((row) => `${row.map(fieldOf).join(",")}\r\n`).join("");
}
