// A table of any length: only the rows in sight are drawn. It is sorted and filtered by its columns.

import { counted, make } from "./element.js";
import { csvOf } from "./csv.js";
import { numberOf } from "./number.js";

const SPARE = 10;
const WIDEST = 48;
const collator = new Intl.Collator("en", { numeric: true });

/** Whether an entry holds what was typed above its column: `> 5`, `= FINAL`, or a part of it in any case. */
function holds(entry, typed) {
  const [, sign, rest] = typed.trim().match(/^(<=|>=|<|>|=)?\s*(.*)$/);
  if (rest === "" && sign !== "=") return true;
  if (sign === "=") return entry.toLowerCase() === rest.toLowerCase();
  if (!sign) return entry.toLowerCase().includes(rest.toLowerCase());
  const [a, b] = [numberOf(entry), numberOf(rest)];
  if (a === null || b === null) return false;
  return { "<": a < b, "<=": a <= b, ">": a > b, ">=": a >= b }[sign];
}

/** Columns are `{ name, unit, title, isNumber, text, cell }`: `text` gives the entry of a row, and `cell`, where there
 * is one, what is drawn of it. `seen` is called with the rows that are in sight, and `all` before all rows are sorted
 * or filtered, which waits for it. */
export class Table {
  constructor({ name, noun, columns, rows, seen = () => {}, all = async () => {} }) {
    Object.assign(this, { name, noun, columns, rows, seen, all, by: null, falls: false, shown: rows });
    this.typed = columns.map(() => "");
    [this.keys, this.keyed] = [new WeakMap(), 0];
    this.caption = make("p", { class: "caption", role: "status" });
    this.body = make("tbody");
    this.above = make("tbody", { class: "space" }, make("tr", { role: "presentation" }));
    this.below = make("tbody", { class: "space" }, make("tr", { role: "presentation" }));
    this.head = make("tr", {});
    this.filters = make("tr", { class: "filters" });
    this.table = make("table", { "aria-label": name }, this.widths(), make("thead", {}, this.head, this.filters),
      this.above, this.body, this.below);
    this.table.style.width = this.width;
    this.frame = make("div", { class: "scroll rows", tabindex: "0", role: "region", "aria-label": `Rows: ${name}`,
      scroll: () => this.later() }, this.table);
    this.element = make("div", { class: "table" }, this.caption, this.frame);
    this.row = 2 * parseFloat(getComputedStyle(document.documentElement).fontSize);
    this.drawHead();
    this.choose();
    new ResizeObserver(() => this.later()).observe(this.frame);
  }

  /** Each column is as wide as its longest entry or its heading, up to a limit. */
  widths() {
    const size = (column) => Math.min(WIDEST, Math.max(column.name.length + 4, 8,
      d3.max(this.rows, (row) => column.text(row).length) ?? 0));
    const sizes = this.columns.map((column) => (column.width ?? size(column)) + 2);
    this.width = `${d3.sum(sizes)}ch`;
    return make("colgroup", {}, ...sizes.map((each) => {
      const col = make("col");
      col.style.width = `${each}ch`;
      return col;
    }));
  }

  drawHead() {
    this.head.replaceChildren(...this.columns.map((column, at) => make("th", { scope: "col",
      "aria-sort": this.by === column ? (this.falls ? "descending" : "ascending") : "none" },
      column.isAction ? column.name : this.sorter(column, at), make("span", { class: "unit" }, column.unit || " "))));
    if (this.filters.childElementCount) return;
    this.filters.append(...this.columns.map((column, at) =>
      make("td", {}, column.isAction ? "" : this.filter(column, at))));
  }

  sorter(column, at) {
    return make("button", { type: "button", title: column.title ?? null, "data-key": column.name,
      click: () => this.sortBy(at) }, column.name);
  }

  filter(column, at) {
    return make("input", { type: "text", size: "4", "aria-label": `Filter ${column.name}`, placeholder: "filter",
      "data-filter": column.name, autocomplete: "off", title: "A part of the entry, or > 5, <= 5, = FINAL",
      input: (event) => this.filterBy(at, event.target.value) });
  }

  async sortBy(at) {
    const column = this.columns[at];
    this.falls = this.by === column && !this.falls;
    this.by = column;
    await this.all();
    this.choose();
    this.drawHead();
    this.head.cells[at].firstElementChild.focus();
  }

  async filterBy(at, typed) {
    this.typed[at] = typed;
    await this.all();
    this.choose();
  }

  /** Filters and sorts the rows, and draws. */
  choose() {
    const typed = this.typed.map((text, at) => [this.columns[at], text]).filter(([, text]) => text.trim());
    this.shown = this.rows.filter((row) => typed.every(([column, text]) => holds(column.text(row), text)));
    if (this.by) {
      const way = this.falls ? -1 : 1;
      const { text, isNumber } = this.by;
      const compare = (a, b) => isNumber ? (numberOf(text(a)) ?? -Infinity) - (numberOf(text(b)) ?? -Infinity) || 0
        : collator.compare(text(a), text(b));
      this.shown = this.shown.map((row, number) => [row, number])
        .sort(([a, m], [b, n]) => way * compare(a, b) || m - n).map(([row]) => row);
    }
    this.caption.textContent = this.shown.length === this.rows.length ? counted(this.rows.length, this.noun)
      : `${counted(this.shown.length, this.noun)} of ${this.rows.length.toLocaleString("en-GB")}`;
    this.table.setAttribute("aria-rowcount", String(this.shown.length + 1));
    this.draw();
  }

  later() {
    this.asked ??= requestAnimationFrame(() => {
      this.asked = undefined;
      this.draw();
    });
  }

  /** Draws the rows in sight. A row that is drawn already stays, with the focus that it may have. */
  draw() {
    const height = this.frame.clientHeight || 600;
    const first = Math.max(0, Math.floor(this.frame.scrollTop / this.row) - SPARE);
    const drawn = this.shown.slice(first, first + Math.ceil(height / this.row) + 2 * SPARE);
    this.above.firstElementChild.style.height = `${first * this.row}px`;
    this.below.firstElementChild.style.height = `${(this.shown.length - first - drawn.length) * this.row}px`;
    d3.select(this.body).selectAll("tr").data(drawn, (row) => this.keyOf(row))
      .join((enter) => enter.append((row) => this.rowOf(row))).order()
      .attr("aria-rowindex", (_, at) => first + at + 2);
    this.seen(drawn);
  }

  /** A number for each row, by which it is found again among those that are drawn. */
  keyOf(row) {
    if (!this.keys.has(row)) this.keys.set(row, this.keyed += 1);
    return this.keys.get(row);
  }

  rowOf(row) {
    return make("tr", {}, ...this.columns.map((column) => this.cellOf(column, row)));
  }

  cellOf(column, row) {
    return make("td", { class: column.isNumber ? "number" : null, title: column.cell ? null : column.text(row) },
      column.cell ? column.cell(row) : column.text(row));
  }

  /** Draws the entries of a row again, which have changed, if it is in sight. */
  update(row) {
    d3.select(this.body).selectAll("tr").filter((drawn) => drawn === row).each((_, at, rows) => {
      this.columns.forEach((column, number) => {
        if (!column.isAction) rows[at].cells[number].replaceWith(this.cellOf(column, row));
      });
    });
  }

  /** Has these rows instead. */
  setRows(rows) {
    this.rows = rows;
    this.frame.scrollTop = 0;
    this.choose();
  }

  /** What is shown, as CSV: a row of headings, and a row for each row. */
  csv() {
    const columns = this.columns.filter((column) => !column.isAction);
    return csvOf([columns.map((column) => column.name),
      ...this.shown.map((row) => columns.map((column) => column.text(row)))]);
  }
}
