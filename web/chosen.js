// The borehole that is chosen, which the plan and the log share.

import { make } from "./element.js";

export class Chosen {
  constructor(ground) {
    this.ground = ground;
    this.listeners = [];
    this.list = make("select", { "data-choice": "borehole", change: () => this.choose(this.list.value) },
      ...ground.boreholes.map(({ name }) => make("option", { value: name }, name)));
    this.label = make("label", {}, "Borehole ", this.list);
    this.card = make("div", { class: "card", role: "region", "aria-label": "The borehole that is chosen" });
    this.name = ground.boreholes[0]?.name;
    this.show();
  }

  /** Calls with the name of each borehole that is chosen from now on, until another view is shown. */
  whenChosen(listener) {
    this.listeners.push(listener);
  }

  forget() {
    this.listeners = [];
  }

  choose(name) {
    this.name = name;
    this.list.value = name;
    this.show();
    for (const listener of this.listeners) listener(name);
  }

  /** Shows the entries of its row of LOCA, but the empty ones. */
  show() {
    const loca = this.ground.group("LOCA");
    const borehole = this.ground.byBorehole.get(this.name);
    if (!borehole) return;
    // The unit of a day is its form, which the entry shows.
    const unitAt = (at) => /^(yyyy|hh)/.test(loca.units[at] ?? "") ? "" : loca.units[at] ?? "";
    const rows = loca.headings.map((heading, at) => [heading, borehole.row[at] ?? "", unitAt(at)])
      .filter(([, entry]) => entry !== "");
    const shown = rows.flatMap(([heading, entry, unit]) => [make("dt", {}, heading),
      make("dd", {}, `${this.ground.withDescription(heading, entry)} ${unit}`.trim())]);
    this.card.replaceChildren(make("h4", {}, borehole.name), make("dl", {}, ...shown));
  }
}
