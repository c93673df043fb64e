// What is shown of a file or an extract: plan, log, numbers against depth, and tables.

import { Chosen } from "./chosen.js";
import { showDepth } from "./depth.js";
import { byId, counted, make, save, tell } from "./element.js";
import { Ground } from "./ground.js";
import { showLog } from "./log.js";
import { showPlan } from "./plan.js";
import { showTables } from "./tables.js";
import { tabsOf } from "./tabs.js";

const PANELS = [["Plan", showPlan], ["Log", showLog], ["Against depth", showDepth], ["Tables", showTables]];
let views = 0;

/** Shows a file: `{ title, file, bytes, groups, source, isExtract }`. Its source is in the foot of a log. */
export function showView(task, shown) {
  const ground = new Ground(shown.groups);
  const chosen = new Chosen(ground);
  const number = views += 1;
  const panel = make("div", { role: "tabpanel", id: `view-${number}` });
  const buttons = PANELS.map(([name], at) => make("button", { type: "button", role: "tab", id: `view-${number}-${at}`,
    "aria-controls": panel.id, "data-view": name }, name));
  const actions = make("div", { class: "actions" }, ...ground.boreholes.length ? [chosen.label] : [],
    make("button", { type: "button", class: "plain", "data-save": shown.file,
      click: () => save(shown.file, "text/plain", [shown.bytes]) }, "Save the file"));
  byId(task.place).replaceChildren(make("h3", { class: "title" }, shown.title), actions,
    make("div", { role: "tablist", "aria-label": `Views of ${shown.title}` }, ...buttons), panel);
  const pick = tabsOf(buttons, (button) => {
    panel.setAttribute("aria-labelledby", button.id);
    panel.replaceChildren();
    chosen.forget();
    PANELS[buttons.indexOf(button)][1](panel, ground, chosen, shown);
  });
  pick(buttons[ground.grid ? 0 : PANELS.length - 1]);
  tell(`${shown.title}: ${counted(shown.groups.length, "group")}, ${counted(ground.boreholes.length, "borehole")}.`);
}
