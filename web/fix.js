// A file with findings is fixed, as far as that is possible without a loss, by the service bin/assist.

import { fixed, offered } from "./assist.js";
import { counted, make, save, tell } from "./element.js";

const linesOf = (change) => change.count > change.lines.length
  ? `lines ${change.lines.join(", ")} and ${(change.count - change.lines.length).toLocaleString("en-GB")} more`
  : `line${change.count === 1 ? "" : "s"} ${change.lines.join(", ")}`;

function shownFix(told, name) {
  const rest = told.clean ? "It has no findings left. Check it before it is deposited."
    : `${counted(told.remaining, "finding")} left, which need a person. Check it to see them.`;
  return [make("p", { class: "fixed" }, `${counted(told.changes.length, "change")} made. ${rest}`),
    make("ul", {}, ...told.changes.map((change) => make("li", {},
      `Rule ${change.code}: ${change.about} (${counted(change.count, "time")}, ${linesOf(change)})`))),
    make("button", { type: "button", "data-save": "fixed",
      click: () => save(`fixed-${name}`, "text/plain", [told.data]) }, "Save the fixed file")];
}

/** Offers to fix a file, where there is the service. */
export async function offerFix(task, place, bytes, name) {
  if (!(await offered()).includes("fix") || task.isOver) return;
  const button = make("button", { type: "button", class: "plain", "data-act": "fix", click: async () => {
    button.disabled = true;
    tell(`Fixing ${name} ..`);
    const told = await fixed(bytes);
    if (task.isOver) return;
    tell("");
    place.replaceChildren(...told?.changes.length ? shownFix(told, name)
      : [make("p", { class: "fixed" }, "Nothing of it can be fixed without a person.")]);
  } }, "Fix what can be fixed");
  place.replaceChildren(button);
}
