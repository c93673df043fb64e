// A file of one's own is looked at. Nothing is sent.

import { groupsOf, otherKind, textOf } from "./ags.js";
import { refused } from "./check.js";
import { begin, tell } from "./element.js";
import { bytesOf, takesFiles } from "./file.js";
import { showView } from "./view.js";

async function lookAt(file) {
  const task = begin(`Reading ${file.name} ..`, "look-result");
  const bytes = await bytesOf(file);
  if (task.isOver || refused(otherKind(bytes))) return;
  const groups = groupsOf(textOf(bytes));
  if (refused(groups.length ? "" : "The file has no GROUP row of AGS4, so nothing of it can be shown.")) return;
  tell("");
  showView(task, { title: file.name, file: file.name, bytes, groups, source: `file ${file.name}, not a deposit` });
}

export function startLook() {
  takesFiles("look-drop", "look-file", lookAt);
}
