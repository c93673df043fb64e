// A file is checked.

import { register } from "./caller.js";
import { begin, byId, fault, make, tell } from "./element.js";
import { bytesOf, takesFiles } from "./file.js";
import { showFindings } from "./findings.js";
import { otherKind } from "./ags.js";
import { sentenceFor } from "./register.js";

async function checkFile(file) {
  const asked = register();
  if (!asked) return;
  const task = begin(`Checking ${file.name} ..`, "check-result");
  const bytes = await bytesOf(file);
  if (task.isOver) return;
  if (refused(otherKind(bytes))) return;
  const reply = await asked.check(bytes);
  if (task.isOver) return;
  if (reply.status === 200) {
    byId("check-result").replaceChildren(
      make("p", { class: "clean" }, `clean: ${file.name} breaks no rule that the register checks.`));
    tell("clean");
  } else if (reply.status === 422) {
    await showFindings(task, reply.told.findings, bytes, file.name);
  } else {
    refused(sentenceFor(reply));
  }
}

/** Says why nothing is done, where that is so. */
export function refused(sentence) {
  if (sentence) {
    tell("");
    fault(sentence);
  }
  return sentence !== "";
}

export function startCheck() {
  takesFiles("check-drop", "check-file", checkFile);
}
