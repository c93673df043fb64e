// A file is checked and deposited.

import { otherKind } from "./ags.js";
import { register, whenCallerLeaves } from "./caller.js";
import { refused } from "./check.js";
import { agreed, begin, byId, copy, fault, make, tell } from "./element.js";
import { bytesOf, takesFiles } from "./file.js";
import { showFindings } from "./findings.js";
import { keepReceipt } from "./list.js";
import { sentenceFor } from "./register.js";
import { unusual } from "./unusual.js";

function showProgress(loaded, total) {
  byId("progress").hidden = byId("progress-label").hidden = false;
  byId("progress").max = total;
  byId("progress").value = loaded;
}

export function hideProgress() {
  byId("progress").hidden = byId("progress-label").hidden = true;
}

function showReceipt(name, told) {
  const text = `receipt ${told.number} ${told.embargo}`;
  byId("deposit-result").replaceChildren(
    make("p", { class: "receipt" }, `${name} is deposit ${told.number}, free from ${told.embargo}.`),
    make("p", {}, make("code", { class: "receipt-text" }, text)),
    make("button", { type: "button", class: "plain", click: () => copy(text, "The receipt is copied.") },
      "Copy the receipt"));
  tell(`Deposit ${told.number}.`);
}

/** Whether a clean file is sent: what is unusual of it is asked first. */
async function isMeant(task, asked, file, bytes) {
  const said = await unusual(task, asked, bytes);
  if (task.isOver) return false;
  return said.length === 0
    || agreed(`Deposit ${file.name} into project ${asked.project}?`, said, "Deposit it", "Do not deposit it");
}

async function depositFile(file, embargo) {
  const asked = register();
  if (!asked) return;
  const task = begin(`Checking ${file.name} ..`, "deposit-result");
  const bytes = await bytesOf(file);
  if (task.isOver || refused(otherKind(bytes))) return;
  const checked = await asked.check(bytes);
  if (task.isOver) return;
  if (checked.status === 422) return showFindings(task, checked.told.findings, bytes, file.name);
  // A caller whom the policy denies a check may still deposit: the register looks at the file again in any case.
  if (checked.status !== 200 && checked.status !== 403) return refused(sentenceFor(checked));
  if (!await isMeant(task, asked, file, bytes)) {
    if (!task.isOver) tell("Nothing was deposited.");
    return;
  }
  tell(`Sending ${file.name} ..`);
  const reply = await asked.deposit(bytes, embargo, showProgress);
  hideProgress();
  if (task.isOver) return;
  if (reply.status === 422) return showFindings(task, reply.told.findings, bytes, file.name);
  if (reply.status !== 200) return refused(sentenceFor(reply));
  keepReceipt(reply.told.number);
  showReceipt(file.name, reply.told);
}

/** Shows the name of the chosen file beside the project. */
function showInto() {
  const [file] = byId("deposit-file").files;
  const project = sessionStorage.getItem("project") ?? "(none yet)";
  byId("deposit-into").textContent = file ? `${file.name}, into project ${project}` : "";
}

export function startDeposit() {
  takesFiles("deposit-drop", "deposit-file", () => {
    begin("", "deposit-result");
    showInto();
  });
  whenCallerLeaves(() => {
    showInto();
    hideProgress();
  });
  byId("deposit-form").addEventListener("submit", (event) => {
    event.preventDefault();
    const [file] = byId("deposit-file").files;
    if (file) depositFile(file, byId("embargo").value);
    else fault("Choose a file first.");
  });
}
