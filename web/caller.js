// Who asks: the project and the token, which the tab keeps.

import { breakOff, Register } from "./register.js";
import { byId, endAll, fault, tell } from "./element.js";

const KEPT = "The token is kept in this tab, and in a tab that is duplicated from it, until the tab is closed.";
const leavers = [];

/** Calls this whenever the caller changes, so that nothing of the former one is kept. */
export function whenCallerLeaves(forget) {
  leavers.push(forget);
}

/** The register for the project and token that were typed in; null, and a fault, where none were. */
export function register() {
  const asked = registerIfAny();
  if (asked) return asked;
  fault("Type in the project and your token first.");
  byId(sessionStorage.getItem("project") ? "token" : "project").focus();
  return null;
}

/** The same, without a fault. */
export function registerIfAny() {
  const project = sessionStorage.getItem("project");
  const token = sessionStorage.getItem("token");
  return project && token ? new Register(project, token) : null;
}

function showWho() {
  const asked = registerIfAny();
  byId("project").value = sessionStorage.getItem("project") ?? "";
  byId("token").value = "";
  byId("who-now").textContent = asked ? `Project ${asked.project}, with the token that you typed in. ${KEPT}` : KEPT;
}

/** Takes away all that another caller was shown, and breaks off what is under way. */
function beginAsCaller(text) {
  endAll();
  for (const forget of leavers) forget();
  const broken = breakOff();
  fault("");
  tell(broken ? `${text} What was under way was broken off. A deposit or a withdrawal may have been done.` : text);
  showWho();
}

export function startCaller() {
  byId("who").addEventListener("submit", (event) => {
    event.preventDefault();
    sessionStorage.setItem("project", byId("project").value);
    sessionStorage.setItem("token", byId("token").value);
    beginAsCaller("The project and the token are used from now on.");
  });
  byId("forget").addEventListener("click", () => {
    sessionStorage.clear();
    beginAsCaller("The token is forgotten.");
  });
  showWho();
}
