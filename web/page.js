// The page: its tabs, and what each of them starts.

import { startCaller } from "./caller.js";
import { startCheck } from "./check.js";
import { hideProgress, startDeposit } from "./deposit.js";
import { byId, Failure, fault, tell } from "./element.js";
import { startList } from "./list.js";
import { startLook } from "./look.js";
import { tabsOf } from "./tabs.js";

/** Says what a step of the page failed of. */
function sayWhy(event, why) {
  event.preventDefault();
  hideProgress();
  tell("");
  fault(why instanceof Failure ? why.message
    : `This page failed (${why?.message ?? why}). Load it again, then send a deposit again: it is not kept twice.`);
}

// Each step is a promise that nobody waits for, or answers a key or a click. So this one place says why any failed.
window.addEventListener("unhandledrejection", (event) => sayWhy(event, event.reason));
window.addEventListener("error", (event) => sayWhy(event, event.error));

const tabs = [...document.querySelectorAll("#tabs [role=tab]")];

tabsOf(tabs, (tab) => {
  for (const other of tabs) byId(other.getAttribute("aria-controls")).hidden = other !== tab;
  fault("");
  tell("");
});
startCaller();
startCheck();
startDeposit();
startList();
startLook();
// Until here a form would be sent by the browser itself.
for (const button of document.querySelectorAll("button[disabled]")) button.disabled = false;
