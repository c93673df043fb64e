// The deposits that the caller sees: what each is, and what is done with it.

import { groupsOf, textOf } from "./ags.js";
import { register, whenCallerLeaves } from "./caller.js";
import { refused } from "./check.js";
import { agreed, begin, byId, counted, fault, make, tell } from "./element.js";
import { sentenceFor } from "./register.js";
import { summary } from "./summary.js";
import { Table } from "./table.js";
import { showView } from "./view.js";

const GROUPS_FORM = "Groups in capitals, with commas: LOCA,SAMP";
// Numbers of deposits that this caller has a receipt for.
let receipts = new Set();
// Whether the policy may let this caller withdraw: true until it denied that once.
let mayWithdraw = true;
let deposits = [];
let table = null;
let query = "";

whenCallerLeaves(() => {
  receipts = new Set();
  mayWithdraw = true;
  deposits = [];
  table = null;
  query = "";
});

export const keepReceipt = (number) => receipts.add(number);

const today = () => new Date().toISOString().slice(0, 10);

/** The caller's firm, where a receipt tells it. */
const ownFirm = () => deposits.find((each) => receipts.has(each.number))?.firm;

/** A deposit that another firm is known to have sent is never offered for withdrawal. */
const isOffered = (each) => mayWithdraw && (ownFirm() === undefined || each.firm === ownFirm());

const showing = (each) => make("button", { type: "button", "data-extract": String(each.number),
  click: () => draw(each) }, `Show ${each.number}`);
const withdrawal = (each) => isOffered(each) ? make("button", { type: "button", class: "plain",
  "data-withdraw": String(each.number), click: () => withdraw(each) }, `Withdraw ${each.number}`) : "";

const about = (key) => (each) => each.about?.[key] ?? (each.about === undefined ? ".." : "");
const COLUMNS = [
  { name: "Number", width: 7, isNumber: true, text: (each) => String(each.number) },
  { name: "Deposit", width: 9, isAction: true, text: () => "", cell: showing },
  { name: "Firm", width: 8, text: (each) => each.firm },
  { name: "Project", width: 8, title: "PROJ_ID", text: about("project") },
  { name: "Name", width: 16, title: "PROJ_NAME", text: about("name") },
  { name: "Issue", width: 6, title: "TRAN_ISNO", text: about("issue") },
  { name: "Date", width: 10, title: "TRAN_DATE", text: about("date") },
  { name: "Status", width: 7, title: "TRAN_STAT", text: about("status") },
  { name: "Description", width: 20, title: "TRAN_DESC", text: about("description") },
  { name: "Boreholes", width: 10, isNumber: true, title: "rows of LOCA",
    text: (each) => each.about ? String(each.about.boreholes.length) : about("")(each) },
  { name: "Free from", width: 24, text: (each) => each.embargo > today() ? `${each.embargo} (under embargo)`
    : each.embargo },
  { name: "Withdraw", width: 13, isAction: true, text: () => "", cell: withdrawal },
];

/** Reads what these deposits are, and shows it as it comes. */
async function readAbout(task, asked, some) {
  const unread = some.filter((each) => each.about === undefined);
  await Promise.all(unread.map(async (each) => {
    const read = await summary(asked, each.number);
    if (task.isOver) return;
    each.about = read;
    table.update(each);
  }));
}

/** Shows the deposits with what was typed in an entry or in the name of a borehole. */
async function find(task, asked, typed) {
  query = typed.trim().toLowerCase();
  await readAbout(task, asked, deposits);
  if (task.isOver) return;
  const boreholes = (each) => (each.about?.boreholes ?? []).map((borehole) => borehole.name)
    .filter((name) => name.toLowerCase().includes(query));
  const found = deposits.filter((each) => boreholes(each).length
    || COLUMNS.some((column) => column.text(each).toLowerCase().includes(query)));
  table.setRows(found);
  const names = query ? found.filter((each) => boreholes(each).length)
    .map((each) => `${boreholes(each).slice(0, 5).join(", ")} in deposit ${each.number}`) : [];
  byId("found").textContent = names.length ? `${names.slice(0, 10).join("; ")}.` : "";
}

const hintOfWithdrawal = () => !mayWithdraw || !deposits.length ? ""
  : ownFirm() ? `Withdraw, in the last column: deposits of ${ownFirm()} alone.`
    : "Withdraw, in the last column: a firm withdraws its own deposits alone. Which firm you are is known once you "
      + "have a receipt here.";

function showDeposits(task, asked) {
  table = new Table({ name: "Deposits", noun: "deposit", columns: COLUMNS, rows: deposits,
    seen: (rows) => readAbout(task, asked, rows), all: () => readAbout(task, asked, deposits) });
  byId("deposits-result").replaceChildren(
    make("div", { class: "actions" },
      make("label", {}, "Find ", make("input", { type: "search", id: "find", autocomplete: "off",
        title: "A part of an entry, or of the name of a borehole in any deposit",
        input: (event) => find(task, asked, event.target.value) })),
      make("label", {}, "Groups of an extract ", make("input", { type: "text", id: "groups", title: GROUPS_FORM,
        placeholder: "all groups", autocomplete: "off" }))),
    make("p", { id: "found", role: "status" }), make("p", { class: "hint", id: "who-withdraws" }, hintOfWithdrawal()),
    table.element);
  table.draw();
}

/** Shows the deposits, and gives whether the register gave them. */
async function list() {
  const asked = register();
  if (!asked) return false;
  const task = begin("Asking ..", "deposits-result");
  byId("extract-result").replaceChildren();
  const reply = await asked.deposits();
  if (task.isOver) return false;
  tell("");
  if (reply.status !== 200) return !refused(sentenceFor(reply));
  ({ deposits } = reply.told);
  showDeposits(task, asked);
  tell(`${counted(deposits.length, "deposit")}.`);
  return true;
}

async function withdraw(each) {
  const asked = register();
  if (!asked) return;
  const isOwn = ownFirm() ? [] : [`It is ${each.firm} that sent it: only that firm can withdraw it. Go on if that is `
    + "your firm."];
  if (!await agreed(`Withdraw deposit ${each.number} of ${each.firm}?`, [...isOwn,
    "It stays kept, but nobody can list it or get an extract of it again.", "This cannot be undone."],
  "Withdraw it", "Keep it")) return;
  const task = begin(`Withdrawing deposit ${each.number} ..`, "extract-result");
  const reply = await asked.withdraw(each.number);
  if (task.isOver) return;
  if (reply.status === 200) {
    if (await list()) tell(`Deposit ${each.number} is withdrawn.`);
    return;
  }
  if (reply.status === 403) {
    mayWithdraw = false;
    byId("who-withdraws").textContent = "";
    table.body.replaceChildren();
    table.draw();
  }
  refused(reply.status === 404
    ? `Deposit ${each.number} is not your firm's: only the firm that sent it can withdraw it.` : sentenceFor(reply));
}

async function draw(each) {
  const asked = register();
  if (!asked) return;
  const field = byId("groups");
  const groups = field.value.split(",").map((name) => name.trim()).filter((name) => name);
  if (!groups.every((name) => /^[A-Z0-9]{1,4}$/.test(name))) {
    tell("");
    fault(`${GROUPS_FORM}.`);
    field.focus();
    return;
  }
  const task = begin(`Drawing the extract of deposit ${each.number} ..`, "extract-result");
  const reply = await asked.extract(each.number, groups);
  if (task.isOver) return;
  if (refused(reply.status === 200 ? "" : sentenceFor(reply))) return;
  showView(task, { title: `Extract of deposit ${each.number}`, file: `deposit-${each.number}.ags`, bytes: reply.bytes,
    groups: groupsOf(textOf(reply.bytes)), isExtract: true,
    source: `project ${asked.project}, deposit ${each.number} of ${each.firm}` });
  byId(task.place).scrollIntoView({ block: "start" });
}

export function startList() {
  byId("list").addEventListener("click", list);
}
