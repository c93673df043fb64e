// Elements of the page, and what it says. Texts of files and of the register are only ever put in as text.

export const byId = (id) => document.getElementById(id);

// So long is a word at most that is kept whole, and a text whose words are.
const [LONGEST_WORD, LONGEST_TEXT] = [32, 4000];

/** A text in parts: each word of it that has a digit is an element of its own, which stays in one line. A browser would
 * break a day at its hyphen, and a table would cut a number that is in a text. */
function unbroken(text) {
  if (typeof text !== "string" || text.length > LONGEST_TEXT || !/\d/.test(text) || !/[-/\s]/.test(text)) return [text];
  return text.split(/(\s+)/).map((word) => {
    if (!/\d/.test(word) || word.length > LONGEST_WORD) return word;
    const element = document.createElement("span");
    element.className = "together";
    element.append(word);
    return element;
  });
}

/** An element with attributes and children: elements, or texts. A function is a listener of the event of its name. */
export function make(name, attributes = {}, ...children) {
  const element = document.createElement(name);
  for (const [key, value] of Object.entries(attributes)) {
    if (typeof value === "function") element.addEventListener(key, value);
    else if (value !== null && value !== false) element.setAttribute(key, value === true ? "" : value);
  }
  element.append(...name === "option" ? children : children.flatMap(unbroken));
  return element;
}

/** A small drawing of a path in a colour, for a legend. */
export function swatchOf(path, colour) {
  const swatch = d3.create("svg").attr("class", "swatch").attr("viewBox", "-8 -8 16 16").attr("aria-hidden", "true");
  swatch.append("path").attr("d", path).attr("fill", colour);
  return swatch.node();
}

export function tell(text) {
  byId("status").textContent = text;
}

export function fault(text) {
  byId("fault").textContent = text;
}

/** `1 row`, `2 rows`, `12,000 rows`. */
export const counted = (number, noun) => `${number.toLocaleString("en-GB")} ${noun}${number === 1 ? "" : "s"}`;

/** A failure whose message is the sentence for whoever uses the page. */
export class Failure extends Error {}

// How many tasks were begun in each place of results.
const begun = new Map();

/** What is under way in a place of results. It is over once another one begins there, or the caller changes: then its
 * late answer is for nobody. */
class Task {
  constructor(place) {
    this.place = place;
    this.number = (begun.get(place) ?? 0) + 1;
    begun.set(place, this.number);
  }

  get isOver() {
    return begun.get(this.place) !== this.number;
  }
}

/** Clears what was reported before, and says what is under way. */
export function begin(text, place) {
  fault("");
  tell(text);
  byId(place).replaceChildren();
  return new Task(place);
}

/** Ends all tasks, and takes away what they have shown. */
export function endAll() {
  for (const [place, number] of begun) {
    begun.set(place, number + 1);
    byId(place).replaceChildren();
  }
}

/** Offers bytes or a text as a file to keep. */
export function save(name, type, parts) {
  const url = URL.createObjectURL(new Blob(parts, { type }));
  make("a", { href: url, download: name }).click();
  setTimeout(() => URL.revokeObjectURL(url), 1000);
}

/** Copies a text, and says `done`, or that the browser did not do it. */
export async function copy(text, done) {
  try {
    await navigator.clipboard.writeText(text);
    tell(done);
  } catch {
    tell("");
    fault("The browser did not copy it. Mark the text and copy it by hand.");
  }
}

/** Asks a question, and gives whether the answer is yes. */
export function agreed(question, details, yes, no) {
  const dialog = byId("question");
  byId("question-text").textContent = question;
  byId("question-list").replaceChildren(...details.map((text) => make("li", {}, text)));
  byId("question-yes").textContent = yes;
  byId("question-no").textContent = no;
  dialog.returnValue = "no";
  dialog.showModal();
  return new Promise((resolve) => {
    dialog.addEventListener("close", () => resolve(dialog.returnValue === "yes"), { once: true });
  });
}
