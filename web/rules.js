// The rules of AGS4, as docs/RULES.md has them.

let rules = {};

/** Settles once the rules are there, or cannot be had. */
export const rulesLoaded = fetch("rules.json").then((answer) => answer.json()).then((read) => { rules = read; })
  .catch(() => {});

/** Title, rule and fix of a code. */
export const ruleOf = (code) => rules[code] ?? { title: "", rule: "", fix: "" };
