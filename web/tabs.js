// Tabs, of which one is chosen: by a click, or by the arrow keys, Home and End.

/** Makes buttons with the role tab into tabs. `choose` is called with the one that is chosen. */
export function tabsOf(buttons, choose) {
  function pick(button) {
    for (const other of buttons) {
      other.setAttribute("aria-selected", String(other === button));
      other.tabIndex = other === button ? 0 : -1;
    }
    choose(button);
  }
  const last = buttons.length - 1;
  buttons.forEach((button, at) => {
    button.addEventListener("click", () => pick(button));
    button.addEventListener("keydown", (event) => {
      const next = { ArrowRight: at === last ? 0 : at + 1, ArrowLeft: at === 0 ? last : at - 1, Home: 0,
        End: last }[event.key];
      if (next === undefined) return;
      event.preventDefault();
      pick(buttons[next]);
      buttons[next].focus();
    });
  });
  return pick;
}
