// Texts in drawings: how wide they are, and how they are broken into lines.

let pen;
let fontOfPen;

/** The width of a text in a font, as it is drawn. */
export function widthOf(text, font) {
  pen ??= document.createElement("canvas").getContext("2d");
  // To set a font takes longer than to measure a text.
  if (font !== fontOfPen) pen.font = fontOfPen = font;
  return pen.measureText(text).width;
}

/** A text in lines that are no wider than this. A word that is wider is a line of its own. */
export function wrapped(text, width, font) {
  const lines = [];
  for (const word of text.split(/\s+/).filter((each) => each)) {
    const longer = lines.length ? `${lines[lines.length - 1]} ${word}` : word;
    if (lines.length && widthOf(longer, font) <= width) lines[lines.length - 1] = longer;
    else lines.push(word);
  }
  return lines;
}
