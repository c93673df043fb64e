// Strata: what they are made of, and the pattern of each.

// A soil or rock: how a code of three digits names it, its colour, and its marks on a tile of 16 by 16.
const KINDS = {
  TOPSOIL: { code: /^101/, colour: "#d9c7a7", marks: "M3,13V8M3,10L1,8M3,10L5,8M11,6V1M11,3L9,1M11,3L13,1" },
  "MADE GROUND": { code: /^102/, colour: "#d6d6d6", marks: "M0,0L16,16M16,0L0,16" },
  CONCRETE: { code: /^104/, colour: "#c9c9c9", marks: "M3,4L6,7L2,8ZM11,11h0.1M12,3h0.1M5,13h0.1M10,7h0.1" },
  CLAY: { code: /^2/, colour: "#e4cfb4", marks: "M0,4H7M9,12H16" },
  SILT: { code: /^3/, colour: "#eadfc8", marks: "M2,2L6,6M6,2L2,6M10,10L14,14M14,10L10,14" },
  SAND: { code: /^4/, colour: "#f7ebb2", marks: "M3,3h0.1M11,3h0.1M7,8h0.1M15,8h0.1M3,13h0.1M11,13h0.1" },
  GRAVEL: { code: /^5/, colour: "#f1dfae", marks: "M6,5a2.4,2.4 0 1 1 -0.1,0M13,12a1.8,1.8 0 1 1 -0.1,0" },
  PEAT: { code: /^6/, colour: "#c9b59b", marks: "M1,6Q4,1 7,6M9,14Q12,9 15,14" },
  COBBLES: { code: /^7/, colour: "#e6d3ae", marks: "M8,3a5,5 0 1 1 -0.1,0" },
  BOULDERS: { code: /^7/, colour: "#e6d3ae", marks: "M8,2a6,6 0 1 1 -0.1,0" },
  MUDSTONE: { code: /^801/, colour: "#cfd3c4", marks: "M0,3H16M0,8H5M8,8H13M0,13H16" },
  SILTSTONE: { code: /^802/, colour: "#d8d6c0", marks: "M0,3H16M0,13H16M3,6L7,10M7,6L3,10" },
  SANDSTONE: { code: /^803/, colour: "#efd9a3", marks: "M0,0H16M3,5h0.1M8,5h0.1M13,5h0.1M5,11h0.1M11,11h0.1" },
  LIMESTONE: { code: /^804/, colour: "#d5e0e8", marks: "M0,0H16M0,8H16M4,0V8M12,8V16" },
  CHALK: { code: /^805/, colour: "#eef3f5", marks: "M0,8H16M5,0V8M12,8V16M0,0H16" },
  COAL: { code: /^806/, colour: "#8a8a8a", marks: "M0,8H16" },
  SHALE: { code: /^81/, colour: "#c4c9bd", marks: "M0,2H16M0,7H16M0,12H16" },
  ROCK: { code: /^[89]/, colour: "#e3d0d0", marks: "M4,1V7M1,4H7M12,9V15M9,12H15" },
};
const NAMES = Object.keys(KINDS);
const TILE = 16;

/** The kinds that a text names: those in capitals, or where none is, those in any case. */
function kindsIn(text) {
  const named = (where) => NAMES.filter((name) => new RegExp(`\\b${name}\\b`).test(where));
  const found = named(text);
  return found.length ? found : named(text.toUpperCase()).slice(0, 1);
}

/** What a stratum is made of: by the description of its GEOL_LEG in ABBR, by that code, or by GEOL_DESC. */
export function kindsOf(described, code, description) {
  const found = kindsIn(described);
  if (found.length) return found;
  const byCode = NAMES.find((name) => /^\d{3}$/.test(code) && KINDS[name].code.test(code));
  return byCode ? [byCode] : kindsIn(description);
}

/** Gives a drawing the patterns of these kinds. */
export function givePatterns(svg, prefix, kinds) {
  const patterns = svg.append("defs").selectAll("pattern").data(kinds).join("pattern")
    .attr("id", (kind) => `${prefix}-${NAMES.indexOf(kind)}`).attr("patternUnits", "userSpaceOnUse")
    .attr("width", TILE).attr("height", TILE);
  patterns.append("path").attr("class", "tile").attr("d", (kind) => KINDS[kind].marks);
}

/** Fills a rectangle with the colour and the patterns of what a stratum is made of. */
export function fill(parent, prefix, kinds, { x, y, width, height }) {
  const box = (paint, name) => parent.append("rect").attr("class", name).attr("x", x).attr("y", y).attr("width", width)
    .attr("height", height).attr("fill", paint);
  box(KINDS[kinds[0]]?.colour ?? "#fff", "stratum");
  for (const kind of kinds) box(`url(#${prefix}-${NAMES.indexOf(kind)})`, "pattern");
}
