// Numbers as AGS4 has them.

const NUMBER = /^[-+]?(\d+\.?\d*|\.\d+)([eE][-+]?\d+)?$/;
const NUMERIC_TYPE = /^(\d+(DP|SF|SCI)|MC|XN|U)$/;

/** The number that an entry is, or null. */
export function numberOf(entry) {
  const text = (entry ?? "").trim();
  return NUMBER.test(text) ? Number(text) : null;
}

/** Whether the entries under a heading of this TYPE are numbers. Under XN and U they may be. */
export const isNumericType = (type) => NUMERIC_TYPE.test(type);
