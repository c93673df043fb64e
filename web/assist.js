// The service bin/assist beside the register, which an office may have or not.

let known;

/** What the service answers; nothing where there is none. It is asked once. */
export function offered() {
  known ??= fetch("assist/").then((reply) => reply.ok ? reply.json() : { answers: [] }).then((told) => told.answers)
    .catch(() => []);
  return known;
}

/** The bytes of the service's answer to a file; null where there is no service, or it has no answer. */
async function answerTo(name, bytes) {
  if (!(await offered()).includes(name)) return null;
  try {
    const reply = await fetch(`assist/${name}`, { method: "POST", body: bytes });
    return reply.ok ? new Uint8Array(await reply.arrayBuffer()) : null;
  } catch {
    return null;
  }
}

const parsed = (bytes) => JSON.parse(new TextDecoder().decode(bytes));

/** The causes of a file's findings, or null. */
export async function explained(bytes) {
  const answer = await answerTo("explain", bytes);
  return answer && parsed(answer);
}

/** The file as far as it could be fixed, with what was changed, or null. */
export async function fixed(bytes) {
  const answer = await answerTo("fix", bytes);
  if (!answer) return null;
  const end = answer.indexOf(10);
  return { ...parsed(answer.subarray(0, end)), data: answer.slice(end + 1) };
}

/** The file as a workbook, or null. */
export const workbook = (bytes) => answerTo("tables", bytes);
