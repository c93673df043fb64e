// The register over HTTP, for one project and one token. Each call answers `{status, bytes, told}`: `told` is the JSON
// of the reply, or null.

import { textOf } from "./ags.js";

/** What each refusal means, and what to do. The texts are the register's; the sentences are this page's own. */
const SENTENCES = {
  "bad head": "The request could not be read. Something between this page and the register changed it.",
  "bad length": "The length of the file was given wrongly. Something between this page and the register changed it.",
  "bad parameter": "The project, the number, the day or the groups are not written as the register takes them.",
  "short body": "The connection broke before the whole file had come. Nothing was done: send it again.",
  "no caller": "No caller has this token. Type it in again, or ask whoever runs the register.",
  "no route": "This register does not have this page. The site before it is not set up for it.",
  "method": "This register does not do that.",
  "length required": "The length of the file was not given. Something between this page and the register left it out.",
  "too large": "The file is longer than the register takes. Split it into files that are clean each for itself.",
  "unknown": "There is no such deposit in this project, or none that you may see.",
  "full": "The register holds as many deposits as it may. Tell whoever runs it.",
  "out of memory": "The register ran out of memory. It may have been done: send it again later, tell whoever runs it.",
  "store failed": "The register could not write. A deposit is there whole or not at all: tell whoever runs it, then "
    + "send the file again. It has the same number if it is there.",
};
const BY_STATUS = {
  413: "The file is longer than the register takes.",
  502: "The register does not answer. Tell whoever runs it, then send a deposit again: it is not kept twice.",
  503: "The register is not available. Tell whoever runs it, then send a deposit again: it is not kept twice.",
  504: "The register took too long. The request may have been done: send a deposit again, and it is not kept twice.",
};

/** The sentence for a reply that is no success. */
export function sentenceFor(reply) {
  if (reply.status === 0) {
    return "The register was not reached. Check the connection, then send a deposit again: it is not kept twice.";
  }
  if (reply.told && Number.isInteger(reply.told.denied)) {
    return reply.told.denied === 0 ? "The policy has no rule that permits this."
      : `The policy denies this, by its rule ${reply.told.denied}.`;
  }
  const text = reply.told && SENTENCES[reply.told.error];
  return text ?? BY_STATUS[reply.status] ?? `The register answered with status ${reply.status}.`;
}

/** The JSON of a reply, or null: an extract is none. */
function toldIn(bytes) {
  try {
    return bytes[0] === "{".charCodeAt(0) ? JSON.parse(textOf(bytes)) : null;
  } catch {
    return null;
  }
}

// The requests under way.
const calls = new Set();

/** Breaks off all requests under way, and gives how many there were. */
export function breakOff() {
  const number = calls.size;
  for (const call of [...calls]) call.abort();
  return number;
}

export class Register {
  constructor(project, token) {
    this.project = project;
    this.token = token;
  }

  check(bytes) {
    return this.request("POST", "check", bytes);
  }

  deposit(bytes, embargo, onProgress) {
    const query = embargo ? `?embargo=${encodeURIComponent(embargo)}` : "";
    return this.request("POST", `deposits${query}`, bytes, onProgress);
  }

  deposits() {
    return this.request("GET", "deposits");
  }

  extract(number, groups) {
    const query = groups.length ? `?groups=${groups.map(encodeURIComponent).join(",")}` : "";
    return this.request("GET", `deposits/${number}${query}`);
  }

  withdraw(number) {
    return this.request("DELETE", `deposits/${number}`);
  }

  /** One request. A register that is not reached has the status 0. */
  request(method, path, bytes, onProgress) {
    return new Promise((resolve) => {
      const call = new XMLHttpRequest();
      call.open(method, `/v1/projects/${encodeURIComponent(this.project)}/${path}`);
      call.responseType = "arraybuffer";
      call.setRequestHeader("Authorization", `Bearer ${this.token}`);
      if (onProgress) call.upload.addEventListener("progress", (event) => onProgress(event.loaded, event.total));
      calls.add(call);
      call.addEventListener("loadend", () => {
        calls.delete(call);
        const bytes = new Uint8Array(call.response ?? new ArrayBuffer(0));
        resolve({ status: call.status, bytes, told: toldIn(bytes) });
      });
      call.send(bytes ?? null);
    });
  }
}
