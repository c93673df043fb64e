// A file of one's own: chosen or dropped, and read.

import { byId, Failure } from "./element.js";

/** Calls with the file that is chosen or dropped. */
export function takesFiles(dropId, inputId, take) {
  const drop = byId(dropId);
  const input = byId(inputId);
  drop.addEventListener("dragover", (event) => {
    event.preventDefault();
    drop.classList.add("over");
  });
  drop.addEventListener("dragleave", () => drop.classList.remove("over"));
  drop.addEventListener("drop", (event) => {
    event.preventDefault();
    drop.classList.remove("over");
    if (event.dataTransfer.files.length) {
      input.files = event.dataTransfer.files;
      take(event.dataTransfer.files[0]);
    }
  });
  // The same file, fixed, may be chosen again.
  input.addEventListener("click", () => { input.value = ""; });
  input.addEventListener("change", () => {
    if (input.files.length) take(input.files[0]);
  });
}

/** The bytes of a chosen file. The browser refuses to read one that was changed or removed since. */
export async function bytesOf(file) {
  try {
    return new Uint8Array(await file.arrayBuffer());
  } catch {
    throw new Failure("The file has changed since it was chosen, or cannot be read. Choose it again.");
  }
}
