// The package: the library over its module, and what explains formats.
import { Explainer } from "./explain.js";
import { Library } from "./library.js";
import { TABLE } from "./table.js";

export { Library, MODELS, Refused, bytesOf, textOf } from "./library.js";
export { Explainer } from "./explain.js";
export { TABLE };

const ADDRESS = new URL("fmtcanon.wasm", import.meta.url);

// Node has files, and browsers ask for them.
async function moduleBytes() {
  if (ADDRESS.protocol !== "file:") return (await fetch(ADDRESS)).arrayBuffer();
  const { readFile } = await import("node:fs/promises");
  return readFile(ADDRESS);
}

/** Returns the library, in a memory of its own. `bytes` are those of fmtcanon.wasm, if they are at hand. */
export async function load(bytes) {
  const { instance } = await WebAssembly.instantiate(bytes ?? (await moduleBytes()), {});
  return new Library(instance.exports);
}

/** Returns what explains formats by a library. */
export const explainerOf = (library) => new Explainer(library, TABLE);
