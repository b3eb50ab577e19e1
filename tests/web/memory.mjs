// Makes calls with every amount of memory from none to what they need: each returns what it does with enough, or says that
// it is out of memory, and writes nothing. Usage: node memory.mjs MODULE
import fs from "fs";
import { Library, SIZES } from "../../web/library.js";

const library = new Library(new WebAssembly.Instance(new WebAssembly.Module(fs.readFileSync(process.argv[2])), {}).exports);
const { exports } = library, NO_MEMORY = -100, UNIT = 16;
// Calls that allocate.
const LONG = "%i of %-05u: ".repeat(40), MANY = "%d".repeat(60);
const CASES = [
  ["canonical", 0, LONG],
  ["whole_canonical", 1, `${LONG}%f`],
  ["types", 0, MANY],
  ["arguments", 0, `${MANY}%f`],
  ["directives", 0, MANY],
  ["compare", 0, `${MANY}%s%05d`, `${MANY}%s%.5d`],
  ["whole_compare", 0, `${MANY}%f%05d`, `${MANY}%f%.5d`],
  ["decode_literal", `"${LONG}"`],
  ["encode_literal", LONG],
];
const END = 2 ** 32, COUNT = 1000, ROOM = COUNT * SIZES.specifications * 2;

// Makes a call whose heap has this many bytes. Returns the result, and the room that was passed for what it writes.
function made(given, free) {
  const base = Number(exports.fmtcanon_room(16n));
  library.base = base;
  library.room = END - base - free;
  if (exports.fmtcanon_room(BigInt(library.room)) === 0n) throw new Error("there is no memory of 4 GB");
  new Uint8Array(exports.memory.buffer, base, ROOM).fill(0xee);
  const { size, places } = library.made(given[0], given.slice(1), COUNT);
  const list = ["out", "directives", "specifications"].find((it) => places[it]);
  return { size, bytes: Buffer.from(exports.memory.buffer, places[list], COUNT * SIZES[list]).toString("latin1") };
}

const counts = { calls: 0, refused: 0 };
for (const given of CASES) {
  const whole = made(given, ROOM * 16), untouched = "\xee".repeat(whole.bytes.length);
  let refused = 0;
  for (let free = 0; ; free += UNIT) {
    const found = made(given, free);
    counts.calls++;
    if (found.size !== NO_MEMORY) {
      const isSame = found.size === whole.size && found.bytes === whole.bytes;
      if (!isSame) throw new Error(`${given[0]} with ${free} bytes returns ${found.size}`);
      break;
    }
    if (found.bytes !== untouched) throw new Error(`${given[0]} with ${free} bytes wrote something`);
    refused++;
  }
  if (!refused) throw new Error(`${given[0]} allocates nothing`);
  counts.refused += refused;
}
console.log(JSON.stringify(counts));
