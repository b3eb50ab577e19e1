// Writes what answers.c writes, of the module, through library.js. Usage: node answers.mjs MODULE FORMATS
import fs from "fs";
import { Library, SIZES, STRING } from "../../web/library.js";

const [, , file, formats] = process.argv;
const library = new Library(new WebAssembly.Instance(new WebAssembly.Module(fs.readFileSync(file)), {}).exports);
const MOST = 2000, ROOM = 8192;
let answers = 0, sum = 0;

function put(bytes) {
  for (const byte of bytes) sum = Math.imul(sum ^ byte, 16777619);
}

const number = new DataView(new ArrayBuffer(8));
function putNumber(value) {
  answers++;
  number.setBigInt64(0, BigInt(value), true);
  put(new Uint8Array(number.buffer));
}

const bytesAt = ({ view, places }, kind, size) => new Uint8Array(view.buffer, places[kind], size);

// Makes a call with room for all that it may write, and puts the result, the error, the list that it writes, and then the
// records.
function ask(name, given, list, records = []) {
  const found = library.made(name, given, list ? ROOM : 0);
  const again = list && found.size >= ROOM ? library.made(name, given, found.size + 1) : found;
  putNumber(again.size);
  if (again.places.error) put(bytesAt(again, "error", SIZES.error));
  if (list && again.size > 0) put(bytesAt(again, list, again.size * SIZES[list]));
  for (const kind of records) put(bytesAt(again, kind, SIZES[kind]));
  return again;
}

function listOf(kinds, model, list) {
  return kinds.map((kind, at) => {
    const isNarrow = kind <= 2 || (kind <= 4 && model > 0);
    const largest = kind % 2 || !isNarrow ? 2n ** 64n - 1n : 2n ** 32n - 1n;
    const value = [0n, largest, 12345n + BigInt(at)][list];
    return { kind, value: kind === STRING ? ["", "hello, world", "a"][list] : value };
  });
}

function askOfOne(model, text) {
  const given = [model, text];
  ask("is_canonical", given);
  ask("canonical_length", given);
  ask("canonical", given, "out");
  ask("whole_canonical_length", given);
  ask("whole_canonical", given, "out");
  ask("arguments", given, "out");
  ask("directives", given, "directives");
  ask("specifications", given, "specifications", ["rejected"]);
  ask("bounds", given, null, ["bounds"]);
  const found = ask("types", given, "out");
  if (found.size < 0 || found.size > MOST) return;
  const kinds = [...bytesAt(found, "out", found.size)];
  for (let list = 0; list < 3; list++) ask("render", [...given, listOf(kinds, model, list)], "out");
}

function askOfLiterals(text) {
  const found = ask("encode_literal", [text], "out"), source = String.fromCharCode(...bytesAt(found, "out", found.size));
  ask("decode_literal", [source], "out");
  ask("decode_literal", [text], "out");
  for (const at of [Math.floor(text.length / 2), text.length, text.length + 1]) ask("source_offset", [source, at]);
}

function askOfTwo(both) {
  for (const name of ["same_models", "whole_same_models", "fits_models", "fits_fewer_models"]) ask(name, both);
  for (let model = 0; model < 3; model++) {
    for (const name of ["same", "whole_same", "fits", "fits_fewer"]) ask(name, [model, ...both]);
    for (const name of ["compare", "whole_compare"]) ask(name, [model, ...both], "out", ["comparison"]);
  }
}

function* texts() {
  const bytes = fs.readFileSync(formats);
  for (let at = 0; at < bytes.length; ) {
    const end = at + 4 + bytes.readUInt32LE(at);
    yield bytes.latin1Slice(at + 4, end);
    at = end;
  }
}

const lines = [], all = [...texts()];
const begin = () => (sum = 2166136261 | 0), end = () => lines.push((sum >>> 0).toString(16).padStart(8, "0"));
all.forEach((text, at) => {
  begin();
  ask("check", [text]);
  for (let model = 0; model < 4; model++) askOfOne(model, text);
  askOfLiterals(text);
  if (at + 1 < all.length) askOfTwo([text, all[at + 1]]);
  end();
});
for (let kind = 0; kind < 300; kind++) {
  begin();
  ask("kind_name", [kind], "out");
  end();
}
const { size } = library.made("version", []);
process.stdout.write(`${lines.join("\n")}\nversion ${size}, ${answers} answers\n`);
