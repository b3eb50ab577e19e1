// The calls of fmtcanon.h, in a WebAssembly module. A text is a string with one byte in each character: bytesOf makes it of
// any string, and textOf makes a string of it.

import { specificationIn } from "./rejected.js";

// The calls without the `fmtcanon_` of their names, with their parameters in the order of the header.
export const CALLS = {
  check: "text error",
  is_canonical: "model text error",
  canonical_length: "model text error",
  canonical: "model text out error",
  types: "model text out error",
  bounds: "model text bounds error",
  render: "model text arguments out error",
  same: "model text text error",
  same_models: "text text error",
  compare: "model text text out comparison error",
  arguments: "model text out error",
  fits: "model text text error",
  fits_models: "text text error",
  fits_fewer: "model text text error",
  fits_fewer_models: "text text error",
  whole_canonical_length: "model text error",
  whole_canonical: "model text out error",
  whole_same: "model text text error",
  whole_same_models: "text text error",
  whole_compare: "model text text out comparison error",
  directives: "model text directives error",
  specifications: "model text specifications error",
  decode_literal: "text out error",
  encode_literal: "text out",
  source_offset: "text long",
  kind_name: "number out",
  version: "",
};

// How many bytes the structures of the header have, and one item of each list.
const RECORDS = { error: 16, bounds: 16, comparison: 16 };
export const SIZES = { ...RECORDS, out: 1, directives: 48, specifications: 104, arguments: 32 };
const GIVEN = ["model", "number", "long", "text", "arguments"];
const LISTS = ["text", "arguments", "out", "directives", "specifications"];
const parametersOf = (kinds) => kinds.split(" ").filter((it) => it);
const PARAMETERS = Object.fromEntries(Object.entries(CALLS).map(([name, kinds]) => [name, parametersOf(kinds)]));
const NO_MEMORY = -100, NO_MODEL = -101, NO_PLACE = -102, WRONG_COUNT = -103, WRONG_TYPE = -104;
const NONE = 2n ** 64n - 1n;

export const MODELS = ["lp64", "ilp32", "llp64"];
export const VERDICTS = { 1: "same", 2: "types", 3: "different", 4: "directives" };
export const PARTS = { minus: 1, plus: 2, space: 4, alt: 8, zero: 16, group: 32, width: 64, precision: 128, modifier: 256 };
export const STRING = 7;

/**
 * A text is rejected: the number and the name of the kind, the offset, and which of two texts it is. `specification` is what
 * is known of the conversion specification in which it is, or null.
 */
export class Refused extends Error {
  constructor(kind, name, at, side) {
    super(`${kind > 200 ? `literal ${kind - 200}` : `refused ${kind}`} ${name} at byte ${at}`);
    Object.assign(this, { kind, name, at, side, specification: null });
  }
}

/** Returns the bytes of a string in UTF-8. */
export const bytesOf = (string) => ofArray(new TextEncoder().encode(string));

const UTF8 = new RegExp(
  "^(?:[\\0-\\x7f]+|[\\xc2-\\xdf][\\x80-\\xbf]|" +
    "(?:\\xe0[\\xa0-\\xbf]|[\\xe1-\\xec\\xee\\xef][\\x80-\\xbf]|\\xed[\\x80-\\x9f])[\\x80-\\xbf]|" +
    "(?:\\xf0[\\x90-\\xbf]|[\\xf1-\\xf3][\\x80-\\xbf]|\\xf4[\\x80-\\x8f])[\\x80-\\xbf]{2})"
);

/** Returns the string of bytes in UTF-8. A byte that isn't is a lone surrogate, as Python's surrogateescape has it. */
export function textOf(bytes) {
  if (/^[\0-\x7f]*$/.test(bytes)) return bytes;
  let text = "";
  for (let at = 0; at < bytes.length; ) {
    const found = UTF8.exec(bytes.slice(at));
    text += found ? decodeURIComponent(escape(found[0])) : String.fromCharCode(0xdc00 + bytes.charCodeAt(at));
    at += found ? found[0].length : 1;
  }
  return text;
}

function ofArray(array) {
  let text = "";
  for (let at = 0; at < array.length; at += 8192) text += String.fromCharCode(...array.subarray(at, at + 8192));
  return text;
}

function put(array, at, text) {
  for (let index = 0; index < text.length; index++) {
    const byte = text.charCodeAt(index);
    if (byte > 255) throw new TypeError("a text has one byte in each character: use bytesOf");
    array[at + index] = byte;
  }
}

const rounded = (size) => (size + 7) & ~7;
const lengthOf = (value) => (typeof value === "string" ? value.length : 0);

// How many bytes a parameter takes in the memory, where `count` is the room for what is written.
function sizeOf(kind, value, count) {
  if (kind === "text") return value.length;
  if (kind === "arguments") return value.reduce((sum, it) => sum + SIZES.arguments + lengthOf(it.value), 0);
  if (LISTS.includes(kind)) return SIZES[kind] * count;
  return SIZES[kind] ?? 0;
}

export class Library {
  /** Uses the exports of an instance of the module. */
  constructor(exports) {
    [this.exports, this.base, this.room] = [exports, 0, 0];
    this.reserve(16384);
  }

  // Has room, before the heap, for what a call is given and for what it writes.
  reserve(size) {
    if (size <= this.room) return;
    const room = Math.max(size, 2 * this.room), base = this.exports.fmtcanon_room(BigInt(room));
    if (base === 0n) throw new RangeError("fmtcanon is out of memory");
    [this.base, this.room] = [Number(base), room];
  }

  // Makes a call with these arguments, and room for this many items of what it writes. Returns the result, where each
  // parameter is in the memory, and a view of that.
  made(name, given, count = 0) {
    const rest = [...given], places = {}, words = [];
    const parameters = PARAMETERS[name].map((kind) => [kind, GIVEN.includes(kind) ? rest.shift() : null]);
    for (const [kind, value] of parameters) {
      // WebAssembly would take another value for 0.
      if (kind === "model" && !(value in MODELS && Number.isInteger(value))) throw new TypeError(`not a data model: ${value}`);
    }
    this.reserve(parameters.reduce((sum, [kind, value]) => sum + rounded(sizeOf(kind, value, count)), 0));
    let at = this.base;
    for (const [kind, value] of parameters) {
      if (kind === "model" || kind === "number") words.push(value);
      else if (kind === "long") words.push(BigInt(value));
      else {
        places[kind] = at;
        words.push(BigInt(at));
        if (LISTS.includes(kind)) words.push(BigInt(value === null ? count : value.length));
        this.fill(kind, value, at);
        at += rounded(sizeOf(kind, value, count));
      }
    }
    const size = Number(this.exports["fmtcanon_" + name](...words));
    // The call may have made the memory larger.
    return { size, places, view: new DataView(this.exports.memory.buffer) };
  }

  // Makes a call, and throws if it fails.
  call(name, given, count = 0) {
    const found = this.made(name, given, count);
    if (found.size < 0 && found.size !== NO_PLACE) throw this.fault(found);
    return found;
  }

  fill(kind, value, at) {
    const memory = new Uint8Array(this.exports.memory.buffer);
    if (kind === "text") put(memory, at, value);
    if (!LISTS.includes(kind)) memory.fill(0, at, at + SIZES[kind]);
    if (kind !== "arguments") return;
    const view = new DataView(memory.buffer);
    let strings = at + SIZES.arguments * value.length;
    value.forEach((it, index) => {
      const begin = at + SIZES.arguments * index, length = lengthOf(it.value);
      view.setUint32(begin, it.kind, true);
      view.setBigUint64(begin + 8, length || it.value === "" ? 0n : BigInt.asUintN(64, BigInt(it.value)), true);
      view.setBigUint64(begin + 16, BigInt(strings), true);
      view.setBigUint64(begin + 24, BigInt(length), true);
      if (length) put(memory, strings, it.value);
      strings += length;
    });
  }

  fault({ size, places, view }) {
    if (size === NO_MEMORY) return new RangeError("fmtcanon is out of memory");
    if (size === NO_MODEL) return new TypeError("not a data model");
    const at = Number(view.getBigUint64(places.error, true));
    if (size === WRONG_COUNT) return new TypeError(`argument count: wanted ${at}`);
    if (size === WRONG_TYPE) return new TypeError(`argument ${at}: wrong type`);
    const [kind, side] = [8, 12].map((it) => view.getUint32(places.error + it, true));
    return new Refused(kind, this.kindName(kind), at, side);
  }

  // Returns what a call writes. It is made again if the room is too small: with `more` bytes than it returns.
  filled(name, given, room, more) {
    const found = this.call(name, given, room), size = found.size + more;
    if (size > room) return this.filled(name, given, size, more);
    return { ...found, text: ofArray(new Uint8Array(found.view.buffer, found.places.out, found.size)) };
  }

  version() {
    return [16, 8, 0].map((it) => (this.call("version", []).size >> it) & 255).join(".");
  }

  kindName(kind) {
    return this.filled("kind_name", [kind], 32, 1).text;
  }

  /** Throws Refused if a text isn't a format of the profile. */
  check(text) {
    this.call("check", [text]);
  }

  isCanonical(model, text) {
    return this.call("is_canonical", [model, text]).size === 1;
  }

  canonical(model, text, whole = true) {
    return this.filled(whole ? "whole_canonical" : "canonical", [model, text], text.length + 64, 1).text;
  }

  canonicalLength(model, text, whole = true) {
    return this.call(whole ? "whole_canonical_length" : "canonical_length", [model, text]).size;
  }

  /** Returns the types of the arguments of a format, each as its number. */
  types(model, text, whole = true) {
    const { text: types } = this.filled(whole ? "arguments" : "types", [model, text], 3 * text.length + 1, 0);
    return [...types].map((it) => it.charCodeAt(0));
  }

  /** Returns the smallest and the largest number of bytes that a format prints; the largest is null if there is none. */
  bounds(model, text) {
    const { view, places } = this.call("bounds", [model, text]);
    const [least, greatest] = [0, 8].map((it) => view.getBigUint64(places.bounds + it, true));
    return { least, greatest: greatest === NONE ? null : greatest };
  }

  /** Returns where each conversion specification is, and which arguments it takes, from 0. */
  directives(model, text) {
    const { size, view, places } = this.call("directives", [model, text], text.split("%").length - 1);
    return listed(size, (index) => {
      const numbers = numbersAt(view, places.directives + SIZES.directives * index, 6);
      const [start, end, argument, width, precision, type] = numbers;
      return { start, end, argument, width, precision, type };
    });
  }

  /** Returns each conversion specification with its parts. */
  specifications(model, text) {
    const { size, view, places } = this.made("specifications", [model, text], text.split("%").length - 1);
    if (size >= 0) return listed(size, (index) => specificationAt(view, places.specifications + SIZES.specifications * index));
    const fault = this.fault({ size, places, view });
    throw fault instanceof Refused ? Object.assign(fault, { specification: specificationIn(this, text, fault) }) : fault;
  }

  same(model, first, second, whole = true) {
    return this.call(whole ? "whole_same" : "same", [model, first, second]).size === 1;
  }

  /** Returns the data models in which two formats are the same: the sum of 1, 2 and 4. */
  sameModels(first, second, whole = true) {
    return this.call(whole ? "whole_same_models" : "same_models", [first, second]).size;
  }

  fits(model, first, second, fewer = false) {
    return this.call(fewer ? "fits_fewer" : "fits", [model, first, second]).size === 1;
  }

  fitsModels(first, second, fewer = false) {
    return this.call(fewer ? "fits_fewer_models" : "fits_models", [first, second]).size;
  }

  /** Returns how two formats compare: the verdict, a number, and arguments: BigInt, text, or null for any. */
  compare(model, first, second, whole = true) {
    const { text, view, places } = this.filled(whole ? "whole_compare" : "compare", [model, first, second], 4096, 0);
    const told = (it) => (it === "any" ? null : it[0] === "n" ? BigInt(it.slice(2)) : it.slice(2));
    const [verdict, renderings] = [8, 12].map((it) => view.getUint32(places.comparison + it, true));
    const at = Number(view.getBigUint64(places.comparison, true));
    return { verdict: VERDICTS[verdict], at, renderings, arguments: text.split("\0").slice(0, -1).map(told) };
  }

  /** Returns what a format of the profile prints for arguments, each with its type and a BigInt or a text. */
  render(model, text, args) {
    return this.filled("render", [model, text, args], 256, 1).text;
  }

  /** Returns the bytes of string literals of C source. */
  decode(source) {
    return this.filled("decode_literal", [source], source.length + 1, 1).text;
  }

  /** Returns the string literal of a text. */
  encode(text) {
    return this.filled("encode_literal", [text], 4 * text.length + 3, 1).text;
  }

  /** Returns the offset in string literals of what gives the byte of an index, or null. */
  sourceOffset(source, index) {
    const { size } = this.call("source_offset", [source, index]);
    return size === NO_PLACE ? null : size;
  }
}

const listed = (length, made) => Array.from({ length }, (_, index) => made(index));

// The 64-bit numbers from an address on; null in place of one that isn't there.
function numbersAt(view, at, count) {
  const numbers = listed(count, (index) => view.getBigUint64(at + 8 * index, true));
  return numbers.map((it) => (it === NONE ? null : Number(it)));
}

// The fields of a specification of the header.
const NUMBERS = [
  ...["start", "flagsAt", "widthAt", "precisionAt", "modifierAt", "end"],
  ...["argument", "widthArgument", "precisionArgument", "width", "precision"],
];
const SETS = ["type", "parts", "needless", "together"];

// A specification of the header; null if it has no begin.
function specificationAt(view, at) {
  const found = {}, numbers = numbersAt(view, at, NUMBERS.length);
  NUMBERS.forEach((name, index) => (found[name] = numbers[index]));
  SETS.forEach((name, index) => (found[name] = view.getUint32(at + 8 * NUMBERS.length + 4 * index, true)));
  return found;
}
