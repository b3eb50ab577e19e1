/** A text with one byte in each character, of which none is above 255: `bytesOf` makes it of any string. */
export type Bytes = string;

/** An index of MODELS. */
export type Model = 0 | 1 | 2;

export const MODELS: readonly ["lp64", "ilp32", "llp64"];

/** Returns the bytes of a string in UTF-8. */
export function bytesOf(string: string): Bytes;

/** Returns the string of bytes in UTF-8. A byte that isn't is a lone surrogate. */
export function textOf(bytes: Bytes): string;

/** A text is rejected. */
export class Refused extends Error {
  /** The number of the kind, as in fmtcanon.h. */
  readonly kind: number;
  readonly name: string;
  /** The offset of the byte. */
  readonly at: number;
  /** 1 if it is the second of two formats, and 0 otherwise. */
  readonly side: 0 | 1;
  /** What is known of the conversion specification in which it is, of `specifications` alone. */
  readonly specification: Specification | null;
}

/** Where a conversion specification is, and which arguments it takes, from 0. */
export interface Directive {
  start: number;
  end: number;
  argument: number | null;
  width: number | null;
  precision: number | null;
  type: number | null;
}

/** A conversion specification with its parts. The sets of parts are sums of the numbers of fmtcanon.h. */
export interface Specification {
  start: number;
  end: number;
  flagsAt: number;
  widthAt: number;
  precisionAt: number;
  modifierAt: number;
  argument: number | null;
  widthArgument: number | null;
  precisionArgument: number | null;
  width: number | null;
  precision: number | null;
  type: number;
  parts: number;
  needless: number;
  together: number;
}

export interface Bounds {
  least: bigint;
  /** Null if there is no largest number. */
  greatest: bigint | null;
}

/** An argument with its type, as a number of fmtcanon.h. */
export interface Argument {
  kind: number;
  value: bigint | Bytes;
}

export type Verdict = "same" | "types" | "different" | "directives";

export interface Comparison {
  verdict: Verdict;
  /** The first argument at which the types or the directives differ, from 0. */
  at: number;
  renderings: number;
  /** Arguments that the formats print differently; null for any. */
  arguments: (bigint | Bytes | null)[];
}

/** The calls of fmtcanon.h. They throw `Refused` for a text that is rejected, and RangeError out of memory. */
export class Library {
  constructor(exports: WebAssembly.Exports);
  version(): string;
  kindName(kind: number): string;
  check(text: Bytes): void;
  isCanonical(model: Model, text: Bytes): boolean;
  canonical(model: Model, text: Bytes, whole?: boolean): Bytes;
  canonicalLength(model: Model, text: Bytes, whole?: boolean): number;
  types(model: Model, text: Bytes, whole?: boolean): number[];
  bounds(model: Model, text: Bytes): Bounds;
  directives(model: Model, text: Bytes): Directive[];
  specifications(model: Model, text: Bytes): Specification[];
  same(model: Model, first: Bytes, second: Bytes, whole?: boolean): boolean;
  sameModels(first: Bytes, second: Bytes, whole?: boolean): number;
  fits(model: Model, first: Bytes, second: Bytes, fewer?: boolean): boolean;
  fitsModels(first: Bytes, second: Bytes, fewer?: boolean): number;
  compare(model: Model, first: Bytes, second: Bytes, whole?: boolean): Comparison;
  render(model: Model, text: Bytes, args: readonly Argument[]): Bytes;
  decode(source: Bytes): Bytes;
  encode(text: Bytes): Bytes;
  sourceOffset(source: Bytes, index: number): number | null;
}

/** A directive in words. */
export interface Explained {
  start: number;
  end: number;
  text: Bytes;
  /** The number of its argument, from 1; null for `%m`. */
  argument: number | null;
  /** The type in each data model, as a number of fmtcanon.h; null if the format is rejected there. */
  types: (number | null)[];
  meaning: string;
  notes: string[];
  /** The name that C has for the type in all data models, as `size_t`; or nothing. */
  typeName: string;
}

export interface Explanation {
  format: Bytes;
  parts: Explained[];
  /** The canonical text in each data model; null if arguments are numbered. */
  canonical: Bytes[] | null;
  bounds: Bounds | null;
}

export interface Difference {
  formats: Bytes[];
  verdict: Verdict;
  at: number | null;
  arguments: (bigint | Bytes | null)[];
  /** What each format prints for these arguments. */
  printed: Bytes[];
  parts: (Explained | null)[];
}

export interface Rejection {
  format: Bytes;
  refusal: Refused;
  /** The specification in which it is, up to the byte at which it is rejected. */
  start: number;
  end: number;
  help: string;
  /** What to write instead of the specification. */
  instead: Bytes | null;
  side: 0 | 1 | null;
  types: Difference | null;
}

/** Explains formats as fmtcanon-explain does. */
export class Explainer {
  constructor(library: Library, table: object);
  explain(text: Bytes, model: Model): Explanation;
  compare(first: Bytes, second: Bytes, model: Model): Difference;
  /** Says what one format does, how two compare, or why one is rejected. */
  found(formats: readonly Bytes[], model: Model): Explanation | Difference | Rejection;
}

/** The words of fmtcanon-explain. */
export const TABLE: object;

/** Returns the library, in a memory of its own. `bytes` are those of fmtcanon.wasm, if they are at hand. */
export function load(bytes?: BufferSource): Promise<Library>;

/** Returns what explains formats by a library. */
export function explainerOf(library: Library): Explainer;
