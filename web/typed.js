// Reads what is typed: a text as it is, or as C source has it: with quotes around it or without, or in a call that is pasted.
import { MODELS, Refused, bytesOf } from "./library.js";

// An escape sequence, or a quote that needs to become one.
const QUOTED = /\\[^]|"/g;
// The tokens of C that tell a format from what is around it.
const TOKENS = new RegExp(
  [
    /(?<space>\s+|\/\*[^]*?\*\/|\/\/[^\n]*)/,
    /(?<string>(?:u8)?"(?:[^"\\\n]|\\[^])*")/,
    /(?<character>'(?:[^'\\\n]|\\[^])*')/,
    /(?<name>[A-Za-z_]\w*)/,
    /(?<number>\d[\w.]*)/,
    /(?<mark>[^])/,
  ]
    .map((it) => it.source)
    .join("|"),
  "g"
);
// The macros of <inttypes.h>, and the length modifiers of 64 bits, of a pointer, and of FAST types in each data model.
const MACRO = /^PRI([dioxXubB])(LEAST|FAST)?(8|16|32|64|MAX|PTR)$/;
const LONG_BITS = ["l", "ll", "ll"], POINTER_BITS = ["l", "", "ll"], FAST_BITS = ["l", "", ""];

/** Returns the conversion that a macro of <inttypes.h> expands to in a data model; null for another name. */
function expansion(name, model) {
  const [, letter, how, size] = MACRO.exec(name) ?? [];
  if (!letter) return null;
  if (size === "64" || size === "MAX") return LONG_BITS[model] + letter;
  if (size === "PTR") return POINTER_BITS[model] + letter;
  return (how === "FAST" && size !== "8" ? FAST_BITS[model] : "") + letter;
}

// The tokens of a source without space and comments, each with its kind and its offset.
function tokensOf(text) {
  const found = [...text.matchAll(TOKENS)].map((it) => {
    const kind = Object.keys(it.groups).find((name) => it.groups[name] !== undefined);
    return { kind, text: it[0], at: it.index };
  });
  return found.filter(({ kind }) => kind !== "space");
}

const isPart = ({ kind, text }) => kind === "string" || (kind === "name" && MACRO.test(text));

// The first tokens one after another that are string literals and macros, with at least one literal; null without any.
function firstRun(tokens) {
  for (let at = 0; at < tokens.length; at++) {
    let end = at;
    while (end < tokens.length && isPart(tokens[end])) end++;
    if (tokens.slice(at, end).some(({ kind }) => kind === "string")) return { at, end };
    at = Math.max(at, end - 1);
  }
  return null;
}

const ENDS = new Set([")", ";", "<", ">", "=", "!", "&", "|"]);

// Whether tokens are a call, or its beginning, with this run among its arguments. A format may look like one:
// open("%s", %d) = %d has percent signs where C has no operator, and other words follow open("%s").
function isCall(tokens, { at, end }) {
  let depth = 0, isClosed = false;
  for (const [index, { kind, text }] of tokens.entries()) {
    const last = tokens[index - 1], isAfterValue = last && (last.kind !== "mark" || ")]".includes(last.text));
    if (index === at && (depth < 1 || isClosed)) return false;
    if (index === end && !",)".includes(text)) return false;
    if (text === "\\" || (text === "%" && !isAfterValue)) return false;
    if (isClosed && depth === 0) return ENDS.has(text);
    if (text === "(" && (depth > 0 || last?.kind === "name")) depth++;
    if (text === ")" && depth > 0) isClosed = --depth === 0 && index >= end;
    if (kind === "mark" && text === '"') return false;
  }
  return true;
}

/** The bytes of a format that is typed, and where in it they come from. Throws Refused for what isn't C source. */
export class Typed {
  constructor(library, typed, isSource, side, model) {
    Object.assign(this, { library, typed: bytesOf(typed), isSource, side, model, macros: [], how: "text" });
    [this.source, this.places] = ["", []];
    if (isSource) this.read();
    this.bytes = isSource ? this.decoded() : this.typed;
  }

  // Puts a part into the source, whose bytes come from one place on, or all from that place.
  put(text, at, isCopied = true) {
    this.source += text;
    for (let index = 0; index < text.length; index++) this.places.push(isCopied ? at + index : at);
  }

  read() {
    const tokens = this.typed.includes('"') ? tokensOf(this.typed) : [], run = firstRun(tokens);
    const isLiteral = /^\s*(?:u8)?"/.test(this.typed) || run?.at === 0;
    const isCut = run && (isLiteral ? run.at === 0 && ",);".includes(tokens[run.end]?.text ?? " ") : isCall(tokens, run));
    if (!isCut && !isLiteral) return this.readBare();
    if (isCut) this.how = "call";
    const parts = isCut ? tokens.slice(run.at, run.end) : tokens;
    const isWhole = !isCut && !parts.some((it) => it.kind === "name" && MACRO.test(it.text));
    if (isWhole) this.put(this.typed, 0);
    else for (const it of parts) this.readPart(it);
  }

  readPart({ kind, text, at }) {
    const conversion = kind === "name" ? expansion(text, this.model) : null;
    if (conversion === null) return this.put(text.replace(/^u8(?=")/, "") + " ", at);
    this.macros.push([text, conversion]);
    this.put(`"${conversion}" `, at, false);
  }

  // A text without quotes around it, in which a quote needs a backslash.
  readBare() {
    let done = 0;
    this.put('"', 0);
    for (const { 0: quoted, index } of this.typed.matchAll(QUOTED)) {
      this.put(this.typed.slice(done, index), done);
      this.put(quoted === '"' ? '\\"' : quoted, index, quoted !== '"');
      done = index + quoted.length;
    }
    this.put(this.typed.slice(done), done);
    this.put('"', this.typed.length);
  }

  decoded() {
    try {
      return this.library.decode(this.source);
    } catch (fault) {
      if (!(fault instanceof Refused)) throw fault;
      throw Object.assign(new Refused(fault.kind, fault.name, this.place(fault.at), this.side), { typed: this.typed });
    }
  }

  // The offset in what is typed of an offset in the source.
  place(at) {
    return Math.min(this.places[at] ?? this.typed.length, this.typed.length);
  }

  /** Returns the offset in what is typed of a byte of the format. */
  offsetOf(index) {
    return this.isSource ? this.place(this.library.sourceOffset(this.source, index)) : index;
  }

  /** Returns what was read as something other than a text: the call that has the format, and macros. */
  get notes() {
    const macros = [...new Map(this.macros)].map(([name, conversion]) => `\`${name}\` is \`${conversion}\``);
    const read = this.how === "call" ? ["this is the format of the call that is typed"] : [];
    return [...read, ...(macros.length ? [`in ${MODELS[this.model].toUpperCase()} ${macros.join(", ")}`] : [])];
  }
}
