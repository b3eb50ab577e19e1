// Explains formats as fmtcanon-explain does: what each directive prints, how two formats differ, and why one is rejected.
// Every fact comes from the library, and every word from the table.
import { MODELS, Refused, STRING } from "./library.js";
import { SpelledSpecification, Words, filled } from "./words.js";

// Strings up to this length are not shortened.
const SHORT = 8;
const KINDS = { unexpected: 3, badPercent: 4, numbered: 6, lengthUndefined: 17, missing: 21 };

/** Returns what a function returns, or `otherwise` if a text is refused. */
export function unlessRefused(otherwise, asked) {
  try {
    return asked();
  } catch (fault) {
    if (fault instanceof Refused) return otherwise;
    throw fault;
  }
}

/** Returns how long the front is that two texts share. */
export function sharedFront(first, second) {
  const most = Math.min(first.length, second.length);
  for (let at = 0; at < most; at++) if (first[at] !== second[at]) return at;
  return most;
}

// What begins with a percent sign and takes no argument, so that it isn't among the specifications.
const OTHERS = /%[%m]/g;

export class Explainer {
  constructor(library, table) {
    [this.library, this.words] = [library, new Words(table)];
  }

  /** Says what a format of the whole language does. Throws Refused. */
  explain(text, model) {
    const own = this.library.specifications(model, text);
    const known = (it) => (it === model ? own : unlessRefused([], () => this.library.specifications(it, text)));
    const listed = MODELS.map((_, it) => known(it));
    const effects = listed[0].length ? listed[0] : this.effectsAlone(own, text);
    const types = (at) => listed.map((found) => found[at]?.type ?? null);
    const parts = own.map((it, at) => this.part({ ...it, ...effectsIn(effects[at]) }, text, types(at)));
    parts.push(...this.errnos(text, own).map((start) => this.errno(start)));
    parts.sort((one, two) => one.start - two.start);
    const bounds = unlessRefused(null, () => this.library.bounds(model, text));
    return { format: text, parts, canonical: this.canonical(text), bounds };
  }

  // The canonical text in each data model; null if arguments are numbered.
  canonical(text) {
    return unlessRefused(null, () => MODELS.map((_, model) => this.library.canonical(model, text)));
  }

  /** Returns the data models in which the canonical text in one, of those of a format, isn't the same as the format. */
  unlikeKey(canonical, model) {
    const key = canonical[model], others = MODELS.map((_, it) => it).filter((it) => canonical[it] !== key);
    return others.filter((it) => canonical[it] !== this.library.canonical(it, key));
  }

  // The specifications in LP64, each alone. No type is shorter in LP64 than elsewhere, so a part without an effect there has
  // none in any data model.
  effectsAlone(found, text) {
    return this.library.specifications(0, found.map((it) => new SpelledSpecification(it, text).alone).join(""));
  }

  part(found, text, types) {
    const one = new SpelledSpecification(found, text), { start, end, argument } = found;
    const said = { meaning: this.words.meaning(one), notes: this.words.notes(one), typeName: this.words.typeName(one) };
    return { start, end, text: one.text, argument: argument + 1, types, ...said, specification: one };
  }

  errno(start) {
    const { write, meaning, note } = this.words.table.errno, place = { start, end: start + write.length, text: write };
    return { ...place, argument: null, types: [], meaning, notes: [note], typeName: "", specification: null };
  }

  // Where each `%m` of a format is, whose specifications are given.
  errnos(text, specifications) {
    const ends = [0, ...specifications.map((it) => it.end)], starts = [...specifications.map((it) => it.start), text.length];
    return ends.flatMap((end, at) => {
      const others = [...text.slice(end, starts[at]).matchAll(OTHERS)];
      return others.filter(([it]) => it === "%m").map((it) => end + it.index);
    });
  }

  /** Says what one format does, how two compare, or why one is rejected. */
  found(formats, model) {
    try {
      return formats.length > 1 ? this.compare(...formats, model) : this.explain(formats[0], model);
    } catch (fault) {
      if (!(fault instanceof Refused)) throw fault;
      const found = this.reject(formats[fault.side], fault, model, formats.length > 1 ? fault.side : null);
      return fault.kind === KINDS.numbered && formats.length > 1 ? { ...found, types: this.byTypes(formats, model) } : found;
    }
  }

  /** Says how two formats compare. Throws Refused. */
  compare(first, second, model) {
    const formats = [first, second], { verdict, at, arguments: given } = this.library.compare(model, first, second);
    const found = { formats, verdict, at: null, arguments: [], printed: [], parts: [] };
    if (verdict === "same") return { ...found, canonical: this.canonical(first) };
    if (verdict === "different") return { ...found, ...this.printedUnlike(formats, given, model) };
    const parts = verdict === "types" ? this.partsAt(formats, at, model) : this.unlikeAt(formats, at, model);
    return { ...found, at, parts };
  }

  // How the types of two formats compare if one has numbered arguments; null if one is rejected.
  byTypes(formats, model) {
    const types = unlessRefused(null, () => formats.map((it) => this.library.types(model, it)));
    if (!types) return formats[0] === formats[1] ? sameTypes(formats) : null;
    const at = sharedFront(...types);
    if (at === types[0].length && at === types[1].length) return sameTypes(formats);
    return { ...sameTypes(formats), verdict: "types", at, parts: this.partsAt(formats, at, model) };
  }

  // The directive of each format that takes an argument, converted or as a `*`; null for none.
  partsAt(formats, index, model) {
    return formats.map((it) => this.partAt(it, index, model));
  }

  partAt(text, index, model) {
    const takes = (one) => one && [one.found.argument, one.found.widthArgument, one.found.precisionArgument].includes(index);
    return this.explain(text, model).parts.find((it) => takes(it.specification)) ?? null;
  }

  // The same, or a `%m` in front of it that the other format lacks.
  unlikeAt(formats, index, model) {
    const errnos = formats.map((it) => this.errnosAt(it, index, model)), shared = Math.min(...errnos.map((it) => it.length));
    return formats.map((it, side) => errnos[side][shared] ?? this.partAt(it, index, model));
  }

  errnosAt(text, index, model) {
    let taken = 0;
    return this.explain(text, model).parts.filter(({ argument }) => {
      if (argument !== null) taken = argument;
      return argument === null && taken === index;
    });
  }

  // What two formats print for arguments that show a difference, and the first directives that do.
  printedUnlike(formats, given, model) {
    const told = this.tellingArguments(formats, given, model);
    const printed = formats.map((it) => this.printed(it, told, model)).filter((it) => it !== null);
    const [first, second] = formats.map((it) => this.explain(it, model).parts.filter(({ argument }) => argument));
    const index = first.findIndex((it, at) => at < second.length && !this.isAlike(it, second[at], told, model));
    const parts = index < 0 ? [] : [first[index], second[index]].map((it) => this.aboutArgument(it, told));
    return { arguments: told, printed, parts };
  }

  aboutArgument(part, given) {
    const argument = given[part.argument - 1];
    const said = typeof argument === "bigint" ? this.words.meaningOfNumber(part.specification, argument) : "";
    return { ...part, meaning: said || part.meaning };
  }

  isAlike(first, second, given, model) {
    if (given[first.argument - 1] === null) return true;
    const [one, two] = [first, second].map((it) => this.printed(it.text, [given[it.argument - 1]], model));
    return one === two;
  }

  /** Returns what a format of the whole language prints, with placeholders; null if it can't be had. */
  printed(text, given, model) {
    return unlessRefused(null, () => {
      this.library.canonical(model, text);
      if (this.library.types(model, text).length !== given.length) return null;
      let format = "", done = 0;
      const args = [];
      for (const one of this.library.directives(model, text)) {
        let [spelling, value, kind] = [text.slice(one.start, one.end), given[one.argument], one.type];
        if (value === null || !this.isInProfile(spelling)) {
          [value, spelling, kind] = [this.library.canonical(model, spelling), "%s", STRING];
        }
        format += text.slice(done, one.start) + spelling;
        args.push({ kind, value });
        done = one.end;
      }
      return this.library.render(model, format + text.slice(done), args);
    });
  }

  isInProfile(text) {
    return unlessRefused(false, () => (this.library.check(text), true));
  }

  // Which arguments are shown.

  // Where a text has specifications, also if it isn't a format: then those before and after what is rejected.
  *spansIn(text) {
    for (let done = 0; text.indexOf("%", done) >= 0; ) {
      const begin = done, shifted = (it) => ({ ...it, start: it.start + begin, end: it.end + begin });
      let found, end = text.length;
      try {
        found = this.library.specifications(0, text.slice(begin));
      } catch (fault) {
        if (!(fault instanceof Refused)) throw fault;
        const one = fault.specification;
        for (const it of this.spansIn(text.slice(begin, begin + (one ? one.start : fault.at)))) yield shifted(it);
        // It is accepted by itself.
        found = one && fault.kind === KINDS.missing ? [one] : [];
        end = one ? one.end : fault.at;
      }
      yield* found.map(shifted);
      done += Math.max(end, 1);
    }
  }

  specificationsOf(text) {
    return [...this.spansIn(text)].map((it) => text.slice(it.start, it.end)).join("");
  }

  withoutSpecifications(text) {
    let words = "", done = 0;
    for (const it of this.spansIn(text)) [words, done] = [words + text.slice(done, it.start) + "%", it.end];
    return words + text.slice(done);
  }

  // Short arguments that two formats print differently; if the words differ, too, some that the specifications print
  // differently, if there are such.
  tellingArguments(formats, given, model) {
    const [first, second] = formats.map((it) => this.withoutSpecifications(it));
    if (first !== second) {
      const inner = formats.map((it) => this.specificationsOf(it));
      const found = unlessRefused(null, () => this.library.compare(model, ...inner));
      if (found?.verdict === "different") {
        const shorter = this.shortened(inner, found.arguments, model);
        if (this.isToldApart(formats, shorter, model)) return shorter;
      }
    }
    return this.shortened(formats, given, model);
  }

  isToldApart(formats, given, model) {
    const [first, second] = formats.map((it) => this.printed(it, given, model));
    return first !== null && second !== null && first !== second;
  }

  // Arguments whose long strings are as short as can be, so that the formats still print differently. A width or a
  // precision makes a difference at its own number or at the next.
  shortened(formats, given, model) {
    const spans = formats.flatMap((it) => [...this.spansIn(it)]);
    const fields = spans.flatMap((it) => [it.width, it.precision]).filter((it) => it !== null);
    const lengths = [...new Set([...fields.flatMap((it) => [it, it + 1]), 0, 1])].sort((one, two) => one - two);
    let found = [...given];
    given.forEach((argument, at) => {
      if (typeof argument !== "string" || argument.length <= SHORT) return;
      for (const length of lengths.filter((it) => it < argument.length)) {
        const tried = found.map((it, index) => (index === at ? argument.slice(0, length) : it));
        if (!this.isToldApart(formats, tried, model)) continue;
        found = tried;
        break;
      }
    });
    return found;
  }

  // Rejections.

  /** Says what a refusal of a format means, and what to write instead. */
  reject(text, refusal, model, side = null) {
    const one = this.refusedIn(text, refusal), help = this.help(text, refusal, one);
    const instead = this.insteadOf(refusal.kind, one, model);
    return { format: text, refusal, ...spanOf(refusal, one), help, instead, side, types: null };
  }

  // What is known of the specification in which a text is rejected; null outside of one.
  refusedIn(text, refusal) {
    const found = refusal.specification ?? this.asked(text, refusal.at);
    return found && new SpelledSpecification(found, text);
  }

  // The specification in which a text is rejected at a byte, or that only has it, as of numbered arguments.
  asked(text, at) {
    try {
      return this.library.specifications(0, text).find((it) => it.start <= at && at < it.end) ?? null;
    } catch (fault) {
      if (!(fault instanceof Refused)) throw fault;
      return fault.at === at ? fault.specification : null;
    }
  }

  // What a refusal means, with the conversion or the specification that it is about.
  help(text, refusal, one) {
    const { table } = this.words, { help, found } = table.refusals[refusal.kind], row = this.nameIn(one, refusal.kind);
    if (row) return row.at(-1);
    const argument = one?.found.argument ?? null;
    if (argument !== null && found) return filled(found, { argument: argument + 1, specification: one.text });
    const letter = text.slice(refusal.at, refusal.at + 1);
    return filled(help, { conversion: /[A-Za-z]/.test(letter) ? `\`${letter}\`` : table.conversion });
  }

  // The row of the name that another system has for a length modifier, if that is what is rejected.
  nameIn(one, kind) {
    if (!one || ![KINDS.unexpected, KINDS.lengthUndefined].includes(kind)) return null;
    const rest = one.format.slice(one.found.modifierAt);
    return this.words.table.names.find(([letters, name]) => [...letters].some((it) => rest.startsWith(name + it))) ?? null;
  }

  // What to write instead of the specification that is rejected, if that is accepted and one is known.
  insteadOf(kind, one, model) {
    const listed = one ? this.candidates(kind, one) : [];
    return listed.find((it) => this.isAccepted(it, model)) ?? null;
  }

  // Whether a text is accepted, whatever arguments come before its own.
  isAccepted(text, model) {
    try {
      this.library.types(model, text);
      return true;
    } catch (fault) {
      if (!(fault instanceof Refused)) throw fault;
      return fault.kind === KINDS.missing;
    }
  }

  candidates(kind, one) {
    const { refusals, errno } = this.words.table, { without, write } = refusals[kind], { format, found, text } = one;
    const name = this.nameIn(one, kind), listed = [];
    if (name) {
      const end = found.modifierAt + name[1].length;
      listed.push(format.slice(found.start, found.modifierAt) + name[2] + format.slice(end, end + 1));
    }
    if (without) listed.push(this.words.without(one, without));
    else if (write && (kind === KINDS.badPercent || text === "%")) listed.push(write);
    else if (kind === KINDS.unexpected && format[found.end] === "m" && text.slice(1).trim()) listed.push(errno.write);
    return listed;
  }
}

// Where a specification begins that is rejected, and the offset after the byte at which it is.
function spanOf({ kind, at }, one) {
  const start = one ? one.found.start : at;
  return { start, end: one && kind === KINDS.missing ? one.found.end : at + 1 };
}

const effectsIn = ({ needless, together }) => ({ needless, together });
const sameTypes = (formats) => ({ formats, verdict: "same", at: null, arguments: [], printed: [], parts: [] });
