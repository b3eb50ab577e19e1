// Lays out what is found of one format or of two.
import { MODELS, STRING, textOf } from "./library.js";
import { sharedFront, unlessRefused } from "./explain.js";
import { fixOf, harmOf } from "./fixes.js";
import { button, copier, made, said, seen, table, terms } from "./elements.js";

// How many directives are shown before one asks for all, and how long a string among arguments may be.
const FIRST = 40, LONGEST = 20;
// How much of what is printed is shown, and how much of that comes before the first difference.
const SHOWN = 200, BEFORE = 40;
// Shown where one text has ended, or has never begun.
const END = "end", NOTHING = "nothing";
export const SIDES = ["First format", "Second format"];
const STRINGS = ["", "abc", "hello, world"], CHARACTERS = [65n];
const NUMBERED = 6;

// The values of a list, one for each data model, with the data models that have each.
function byModel(values) {
  const groups = new Map();
  values.forEach((value, model) => groups.set(value, [...(groups.get(value) ?? []), model]));
  return [...groups].map(([value, models]) => ({ value, models }));
}

const namesOf = (models) => models.map((it) => MODELS[it].toUpperCase()).join(" and ");
const inModels = (values, name) => {
  const groups = byModel(values);
  if (groups.length === 1) return name(groups[0].value);
  return groups.map(({ value, models }) => `${name(value)} in ${namesOf(models)}`).join(", ");
};

// A string in which each character that can't be seen is an escape.
function visible(string) {
  if (/^[ -~]*$/.test(string)) return string;
  return string.replace(/[^\P{C} ]|[^\P{Z} ]/gu, (it) => `\\u${it.codePointAt(0).toString(16).padStart(4, "0")}`);
}

/** Returns a text as C source has it between quotes. What can't be seen is an escape. */
export const visibleIn = (library, bytes) => visible(textOf(library.encode(bytes).slice(1, -1)));

/** Shows a text with the byte that is rejected. */
export function wrongAt(text, at, shown = (it) => visible(textOf(it)), start = at) {
  const byte = text.slice(at, at + 1), marked = made("mark.wrong", byte ? shown(byte) : END);
  const [front, inner, back] = [text.slice(0, start), text.slice(start, at), text.slice(at + 1)].map(shown);
  return made("pre", seen(front), inner && made("mark.m3", seen(inner)), marked, seen(back));
}

const verdictOf = ({ verdict, at }) =>
  verdict === "types" || verdict === "directives" ? `${verdict} differ at argument ${at + 1}` : verdict;

/** Returns the range of a type of integers, by its number and the data model. */
export function rangeOf(kind, model) {
  const bits = kind <= 2 || (kind <= 4 && model) ? 32n : 64n;
  return kind % 2 ? [-(1n << (bits - 1n)), (1n << (bits - 1n)) - 1n] : [0n, (1n << bits) - 1n];
}

export class Answer {
  /** `asked` are the formats in each data model: with macros of <inttypes.h> they differ. `use` takes a second format. */
  constructor(explainer, model, asked, use) {
    Object.assign(this, { explainer, model, asked, use, library: explainer.library, words: explainer.words });
    this.formats = asked[model];
    this.isOne = asked.every((it) => it.every((text, side) => text === this.formats[side]));
  }

  shown(bytes) {
    return visibleIn(this.library, bytes);
  }

  code(bytes) {
    return made("code", seen(this.shown(bytes)));
  }

  printed(bytes) {
    return made("samp", bytes ? seen(this.shown(bytes)) : made("em", NOTHING));
  }

  /** Returns what is said first of a format or of two, what comes next, the arguments to try, and the elements below. */
  of(placeOf) {
    const { formats, model } = this, found = this.explainer.found(formats, model);
    const { refusal, types, side } = found;
    if (refusal?.kind === NUMBERED && types) return this.typesOnly(types, placeOf(refusal, side));
    if (refusal) return this.rejection(found, placeOf);
    if (formats.length > 1) return this.difference(found);
    const summary = [made("strong", "accepted"), `: ${this.takes(found)}`];
    const keys = [...this.percents(found), ...this.keys()];
    return { kind: "good", summary, keys, tried: this.tried([found]), below: this.explained(found) };
  }

  // Directives that are perhaps percent signs of a text, as in "100% done".
  percents({ format, parts }) {
    const found = parts.filter(({ text, start }) => /^% [a-z]/.test(text) && /\d/.test(format[start - 1] ?? ""));
    const words = " takes an argument. For a percent sign, write ";
    return found.slice(0, 1).map((it) => made("p", this.code(it.text), words, made("code", "%%"), "."));
  }

  takes({ format, bounds }) {
    const count = this.library.types(this.model, format).length;
    const words = `it takes ${count || "no"} argument${count === 1 ? "" : "s"}`;
    return bounds ? `${words}, and ${this.words.bytes(bounds)}` : words;
  }

  // Canonical texts.

  // The canonical text of a format in each data model; null if arguments are numbered, or it is rejected.
  canonicalOf(side) {
    return unlessRefused(null, () => MODELS.map((_, it) => this.library.canonical(it, this.asked[it][side])));
  }

  // The canonical text of a format, or those of two next to each other, each with more that is said of it.
  keys(isUnlike = false, more = [[], []]) {
    const listed = this.formats.map((_, side) => this.canonicalOf(side)), own = listed.map((it) => it && it[this.model]);
    if (listed.length === 1 || (own[0] !== null && own[0] === own[1])) {
      const name = listed.length === 1 ? "Canonical text" : "Canonical text of both";
      return [terms([this.keyRow(name, listed[0])]), ...this.keyNotes(listed)];
    }
    const at = isUnlike && !own.includes(null) ? sharedFront(...own.map((it) => this.shown(it))) : null;
    const cells = listed.map((it, side) => {
      const text = it ? made("samp", this.unlikeFrom(this.shown(own[side]), at)) : made("em", "none");
      const where = it && byModel(it).length > 1 ? ` in ${namesOf([this.model])}` : "";
      const name = made("h3", `${SIDES[side]}: canonical text${where}`);
      return made("div", name, made("p", text, ...(it ? [" ", this.copy(own[side])] : [])), ...more[side]);
    });
    return [made("div.pair", ...cells), ...this.keyNotes(listed)];
  }

  // A text whose byte at an offset is marked, with a part around it if it is long.
  unlikeFrom(text, at, begin = 0) {
    if (at === null) return seen(text);
    if (!text) return [made("b", made("em", NOTHING))];
    const [front, byte, back] = [text.slice(begin, at), text.slice(at, at + 1), text.slice(at + 1, begin + SHOWN)];
    const after = begin + SHOWN < text.length ? ".." : "";
    return [begin ? ".." : "", seen(front), made("b", byte ? seen(byte) : made("em", END)), seen(back), after].flat();
  }

  keyRow(name, canonical) {
    if (!canonical) return [name, "none, since its arguments are numbered"];
    const groups = byModel(canonical), own = canonical[this.model];
    const title = groups.length === 1 ? name : `${name} in ${namesOf(groups.find((it) => it.value === own).models)}`;
    const rowOf = ({ value, models }) => [`in ${namesOf(models)} `, made("samp", seen(this.shown(value)))];
    const others = groups.filter((it) => it.value !== own).map(rowOf);
    const rest = others.length ? [made("span.soft", " ", ...others.flatMap((it, at) => (at ? [", ", ...it] : it)))] : [];
    return [title, made("samp.key", seen(this.shown(own))), " ", this.copy(own), ...rest];
  }

  // What the program says otherwise, and what a canonical text isn't.
  keyNotes(listed) {
    const notes = [];
    const unlike = listed.length === 1 && listed[0] && this.isOne ? this.explainer.unlikeKey(listed[0], this.model) : [];
    if (unlike.length) {
      notes.push(`Compare by it, and don't rewrite with it: in ${namesOf(unlike)} this spelling means something different.`);
    }
    const refusal = this.formats.map((it) => this.refusalOf(it)).find((it) => it);
    if (refusal && listed.some((it) => it)) {
      const program = `\`fmtcanon canon\` says ${refusal}, and accepts it with \`--whole\``;
      notes.push(`Not all of it is in the profile, whose output is proved: ${program}.`);
      notes.push("Directives like `%f` are compared by types and by spelling alone.");
    }
    return notes.map((it) => made("p.soft", ...said(it)));
  }

  // Why a format isn't one of the profile; nothing if it is.
  refusalOf(text) {
    let found = null;
    unlessRefused(null, () => {
      try {
        this.library.check(text);
      } catch (fault) {
        found = `"refused ${fault.kind} ${fault.name}"`;
        throw fault;
      }
    });
    return found;
  }

  copy(value) {
    return copier("Copy", "Copy the canonical text", () => this.shown(value));
  }

  // Arguments that can be tried.

  // The directives whose arguments one can choose, with a first choice, and how to print with that; null for none.
  tried(explained, given = null) {
    const [{ parts }] = explained, count = unlessRefused(0, () => this.library.types(this.model, this.formats[0]).length);
    const fixed = given ?? new Array(count).fill(null), slots = [];
    for (const part of parts) {
      const at = (part.argument ?? 0) - 1;
      if (!part.specification || fixed.length <= at || slots.some((it) => it.at === at)) continue;
      if (!this.explainer.isInProfile(part.text)) continue;
      const kind = part.types[this.model], isCharacter = part.specification.conversion === "c";
      const first = given ? given[at] : kind === STRING ? "abc" : isCharacter ? 65n : 42n;
      if (given && first === null) continue;
      slots.push({ at, part, kind, isCharacter, value: first, words: this.slotWords(part, explained) });
    }
    const print = (values) => {
      const all = fixed.map((it, at) => values.get(at) ?? it);
      return this.formats.map((it) => this.explainer.printed(it, all, this.model));
    };
    const isShown = print(new Map(slots.map(({ at, value }) => [at, value]))).every((it) => it !== null);
    const isOther = ({ specification, text }) => specification && !this.explainer.isInProfile(text);
    const others = explained.flatMap((it) => it.parts).filter(isOther);
    if (!isShown || (others.length && !slots.length && !given)) return null;
    const note = others.length ? [made("p.soft", ...said("What is outside of the profile is shown as its spelling."))] : [];
    return { slots, lay: (values) => [...this.laidOut(print(values), explained), ...note] };
  }

  slotWords(part, explained) {
    const spelled = explained.map((it) => it.parts.find((one) => one.argument === part.argument)?.text ?? "");
    const codes = [...new Set(spelled)].map((it) => this.code(it));
    const type = part.typeName || this.words.type(part.types[this.model]);
    return [...codes.flatMap((it, at) => (at ? [", ", it] : [it])), `: ${type}`];
  }

  laidOut(printed, explained) {
    if (printed.includes(null)) return [made("p", "These can't be printed.")];
    if (printed.length === 1 || printed[0] === printed[1]) {
      const name = printed.length === 1 ? "It prints " : "Both print ", { length } = printed[0];
      const cut = length > SHOWN ? [" ..", made("span.soft", ` of ${length} bytes`)] : [];
      return [made("p", made("span.soft", name), this.printed(printed[0].slice(0, SHOWN)), ...cut)];
    }
    const texts = printed.map((it) => this.shown(it)), at = sharedFront(...texts);
    const begin = Math.max(...texts.map((it) => it.length)) > SHOWN ? Math.max(at - BEFORE, 0) : 0;
    const why = explained.map(({ shownPart }) => shownPart);
    const cells = texts.map((it, side) => {
      const bytes = made("p", made("span.soft", `${SIDES[side]} `), made("samp", this.unlikeFrom(it, at, begin)));
      return why[side] ? [bytes, made("p", this.code(why[side].text), ": ", ...said(why[side].meaning))] : [bytes];
    });
    return [made("div.pair", ...cells.map((it) => made("div", ...it)))];
  }

  // One format.

  line({ format, parts }) {
    const line = made("pre");
    let done = 0;
    parts.forEach((part, at) => {
      line.append(...seen(this.shown(format.slice(done, part.start))), this.mark(part, at));
      done = part.end;
    });
    line.append(...seen(this.shown(format.slice(done))));
    return line;
  }

  explained(found) {
    return [made("h2", "Each directive"), this.line(found), ...this.cards(found.parts.map((it) => [it]))];
  }

  // Cards of directives, in rows of one format or of two; a row in which both are the same has one card.
  cards(rows) {
    const rowOf = (row, at) => {
      const [one, two] = row, isOfBoth = one && two && one.text === two.text && one.argument === two.argument;
      if (isOfBoth) return [this.card(one, at, "", " in both")];
      const nameOf = (side) => (row.length > 1 ? ` ${SIDES[side]}` : "");
      return row.map((it, side) => (it ? this.card(it, at, nameOf(side)) : made("li.none", "no directive here")));
    };
    const list = made(rows[0]?.length > 1 ? "ol.cards.two" : "ol.cards", ...rows.slice(0, FIRST).flatMap(rowOf));
    const more = button([`Show the other ${rows.length - FIRST} directives`], (it) => {
      list.append(...rows.slice(FIRST).flatMap((row, at) => rowOf(row, at + FIRST)));
      it.remove();
    });
    return [list, ...(rows.length > FIRST ? [made("p", more)] : [])];
  }

  mark(part, at) {
    return made(`mark.m${at % 4}`, seen(this.shown(part.text)));
  }

  card(part, at, side = "", both = "") {
    const taken = part.argument === null ? "takes no argument" : `takes argument ${part.argument}`;
    const title = made("h3", made("code", this.mark(part, at)), ` ${taken}`, made("span.soft", side + both));
    title.id = `directive${at}${side.slice(1, 2)}`;
    const rows = [["Prints", ...said(part.meaning)]];
    if (part.specification) rows.unshift(["Type", this.typeWords(part)]);
    if (part.notes.length) rows.push([part.specification ? "No effect" : "Note", ...said(part.notes.join("; "))]);
    const item = made("li", title, terms([...rows, ...(part.specification ? this.facts(part) : [])]));
    if (both) item.className = "both";
    item.setAttribute("aria-labelledby", title.id);
    return item;
  }

  // The type of a directive's argument, in each data model if they differ.
  typeWords(part) {
    const own = (it) => (it ? this.words.type(it) : "rejected");
    const types = this.isOne ? inModels(part.types, own) : own(part.types[this.model]);
    return part.typeName ? `${part.typeName}: ${types}` : types;
  }

  // What the library says of a directive by itself: its canonical text, its size, and what it prints for some arguments.
  facts(part) {
    const { alone } = part.specification, rows = [];
    const canonical = unlessRefused(null, () => this.library.canonical(this.model, alone));
    if (canonical !== null && canonical !== part.text) rows.push(["Canonical", made("samp", seen(this.shown(canonical)))]);
    const bounds = unlessRefused(null, () => this.library.bounds(this.model, alone));
    if (!bounds) return rows;
    const cells = ([name, printed]) => [made("code", name), this.printed(printed)];
    const samples = this.samples(part, alone).map(cells);
    return [...rows, ["Size", this.words.bytes(bounds)], ["Prints for", table(samples)]];
  }

  samples(part, alone) {
    const kind = part.types[this.model], [least, greatest] = rangeOf(kind, this.model);
    const numbers = [0n, 42n, ...(least ? [-1n, least] : []), greatest];
    const values = kind === STRING ? STRINGS : part.specification.conversion === "c" ? CHARACTERS : numbers;
    return values.map((value) => [this.argument(value), this.library.render(this.model, alone, [{ kind, value }])]);
  }

  // Two formats.

  difference(found) {
    const { formats } = this, verdicts = MODELS.map((_, it) => verdictOf(this.library.compare(it, ...this.asked[it])));
    const groups = byModel(verdicts), own = verdicts[this.model];
    const all = groups.map(({ value, models }) => `${namesOf(models)}: ${value}`).join("; ");
    const summary = [made("strong", own), ` (${groups.length === 1 ? "in all data models" : all})`];
    const kind = own !== "same" ? "bad" : groups.length === 1 ? "good" : "";
    const explained = formats.map((it) => this.explainer.explain(it, this.model));
    const isUnlike = found.verdict === "different" || found.verdict === "directives";
    const keys = [...this.harm(found), ...this.keys(isUnlike, this.apart(found))];
    return { kind, summary, keys, tried: this.triedOf(found, explained), below: this.both(explained) };
  }

  triedOf({ verdict, parts, arguments: given }, explained) {
    if (verdict === "same") return this.tried(explained);
    if (verdict !== "different") return null;
    return this.tried(explained.map((it, side) => ({ ...it, shownPart: parts[side] })), given);
  }

  both(explained) {
    const [first, second] = explained.map(({ parts }) => parts), rows = [];
    for (let at = 0; at < Math.max(first.length, second.length); at++) rows.push([first[at] ?? null, second[at] ?? null]);
    const lines = explained.map((it, side) => made("div", made("h3", SIDES[side]), this.line(it)));
    return [made("h2", "Each directive"), made("div.pair.plain", ...lines), ...this.cards(rows)];
  }

  // The explanations of those formats that aren't rejected.
  accepted() {
    return this.formats.flatMap((it, side) =>
      unlessRefused([], () => {
        const found = this.explainer.explain(it, this.model), name = `: ${SIDES[side].toLowerCase()}`;
        return [made("h2", `Each directive${name}`), this.line(found), ...this.cards(found.parts.map((one) => [one]))];
      })
    );
  }

  // What is said of the directives of two formats at which they differ.
  apart(found) {
    if (found.verdict !== "types" && found.verdict !== "directives") return [[], []];
    return found.parts.map((part) => {
      if (!part) return [made("p", `It takes no argument ${found.at + 1}.`)];
      const code = this.code(part.text), isConverted = part.argument === found.at + 1;
      if (found.verdict !== "types") return [made("p", code, ": ", ...said(part.meaning))];
      const type = isConverted ? this.typeWords(part) : "int, for a star";
      return [made("p", `Argument ${found.at + 1}: `, code, ` takes ${type}`)];
    });
  }

  // What a difference of types does, and what to write instead.
  harm(found) {
    if (found.verdict !== "types") return [];
    const harm = harmOf(found.parts, found.at, this.model);
    return [...(harm ? [made("p", harm)] : []), ...this.fix(found)];
  }

  fix(found) {
    const fix = fixOf(this.explainer, found.formats, this.model);
    if (!fix) return [];
    const use = button(["Use it"], () => this.use(fix.text)), models = this.library.fitsModels(found.formats[0], fix.text);
    const where = models === 7 ? "" : ` in ${namesOf(MODELS.map((_, it) => it).filter((it) => (models >> it) & 1))}`;
    const rest = fix.isSure ? "" : " Arguments of the same type are taken in their order.";
    const text = made("samp", seen(this.shown(fix.text))), words = `: then it takes the arguments of the first${where}.${rest} `;
    return [made("p.fix", "Write the second as ", text, words, use)];
  }

  // An argument as it is shown: a long string is cut.
  argument(value) {
    if (typeof value === "bigint") return String(value);
    const quoted = (it) => `"${this.shown(it)}"`;
    return value.length <= LONGEST ? quoted(value) : `${quoted(value.slice(0, 4)).slice(0, -1)}.." of ${value.length} bytes`;
  }

  // Formats with numbered arguments.

  typesOnly(found, refusal) {
    const isSame = found.verdict === "same", own = isSame ? "same types" : `types differ at argument ${found.at + 1}`;
    const words = isSame ? "each takes the arguments of the other" : "one doesn't take the arguments of the other";
    const summary = [made("strong", own), `: ${words}`];
    const why = `With numbered arguments only types are compared, and there is no canonical text (${refusal}).`;
    const apart = isSame ? [] : this.keys(false, this.apart(found)), keys = [...this.harm(found), ...apart, made("p.soft", why)];
    return { kind: isSame ? "good" : "bad", summary, keys, tried: null, below: this.accepted() };
  }

  // A rejection.

  rejection(found, placeOf) {
    const { refusal, side, help, instead } = found, place = placeOf(refusal, side ?? 0);
    const isSaid = instead && help.includes(`\`${this.shown(instead)}\``);
    const words = [...said(help), ...(instead && !isSaid ? [" Write ", made("code", this.shown(instead)), "."] : [])];
    const summary = [made("strong", `${side === null ? "" : `${SIDES[side]}: `}${place}`), made("span.help", ...words)];
    const below = this.formats.length > 1 ? this.accepted() : [];
    return { kind: "bad", summary, keys: [this.wrong(found)], tried: null, below };
  }

  wrong({ format, refusal, start, end }) {
    if (refusal.at >= start && refusal.at < end) return wrongAt(format, refusal.at, (it) => this.shown(it), start);
    const parts = [format.slice(0, start), format.slice(start, end), format.slice(end)];
    const [front, inner, back] = parts.map((it) => seen(this.shown(it)));
    return made("pre", front, made("mark.wrong", inner), back);
  }
}
