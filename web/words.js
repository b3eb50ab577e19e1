// Says what a conversion specification prints, by the table of words that fmtcanon-explain reads, too (words.json). A row
// of the table has the conversions that it is about, or none for all; what it asks of a specification, by tokens, where
// one that begins with `!` must not be there; and a phrase with names in braces. The first row that fits is taken.
import { PARTS } from "./library.js";

const isMet = (tokens) => (asked) => (asked[0] === "!" ? !tokens.has(asked.slice(1)) : tokens.has(asked));

// The phrase of the first row that fits; an empty one if none does.
const phrase = (rows, conversion, tokens) =>
  rows.find(([letters, asked]) => (!letters || letters.includes(conversion)) && asked.every(isMet(tokens)))?.[2] ?? "";

/** Returns words with the names in braces filled in. */
export const filled = (words, values) => words.replace(/\{(\w+)\}/g, (_, name) => known(values, name));

function known(values, name) {
  if (values[name] === undefined || values[name] === null) throw new Error(`the table of words asks for ${name}`);
  return values[name];
}

// The parts of a specification that are left without those that have no effect.
const effective = ({ found }) => found.parts & ~found.together;

/** A conversion specification of a format, and its bytes by the offsets that the library gives. */
export class SpelledSpecification {
  constructor(found, format) {
    const slice = (from, to) => format.slice(from, to);
    Object.assign(this, { found, format, text: slice(found.start, found.end), front: slice(found.start, found.flagsAt) });
    this.flags = slice(found.flagsAt, found.widthAt);
    this.width = slice(found.widthAt, found.precisionAt);
    this.precision = slice(found.precisionAt, found.modifierAt);
    this.modifier = slice(found.modifierAt, found.end - 1);
    this.conversion = slice(found.end - 1, found.end);
  }

  /** Returns a format of its own, without the numbers of arguments. */
  get alone() {
    const [width, precision] = [this.width, this.precision].map((it) => it.slice(0, it.indexOf("*") + 1 || undefined));
    return "%" + this.flags + width + precision + this.modifier + this.conversion;
  }
}

export class Words {
  constructor(table) {
    this.table = table;
    // How flags are spelled, and how the rows name other parts.
    this.names = table.parts.map((name, at) => [name, 1 << at]);
  }

  // What the rows ask of a specification that has only these parts.
  tokensOf(one, parts) {
    const tokens = new Set(this.names.filter(([, part]) => part & parts).map(([name]) => name));
    for (const name of ["width", "precision"]) {
      if (PARTS[name] & parts) tokens.add(one.found[name] === null ? `${name}*` : name[0] + one.found[name]);
    }
    return PARTS.modifier & parts ? tokens.add(one.modifier) : tokens;
  }

  // Words with what they have in braces.
  filled(words, one, parts, part = "") {
    if (!words.includes("{")) return words;
    const { found, conversion } = one;
    const values = Object.fromEntries(Object.entries(this.table.values).map(([name, of]) => [name, of[conversion]]));
    if (found.precision !== null && PARTS.precision & parts) values.precision = found.precision;
    const stars = { w: found.widthArgument + 1, p: found.precisionArgument + 1 };
    return filled(words, { ...values, ...stars, conversion, width: found.width, part });
  }

  /** Returns a specification without these parts, by their names. */
  without(one, names) {
    const flags = [...one.flags].filter((it) => !names.includes(it)).join("");
    const others = ["width", "precision", "modifier"].map((it) => (names.includes(it) ? "" : one[it]));
    return one.front + flags + others.join("") + one.conversion;
  }

  /** Returns what a specification prints. */
  meaning(one) {
    const parts = effective(one), tokens = this.tokensOf(one, parts);
    const phrases = this.table.meaning.map((rows) => phrase(rows, one.conversion, tokens));
    return this.filled(phrases.filter((it) => it).join(", "), one, parts);
  }

  /** Returns what an integer conversion does with the sign of a number, which tells zeros from digits; or nothing. */
  meaningOfNumber(one, number) {
    const parts = effective(one);
    if (number >= 0n && !(parts & (PARTS.plus | PARTS.space))) return "";
    return this.filled(phrase(this.table.sign, one.conversion, this.tokensOf(one, parts)), one, parts);
  }

  /** Returns why parts have no effect, which the library has said, and which flags are there more than once. */
  notes(one) {
    const { parts, needless, together } = one.found, tokens = this.tokensOf(one, parts);
    const listed = this.names.filter(([, part]) => part & needless).map(([name, part]) => {
      const words = part & together ? phrase(this.table.needless[name], one.conversion, tokens) : this.table.either;
      return this.filled(words, one, parts, one[name] ?? name);
    });
    const twice = [...new Set(one.flags)].filter((it) => one.flags.split(it).length > 2);
    return [...listed, ...twice.map((flag) => this.filled(this.table.twice, one, parts, flag))];
  }

  /** Returns the name that C has for the type of a specification's argument in all data models; nothing if it has none. */
  typeName(one) {
    return phrase(this.table.typedefs, one.conversion, new Set([one.modifier]));
  }

  /** Returns what the canonical text in a data model is called; without one, that in all of them. */
  key(model) {
    return filled(model ? this.table.key_in_model : this.table.key, { model, key: "" }).replace(/:? *$/, "");
  }

  /** Returns that a canonical text isn't the same as the format in these data models. */
  notARewrite(models) {
    return filled(this.table.not_a_rewrite, { models });
  }

  /** Returns how many bytes a format prints. */
  bytes({ least, greatest }) {
    const tokens = new Set([`least${least}`, greatest === null ? "unbounded" : "bounded"]);
    if (least === greatest) tokens.add("exact");
    return filled(phrase(this.table.bytes, "", tokens), { least, most: greatest });
  }

  /** Returns the name of a type, by its number. */
  type(number) {
    return this.table.types[number];
  }
}
