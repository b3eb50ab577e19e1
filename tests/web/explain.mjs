// Writes what the page knows of formats, as `fmtcanon-explain --output json` does, for each line of standard input: a list
// of a data model and one format or two, with one byte in each character. Usage: node explain.mjs MODULE TABLE
import fs from "fs";
import readline from "readline";
import { Library, MODELS, textOf } from "../../web/library.js";
import { Explainer } from "../../web/explain.js";

const [, , module, table] = process.argv;
const library = new Library(new WebAssembly.Instance(new WebAssembly.Module(fs.readFileSync(module)), {}).exports);
const explainer = new Explainer(library, JSON.parse(fs.readFileSync(table, "utf8")));
// JSON has no integers of 64 bits for JavaScript.
const number = (it) => (it === null ? null : { number: String(it) });

const names = (parts) => explainer.words.names.filter(([, part]) => part & parts).map(([name]) => name);

// The parts of a specification, and those that have no effect.
function facts({ found, flags, modifier, conversion }) {
  const fromOne = (it) => (it === null ? null : it + 1), { width, precision } = found;
  const stars = { width_argument: fromOne(found.widthArgument), precision_argument: fromOne(found.precisionArgument) };
  const sets = { needless: names(found.needless), together: names(found.together) };
  return { flags, width, precision, ...stars, modifier, conversion, ...sets };
}

function part(it) {
  if (!it) return null;
  const listed = it.types.flatMap((type, model) => (type ? [[MODELS[model], explainer.words.type(type)]] : []));
  const types = Object.fromEntries(listed);
  const { start, end, argument, meaning, notes } = it;
  const told = { start, end, text: textOf(it.text), argument, types, meaning, notes, type_name: it.typeName || null };
  return it.specification ? { ...told, ...facts(it.specification) } : told;
}

const difference = (it) => ({
  formats: it.formats.map(textOf),
  verdict: it.verdict,
  argument: it.at === null ? null : it.at + 1,
  arguments: it.arguments.map((one) => (typeof one === "string" ? textOf(one) : number(one))),
  printed: it.printed.map(textOf),
  directives: it.parts.map(part),
});

function rejection({ format, refusal, start, end, help, side, instead, types }) {
  const told = { kind: refusal.kind, name: refusal.name, at: refusal.at, start, end, help };
  if (side !== null) told.side = side;
  if (instead !== null) told.write = textOf(instead);
  return { format: textOf(format), accepted: false, refusal: told, ...(types ? { types: difference(types) } : {}) };
}

function explanation({ format, parts, canonical, bounds }, model) {
  const texts = canonical && Object.fromEntries(canonical.map((it, model) => [MODELS[model], textOf(it)]));
  const [least, greatest] = [bounds?.least ?? null, bounds?.greatest ?? null].map(number);
  const sizes = bounds && { least, greatest, words: explainer.words.bytes(bounds) };
  const unlike = canonical && explainer.unlikeKey(canonical, model).map((it) => MODELS[it]);
  return { format: textOf(format), accepted: true, directives: parts.map(part), canonical: texts, bounds: sizes, unlike };
}

for await (const line of readline.createInterface({ input: process.stdin })) {
  const [model, ...formats] = JSON.parse(line), found = explainer.found(formats, model);
  const told = found.refusal ? rejection(found) : formats.length > 1 ? difference(found) : explanation(found, model);
  process.stdout.write(JSON.stringify(told) + "\n");
}
