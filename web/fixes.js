// What a format does that takes other types than another one, and what to write instead.
import { STRING } from "./library.js";
import { unlessRefused } from "./explain.js";

// The numbers of types that are integers, and those that are the address of something that is read or written.
const LAST_INTEGER = 6, DOUBLES = [8, 9], ADDRESSES = [STRING, 11, 13, 14, 15, 16, 17];
// How many directives are given other types, one after another.
const MOST = 20;

/** Returns what happens if the second of two directives is given the argument of the first; nothing if that isn't known. */
export function harmOf(parts, at, model) {
  const [first, second] = parts.map((it) => (it && it.argument === at + 1 ? it.types[model] : null));
  if (!first || !second) return "";
  const given = "With the arguments of the first, the second ", [from, to] = [first, second].map((it) => ADDRESSES.includes(it));
  if (to && !from) return `${given}takes a number for an address, and mostly crashes.`;
  if (from && second <= LAST_INTEGER) return `${given}prints an address as a number.`;
  if (DOUBLES.includes(first) !== DOUBLES.includes(second)) return `${given}reads what was never passed: it prints anything.`;
  if (first > LAST_INTEGER || second > LAST_INTEGER) return "";
  const [one, two] = [first, second].map((kind) => (kind <= 2 || (kind <= 4 && model) ? 32 : 64));
  const later = "where arguments are passed one after another, all later ones are wrong";
  if (one > two) return `${given}takes ${two} of the ${one} bits of a number: ${later}.`;
  if (one < two) return `${given}takes ${two} bits for a number of ${one}: the rest is anything.`;
  return `Both have ${one} bits here, but C has two types of them.`;
}

/** Returns a second format that takes the arguments of the first, and whether it is the only one that keeps its words. */
export function fixOf(explainer, [first, second], model) {
  const candidates = [() => numbered(explainer, first, second, model), () => retyped(explainer, first, second, model)];
  for (const candidate of candidates) {
    const found = unlessRefused(null, candidate);
    if (found && unlessRefused(false, () => explainer.library.fits(model, first, found.text))) return found;
  }
  return null;
}

// The second format with the numbers of the arguments that its directives are about: those of their types.
function numbered(explainer, first, second, model) {
  const [given, taken] = [first, second].map((it) => explainer.explain(it, model).parts);
  if ([...given, ...taken].some((it) => !isPlain(it)) || given.length !== taken.length) return null;
  const left = given.map((it, at) => ({ at, it })), places = [];
  let isSure = true;
  for (const part of taken) {
    const fitting = left.filter(({ it }) => it.types[model] === part.types[model]);
    if (!fitting.length) return null;
    const alike = fitting.filter(({ it }) => it.text === part.text), [found] = alike.length ? alike : fitting;
    if ((alike.length || fitting.length) > 1 && !left.every(({ it }) => it.types[model] === part.types[model])) isSure = false;
    places.push(found.at);
    left.splice(left.indexOf(found), 1);
  }
  if (places.every((it, at) => it === at)) return null;
  let text = "", done = 0;
  taken.forEach((part, at) => {
    text += second.slice(done, part.start) + `%${places[at] + 1}$` + part.text.slice(1);
    done = part.end;
  });
  return { text: text + second.slice(done), isSure };
}

// Whether a directive takes one argument, which isn't numbered.
const isPlain = ({ specification, text }) => specification !== null && !/[*$]/.test(text);

// The second format with the modifiers, or with the whole directives, of the first where types differ.
function retyped(explainer, first, second, model) {
  let text = second;
  for (let count = 0; count < MOST; count++) {
    const { verdict, parts } = explainer.compare(first, text, model);
    if (verdict !== "types") return { text, isSure: true };
    if (!parts.every((it) => it && isPlain(it))) return null;
    const [given, taken] = parts.map(({ specification }) => specification), end = text.slice(parts[1].end);
    const isInteger = parts.every((it) => it.types[model] <= LAST_INTEGER), { flags, width, precision, conversion } = taken;
    const isLike = isInteger && "di".includes(given.conversion) === "di".includes(conversion);
    const written = isLike ? `%${flags}${width}${precision}${given.modifier}${conversion}` : given.text;
    const next = text.slice(0, parts[1].start) + written + end;
    if (next === text) return null;
    text = next;
  }
  return null;
}
