// What is known of the specification in which a format is rejected: by calls about parts of the format, as rejected.py.
const REFUSALS_KNOWN = { truncated: 2, missingArgument: 21, twoTypes: 22 };
// Those of a specification that isn't defined. It can be read up to its end.
const UNDEFINED_KINDS = [13, 14, 15, 16, 17, 19];
// The number of an argument, after the percent sign or a `*`. In a format that can be read, nothing else is so spelled.
const ARGUMENT_NUMBER = /(?<=[%*])([0-9]+)\$/g;
const SPECIFICATION_FRONT = /%%|%[-+ #0-9'.*$]*/g;

/** Returns what is known of the specification in which a text is rejected; null outside of one. */
export function specificationIn(library, text, { kind, at }) {
  if (kind === REFUSALS_KNOWN.missingArgument) return leavingOut(library, text);
  if (refusalBy(library, text.slice(0, at))?.kind !== REFUSALS_KNOWN.truncated) return null;
  const start = text.lastIndexOf("%", at - 1);
  return readFrom(library, text, start) ?? placesOnly(start, { end: at, flagsAt: at, widthAt: at, precisionAt: at, modifierAt: at });
}

// The first specification that takes an argument after one that none takes, with that one.
function leavingOut(library, text) {
  const taken = [...text.matchAll(SPECIFICATION_FRONT)].map((it) => ({
    start: it.index,
    numbers: [...it[0].matchAll(ARGUMENT_NUMBER)].map((number) => Number(number[1]) - 1),
  }));
  const all = new Set(taken.flatMap((it) => it.numbers));
  let argument = 0;
  while (all.has(argument)) argument++;
  const { start } = taken.find((it) => it.numbers.some((number) => number > argument));
  return { ...readFrom(library, text, start), argument };
}

// The offsets of the specification that begins at a percent sign, if it can be read up to its end.
function readFrom(library, text, start) {
  const alone = text.slice(start).match(/^%[^%\0]*/)[0], refusal = refusalBy(library, alone);
  const readable = [...UNDEFINED_KINDS, REFUSALS_KNOWN.missingArgument, REFUSALS_KNOWN.twoTypes];
  if (refusal && !readable.includes(refusal.kind)) return null;
  const numbers = [...alone.matchAll(ARGUMENT_NUMBER)];
  // With the numbers of arguments that the specification has alone.
  const placeOf = (offset) => start + numbers.reduce((at, it) => (it.index <= at ? at + it[0].length : at), offset);
  const { end, flagsAt, widthAt, precisionAt, modifierAt } = offsetsIn(library, alone.replace(ARGUMENT_NUMBER, ""));
  const places = { end, flagsAt, widthAt, precisionAt, modifierAt };
  return placesOnly(start, Object.fromEntries(Object.entries(places).map(([name, at]) => [name, placeOf(at)])));
}

// The specification without numbers of arguments that begins a text.
function offsetsIn(library, plain) {
  const refusal = refusalBy(library, plain);
  if (!refusal) return library.specifications(0, plain)[0];
  // Every flag, width and precision is defined with the conversion `g`.
  const front = plain.slice(0, refusal.at).replace(/[hljztL]+$/, "");
  return { ...library.specifications(0, `${front}g`)[0], end: refusal.at + 1 };
}

function placesOnly(start, places) {
  const none = { argument: null, widthArgument: null, precisionArgument: null, width: null, precision: null };
  return { start, ...places, ...none, type: 0, parts: 0, needless: 0, together: 0 };
}

function refusalBy(library, text) {
  try {
    library.directives(0, text);
  } catch (fault) {
    if (fault.kind === undefined) throw fault;
    return fault;
  }
  return null;
}
