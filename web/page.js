// Shows what the library says of the formats that are typed.
import { Library, MODELS, Refused, textOf } from "./library.js";
import { Explainer } from "./explain.js";
import { Typed } from "./typed.js";
import { Answer, SIDES, visibleIn, wrongAt } from "./answer.js";
import { Values } from "./values.js";
import { button, copier, made, said, seen } from "./elements.js";
import { MODULE, TABLE } from "./parts.js";

// What can be chosen: its name, the data model, and formats.
const EXAMPLES = [
  ["What a format does", "lp64", "%-05d of %5zu%%"],
  ["Two that are the same", "lp64", "%5c", "    %c"],
  ["A difference at -1", "lp64", "%05d", "%.5d"],
  ["A translation that would crash", "lp64", "%d files in %s", "In %s sind %d Dateien"],
  ["A type that is wrong on Windows", "llp64", "%zu of %zu bytes", "%lu of %zu bytes"],
  ["A call, as it is pasted", "lp64", 'printf("%08" PRIx64 ": %s\\n", id, name);'],
  ["A percent sign that takes an argument", "lp64", "100% done: %s"],
  ["A width and a precision as arguments", "lp64", "%-08.6lf|%*.*f"],
  ["A rejection", "lp64", "%d and %#d"],
];
// How many milliseconds after a key the address changes: some browsers refuse to change it often. The answer to formats of
// more than LONG characters waits as long, too.
const PAUSE = 300, LONG = 2000;
const byId = (id) => document.getElementById(id);

class Page {
  constructor(library, table) {
    Object.assign(this, { library, explainer: new Explainer(library, table), timer: null });
    this.values = new Values(byId("values"), library, () => this.later(() => {}));
  }

  get model() {
    return MODELS.indexOf(new FormData(byId("form")).get("model"));
  }

  get isSource() {
    return byId("literal").checked;
  }

  get typed() {
    return ["first", "second"].map((it) => byId(it).value);
  }

  // All that is chosen, as the fragment of the address.
  get fragment() {
    const [first, second] = this.typed, words = new URLSearchParams({ f: first });
    if (second) words.set("g", second);
    if (this.model) words.set("m", MODELS[this.model]);
    if (!this.isSource) words.set("raw", "1");
    for (const [at, typed] of this.values.typed) words.set(`a${at + 1}`, typed);
    return `#${words}`;
  }

  load() {
    const given = new URLSearchParams(location.hash.slice(1));
    const model = MODELS.find((it) => it === given.get("m")) ?? MODELS[0];
    const numbered = [...given].filter(([name]) => /^a[1-9]\d{0,3}$/.test(name));
    const values = numbered.map(([name, it]) => [Number(name.slice(1)) - 1, it]);
    this.choose(model, given.get("f") ?? "", given.get("g") ?? "", given.get("raw") !== "1", values);
  }

  choose(model, first, second = "", isSource = true, values = []) {
    [byId("first").value, byId("second").value] = [first, second];
    byId("literal").checked = isSource;
    document.querySelector(`input[value=${model}]`).checked = true;
    this.values.choose(values);
    this.changed();
  }

  changed() {
    const isLong = this.typed.join("").length > LONG;
    if (!isLong) this.update();
    this.later(() => isLong && this.update());
  }

  later(done) {
    clearTimeout(this.timer);
    this.timer = setTimeout(() => {
      done();
      if (this.fragment !== location.hash) history.replaceState(null, "", this.fragment);
    }, PAUSE);
  }

  update() {
    const { kind, summary, keys, tried, below } = this.answer();
    byId("result").className = kind;
    byId("summary").replaceChildren(...summary);
    byId("keys").replaceChildren(...keys);
    this.values.show(tried, this.model, this.isSource, (it) => visibleIn(this.library, it));
    byId("answer").replaceChildren(...below);
  }

  answer() {
    const [first, second] = this.typed, nothing = { kind: "", keys: [], tried: null, below: [] };
    if (!first && !second) return { ...nothing, summary: ["Type a format, or choose an example."] };
    try {
      const typed = second ? [first, second] : [first];
      const texts = MODELS.map((_, model) => typed.map((it, side) => new Typed(this.library, it, this.isSource, side, model)));
      const own = texts[this.model], asked = texts.map((it) => it.map(({ bytes }) => bytes));
      const place = ({ kind, name, at }, side) => new Refused(kind, name, own[side].offsetOf(at), side).message;
      const answer = new Answer(this.explainer, this.model, asked, (text) => this.use(text, answer));
      const found = answer.of(place), notes = own.map((it, side) => this.noteOf(it, side, second, answer));
      return { ...found, keys: [...notes.filter((it) => it), ...found.keys] };
    } catch (fault) {
      // It isn't C source, or there is no memory. After another fault, the module may be in any state.
      const isKnown = fault instanceof Refused || fault instanceof RangeError;
      if (!isKnown) return { ...nothing, kind: "bad", summary: [`Please load this page again: ${fault}`] };
      const keys = fault.typed === undefined ? [] : [wrongAt(fault.typed, fault.at)];
      const side = second && fault.typed !== undefined ? `${SIDES[fault.side]}: ` : "";
      return { ...nothing, kind: "bad", summary: [made("strong", side + fault.message)], keys };
    }
  }

  // Takes a second format.
  use(text, answer) {
    byId("second").value = this.isSource ? answer.shown(text) : textOf(text);
    byId("second").focus();
    this.changed();
  }

  // How a format was read that isn't typed as a text alone.
  noteOf(typed, side, second, answer) {
    if (!typed.notes.length) return null;
    const name = second ? `${SIDES[side]}: ` : "";
    return made("p.soft", `${name}read as `, answer.code(typed.bytes), ": ", ...said(typed.notes.join("; ")));
  }
}

function exampleOf(page, [name, ...chosen]) {
  const [, ...formats] = chosen, lineOf = (it, at) => [...(at ? [" ", made("br")] : []), made("code", seen(it))];
  const shown = formats.flatMap(lineOf);
  return made("li", button([made("span.name", name), " ", ...shown], () => page.choose(...chosen)));
}

async function start() {
  const bytes = Uint8Array.from(atob(MODULE), (it) => it.charCodeAt(0));
  const { instance } = await WebAssembly.instantiate(bytes, {});
  const library = new Library(instance.exports), page = new Page(library, TABLE);
  byId("tries").append(...EXAMPLES.map((it) => exampleOf(page, it)));
  const link = copier("Copy link", "Copy a link to what is typed", () => location.href.split("#")[0] + page.fragment);
  link.id = "link";
  byId("link").replaceWith(link);
  for (const it of ["input", "change"]) byId("form").addEventListener(it, () => page.changed());
  byId("form").addEventListener("submit", (it) => it.preventDefault());
  addEventListener("hashchange", () => page.load());
  // What was typed while the page was loading stays.
  if (page.typed.some((it) => it)) page.changed();
  else if (location.hash.length > 1) page.load();
  else page.choose(...EXAMPLES[0].slice(1));
  document.documentElement.dataset.ready = "1";
}

start().catch((fault) => {
  byId("result").className = "bad";
  byId("summary").textContent = `This browser can't run the page: ${fault.message}`;
});
