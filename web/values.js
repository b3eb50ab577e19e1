// The arguments that one can choose, and what is printed for them.
import { Refused, STRING, bytesOf } from "./library.js";
import { rangeOf } from "./answer.js";
import { made } from "./elements.js";

// How many arguments have a box.
const BOXES = 12;

export class Values {
  /** Uses an element of the page; `changed` is called when an argument is typed. */
  constructor(element, library, changed) {
    Object.assign(this, { element, library, changed, typed: new Map(), slots: [], nodes: {}, signature: null });
    [this.boxes, this.out] = [made("div.boxes"), made("div")];
    // What is printed is said aloud only while arguments are typed: the verdict is said otherwise.
    element.addEventListener("focusin", () => this.out.setAttribute("aria-live", "polite"));
    element.addEventListener("focusout", () => this.out.removeAttribute("aria-live"));
  }

  /** Forgets what was typed, and takes what an address has: texts by the numbers of arguments. */
  choose(typed = []) {
    [this.typed, this.signature] = [new Map(typed), null];
  }

  /** Shows boxes for arguments, and what is printed for these; nothing if there is nothing to print. */
  show(tried, model, isSource, shown) {
    Object.assign(this, { tried, model, isSource, shown });
    this.element.hidden = !tried;
    if (!tried) return;
    this.slots = tried.slots.slice(0, BOXES);
    const signature = JSON.stringify(this.slots.map(({ at, kind, part }) => [at, kind, part.text]));
    if (signature !== this.signature) this.build();
    this.signature = signature;
    for (const it of this.slots) if (!this.typed.has(it.at)) this.nodes[it.at].box.value = this.written(it);
    this.print();
  }

  build() {
    this.boxes.replaceChildren(...this.slots.map((it) => this.boxOf(it)));
    const head = made("h3", this.slots.length ? "For these arguments" : "What is printed");
    this.element.replaceChildren(head, this.boxes, this.out);
  }

  boxOf(slot) {
    const box = made("input"), label = made("label", made("span", ...slot.words), box), fault = made("span.fault");
    [box.type, box.spellcheck, box.autocomplete] = ["text", false, "off"];
    [box.id, fault.id] = [`value${slot.at + 1}`, `fault${slot.at + 1}`];
    box.setAttribute("autocapitalize", "off");
    if (slot.kind === STRING) box.placeholder = "the empty string";
    box.setAttribute("aria-describedby", fault.id);
    if (this.typed.has(slot.at)) box.value = this.typed.get(slot.at);
    box.addEventListener("input", () => {
      this.typed.set(slot.at, box.value);
      this.print();
      this.changed();
    });
    this.nodes[slot.at] = { box, fault };
    return made("div", label, fault);
  }

  // An argument as one types it.
  written({ value, isCharacter }) {
    if (typeof value !== "bigint") return this.shown(value);
    const character = isCharacter && value < 127n ? String.fromCharCode(Number(value)) : "";
    return /^[!-&(-[\]-~]$/.test(character) ? `'${character}'` : String(value);
  }

  // Reads all boxes, and shows what is printed or what is wrong with one.
  print() {
    const values = new Map();
    let isWrong = false;
    for (const slot of this.slots) {
      const { box, fault } = this.nodes[slot.at], found = this.read(slot, box.value);
      const words = typeof found === "object" ? found.words : "";
      fault.textContent = words;
      box.setAttribute("aria-invalid", String(Boolean(words)));
      if (words) isWrong = true;
      else values.set(slot.at, found);
    }
    this.out.replaceChildren(...(isWrong ? [] : this.tried.lay(values)));
  }

  // The value that is typed: a BigInt, or the bytes of a string; or an object with what is wrong.
  read({ kind }, typed) {
    if (kind === STRING) return this.readString(typed);
    const number = this.readNumber(typed.trim()), [least, greatest] = rangeOf(kind, this.model);
    if (number === null) return { words: "a number, as -7, 0x1f or 'A'" };
    return number < least || number > greatest ? { words: `from ${least} to ${greatest}` } : number;
  }

  readNumber(typed) {
    const [, sign, digits] = /^([+-]?)(\d+|0[xX][\da-fA-F]+)$/.exec(typed) ?? [];
    if (digits) return sign === "-" ? -BigInt(digits) : BigInt(digits);
    const character = /^'(.|\\.+)'$/.exec(typed);
    const bytes = character && this.decoded(bytesOf(character[1] === '"' ? '\\"' : character[1]));
    return bytes && bytes.length === 1 ? BigInt(bytes.charCodeAt(0)) : null;
  }

  readString(typed) {
    const bytes = bytesOf(typed), quoted = bytes.replace(/\\[^]|"/g, (it) => (it === '"' ? '\\"' : it));
    const found = this.isSource ? this.decoded(quoted) : bytes;
    if (found === null) return { words: "not a string of C" };
    return found.includes("\0") ? { words: "a string ends at its first NUL" } : found;
  }

  decoded(inner) {
    try {
      return this.library.decode(`"${inner}"`);
    } catch (fault) {
      if (fault instanceof Refused) return null;
      throw fault;
    }
  }
}
