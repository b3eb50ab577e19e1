// Makes elements of the page.

// Of a longer text, spaces aren't marked.
const MARKED = 2000;

/** Makes an element: its name, perhaps with classes after points, and what it holds. */
export function made(name, ...held) {
  const [tag, ...classes] = name.split(".");
  const element = document.createElement(tag);
  if (classes.length) element.className = classes.join(" ");
  element.append(...held.flat().filter((it) => it !== null && it !== undefined));
  return element;
}

/** Returns words with their code, which is in back quotes, as elements. */
export const said = (words) => words.split("`").map((it, at) => (at % 2 ? made("code", it) : it));

/** Returns a text whose spaces can be seen: the page draws a dot into each, and it stays a space. */
export function seen(text) {
  if (text.length > MARKED || !text.includes(" ")) return [text];
  return text.split(/( +)/).map((it) => (it[0] === " " ? made("span.sp", it) : it));
}

/** Makes a list of terms, each with what is said of it. */
export const terms = (rows) => made("dl", ...rows.flatMap(([name, ...held]) => [made("dt", name), made("dd", ...held)]));

/** Makes a table of rows, each with a head. */
export function table(rows) {
  const lines = rows.map(([head, ...held]) => {
    const cell = made("th", head);
    cell.scope = "row";
    return made("tr", cell, made("td", ...held));
  });
  return made("table", made("tbody", ...lines));
}

export function button(words, pressed) {
  const element = made("button", ...words);
  element.type = "button";
  element.addEventListener("click", () => pressed(element));
  return element;
}

/** Makes a button that copies a text, and says so. */
export function copier(words, name, text) {
  const copied = async (it) => {
    await navigator.clipboard.writeText(text());
    it.textContent = "Copied";
  };
  const element = button([words], (it) => copied(it).catch(() => (it.textContent = "This browser can't copy")));
  element.setAttribute("aria-label", name);
  return element;
}
