// Elements of the page. A text becomes a text node, never HTML.

export const byId = id => document.getElementById(id);

// An element. A name that begins with `on` is listened to, a value that is true or false is a property.
export function make(tag, attributes = {}, ...children) {
  const made = document.createElement(tag);
  for (const [name, value] of Object.entries(attributes)) {
    if (value === null || value === undefined || value === false) continue;
    if (name.startsWith("on")) made.addEventListener(name.slice(2), value);
    else if (name === "class") made.className = value;
    else if (value === true) made[name] = true;
    else made.setAttribute(name, String(value));
  }
  made.append(...asNodes(children));
  return made;
}

const asNodes = children => children.flat(4).filter(child => child !== null && child !== undefined && child !== "")
  .map(child => child instanceof Node ? child : String(child));

export const listen = (id, event, listener) => byId(id).addEventListener(event, listener);
export const note = (...texts) => make("p", {class: "note"}, texts);
export const row = (...children) => make("div", {class: "row"}, children);
export const card = (title, ...children) => make("div", {class: "card"}, make("h2", {}, title), children);
export const button = (text, onclick, more = {}) => make("button", {type: "button", onclick, ...more}, text);

export const textField = more =>
  make("input", {autocomplete: "off", spellcheck: "false", autocapitalize: "none", maxlength: 32, required: true, ...more});

// The values of a select, each with its text; the one that was chosen stays so where it is still there.
export function options(select, values, chosen) {
  select.replaceChildren(...values.map(([value, text]) => make("option", {value}, text)));
  if (values.some(([value]) => value === chosen)) select.value = chosen;
}

const nameOf = element => element.id || element.getAttribute("aria-label") || element.textContent;

// Gives a box new children. The control that had the keyboard has it again, or else the box.
export function refill(box, ...children) {
  const held = box.contains(document.activeElement) && box !== document.activeElement ? nameOf(document.activeElement) : null;
  box.replaceChildren(...asNodes(children));
  if (held === null) return;
  const again = [...box.querySelectorAll("button,input,select,textarea")].find(control => nameOf(control) === held && !control.disabled);
  if (again) again.focus();
  else if (box.hasAttribute("tabindex")) box.focus({preventScroll: true});
}

// A row of a table: texts and elements as cells, or pairs of a cell's content and its class.
export const tableRow = (cells, kind) => make("tr", {class: kind},
  cells.filter(cell => cell !== null).map(cell => Array.isArray(cell) ? make("td", {class: cell[1]}, cell[0]) : make("td", {}, cell)));

// A table; a head is a text, or a pair of a text and a class.
export const table = (heads, rows) => make("table", {},
  make("thead", {}, make("tr", {}, heads.filter(head => head !== null).map(head => Array.isArray(head)
    ? make("th", {scope: "col", class: head[1]}, head[0]) : make("th", {scope: "col"}, head)))),
  make("tbody", {}, rows));

// A table that begins with its first rows, and has more of them when asked.
export function longTable(heads, items, rowOf, step = 500) {
  const made = table(heads, []), box = make("div", {}, made);
  let shown = 0;
  const add = () => {
    made.tBodies[0].append(...items.slice(shown, shown + step).map(rowOf));
    shown = Math.min(items.length, shown + step);
    more.textContent = `Show more: ${items.length - shown} rows are left`;
    if (shown === items.length) more.remove();
  };
  const more = button("", add);
  box.append(more);
  add();
  return box;
}

// Pairs of a word and what it stands for.
export const pairs = entries => make("dl", {}, entries.filter(Boolean).map(([word, text]) => [make("dt", {}, word), make("dd", {}, text)]));

// Gives the user a file.
export function save(name, text, type) {
  const link = make("a", {href: URL.createObjectURL(new Blob([text], {type})), download: name});
  document.body.append(link);
  link.click();
  link.remove();
  setTimeout(() => URL.revokeObjectURL(link.href), 10000);
}
