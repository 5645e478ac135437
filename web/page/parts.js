// Parts of the page: elements by their tag, their attributes and what is in them; and what a reader opened or chose in them.
const SVG = "http://www.w3.org/2000/svg";

// A text as it is shown: characters that would hide, or turn the direction in which what stands around is written, are named by their numbers.
const HIDDEN = /[\u0000-\u0008\u000b\u000c\u000e-\u001f\u007f-\u009f\u00ad\u061c\u200b-\u200f\u2028-\u202e\u2060-\u2069\ufeff\ufff9-\ufffb]/g;
const visible = text =>
  String(text).replace(/\r\n/g, "\n").replace(HIDDEN, c => "‹U+" + c.codePointAt(0).toString(16).toUpperCase().padStart(4, "0") + "›");

const READ_OUT = ["aria-label", "title"];

// Puts attributes and children into an element. An attribute that begins with `on` is a function for that event.
const filled = (element, attributes, children) => {
  for (const [name, value] of Object.entries(attributes || {})) {
    if (value === null || value === undefined || value === false) continue;
    if (name.startsWith("on")) element.addEventListener(name.slice(2), value);
    else element.setAttribute(name, value === true ? "" : READ_OUT.includes(name) ? visible(value) : value);
  }
  for (const child of children.flat(Infinity)) {
    if (child !== null && child !== undefined && child !== false) element.append(child instanceof Node ? child : visible(child));
  }
  return element;
};

const el = (tag, attributes, ...children) => filled(document.createElement(tag), attributes, children);
const svg = (tag, attributes, ...children) => filled(document.createElementNS(SVG, tag), attributes, children);

const byId = id => document.getElementById(id);

// Puts new children in place of the old ones.
const shown = (element, ...children) => {
  element.replaceChildren();
  filled(element, {}, children);
};

const pause = () => new Promise(resolve => setTimeout(resolve, 0));

// Waits until the browser has drawn what stands there; in a window that is not seen, a moment.
const drawn = () =>
  new Promise(resolve => {
    const soon = setTimeout(resolve, 200);
    requestAnimationFrame(() => {
      clearTimeout(soon);
      setTimeout(resolve, 0);
    });
  });

const button = (key, press, attributes) => el("button", { type: "button", "data-key": key, onclick: press, ...attributes }, t(key));

// Which parts are open and what is chosen in them, by their keys: it outlives that the parts are made again. In a page that is saved all of them are filled.
const kept = { open: new Map(), chosen: new Map(), isWhole: false };

// A part that is filled when it is first opened.
const opened = (key, summary, fill, attributes) => {
  const body = el("div", {});
  const isOpen = kept.open.get(key) || false;
  const details = el("details", { ...attributes, open: isOpen, "data-part": key }, el("summary", { "data-key": key }, summary), body);
  let done = kept.isWhole || isOpen;
  if (done) fill(body);
  details.addEventListener("toggle", () => {
    kept.open.set(key, details.open);
    if (details.open && !done) {
      done = true;
      fill(body);
    }
  });
  return details;
};

// A choice among values with their texts, and below it what is shown of the chosen one; where the page is saved, of each.
const chooser = (key, label, options, partOf) => {
  if (!options.length) return null;
  if (kept.isWhole) return options.map(([value]) => partOf(value));
  const place = el("div", { "aria-live": "polite" });
  const known = options.some(([value]) => value === kept.chosen.get(key));
  const value = known ? kept.chosen.get(key) : options[0][0];
  const change = event => {
    kept.chosen.set(key, event.target.value);
    shown(place, partOf(event.target.value));
  };
  const select = el("select", { "data-key": key, onchange: change }, options.map(([own, text]) => el("option", { value: own, selected: own === value }, text)));
  shown(place, partOf(value));
  return [el("label", {}, label, " ", select), place];
};

// What gives the focus back to what has the key of the part of the page that has it now, when that part was made again.
const heldFocus = root => {
  const active = document.activeElement;
  const key = active && root.contains(active) ? active.dataset.key : null;
  const [from, to] = key && "selectionStart" in active && active.type !== "number" && active.type !== "range" ? [active.selectionStart, active.selectionEnd] : [null, null];
  return () => {
    const again = key && root.querySelector('[data-key="' + CSS.escape(key) + '"]');
    if (!again) return;
    again.focus({ preventScroll: true });
    if (from !== null && again.setSelectionRange) again.setSelectionRange(from, to);
  };
};

// Makes a part of the page again, and keeps the focus.
const renewed = (root, ...children) => {
  const focusAgain = heldFocus(root);
  shown(root, ...children);
  focusAgain();
};

const AT_ONCE = 3000; // elements that are drawn at once

// Puts new contents into roots, pairs of both, and keeps the focus. Many elements are drawn part by part, so that they do not block the page; meanwhile each
// root stays as high as it was.
const renewedInTurns = async (contents, parts) => {
  const focuses = contents.map(([root]) => heldFocus(root));
  const inTurns = parts.reduce((sum, part) => sum + part.querySelectorAll("*").length, 0) > AT_ONCE ? parts : [];
  if (inTurns.length) await drawn();
  for (const [root] of inTurns.length ? contents : []) root.style.minHeight = root.offsetHeight + "px";
  for (const part of inTurns) part.classList.add("not-yet");
  for (const [root, content] of contents) shown(root, content);
  for (const part of inTurns) {
    part.classList.remove("not-yet");
    await drawn();
  }
  for (const [root] of contents) root.style.minHeight = "";
  for (const focusAgain of focuses) focusAgain();
};

const FIRST_CELLS = 600; // cells of a table that are made at once
const MORE_ROWS = 1000;

// A cell is a number, a text, an element or a list of these, or { aligned } for a text that stands where numbers do, or { plain, kind } with a class.
const cellWith = (cell, i, heads) => {
  const numeric = typeof cell === "number" || Boolean(cell && cell.aligned !== undefined);
  const content = typeof cell === "number" ? grouped(cell) : cell && cell.aligned !== undefined ? cell.aligned : cell && cell.plain !== undefined ? cell.plain : cell;
  const kinds = [numeric ? "number" : "", (cell && cell.kind) || "", (heads[i] && heads[i].kind) || ""].join(" ").trim();
  return i === 0 ? el("th", { scope: "row", class: kinds || null }, content) : el("td", { class: kinds || null }, content);
};

const rowWith = (row, heads) =>
  el("tr", { class: row.mark || null, ...(row.data || {}) }, (row.cells || row).map((cell, i) => cellWith(cell, i, heads)));

const FIRST_ITEMS = 20; // items of a list that are made at once
const MORE_ITEMS = 500;

// A list; of many items the first ones, with how many there are and a button for more.
const listWith = (items, itemOf) => {
  const list = el("ul", {});
  const rest = el("p", { class: "note" });
  let made = 0;
  const add = count => {
    list.append(...items.slice(made, made + count).map(itemOf));
    made = Math.min(items.length, made + count);
    shown(rest, made === items.length ? null : [t("someOf", grouped(made), grouped(items.length)), " ", button("moreItems", () => add(MORE_ITEMS))]);
  };
  add(FIRST_ITEMS);
  return [list, rest];
};

// A table with a caption and heads, { head, kind, title } or a text; the first cell of a row is its head. Of many rows the first ones, and a button for more.
const tableWith = (caption, heads, rows, attributes) => {
  const body = el("tbody", {});
  const more = el("button", { type: "button", class: "more-rows" });
  let made = 0;
  const add = count => {
    const to = Math.min(rows.length, made + count);
    body.append(...rows.slice(made, to).map(row => rowWith(row, heads)));
    made = to;
    more.hidden = made === rows.length;
    more.textContent = t("moreRows", grouped(Math.min(MORE_ROWS, rows.length - made)), grouped(rows.length - made));
  };
  add(kept.isWhole ? rows.length : Math.ceil(FIRST_CELLS / heads.length));
  more.addEventListener("click", () => add(MORE_ROWS));
  const headOf = head => el("th", { scope: "col", class: head.kind || null, title: head.title || null }, head.head === undefined ? head : head.head);
  return el("div", { class: "scrolls", tabindex: "0", role: "region", "aria-label": caption },
    el("table", attributes, el("caption", {}, caption), el("thead", {}, el("tr", {}, heads.map(headOf))), body), more);
};
