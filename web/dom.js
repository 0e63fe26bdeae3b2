/** Elements of the page: finding, making and filling them. All text is set as text. */
import { octal } from "./words.js";

/** The element of this name. @param {string} id @returns {any} */
export function by(id) {
  const found = document.getElementById(id);
  if (found === null) throw new Error(`the page has no ${id}`);
  return found;
}

/** A new element. What isn't a property is an attribute. @param {string} name @param {Record<string, any>} given @param {...(Node | string)} children @returns {any} */
export function make(name, given = {}, ...children) {
  const made = document.createElement(name);
  for (const [key, value] of Object.entries(given)) {
    if (value === undefined || value === null) continue;
    if (key === "class") made.className = value;
    else if (key.startsWith("on")) made.addEventListener(key.slice(2), value);
    else if (key.includes("-") || key === "role" || key === "for") made.setAttribute(key, value);
    else Object.assign(made, { [key]: value });
  }
  made.append(...children);
  return made;
}

/** An element's text: only another one is written, and into the text that is there, so that no style is worked out anew. @param {any} node @param {string} text */
export function set(node, text) {
  if (node.textContent === text) return;
  const { firstChild } = node;
  if (text !== "" && firstChild instanceof Text && firstChild === node.lastChild) firstChild.data = text;
  else node.textContent = text;
}

/** An attribute: only another one is written. Null takes it away. @param {any} node @param {string} name @param {string | null} value */
export function attribute(node, name, value) {
  if (node.getAttribute(name) === value) return;
  if (value === null) node.removeAttribute(name);
  else node.setAttribute(name, value);
}

/** Some of an element's properties, as `hidden` or `className`: only others are written. @param {any} node @param {Record<string, any>} given */
export function assign(node, given) {
  for (const [name, value] of Object.entries(given)) if (node[name] !== value) node[name] = value;
}

/** A document's name becomes a link to it where the page is in share/, as in a clone; a copy of the page alone has no documents. @param {string} text @returns {(Node | string)[]} */
function withLinks(text) {
  if (!/\/share\/[^/]*$/.test(location.pathname)) return [text];
  return text.split(/(docs\/[A-Za-z/]+\.md)/).map((it, k) => (k % 2 === 1 ? make("a", { href: `../${it}` }, it) : it));
}

/** The parts of a text: code is between backquotes, and what is emphasized, between asterisks. @param {string} text @returns {(Node | string)[]} */
export function withCode(text) {
  return text.split("`").flatMap((it, k) => (k % 2 === 1 ? [make("code", {}, it)]
    : it.split(/\*([^*]+)\*/).flatMap((one, n) => (n % 2 === 1 ? [make("em", {}, one)] : withLinks(one)))));
}

/** A document whose script is its requests alone, each line with the number of its first one. @param {string} text @returns {(Node | string)[]} */
export function withNumbers(text) {
  const script = text.startsWith("[") ? null : /^script = \[\n[^\]]*/m.exec(text);
  if (script === null) return [text];
  const end = script.index + script[0].length;
  let next = 1;
  const lines = script[0].split("\n").flatMap((line) => {
    const requests = line.match(/"[^"]*"/g) ?? [];
    const first = String(next);
    next += requests.length;
    return requests.length === 0 ? [] : [make("span", { class: "line", "data-first": first }, `${requests.map((it) => it.slice(1, -1)).join(", ")}\n`)];
  });
  return [text.slice(0, script.index), ...lines, text.slice(end + 1).trimStart()];
}

/** Gives an element just these children. @param {string | HTMLElement} where @param {(Node | string)[]} children */
export function fill(where, children) {
  (typeof where === "string" ? by(where) : where).replaceChildren(...children);
}

/** A choice of priorities, as requests have them. @param {number} value @param {Record<string, any>} [given] */
export function priorities(value, given = {}) {
  const made = make("select", given, ...Array.from({ length: 31 }, (_, k) => make("option", {}, octal(k + 1, 2))));
  made.value = octal(value, 2);
  return made;
}

/** A button that does something. @param {string} text @param {() => void} run @param {Record<string, any>} given */
export function button(text, run, given = {}) {
  return make("button", { type: "button", onclick: run, ...given }, text);
}

/** A field with its label before it. @param {string} text @param {HTMLElement} field */
export function labelled(text, field) {
  return make("label", {}, text, field);
}
