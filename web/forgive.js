/**
 * What is meant by a line that isn't spelled as a request, where only one thing can be: capitals,
 * spaces, and zeros that are missing or too many. What is taken is told. And scripts, as `agc script`
 * takes them, as benches.
 */
import { FORMS, REQUESTS, lineFault, nearest } from "./words.js";

/** How many octal digits a part of a line has; decimal where it isn't named. */
const DIGITS = { P: 2, A: 5, W: 5 };

/** The request that a line means, and what is said of it; the line itself where it is one, or where nothing can be made of it. @param {string} given @returns {{ line: string, told: string }} */
export function forgiven(given) {
  const words = given.trim().replace(/,$/, "").replace(/^"(.*)"$/, "$1").split(/[\s,]+/);
  const word = words[0].toLowerCase();
  const parts = FORMS.get(word);
  if (parts === undefined || words.length !== parts.length + 1) return { line: given.trim(), told: "" };
  const numbers = words.slice(1).map((it, k) => {
    const digits = DIGITS[/** @type {keyof typeof DIGITS} */ (parts[k].name)];
    const plain = it.replace(/^0+(?=[0-9])/, "");
    return digits === undefined ? plain : plain.padStart(digits, "0");
  });
  const line = [word, ...numbers].join(" ");
  if (lineFault(line) !== null || line === given) return { line: given.trim(), told: "" };
  const changed = words.slice(1).flatMap((it, k) => (it === numbers[k] ? [] : [numbers[k]]));
  const told = changed.length > 0 ? `${changed.join(" and ")} ${changed.length === 1 ? "is" : "are"} meant`
    : `“${line}” is meant`;
  return { line, told };
}

/** What parts requests that stand in one line: as an array of a document has them, or semicolons. */
const BETWEEN = /;|(?<=")\s*,\s*(?=")/;

/** @param {string} text */
export function areSeveral(text) {
  return text.trim().split(BETWEEN).length > 1;
}

/** @param {string} text */
function linesOf(text) {
  return text.split(/\r?\n/).flatMap((line, k) => line.replace(/#.*$/, "").split(BETWEEN)
    .map((it) => ({ text: it.trim(), number: k + 1 }))).filter((it) => it.text !== "");
}

/** Whether a text is a script: its first line begins with a request's word, and has no sign `=`. @param {string} text */
export function isScript(text) {
  const [first] = linesOf(text);
  if (first === undefined || first.text.includes("=") || first.text.startsWith("[")) return false;
  const word = first.text.replace(/^"/, "").split(/[\s",]/)[0].toLowerCase();
  return FORMS.has(word) || nearest(word, REQUESTS) !== undefined;
}

/** The requests of pasted lines. A line that spells none is thrown, with its number. @param {string} text */
export function requestsIn(text) {
  return linesOf(text).map(({ text: given, number }) => {
    const { line } = forgiven(given);
    const fault = lineFault(line);
    if (fault !== null) throw new Error(`line ${number}: "${given}": ${fault}`);
    return line;
  });
}

/** The document of a script. @param {string} text */
export function documentOfScript(text) {
  const lines = requestsIn(text).map((it) => `  ${JSON.stringify(it)},`);
  const limit = lines.length > 1000 ? `limit = ${lines.length}\n` : "";
  return `# A script of ${lines.length} requests.\n${limit}script = [\n${lines.join("\n")}\n]\n`;
}
