/**
 * Opening and saving: a bench or a scenario by file, by paste, by drag, from the examples, from the
 * address; and a bench that comes to the same tables.
 */
import { MOST_BYTES, emptyBench, writeBench } from "./bench.js";
import { make } from "./dom.js";

/** The text of a document within the page: `\l` stands for what would begin markup, and a backslash at a line's end for a line that goes on. @param {string} data */
export function textOfData(data) {
  /** @type {Record<string, string>} */
  const signs = { "\\l": "<", "\\\\": "\\", "\\\n": "" };
  return data.replace(/\\[l\\\n]/g, (it) => signs[it]);
}

/** The texts that the page carries: each begins with a line `@ KIND NAME`, followed by its data. @param {string} data @returns {{ kind: string, name: string, text: string }[]} */
export function keptTexts(data) {
  return data.split(/^@ /m).slice(1).map((it) => {
    const end = it.indexOf("\n");
    const [kind, ...name] = it.slice(0, end).split(" ");
    return { kind, name: name.join(" "), text: textOfData(it.slice(end + 1)) };
  });
}

/** The first sentence of the comment at a document's head. @param {string} document */
export function firstSentence(document) {
  const text = questionOf(document).replaceAll("\n", " ");
  return /^.*?[.!?](?= |$)/.exec(text)?.[0] ?? text;
}

/** The text that bytes are. What isn't UTF-8 is read as half a letter, which no document has. @param {Uint8Array | ArrayBuffer} bytes */
export function textOf(bytes) {
  try {
    return new TextDecoder("utf-8", { fatal: true, ignoreBOM: true }).decode(bytes);
  } catch {
    return "\ud800";
  }
}

/** @param {Uint8Array} bytes */
function base64url(bytes) {
  let text = "";
  for (const byte of bytes) text += String.fromCharCode(byte);
  return btoa(text).replaceAll("+", "-").replaceAll("/", "_").replaceAll("=", "");
}

/** Bytes through a stream that packs or unpacks them: as many as a document may have. @param {Uint8Array} bytes @param {any} stream */
async function through(bytes, stream) {
  const reader = new Blob([/** @type {any} */ (bytes)]).stream().pipeThrough(stream).getReader();
  /** @type {number[]} */
  const found = [];
  for (;;) {
    const { done, value } = await reader.read();
    if (done) return Uint8Array.from(found);
    // (a few letters may stand for a text without end)
    if (found.length + value.length > MOST_BYTES) throw new Error("the document is too long");
    for (const byte of value) found.push(byte);
  }
}

/** A text as a part of a link. @param {string} text */
export async function packed(text) {
  const bytes = new TextEncoder().encode(text);
  return base64url(await through(bytes, new CompressionStream("deflate-raw")));
}

/** The text of such a part. One that is damaged or cut is thrown. @param {string} data */
export async function unpacked(data) {
  if (!/^[A-Za-z0-9_-]+$/.test(data)) throw new Error("it has other letters");
  const text = atob(data.replaceAll("-", "+").replaceAll("_", "/"));
  const bytes = Uint8Array.from(text, (it) => it.charCodeAt(0));
  return textOf(await through(bytes, new DecompressionStream("deflate-raw")));
}

/** The bench that asks for the first rows of a run, and comes to the same tables. @param {import("./run.js").Run} run @param {number} count */
export function benchOf(run, count) {
  const { sets, limit, allowance, power, task, phase, key, radar } = run.bench;
  /** @type {(rows: any[]) => any[]} */
  const unnamed = (rows) => rows.map(({ name: _name, ...rest }) => rest);
  return writeBench({ ...emptyBench(), sets, limit, allowance, power, key, radar, task: unnamed(task), phase: unnamed(phase), script: run.lines.slice(1, count + 1) });
}

/** Hands a text or a picture out as a file. @param {string} name @param {string | Blob} given */
export function download(name, given) {
  const address = URL.createObjectURL(typeof given === "string" ? new Blob([given], { type: "text/plain" }) : given);
  const link = make("a", { href: address, download: name });
  document.body.append(link);
  link.click();
  link.remove();
  setTimeout(() => URL.revokeObjectURL(address), 1000);
}

/** Files that are dropped on the page are opened. @param {(text: string, name: string) => void} open */
export function hearDrops(open) {
  const { body } = document;
  body.addEventListener("dragover", (event) => {
    event.preventDefault();
    body.classList.add("drop");
  });
  body.addEventListener("dragleave", () => body.classList.remove("drop"));
  body.addEventListener("drop", async (event) => {
    event.preventDefault();
    body.classList.remove("drop");
    const file = event.dataTransfer?.files[0];
    const text = event.dataTransfer?.getData("text/plain") ?? "";
    if (file !== undefined) open(textOf(await file.arrayBuffer()), file.name);
    else if (text !== "") open(text, "what was dropped");
  });
}

/** What the comment at a document's head asks, line by line. @param {string} document */
export function questionOf(document) {
  const lines = document.split("\n");
  const end = lines.findIndex((it) => !it.startsWith("#"));
  return lines.slice(0, end < 0 ? lines.length : end).map((it) => it.slice(1).trim()).join("\n");
}

/** A document without the comment at its head. @param {string} document */
export function withoutQuestion(document) {
  return document.replace(/^(#.*\n)*\n?/, "");
}
