#!/usr/bin/env node
/**
 * Draws a bench or a scenario as SVG, by the workbench's drawing module over the proved machine:
 *
 *     node picture.mjs [--from N] [--to N] [--width N] [--eight] [FILE] > run.svg
 *
 * Without FILE it reads standard input. The same document makes the same bytes on each machine. What is
 * wrong with a document is on standard error, and the status is 1, as of `agc_watch check`. `tools/workbench`
 * joins this and what it imports into libagc/js/picture.mjs, which is `agc-picture` of the package.
 */
import { start } from "../libagc/js/machine.js";
import { countOf, readBench, requestsOf } from "./bench.js";
import { runOf } from "./clock.js";
import { pictureOf } from "./drawing.js";
import { Scale } from "./drawing-scale.js";
import { svgOf } from "./drawing-pens.js";
import { MOST_ASKED, MOST_ROWS } from "./run.js";
import { counted, visible } from "./words.js";

const USAGE = `Usage: agc-picture [OPTIONS] [FILE]

Draws the tables of a bench or a scenario over its run, as an SVG. Without FILE it reads standard input.

Options:
  --from N   begins at second N, or at request N where requests go across
  --to N     ends there
  --width N  draws N points wide, 300 to 10000; left out: 680, which on paper has text of 9 points
  --eight    with eight core sets, whatever the document says
  --help     says this
`;

/** How wide a picture is, on paper of A4 with text of 9 points; and how wide it may be. */
const WIDTH = 680;
const WIDTHS = [300, 10_000];

/** How wide a task is on average at least, in points, so that each is drawn by itself. */
const LEAST_TASK = 8;

const PARTS = ["title", "events", "alarms", "work", "sets", "strips", "axis", "budget", "legend"];

/** What is wrong with the words of the command, or with its document; and the status. */
class Wrong extends Error {
  /** @param {string} message @param {number} status */
  constructor(message, status) {
    super(message);
    this.status = status;
  }
}

/** A number of an option. @param {string} name @param {string | undefined} text @param {number[]} bounds */
function numberOf(name, text, [low, high]) {
  const number = Number(text);
  if (!/^[0-9]+([.][0-9]{1,2})?$/.test(text ?? "") || number < low || number > high) {
    throw new Wrong(`agc-picture: ${name} takes a number, ${low} to ${high}\n${USAGE}`, 2);
  }
  return number;
}

/** What the words of the command ask for. @param {string[]} words */
function optionsOf(words) {
  /** @type {{ from?: number, to?: number, width: number, isEight: boolean, file?: string }} */
  const found = { width: WIDTH, isEight: false };
  const left = [...words];
  for (let word = left.shift(); word !== undefined; word = left.shift()) {
    if (word === "--eight") found.isEight = true;
    else if (word === "--from") found.from = numberOf(word, left.shift(), [0, MOST_ROWS]);
    else if (word === "--to") found.to = numberOf(word, left.shift(), [0, MOST_ROWS]);
    else if (word === "--width") found.width = Math.round(numberOf(word, left.shift(), WIDTHS));
    else if (word.startsWith("-") && word !== "-") throw new Wrong(`agc-picture: there is no option ${word}\n${USAGE}`, 2);
    else if (found.file !== undefined) throw new Wrong(`agc-picture: one file at a time\n${USAGE}`, 2);
    else found.file = word;
  }
  return found;
}

/** The picture of a document, and its SVG. @param {string} document @param {{ from?: number, to?: number, width: number, isEight: boolean }} options */
export function drawn(document, { from, to, width, isEight }) {
  const read = readBench(document);
  const bench = isEight ? { ...read, sets: 8 } : read;
  if (countOf(bench) > MOST_ASKED) {
    throw new Wrong(`it asks for ${counted(countOf(bench), "request")}; a picture has at most ${counted(MOST_ASKED, "request")}`, 1);
  }
  const run = runOf(bench, requestsOf(bench), {}, Infinity);
  const title = visible(bench.title ?? `A run of ${counted(run.count, "request")}`);
  const times = new Scale(run, run.count).isTime ? 100 : 1;
  const opened = run.lanes.tasks.count * LEAST_TASK <= width ? ["areas", "tasks"] : ["areas"];
  const picture = pictureOf(run, run.count, { width, title, parts: PARTS, opened, isStill: true,
    ...(from === undefined ? {} : { from: times * from }), ...(to === undefined ? {} : { to: times * to }) });
  return { picture, svg: svgOf(picture, title) };
}

/** The proved module: beside this file, where it is built, or else the one within the workbench. */
export async function moduleBytes() {
  const { existsSync, readFileSync } = await import("node:fs");
  const { inflateRawSync } = await import("node:zlib");
  const isModule = (/** @type {Buffer} */ it) => it.subarray(0, 4).toString("latin1") === "\0asm";
  const built = ["./agc.wasm", "../libagc/js/agc.wasm"].map((it) => new URL(it, import.meta.url))
    .filter((it) => existsSync(it)).map((it) => readFileSync(it)).find(isModule);
  if (built !== undefined) return built;
  const page = readFileSync(new URL("../share/workbench.html", import.meta.url), "utf8");
  const kept = Buffer.from((/id="module">\n([^<]*)</.exec(page)?.[1] ?? "").replaceAll("\n", ""), "base64");
  return isModule(kept) ? kept : inflateRawSync(kept);
}

/** @param {string[]} words */
async function main(words) {
  if (words.includes("--help")) return USAGE;
  const options = optionsOf(words);
  const { readFileSync } = await import("node:fs");
  const { file } = options;
  let document = "";
  try {
    document = readFileSync(file === undefined || file === "-" ? 0 : file, "utf8");
  } catch (fault) {
    throw new Wrong(`agc-picture: ${file ?? "standard input"}: ${/** @type {Error} */ (fault).message}`, 4);
  }
  await start(await moduleBytes());
  return drawn(document, options).svg;
}

/** Whether this file is the program that runs, also by a link to it. */
async function isProgram() {
  const { realpathSync } = await import("node:fs");
  const { fileURLToPath } = await import("node:url");
  return process.argv[1] !== undefined && realpathSync(process.argv[1]) === fileURLToPath(import.meta.url);
}

if (await isProgram()) {
  try {
    process.stdout.write(await main(process.argv.slice(2)));
  } catch (fault) {
    process.stderr.write(`${/** @type {Error} */ (fault).message}\n`);
    process.exitCode = /** @type {any} */ (fault).status ?? 1;
  }
}
