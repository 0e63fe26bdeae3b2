// The pictures of 300 random documents: each is well-formed XML, nothing leaves its frame, no label meets another one, and by
// their titles every job, area, task and alarm is there that the rows have: those of `agc_watch trace --jsonl` for some of them,
// where that is built, and of the module for all others. Python makes the documents, and its parser reads the pictures.
import assert from "node:assert/strict";
import { spawnSync } from "node:child_process";
import { existsSync } from "node:fs";
import { test } from "node:test";
import { start } from "../../libagc/js/machine.js";
import { faultsOf } from "./marks.mjs";
import { TOP, WATCH, python } from "./programs.mjs";
import { drawn, moduleBytes } from "../../web/picture.mjs";
import { Rows } from "../../web/run.js";
import { octal } from "../../web/words.js";

await start(await moduleBytes());

const [MANY, TRACED] = [300, 60];

/** So wide that a centisecond of the longest of them has four points, and a request twenty. */
const WIDTH = 10_000;

/** Names that would be markup, turn the direction of what comes after them, or are as long as names may be. */
const NAMES = ["SERVICER", "<b onload='x'>", "]]></title>&lt;&#60;", '"quoted"', "a & b", "\u202eright to left", "\u6f22\u5b57 \u{1f680}", "W".repeat(300), ""];

const MAKE = `import sys, json
sys.path.insert(0, "tools")
from plain.make import Dice, scenario, serial, toml
print(json.dumps([toml(scenario(Dice(k))) if k % 2 else serial(Dice(k)) for k in range(${MANY})]))`;

const READ = `import sys, json, xml.etree.ElementTree as tree
found = [list(tree.fromstring(it.encode()).iter()) for it in json.load(sys.stdin)]
print(json.dumps([[{"tag": it.tag.split("}")[1], "text": it.text or ""} for it in all] for all in found]))`;

/** A scenario with a title, and with names where it has none. @param {string} text @param {number} k */
function named(text, k) {
  let next = k;
  const name = (/** @type {string} */ key) => `${key} = ${JSON.stringify(NAMES[next++ % NAMES.length])}\n`;
  return `${k % 4 === 1 ? name("title") : ""}${text.replace(/\[\[(?:job|task|event)\]\]\n(?!(?:[^[\n].*\n)*name = )/g, (head) => (next++ % 2 ? head : head + name("name")))}`;
}

/** The rows of the document with a number, or null where it is refused. @param {number} k @param {string} text @param {import("../../web/run.js").Run | undefined} run */
function rowsOf(k, text, run) {
  if (k < TRACED && existsSync(WATCH)) {
    const { status, stdout } = spawnSync(WATCH, ["trace", "--jsonl"], { input: text, encoding: "utf8", maxBuffer: 1e9 });
    return status === 0 ? stdout.split("\n").filter((it) => it !== "").map((it) => JSON.parse(it)) : null;
  }
  if (run === undefined) return null;
  const rows = new Rows(run);
  const tables = (/** @type {any} */ { sets, tasks }) => ({
    sets: sets.map((/** @type {any} */ it) => (it === null ? null : { job: it.number, area: it.area })),
    tasks: tasks.map((/** @type {any} */ it) => ({ at: octal(it.at, 5) })),
  });
  return Array.from({ length: run.count }, (_, before) => {
    const no = before + 1;
    const { scene, after, ticks } = rows.at(no);
    const alarm = run.isAlarm(no) ? octal(run.columns.numbers.items[no], 4) : null;
    return { no, total: ticks, alarm, ...tables(scene), era: after && tables(after) };
  });
}

/** Who is where from which request to which: a list for each place. @param {string[]} titles */
function spansOf(titles) {
  /** @type {Record<string, { first: number, last: number, told: string }[]>} */
  const found = {};
  for (const title of titles) {
    const [head, told] = title.split("\n");
    const [, place, first, last] = /^(core set \d|VAC area \d|Waitlist), (?:requests|from request) (\d+) (?:to (\d+)|on)$/.exec(head) ?? [];
    if (told !== undefined && place !== undefined) (found[place] ??= []).push({ first: Number(first), last: Number(last ?? Infinity), told });
  }
  return found;
}

/** What a picture lacks of the tables of a row. @param {ReturnType<typeof spansOf>} spans @param {number} row @param {any} tables */
function lacking(spans, row, { sets, tasks }) {
  const isTold = (/** @type {string} */ place, /** @type {string} */ what) =>
    spans[place]?.some(({ first, last, told }) => first <= row && row <= last && told.includes(what));
  const wanted = sets.flatMap((/** @type {any} */ job, /** @type {number} */ k) => (job === null ? []
    : [`core set ${k}`, ...(job.area ? [`VAC area ${job.area}`] : [])].map((place) => [place, `job ${job.job}, `])));
  return [...wanted, ...tasks.map((/** @type {any} */ it) => ["Waitlist", it.at])].filter(([place, what]) => !isTold(place, what)).map((it) => [row, ...it]);
}

/** What a picture lacks of its rows. @param {string[]} titles @param {any[]} rows @param {boolean} isTime */
function lackingOf(titles, rows, isTime) {
  const spans = spansOf(titles);
  const alarms = new Set(titles.map((it) => /^alarm (\d{4}), .*?request (\d+)/.exec(it)?.slice(1).join(" ")));
  return rows.flatMap((row, k) => [
    ...(row.alarm && !alarms.has(`${row.alarm} ${row.no}`) ? [[row.no, "alarm", row.alarm]] : []),
    // (over time one sees what lasts for a centisecond)
    ...(!isTime || Number(rows[k + 1]?.total ?? Infinity) > Number(row.total) ? lacking(spans, row.no, row.era ?? row) : []),
    ...(!isTime && row.era ? lacking(spans, row.no, row) : []),
  ]);
}

test("pictures have all that their rows have", () => {
  const texts = python(["-c", MAKE]).map((/** @type {string} */ it, /** @type {number} */ k) => (k % 2 ? named(it, k) : it));
  const found = texts.map((/** @type {string} */ text) => {
    try {
      return drawn(text, { width: WIDTH, isEight: false });
    } catch {
      return {};
    }
  });
  const elements = python(["-c", READ], found.flatMap((/** @type {any} */ it) => it.svg ?? []));
  assert.ok(elements.length > 0.8 * MANY, `only ${elements.length} documents were drawn`);
  assert.deepEqual([...new Set(elements.flat().map((/** @type {any} */ it) => it.tag))].sort(), ["path", "rect", "style", "svg", "text", "title"]);
  for (const [k, { picture }] of found.entries()) {
    const rows = rowsOf(k, texts[k], picture?.run);
    assert.equal(picture === undefined, rows === null, `drawn or refused: ${texts[k]}`);
    if (picture === undefined) continue;
    assert.deepEqual(faultsOf(picture), [], texts[k]);
    const titles = elements.shift().filter((/** @type {any} */ it) => it.tag === "title").map((/** @type {any} */ it) => it.text);
    assert.deepEqual(lackingOf(titles, rows ?? [], picture.scale.isTime), [], texts[k]);
  }
});

/** @param {string} document @param {...string} words */
function statusOf(document, ...words) {
  return spawnSync(process.execPath, [`${TOP}web/picture.mjs`, ...words], { input: document }).status;
}

test("a wrong document is told apart from wrong words", () => {
  const empty = statusOf("");
  const [wrong, long] = ["x = 1", "limit = 1000000\n".concat(`[[device]]\nline = "timer"\npulses = 1000000\n`.repeat(3))].map((it) => statusOf(it));
  assert.deepEqual([empty, wrong, long, statusOf("", "--none"), statusOf("", "nowhere.toml")], [0, 1, 1, 2, 4]);
});
