#!/usr/bin/env node
/**
 * What examples/landing.toml comes to for each percentage of stolen time: the table in docs/LANDING.md, and docs/landing.svg.
 *
 *     tools/landing.mjs            writes both
 *     tools/landing.mjs --check    finds the numbers anew, and fails where one of the two is stale
 *
 * The proved module runs the scenario as it is and without its last table, which begins the monitor; with two more jobs that
 * sleep; and each of these with seven and with eight core sets. The picture's points tell the numbers.
 */
import { readFileSync, writeFileSync } from "node:fs";
import { Clock, Machine, start } from "../libagc/js/machine.js";
import { readBench } from "../web/bench.js";
import { svgOf } from "../web/drawing-pens.js";
import { moduleBytes } from "../web/picture.mjs";
import { octal } from "../web/words.js";

const TOP = new URL("../", import.meta.url);
const [SCENARIO, PICTURE, DOCUMENT] = ["examples/landing.toml", "docs/landing.svg", "docs/LANDING.md"].map((it) => new URL(it, TOP));
const TITLE = "When the first alarm comes, over the percentage of time that is stolen";
const MOST = 30;
const ROWS = [3, 5, 8, 10, 15, 17, 20, 25, 30];
const SLEEPERS = '\n[[event]]\nat = 0\ndo = ["novac 15 06000 00011", "sleep 06000", "novac 15 06100 00011", "sleep 06100"]\n';

/** The picture: its size, where its axes are, the seconds that are marked, its text (9 points on A4), and how each line looks. */
const [WIDE, HIGH, LEFT, RIGHT, TOP_EDGE, BOTTOM] = [680, 430, 74, 660, 56, 322];
const MARKED = [10, 20, 40, 60, 100, 200, 400, 600];
const SIZE = 13;
const KINDS = [
  { name: "alone", text: "without the monitor: 1201", look: { stroke: "act", width: 2 }, corners: 12 },
  { name: "monitor", text: "with the monitor: 1201", look: { stroke: "ink", width: 2 }, corners: 4 },
  { name: "asleep", text: "with it and two sleeping jobs, seven core sets: 1202", look: { stroke: "curve", width: 2, isDashed: true }, corners: 3 },
];

/** The scenario in one of its kinds. @param {string} kind @param {number} sets */
function scenario(kind, sets) {
  const whole = `sets = ${sets}\n${readFileSync(SCENARIO, "utf8")}`;
  if (kind === "alone") return `${whole.slice(0, whole.lastIndexOf("\n[[event]]"))}\n`;
  return kind === "asleep" ? whole + SLEEPERS : whole;
}

/** The first alarm with so much stolen time, when it came, and how many there are. @param {string} text @param {number} steal */
function ranWith(text, steal) {
  const { sets, task, phase, seconds, seed, job, event } = readBench(text);
  const machine = new Machine({ sets, plan: { task, phase } });
  const clock = new Clock({ seconds, seed, steal, job, event });
  const found = { code: "", time: 0, alarms: 0 };
  let ticks = 0;
  while (clock.time < clock.lasts) {
    machine.run(clock, 1000, (asked, step) => {
      if (asked.name === "tick") ticks += 1;
      if (step.alarm !== 0 && found.alarms++ === 0) Object.assign(found, { code: octal(step.number, 4), time: ticks });
      return true;
    });
  }
  return found;
}

/** What comes of each percentage. @param {string} kind @param {number} sets */
function swept(kind, sets) {
  const text = scenario(kind, sets);
  return Array.from({ length: MOST + 1 }, (_, steal) => ranWith(text, steal));
}

/** @param {ReturnType<typeof ranWith>} found */
function cellOf({ code, time, alarms }) {
  return code === "" ? "none" : `${code} at ${(time / 100).toFixed(2)} s; ${alarms}`;
}

/** The table: with eight core sets each column is one that is there. @param {Record<string, ReturnType<typeof swept>[]>} found */
function tableOf({ alone, monitor, asleep }) {
  for (const [one, other] of [alone, monitor, [monitor[0], asleep[1]]]) if (JSON.stringify(one) !== JSON.stringify(other)) throw new Error("the table needs another column");
  const columns = [alone[0], monitor[0], asleep[0]];
  return ["| Stolen | Without the monitor | With it | With it and two sleeping jobs |", "|---|---|---|---|",
    ...ROWS.map((steal) => `| ${steal} % | ${columns.map((it) => cellOf(it[steal])).join(" | ")} |`), ""].join("\n");
}

/** Where a percentage is across, and a time down: each doubling of it takes the same height. @param {number} number */
const xOf = (number) => LEFT + 10 + ((RIGHT - LEFT - 20) * number) / MOST;
const yOf = (number) => BOTTOM - (Math.log2(number / MARKED[0]) / Math.log2(MARKED[MARKED.length - 1] / MARKED[0])) * (BOTTOM - TOP_EDGE - 30);

/** A point: a circle, a diamond or a triangle. @param {number} x @param {number} y @param {number} corners @param {any} more */
function point(x, y, corners, more) {
  const turns = Array.from({ length: corners + 1 }, (_, k) => 2 * Math.PI * (k / corners + 0.25));
  return { kind: "path", points: turns.map((it) => [x + 4.5 * Math.cos(it), y + 4.5 * Math.sin(it)]), ...more };
}

/** One line, with a point for each percentage, and what it is. @param {typeof KINDS[0]} kind @param {number} k @param {ReturnType<typeof swept>} found */
function lineOf({ text, look, corners }, k, found) {
  const places = found.map((it, steal) => [xOf(steal), it.code === "" ? TOP_EDGE : yOf(it.time / 100)]);
  const y = BOTTOM + 62 + 20 * k;
  return [
    { kind: "path", points: places, ...look },
    ...places.map(([x, down], steal) => point(x, down, corners, { fill: look.stroke, told: `${steal} %: ${cellOf(found[steal])}` })),
    { kind: "path", points: [[LEFT, y - 4], [LEFT + 30, y - 4]], ...look }, point(LEFT + 15, y - 4, corners, { fill: look.stroke }),
    { kind: "text", x: LEFT + 40, y, text, size: SIZE, fill: "ink" },
  ];
}

/** The picture: the first alarm's time over the percentage that is stolen. @param {Record<string, ReturnType<typeof swept>[]>} found */
function pictureOf(found) {
  const text = (/** @type {string} */ it, /** @type {number} */ x, /** @type {number} */ y, more = {}) => ({ kind: "text", x, y, text: it, size: SIZE, fill: "ink", ...more });
  const marks = [
    text("seconds until the first alarm", 8, 20),
    text("no alarm", LEFT - 8, TOP_EDGE + 5, { anchor: "end" }),
    text("of the computing time is stolen", RIGHT, BOTTOM + 38, { anchor: "end" }),
    ...MARKED.flatMap((it) => [{ kind: "path", points: [[LEFT, yOf(it)], [RIGHT, yOf(it)]], stroke: "line", width: 1 }, text(String(it), LEFT - 8, yOf(it) + 5, { anchor: "end" })]),
    ...Array.from({ length: 7 }, (_, k) => text(`${5 * k} %`, xOf(5 * k), BOTTOM + 20, { anchor: "middle" })),
    ...KINDS.flatMap((it, k) => lineOf(it, k, found[it.name][0])),
  ];
  return svgOf(/** @type {any} */ ({ width: WIDE, height: HIGH, marks }), TITLE);
}

await start(await moduleBytes());
const found = Object.fromEntries(KINDS.map(({ name }) => [name, [7, 8].map((sets) => swept(name, sets))]));
const document = readFileSync(DOCUMENT, "utf8");
const made = [[PICTURE, pictureOf(found)], [DOCUMENT, document.replace(/(<!-- tools\/landing.mjs -->\n\n)[^]*?(\n<!-- end -->)/, (_, before, after) => before + tableOf(found) + after)]];
for (const [path, text] of made) {
  if (!process.argv.includes("--check")) writeFileSync(path, text);
  else if (readFileSync(path, "utf8") !== text) {
    console.log(`${path.pathname}: tools/landing.mjs makes it otherwise`);
    process.exitCode = 1;
  }
}
