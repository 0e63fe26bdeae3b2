/**
 * The strip under a slider: for each value across when the first alarm comes, the later the higher; a second line
 * is for eight core sets, or for seven where there are eight; and along the bottom for which values a deadline is
 * missed. It is computed in the background, a moment at a time.
 *
 * @typedef {import("./sweep.js").Firsts} Firsts
 * @typedef {{ name: string, min: number, max: number, value: number, unit: string, given: (value: number) => any }} SliderNumber
 */
import { writeBench } from "./bench.js";
import { paint } from "./drawing-pens.js";
import { attribute, make, set } from "./dom.js";
import { act, state } from "./state.js";
import { themeNow } from "./stage.js";
import { firstsOf, valuesOf } from "./sweep.js";
import { octal, seconds, took, visible } from "./words.js";

/** How high a strip is, and what marks missed deadlines, where the page's text is 16 points. */
const [HIGH, LATE] = [60, 5];

/** How far the line is from the edges: a slider's knob is in the middle of its value. */
const SIDE = 8;

/** How long it computes between two frames, how long it waits for what is more urgent and before it begins, and how often it draws, in milliseconds. */
const [BETWEEN, AFTER, FIRST, DRAWN_EACH] = [8, 200, 600, 250];

/** What is known of a number of a scenario, by all its other numbers; and how many of these are kept. @type {Map<string, Swept>} */
const known = new Map();
const MOST_KNOWN = 12;

/** The strips on the page, by the names of their sliders; and whether something is being computed. @type {Map<string, Strip>} */
const strips = new Map();
const work = { isDue: false, drawn: 0 };

/** What comes first for the values of a number, with seven and with eight core sets. */
class Swept {
  /** @param {import("./bench.js").Bench} bench @param {SliderNumber} number */
  constructor(bench, number) {
    /** @type {Map<number, Firsts>[]} */
    this.firsts = [new Map(), new Map()];
    this.bench = bench;
    this.number = number;
    this.runs = valuesOf(number).flatMap((value) => this.runsOf(value));
    this.steps = /** @type {Generator<undefined, Firsts> | null} */ (null);
  }

  /** @param {number} value */
  runsOf(value) {
    return [7, 8].map((sets) => ({ value, sets, steps: () => firstsOf({ ...this.bench, ...this.number.given(value), sets }) }));
  }

  /** The value that the slider has comes next, if it isn't known. @param {number} value */
  want(value) {
    if (this.firsts[0].has(value)) return;
    const begun = this.runs.splice(0, this.steps === null ? 0 : 1);
    this.runs = [...begun, ...this.runsOf(value), ...this.runs.filter((it) => it.value !== value)];
  }

  get isDone() {
    return this.runs.length === 0;
  }

  /** Computes for a moment. */
  go() {
    const [{ value, sets, steps }] = this.runs;
    this.steps ??= steps();
    const { done, value: found } = this.steps.next();
    if (!done) return;
    this.firsts[sets - 7].set(value, found);
    this.runs.shift();
    this.steps = null;
  }
}

/** A strip on the page. */
class Strip {
  /** @param {SliderNumber} number */
  constructor(number) {
    this.number = number;
    this.swept = /** @type {Swept | null} */ (null);
    this.sets = 7;
    this.canvas = make("canvas", { class: "strip", role: "img", tabIndex: -1, "aria-label": `When the first alarm comes, over ${number.name}` });
    this.said = make("p", { class: "said" });
    this.zones = make("p", { class: "said zones" });
    this.box = make("div", { class: "swept" }, this.canvas, this.zones, this.said);
    this.canvas.addEventListener("click", (/** @type {MouseEvent} */ event) => {
      const value = this.valueAt(event.offsetX);
      if (value !== this.number.value) act("change", this.number.given(value), this.number.name);
    });
    this.canvas.addEventListener("pointermove", (/** @type {MouseEvent} */ event) => { this.canvas.title = this.told(this.valueAt(event.offsetX)); });
  }

  /** @param {number} x */
  valueAt(x) {
    const { min, max } = this.number;
    return Math.round(min + Math.max(0, Math.min(1, (x - SIDE) / (this.canvas.clientWidth - 2 * SIDE))) * (max - min));
  }

  /** What comes with a value. @param {number} value */
  told(value) {
    const at = valueText(this.number, value);
    const [own, other] = this.firsts.map((it) => it.get(value));
    if (own === undefined) return `${at}: not computed yet`;
    const more = other === undefined || other.alarm?.time === own.alarm?.time ? "" : `; with ${15 - this.sets} sets ${alarmText(other)}`;
    return `${at}: ${this.lateText(own)}${alarmText(own)}${more}`;
  }

  /** Which deadline is missed first, where there are some. @param {Firsts} firsts */
  lateText({ missed }) {
    const { job } = this.swept?.bench ?? { job: [] };
    if (missed === null) return job.some((it) => it.deadline !== undefined) ? "no deadline missed; " : "";
    const name = job.find((it) => parseInt(it.at, 8) === missed.at)?.name ?? octal(missed.at, 5);
    return `first missed deadline ${took(missed.due, 100)} (${visible(name)}); `;
  }

  /** What comes first with the core sets that there are, and with the other number of them. @returns {Map<number, Firsts>[]} */
  get firsts() {
    const [seven, eight] = this.swept?.firsts ?? [new Map(), new Map()];
    return this.sets === 8 ? [eight, seven] : [seven, eight];
  }

  draw() {
    const { swept, canvas, number, firsts } = this;
    const width = canvas.clientWidth;
    if (swept === null || width === 0) return;
    const size = parseFloat(getComputedStyle(document.documentElement).fontSize) / 16;
    paint(canvas, /** @type {any} */ ({ width, height: size * HIGH, theme: themeNow(), marks: marksOf({ firsts, isDone: swept.isDone, number }, width, size) }));
    set(this.said, `At ${this.told(number.value)}`);
    const told = toldOf({ firsts, isDone: swept.isDone, number });
    set(this.zones, `${told[0][0].toUpperCase()}${told.join("; ").slice(1)}${swept.isDone ? "." : ""}`);
    attribute(canvas, "aria-label", `When the first alarm comes, over ${number.name}: ${told.join("; ")}. ${this.said.textContent}`);
    canvas.dataset.done = swept.isDone ? "yes" : "no";
  }
}

/** A value of a number, with its unit. @param {{ unit: string }} number @param {number} value */
export function valueText({ unit }, value) {
  return unit === "cs" ? seconds(value) : unit === "octal" ? octal(value, 2) : `${value} ${unit}`.trim();
}

/** @param {Firsts} firsts */
function alarmText({ alarm }) {
  return alarm === null ? "no alarm" : `${octal(alarm.code, 4)} at ${seconds(alarm.time)}`;
}

/** The values that are known. @param {Map<number, Firsts>} own */
const valuesIn = (own) => [...own.keys()].sort((one, other) => one - other);

/** Up to which value no alarm comes, and for which a deadline is missed, of those that are known; nothing where none is. @param {{ firsts: Map<number, Firsts>[], isDone: boolean, number: SliderNumber }} swept */
export function toldOf({ firsts: [own], isDone, number }) {
  const values = valuesIn(own);
  const [first, from, to] = [values.findIndex((it) => own.get(it)?.alarm !== null), values.findIndex((it) => own.get(it)?.missed !== null),
    values.findIndex((it, k) => own.get(it)?.missed !== null && own.get(values[k + 1])?.missed === null)];
  const text = (/** @type {number} */ k) => valueText(number, values[k]);
  const none = !isDone ? "computing \u2026" : first < 0 ? "no alarm with any value" : first === 0 ? "an alarm with each value" : `no alarm up to ${text(first - 1)} (shaded)`;
  const misses = from > 0 ? `from ${text(from)}` : to < 0 ? "with each value" : `up to ${text(to)}`;
  return from < 0 || !isDone ? [none] : [none, `a deadline is missed ${misses} (red below)`];
}

/** Where values lie of which something holds: from edge to edge, and which is the first. @param {number[]} values @param {number[]} edges @param {(value: number) => boolean} holds */
function zonesOf(values, edges, holds) {
  /** @type {{ x: number, width: number }[]} */
  const zones = [];
  values.forEach((it, k) => {
    if (!holds(it)) return;
    const last = zones.at(-1);
    if (last !== undefined && last.x + last.width === edges[k]) last.width = edges[k + 1] - last.x;
    else zones.push({ x: edges[k], width: edges[k + 1] - edges[k] });
  });
  return zones;
}

/**
 * The strip as marks of a picture.
 * @param {{ firsts: Map<number, Firsts>[], isDone: boolean, number: SliderNumber }} swept @param {number} width
 * @param {number} size how many times as large it is
 * @returns {import("./drawing.js").Mark[]}
 */
export function marksOf(swept, width, size) {
  const { firsts, number: { min, max, value } } = swept;
  const high = size * HIGH;
  const xOf = (/** @type {number} */ it) => SIDE + ((it - min) / (max - min)) * (width - 2 * SIDE);
  const times = firsts.flatMap((it) => [...it.values()].flatMap(({ alarm }) => alarm?.time ?? []));
  const most = Math.max(1, ...times);
  const sorted = valuesIn(firsts[0]);
  // (what is known of a value holds halfway to the next one that was tried)
  const edges = [...sorted.map((it, k) => (k === 0 ? 0 : (xOf(sorted[k - 1]) + xOf(it)) / 2)), width];
  const late = zonesOf(sorted, edges, (it) => firsts[0].get(it)?.missed !== null);
  const free = zonesOf(sorted, edges, (it) => firsts[0].get(it)?.alarm === null);
  const low = high - 3 - (late.length > 0 ? size * LATE : 0);
  const yOf = (/** @type {number} */ time) => low - (time / most) * (low - 6);
  /** @type {any[]} */
  const marks = [...free.map((it) => ({ kind: "rect", y: 0, height: high, fill: "work", ...it })), { kind: "rect", x: 0, y: high - 1, width, height: 1, fill: "line" },
    ...late.map((it) => ({ kind: "rect", y: high - size * LATE, height: size * LATE, fill: "alarm", ...it }))];
  for (const [k, look] of /** @type {const} */ ([[1, { stroke: "curve", width: 1, isDashed: true }], [0, { stroke: "alarm", width: 2 }]])) {
    /** @type {number[][]} */
    let points = [];
    const end = () => {
      if (points.length === 1) points.push([points[0][0] + 2, points[0][1]]);
      if (points.length > 0) marks.push({ kind: "path", points, ...look });
      points = [];
    };
    for (const it of valuesIn(firsts[k])) {
      const alarm = firsts[k].get(it)?.alarm ?? null;
      if (alarm === null) end();
      else points.push([xOf(it), yOf(alarm.time)]);
    }
    end();
  }
  const here = firsts[0].get(value)?.alarm;
  if (here !== undefined) marks.push({ kind: "path", points: dot(xOf(value), here === null ? high / 3 : yOf(here.time)), fill: "act", stroke: "paper", width: 1.5 });
  return marks;
}

/** @param {number} x @param {number} y */
function dot(x, y) {
  return Array.from({ length: 13 }, (_, k) => [x + 5 * Math.cos((k * Math.PI) / 6), y + 5 * Math.sin((k * Math.PI) / 6)]);
}

/** Computes between the frames, while nothing more urgent is to be done. */
function goOn() {
  const now = state();
  const due = [...strips.values()].flatMap(({ swept }) => (swept === null || swept.isDone ? [] : [swept]));
  work.isDue = due.length > 0;
  if (!work.isDue) return;
  if (now.clock.isRunning || now.run.isFilling) {
    setTimeout(goOn, AFTER);
    return;
  }
  const begun = performance.now();
  while (!due[0].isDone && performance.now() - begun < BETWEEN) due[0].go();
  if (due[0].isDone || begun - work.drawn > DRAWN_EACH) {
    work.drawn = begun;
    for (const it of strips.values()) it.draw();
  }
  setTimeout(goOn, 0);
}

/** The strip of a number that is swept. @param {import("./bench.js").Bench} bench @param {SliderNumber} number */
export function stripOf(bench, number) {
  const strip = strips.get(number.name) ?? new Strip(number);
  strips.set(number.name, strip);
  const key = `${number.name} ${number.max} ${writeBench({ ...bench, ...number.given(number.min), sets: 7 })}`;
  const found = known.get(key) ?? new Swept(bench, number);
  known.delete(key);
  known.set(key, found);
  if (known.size > MOST_KNOWN) known.delete(/** @type {string} */ (known.keys().next().value));
  Object.assign(strip, { number, swept: found, sets: bench.sets ?? 7 });
  found.want(number.value);
  strip.draw();
  if (!work.isDue) {
    work.isDue = true;
    setTimeout(goOn, FIRST);
  }
  return strip.box;
}

/** Nothing is computed for strips that aren't there. @param {string[]} names those that are */
export function keepStrips(names) {
  for (const name of strips.keys()) if (!names.includes(name)) strips.delete(name);
}
