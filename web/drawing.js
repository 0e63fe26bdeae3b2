/**
 * The picture of a run, as a list of marks that a pen draws, on a canvas or as SVG: above the lanes the
 * work that waits; a lane for each core set; a strip each for areas, tasks, stolen and idle time, of which
 * areas and tasks can be opened; the alarms as red lines; below, what the part that is seen asks for. The
 * same arguments make the same picture: nothing is measured, and no page is needed.
 *
 * @typedef {import("./run.js").Run} Run
 * @typedef {{ kind: "job" | "task", id: number }} Selection
 * @typedef {{ width: number, from?: number, to?: number, high?: number, text?: number, least?: number, strips?: string[],
 *   all?: number, opened?: string[], parts?: string[], selection?: Selection | null, before?: { run: Run, count: number } | null,
 *   theme?: "light" | "dark" | "forced", names?: Names, colours?: Colours, isStill?: boolean, isJoined?: boolean,
 *   isBare?: boolean, title?: string }} View `isStill`: it doesn't change, so what is empty all the time may
 *   be thin; `isJoined`: core sets that are empty all the time are one lane; `isBare`: it has no text, and all of its width is the run's
 * @typedef {string | { kind: import("./lanes.js").Kind, k: number, entry: number }} Told what a mark is about,
 *   which an SVG has as its title: a text, or an entry of a lane's log
 * @typedef {{ kind: "rect", x: number, y: number, width: number, height: number, fill: string, round?: number, told?: Told }} Rect
 * @typedef {{ fill?: string, isBold?: boolean, size?: number, anchor?: "start" | "middle" | "end" }} Look
 * @typedef {{ kind: "text", x: number, y: number, text: string, size: number } & Look} Text
 * @typedef {{ kind: "path", points: number[][], fill?: string, stroke?: string, width?: number, isDashed?: boolean,
 *   isArrow?: boolean, isHatch?: boolean, told?: Told }} Path `isHatch`: each two points are a line
 * @typedef {(Rect | Text | Path) & { ends?: number }} Mark `ends`: what is written on the lanes isn't drawn before that much is seen
 * @typedef {{ kind: string, k?: number, id?: number, name?: string, row?: number, text?: string }} Hit
 * @typedef {Hit & { top: number, bottom: number, left?: number, right?: number }} Band where something can be hit
 */
import { Names } from "./account.js";
import { Colours } from "./colours.js";
import { drawAxis, drawCodes, drawEvents, drawLegend, drawLines, drawTitle } from "./drawing-around.js";
import { drawBudget, drawWork, noteAlarm } from "./drawing-bands.js";
import { drawBefore, drawLanes, drawSelection, drawStrips } from "./drawing-lanes.js";
import { Scale } from "./drawing-scale.js";
import { textWidth } from "./drawing-pens.js";
import { lastWhere } from "./lanes.js";
import { octal } from "./words.js";

/** A core set's height, the least size of text, the room on the right, how far apart lines of a hatch are, and how much of a
 * block's width its text leaves free, and at least. */
const [HIGH, LEAST_TEXT, MARGIN, HATCH, BESIDE, LEAST_BESIDE] = [28, 12, 10, 9, 12, 2];

/** What a picture has. The page's has `notes`, too, and `legend` where there is room, and an SVG by itself has `title`. */
export const PARTS = ["events", "alarms", "work", "sets", "strips", "before", "axis", "budget"];
const STRIPS = ["areas", "tasks", "stolen", "idle"];

/** What draws each part, from the top to the bottom, and at last over what is there. @type {[string, (sheet: Sheet) => void][]} */
const LAYERS = [["title", drawTitle], ["events", drawEvents], ["alarms", drawCodes], ["work", drawWork], ["sets", (sheet) => drawLanes(sheet, "set")],
  ["strips", drawStrips], ["notes", noteAlarm], ["", drawLines], ["sets", drawSelection],
  ["axis", drawAxis], ["budget", drawBudget], ["before", drawBefore], ["legend", drawLegend]];

/** What is drawn on: marks, and what lies where. */
export class Sheet {
  /** How far down there is something; and from where to where the lines go through all lanes. */
  y = 0;
  top = 0;
  bottom = 0;
  /** What lies below the lanes, they themselves, and what lies above them. */
  layers = /** @type {Mark[][]} */ ([[], [], []]);
  bands = /** @type {Band[]} */ ([]);
  marks = /** @type {Mark[]} */ ([]);
  height = 0;
  /** Where texts are: left, right, top and bottom; and where the lines of those alarms begin that are named. */
  taken = /** @type {number[][]} */ ([]);
  tops = /** @type {Map<number, number>} */ (new Map());

  /** @param {Run} run @param {number} count @param {View} view */
  constructor(run, count, view) {
    this.run = run;
    this.count = count;
    this.parts = new Set(view.parts ?? PARTS);
    this.view = { strips: STRIPS, opened: [], selection: null, before: null, high: HIGH, ...view };
    this.theme = view.theme ?? "light";
    this.names = view.names ?? new Names(run.bench);
    this.colours = view.colours ?? new Colours(run.bench, this.names);
    this.colours.see(run.lanes);
    /** How long a job may take, by the address at which it begins, in ticks. */
    this.deadlines = new Map(run.bench.job.map((it) => [parseInt(it.at, 8), it.deadline]));
    this.scale = new Scale(run, count, run, view.all);
    this.scale.see(view.from ?? 0, view.to ?? this.scale.end);
    this.before = this.view.before === null ? null : this.scale.ofOther(this.view.before);
    this.size = Math.max(LEAST_TEXT, view.text ?? LEAST_TEXT);
    this.line = Math.ceil(1.5 * this.size);
    this.width = view.width;
    this.left = view.isBare ? 0 : Math.ceil(textWidth("waiting", this.size)) + 14;
    this.right = Math.max(this.left + 20, this.width - (view.isBare ? 0 : MARGIN));
  }

  /** Where a place is across. @param {number} place */
  xOf(place) {
    return this.left + this.scale.partOf(place) * (this.right - this.left);
  }

  /** Which part of the width a point is at, and which place. @param {number} x */
  partAt(x) {
    return (this.clip(x) - this.left) / (this.right - this.left);
  }

  /** @param {number} x */
  placeAt(x) {
    const { from, to } = this.scale;
    return from + this.partAt(x) * (to - from);
  }

  /** A point across, or the edge beyond which it is. @param {number} x */
  clip(x) {
    return Math.max(this.left, Math.min(this.right, x));
  }

  /** Those of these rows that are seen, and where. @param {number[]} rows @param {Scale} [scale] of the run before */
  seen(rows, scale = this.scale) {
    const { from, to, count } = scale;
    const first = lastWhere(rows.length, (k) => scale.placeOf(rows[k]) < from) + 1;
    const last = lastWhere(rows.length, (k) => rows[k] <= count && scale.placeOf(rows[k]) <= to);
    return rows.slice(first, last + 1).map((row) => ({ row, x: this.xOf(scale.placeOf(row)) }));
  }

  /** Begins a lane: its name on the left, and what lies there. Returns where its top is.
   * @param {string} name @param {number} high @param {{ kind: string, k?: number, name?: string }} band */
  lane(name, high, band) {
    const top = this.y;
    this.y += high;
    this.name(name, top + high / 2);
    this.bands.push({ ...band, top, bottom: this.y });
    return top;
  }

  /** Writes on a block: of these texts the first one that fits, in the middle where it just does. Returns whether one does.
   * @param {string[]} texts @param {number[]} box left, right, top and height @param {Look & { ground?: string }} [look] */
  label(texts, [left, right, top, high], look) {
    const { least = this.size } = this.view;
    if (high < least + 2) return false;
    const [size, beside] = [[this.size, BESIDE], [least, BESIDE], [least, LEAST_BESIDE]].find((it) => high > it[0] + 1 && this.fitting(texts, right - left - it[1], look?.isBold, it[0])) ?? [least, LEAST_BESIDE];
    const text = this.fitting(texts, right - left - beside, look?.isBold, size) ?? "";
    return beside === BESIDE ? this.text(text, left + BESIDE / 2, top + high / 2, { ...look, size })
      : this.text(text, (left + right) / 2, top + high / 2, { ...look, size, anchor: "middle" });
  }

  /** The first of these texts that has room. @param {string[]} texts @param {number} room @param {boolean} [isBold] @param {number} [size] */
  fitting(texts, room, isBold, size = this.size) {
    return texts.find((it) => textWidth(it, size, isBold) <= room);
  }

  /** What a job is called that began at this address. @param {number} at */
  jobName(at) {
    return this.names.job(at) ?? octal(at, 5);
  }

  /** What a task is called. @param {number} id */
  taskName(id) {
    const { at, bank } = this.run.lanes.tasks;
    return this.names.task({ at: at.items[id], bank: bank.items[id] }) ?? octal(at.items[id], 5);
  }

  /** @param {number[]} box x, y, width, height and how round its corners are @param {string} fill @param {Told} [told] @param {number} [layer] */
  rect([x, y, width, height, round], fill, told, layer = 1) {
    this.layers[layer].push({ kind: "rect", x, y, width, height, fill, told, ...(round === undefined ? {} : { round }) });
  }

  /** @param {number[][]} points @param {Partial<Path> & { ends?: number }} more @param {number} [layer] */
  path(points, more, layer = 1) {
    this.layers[layer].push({ kind: "path", points, ...more });
  }

  /** @param {number[]} box as of a block @param {Partial<Path>} more @param {number} [layer] */
  frame([left, right, top, high], more, layer = 1) {
    this.path([[left, top], [right, top], [right, top + high], [left, top + high], [left, top]], more, layer);
  }

  /** Leaning lines on a block whose job sleeps. @param {number[]} box @param {string} stroke */
  hatch([left, right, top, high], stroke) {
    const points = Array.from({ length: Math.floor((right - left) / HATCH) }, (_, k) => left + k * HATCH)
      .flatMap((x) => [[x, top + high], [x + HATCH, top]]);
    if (points.length > 0) this.path(points, { stroke, width: 1, isHatch: true });
  }

  /** Writes a text where its middle is so far down, if it meets no other one and doesn't leave the picture. Returns whether it does.
   * @param {string} text @param {number} x @param {number} y @param {Look & { ground?: string }} look */
  text(text, x, y, { anchor = "start", fill = "ink", isBold = false, size = this.size, ground } = {}) {
    if (this.view.isBare || text === "") return false;
    const width = textWidth(text, size, isBold);
    const left = x - { start: 0, middle: width / 2, end: width }[anchor];
    const beside = ground === undefined ? 1 : 4;
    const box = [left - beside, left + width + beside, y - 0.55 * size, y + 0.55 * size];
    const meets = (/** @type {number[]} */ it) => box[0] < it[1] && it[0] < box[1] && box[2] < it[3] && it[2] < box[3];
    if (box[0] < 0 || box[1] > this.width || this.taken.some(meets)) return false;
    this.taken.push(box);
    const late = this.bottom === 0 ? { ends: box[1] } : {};
    if (ground !== undefined) this.layers[2].push({ kind: "rect", x: left - 4, y: y - 0.7 * size, width: width + 8, height: 1.4 * size, fill: ground, round: 3, ...late });
    this.layers[2].push({ kind: "text", x: ground === "alarm" ? left + width / 2 : x, y: y + 0.36 * size, text, size, fill, isBold,
      anchor: ground === "alarm" ? "middle" : anchor, ...late });
    return true;
  }

  /** The name of a lane, on the left. @param {string} name @param {number} y its middle */
  name(name, y) {
    this.text(name, this.left - 8, y, { anchor: "end", fill: "soft" });
  }
}

/** The picture of the first rows of a run. @param {Run} run @param {number} count @param {View} view */
export function pictureOf(run, count, view) {
  const sheet = new Sheet(run, count, view);
  for (const [part, draw] of LAYERS) if (part === "" || sheet.parts.has(part)) draw(sheet);
  return Object.assign(sheet, { height: Math.ceil(sheet.y), marks: sheet.layers.flat() });
}
