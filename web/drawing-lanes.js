/**
 * The lanes of a picture: a log each of core sets, VAC areas and places of the Waitlist, whose entries are
 * blocks (bright: running; pale: waiting; hatched: asleep); a strip each for how many areas and tasks there
 * are, for stolen and idle time; the core sets of the run before; and what asked for the selected job or task.
 *
 * @typedef {import("./drawing.js").Sheet} Sheet
 * @typedef {import("./lanes.js").Kind} Kind
 * @typedef {import("./drawing-scale.js").Scale} Scale
 * @typedef {import("./drawing.js").Selection} Selection
 * @typedef {{ x: number, y: number, name: string }} Point
 * @typedef {{ fill: string, share?: number, texts?: string[], look?: import("./drawing.js").Look & { ground?: string },
 *   brief?: string, hatch?: string, told?: import("./drawing.js").Told, job?: import("./lanes.js").Block }} Block `share`: of the height; `brief`: where no text fits
 */
import { short } from "./because.js";
import { outcomeOf } from "./drawing-words.js";
import { MOST, State } from "./lanes.js";
import { stolenParts } from "./stolen.js";
import { octal, visible } from "./words.js";

/** How wide a block is at least that is drawn by itself, one with a title, and one that doesn't touch what follows, and how far
 * it stays away; half the width of a deadline's mark, and how far away that is at least, or none is drawn. */
const [LEAST_BLOCK, LEAST_TOLD, LEAST_APART, APART, MARK, LEAST_MARKED] = [0.8, 3, 3, 1, 4, 10];

/** How round the corners of a block are. */
export const ROUND = 3;

/** Draws the entries of a log that are seen. Of those that are too brief one is drawn in each point, and what is higher.
 * @param {Sheet} sheet @param {import("./lanes.js").Log} log @param {number[]} lane top and height
 * @param {(entry: number) => Block | null} blockOf null where there is nothing @param {Scale} [scale] */
function drawLog(sheet, log, lane, blockOf, scale = sheet.scale) {
  const keys = log.keys.items;
  const end = sheet.xOf(scale.end);
  let [free, highest] = [-1, 0];
  let entry = Math.max(0, log.entryAt(scale.keyAt(scale.from)));
  for (; entry < log.count && keys[entry] <= scale.lastKey; entry++) {
    const [x, next] = [sheet.xOf(scale.placeOfKey(keys[entry])), sheet.xOf(scale.endOf(log.endOf(entry)))];
    if (x > sheet.right) return;
    const block = next < sheet.left ? null : blockOf(entry);
    const isBrief = next - x < LEAST_BLOCK;
    const share = block?.share ?? 1;
    if (block === null || (isBrief && x < free && share <= highest)) continue;
    const least = next >= end ? LEAST_TOLD : isBrief ? 1 : 0;
    const left = Math.min(Math.max(sheet.left, isBrief ? Math.floor(x) : x), sheet.right - least);
    const right = Math.max(left + least, Math.min(sheet.right, next));
    drawBlock(sheet, block, [left, right, ...lane]);
    if (isBrief) [free, highest] = [right, share];
    // (passes over what begins in the point that is drawn)
    if (isBrief && share === 1) entry = Math.max(entry, log.entryAt(scale.keyAt(sheet.placeAt(right))) - 1);
  }
}

/** @param {Sheet} sheet @param {Block} block @param {number[]} box left, right, top and height of its lane */
function drawBlock(sheet, block, [left, right, top, high]) {
  const { fill, texts = [], look, hatch, told, share = 1, job, brief = "" } = block;
  const tall = share === 1 ? high : Math.max(2, share * high);
  const wide = right - left - (right - left > LEAST_APART && share === 1 ? APART : 0);
  const corners = wide > 4 * ROUND && share === 1 ? [ROUND] : [];
  sheet.rect([left, top + high - tall, wide, tall, ...corners], fill, right - left < LEAST_TOLD ? undefined : told);
  if (hatch !== undefined) sheet.hatch([left, left + wide, top, high], hatch);
  if (job !== undefined) markJob(sheet, job, [left, left + wide, top, high]);
  if (!sheet.label(texts, [left, right, top, high], look)) sheet.label([brief], [left, right, top, high], look);
}

/** On a job's block: a frame where it is selected; where it was asked for, a mark upwards, and its deadline, downwards: a red
 * one where it is missed, and red from there on.
 * @param {Sheet} sheet @param {import("./lanes.js").Block} job @param {number[]} box */
function markJob(sheet, { id, at, from, to }, [left, right, top, high]) {
  const { scale, deadlines, view: { selection }, run: { lanes: { jobs } } } = sheet;
  if (selection?.kind === "job" && selection.id === id) sheet.frame([left, right, top - 1, high + 2], { stroke: "ink", width: 2 }, 2);
  const deadline = scale.isTime ? deadlines.get(at) : undefined;
  if (deadline === undefined || sheet.xOf(scale.from + deadline) - sheet.left < LEAST_MARKED) return;
  const [born, gone] = [jobs.born.items[id], jobs.gone.items[id]];
  const due = scale.placeOfKey(born) + deadline;
  const isMissed = due < scale.endOf(gone);
  const late = Math.max(left, sheet.xOf(due));
  if (late < right) sheet.rect([late, top + high - 4, right - late, 4], "alarm");
  const mark = (/** @type {number} */ x, /** @type {number} */ y, /** @type {number} */ down, /** @type {string} */ fill) => {
    if (x - MARK >= sheet.left && x + MARK <= sheet.right) sheet.path([[x - MARK, y], [x, y + down], [x + MARK, y], [x - MARK, y]], { fill }, 2);
  };
  if (from === born) mark(sheet.xOf(due - deadline), top + high + 2, -2 * MARK, "ink");
  const isHere = isMissed ? due >= scale.placeOfKey(from) && due < scale.endOf(to) : to === gone;
  if (isHere) mark(sheet.xOf(due), top - 2, 2 * MARK, isMissed ? "alarm" : "ink");
}

/** A lane for each core set, VAC area, or place of the Waitlist that is ever taken. @param {Sheet} sheet @param {Kind} kind */
export function drawLanes(sheet, kind) {
  const { high, isStill, isJoined } = sheet.view;
  sheet.run.lanes.logs[kind].forEach((log, k, all) => {
    const isNext = k > 0 && log.isFree && all[k - 1].isFree;
    if ((kind === "task" && k > 0 && log.isFree) || (isJoined && isNext)) return;
    const name = isJoined && log.isFree && k < all.length - 1 ? `${k}–${all.length - 1}` : `${kind} ${kind === "set" ? k : k + 1}`;
    const tall = kind !== "set" ? sheet.line : log.isFree && isStill ? Math.max(sheet.size + 3, high / 2) : high;
    const top = sheet.lane(name, tall, { kind, k });
    drawLog(sheet, log, [top + 2, tall - 4], (entry) => blockOf(sheet, kind, k, entry));
  });
  if (kind === "set") sheet.y += 6;
}

/** Who is in a lane. @param {Sheet} sheet @param {Kind} kind @param {number} k @param {number} entry @param {Scale} [scale] @returns {Block | null} */
function blockOf(sheet, kind, k, entry, scale = sheet.scale) {
  const { lanes } = scale.run;
  const id = lanes.logs[kind][k].ids.items[entry];
  const told = { kind, k, entry };
  if (id === 0) return null;
  if (kind === "task") return { fill: "used", texts: [sheet.taskName(id)], told };
  const [at, number] = [lanes.jobs.at.items[id], lanes.jobs.more.items[id]];
  const [colour, name] = [sheet.colours.of(at), sheet.names.job(at)];
  // (by its number one sees which of two is overtaken)
  const isNumbered = sheet.parts.has("notes") && scale.isTime && sheet.deadlines.get(at) !== undefined;
  const texts = name === undefined ? [`job ${number} at ${octal(at, 5)}`, `job ${number}`, String(number)] : isNumbered ? [`${name} #${number}`, name] : [name];
  const brief = isNumbered ? `#${number}` : "";
  const job = kind === "set" ? lanes.block(k, entry) ?? undefined : undefined;
  if (job === undefined || job.state === State.RUNS) return { fill: `b${colour}`, texts, look: { fill: `i${colour}` }, told, job, brief };
  const pale = { fill: `p${colour}`, told, job, brief };
  if (job.state === State.SLEEPS) {
    const fill = `h${colour}`;
    return { ...pale, fill, texts: [`${name ?? `job ${number}`}, asleep`, ...texts], look: { fill: "pale", ground: fill }, hatch: pale.fill };
  }
  const waits = sheet.parts.has("notes") && scale.isTime ? [`${sheet.jobName(at)}, waiting since ${short(scale.placeOfKey(job.from))}`] : [];
  return { ...pale, texts: [...waits, ...texts], look: { fill: "pale" } };
}

/** @type {Record<string, (sheet: Sheet, lane: number[]) => void>} */
const STRIPS = {
  areas: (sheet, lane) => drawTaken(sheet, "area", lane),
  tasks: (sheet, lane) => drawTaken(sheet, "task", lane),
  stolen(sheet, [top, high]) {
    const { run, scale } = sheet;
    const column = (scale.to - scale.from) / (sheet.right - sheet.left);
    for (const { from, to, percent } of scale.isTime ? stolenParts(run.bench.steal, scale.from, scale.to, column) : []) {
      const [left, right] = [from, to].map((it) => sheet.clip(sheet.xOf(it)));
      const block = { fill: "stolen", share: (0.95 * percent) / 100, texts: [`${percent} %`], told: `${percent} % stolen` };
      if (right > left && percent > 0) drawBlock(sheet, block, [left, right, top, high]);
    }
  },
  // (no job runs where core set 0 is free, or its job sleeps)
  idle: (sheet, [top, high]) => drawLog(sheet, sheet.run.lanes.logs.set[0], [top + 3, high - 6],
    (entry) => (sheet.run.lanes.block(0, entry)?.state === State.RUNS ? null : { fill: "idle" })),
};

/** The strips; areas and tasks can be opened. @param {Sheet} sheet */
export function drawStrips(sheet) {
  const { run: { bench }, view: { strips, opened } } = sheet;
  const high = sheet.size + 4;
  for (const name of strips) {
    if ((name === "stolen" && bench.steal === 0) || (name === "idle" && bench.seconds === undefined)) continue;
    const [begins, isOpened] = [sheet.y, opened.includes(name)];
    if (isOpened) drawLanes(sheet, name === "areas" ? "area" : "task");
    else STRIPS[name](sheet, [sheet.lane(name, high, { kind: "strip", name }), high]);
    const band = { kind: "open", name, text: `${isOpened ? "close" : "open"} ${name}`, left: 0, right: sheet.left - 2 };
    if (["areas", "tasks"].includes(name)) sheet.bands.push({ ...band, top: begins, bottom: sheet.y });
    sheet.y += 4;
  }
}

/** How many places of a table are taken, the more the higher; dark where all are. @param {Sheet} sheet @param {"area" | "task"} kind @param {number[]} lane */
function drawTaken(sheet, kind, lane) {
  const log = sheet.run.lanes.taken[kind];
  drawLog(sheet, log, lane, (entry) => {
    const taken = log.ids.items[entry];
    const [fill, ink] = taken === MOST[kind] ? ["soft", "paper"] : ["used", "ink"];
    return taken === 0 ? null : { fill, share: (0.95 * taken) / MOST[kind], texts: [String(taken)], look: { fill: ink }, told: `${taken} of ${MOST[kind]} ${kind}s` };
  });
}

/** The core sets of the run before, half as high. @param {Sheet} sheet */
export function drawBefore(sheet) {
  const { before: scale, y, line } = sheet;
  if (scale === null) return;
  const { run, count } = scale;
  const half = Math.round(sheet.view.high / 2);
  sheet.name("before", y + line / 2);
  sheet.text(outcomeOf(run, count), sheet.left, y + line / 2, { fill: "soft" });
  const top = sheet.y += line;
  run.lanes.logs.set.forEach((log, k) => {
    const plain = (/** @type {Block | null} */ it) => it && { fill: it.fill, hatch: it.hatch };
    drawLog(sheet, log, [sheet.y + 1, half - 2], (entry) => plain(blockOf(sheet, "set", k, entry, scale)), scale);
    sheet.y += half;
  });
  for (const { x } of sheet.seen(run.alarms, scale)) sheet.path([[x, top], [x, sheet.y]], { stroke: "alarm", width: 1.5 });
  sheet.y += 4;
}

/** Where a selected job or task came from: an arrow from what asked for it, and from a task arrows to the jobs that it asked for itself. @param {Sheet} sheet */
export function drawSelection(sheet) {
  const { view: { selection }, scale, run: { lanes: { jobs, tasks } } } = sheet;
  if (selection === null) return;
  const { kind, id } = selection;
  const { born, at } = kind === "job" ? jobs : tasks;
  const point = pointOf(sheet, selection);
  const begun = born.items[id] >> 1;
  const asker = begun === 0 ? null : askerOf(sheet, begun, at.items[id]);
  const from = asker === null ? { y: sheet.top, name: visible(sheet.run.whoAsked(begun)).replace(/^event /, "") } : pointOf(sheet, asker);
  if (begun > 0) arrow(sheet, { ...from, x: sheet.xOf(sheet.scale.placeOf(begun)) }, point);
  if (kind === "job") return;
  const due = { ...point, x: sheet.clip(sheet.xOf(scale.endOf(tasks.gone.items[id]))) };
  sheet.path([[sheet.clip(point.x), point.y], [due.x, due.y]], { stroke: "ink", width: 3 }, 2);
  const row = tasks.gone.items[id] >> 1;
  const isAsked = (/** @type {number} */ job) => row > 0 && jobs.born.items[job] >> 1 === row && askerOf(sheet, row, jobs.at.items[job])?.id === id;
  for (const job of jobs.which(isAsked)) arrow(sheet, due, pointOf(sheet, { kind: "job", id: job }));
}

/** Where a job begins, or a task to wait. @param {Sheet} sheet @param {Selection} of @returns {Point} */
function pointOf(sheet, { kind, id }) {
  const { born, place, at } = sheet.run.lanes[`${kind}s`];
  const lane = sheet.bands.find((it) => (it.kind === (kind === "job" ? "set" : "task") && it.k === place.items[id])
    || (kind === "task" && it.kind === "strip" && it.name === "tasks"));
  const y = lane === undefined ? sheet.y : (lane.top + lane.bottom) / 2;
  return { x: sheet.xOf(sheet.scale.placeOfKey(born.items[id])), y, name: kind === "job" ? sheet.jobName(at.items[id]) : sheet.taskName(id) };
}

/** Who asked for a job or a task in a row: the task that came due, or the job that ran; null where it
 * was an event, a script or a hand.
 * @param {Sheet} sheet @param {number} row @param {number} at where it begins
 * @returns {Selection | null} */
function askerOf({ run }, row, at) {
  const { tasks } = run.lanes;
  if (run.lines[row] !== "tick") {
    const runner = run.lanes.blockAt(0, Math.max(1, 2 * row - 1));
    return run.whoAsked(row) === "the clock" && runner !== null ? { kind: "job", id: runner.id } : null;
  }
  const due = tasks.which((id) => tasks.gone.items[id] >> 1 === row).reverse();
  const asks = (/** @type {number} */ id) => run.bench.task.some((it) => parseInt(it.at, 8) === tasks.at.items[id]
    && it.action.some((line) => line.split(" ").includes(octal(at, 5))));
  const id = due.find(asks) ?? due[0];
  return id === undefined ? null : { kind: "task", id };
}

/** An arrow between two points that are seen, with who asks for whom. @param {Sheet} sheet @param {Point} from @param {Point} to */
function arrow(sheet, from, to) {
  if ([from, to].some(({ x }) => Math.abs(x - sheet.clip(x)) > 1)) return;
  const side = from.x - 26 > sheet.left ? -1 : 1;
  const middle = [(from.x + to.x) / 2 + 26 * side, (from.y + to.y) / 2];
  for (const look of [{ stroke: "paper", width: 5 }, { stroke: "ink", width: 2 }]) {
    sheet.path([[from.x, from.y], middle, [to.x, to.y]], { ...look, isArrow: true }, 2);
  }
  const text = from.name === to.name ? from.name : `${from.name} → ${to.name}`;
  const look = /** @type {const} */ ({ anchor: side < 0 ? "end" : "start", isBold: true, ground: "paper" });
  [0, 1, -1, 2, -2].some((shift) => sheet.text(text, middle[0] - 7 * side, middle[1] + shift * sheet.line, look));
}
