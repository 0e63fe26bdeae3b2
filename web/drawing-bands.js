/**
 * The two bands of a picture that say why: above the lanes the work that waits, and below them what the part that is
 * seen asks for, in percent of its time. And what the page's picture says of its first alarm: at the curve how much
 * work each job adds and how much is done, and beside the alarm's line whose jobs hold the table.
 *
 * @typedef {import("./drawing.js").Sheet} Sheet
 */
import { causeOf, needsOf, short } from "./because.js";
import { ROUND } from "./drawing-lanes.js";
import { textWidth } from "./drawing-pens.js";
import { budgetOf, countsOf, partAsked } from "./work.js";
import { seconds } from "./words.js";

/** How many lanes the work is high, and how many lines of text the budget; and the least work at the top. */
const [WORK_LANES, BUDGET_LINES, LEAST_WORK] = [3.6, 2.2, 5_000];

/** The budget's bar ends with a multiple of so many percent, and at least here; and how wide its plot is at least. */
const [STEP, LEAST_BAR, LEAST_TOLD] = [25, 125, 500];

/** How much of the way to the alarm a note at the curve has; and how wide a plot with its arrow is at least. */
const [ROOM, LEAST_WIDE] = [0.62, 400];

/** @param {Sheet} sheet */
export function drawWork(sheet) {
  const { run, count, scale, before, size, left, right, y: begins } = sheet;
  if (run.bench.job.length === 0 || !scale.isTime) return;
  const work = countsOf(run, count);
  const [top, bottom] = [begins + 4, begins + Math.round(WORK_LANES * sheet.view.high)];
  const highest = 1.15 * Math.max(work.most, before === null ? 0 : countsOf(before.run, before.count).most, LEAST_WORK);
  const yOf = (/** @type {number} */ hundredths) => bottom - (hundredths / highest) * (bottom - top);
  const points = curve(sheet, scale, yOf);
  sheet.bands.push({ kind: "work", top: begins, bottom });
  sheet.name("work", bottom - size * 2);
  sheet.name("waiting", bottom - size * 0.8);
  // (the least work with which a table became full: what is above it is red)
  const level = yOf(work.full);
  for (const [end, look] of /** @type {const} */ ([[bottom, { fill: "work", told: "seconds of computing that jobs still need" }], [level, { fill: "over" }]])) {
    const part = end < bottom ? above(points, end) : points;
    if (part.length > 0 && end > begins) sheet.path([[part[0][0], end], ...part, [part[part.length - 1][0], end]], look);
  }
  sheet.path(points, { stroke: "curve", width: 1.2 });
  if (before !== null) sheet.path(curve(sheet, before, yOf), { stroke: "soft", isDashed: true });
  // (the greatest work that is seen is told at its place)
  const [x, y] = points.reduce((best, it) => (it[1] < best[1] ? it : best), [right, bottom]);
  const [most, at] = [`${seconds((highest * (bottom - y)) / (bottom - top) / 100)} of work`, Math.max(y - 0.7 * size, begins + 0.6 * size)];
  const curves = [...points, ...(before === null ? [] : curve(sheet, before, yOf))];
  if (bottom - y >= 2) writeOver(sheet, curves, [most], [[x - 5, at], [x + 5, at]], "ink");
  noteWork(sheet, top + 0.6 * size, points, yOf);
  if (work.full < Infinity) {
    sheet.path([[left, level], [right, level]], { stroke: "alarm", isDashed: true });
    const middle = level - 0.75 * size;
    writeOver(sheet, curves, ["above this line, room can run out", "room can run out"], [[right - 4, middle], [left + 6, middle]], "alarm");
  }
  sheet.y = bottom + 4;
}

/** A curve as far as it is above a level, and along it elsewhere. @param {number[][]} points @param {number} level */
function above(points, level) {
  return points.flatMap(([x, y], k) => {
    const [a, b] = points[k - 1] ?? [x, y];
    const crossed = b < level === y < level ? [] : [[a + ((x - a) * (level - b)) / (y - b), level]];
    return [...crossed, [x, Math.min(y, level)]];
  });
}

/** Writes one of these texts, left of the first of two points or right of the second, where no curve and no alarm's line goes through it.
 * @param {Sheet} sheet @param {number[][]} curves @param {string[]} texts @param {number[][]} ends @param {string} fill */
function writeOver(sheet, curves, texts, ends, fill) {
  const { size } = sheet;
  const lines = sheet.seen(sheet.run.alarms).map(({ x }) => x);
  return texts.some((text) => [1, 0].some((k) => {
    const [x, middle] = ends[k];
    const from = x - (k === 0 ? textWidth(text, size) : 0);
    const isIn = (/** @type {number} */ at) => at > from - 4 && at < from + textWidth(text, size) + 4;
    const isClear = curves.every(([at, y]) => !isIn(at) || y > middle + 0.6 * size) && !lines.some(isIn);
    return isClear && from >= sheet.left && sheet.text(text, x, middle, { anchor: k === 0 ? "end" : "start", fill });
  }));
}

/** The work over time, as points: of many within one point across only the least and the greatest.
 * @param {Sheet} sheet @param {import("./drawing-scale.js").Scale} scale @param {(hundredths: number) => number} yOf */
function curve(sheet, scale, yOf) {
  const { ticks: { items: ticks }, waiting: { items: waiting } } = scale.run.columns;
  /** @type {number[][]} */
  const points = [];
  /** @type {number[][]} */
  let near = [];
  const close = () => {
    const [low, high] = [-1, 1].map((way) => near.reduce((best, it) => (way * it[1] > way * best[1] ? it : best), near[0]));
    points.push(...(near.length <= 4 ? near : near.filter((it) => it === low || it === high)));
    near = [];
  };
  for (let row = scale.keyAt(scale.from) >> 1; row <= scale.count && ticks[row] <= scale.to; row++) {
    const [x, y] = [Math.max(sheet.left, sheet.xOf(ticks[row])), yOf(waiting[row])];
    if (near.length > 0 && Math.floor(x) !== Math.floor(near[0][0])) close();
    // (what is asked for comes at once)
    if (row > 0 && waiting[row] > waiting[row - 1] && ticks[row] > scale.from) near.push([x, yOf(waiting[row - 1])]);
    near.push([x, y]);
  }
  close();
  return points.filter(([, y], k) => y !== points[k - 1]?.[1] || y !== points[k + 1]?.[1]);
}

/** What the part that is seen asks for, and what is over all the time there is. @param {Sheet} sheet */
export function drawBudget(sheet) {
  const { run, count, scale, size, left, right } = sheet;
  const asked = partAsked(run, scale);
  const budget = scale.isTime ? budgetOf(run, count, asked) : null;
  if (budget === null) return;
  const { total, stolen, jobs } = budget;
  const [top, high] = [sheet.y + 6, Math.round(BUDGET_LINES * sheet.line)];
  const over = total > 100 ? `${total - 100} % too much` : `${100 - total} % free`;
  const period = `${seconds(asked.from).replace(/[.]?0* s$/, "")} to ${short(asked.to)}`;
  const where = sheet.parts.has("notes") ? `in view, ${period}` : `of ${period}`;
  const sums = right - left < LEAST_TOLD ? [`= ${total} %`, period] : [`= ${total} % ${where}`, over];
  const most = Math.max(LEAST_BAR, STEP * Math.ceil(total / STEP));
  const perPoint = most / (right - left - Math.max(...sums.map((it) => textWidth(it, size, true))) - 16);
  const all = left + 100 / perPoint;
  const parts = [
    ...jobs.map((it) => ({ name: sheet.jobName(it.at), share: it.share, fill: `b${sheet.colours.of(it.at)}`, ink: `i${sheet.colours.of(it.at)}` })),
    { name: "stolen", share: stolen, fill: "stolen", ink: "ink" },
    ...(total < 100 ? [{ name: "free", share: 100 - total, fill: "paper", ink: "soft" }] : []),
  ];
  sheet.name("budget", top + high / 2);
  const end = drawParts(sheet, parts.map((it) => ({ ...it, told: `of the time from ${period}` })), [top, high], perPoint);
  if (total < 100) sheet.frame([left + total / perPoint, all, top, high], { stroke: "faint", isDashed: true });
  if (total > 100) sheet.frame([all, end, top - 3, high + 6], { stroke: "alarm", width: 2 });
  else sheet.path([[all, top - 3], [all, top + high + 3]], { stroke: "ink", width: 2 });
  sums.forEach((it, k) => sheet.text(it, end + 8, top + high * (sums.length === 1 ? 0.5 : 0.27 + 0.46 * k), { fill: total > 100 ? "alarm" : "ink", isBold: k === 0 }));
  sheet.y = top + high + 6;
}

/** Parts side by side, up to 100 percent and beyond. Returns where they end.
 * @param {Sheet} sheet @param {{ name: string, share: number, fill: string, ink: string, told: string }[]} parts
 * @param {number[]} lane top and height @param {number} perPoint percent */
function drawParts(sheet, parts, [top, high], perPoint) {
  const all = sheet.left + 100 / perPoint;
  const bottom = top + high;
  let x = sheet.left;
  for (const { name, share, fill, ink, told } of parts) {
    const [left, right] = [x, x + share / perPoint];
    const text = `${name} ${share} %`;
    x = right;
    const wide = Math.max(0.5, right - left - 1);
    if (share > 0) sheet.rect([left, top, wide, high, ...(wide > 4 * ROUND ? [ROUND] : [])], fill, text);
    sheet.bands.push({ kind: "budget", name, text: `${text} ${told}`, left, right, top, bottom });
    // (a name doesn't cross the line at 100 percent)
    const middle = left < all && all < right ? all : left;
    const [begins, ends] = middle - left > right - middle ? [left, middle] : [middle, right];
    [name, `${share} %`].forEach((it, k) => sheet.label([it], [begins, ends, top + 2 + (k * (high - 4)) / 2, high / 2 - 2], { fill: ink, isBold: k === 0 }));
  }
  return x;
}

/** @type {WeakMap<import("./drawing.js").Run, Map<number, ReturnType<typeof causeOf>>>} */
const known = new WeakMap();

/** Why the first alarm that is seen came; null where none is, or nothing explains it. @param {Sheet} sheet */
function causeSeen(sheet) {
  const { run } = sheet;
  const [first] = sheet.parts.has("notes") && sheet.scale.isTime ? sheet.seen(run.alarms) : [];
  if (first === undefined) return null;
  const found = known.get(run) ?? new Map();
  known.set(run, found);
  if (!found.has(first.row)) found.set(first.row, causeOf(run, run.show(first.row, first.row)[0]));
  const cause = found.get(first.row);
  return cause === null || cause.got >= cause.cost ? null : { ...cause, ...first };
}

/** At the curve: what each of those jobs adds, and how much of it is done before the next one comes; and an arrow to where it jumps so.
 * @param {Sheet} sheet @param {number} y the text's middle @param {number[][]} points the curve @param {(hundredths: number) => number} yOf */
function noteWork(sheet, y, points, yOf) {
  const cause = causeSeen(sheet);
  if (cause === null) return;
  const { left, size } = sheet;
  const [needs, gets] = needsOf(cause);
  const room = ROOM * (cause.x - left);
  const text = sheet.fitting([`each ${sheet.jobName(cause.at)} adds ${needs} of work, but only ${gets} gets done`,
    `+${needs} of work, ${gets} done`, `+${needs} each, ${gets} done`], room);
  // (it holds since the oldest of those jobs is there)
  const since = sheet.xOf(sheet.scale.placeOf(cause.since));
  if (text === undefined || since > left + room || !sheet.text(text, left + 6, y, { isBold: true })) return;
  const high = 0.9 * (yOf(0) - yOf(100 * cause.cost));
  const [x, top] = points.find(([at, to], k) => k > 0 && at > since - 2 && at - points[k - 1][0] < 1 && to < points[k - 1][1] - high) ?? [Infinity, 0];
  const begins = y + 0.8 * size;
  if (x > left + textWidth(text, size, true) || sheet.right - left < LEAST_WIDE || top - begins < size) return;
  sheet.path([[x - 14, begins], [x - 2, begins + 6], [x, top - 3]], { stroke: "ink", width: 1.2, isArrow: true, ends: left + textWidth(text, size, true) });
}

/** Beside the alarm's line: how many of the table are taken, and by whom. @param {Sheet} sheet */
export function noteAlarm(sheet) {
  const cause = causeSeen(sheet);
  const lanes = sheet.bands.filter((it) => it.kind === "set").slice(1);
  if (cause === null || lanes.length < 3) return;
  const { count, others, areAsleep, isArea, x, at } = cause;
  const lines = [`all ${count + others} ${isArea ? "areas " : ""}taken:`, `${count} ${sheet.jobName(at)}s`, ...(others > 0 ? [`${others} ${areAsleep ? "asleep" : "more"}`] : [])];
  const end = Math.min(sheet.right, sheet.seen(sheet.run.alarms)[1]?.x ?? Infinity);
  if (lines.some((it) => textWidth(it, sheet.size, true) > end - x - 12)) return;
  lines.forEach((it, k) => sheet.text(it, x + 8, (lanes[k].top + lanes[k].bottom) / 2,
    { isBold: k === 0, fill: k === 0 ? "alarm" : "ink", ground: "paper" }));
}
