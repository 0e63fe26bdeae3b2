/**
 * What a run asks of the computer: how many seconds of computing its jobs still need, row by row, and
 * which part of the time each job asks for. The run's clock says what each job was given.
 *
 * @typedef {import("./run.js").Run} Run
 * @typedef {import("./bench.js").Bench} Bench
 * @typedef {Map<number, { most: number, mean: number }>} Costs
 */
import { lastUpTo } from "./lanes.js";
import { stolenParts } from "./stolen.js";

/** How many parts the mean of stolen time is made of. */
const PARTS = 400;

/** What jobs cost, by their addresses, in hundredths of a centisecond: at most, and on average. @param {Bench} bench @returns {Costs} */
export function costsOf({ job }) {
  // (of several rows of an address the first counts)
  return new Map([...job].reverse().map(({ at, cost }) => {
    const { from, to } = typeof cost === "number" ? { from: cost, to: cost } : cost;
    return [parseInt(at, 8), { most: 100 * to, mean: 50 * (from + to) }];
  }));
}

/**
 * What jobs that are awake still need, given what each was given by number; what a lot spared one counts as given, and
 * a cost by lot as its mean until then.
 * @param {Costs} costs @param {{ number: number, at: number }[]} jobs @param {number[]} given
 */
export function needOf(costs, jobs, given) {
  return jobs.reduce((sum, { number, at }) => {
    const { most, mean } = costs.get(at) ?? { most: 0, mean: 0 };
    return sum + (given[number - 1] === 0 ? mean : Math.max(0, most - given[number - 1]));
  }, 0);
}

/** What was counted of the rows that were looked at of a run. @type {WeakMap<Run, ReturnType<typeof countsOf>>} */
const known = new WeakMap();

/**
 * What the first rows of a run have: how many core sets, areas and tasks are used at most; the most work that waits after one
 * of them, and the least with which all core sets or all areas came into use.
 * @param {Run} run @param {number} count
 * @returns {{ count: number, used: number[], most: number, full: number }}
 */
export function countsOf(run, count) {
  const [waiting, uses] = [run.columns.waiting.items, run.columns.uses.items];
  const isFull = (/** @type {number} */ row) => row >= 0 && ((uses[row] & 15) === run.sets || ((uses[row] >> 4) & 15) === 5);
  const looked = known.get(run);
  let { count: row, used: [sets, areas, tasks], most, full } = looked !== undefined && looked.count <= count ? looked
    : { count: 0, used: [0, 0, 0], most: 0, full: Infinity };
  for (; row <= count; row++) {
    const use = uses[row];
    [sets, areas, tasks] = [Math.max(sets, use & 15), Math.max(areas, (use >> 4) & 15), Math.max(tasks, (use >> 8) & 15)];
    most = Math.max(most, waiting[row]);
    if (waiting[row] > 0 && isFull(row) && !isFull(row - 1)) full = Math.min(full, waiting[row]);
  }
  const found = { count, used: [sets, areas, tasks], most, full };
  known.set(run, found);
  return found;
}

/** How many of these came up to a time, each shared out over the time until the next one: so that a job asked for every two seconds counts evenly. @param {number[]} times @param {number} time */
function cameUpTo(times, time) {
  const last = lastUpTo(times, times.length, time);
  if (last < 0) return 0;
  const end = times[last + 1] ?? 2 * times[last] - (times[last - 1] ?? times[last]);
  return last + (end > times[last] ? Math.min(1, (time - times[last]) / (end - times[last])) : 1);
}

/** The mean of stolen time between two times, in percent. @param {Bench["steal"]} steal @param {number} from @param {number} to */
function meanStolen(steal, from, to) {
  const parts = stolenParts(steal, from, to, (to - from) / PARTS);
  return parts.reduce((sum, it) =>
    sum + it.percent * Math.max(0, Math.min(to, it.to) - Math.max(from, it.from)), 0) / (to - from);
}

/** The part of a run of which its budget is: up to the alarm, where just one is in it, since the restart asks for more. @param {Run} run @param {{ from: number, to: number }} seen in ticks */
export function partAsked(run, { from, to }) {
  const inside = run.alarms.map((row) => run.ticksAt(row)).filter((it) => from < it && it <= to);
  return inside.length === 1 ? { from, to: inside[0], isCut: true } : { from, to, isCut: false };
}

/** When jobs began to need time, in ticks, by address. @param {Run} run @param {number} count */
function needsOf(run, count) {
  /** @type {Map<number, number[]>} */
  const times = new Map();
  for (const { row, at } of run.lanes.needs) {
    if (row > count) break;
    if (!times.has(at)) times.set(at, []);
    times.get(at)?.push(run.ticksAt(row));
  }
  return times;
}

/**
 * Which part of a time each job asks for, and what is stolen, in whole percent, the greatest first;
 * null where nothing has a cost.
 * @param {Run} run
 * @param {number} count
 * @param {{ from: number, to: number, isCut?: boolean }} seen in ticks, and whether what comes at its end isn't of it
 */
export function budgetOf(run, count, { from, to, isCut = false }) {
  if (run.bench.job.length === 0 || to <= from) return null;
  const jobs = [...needsOf(run, count)].map(([at, all]) => {
    const times = isCut ? all.filter((it) => it < to) : all;
    const perTick = (cameUpTo(times, to) - cameUpTo(times, from)) / (to - from);
    return { at, perTick, share: Math.round((run.costs.get(at)?.mean ?? 0) * perTick) };
  }).filter((it) => it.share > 0).sort((a, b) => b.share - a.share || a.at - b.at);
  const stolen = Math.round(meanStolen(run.bench.steal, from, to));
  return { jobs, stolen, total: jobs.reduce((sum, it) => sum + it.share, stolen) };
}
