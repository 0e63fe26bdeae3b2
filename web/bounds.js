/**
 * What can be said of jobs before they run, by response-time analysis for fixed priorities: the longest response of each, which is
 * where all are asked for at once; up to which utilization it needs none; and whether any order of priorities keeps all deadlines.
 *
 * @typedef {import("./bench.js").Bench} Bench
 * @typedef {{ at: string, cost: number, period: number, priority: number, deadline: number }} Stream jobs of one address that are
 *   asked for again and again, or once; times are in hundredths of a centisecond
 */
import { AGAIN } from "./jobs.js";

/** What is asked for once comes again after all of the run; and how many steps a response is computed by at most. */
const [ONCE, MOST_STEPS] = [864_000_000, 3000];

/** What is said where no order of priorities would do. */
export const NO_ORDER = "No order of priorities helps: if all jobs are asked for at once, with each order one is late.";

/** A line that asks for a job: its priority and address. */
const ASKS = /^(?:novac|findvac) ([0-7]+) ([0-7]{5}) /;

/** Each line that is asked, and after how many centiseconds again; null where that hangs on how the run goes. @param {Bench} bench */
function linesOf({ task, event }) {
  const starts = event.flatMap((it) => it.do.map((line) => ({ line, every: it.every })));
  const found = starts.filter(({ line }) => !line.startsWith("list "));
  for (const { at, bank, action } of task) {
    const begun = starts.filter(({ line }) => line.startsWith("list ") && line.endsWith(` ${at} ${bank}`));
    const lists = action.filter((line) => line.startsWith("list "));
    const [, delay, ...place] = AGAIN.exec(lists[0] ?? "") ?? [];
    if (begun.length > 1 || begun.some((it) => it.every !== undefined) || lists.length > 1) return null;
    if (lists.length === 1 && place.join(" ") !== `${at} ${bank}`) return null;
    if (begun.length === 1) found.push(...action.filter((line) => !line.startsWith("list ")).map((line) => ({ line, every: delay === undefined ? undefined : Number(delay) })));
  }
  return found;
}

/** The jobs that a scenario asks for; null where one's cost isn't known, or how often it comes. @param {Bench} bench @returns {Stream[] | null} */
function streamsOf(bench) {
  const lines = linesOf(bench);
  if (lines === null || bench.job.some(({ then = ["end"] }) => then.length !== 1)) return null;
  const found = [];
  for (const { line, every } of lines.filter((it) => it.line !== "nothing" && !it.line.startsWith("phase "))) {
    const [, priority, at] = ASKS.exec(line) ?? [];
    const given = bench.job.find((it) => it.at === at);
    if (given === undefined) return null;
    const { cost, deadline = Infinity } = given;
    found.push({ at, cost: 100 * (typeof cost === "number" ? cost : cost.to), period: every === undefined ? ONCE : 100 * every, priority: parseInt(priority, 8), deadline: 100 * deadline });
  }
  return found;
}

/** The greatest part of a centisecond that is stolen, in hundredths. @param {Bench["steal"]} steal */
const mostStolen = (steal) => (typeof steal === "number" ? steal : Math.max(0, ...steal.map((it) => it.percent)));

/** The longest response of a job, with these others before it, or that of the first one where all are asked for at once; infinite where they ask for more than
 * there is, or nearly so much. @param {Stream} own @param {Stream[]} others @param {number} stolen @param {boolean} [isFirst] */
function longest(own, others, stolen, isFirst = false) {
  const asked = [own, ...others].reduce((sum, it) => sum + it.cost / it.period, stolen / 100);
  if (asked > 1 || stolen === 100) return Infinity;
  let [count, end] = [1, 0];
  for (let step = 0; step < MOST_STEPS; step++) {
    const work = others.reduce((sum, it) => sum + Math.max(1, Math.ceil(end / it.period)) * it.cost, count * own.cost);
    const next = work + stolen * Math.floor((work - 1) / (100 - stolen));
    if (next !== end) {
      end = next;
      continue;
    }
    // (of two jobs of one kind that are alive the later may go first: then each may take as long as there is work without a gap)
    if (isFirst || end <= count * own.period) return end;
    count += 1;
  }
  return Infinity;
}

/** Whether jobs can all be in time with some order of priorities: if any of them may be the last one, it may be that one.
 * @param {Stream[]} all @param {number} stolen @returns {boolean} */
function haveOrder(all, stolen) {
  if (all.length === 0) return true;
  const last = all.find((it) => longest(it, all.filter((one) => one !== it), stolen, true) <= it.deadline);
  return last !== undefined && haveOrder(all.filter((it) => it !== last), stolen);
}

/**
 * What is known of a scenario's jobs; null where nothing is.
 * @param {Bench} bench
 * @returns {{ longest: Map<number, number>, safe: number | null, hasOrder: boolean } | null} by the address at which a job begins its longest
 *   response; and which load is safe, stolen time with it, if all jobs come again, the shorter period has the greater priority, and no deadline is
 *   before it ends
 */
export function boundsOf(bench) {
  const streams = streamsOf(bench);
  if (streams === null) return null;
  const stolen = mostStolen(bench.steal);
  const found = new Map();
  for (const it of streams) {
    const others = streams.filter((one) => one !== it && one.priority >= it.priority);
    found.set(parseInt(it.at, 8), Math.max(found.get(parseInt(it.at, 8)) ?? 0, longest(it, others, stolen)));
  }
  const part = streams.length * (2 ** (1 / streams.length) - 1);
  const isByPeriods = streams.length > 0 && streams.every((it) => it.period < ONCE && it.deadline >= it.period
    && streams.every((one) => one.period >= it.period || one.priority > it.priority));
  return { longest: found, safe: isByPeriods ? part * (1 - stolen / 100) + stolen / 100 : null, hasOrder: haveOrder(streams, stolen) };
}
