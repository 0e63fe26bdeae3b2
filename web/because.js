/**
 * Why a table was full, in one sentence with the numbers of the run: whose jobs fill it, how much computing
 * time each needs, and how much it gets of every so many seconds.
 */
import { NO_ORDER, boundsOf } from "./bounds.js";
import { lateAt } from "./jobs.js";
import { State } from "./lanes.js";
import { stolenParts } from "./stolen.js";
import { octal, seconds, took } from "./words.js";

/** Why a more urgent job runs at once where jobs take time, although none interrupts another; and who is first of equals. */
export const TAKES_OVER = "A job that is asked for doesn't interrupt the running one. But where jobs take time, the running one asks for a change of jobs itself, each centisecond: there a more urgent one takes over.";
export const EQUALS = "Of equal priority, the running job goes on; and then comes the one with the lowest number.";

const COUNTS = ["No", "One", "Two", "Three", "Four", "Five", "Six", "Seven", "Eight"];

/** At most so many jobs that have just begun are looked at to see how often they come. */
const MOST_BEGUN = 12;

/** A time in seconds, of one decimal where that is all: `1.7 s`. @param {number} ticks */
export function short(ticks) {
  return `${Number((ticks / 100).toFixed(ticks % 10 === 0 || ticks > 99 ? 1 : 2))} s`;
}

/** How often jobs that begin at an address come, in ticks: the middle of the gaps between the last of them up to a row; 0 where there are too few. @param {import("./run.js").Run} run @param {number} at @param {number} row */
export function periodOf({ lanes: { jobs }, columns }, at, row) {
  const born = /** @type {number[]} */ ([]);
  for (let id = jobs.count - 1; id > 0 && born.length < MOST_BEGUN; id--) {
    const begun = jobs.born.items[id] >> 1;
    if (jobs.at.items[id] === at && begun <= row) born.push(columns.ticks.items[begun]);
  }
  const gaps = born.slice(1).map((it, k) => born[k] - it).sort((one, other) => one - other);
  return gaps.length < 2 ? 0 : gaps[gaps.length >> 1];
}

/** How many ticks jobs that begin at an address got from one row to another, without what was stolen. @param {import("./run.js").Run} run @param {number} at @param {number} from @param {number} to */
function gotBy(run, at, from, to) {
  const { lanes, bench } = run;
  const [lane] = lanes.logs.set;
  let got = 0;
  for (let n = 0; n < lane.count && lane.keys.items[n] >> 1 < to; n++) {
    const block = lanes.block(0, n);
    if (block === null || block.at !== at || block.state !== State.RUNS) continue;
    const [begins, ends] = [Math.max(from, block.from >> 1), Math.min(to, block.to >> 1 || to)].map((row) => run.ticksAt(row));
    for (const it of begins < ends ? stolenParts(bench.steal, begins, ends, ends - begins) : []) {
      const ticks = Math.min(it.to, ends) - Math.max(it.from, begins);
      got += Math.max(0, ticks);
      got -= Math.max(0, ticks) * it.percent / 100;
    }
  }
  return got;
}

/**
 * Since which row the oldest of those jobs is alive that begin at an address: from then on each got too little.
 * @param {import("./run.js").Run} run @param {number} at @param {number} row @param {number} era where to begin at the earliest
 */
function aliveSince({ lanes: { jobs } }, at, row, era) {
  let since = row;
  for (let id = jobs.count - 1; id > 0 && jobs.born.items[id] >> 1 >= era; id--) {
    const gone = jobs.gone.items[id] >> 1;
    const born = jobs.born.items[id] >> 1;
    if (jobs.at.items[id] === at && born <= row && (gone === 0 || gone >= row)) since = Math.min(since, born);
  }
  return since;
}

/**
 * Why the table of an alarm was full: of whose jobs most are alive, and what each needs and gets of its period, in ticks;
 * null where no job comes again and again.
 * @param {import("./run.js").Run} run @param {import("./run.js").Shown} shown
 */
export function causeOf(run, { step, scene, jobsFrom, row, era }) {
  if (run.bench.seconds === undefined || step === null || step.number === 0o1203) return null;
  const holders = scene.sets.flatMap((job, k) => (job !== null && (step.number === 0o1202 || job.area > 0) ? [jobsFrom[k]] : []));
  const most = [...new Set(holders)].map((at) => ({ at, count: holders.filter((it) => it === at).length })).sort((one, other) => other.count - one.count)[0];
  const cost = run.bench.job.find((it) => parseInt(it.at, 8) === most?.at)?.cost;
  const period = most === undefined ? 0 : periodOf(run, most.at, row);
  const since = most === undefined ? row : aliveSince(run, most.at, row, era);
  const time = run.ticksAt(row) - run.ticksAt(since);
  if (most === undefined || most.count < 2 || typeof cost !== "number" || period === 0 || time < 2 * period) return null;
  const others = scene.sets.filter((job, k) => job !== null && jobsFrom[k] !== most.at);
  return { ...most, others: holders.length - most.count, areAsleep: others.every((it) => it?.asleep),
    ...{ cost, period, since, isArea: step.number === 0o1201 }, got: Math.round(gotBy(run, most.at, since, row) * period / time) };
}

/** What each needs and gets, so that they differ as they are written. @param {{ cost: number, got: number }} cause */
export function needsOf({ cost, got }) {
  return [cost, got].map(short(cost) === short(got) ? seconds : short);
}

/** What raised an alarm in a tick: the action of a task, as a line; nothing where a request of its own did. @param {import("./run.js").Run} run @param {import("./run.js").Shown} shown */
export function actionOf({ bench }, { step }) {
  const last = step?.fired.at(-1);
  if (step === null || last === undefined || step.action === 0) return null;
  const task = bench.task.find((it) => it.at === octal(last.at, 5) && it.bank === octal(last.bank, 5));
  return { last, isOne: (task?.action.length ?? 1) === 1, number: step.action, line: task?.action[step.action - 1] ?? "" };
}

/** The last straw: which job asked for one more place, and how many are taken. @param {import("./run.js").Run} run @param {import("./run.js").Shown} shown @param {import("./account.js").Names} names */
export function strawOf(run, shown, names) {
  const [, at] = /^(?:novac|findvac) [0-7]+ ([0-7]+)/.exec(actionOf(run, shown)?.line ?? shown.line) ?? [];
  const [what, count] = shown.step?.number === 0o1201 ? ["VAC area (a longer block of memory)", 5] : ["core set", run.sets];
  const name = at === undefined ? undefined : names.job(parseInt(at, 8));
  return at === undefined ? "" : `one more job${name === undefined ? "" : `, ${name},`} asks for a ${what}, and all ${COUNTS[count].toLowerCase()} are taken.`;
}

/** Why the first of the jobs is late that are at a row, and what would run it sooner; null where none is. @param {import("./run.js").Run} run @param {import("./run.js").Shown} shown @param {import("./account.js").Names} names */
export function lateOf(run, { row, scene: { sets }, jobsFrom }, names) {
  const [late] = lateAt(run, row);
  if (late === undefined) return null;
  const { at, born, due } = late;
  const name = names.job(at) ?? "The job";
  const others = [...new Set(run.lanes.jobs.at.items.slice(1, run.lanes.jobs.count))].filter((it) => it !== at)
    .flatMap((it) => (gotBy(run, it, born, row) >= 1 ? [`${names.job(it) ?? octal(it, 5)} has had ${short(Math.round(gotBy(run, it, born, row)))} of computing`] : []));
  const got = Math.round(gotBy(run, at, born, row));
  const [first, own] = [sets[0], sets.find((it, k) => it !== null && jobsFrom[k] === at)].map((it) => it?.priority ?? 0);
  const order = first === own && jobsFrom[0] !== at ? ` Both have priority ${octal(first, 2)}. ${EQUALS}` : first <= own ? "" : ` First goes ${names.job(jobsFrom[0]) ?? "what runs"}, by its priority ${octal(first, 2)}: ${name} has ${octal(own, 2)}.`;
  return { name, at, text: `${name} was asked for at ${seconds(run.ticksAt(born))} and had to end by ${took(due, 100)}. `
    + `Since then ${[...others, `${name} ${got === 0 ? "none" : short(got)}`].join(", ")}.${order}${boundsOf(run.bench)?.hasOrder === false ? ` ${NO_ORDER}` : ""}` };
}

/** The sentence; nothing where no job comes again and again. @param {import("./run.js").Run} run @param {import("./run.js").Shown} shown @param {import("./account.js").Names} names */
export function becauseOf(run, shown, names) {
  const cause = causeOf(run, shown);
  if (cause === null) return "";
  const { count, cost, got, period } = cause;
  const name = names.job(cause.at);
  if (got >= cost) return `${COUNTS[count]} ${name === undefined ? "jobs of one kind" : `${name}s`} are alive at once.`;
  const [needs, gets] = needsOf(cause);
  const every = period === 100 ? "second" : short(period).replace(/^2 s$/, "two");
  return `Each ${name ?? "job of one kind"} needs ${needs}, but gets only ${gets} of every ${every}. So old ones are still alive when new ones come: `
    + `${COUNTS[count].toLowerCase()} at once.`;
}
