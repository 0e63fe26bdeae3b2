/**
 * What `agc_watch jobs` says of a run's jobs, by the same rules (docs/FORMATS.md): how long they took, and who missed
 * a deadline. A time is in hundredths of a centisecond.
 *
 * @typedef {import("./run.js").Run} Run
 * @typedef {{ at: number, priority: number, period: number | null, cost: number | { from: number, to: number } | null, deadline: number | null,
 *   began: number, ended: number, lost: number, alive: number, least: number, mean: number, most: number, share: number,
 *   dues: number[], missed: number, firstMissed: number | null, missedRow: number }} JobRow   `dues`: the deadlines that are missed
 */
import { State, lastUpTo, lastWhere } from "./lanes.js";
import { counted, octal, took } from "./words.js";

/** A line that lists a task once more, from the action of the task itself. */
export const AGAIN = /^list ([0-9]+) ([0-7]{5}) ([0-7]{5})$/;

/** How often jobs at an address are asked for, in centiseconds: by the quickest task that lists itself, or event that has a period; null where none does. @param {import("./bench.js").Bench} bench @param {string} at */
export function periodOf({ task, event }, at) {
  const begins = (/** @type {string[]} */ lines) => lines.some((it) => /^(novac|findvac) /.test(it) && it.split(" ")[2] === at);
  const listed = task.filter((it) => begins(it.action)).flatMap((row) => row.action.flatMap((line) => {
    const found = AGAIN.exec(line);
    return found !== null && found[2] === row.at && found[3] === row.bank ? [Number(found[1])] : [];
  }));
  const all = [...listed, ...event.flatMap((it) => (it.every !== undefined && begins(it.do) ? [it.every] : []))];
  return all.length === 0 ? null : Math.min(...all);
}

/** How long jobs may take that have a deadline, by the addresses at which they begin: of several rows of an address the first counts. @param {import("./bench.js").Bench} bench */
export function limitsOf({ job }) {
  const all = new Map([...job].reverse().map(({ at, deadline = Infinity }) => [parseInt(at, 8), 100 * deadline]));
  return new Map([...all].filter(([, limit]) => limit < Infinity));
}

/** The lines by which jobs are asked for at an address. @param {string} at */
const askingFor = (at) => new RegExp(`^(novac|findvac) ([0-7]+)(?= ${at} )`);

/** With which priority jobs are asked for at an address; null where none is. @param {import("./bench.js").Bench} bench @param {string} at */
export function priorityOf({ task, phase, event }, at) {
  const lines = [...task.flatMap((it) => it.action), ...event.flatMap((it) => it.do), ...phase.flatMap((it) => it.job ?? [])];
  const found = lines.flatMap((it) => askingFor(at).exec(it)?.[2] ?? []);
  return found.length === 0 ? null : parseInt(found[0], 8);
}

/** What of a bench asks for jobs at an address, with another priority. @param {import("./bench.js").Bench} bench @param {string} at @param {number} priority */
export function withPriority({ task, phase, event }, at, priority) {
  const asked = (/** @type {string} */ line) => line.replace(askingFor(at), `$1 ${octal(priority, 2)}`);
  return {
    phase: phase.map((it) => (it.job === undefined ? it : { ...it, job: asked(it.job) })),
    task: task.map((it) => ({ ...it, action: it.action.map(asked) })),
    event: event.map((it) => ({ ...it, do: it.do.map(asked) })),
  };
}

/** The run's jobs by the addresses at which they began, in the order in which the first of each did, up to a row. @param {Run} run @param {number} count @returns {JobRow[]} */
export function jobsOf(run, count) {
  const time = run.columns.times.items[count];
  const isOver = time >= 100 * (run.bench.seconds ?? Infinity) && count === run.count;
  const now = isOver ? 100 * time : run.momentAt(count);
  const { jobs, eras } = run.lanes;
  /** @type {Map<number, JobRow & { responses: number[] }>} */
  const rows = new Map();
  for (let id = 1; id < jobs.count && jobs.born.items[id] >> 1 <= count; id++) {
    const [at, born, gone] = [jobs.at.items[id], jobs.born.items[id], jobs.gone.items[id]];
    const row = rows.get(at) ?? rowOf(run, at, run.lanes.blockAt(jobs.place.items[id], born)?.priority ?? 0);
    rows.set(at, row);
    row.began += 1;
    const isAlive = gone === 0 || gone >> 1 > count;
    const end = isAlive ? now : run.momentAt(gone >> 1);
    const isLost = !isAlive && (gone & 1) === 1 && eras[lastUpTo(eras, eras.length, gone >> 1)] === gone >> 1;
    if (isAlive) row.alive += 1;
    else if (isLost) row.lost += 1;
    else row.responses.push(end - run.momentAt(born >> 1));
    const due = run.momentAt(born >> 1) + 100 * (row.deadline ?? Infinity);
    if (end <= due) continue;
    row.dues.push(due);
    row.missed += 1;
    if (row.firstMissed === null || due < row.firstMissed) [row.firstMissed, row.missedRow] = [due, rowAfter(run, count, due)];
  }
  const computed = computedOf(run, count, isOver);
  return [...rows.values()].map((row) => summedUp(row, computed.get(row.at) ?? 0, now));
}

/** The first row after a moment. @param {Run} run @param {number} count @param {number} moment */
const rowAfter = (run, count, moment) => 1 + lastWhere(count, (it) => run.momentAt(it) <= moment);

/** The row by which the next deadline is missed; null where none is. @param {Run} run @param {number} count @param {number} row */
export function nextMissed(run, count, row) {
  const due = jobsOf(run, count).flatMap((it) => it.dues).reduce((least, it) => (it >= run.momentAt(row) ? Math.min(least, it) : least), Infinity);
  return due === Infinity ? null : rowAfter(run, count, due);
}

/** How many deadlines are missed up to a row. @param {Run} run @param {number} count */
export function missedIn(run, count) {
  return jobsOf(run, count).reduce((sum, it) => sum + it.missed, 0);
}

/** How many deadlines are missed up to a row, and which first, in a sentence; nothing where none is, or more of the run is still to come.
 * @param {Run} run @param {number} count @param {import("./account.js").Names} names */
export function missedText(run, count, names) {
  if (run.isFilling || limitsOf(run.bench).size === 0) return "";
  const [first] = jobsOf(run, count).filter((it) => it.missed > 0).sort((one, other) => Number(one.firstMissed) - Number(other.firstMissed));
  const missed = missedIn(run, count);
  return first === undefined ? "" : `${counted(missed, "deadline")} ${missed === 1 ? "is" : "are"} missed${missed === 1 ? "" : ", the first one"} at ${took(Number(first.firstMissed), 100)}, `
    + `by ${names.job(first.at) ?? octal(first.at, 5)}.`;
}

/** The jobs that are alive at a row and past their deadlines, in the order in which they began. @param {Run} run @param {number} row */
export function lateAt(run, row) {
  const { lanes: { jobs }, bench } = run;
  const limits = limitsOf(bench);
  const late = [];
  for (let id = 1; limits.size > 0 && id < jobs.count && jobs.born.items[id] >> 1 <= row; id++) {
    const [at, born, gone] = [jobs.at.items[id], jobs.born.items[id] >> 1, jobs.gone.items[id] >> 1];
    const due = run.momentAt(born) + (limits.get(at) ?? Infinity);
    if ((gone === 0 || gone > row) && run.momentAt(row) > due) late.push({ at, born, due });
  }
  return late;
}

/** What the jobs of each address have computed up to a row, and in what is left of a run that is over. @param {Run} run @param {number} count @param {boolean} isOver */
function computedOf(run, count, isOver) {
  /** @type {Map<number, number>} */
  const computed = new Map();
  const [{ left }, [lane]] = [run.columns, run.lanes.logs.set];
  for (let entry = 0; entry < lane.count && lane.keys.items[entry] <= 2 * count + 1; entry++) {
    const block = run.lanes.block(0, entry);
    if (block?.state !== State.RUNS) continue;
    const isLast = block.to === 0 || block.to > 2 * count + 1;
    const last = isLast ? count : block.to >> 1;
    let sum = isLast && isOver && run.costs.has(block.now) ? left.items[count] : 0;
    for (let row = (block.from >> 1) + 1; row <= last; row++) sum += usedBefore(run, row, run.costs.has(block.now));
    computed.set(block.at, sum + (computed.get(block.at) ?? 0));
  }
  return computed;
}

/** What the running job computed before a row: the rest of a centisecond, where it has a cost, or up to its own request. @param {Run} run @param {number} row @param {boolean} hasCost */
function usedBefore(run, row, hasCost) {
  if (run.whoAsked(row) !== "the clock") return 0;
  if (run.lines[row] !== "tick") return run.momentAt(row) - run.momentAt(row - 1);
  return hasCost ? run.columns.left.items[row - 1] : 0;
}

/** @param {Run} run @param {number} at @param {number} priority */
function rowOf({ bench }, at, priority) {
  const given = bench.job.find((it) => parseInt(it.at, 8) === at);
  return { at, priority, period: periodOf(bench, octal(at, 5)), cost: given?.cost ?? null, deadline: given?.deadline ?? null, began: 0, ended: 0, lost: 0, alive: 0,
    least: 0, mean: 0, most: 0, share: 0, missed: 0, dues: /** @type {number[]} */ ([]), firstMissed: null, missedRow: 0, responses: /** @type {number[]} */ ([]) };
}

/** @param {JobRow & { responses: number[] }} row @param {number} computed @param {number} now @returns {JobRow} */
function summedUp({ responses, ...row }, computed, now) {
  const ended = responses.length;
  const sum = responses.reduce((all, it) => all + it, 0);
  return { ...row, ended, least: ended === 0 ? 0 : Math.min(...responses), mean: Math.floor(sum / Math.max(1, ended)),
    most: Math.max(0, ...responses), share: now === 0 ? 0 : computed / now };
}
