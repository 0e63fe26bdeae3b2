/**
 * What each exercise asks for: its fields, and the answers, which the machine finds. A field has a label and, where one of
 * a few is right, its options; an answer is a text, and where it is a number or addresses, spelled in any way; and what a
 * wrong one would mean is said by the numbers of the run, without the right one.
 *
 * @typedef {import("./run.js").Run} Run
 * @typedef {{ label: string, options?: string[], size?: number, isRounded?: boolean, answer: (run: Run) => { value: string, row?: number },
 *   means?: (run: Run, given: string) => string }} Field
 */
import { Machine } from "../libagc/js/machine.js";
import { readBench, requestsOf } from "./bench.js";
import { runOf } from "./clock.js";
import { loadOf } from "./job-table.js";
import { jobsOf, missedIn, missedText, periodOf, withPriority } from "./jobs.js";
import { NO_SOURCE } from "./run.js";
import { namesOf } from "./state.js";
import { firstsOf } from "./sweep.js";
import { octal, seconds, took } from "./words.js";
import { countsOf } from "./work.js";

const CODES = ["none", "1201", "1202", "1203"];

/** The whole run of a document. @param {string} text */
export function whole(text) {
  const bench = readBench(text);
  return runOf(bench, requestsOf(bench), { source: { ...NO_SOURCE, document: text } }, Infinity);
}

/** The whole run of a document, with a change of its text. @param {Run} run @param {(text: string) => string} change */
const changed = (run, change) => whole(change(run.source.document));

/** @param {Run} run */
function first(run) {
  const [row] = run.alarms;
  return row === undefined ? { row: run.count, code: "none", ticks: "none", time: "none", request: "none" }
    : { row, code: octal(run.columns.numbers.items[row], 4), ticks: String(run.ticksAt(row)), time: (run.ticksAt(row) / 100).toFixed(2), request: String(row) };
}

/** @param {(found: ReturnType<typeof first>) => string} part @param {(text: string) => string} [change] */
const ofFirst = (part, change) => (/** @type {Run} */ run) => {
  const found = first(change === undefined ? run : changed(run, change));
  // (the rows of a changed run aren't shown)
  return { value: part(found), row: change === undefined ? found.row : undefined };
};

/** A row with its tables. @param {Run} run @param {number} row */
const shown = (run, row) => run.show(row, row)[0];

/** How full the tables are at a row, and whether an alarm has come. @param {Run} run @param {number} row @param {string} when */
function roomAt(run, row, when) {
  const [alarm = Infinity, second] = run.alarms;
  if (row === second) return "That is the second alarm.";
  if (!Number.isInteger(row) || row < 1 || row > run.count) return "There is no such request.";
  const { sets, areas, tasks } = run.useAt(row);
  return row > alarm ? `By ${when} an alarm has come.` : `After ${when}: ${sets} of ${run.sets} core sets, ${areas} of 5 areas, ${tasks} of 9 tasks, and no alarm yet.`;
}

/** What a request means, or a time in centiseconds or seconds. */
const meansRow = (/** @type {any} */ change) => (/** @type {Run} */ run, /** @type {string} */ given) => roomAt(change === undefined ? run : changed(run, change), Number(given), `request ${given}`);
const meansTime = (/** @type {number} */ unit, /** @type {any} */ change) => (/** @type {Run} */ run, /** @type {string} */ given) => {
  const now = change === undefined ? run : changed(run, change);
  const ticks = Math.round(unit * Number(plainly(given)));
  const [, second] = now.alarms;
  return second !== undefined && now.ticksAt(second) === ticks ? "That is the time of the second alarm."
    : Number.isNaN(ticks) ? "" : roomAt(now, Math.max(1, now.rowAtTime(ticks + 1, now.count) - 1), unit === 1 ? `tick ${given}` : seconds(ticks));
};

/** What an alarm's code would mean. @param {Run} run @param {string} given @param {(text: string) => string} [change] */
function meansCode(run, given, change) {
  const now = change === undefined ? run : changed(run, change);
  const [sets, areas, tasks] = countsOf(now, now.count).used;
  const most = (/** @type {number} */ used, /** @type {number} */ all) => (used < all ? `; here at most ${used}` : "");
  return `${given} would mean that ${{ 1201: `all five areas are owned${most(areas, 5)}`, 1202: `all core sets are taken, and that an area is free or isn't wanted${most(sets, now.sets)}`,
    1203: `nine tasks wait already${most(tasks, 9)}` }[given] ?? "each request finds room"}.`;
}

/** Who runs after a row. @param {Run} run @param {number} row @param {string} when */
function runsAt(run, row, when) {
  if (!Number.isInteger(row) || row < 1 || row > run.count) return "";
  const { scene: { running }, jobsFrom } = shown(run, row);
  return `${when} ${running === 0 ? "no job" : namesOf(run).job(jobsFrom[0]) ?? `job ${running}`} runs.`;
}

/** What addresses mean that don't all begin again. @param {Run} run @param {string} given @param {string[]} right */
function meansAgain(run, given, right) {
  const all = plainly(given).split(" "), wrong = all.filter((it) => /^[0-7]{5}$/.test(it) && !right.includes(it));
  return wrong.length > 0 ? `${wrong.join(", ")}: no phase that is set names ${wrong.length === 1 ? "it" : "them"} here.` : all.some((it) => right.includes(it)) ? "That is right, but not all." : "";
}

/** What begins again after the first alarm, or with power: jobs or tasks, by address. @param {Run} run @param {"sets" | "tasks"} of */
function again(run, of) {
  const { scene, after } = shown(run, run.alarms[0] ?? 0);
  return (after ?? scene)[of].flatMap((it) => (it === null ? [] : [octal(it.at, 5)])).sort();
}

/** @param {Run} run @param {string} without @param {"sets" | "tasks"} of */
function lostWithout(run, without, of) {
  const left = again(changed(run, (text) => text.replace(new RegExp(`"${without}",\\s*`), "")), of);
  return { value: again(run, of).filter((it) => !left.includes(it)).join(", ") || "none", row: run.alarms[0] };
}

/** How often this is put in before the request that raises the alarm, until none comes, or at most so often, with where it comes then. @param {Run} run @param {string} line */
function least(run, line, most = Infinity) {
  const { bench, alarms } = run;
  for (let [count, lines] = [0, bench.script]; ; count++) {
    const now = runOf({ ...bench, script: lines }, requestsOf({ ...bench, script: lines }), {}, Infinity);
    const [row] = now.alarms;
    if (row === undefined || count >= most) return { value: String(count), row: alarms[0], next: row };
    lines = [...lines.slice(0, row - 1), line, ...lines.slice(row - 1)];
  }
}

/** How often a line is put in. @param {string} label @param {string} line @returns {Field} */
const leastOf = (label, line) => ({ label, answer: (run) => least(run, line), means: (run, given) => {
  const { next } = least(run, line, Number(given));
  return next === undefined ? "That is enough; but fewer are, too." : `With ${given} more “${line}” the alarm comes still, in request ${next}.`;
} });

/** The shortest of all orders in which an alarm comes: how many requests, and which. @param {Run} run */
function shortest({ bench }) {
  const scripts = bench.worker.map((it) => it.script);
  let reached = [{ machine: new Machine({ sets: bench.sets ?? 7, plan: { task: bench.task, phase: bench.phase } }), at: scripts.map(() => 0) }];
  for (let count = 1; reached.length > 0; count++) {
    const next = new Map();
    for (const { machine, at } of reached) for (const [k, script] of scripts.entries()) {
      if (at[k] >= script.length) continue;
      const copy = machine.copy();
      const step = copy.ask(script[at[k]]);
      if (step.alarm !== 0) return { count: String(count), code: octal(step.number, 4) };
      const there = at.map((it, n) => it + (n === k ? 1 : 0));
      next.set(`${there} ${copy.words}`, { machine: copy, at: there });
    }
    reached = [...next.values()];
  }
  return { count: "none", code: "none" };
}

/** The greatest number below this one with which all goes well, found by halving. @param {number} most @param {(number: number) => import("./bench.js").Bench} benchOf @param {"alarm" | "missed"} what may not come */
function greatest(most, benchOf, what) {
  let [good, bad] = [0, most];
  while (bad - good > 1) {
    const middle = (good + bad) >> 1;
    if (firstOf(benchOf(middle))[what] === null) good = middle;
    else bad = middle;
  }
  return good;
}

/** What comes first with a document. @param {import("./bench.js").Bench} bench */
function firstOf(bench) {
  const steps = firstsOf(bench);
  let step = steps.next();
  while (!step.done) step = steps.next();
  return step.value;
}

/** The greatest percentage that may be stolen without an alarm in so many seconds. @param {string} label @param {number} seconds @returns {Field} */
const mostStolen = (label, seconds) => ({ label, answer: ({ bench }) => ({ value: String(greatest(100, (steal) => ({ ...bench, steal, seconds }), "alarm")) }), means: ({ bench }, given) => {
  const steal = Math.round(Number(plainly(given)));
  if (!(steal >= 0 && steal <= 100)) return "";
  const { alarm: found } = firstOf({ ...bench, steal, seconds });
  return found === null ? `With ${given} % none comes; and with more?` : `With ${given} % alarm ${octal(found.code, 4)} comes at ${took(100 * found.time)}.`;
} });

/** What comes of so many seconds for the last job. @param {Run} run @param {string} given */
function meansNeeded({ bench }, given) {
  const cost = Math.round(100 * Number(plainly(given)));
  if (!(cost > 0 && cost <= 1_000_000)) return "";
  const { missed } = firstOf({ ...bench, job: [...bench.job.slice(0, -1), { ...bench.job[bench.job.length - 1], cost }] });
  return missed === null ? `With ${given} s none is missed; and with more?` : `With ${given} s one is missed, at ${took(missed.due, 100)}.`;
}

/** How many seconds the last job may need, and none misses a deadline. @param {Run} run */
const mostNeeded = ({ bench }) => greatest(1000, (cost) => ({ ...bench, job: [...bench.job.slice(0, -1), { ...bench.job[bench.job.length - 1], cost }] }), "missed") / 100;

/** All orders of some names. @param {string[]} names @returns {string[][]} */
const ordersOf = (names) => (names.length < 2 ? [names] : names.flatMap((it) => ordersOf(names.filter((one) => one !== it)).map((rest) => [it, ...rest])));
const ORDERS = ordersOf(["autopilot", "guidance", "display"]);

/** The order of priorities, the greatest first, by which no deadline is missed. @param {Run} run */
function goodOrder({ bench }) {
  return ORDERS.find((it) => missed(ranked(bench, it)) === "0")?.join(", ") ?? "none";
}

/** A run in which these are the more urgent, the earlier they stand. @param {import("./bench.js").Bench} bench @param {string[]} order */
const ranked = (bench, order) => runOf(order.reduce((made, name, k) => ({ ...made, ...withPriority(made, bench.job.find((it) => it.name === name)?.at ?? "", 30 - k) }), bench), [], {}, Infinity);

/** When the jobs of this name end, or first don't in time. @param {Run} run @param {string} given */
function meansLate(run, given) {
  const row = jobsOf(run, run.count).find((it) => namesOf(run).job(it.at) === given);
  return row === undefined || row.deadline === null ? "" : row.missed === 0 ? `Each ${given} ends in time: after ${took(row.most, 99)} at most, of ${seconds(row.deadline)}.` : `The ${given} is late, too, but not at first.`;
}

/** Whose load this is, of those that are asked for together. @param {Run} run @param {string} given */
function meansLoad(run, given) {
  const one = run.bench.job.find(({ at, cost }) => typeof cost === "number" && Math.round((100 * cost) / (periodOf(run.bench, at) ?? Infinity)) === Math.round(Number(plainly(given))));
  return one === undefined ? "" : `That is what ${one.name} asks for alone.`;
}

/** How many jobs were counted. @param {Run} run @param {string} given */
function meansMissed(run, given) {
  const one = jobsOf(run, run.count).find((it) => it.began === Number(given));
  return one !== undefined ? `So many ${namesOf(run).job(one.at)} jobs begin: does none of them end in time?` : given === "0" ? "Then each of them would end in time." : "";
}

/** @param {Run} run @param {(running: number, before: number) => boolean} holds */
function rowWhere(run, holds) {
  const rows = run.show(0, run.count);
  const found = rows.find((it, k) => k > 0 && holds(it.scene.running, rows[k - 1].scene.running));
  return { value: String(found?.row ?? "none"), row: found?.row };
}

/** The job that misses a deadline first. @param {Run} run */
const lateFirst = (run) => jobsOf(run, run.count).filter((it) => it.missed > 0).sort((one, other) => one.missedRow - other.missedRow)[0];

/** @param {Run} run */
const missed = (run) => String(missedIn(run, run.count));

const misses = (/** @type {string} */ label) => ({ label, means: meansMissed, answer: (/** @type {Run} */ run) => ({ value: missed(run), row: lateFirst(run)?.missedRow }) });
const late = (/** @type {string} */ label, /** @type {string[]} */ options) => ({ label, options, means: meansLate,
  answer: (/** @type {Run} */ run) => ({ value: namesOf(run).job(lateFirst(run)?.at ?? 0) ?? "none", row: lateFirst(run)?.missedRow }) });
const load = (/** @type {string} */ label, /** @type {(run: Run) => Run} */ of = (run) => run) => ({ label, isRounded: true, means: meansLoad, answer: (/** @type {Run} */ run) => ({ value: String(loadOf(of(run))) }) });
const alarm = (/** @type {string} */ label, /** @type {any} */ change) => ({ label, options: CODES, answer: ofFirst((it) => it.code, change),
  means: (/** @type {Run} */ run, /** @type {string} */ given) => meansCode(run, given, change) });
const request = (/** @type {string} */ label, /** @type {any} */ change) => ({ label, answer: ofFirst((it) => it.request, change), means: meansRow(change) });
const tick = (/** @type {string} */ label, /** @type {any} */ change) => ({ label, answer: ofFirst((it) => it.ticks, change), means: meansTime(1, change) });
const begins = (/** @type {string} */ label, /** @type {"sets" | "tasks"} */ of, /** @type {any} */ change) => ({ label, size: 14,
  answer: (/** @type {Run} */ run) => ({ value: again(change === undefined ? run : changed(run, change), of).join(", "), row: change === undefined ? run.alarms[0] : undefined }),
  means: (/** @type {Run} */ run, /** @type {string} */ given) => meansAgain(run, given, again(change === undefined ? run : changed(run, change), of)) });
const lost = (/** @type {string} */ label, /** @type {string} */ without, /** @type {"sets" | "tasks"} */ of) => ({ label, answer: (/** @type {Run} */ run) => lostWithout(run, without, of),
  means: (/** @type {Run} */ run, /** @type {string} */ given) => (again(run, of).includes(plainly(given)) ? "It begins again all the same." : "That isn't there after the alarm, with or without.") });
const turn = (/** @type {string} */ label, /** @type {(running: number, before: number) => boolean} */ holds) => ({ label, answer: (/** @type {Run} */ run) => rowWhere(run, holds),
  means: (/** @type {Run} */ run, /** @type {string} */ given) => runsAt(run, Number(given), `After request ${given}`) });

const eight = (/** @type {string} */ text) => `sets = 8\n${text}`;
const mended = (/** @type {string} */ text) => text.replace("77762", "77772");
const four = (/** @type {string} */ text) => text.replaceAll("300", "400");
const saved = (/** @type {string} */ text) => text.replace('"phase 5 1"', '"phase 3 1", "phase 5 1"');

/** @type {Record<string, { hint: string, fields: Field[] }>} */
export const EXERCISES = {
  "exercise-1": { hint: "Each findvac takes a core set and an area, each novac a core set alone; each end frees what the running job holds.",
    fields: [request("Which request is one too many?"), alarm("Which alarm?")] },
  "exercise-2": { hint: "A job that sleeps keeps its core set. Go through the script and note who sleeps.", fields: [
    { label: "How many core sets do sleepers hold?", answer: (run) => ({ value: String(shown(run, run.alarms[0]).scene.sets.filter((it) => it?.asleep).length), row: run.alarms[0] }),
      means: (run, given) => (given === "7" ? "That is all of them: how many of these sleep?" : given === String(shown(run, run.alarms[0]).scene.sets.filter((it) => it?.asleep === false).length) ? "So many are held by jobs that run or wait." : "") },
    { label: "Since which request does the first job hold its set?", answer: (run) => ({ value: String(Math.min(...shown(run, run.alarms[0]).jobsSince.map((it) => it >> 1))), row: run.alarms[0] }),
      means: (run, given) => (shown(run, run.alarms[0]).jobsSince.some((it) => it >> 1 === Number(given)) ? "Since then another job holds one, which came later." : "No job is alive at the alarm that began then.") }] },
  "exercise-3": { hint: "findvac looks for a VAC area first, and then for a core set.",
    fields: [alarm("Which alarm now?"), alarm("And with a free area?", (/** @type {string} */ text) => text.replace("findvac", "novac"))] },
  "exercise-4": { hint: "Each pass leaves one job more. How many core sets are missing in the last pass?",
    fields: [leastOf("How many more ends?", "end")] },
  "exercise-5": { hint: "A place is free again when the first task fires: which has the shortest delay?",
    fields: [request("Which request doesn't fit?"), leastOf("How many ticks before it, at least?", "tick")] },
  "exercise-6": { hint: "Only what a [[phase]] table names begins again, and only if its group is in that phase.", fields: [
    begins("Which jobs are there after the alarm? Addresses", "sets"), begins("Which tasks?", "tasks"), lost("Without phase 3 2: which job is lost?", "phase 3 2", "sets"),
    lost("Without phase 1 1: which job?", "phase 1 1", "sets"), lost("And which task?", "phase 1 1", "tasks")] },
  "exercise-7": { hint: "A new job never interrupts: look for the request by which the running job lets another one run.", fields: [
    turn("Which request makes job 2 run?", (now) => now === 2),
    { label: "How many requests after it was established?", answer: (run) => ({ value: String(Number(rowWhere(run, (now) => now === 2).value) - 3), row: 3 }),
      means: (run, given) => runsAt(run, 3 + Number(given), `So many requests after request 3`) },
    turn("After which request does job 1 run again?", (now, before) => now === 1 && before !== 1 && before !== 0)] },
  "exercise-8": { hint: "Three sleepers leave four core sets of seven, or five of eight; and there are five areas.", fields: [
    alarm("Seven sets: which alarm?"), tick("Seven sets: at which tick?"), request("Seven sets: in which request?"),
    alarm("Eight sets: which alarm?", eight), tick("Eight sets: at which tick?", eight), request("Eight sets: in which request?", eight)] },
  "exercise-9": { hint: "How many areas do both threads hold together if neither has ended a job yet?", fields: [
    alarm("All of worker 1, then all of worker 2: which alarm?"), { label: "In another order?", options: CODES, answer: (run) => ({ value: shortest(run).code }) },
    { label: "After how many requests, at least?", answer: (run) => ({ value: shortest(run).count }),
      means: (run, given) => (Number(given) < Number(shortest(run).count) ? `After so many requests at most ${given} of the five areas are owned.` : "It can come sooner than that.") }] },
  "exercise-10": { hint: "The job needs 80 % of each second. What is left over each second with 21 %, and how much fills five areas?", fields: [
    mostStolen("Two minutes: the greatest percentage without an alarm?", 120), mostStolen("Ten minutes?", 600)] },
  "exercise-11": { hint: "Turn over every bit of the second word of a line: 0 becomes 7, 1 becomes 6. Is it the first?", fields: [
    { label: "Which group's words are damaged?", answer: ({ bench }) => ({ value: String(1 + [0, 1, 2, 3, 4, 5].findIndex((k) => parseInt(bench.power?.[2 * k] ?? "", 8) + parseInt(bench.power?.[2 * k + 1] ?? "", 8) !== 0o77777)) }),
      means: ({ bench: { power = [] } }, given) => (power[2 * Number(given) - 1] === undefined ? "" : `${power[2 * Number(given) - 2]} is the complement of ${power[2 * Number(given) - 1]}.`) },
    begins("Mended: which jobs begin again? Addresses", "sets", mended), begins("Which task?", "tasks", mended)] },
  "exercise-12": { hint: "Of each two seconds 1.6 + 2 × 0.3 are asked for. Where do the display's jobs wait, and who begins again?", fields: [
    { label: "How many alarms?", answer: (run) => ({ value: String(run.alarms.length), row: run.alarms[0] }) },
    { label: "The first one: when, in seconds?", answer: ofFirst((it) => it.time), means: meansTime(100) }, alarm("Which alarm?"),
    { label: "With a phase for the display: how many?", answer: (run) => ({ value: String(changed(run, saved).alarms.length) }) }] },
  "exercise-13": { hint: "How many telemetry jobs are asked for while the guidance computes for 1.3 s, and when does each of them end?", fields: [
    load("What do both ask for, in percent?"), late("Which is late?", ["guidance", "telemetry"]), misses("How many deadlines are missed?"),
    { label: "With novac 30: how many?", answer: (run) => ({ value: missed(changed(run, (text) => text.replace("novac 10", "novac 30"))) }) }] },
  "exercise-14": { hint: "While a job of a long period computes, how many of a short one are asked for? Who can wait longest?", fields: [
    late("Which is late first?", ORDERS[0]),
    { label: "When does its first one end, in seconds?", answer: (run) => ({ value: (run.momentAt(run.lanes.jobs.gone.items[1] >> 1) / 10_000).toFixed(2), row: lateFirst(run)?.missedRow }),
      means: (run, given) => runsAt(run, run.rowAtTime(Math.round(100 * Number(plainly(given))), run.count), `At ${given} s`) },
    { label: "By which order is none, the most urgent first?", options: ORDERS.map((it) => it.join(", ")), answer: (run) => ({ value: goodOrder(run) }),
      means: ({ bench }, given) => { const run = ranked(bench, given.split(", ")); return `Then ${missedText(run, run.count, namesOf(run))}`; } }] },
  "exercise-15": { hint: "Both are asked for at once, and the guidance a second time after two seconds. What is left to the tracking before three are over?", fields: [
    load("What do both ask for, in percent?"), misses("How many deadlines are missed?"),
    { label: "None is missed if the tracking needs, in seconds, at most?", answer: (run) => ({ value: mostNeeded(run).toFixed(2) }), means: meansNeeded },
    load("Which load is that, in percent?", (run) => whole(run.source.document.replace("cost = 120", `cost = ${100 * mostNeeded(run)}`))),
    { label: "And every four seconds, at most?", answer: (run) => ({ value: mostNeeded(changed(run, four)).toFixed(2) }),
      means: (run, given) => meansNeeded(changed(run, four), given) }] },
};

/** What a class may type for the same: without zeros at the ends of a number or before an address, in any order of addresses. @param {string} text */
export function plainly(text) {
  const addresses = text.match(/(?<![.,0-9])[0-7]{4,5}(?![0-9])/g);
  if (addresses !== null) return addresses.map((it) => it.padStart(5, "0")).sort().join(" ");
  const number = /^[0-9]+([.,][0-9]+)?( ?(s|%|cs))?$/.test(text.trim()) ? parseFloat(text.replace(",", ".")) : NaN;
  return Number.isNaN(number) ? text.trim().toLowerCase() : String(number);
}
