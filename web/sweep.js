/**
 * When the first alarm of a scenario comes, and its first deadline is missed, for each value of one of its numbers, as
 * `agc_watch sweep` and `jobs` report it. The machine runs alone, without what a run keeps of each request.
 *
 * @typedef {import("./bench.js").Bench} Bench
 * @typedef {{ code: number, time: number } | null} Alarm its number, and its centisecond
 * @typedef {{ at: number, due: number } | null} Missed where a job began, and when it had to end, in hundredths of a centisecond
 * @typedef {{ alarm: Alarm, missed: Missed }} Firsts
 */
import { Clock, Kind, Machine } from "../libagc/js/machine.js";
import { limitsOf } from "./jobs.js";

/** How many centiseconds pass between two rests, in which the page goes on answering; and how many values are tried at most. */
const [STRETCH, MOST_VALUES] = [1_000, 101];

/** The deadlines of jobs that are alive, up to the first that is missed. */
class Deadlines {
  /** @type {Map<number, { at: number, due: number }>} */
  alive = new Map();
  next = Infinity;
  /** @type {Missed} */
  missed = null;

  /** @param {Bench} bench */
  constructor(bench) {
    this.limits = limitsOf(bench);
  }

  /** Whether one may be missed still. */
  get isOpen() {
    return this.missed === null && this.limits.size > 0;
  }

  /** A moment comes, and what is there from then on. @param {number} moment @param {import("../libagc/js/machine.js").Job[]} [jobs] @param {boolean} [beginsEra] */
  pass(moment, jobs, beginsEra = false) {
    if (moment > this.next) this.missed ??= [...this.alive.values()].reduce((one, other) => (other.due < one.due ? other : one));
    if (jobs === undefined) return;
    this.alive = new Map(jobs.map((it) => [it.number, (beginsEra ? undefined : this.alive.get(it.number))
      ?? { at: it.at, due: moment + (this.limits.get(it.at) ?? Infinity) }]));
    this.next = Math.min(...[...this.alive.values()].map((it) => it.due));
  }
}

/** The first alarm of a scenario and the first deadline that is missed, which are computed a stretch at a time. @param {Bench} bench @returns {Generator<undefined, Firsts>} */
export function* firstsOf(bench) {
  const { sets = 7, task, phase, power, limit, allowance, seconds, seed, steal, job, event } = bench;
  const machine = new Machine({ sets, plan: { task, phase }, power });
  const clock = new Clock({ seconds, seed, steal, job, event });
  const deadlines = new Deadlines(bench);
  const moment = () => 100 * clock.time - clock.left;
  const jobs = () => machine.scene().sets.flatMap((it) => it ?? []);
  /** @type {Alarm} */
  let alarm = null;
  let [served, logged, ticks] = [0, 0, 0];
  const hasRoom = () => served < allowance && logged < limit;
  deadlines.pass(moment(), jobs(), true);
  while (hasRoom() && clock.time < clock.lasts && (alarm === null || deadlines.isOpen)) {
    machine.run(clock, STRETCH, (asked, step) => {
      served += 1;
      logged = step.beginsEra ? 0 : logged + 1;
      if (asked.name === "tick") ticks += 1;
      if (step.alarm !== 0) alarm ??= { code: step.number, time: ticks };
      const isQuiet = step.kind === Kind.TICKED && step.fired.length === 0;
      if (deadlines.isOpen) deadlines.pass(moment(), isQuiet ? undefined : jobs(), step.beginsEra);
      return hasRoom() && (alarm === null || deadlines.isOpen);
    });
    yield;
  }
  // (a request that isn't served comes at its time)
  if (!hasRoom()) clock.next(machine);
  deadlines.pass(clock.time < clock.lasts ? moment() : 100 * clock.time);
  return { alarm, missed: deadlines.missed };
}

/** The values of a number that are tried: first some that lie far apart, and then those between them. @param {{ min: number, max: number }} number */
export function valuesOf({ min, max }) {
  const step = Math.max(1, Math.ceil((max - min) / (MOST_VALUES - 1)));
  const all = Array.from({ length: Math.floor((max - min) / step) + 1 }, (_, k) => min + step * k);
  const ordered = [];
  for (let gap = 32; gap >= 1; gap /= 2) ordered.push(...all.filter((_, k) => k % gap === 0 && (gap === 32 || k % (2 * gap) !== 0)));
  return ordered;
}
