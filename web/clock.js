/**
 * How a run's clock goes on: which request comes next is the rule of the module's own clock. A run
 * that is long is filled a stretch at a time, behind what the reader sees.
 *
 * @typedef {import("./bench.js").Bench} Bench
 */
import { Clock } from "../libagc/js/machine.js";
import { MOST_ROWS, Run } from "./run.js";
import { visible } from "./words.js";

/** How many times real time, which the clock may run. */
export const SPEEDS = [0.1, 0.2, 0.5, 1, 2, 5, 10, 20, 50, 100];

/** How long one waits at most for the first alarm, or for the end, in ticks of the reader's time. */
const PATIENCE = 800;

/** How long a run is filled before it is seen, and then between two frames, in milliseconds; and by how many requests at once, so
 * that on a slow processor no frame waits for long either. */
const [AT_ONCE, BETWEEN, SOME] = [24, 10, 500];

/** The longest time that a run has, in seconds, where no scenario says it. */
const LONGEST = 86_400;

/** Who asks for what the clock gives: an event by its name or number, or the clock itself. @param {Run} run @param {number | null} event */
function whoOf(run, event) {
  return event === null ? "the clock" : `event ${visible(run.bench.event[event]?.name ?? String(event + 1))}`;
}

/** A run of a bench with a clock, of which nothing has been asked. @param {Bench} bench @param {any} more its title and document */
export function begunOf(bench, more = {}) {
  const { seconds: length, seed, steal, job, event } = bench;
  const run = Object.assign(new Run(bench), more);
  run.startClock(new Clock({ seconds: length ?? LONGEST, seed, steal, job, event }));
  return run;
}

/**
 * A run of a bench, with a clock, in which these requests were asked. A scenario's time passes up to
 * `until`, and on for a moment: what is left comes in the background.
 * @param {Bench} bench @param {Iterable<[string, string]>} requests each line, and who asks it
 * @param {any} [more] @param {number} [until] in ticks
 */
export function runOf(bench, requests, more = {}, until = 0) {
  const run = begunOf(bench, more);
  for (const [line, who] of requests) run.ask(line, who);
  if (bench.seconds !== undefined) fill(run, until);
  return run;
}

/** Lets time pass up to here, and on for a moment. @param {Run} run @param {number} until */
export function fill(run, until) {
  run.isFilling = true;
  while (run.isFilling && run.head.now < until) run.isFilling = !passTime(run, SOME);
  fillOn(run, AT_ONCE);
}

/** Goes on with filling for some milliseconds. @param {Run} run */
export function fillOn(run, most = BETWEEN) {
  const begun = performance.now();
  while (run.isFilling && performance.now() - begun < most) run.isFilling = !passTime(run, SOME);
}

/** Lets time pass by at most so many requests. True where it is over. @param {Run} run @param {number} most */
export function passTime(run, most) {
  const left = Math.min(most, MOST_ROWS - run.count);
  if (left <= 0) return true;
  if (run.hasRoomFor(left)) return run.askByClock(left, (it) => whoOf(run, it)) < left;
  for (let k = 0; k < left; k++) if (!step(run)) return true;
  return false;
}

/** Asks what the clock asks for next. False where its time is over. @param {Run} run */
export function step(run) {
  if (run.count >= MOST_ROWS) return false;
  const { clock, machine } = run.head;
  const isFull = !run.hasRoomFor(0);
  const request = (isFull ? clock.copy() : clock).next(machine);
  // (a clock isn't asked for what is refused)
  if (isFull && request !== null && run.refusal(request.text) === 0) clock.next(machine);
  return request !== null && run.ask(request.text, whoOf(run, request.event)) !== null;
}

/** What the clock would ask for next: a copy of it is asked. @param {Run} run @returns {string | undefined} */
export function nextText(run) {
  return run.head.clock.copy().next(run.head.machine)?.text;
}

/** Lets a run's clock pass a centisecond, or goes on to the next change. @param {Run} run @param {"tick" | "event"} what */
export function passOne(run, what) {
  if (what === "event") for (let k = 0; k < 64_000 && step(run) && !run.isChange(run.count); k++);
  else do if (!step(run)) break; while (nextText(run) !== "tick");
}

/** A speed at which something happens soon: the first alarm, if it may be known, or the end. @param {Run} run @param {boolean} isHidden */
export function speedOf(run, isHidden) {
  const [alarm] = isHidden ? [] : run.alarms;
  const { seconds } = run.bench;
  const ticks = seconds === undefined ? 0 : alarm === undefined ? 100 * seconds : run.ticksAt(alarm);
  return SPEEDS.find((it) => it >= 1 && it * PATIENCE >= ticks) ?? 100;
}

/** The run of a document with other numbers. @param {Run} old @param {any} given @param {number} until what is seen at once, in ticks */
export function runWith(old, given, until) {
  const { title, about, source, given: document } = old;
  const requests = old.bench.seconds === undefined ? old.requests(old.count) : [];
  return runOf({ ...old.bench, ...given }, requests, { title, about, source, given: document }, until);
}
