/**
 * The numbers of the document as sliders: stolen time, what jobs cost, periods, priorities, deadlines, core sets. A slider
 * that is moved asks for its change at once, step by step. And how a run differs from its document,
 * in one line, with since when.
 */
import { outcomeOf } from "./drawing-words.js";
import { AGAIN, missedIn, priorityOf, withPriority } from "./jobs.js";
import { assign, attribute, by, fill, make, set } from "./dom.js";
import { act, differ, isHidden } from "./state.js";
import { partsOf } from "./stolen.js";
import { keepStrips, stripOf, valueText } from "./strips.js";
import { counted, seconds, visible } from "./words.js";

/** The most sliders of jobs and of periods; and the longest delay of a task, in centiseconds. */
const [MOST_COSTS, MOST_PERIODS, MOST_DELAY] = [24, 8, 16250];

/**
 * @typedef {import("./run.js").Run} Run
 * @typedef {import("./state.js").State} State
 * @typedef {{ name: string, own: string, value: number, min: number, max: number, unit: string,
 *   what: string, given: (value: number) => any }} SliderNumber
 */

/** What the sliders are about. */
const WHAT = {
  stolen: "What part of the computing time is taken away from the jobs",
  profile: "What part of the computing time is taken away from the jobs at most: all of the document's profile is scaled to it",
  cost: "How much computing time each such job needs before it ends",
  seed: "With which number lots begin, by which jobs cost more or less",
  period: "After how long it comes again",
  priority: "How urgent it is, 01 to 37 (octal, as the computer has it): of the jobs that are awake the one of the greatest priority runs",
  deadline: "How long it may take from when it is asked for: it changes no run, and says only which jobs are late",
  sets: "How many jobs can be alive at once",
};

/** A slider of a time: up to twice as long as it is. @param {Pick<SliderNumber, "name" | "own" | "value" | "what" | "given">} of @returns {SliderNumber} */
const timed = (of) => ({ min: 1, max: Math.max(400, 2 * of.value), unit: "cs", ...of });

/** How often tasks come that list themselves again, and events that have a period. @param {import("./bench.js").Bench} bench @returns {SliderNumber[]} */
function periodsOf({ job, task, event }) {
  const begins = (/** @type {any} */ row) => job.find((it) => it.name !== undefined && row.action.some((/** @type {string} */ line) => line.split(" ")[2] === it.at))?.name;
  const tasks = task.flatMap((row) => row.action.flatMap((line, n) => {
    const [, every, at, bank] = AGAIN.exec(line) ?? [];
    if (at !== row.at || bank !== row.bank) return [];
    const number = timed({ name: `${visible(begins(row) ?? row.name ?? at)} every`, own: at, value: Number(every), what: WHAT.period,
      given: (value) => ({ task: task.map((one) => (one === row ? { ...row, action: row.action.map((it, k) => (k === n ? `list ${value} ${at} ${bank}` : it)) } : one)) }) });
    return [{ ...number, max: Math.min(MOST_DELAY, number.max) }];
  }));
  const events = event.flatMap((row, k) => (row.every === undefined ? [] : [timed({ name: `${visible(row.name ?? `event ${k + 1}`)} every`, own: `event ${k + 1}`,
    value: row.every, what: WHAT.period, given: (every) => ({ event: event.map((one) => (one === row ? { ...row, every } : one)) }) })]));
  return [...tasks, ...events].slice(0, MOST_PERIODS);
}

/** The jobs of which there are sliders: not those that cost next to nothing, as those that just wait. @param {Run} run */
const shownOf = ({ bench, given }) => bench.job.slice(0, MOST_COSTS).filter((_, k) => given.job[k]?.cost !== 1);

/** With which priority each job is asked for. @param {import("./bench.js").Bench} bench @param {import("./bench.js").JobRow[]} jobs @returns {SliderNumber[]} */
function prioritiesOf(bench, jobs) {
  return jobs.flatMap(({ at, name }) => {
    const value = priorityOf(bench, at);
    return value === null ? [] : [{ name: `${visible(name ?? at)} priority`, own: at, value, min: 1, max: 31, unit: "octal", what: WHAT.priority,
      given: (/** @type {number} */ priority) => withPriority(bench, at, priority) }];
  });
}

/** How long each job may take that has a deadline. @param {import("./bench.js").Bench} bench @param {import("./bench.js").JobRow[]} jobs @returns {SliderNumber[]} */
function deadlinesOf({ job }, jobs) {
  return jobs.flatMap((it) => (it.deadline === undefined ? [] : [timed({ name: `${visible(it.name ?? it.at)} deadline`, own: it.at, value: it.deadline, what: WHAT.deadline,
    given: (deadline) => ({ job: job.map((one) => (one === it ? { ...it, deadline } : one)) }) })]));
}

/** Numbers of one name by more than their names: by whose they are, or if that is said twice, too, by their places. @param {SliderNumber[]} numbers */
function toldApart(numbers) {
  const isTwice = (/** @type {SliderNumber[]} */ all, /** @type {SliderNumber} */ one) =>
    all.filter((it) => it.name === one.name).length > 1;
  const named = numbers.map((it) => (isTwice(numbers, it) ? { ...it, name: `${it.name} (${it.own})` } : it));
  return named.map((it, k) => (isTwice(named, it) ? { ...it, name: `${it.name}, ${k + 1}` } : it));
}

/** The most that rows of stolen time take which come once. @param {import("./bench.js").StealRow[]} rows */
const mostOf = (rows) => Math.max(0, ...partsOf(rows).once.map((it) => it.percent));

/** Stolen time: a percentage; or, of a document that has a profile of it, all of that, by its greatest one, and beats stay. @param {Run} run @returns {SliderNumber} */
function stolenOf({ bench: { steal, seconds: length = 0 }, given: { steal: profile } }) {
  const stolen = { name: "Stolen time", own: "%", min: 0, max: 100, unit: "%", what: WHAT.stolen };
  if (typeof profile === "number") {
    const value = typeof steal === "number" ? steal : partsOf(steal).once.at(-1)?.percent ?? 0;
    return { ...stolen, value, given: (percent) => ({ steal: percent }) };
  }
  const most = mostOf(profile);
  const { once, beats } = partsOf(profile);
  const scaled = (/** @type {number} */ value) => (most === 0 ? [...beats, { from: 0, to: 100 * length, percent: value }]
    : profile.map((it) => (it.every === undefined ? { ...it, percent: Math.round((it.percent * value) / most) } : it)));
  return { ...stolen, ...(once.length > 1 ? { unit: "% at most", what: WHAT.profile } : {}), value: typeof steal === "number" ? steal : mostOf(steal),
    given: (value) => ({ steal: scaled(value) }) };
}

/** The numbers of a run that can be moved. @param {Run} run @returns {SliderNumber[]} */
export function numbersOf(run) {
  const { bench } = run;
  const { seed, job } = bench;
  const stolen = stolenOf(run);
  const costs = shownOf(run).flatMap((it) => (typeof it.cost !== "number" ? [] : [timed({ name: `${visible(it.name ?? it.at)} needs`, own: it.at, value: it.cost,
    what: WHAT.cost, given: (cost) => ({ job: job.map((one) => (one === it ? { ...it, cost } : one)) }) })]));
  const lots = seed === undefined || job.every(({ cost }) => typeof cost === "number") ? [] : [{ name: "Seed", own: "lots", value: seed, min: 1,
    max: Math.max(100, seed), unit: "", what: WHAT.seed, given: (/** @type {number} */ value) => ({ seed: value }) }];
  if (bench.seconds === undefined) return [];
  const sets = { name: "Core sets", own: "7 or 8", value: bench.sets ?? 7, min: 7, max: 8, unit: "", what: WHAT.sets,
    given: (/** @type {number} */ value) => ({ sets: value }) };
  return toldApart([stolen, ...costs, ...lots, ...periodsOf(bench), sets, ...prioritiesOf(bench, shownOf(run)), ...deadlinesOf(bench, shownOf(run))]);
}

/** The sliders that are there, by name: its box, field, output, button, and number. @type {Map<string, { box: any, field: any, output: any, button: any, number: SliderNumber }>} */
const rows = new Map();

/** The slider that is held, and the frame in which it asks. */
const held = { field: /** @type {any} */ (null), due: 0 };

/** @param {SliderNumber} number */
function draw(number) {
  const row = rows.get(number.name);
  if (row === undefined) return;
  row.number = number;
  // (a slider that is held keeps its bounds, and its value until it has asked)
  if (row.field === held.field && held.due !== 0) return;
  if (row.field !== held.field) assign(row.field, { min: String(number.min), max: String(number.max) });
  assign(row.field, { value: String(number.value) });
  tell(row);
}

/** @param {{ field: any, output: any, number: SliderNumber }} row */
function tell({ field, output, number }) {
  const text = valueText(number, Number(field.value));
  set(output, text);
  attribute(field, "aria-valuetext", text);
}

/** @param {SliderNumber} number */
function rowOf(number) {
  const output = make("output", {});
  const { name, min, max, what, value } = number;
  const field = make("input", { type: "range", min, max, step: 1, "aria-label": name });
  field.value = String(value);
  const button = make("button", { type: "button", class: "quiet over", title: "When the first alarm comes, and whether a deadline is missed, over all values",
    "aria-label": `What comes of all values of ${name}`, onclick: () => act("sweep", name) });
  const box = make("div", {}, make("label", { title: what }, make("span", {}, name), field, output), button);
  const row = { box, field, output, button, number };
  rows.set(name, row);
  field.addEventListener("input", () => {
    tell(row);
    held.field = field;
    // (one change a frame: what the hand does in between is passed over)
    if (held.due === 0) held.due = requestAnimationFrame(() => ask(name));
  });
  field.addEventListener("change", () => {
    cancelAnimationFrame(held.due);
    ask(name);
    held.field = null;
  });
  return box;
}

/** The strips under the sliders that have one. @param {State} now */
function drawStrips(now) {
  const { run: { bench }, swept } = now;
  const isSwept = (/** @type {SliderNumber} */ it) => bench.seconds !== undefined && !isHidden(now) && it.own !== "7 or 8";
  keepStrips(swept);
  for (const [name, { box, button, number }] of rows) {
    const isOpen = isSwept(number) && swept.includes(name);
    assign(button, { hidden: !isSwept(number) });
    attribute(button, "aria-expanded", String(isOpen));
    assign(box, { className: isOpen ? "wide-slider" : "" });
    const strip = box.querySelector(".swept");
    if (isOpen) {
      const made = stripOf(bench, number);
      if (made !== strip) box.append(made);
    } else strip?.remove();
  }
}

/** @param {string} name */
function ask(name) {
  held.due = 0;
  const row = rows.get(name);
  const value = Number(row?.field.value);
  if (row !== undefined && value !== row.number.value) act("change", row.number.given(value), name);
}

/** What came of a run, in a line, with the deadlines that were missed where a job has one. @param {Run} run @param {number} count */
function cameOf(run, count) {
  const told = outcomeOf(run, count).replace(/, in request [0-9]+/, "").replace(", the first one:", ", first").replace("at most ", "").replace("core sets", "sets");
  if (run.isFilling || run.bench.job.every((it) => it.deadline === undefined)) return `${told}.`;
  return `${told}; ${counted(missedIn(run, count), "deadline")} missed.`;
}

/** The sliders of a run, what came of it beside what was, and how it differs from its document. @param {State} now @param {State} before */
export function whatIf(now, before) {
  const { run, count, before: older } = now;
  // (a bench has no time of its own)
  assign(by("clock"), { hidden: run.bench.seconds === undefined });
  if (differ(now, before, "run")) {
    const numbers = numbersOf(run);
    const isSame = numbers.length === rows.size && numbers.every((it) => rows.has(it.name));
    if (!isSame) {
      rows.clear();
      const [priorities, deadlines] = [WHAT.priority, WHAT.deadline].map((what) => numbers.filter((it) => it.what === what));
      const others = numbers.filter((it) => !priorities.includes(it) && !deadlines.includes(it));
      const folded = /** @type {[string, SliderNumber[], boolean][]} */ ([["Priorities", priorities, deadlines.length > 0], ["Deadlines", deadlines, false]]);
      fill("sliders", [...others.map(rowOf), ...folded.flatMap(([name, all, open]) =>
        (all.length === 0 ? [] : [make("details", { open }, make("summary", {}, name), ...all.map(rowOf))]))]);
    }
    numbers.forEach(draw);
    set(by("differs"), differencesOf(run));
  }
  if (differ(now, before, "run", "swept", "hidden")) drawStrips(now);
  if (differ(now, before, "run", "count", "before", "hidden")) {
    const told = isHidden(now) ? [] : older === null ? ["Move a slider to see what changes."]
      : [`Before: ${cameOf(older.run, older.count)}`, `Now: ${cameOf(run, count)}`];
    if (by("outcome").textContent !== told.join(" ")) fill("outcome", told.flatMap((it, k) => [k === 0 ? "" : " ", make("span", {}, it)]));
  }
}

/** @param {import("./bench.js").Bench["steal"]} steal */
const stealText = (steal) => (typeof steal === "number" ? `${steal} %` : `${mostOf(steal)} % at most${partsOf(steal).beats.length > 0 ? ", and its beats" : ""}`);

/** @param {import("./bench.js").JobRow["cost"]} cost */
function costText(cost) {
  return typeof cost === "object" ? `${seconds(cost.from)} to ${seconds(cost.to)}` : seconds(cost);
}

/** How a run differs from its document, in full; nothing where it doesn't. @param {Run} run */
export function differencesOf(run) {
  const { bench, given } = run;
  const found = /** @type {string[]} */ ([]);
  const add = (/** @type {string} */ name, /** @type {string} */ here, /** @type {string} */ there) => found.push(...(here === there ? [] : [`${name} ${here} (document: ${there})`]));
  add("steal", stealText(bench.steal), stealText(given.steal));
  given.job.forEach((it, k) => add(`${visible(it.name ?? it.at)} costs`, costText(bench.job[k].cost), costText(it.cost)));
  add("seed", String(bench.seed), String(given.seed));
  add("core sets", String(bench.sets ?? 7), String(given.sets ?? 7));
  const moved = (/** @type {import("./bench.js").Bench} */ of) => [...periodsOf(of), ...prioritiesOf(of, of.job), ...deadlinesOf(of, of.job)];
  const documents = moved(given);
  for (const it of moved(bench)) {
    const its = documents.find(({ name, own }) => name === it.name && own === it.own);
    if (its !== undefined) add(it.name, valueText(it, it.value), valueText(it, its.value));
  }
  for (const it of given.event) {
    if (!bench.event.some((one) => one.at === it.at && one.name === it.name)) {
      found.push(`without ${visible(it.name ?? `the event at ${seconds(it.at)}`)}`);
    }
  }
  const asked = run.handRows();
  if (asked > 0) found.push(`${asked} asked by hand`);
  return found.length === 0 ? "" : `This run differs from its document: ${found.join("; ")}.`;
}
