/**
 * The state of the page: one frozen value. An action makes the next one of it, by name; a view
 * draws what differs between the two. Nothing else is kept but what a view has drawn.
 *
 * @typedef {{
 *   run: import("./run.js").Run, count: number, at: number, isAfter: boolean,
 *   seen: { from: number, to: number } | null,
 *   clock: { isRunning: boolean, speed: number | null },
 *   dialog: { name: string, given?: any, fault?: string } | null,
 *   touched: { list: string, k: number } | null,
 *   opened: string[], swept: string[], selection: import("./drawing.js").Selection | null,
 *   built: string | null,
 *   isEditing: boolean, isProjected: boolean, isEmbedded: boolean,
 *   before: { run: import("./run.js").Run, count: number } | null,
 *   hidden: import("./run.js").Source[], predicted: string[],
 *   history: import("./history.js").History,
 *   moved: { slider: string, run: any, at: number },
 *   edited: import("./run.js").Run | null,
 *   note: { run: any, at: number, text: string }, said: { run: any, at: number, text: string },
 *   tour: { step: number, left: number, tried: { name: string, run: import("./run.js").Run }[] },
 *   kept: { kind: string, name: string, text: string }[], own: string,
 * }} State
 * `at` is the row that is shown, and `isAfter` says that its tables are those after its restart.
 * `seen` is the part of the run on the chart: all of it where it is null. `built` is the document of the form of New. `hidden` are the
 * exercises whose answers aren't shown yet.
 */
import { Names } from "./account.js";
import { Colours } from "./colours.js";
import { Rows, Run, afterOf } from "./run.js";
import { Scale } from "./drawing-scale.js";

const page = {
  now: /** @type {State} */ (/** @type {any} */ (null)),
  views: /** @type {((now: State, before: State) => void)[]} */ ([]),
  actions: /** @type {Record<string, (now: State, ...given: any[]) => Partial<State> | void>} */ ({}),
  settled: /** @type {(now: State) => Partial<State> | null} */ (() => null),
};

export function state() {
  return page.now;
}

/** Begins with a state, the actions, what follows of itself after each, and the views, in the order in which they are drawn. */
export function begin(/** @type {State} */ first, /** @type {Partial<typeof page>} */ more) {
  Object.assign(page, { now: Object.freeze(first), ...more });
  drawAgain();
}

/** @param {Partial<State> | void} change */
export function set(change) {
  if (!change) return;
  const before = page.now;
  const now = { ...before, ...change };
  page.now = Object.freeze({ ...now, ...page.settled(now) });
  for (const view of page.views) view(page.now, before);
}

/** @param {string} name @param {...any} given */
export function act(name, ...given) {
  set(page.actions[name](page.now, ...given));
}

/** @param {string} name */
export function isAction(name) {
  return name in page.actions;
}

/** Draws everything once more, as for another size of the window. */
export function drawAgain() {
  for (const view of page.views) view(page.now, /** @type {any} */ ({}));
}

/** What is worked out of a run once. @template T @param {(run: Run) => T} made @returns {(run: Run) => T} */
function once(made) {
  const found = new WeakMap();
  return (run) => {
    if (!found.has(run)) found.set(run, made(run));
    return found.get(run);
  };
}

export const rowsOf = once((run) => new Rows(run));
const namesOfBench = once((/** @type {any} */ bench) => new Names(bench));
/** @param {Run} run */
export const namesOf = (run) => namesOfBench(/** @type {any} */ (run.bench));
const coloursOfDocument = once((/** @type {any} */ bench) => new Colours(bench, new Names(bench)));

/** The colours of a document's jobs: the same in each run of it. @param {Run} run */
export function coloursOf(run) {
  const colours = coloursOfDocument(/** @type {any} */ (run.given));
  colours.see(run.lanes);
  return colours;
}

/** Whether an exercise's answer is hidden still. @param {State} now */
export function isHidden({ hidden, run }) {
  return hidden.includes(run.source);
}

/** A row, or if it would answer a hidden exercise, the same row without what came of it. @param {State} now @param {number} row */
export function rowOf(now, row) {
  const shown = rowsOf(now.run).at(row);
  const { bench } = now.run;
  if (!isHidden(now) || row > 0 || bench.power === undefined) return shown;
  const plain = rowsOf(new Run({ ...bench, power: undefined })).at(0);
  return { ...plain, line: shown.line, reply: "not shown yet" };
}

/** What is shown of the row: as it was answered, or after the restart that it ended with. @param {State} now */
export function shownOf(now) {
  return now.isAfter ? afterOf(rowsOf(now.run).at(now.at)) : rowOf(now, now.at);
}

/** The tables as they are when the row is over. @param {State} now */
export function sceneAfter(now) {
  const shown = shownOf(now);
  return shown.after ?? shown.scene;
}

/** Which part of the run is seen. @param {State} now */
export function scaleOf({ run, count, seen }) {
  const scale = new Scale(run, count);
  if (seen !== null) scale.see(seen.from, seen.to);
  return scale;
}

/** What a row's note or answer says, as long as that row is shown. @param {State} now @param {"note" | "said"} name */
export function textOf(now, name) {
  const { run, at, text } = now[name];
  return run === now.run && at === now.at ? text : "";
}

/** Whether any of these fields differs. @param {State} now @param {State} before @param {(keyof State)[]} fields */
export function differ(now, before, ...fields) {
  return fields.some((it) => now[it] !== before[it]);
}
