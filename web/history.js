/**
 * What was done on the workbench, to be undone and done again: one value that is never changed.
 *
 * @typedef {import("./run.js").Run} Run
 * @typedef {{ run: Run, count: number, at: number }} View
 * @typedef {{ done: View[], undone: View[] }} History
 */

/** The most steps that are kept to be undone, and rows that all of these have. */
const [MOST_KEPT, MOST_ROWS] = [200, 4_000_000];

/** @type {History} */
export const NOTHING_DONE = Object.freeze({ done: [], undone: [] });

/** @param {View} view */
const viewOf = ({ run, count, at }) => ({ run, count, at });

/** Something else is shown than this, which can be undone; what is oldest is forgotten, where there is too much of it. @param {History} history @param {View} now @returns {History} */
export function left(history, now) {
  let done = [...history.done, viewOf(now)].slice(-MOST_KEPT);
  const rows = () => [...new Set(done.map((it) => it.run))].reduce((sum, it) => sum + it.count, 0);
  while (done.length > 1 && rows() > MOST_ROWS) done = done.slice(1);
  return { done, undone: [] };
}

/** One step back or forward: what is shown then, and the history; nothing where there is no step. @param {History} history @param {View} now @param {"done" | "undone"} from */
export function stepped(history, now, from) {
  const to = from === "done" ? "undone" : "done";
  const view = history[from].at(-1);
  if (view === undefined) return null;
  return { ...viewOf(view), history: { ...history, [from]: history[from].slice(0, -1), [to]: [...history[to], viewOf(now)] } };
}

/** A run that goes on behind the row that is shown: the same run if that is its last row, and else a copy up to there. @param {View} now */
export function goingOn({ run, count, at }) {
  return at === count && count === run.count ? run : run.fork(at);
}
