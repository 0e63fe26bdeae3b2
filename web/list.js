/**
 * The list of requests: the rows around the one that is shown, spelled as `agc_watch trace` does.
 *
 * @typedef {import("./run.js").Shown} Shown
 * @typedef {import("../libagc/js/machine.js").Scene} Scene
 * @typedef {import("./account.js").Names} Names
 * @typedef {import("./state.js").State} State
 */
import { assign, attribute, by, fill, make, set } from "./dom.js";
import { act, differ, isHidden, namesOf, rowOf } from "./state.js";
import { octal } from "./words.js";

/** How many lines the list has, also where there are fewer rows. */
const [LINES, AROUND, CELLS] = [15, 7, 9];

/** The core sets of a scene: number, name and priority. A job that is asleep is in brackets, and the one that NEWJOB names has a > before it. @param {Scene} scene @param {Names} names */
function setsCell(scene, names) {
  return scene.sets.map((job) => {
    if (job === null) return ".";
    const told = `${names.jobCell(job)}/${octal(job.priority, 2)}`;
    if (job.asleep) return `(${told})`;
    return scene.next === job.number && scene.next !== scene.running ? `>${told}` : told;
  }).join(" ");
}

/** The cells of a row, as a trace has them. @param {Shown} shown @param {Names} names */
export function cellsOf({ row, ticks, line, reply, scene, who }, names) {
  const tasks = scene.tasks.map((it) => `${names.taskCell(it)}+${it.left}`).join(" ");
  return [
    ...[String(row), (ticks / 100).toFixed(2), line, reply],
    scene.running === 0 ? "-" : String(scene.running),
    setsCell(scene, names),
    scene.areas.map((it) => (it === 0 ? "." : String(it))).join(" "),
    tasks === "" ? "-" : tasks,
    ...(who === "nobody" ? [""] : [who]),
  ];
}

/** @param {import("./run.js").Run} run @param {number} row */
export function styleOf(run, row) {
  return run.isRefused(row) ? "refused" : run.isChange(row) ? "change" : "";
}

/** The lines of the list, with their cells. @type {{ line: any, cells: any[], row: number }[]} */
let lines = [];

/** Makes the lines, which stay: a click goes to the row that one shows. */
export function makeList() {
  lines = Array.from({ length: LINES }, () => {
    const cells = Array.from({ length: CELLS }, () => make("td"));
    const made = { line: make("tr", {}, ...cells), cells, row: -1 };
    made.line.addEventListener("click", () => { if (made.row >= 0) act("go", made.row); });
    return made;
  });
  fill("lines", lines.map((it) => it.line));
}

/** Draws the rows around the one that is shown, and none behind it that would answer an exercise. @param {State} now @param {State} before */
export function list(now, before) {
  if (!differ(now, before, "run", "count", "at", "hidden")) return;
  const { run, at } = now;
  const count = isHidden(now) ? at : now.count;
  const from = Math.max(0, Math.min(at - AROUND, count - 2 * AROUND));
  const names = namesOf(run);
  lines.forEach((it, k) => {
    it.row = from + k <= count ? from + k : -1;
    attribute(it.line, "aria-hidden", it.row < 0 ? "true" : null);
    attribute(it.line, "aria-current", it.row === at ? "true" : null);
    assign(it.line, { className: it.row < 0 ? "" : styleOf(run, it.row) });
    const shown = it.row < 0 ? null : rowOf(now, it.row);
    const cells = shown === null ? [] : cellsOf(shown, names);
    it.cells.forEach((cell, n) => set(cell, cells[n] ?? ""));
    assign(it.cells[3], { className: shown?.reply.includes("alarm") ? "alarm" : "" });
  });
}
