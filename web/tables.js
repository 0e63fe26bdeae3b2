/**
 * The tables of a row: core sets, areas, Waitlist, phases, codes, NEWJOB, and the words. The boxes are
 * made once, so that one that has the focus keeps it; what a box says is written where it differs.
 *
 * @typedef {import("./state.js").State} State
 * @typedef {import("./run.js").Shown} Shown
 * @typedef {import("./account.js").Names} Names
 * @typedef {import("./colours.js").Colours} Colours
 * @typedef {{ name: string, strong: string, more?: string[], style: string, isNew?: boolean, title?: string, bar?: number }} Box
 */
import { nameOfRestart } from "./account.js";
import { assign, attribute, by, fill, make, set } from "./dom.js";
import { coloursOf, differ, namesOf, shownOf } from "./state.js";
import { PLACES, octal, seconds, wordName } from "./words.js";

/** How many boxes a list has at most, and how many lines each has below its name. */
const LISTS = { sets: [8, 3], areas: [5, 1], tasks: [PLACES, 1], phases: [6, 0], codes: [3, 0], newjob: [1, 0] };

/** @typedef {ReturnType<typeof boxOf>} BoxNode @type {Record<string, BoxNode[]>} */
const made = {};

/** @param {string} list @param {number} lines @param {number} k */
function boxOf(list, lines, k) {
  const nodes = {
    name: make("span", { class: "name" }), strong: make("b", {}),
    more: Array.from({ length: lines }, () => make("span", {})), changed: make("span", { class: "hidden" }),
    bar: list === "tasks" ? make("progress", { "aria-hidden": "true", max: 1 }) : null,
    cover: make("button", { type: "button", class: "cover", tabIndex: k === 0 ? 0 : -1 }),
  };
  const parts = [nodes.name, nodes.strong, ...nodes.more, nodes.bar, nodes.changed, nodes.cover];
  return { ...nodes, item: make("li", {}, ...parts.filter((it) => it !== null)) };
}

/** Makes the boxes of all lists. */
export function makeBoxes() {
  for (const [list, [count, lines]] of Object.entries(LISTS)) {
    made[list] = Array.from({ length: count }, (_, k) => boxOf(list, lines, k));
  }
}

/** Motion that a box had before begins once more with another row. @param {HTMLElement} item @param {string} style */
function moveAgain(item, style) {
  const motion = ["comes", "turns-over"].find((it) => style.includes(it) && item.classList.contains(it));
  if (motion === undefined || document.body.classList.contains("running")) return;
  item.classList.remove(motion);
  item.getBoundingClientRect();
}

/** Draws a list: as many boxes as there are. @param {string} list @param {Box[]} boxes @param {boolean} [isStep] whether another row is shown */
function draw(list, boxes, isStep = false) {
  const nodes = made[list];
  if (by(list).childElementCount !== boxes.length) fill(list, nodes.slice(0, boxes.length).map((it) => it.item));
  boxes.forEach(({ name, strong, more = [], style, isNew = false, title = "", bar }, k) => {
    const box = nodes[k];
    if (isStep) moveAgain(box.item, style);
    assign(box.item, { className: `${style}${isNew ? " new" : ""}`, title });
    set(box.name, name);
    set(box.strong, strong);
    box.more.forEach((it, n) => {
      set(it, more[n] ?? "");
      assign(it, { hidden: (more[n] ?? "") === "" });
    });
    set(box.changed, isNew ? "changed" : "");
    if (box.bar !== null) assign(box.bar, { hidden: bar === undefined, value: bar ?? 0 });
    const told = [strong, ...more].filter((it) => it !== "").join(", ");
    attribute(box.cover, "aria-label", `${name}: ${told}. What is it?`);
  });
}

/** @param {any} one @param {any} other */
function differs(one, other) {
  return JSON.stringify(one) !== JSON.stringify(other);
}

/** How a job moves that has just come, or fallen asleep, or woken. @param {Shown} shown @param {import("../libagc/js/machine.js").Job} job */
function comes({ last, isAfter }, job) {
  if (last === null || isAfter) return "";
  const before = last.sets.find((it) => it?.number === job.number);
  if (before === undefined || before === null) return " comes";
  return before.asleep !== job.asleep ? " turns-over" : "";
}

/** @param {Shown} shown @param {number} k @param {Names} names @param {Colours} colours @returns {Box} */
function setBox(shown, k, names, colours) {
  const { scene, jobsFrom, last } = shown;
  const job = scene.sets[k];
  const isNew = last !== null && (differs(job, last.sets[k]) || (k === 0 && scene.running !== last.running));
  if (job === null) return { name: `set ${k}`, strong: "free", style: "free", isNew };
  const runs = k === 0 && scene.running === job.number;
  const isNamed = scene.next === job.number && scene.next !== scene.running;
  const stands = runs ? "runs" : job.asleep ? "asleep" : isNamed ? "next to run" : "waits";
  const area = job.area > 0 ? `, area ${job.area}` : "";
  const colour = 1 + colours.of(jobsFrom[k]);
  const name = names.job(jobsFrom[k]);
  return { name: `set ${k}`, strong: name ?? `job ${job.number}`, isNew,
    style: `${job.asleep ? `asleep h${colour}` : runs ? `j${colour} runs` : `s${colour}`}${comes(shown, job)}`,
    more: [...(name === undefined ? [`${stands}${area}`, `at ${octal(job.at, 5)}`] : [stands, `job ${job.number}${area}`]), `priority ${octal(job.priority, 2)}`] };
}

/** @param {Shown} shown @param {number} k @param {Names} names @param {Colours} colours @returns {Box} */
function areaBox({ scene, last, jobsFrom }, k, names, colours) {
  const owner = scene.areas[k];
  const set = scene.sets.findIndex((it) => it?.number === owner);
  const isNew = last !== null && owner !== last.areas[k];
  if (owner === 0) return { name: `area ${k + 1}`, strong: "free", style: "free", isNew };
  const name = names.job(jobsFrom[set] ?? 0);
  return { name: `area ${k + 1}`, strong: name ?? `job ${owner}`, more: name === undefined ? [] : [`job ${owner}`], style: `${scene.running === owner ? "j" : "s"}${1 + colours.of(jobsFrom[set])}`, isNew };
}

/** @param {Shown} shown @param {number} k @param {Names} names @returns {Box} */
function taskBox({ scene: { tasks }, tasksSince: since, row }, k, names) {
  const task = tasks[k];
  if (task === undefined) return { name: `place ${k + 1}`, strong: "free", style: "free" };
  const address = octal(task.at, 5);
  const name = names.task(task);
  return { name: `place ${k + 1}`, strong: name ?? address, more: [`in ${seconds(task.left)}`], style: "lit", title: name === undefined ? "" : `${name}, at ${address}`,
    isNew: row > 0 && (since[k] >> 1 === row || (row > 1 && since[k] === 2 * row - 1)), bar: task.left / Math.max(1, ...tasks.map((it) => it.left)) };
}

/** @param {Shown} shown */
function drawBase({ scene: { phases, codes, next, running }, last }) {
  draw("phases", phases.map((it, k) => ({ name: `group ${k + 1}`, strong: String(it), style: it === 0 ? "free" : "lit", isNew: last !== null && it !== last.phases[k] })));
  draw("codes", codes.map((it, k) => ({ name: ["first", "second", "latest"][k], strong: it === 0 ? "none" : octal(it, 4), style: it === 0 ? "free" : "lit",
    isNew: last !== null && it !== last.codes[k] })));
  const isNamed = next !== 0 && next !== running;
  draw("newjob", [{ name: "names", strong: isNamed ? `job ${next}` : "no other", style: isNamed ? "lit" : "free", isNew: last !== null && next !== last.next }]);
}

/** The tables' headings: how much is in use, and whether the tables are those after a restart. @param {Shown} shown */
function drawHeadings({ isAfter, line, scene }) {
  const more = isAfter ? `, after the ${nameOfRestart(line)}` : "";
  const count = (/** @type {any[]} */ all) => all.filter((it) => it !== null && it !== 0).length;
  const headings = { sets: ["Core sets", count(scene.sets), scene.sets.length], areas: ["VAC areas", count(scene.areas), 5], tasks: ["Waitlist", scene.tasks.length, PLACES] };
  for (const [id, [name, used, all]] of Object.entries(headings)) set(by(`${id}-name`), `${name}${more}: ${used} of ${all} in use`);
}

/** Draws the words, if they are asked for. @param {State} now */
export function drawWords(now) {
  if (!by("words-box").open) return;
  const { words } = shownOf(now);
  const rows = by("words-rows");
  if (rows.childElementCount !== words.length) {
    fill("words-rows", Array.from(words, (_, k) => make("tr", {}, make("td", {}, String(k)), make("td", {}), make("td", {}, wordName(k)))));
  }
  words.forEach((word, k) => set(rows.children[k].children[1], octal(word, 5)));
}

/** @param {State} now @param {State} before */
export function tables(now, before) {
  if (!differ(now, before, "run", "at", "isAfter", "hidden")) return;
  const shown = shownOf(now);
  const { scene } = shown;
  const [names, colours] = [namesOf(now.run), coloursOf(now.run)];
  drawHeadings(shown);
  const alarm = shown.isAfter ? 0 : shown.step?.alarm ?? 0;
  for (const [id, code] of Object.entries({ areas: 0o1201, sets: 0o1202, tasks: 0o1203 })) by(id).classList.toggle("full", alarm === code);
  // (what a newcomer needn't see is folded, unless the alarm is about it, or nothing else tells of time)
  const isAsked = now.run.bench.seconds === undefined && now.count > 0;
  const isOther = now.run.given !== before.run?.given || (now.count > 0) !== (before.count > 0);
  if (alarm === 0o1203 || isOther) assign(by("more"), { open: isAsked || alarm !== 0 });
  // (of a bench that is asked by hand the tables are what one looks at)
  const styles = { after: shown.isAfter === true, begins: shown.row === 0, leads: now.run.bench.seconds === undefined && now.run.source.document === "" };
  for (const [name, is] of Object.entries(styles)) by("tables").classList.toggle(name, is);
  for (const id of ["sets", "tasks"]) by(id).classList.toggle("swept", shown.isAfter === true);
  draw("sets", scene.sets.map((_, k) => setBox(shown, k, names, colours)), differ(now, before, "run", "at"));
  draw("areas", scene.areas.map((_, k) => areaBox(shown, k, names, colours)));
  draw("tasks", Array.from({ length: PLACES }, (_, k) => taskBox(shown, k, names)));
  drawBase(shown);
  drawWords(now);
}
