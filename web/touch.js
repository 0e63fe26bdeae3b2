/**
 * What is touched is told: a core set, an area, a place of the Waitlist, a group's phase, a code. What
 * it is, who is there since when and by which request, and what can be asked of it.
 */
import { sinceOf } from "./account.js";
import { assign, button, by, fill, make, priorities, set } from "./dom.js";
import { act, differ, namesOf, shownOf, state } from "./state.js";
import { pieceOf } from "./pieces.js";
import { octal, seconds } from "./words.js";

/** The field's words, each in a sentence. */
export const GLOSSARY = {
  sets: "A core set holds a job while it is alive: twelve words with its number, the address at which it begins, its priority and six work words. The job "
    + "in core set 0 runs, unless every job is asleep.",
  areas: "A VAC area is a longer block of memory that some jobs also have: findvac gives a job one until it ends. There are five.",
  tasks: "A place of the Waitlist holds a task: a short program that is started by the clock and may establish jobs. There is room for nine.",
  phases: "There are six restart groups, and each has a phase. After a restart the phases say what begins again; 0 means that nothing does.",
  codes: "FAILREG keeps the codes of alarms: the first, the second and the latest.",
  newjob: "NEWJOB names the job that is more urgent than the running one. At the next change of jobs it takes core set 0. Of several that are equally urgent "
    + "it names the one with the lowest number, and none that is just as urgent as the running one.",
};

/** @typedef {keyof typeof GLOSSARY} ListName @typedef {{ name: string, pieces: any[], actions?: any[] }} Told @typedef {import("./run.js").Run} Run */

/** A button that asks a request. @param {string} line @param {string} name */
function asks(line, name) {
  return button(name, () => act("ask", line), { title: line });
}

/** Who a job is, and what it can be asked. @param {Run} run @param {import("./run.js").Shown} shown @param {import("../libagc/js/machine.js").Job} job
 * @param {number} since @param {number} from @returns {{ pieces: any[], actions: any[] }} */
function ofJob(run, shown, job, since, from) {
  const names = namesOf(run);
  const runs = shown.scene.running === job.number;
  const state = runs ? "It runs" : job.asleep ? "It sleeps" : "It waits for its turn";
  const pieces = [`Job ${job.number} began at ${names.ofJob(from)}`, ...sinceOf(run, since),
    `. ${state}, with priority ${octal(job.priority, 2)}${job.area > 0 ? `, and owns VAC area ${job.area}` : ""}.`];
  if (runs) {
    const prio = priorities(job.priority, { "aria-label": "Priority", onchange: () => act("ask", `prio ${prio.value}`) });
    return { pieces, actions: [asks("end", "End it"), asks(`sleep ${octal(job.at, 5)}`, "Put it to sleep"), make("label", {}, "Priority ", prio)] };
  }
  if (job.asleep) return { pieces, actions: [asks(`rouse ${octal(job.at, 5)}`, "Wake it")] };
  return { pieces: [...pieces, " Only the running job can be ended, put to sleep or given another priority."],
    actions: shown.scene.next === job.number ? [asks("change", "Let it run")] : [] };
}

/** The last row up to this one whose line is such; 0 where there is none. @param {any} run @param {RegExp} line @param {number} row */
function rowOf(run, line, row) {
  for (let at = row; at > 0; at--) if (run.lines[at] !== "tick" && line.test(run.lines[at])) return at;
  return 0;
}

/** @type {Record<ListName, (run: any, shown: any, k: number) => Told>} */
const TOLD = {
  sets(run, shown, k) {
    const job = shown.scene.sets[k];
    const name = `Core set ${k}`;
    if (job === null) return { name, pieces: ["It is free: the next job that is established may get it."], actions: [asks("novac 20 04000 00005", "Establish a job")] };
    return { name, ...ofJob(run, shown, job, shown.jobsSince[k], shown.jobsFrom[k]) };
  },
  areas(run, shown, k) {
    const owner = shown.scene.areas[k];
    const name = `VAC area ${k + 1}`;
    const set = shown.scene.sets.findIndex((/** @type {any} */ it) => it?.number === owner && owner > 0);
    if (set < 0) return { name, pieces: ["It is free."], actions: [asks("findvac 20 04000 00005", "Establish a job with it")] };
    return { name, ...ofJob(run, shown, shown.scene.sets[set], shown.jobsSince[set], shown.jobsFrom[set]) };
  },
  tasks(run, shown, k) {
    const task = shown.scene.tasks[k];
    const name = `Place ${k + 1} of the Waitlist`;
    if (task === undefined) return { name, pieces: ["It is free."], actions: [asks("list 100 02000 00005", "List a task")] };
    const row = run.bench.task.find((/** @type {any} */ it) => it.at === octal(task.at, 5) && it.bank === octal(task.bank, 5));
    const does = row === undefined ? "The document doesn't say what it does: it does nothing." : `As it comes due: ${row.action.join(", then ")}.`;
    return { name, pieces: [`Task ${namesOf(run).ofTask(task)} waits`, ...sinceOf(run, shown.tasksSince[k]),
      `, and is due in ${seconds(task.left)}, at ${seconds(shown.ticks + task.left)}. ${does}`] };
  },
  phases(run, shown, k) {
    const phase = shown.scene.phases[k];
    const rows = run.bench.phase.filter((/** @type {any} */ it) => it.group === k + 1);
    const now = rows.find((/** @type {any} */ it) => it.phase === phase);
    const what = [now?.job, now?.task].filter((it) => it !== undefined).join(" and ");
    const since = rowOf(run, new RegExp(`^phase ${k + 1} `), shown.row);
    const others = [0, ...rows.map((/** @type {any} */ it) => it.phase)].filter((it) => it !== phase);
    return { name: `Group ${k + 1}`, pieces: [`It is in phase ${phase}`, ...(since > 0 && phase > 0 ? sinceOf(run, 2 * since) : []),
      `. After a restart ${what === "" ? "nothing of it begins again" : `it asks again: ${what}`}.`],
    actions: others.slice(0, 6).map((it) => asks(`phase ${k + 1} ${it}`, `Phase ${it}`)) };
  },
  codes(run, shown, k) {
    const code = shown.scene.codes[k];
    const rows = run.alarms.filter((/** @type {number} */ row) => row <= shown.row && run.columns.numbers.items[row] === code);
    const row = k === 2 ? rows.at(-1) : rows[0];
    return { name: `FAILREG, ${["first", "second", "latest"][k]}`,
      pieces: code === 0 ? ["No code is here."] : [`${octal(code, 4)}`, ...(row === undefined ? [] : sinceOf(run, 2 * row)), "."],
      actions: code === 0 ? [] : [asks("fresh", "Fresh start: all is cleared")] };
  },
  newjob(_run, shown) {
    const { next, running } = shown.scene;
    const isOther = next !== 0 && next !== running;
    return { name: "NEWJOB", pieces: [isOther ? `It names job ${next}.` : "It names no other job than the one that runs."],
      actions: isOther ? [asks("change", "Change to it")] : [] };
  },
};

/** Moves along a list by its keys. @param {ListName} list @param {KeyboardEvent} event */
function key(list, event) {
  const boxes = [...by(list).querySelectorAll("button")];
  const at = boxes.indexOf(/** @type {any} */ (document.activeElement));
  const step = { ArrowRight: 1, ArrowDown: 1, ArrowLeft: -1, ArrowUp: -1 }[event.key] ?? 0;
  if (event.key === "Escape" && state().touched !== null) act("touch-close");
  else if (at < 0 || step === 0) return;
  else reach(list, (at + step + boxes.length) % boxes.length).focus();
  event.preventDefault();
  event.stopPropagation();
}

/** The box of a list that the tabulator reaches. @param {string} list @param {number} to */
function reach(list, to) {
  const boxes = [...by(list).querySelectorAll("button")];
  boxes.forEach((it, k) => assign(it, { tabIndex: k === to ? 0 : -1 }));
  return boxes[to];
}

export function hearTouch() {
  for (const list of /** @type {ListName[]} */ (Object.keys(GLOSSARY))) {
    by(list).addEventListener("click", (/** @type {Event} */ event) => {
      const box = /** @type {HTMLElement} */ (event.target).closest("li");
      if (box === null) return;
      const k = [...by(list).children].indexOf(box);
      reach(list, k);
      act("touch", list, k);
    });
    by(list).addEventListener("keydown", (/** @type {KeyboardEvent} */ event) => key(list, event));
  }
}

/** @param {import("./state.js").State} now @param {import("./state.js").State} before */
export function touch(now, before) {
  const { touched, run } = now;
  if (!differ(now, before, "touched", "run", "at", "isAfter")) return;
  const isThere = touched !== null && by(touched.list).children[touched.k] !== undefined;
  assign(by("touch"), { hidden: !isThere });
  if (!isThere) {
    const { list, k } = before.touched ?? {};
    if (touched === null && list !== undefined) by(list).children[/** @type {number} */ (k)]?.querySelector(".cover")?.focus({ preventScroll: true });
    return;
  }
  const list = /** @type {ListName} */ (touched.list);
  const { name, pieces, actions = [] } = TOLD[list](run, shownOf(now), touched.k);
  set(by("touch-name"), name);
  fill("touch-body", [make("p", { class: "what" }, GLOSSARY[list]), make("p", {}, ...pieces.map(pieceOf)),
    ...(actions.length === 0 ? [] : [make("div", { class: "steps" }, ...actions)])]);
  // (the box stays where it is, or comes out from below what is told of it)
  if (before.touched !== touched) by(list).children[touched.k].scrollIntoView({ block: "nearest" });
}
