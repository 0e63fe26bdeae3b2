/**
 * The form of *New*: jobs that come again and again, in seconds and decimal numbers. It writes the scenario, which the editor
 * shows, and gives the addresses.
 *
 * @typedef {{ name: string, every: number, needs: number, priority: number, deadline?: number, hasArea: boolean }} Built in centiseconds
 */
import { leftOut, writeBench } from "./bench.js";
import { short } from "./because.js";
import { assign, button, by, fill, labelled, make, priorities, set } from "./dom.js";
import { periodOf, priorityOf } from "./jobs.js";
import { act, differ } from "./state.js";
import { lineFault, octal } from "./words.js";

/** @typedef {import("./state.js").State} State */

/** Each job has a task, and so many tasks may wait; how long the run lasts. */
const [MOST_BUILT, LASTS] = [9, 60];

/** The scenario of these jobs. @param {Built[]} jobs */
export function scenarioOf(jobs) {
  const places = jobs.map((_, k) => ({ job: octal(0o4000 + 0o100 * k, 5), task: octal(0o2000 + 0o100 * k, 5) }));
  return writeBench({
    ...leftOut("scenario"), title: "My jobs", seconds: LASTS,
    job: jobs.map(({ name, needs, deadline }, k) => ({ name, at: places[k].job, cost: needs, deadline })),
    event: [{ name: "start", at: 0, do: places.map(({ task }) => `list 1 ${task} 00005`) }],
    task: jobs.map(({ name, every, priority, hasArea }, k) => ({ name, at: places[k].task, bank: "00005",
      action: [`${hasArea ? "findvac" : "novac"} ${octal(priority, 2)} ${places[k].job} 00007`, `list ${every} ${places[k].task} 00005`] })),
  });
}

/** The jobs of such a scenario, as they are now. @param {import("./bench.js").Bench} bench @returns {Built[]} */
function builtOf(bench) {
  return bench.job.map(({ name = "", at, cost, deadline }, k) => ({ name, every: periodOf(bench, at) ?? 0, needs: Number(cost), priority: priorityOf(bench, at) ?? 0,
    deadline, hasArea: bench.task[k].action[0].startsWith("findvac") }));
}

/** The fields: each has its label, its first value, and what it has to be. @type {Record<string, { label: string, first: string, low: number, high: number, unit: string }>} */
const FIELDS = {
  every: { label: "every", first: "2", low: 0.01, high: 162.5, unit: "seconds" }, needs: { label: "needs", first: "0.5", low: 0.01, high: 10_000, unit: "seconds" },
  deadline: { label: "deadline", first: "", low: 0.01, high: 86_400, unit: "seconds; none if it is empty" },
};

/** What is wrong with a field; nothing where it is a number. @param {string} id @param {string} text */
function faultOf(id, text) {
  const { label, low, high, unit } = FIELDS[id];
  if (id === "deadline" && text === "") return null;
  const number = Number(text.replace(",", "."));
  return text.trim() !== "" && number >= low && number <= high ? null : `${label}: a number, ${low} to ${high} (${unit})`;
}

/** Adds the job that the fields say. @param {Record<string, any>} fields @param {Built[]} jobs */
function add(fields, jobs) {
  const faults = Object.keys(FIELDS).map((it) => faultOf(it, fields[it].value));
  const wrong = Object.keys(FIELDS).findIndex((_, k) => faults[k] !== null);
  set(by("build-fault"), wrong < 0 ? "" : faults[wrong] ?? "");
  if (wrong >= 0) {
    fields[Object.keys(FIELDS)[wrong]].focus();
    return;
  }
  const typed = fields.name.value.trim();
  if (/^(novac|findvac)\b|\b[0-7]{5}\b/.test(typed) || lineFault(typed) === null) {
    set(by("build-fault"), `“${typed}” is a request, and no job's name: press Ask, in Ask the machine.`);
    assign(fields.name, { value: "" });
    assign(by("line"), { value: typed });
    by("line").focus();
    return;
  }
  const ticks = (/** @type {string} */ id) => Math.round(100 * Number(fields[id].value.replace(",", ".")));
  const name = typed || `job ${jobs.length + 1}`;
  act("build", [...jobs, { name, every: ticks("every"), needs: ticks("needs"), priority: parseInt(fields.priority.value, 8),
    deadline: fields.deadline.value === "" ? undefined : ticks("deadline"), hasArea: fields.hasArea.checked }]);
  assign(fields.name, { value: "" });
  fields.name.focus();
}

/** @param {Built} job @param {Built[]} jobs */
function lineOf(job, jobs) {
  const { name, every, needs, priority, deadline, hasArea } = job;
  const told = `${name}: every ${short(every)} it needs ${short(needs)}, priority ${octal(priority, 2)}${deadline === undefined ? "" : `, deadline ${short(deadline)}`}${hasArea ? ", takes a VAC area" : ""}. `;
  return make("li", {}, told, button("Remove", () => act("build", jobs.filter((it) => it !== job))));
}

/** @param {State} now @param {State} before */
export function build(now, before) {
  if (!differ(now, before, "built", "run", "count")) return;
  const { built, run, count } = now;
  const isThere = built !== null && run.source.document === built && (built !== "" || count === 0);
  assign(by("build"), { hidden: !isThere });
  if (!isThere) return;
  const jobs = builtOf(run.bench);
  if (by("build-fields").childElementCount === 0) makeFields();
  assign(by("build-add"), { disabled: jobs.length >= MOST_BUILT });
  fill("built", jobs.map((it) => lineOf(it, jobs)));
  by("build-fields").jobs = jobs;
  // (after a dialog has given back the focus: who pressed a key goes on with keys)
  if (now.built !== before.built && jobs.length === 0 && (now.dialog !== before.dialog || before.tour.step > 0)) queueMicrotask(() => by("build-fields").querySelector("input").focus());
}

function makeFields() {
  /** @type {Record<string, any>} */
  const fields = { priority: priorities(0o20, { title: "A greater one is more urgent" }), name: make("input", { type: "text", size: 12, maxLength: 30, autocomplete: "off" }), hasArea: make("input", { type: "checkbox" }) };
  for (const [id, { first, unit }] of Object.entries(FIELDS)) fields[id] = make("input", { type: "text", size: 5, value: first, title: unit, inputMode: "decimal", autocomplete: "off" });
  const go = () => add(fields, by("build-fields").jobs);
  by("build-fields").addEventListener("keydown", (/** @type {KeyboardEvent} */ event) => {
    if (event.key === "Enter" && event.target instanceof HTMLInputElement) go();
  });
  const [every, needs, deadline] = Object.keys(FIELDS).map((it) => labelled(`${FIELDS[it].label}, s`, fields[it]));
  fill("build-fields", [labelled("job", fields.name), every, needs, labelled("priority (octal, 01 to 37)", fields.priority), deadline,
    make("label", { class: "check", title: "A longer block of memory, of which there are five" }, fields.hasArea, " takes a VAC area, too"), button("Add", go, { id: "build-add", class: "primary" })]);
}
