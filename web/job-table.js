/** The table of jobs: what each needs and how often, how long it took, and who missed a deadline; a click goes there. */
import { short } from "./because.js";
import { NO_ORDER, boundsOf } from "./bounds.js";
import { assign, button, by, fill, make, set } from "./dom.js";
import { budgetOf } from "./work.js";
import { jobsOf } from "./jobs.js";
import { act, coloursOf, differ, isHidden, namesOf } from "./state.js";
import { counted, octal, seconds, took } from "./words.js";

/** @typedef {import("./state.js").State} State @typedef {import("./jobs.js").JobRow} JobRow */

/** What the table's times are, and when the load is safe that is calculated. */
const TOLD = "Least, mean and greatest are measured in this run, from where a job is asked for to where it ends. At most is calculated by response-time analysis, for the worst case, in which all jobs are asked for at once and no alarm comes. "
  + "Where a job can take longer than its period, one that was asked for later may overtake it, since of equals the lowest number goes first: at most allows for that, and is then more than textbooks have.";
const SAFE = "is always safe: n (2^(1/n) - 1) of the time that isn't stolen, with n kinds of jobs, if the shorter period has the greater priority, and no deadline comes before the next job.";

const percent = (/** @type {number} */ part) => `${Math.round(100 * part)} %`;

/** Which part of the time jobs ask for; null where none is known. @param {JobRow} row */
function utilization({ cost, period }) {
  if (cost === null || period === null) return null;
  return (typeof cost === "number" ? cost : (cost.from + cost.to) / 2) / period;
}

/** The longest response that is possible; nothing where it isn't known. @param {ReturnType<typeof boundsOf>} bounds @param {number} at */
function longestOf(bounds, at) {
  const longest = bounds?.longest.get(at);
  return longest === undefined ? "–" : longest === Infinity ? "no limit" : took(longest, 99);
}

/** @param {JobRow} row @param {any} name what stands in its first cell @param {string} longest */
function lineOf(row, name, longest) {
  const { priority, cost, period, deadline, ended, least, mean, most, share, missed, missedRow } = row;
  const part = utilization(row);
  const told = `${counted(row.began, "job")} began, ${ended} ended, ${row.lost} were lost with a restart, ${row.alive} live`;
  const costs = cost === null ? "–" : typeof cost === "number" ? short(cost) : `${short(cost.from)} to ${short(cost.to)}`;
  const late = deadline === null ? "–" : missed === 0 ? "0"
    : button(String(missed), () => act("late", missedRow), { title: "To the first one that is late" });
  const heads = Array.from(by("jobs").parentElement.rows[0].cells, (/** @type {HTMLElement} */ it) => it.textContent);
  return make("tr", { title: told }, make("td", {}, ...name), ...[late, octal(priority, 2), period === null ? "–" : short(period), costs, deadline === null ? "–" : short(deadline),
    part === null ? "–" : percent(part), percent(share), ...(ended === 0 ? ["–", "–", "–"] : [took(least), took(mean), took(most, 99)]), longest].map((it, k) => make("td", { "data-name": heads[k + 1] }, it)));
}

/** What the table's lines and its head say, of all of a run. @param {Pick<State, "run" | "count">} now */
function tableOf({ run, count }) {
  const rows = run.bench.seconds === undefined ? [] : jobsOf(run, count);
  const names = namesOf(run);
  const parts = rows.map((row) => ({ row, name: names.job(row.at) ?? octal(row.at, 5), part: utilization(row) ?? 0 }));
  const stolen = (budgetOf(run, count, { from: 0, to: run.ticksAt(count) })?.stolen ?? 0) / 100;
  const isOver = run.ticksAt(count) >= 100 * (run.bench.seconds ?? 0);
  return { parts, stolen, all: parts.reduce((sum, it) => sum + it.part, stolen), time: isOver ? `all ${run.bench.seconds} s` : `the run so far, ${seconds(run.ticksAt(count))}`,
    bounds: boundsOf(run.bench) };
}

/** Which part of the time all jobs of a run ask for, with what is stolen, in percent. @param {import("./run.js").Run} run */
export const loadOf = (run) => Math.round(100 * tableOf({ run, count: run.count }).all);

/** The table's lines. @param {State} now */
export function linesOf(now) {
  const { parts, stolen, all, bounds } = tableOf(now);
  const colours = coloursOf(now.run);
  return [
    ...parts.map(({ row, name }) => lineOf(row, [make("span", { class: `swatch j${1 + colours.of(row.at)}` }), name], longestOf(bounds, row.at))),
    make("tr", {}, make("td", { colSpan: 6 }, stolen > 0 ? `and stolen ${percent(stolen)}` : "all"), make("td", {}, percent(all)), make("td", { colSpan: 5 })),
  ];
}

/** @param {State} now @param {State} before */
export function jobs(now, before) {
  const { run } = now;
  if (!differ(now, before, "run", "count", "hidden")) return;
  const box = by("jobs-box");
  if (run.given !== before.run?.given) assign(box, { open: run.bench.job.some((it) => it.deadline !== undefined) });
  assign(by("jobs"), { hidden: run.isFilling });
  if (run.isFilling) {
    // (what another run came to isn't said of this one)
    if (run !== before.run) fill("jobs-sum", ["Jobs …"]);
    assign(by("late-next"), { hidden: true });
    return;
  }
  const { parts, stolen, all, time, bounds } = tableOf(now);
  const missed = parts.reduce((sum, it) => sum + it.row.missed, 0);
  assign(box, { hidden: parts.length === 0 || isHidden(now) });
  assign(by("late-next"), { hidden: box.hidden || missed < 2 });
  if (box.hidden) return;
  const told = [...parts.filter((it) => it.part > 0).map(({ name, part }) => `${name} ${percent(part)}`), ...(stolen > 0 ? [`stolen ${percent(stolen)}`] : [])];
  fill("jobs-sum", [`Jobs, over ${time}: ${told.join(" + ")}${told.length > 1 ? ` = ${percent(all)}` : ""}`,
    ...(missed > 0 ? ["; ", make("span", { class: "late" }, `${counted(missed, "deadline")} missed`)] : [])]);
  set(by("jobs-order"), missed > 0 && bounds?.hasOrder === false ? NO_ORDER : "");
  const load = run.bench.job.every((it) => it.deadline === undefined) ? undefined : bounds?.safe;
  set(by("jobs-told"), `${TOLD}${typeof load === "number" ? ` ${percent(load)} ${SAFE}` : ""}`);
  fill("jobs", linesOf(now));
}
