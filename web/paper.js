/**
 * What is printed: of a scenario its chart, its jobs, and why each alarm came; of a bench its chart and each request; and an
 * exercise whose answer is hidden as it is asked, with a line for each answer.
 *
 * @typedef {import("./state.js").State} State
 * @typedef {import("./run.js").Run} Run
 * @typedef {import("./run.js").Shown} Shown
 * @typedef {import("./account.js").Names} Names
 */
import { accountOf } from "./account.js";
import { becauseOf, lateOf, short } from "./because.js";
import { summaryOf } from "./drawing-words.js";
import { by, fill, make, withCode, withNumbers } from "./dom.js";
import { paint } from "./drawing-pens.js";
import { EXERCISES } from "./fields.js";
import { linesOf } from "./job-table.js";
import { nextMissed } from "./jobs.js";
import { cellsOf, styleOf } from "./list.js";
import { isSaved } from "./saving.js";
import { pictureSeen } from "./stage.js";
import { isHidden, namesOf } from "./state.js";
import { jobsAsked } from "./story.js";
import { MEANINGS, PARTS, counted, formOf, visible } from "./words.js";

/** How many requests are printed at most, and of how many alarms it is said why they came. */
const [MOST_PRINTED, MOST_ALARMS] = [5000, 6];

/** A line of the table of requests. @param {Shown} shown @param {Run} run @param {Names} names */
function lineOf(shown, run, names) {
  const isAlarm = shown.reply.includes("alarm");
  return make("tr", { class: styleOf(run, shown.row) },
    ...cellsOf(shown, names).map((it, k) => make("td", k === 3 && isAlarm ? { class: "alarm" } : {}, it)));
}

/** Whether nothing but a centisecond went by in a row. @param {Run} run @param {number} row */
function isQuiet(run, row) {
  const isMore = run.isChange(row) || run.isAlarm(row) || run.isRefused(row);
  return run.lines[row] === "tick" && !isMore;
}

/** The account of an alarm, as text. @param {Run} run @param {Shown} shown @param {Names} names */
function accountText(run, shown, names) {
  return accountOf(run, shown, names).lines.map((line) => line.map((it) => (typeof it === "string" ? it : it.text)).join("")).join("\n");
}

/** The requests of a bench, without those in which only time goes by, and with accounts below alarms. @param {Run} run @param {number} count @param {Names} names */
function requestsOf(run, count, names) {
  const rows = Array.from({ length: count + 1 }, (_, row) => row).filter((row) => !isQuiet(run, row));
  const lines = rows.slice(0, MOST_PRINTED).flatMap((row) => {
    const [shown] = run.show(row, row);
    const told = shown.reply.includes("alarm") ? [make("tr", {}, make("td", { colSpan: 9 }, make("pre", {}, accountText(run, shown, names))))] : [];
    return [lineOf(shown, run, names), ...told];
  });
  const more = rows.length > MOST_PRINTED ? [make("p", {}, `Those up to request ${rows[MOST_PRINTED - 1]} of ${count}.`)] : [];
  return [make("h2", {}, "Requests"), ...more, make("table", {}, by("rows").querySelector("thead").cloneNode(true), make("tbody", {}, ...lines))];
}

/** The jobs of a scenario, why the first deadline is missed, and why each alarm came. @param {State} now @param {Names} names */
function reasonsOf(now, names) {
  const { run, count } = now;
  const alarms = run.alarms.filter((it) => it <= count);
  const jobs = by("jobs").closest("table").cloneNode(true);
  jobs.querySelector("tbody").replaceWith(make("tbody", {}, ...linesOf(now)));
  const told = alarms.slice(0, MOST_ALARMS).map((row) => {
    const [shown] = run.show(row, row);
    return make("section", {}, make("h3", {}, `${shown.reply.slice(shown.reply.indexOf("alarm"))}, at ${(shown.ticks / 100).toFixed(2)} s`),
      make("p", { class: "because" }, becauseOf(run, shown, names)), make("pre", {}, accountText(run, { ...shown, after: null }, names)));
  });
  const left = alarms.length - told.length;
  const missed = nextMissed(run, count, 0);
  const late = missed === null ? null : lateOf(run, run.show(missed, missed)[0], names);
  return [make("h2", {}, "Jobs"), jobs, make("p", {}, by("jobs-told").textContent),
    ...(late === null ? [] : [make("h2", {}, "Why the first deadline is missed"), make("p", { class: "because" }, `${late.text.slice(0, 1).toUpperCase()}${late.text.slice(1)}`)]), ...(told.length === 0 ? [] : [make("h2", {}, "Why each alarm came"), make("div", { class: "reasons" }, ...told)]),
    ...(left > 0 ? [make("p", {}, `And ${counted(left, "more alarm")}.`)] : [])];
}

/** What a document asks for, in words: its jobs, its requests by number, and the rest in a line each. @param {import("./bench.js").Bench} bench @param {string} document */
function inWords(bench, document) {
  const jobs = bench.seconds === undefined ? [] : jobsAsked(bench);
  const [script] = /^script = \[\n[^\]]*\]/m.exec(document) ?? [];
  const groups = (bench.power ?? []).flatMap((it, k, all) => (k % 2 === 0 ? [`Group ${1 + k / 2}: ${it} ${all[k + 1]}`] : []));
  const tasks = jobs.length > 0 && bench.phase.length === 0 ? [] : bench.task.map(({ name, at, action }) => `Task ${at}${name === undefined ? "" : ` (${name})`}: ${action.join(", then ")}`);
  const lines = [...(bench.seconds === undefined ? [] : [`The run lasts ${bench.seconds} s${bench.steal === 0 ? "" : `, of which ${bench.steal} % is stolen`}.`]), ...groups,
    ...bench.worker.map(({ script: all }, k) => `Worker ${k + 1}: ${all.join(", ")}`), ...tasks,
    ...(bench.phase.length === 0 ? [] : bench.event.map((it) => `At ${short(it.at)}: ${it.do.join(", ")}`)),
    ...bench.phase.map((it) => `Group ${it.group} in phase ${it.phase}: after a restart ${[it.job, it.task].filter((one) => one !== undefined).join(" and ")}`)];
  return make("div", { class: "asked" }, ...jobs, ...(script === undefined ? [] : [make("pre", {}, ...withNumbers(script))]), make("ul", {}, ...lines.map((it) => make("li", {}, visible(it)))));
}

/** An exercise: its title, its question and what it is about, a line for each field, and what the requests do. @param {Run} run */
function questionOf({ given, source: { question, document, exercise } }) {
  const [title, ...lines] = question.split("\n");
  const fields = (EXERCISES[exercise]?.fields ?? []).map((it) => it.label);
  return [make("h1", {}, `Exercise ${exercise.replace(/\D/g, "")}. ${title}`), make("p", {}, ...withCode(lines.join(" "))),
    inWords(given, document),
    make("dl", { class: "answers" }, ...fields.flatMap((it) => [make("dt", {}, it), make("dd", {})])),
    make("h2", {}, "The requests"), make("table", { class: "legend" }, ...[...MEANINGS].map(([word, what]) =>
      make("tr", {}, make("td", {}, formOf(word)), make("td", {}, what)))),
    make("p", {}, `${Object.values(PARTS).map((it) => `${it.name}: ${it.sentence}`).join("; ")}.`)];
}

/** @param {State} now */
export function print(now) {
  const { run, count } = now;
  if (isHidden(now)) {
    fill("printed", questionOf(run));
    return;
  }
  const names = namesOf(run);
  const isTimed = run.bench.seconds !== undefined;
  const plan = isTimed ? "" : isSaved(now).bench.trim();
  const chart = make("canvas", { id: "printed-chart", hidden: count === 0 });
  fill("printed", [make("h1", {}, run.title), make("p", {}, ...withCode(`${summaryOf(run, count)} ${run.about}`)), chart,
    ...(isTimed ? reasonsOf(now, names) : requestsOf(run, count, names)),
    ...(plan === "" ? [] : [make("h2", {}, "Document"), make("pre", { class: "plan" }, plan)])]);
  if (count > 0) paint(chart, pictureSeen(now));
}
