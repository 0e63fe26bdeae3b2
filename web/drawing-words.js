/**
 * What is said of a run: how full its tables were, and its alarms; and of a place in its picture, and of
 * marks: who is there, since when, and what ended it, each as a list of lines.
 *
 * @typedef {import("./run.js").Run} Run
 * @typedef {import("./drawing.js").Sheet} Sheet
 * @typedef {import("./lanes.js").Kind} Kind
 */
import { MOST_ROWS, SPENT } from "./run.js";
import { stolenAt } from "./stolen.js";
import { countsOf } from "./work.js";
import { counted, octal, seconds } from "./words.js";

/** What each lane is called, by its number. @type {Record<Kind, (k: number) => string>} */
const PLACES = { set: (k) => `core set ${k}`, area: (k) => `VAC area ${k + 1}`, task: () => "Waitlist" };

/** What a strip tells of a row. @type {Record<string, (run: Run, row: number) => string>} */
const STRIPS = {
  areas: (run, row) => `${run.useAt(row).areas} of 5 VAC areas in use`,
  tasks: (run, row) => `${run.useAt(row).tasks} of 9 places of the Waitlist in use`,
  stolen: (run, row) => `${stolenAt(run.bench.steal, run.ticksAt(row))} % of the time is stolen`,
  idle: (run, row) => (run.useAt(row).idle === 1 ? "no job runs" : "a job runs"),
};

/** A request, with its time if it has one: `26.01 s (request 2705)`. @param {Run} run @param {number} row */
export function whenOf(run, row) {
  if (row === 0) return run.bench.power === undefined ? "the beginning" : "power-up";
  return run.ticksAt(row) > 0 ? `${seconds(run.ticksAt(row))} (request ${row})` : `request ${row}`;
}

/** What began an era: an alarm by its code, or a request. @param {Run} run @param {number} row */
export function restartOf(run, row) {
  return run.isAlarm(row) ? `alarm ${octal(run.columns.numbers.items[row], 4)}` : run.lines[row];
}

/** Whether an era began with a key: what was there before was swept. @param {Run} run @param {number} key */
function isRestart(run, key) {
  return (key & 1) === 1 && run.lanes.eras.includes(key >> 1);
}

/** The requests over which an entry of a log holds: with the one whose restart swept it. @param {Run} run @param {import("./lanes.js").Log} log @param {number} entry */
function requestsOver(run, log, entry) {
  const [from, to] = [log.keys.items[entry], log.endOf(entry)];
  if (to === 0) return `from request ${from >> 1} on`;
  const last = isRestart(run, to) ? to >> 1 : Math.max(from >> 1, (to >> 1) - 1);
  return `requests ${from >> 1} to ${last}`;
}

/** From when to when a job or a task is there. @param {Run} run @param {"jobs" | "tasks"} kind @param {number} id */
function spanOf(run, kind, id) {
  const [from, to] = [run.lanes[kind].born.items[id], run.lanes[kind].gone.items[id]];
  const since = `since ${from > 1 && isRestart(run, from) ? "the restart of " : ""}${whenOf(run, from >> 1)}`;
  if (to === 0) return [since, "still there at the end"];
  const row = to >> 1;
  if (isRestart(run, to)) return [since, `swept by the restart of ${restartOf(run, row)}, ${whenOf(run, row)}`];
  const line = run.lines[row];
  return [since, `until ${whenOf(run, row)}${line === "tick" ? "" : `: ${line}`}`];
}

/** Who is in a lane, and of a job how it is then. @param {Sheet} sheet @param {Kind} kind @param {number} id @param {number} key */
function tellWho({ run, names }, kind, id, key) {
  const { lanes } = run;
  const { at, bank, more } = lanes[kind === "task" ? "tasks" : "jobs"];
  if (kind === "task") return [`task ${names.ofTask({ at: at.items[id], bank: bank.items[id] })}`, ...spanOf(run, "tasks", id)];
  const block = lanes.logs.set.map((_, k) => lanes.blockAt(k, key)).find((it) => it?.id === id);
  const moved = block === undefined || block?.now === at.items[id] ? "" : ` at ${names.ofJob(block?.now ?? 0)}`;
  const how = !block ? [] : [`priority ${octal(block.priority, 2)}, ${["", "runs", "waits", "sleeps"][block.state]}${moved}${block.area === 0 ? "" : `, VAC area ${block.area}`}`];
  return [`job ${more.items[id]}, ${names.ofJob(at.items[id])}`, ...how, ...spanOf(run, "jobs", id)];
}

/** What a mark is about; nothing where it needs no words. @param {Sheet} sheet @param {import("./drawing.js").Told} [told] @returns {string[]} */
export function tellMark(sheet, told) {
  if (told === undefined) return [];
  if (typeof told === "string") return [told];
  const { kind, k, entry } = told;
  const log = sheet.run.lanes.logs[kind][k];
  return [`${PLACES[kind](k)}, ${requestsOver(sheet.run, log, entry)}`, ...tellWho(sheet, kind, log.ids.items[entry], log.keys.items[entry])];
}

/** What lies at a point, and what is said of it; nothing beside the bands. @param {Sheet} sheet @param {number} x @param {number} y @returns {import("./drawing.js").Hit | null} */
export function hitAt(sheet, x, y) {
  const { run, left, right, scale } = sheet;
  const band = sheet.bands.findLast((it) => y >= it.top && y < it.bottom && x >= (it.left ?? left) && x <= (it.right ?? right));
  if (band === undefined) return null;
  const place = sheet.placeAt(x);
  const key = scale.keyAt(place);
  const row = key >> 1;
  const when = scale.isTime ? seconds(Math.floor(place)) : `request ${row}`;
  const { kind, name, k = 0, row: own = 0, text = "" } = band;
  switch (kind) {
    case "set": case "area": case "task": {
      const log = run.lanes.logs[kind][k];
      const [id, where] = [log.ids.items[log.entryAt(key)], `${when}, ${PLACES[kind](k)}`];
      if (id === 0) return { kind: "lane", row, text: `${where}: ${kind === "task" ? "nothing waits here" : "free"}` };
      return { kind: kind === "task" ? "task" : "job", id, row, text: [where, ...tellWho(sheet, kind, id, key)].join("\n") };
    }
    case "work": return { kind, row, text: `${when}: jobs still need ${seconds(run.columns.waiting.items[row] / 100)} of computing` };
    case "alarm": return { kind, row: own, text: `${restartOf(run, own)}\n${whenOf(run, own)}` };
    case "strip": return { kind, name, row, text: `${when}: ${STRIPS[name ?? ""](run, row)}` };
    default: return { kind, name, row: band.row, text };
  }
}

/** The first rows of a run in words, for who can't see the chart. A clock stops at the most rows that a run has. @param {Run} run @param {number} count */
export function summaryOf(run, count) {
  const [sets, areas, tasks] = countsOf(run, count).used;
  const cut = count < MOST_ROWS ? "" : ` The page runs no more than ${counted(MOST_ROWS, "request")}.`;
  const ticks = run.ticksAt(count);
  // (from so many ticks on they are a time)
  return `Over ${ticks >= 20 ? seconds(ticks) : counted(Math.max(1, count), "request")}: at most ${sets} of ${run.sets} core sets, `
    + `${areas} of 5 areas and ${tasks} of 9 tasks at once; ${alarmsOf(run, count)}.${cut}`;
}

/** How many alarms the first rows of a run have, and which is the first. @param {Run} run @param {number} count */
export function alarmsOf(run, count) {
  const alarms = run.alarms.filter((row) => row <= count);
  if (alarms.length === 0) return `no alarm${refusedOf(run, count)}`;
  const [row] = alarms;
  const time = run.ticksAt(row) > 0 ? ` at ${seconds(run.ticksAt(row))}` : "";
  return `${counted(alarms.length, "alarm")}${alarms.length > 1 ? ", the first one" : ":"} ${octal(run.columns.numbers.items[row], 4)}, `
    + `in request ${row}${time}${refusedOf(run, count)}`;
}

/** How many of the first rows were refused, and from which on; nothing where none was. @param {Run} run @param {number} count */
function refusedOf(run, count) {
  const rows = run.refused.filter((row) => row <= count);
  if (rows.length === 0) return "";
  const why = run.columns.kinds.items[rows[0]] === SPENT ? "the allowance was used up" : "the log was full";
  const where = rows.length === 1 ? `request ${rows[0]}` : `from request ${rows[0]} on`;
  return `; ${counted(rows.length, "request")} refused, ${where}, since ${why}`;
}

/** What came of a run, to compare it with another: its alarms, and how full the core sets were. @param {Run} run @param {number} count */
export function outcomeOf(run, count) {
  return `${alarmsOf(run, count)}; at most ${countsOf(run, count).used[0]} of ${run.sets} core sets`;
}
