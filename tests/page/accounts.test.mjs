// What is told of a row, and which rows are marked, each worked out by hand: why an alarm came and who holds what since when,
// what begins again, what a request did; and names in the list, beside a trace.
import assert from "node:assert/strict";
import { spawnSync } from "node:child_process";
import { readFileSync, readdirSync } from "node:fs";
import { test } from "node:test";
import { start } from "../../libagc/js/machine.js";
import { Names, accountOf, sentenceOf } from "../../web/account.js";
import { whole } from "../../web/fields.js";
import { cellsOf, styleOf } from "../../web/list.js";
import { moduleBytes } from "../../web/picture.mjs";
import { WATCH, skip } from "./programs.mjs";

await start(await moduleBytes());

const text = (/** @type {string} */ name) => readFileSync(new URL(name, import.meta.url), "utf8");
const [THREE_ALARMS, NAMED] = [text("three-alarms.toml"), text("named.toml")];
const NOVAC = "novac 20 04000 00005";

/** A bench that asks for these. @param {string[]} lines @param {string} [more] */
const asks = (lines, more = "") => `script = ${JSON.stringify(lines)}\n${more}`;

/** A row of a run, with what was there before it, or after the restart that came of it. @param {string} document @param {number} row */
function rowOf(document, row) {
  const run = whole(document);
  return { run, shown: run.show(row, row)[0], names: new Names(run.bench) };
}

/** The heading and the lines of a row's account. @param {string} document @param {number} row @param {{ count?: number }} [given] */
function toldOf(document, row, { count = 0 } = {}) {
  const { run, shown, names } = rowOf(document, row);
  const { heading, lines } = accountOf(run, shown, names, { about: "", count, isHidden: false });
  return [heading, ...lines.map((line) => line.map((it) => (typeof it === "string" ? it : it.text)).join(""))];
}

/** Whether these lines stand in the account of a row. @param {string} document @param {number} row @param {...string} wanted */
function tells(document, row, ...wanted) {
  const told = toldOf(document, row);
  for (const it of wanted) assert.ok(told.includes(it), `row ${row}: ${told.join("\n")}\n\nand not\n${it}`);
}

test("an alarm's account has who holds the table since when, and what begins again", () => {
  tells(THREE_ALARMS, 17, "place 1: task 05000, in 0.19 s, since the restart of request 7", "place 2: task 02000, in 0.29 s, since request 8",
    "place 3: task 02010, in 0.40 s, since request 10 (0.01 s)", "place 9: task 02010, in 0.40 s, since request 16 (0.01 s)",
    "All jobs and tasks are gone. By the phases 0 0 3 0 0 0 these begin again: job 1, priority 10, at 06000; task 05000 in 0.20 s.");
  assert.deepEqual(toldOf(NAMED, 24), ["Alarm 1201: why",
    "All five VAC areas are owned. These hold them:",
    "set 1: job 1, priority 20, at 06000, area 1, since request 2", "set 2: job 3, priority 10, at WORK (05000), area 2, since request 11 (0.02 s)",
    "set 4: job 5, priority 20, at WORK (05000), area 3, since request 20 (0.10 s)", "set 5: job 6, priority 20, at WORK (05000), area 4, since request 21 (0.10 s)",
    "set 6: job 7, priority 20, at WORK (05000), area 5, since request 22 (0.10 s)",
    "Since the beginning 7 jobs began and 0 ended, and the computer was idle 0 % of the time. There was hardly any time to end more. Job 2 ran.",
    "It was asked in the tick of request 24, by action 2 of the task ALPHA (02000): findvac 10 05000 00007.",
    "The tables are as they were when the alarm came.",
    "All jobs and tasks are gone. By the phases 0 3 0 0 0 0 these begin again: job 1, priority 15, at 05100; task BETA (02100) in 0.09 s."]);
  const waiting = asks(["list 40 02010 00005", "list 20 02010 00005", ...Array(8).fill("list 50 02020 00005")]);
  tells(waiting, 10, "Nine tasks wait:", "No job was running.", "place 1: task 02010, in 0.20 s, since request 2",
    "place 2: task 02010, in 0.40 s, since request 1", "place 3: task 02020, in 0.50 s, since request 3");
});

test("which action of a task raised an alarm is told only where it has several", () => {
  for (const [action, which] of [['"novac 10 05000 00005"', ""], ['["nothing", "novac 10 05000 00005"]', "action 2 of "]]) {
    const task = `[[task]]\nat = "02000"\nbank = "00005"\naction = ${action}\n`;
    tells(asks([...Array(7).fill(NOVAC), "list 1 02000 00005", "tick"], task), 9,
      `It was asked in the tick of request 9, by ${which}the task 02000: novac 10 05000 00005.`);
  }
});

test("what a request did is told", () => {
  const wanted = /** @type {[number, string[]][]} */ ([
    [1, ["Group 2 is in phase 3. After a restart “novac 15 05100 00007” and “list 9 02100 00005” are asked for again."]],
    [2, ["Job 1 is established at 04000, in core set 0 with VAC area 1. It runs."]], [3, ["Job 2 is established at 04100, in core set 1. It waits."]],
    [4, ["No job sleeps at that address."]], [5, ["Job 2 runs, at 04100."]], [6, ["Job 1 is awake."]],
    [7, ["Task ALPHA (02000) is due in 0.02 s; 1 of 9 places is in use."]], [10, []],
    [11, ["Due: the task ALPHA (02000), then BETA (02100).", "Job 3 is established at WORK (05000).", "Job 4 is established at 05100."]],
    [20, ["Job 5 is established at WORK (05000), in core set 4 with VAC area 3. It waits."]], [25, []],
    [33, ["Due: the task BETA (02100).", "Job 2 is established at 05100."]]]);
  for (const [row, lines] of wanted) assert.deepEqual(toldOf(NAMED, row), ["What happens", ...lines]);
  const phases = [1, 2].map((group) => `[[phase]]\ngroup = ${group}\nphase = 1\njob = "novac 20 04${group}00 00005"\n`).join("");
  tells(asks(["phase 2 1"], phases), 1, "Group 2 is in phase 1. After a restart “novac 20 04200 00005” is asked for again.");
  const stored = asks(["phase 4 5", NOVAC, "store 2 00007", "end"]);
  tells(stored, 1, "Group 4 is in phase 5. After a restart nothing of it begins again: the document has no row of this phase.");
  tells(stored, 3, "Work word 2 of job 1 is 00007 now: the job keeps it in its core set.");
  tells(stored, 4, "Job 1 ended: its core set is free. No job is left that is awake.");
  tells(asks(["findvac 20 04000 00005", "novac 10 02000 00005", "end"]), 3, "Job 1 ended: its core set and its VAC area are free. Job 2 runs next, at 02000.");
});

test("since when something is there is told after a restart, and of tasks that differ by their time alone", () => {
  const phase = '[[phase]]\ngroup = 1\nphase = 1\njob = "novac 20 04100 00005"\n';
  tells(asks([NOVAC, "phase 1 1", "restart", ...Array(7).fill(NOVAC)], phase), 10, "set 0: job 1, priority 20, at 04100, since the restart of request 3",
    "set 1: job 2, priority 20, at 04000, since request 4", "A job is in each core set. These hold them:",
    "Since the restart of request 3 7 jobs began and 0 ended. Job 1 ran.");
  const task = '[[task]]\nat = "02000"\nbank = "00005"\naction = ["novac 20 04200 00005", "novac 20 04300 00005"]\n';
  tells(asks(["list 1 02000 00005", ...Array(6).fill(NOVAC), "tick"], task), 8, "set 6: job 7, priority 20, at 04200, since request 8 (0.01 s)");
  const idle = `seconds = 1\n[[task]]\nat = "02000"\nbank = "00005"\naction = "${NOVAC}"\n[[event]]\nat = 0\ndo = "list 5 02000 00005"\n`
    + `[[event]]\nat = 10\ndo = ${JSON.stringify(Array(7).fill(NOVAC))}\n`;
  const [alarm] = whole(idle).alarms;
  tells(idle, alarm, "Since the beginning 7 jobs began and 0 ended, and the computer was idle 50 % of the time. Job 1 ran.");
});

test("what power-up found is told", () => {
  const rest = Array(4).fill(["77777", "00000"]).flat();
  const power = (/** @type {string[]} */ ...words) => `power = ${JSON.stringify([...words, ...rest].slice(0, 12))}\n`;
  assert.deepEqual(toldOf(power("77776", "00002", "77577", "00200", "77775", "00000"), 0), ["Alarm 1107: why", "No phase can be trusted, and nothing begins again.",
    "group 1: 77776 is not the complement of 00002", "group 2: phase 128 is above 127", "group 3: 77775 is not the complement of 00000"]);
  const again = power("77776", "00001", "77600", "00177") + asks(Array(7).fill(NOVAC), `[[phase]]\ngroup = 1\nphase = 1\njob = "${NOVAC}"\ntask = "list 7 02000 00005"\n`);
  assert.deepEqual(toldOf(again, 0, { count: 7 }), ["Power is back",
    "All jobs and tasks are gone. By the phases 1 127 0 0 0 0 these begin again: job 1, priority 20, at 04000; task 02000 in 0.07 s.",
    "7 requests follow, with 1 alarm: 1202, in request 7."]);
  tells(again, 7, "set 0: job 1, priority 20, at 04000, since power-up", "set 1: job 2, priority 20, at 04000, since request 1");
});

test("what is refused and what changes is told and marked", () => {
  const styles = (/** @type {string} */ document) => {
    const run = whole(document);
    return Array.from({ length: run.count + 1 }, (_, row) => styleOf(run, row)).join();
  };
  const refused = `limit = 1\nallowance = 3\n${asks(["tick", "tick", "restart", "tick", "tick", "fresh"])}`;
  assert.equal(styles(refused), ",,refused,change,,refused,refused");
  tells(refused, 2, "The log is full: it holds 1 request of this era. Only restart and fresh are served now. The document may have a greater limit.");
  tells(refused, 3, "All jobs and tasks are gone. By the phases 0 0 0 0 0 0 nothing begins again.");
  for (const row of [5, 6]) tells(refused, row, "The machine serves no more: its allowance is used up.");
  assert.equal(styles(`limit = 1\n${asks(["tick", "fresh", "tick", "tick", "restart"])}`), ",,change,,refused,change");
  assert.equal(styles(asks([NOVAC, "prio 30", "change", "rouse 02000"])), ",change,change,,");
});

test("a row is a sentence, and cells with names of at most 24 letters and no blanks", () => {
  const { run, shown, names } = rowOf(NAMED.replaceAll("WORK", "a job of many letters and blanks"), 24);
  assert.equal(sentenceOf(shown, run.count, names), "Request 24 of 113, at 0.11 s: tick. Reply: tick 02000/00005 alarm 1201. Job 2 ran.");
  const work = "a_job_of_many_letters_an/";
  assert.equal(cellsOf(shown, names)[5], `2/30 1/20 3:${work}10 4/12 5:${work}20 6:${work}20 7:${work}20`);
  const waiting = rowOf(NAMED, 9);
  assert.equal(cellsOf(waiting.shown, waiting.names)[7], "02000:ALPHA+2 02100:BETA+2 02000:OTHER+3");
  const low = rowOf(asks(["novac 05 04000 00005"]), 1);
  assert.deepEqual(cellsOf(low.shown, low.names), ["1", "0.00", "novac 05 04000 00005", "job 1", "1", "1/05 . . . . . .", ". . . . .", "-", "the script"]);
});

test("rows are those of agc_watch trace", { skip }, () => {
  const examples = readdirSync(new URL("../../examples/", import.meta.url)).filter((it) => it.endsWith(".toml")).map((it) => text(`../../examples/${it}`));
  const called = (/** @type {number | string} */ it, /** @type {string | null} */ name) => (name ? `${it}:${name.replaceAll(" ", "_")}` : String(it));
  let count = 0;
  for (const document of [NAMED, THREE_ALARMS, ...examples.filter((it) => !/^seconds/m.test(it))]) {
    const run = whole(document);
    const names = new Names(run.bench);
    const { stdout } = spawnSync(WATCH, ["trace", "--jsonl"], { input: document, encoding: "utf8", maxBuffer: 1e9 });
    for (const row of stdout.trim().split("\n").map((it) => JSON.parse(it))) {
      const seat = (/** @type {any} */ it) => `${called(it.job, it.name)}/${it.priority}`;
      const sets = row.sets.map((/** @type {any} */ it) => (it === null ? "." : it.asleep ? `(${seat(it)})` : it.job === row.newjob ? `>${seat(it)}` : seat(it)));
      const tasks = row.tasks.map((/** @type {any} */ it) => `${called(it.at, it.name)}+${Math.round(100 * it.in)}`);
      assert.deepEqual(cellsOf(run.show(row.no, row.no)[0], names).slice(0, 8), [String(row.no), row.total.toFixed(2), row.request, row.reply, String(row.running ?? "-"),
        sets.join(" "), row.areas.map((/** @type {any} */ it) => it ?? ".").join(" "), tasks.join(" ") || "-"]);
      count += 1;
    }
  }
  assert.ok(count > 200, `only ${count} rows`);
});
