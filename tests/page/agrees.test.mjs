// Of random scenarios the strip of a slider has the first alarms that `agc_watch sweep` has, and the table of jobs what `agc_watch jobs`
// has; and of each with another priority and stolen time the strip has the first missed deadline that `jobs` has. No job takes longer
// than its longest response is calculated. AGREEMENTS in the environment says how many scenarios there are.
import assert from "node:assert/strict";
import { test } from "node:test";
import { Lacking, start } from "../../libagc/js/machine.js";
import { readBench, writeBench } from "../../web/bench.js";
import { boundsOf } from "../../web/bounds.js";
import { runOf } from "../../web/clock.js";
import { jobsOf, withPriority } from "../../web/jobs.js";
import { moduleBytes } from "../../web/picture.mjs";
import { firstsOf } from "../../web/sweep.js";
import { Unread } from "../../web/toml.js";
import { octal } from "../../web/words.js";
import { WATCH, each, python, skip } from "./programs.mjs";

await start(await moduleBytes());

const COUNT = Number(process.env.AGREEMENTS ?? 60);
const MAKE = `import sys, json
sys.path.insert(0, "tools")
from plain.make import Dice, scenario, toml
print(json.dumps([toml(scenario(Dice(k))) for k in range(${COUNT})]))`;

/** The columns of `agc_watch jobs` that the page's table has. */
const COLUMNS = ["began", "ended", "lost", "alive", "least", "mean", "most", "share", "missed", "first_missed"];

/** How far a quotient may lie below what it is exactly. */
const EXACT = 1e-9;

/** What comes first in a scenario. @param {import("../../web/bench.js").Bench} bench */
function first(bench) {
  const steps = firstsOf(bench);
  for (;;) {
    const { done, value } = steps.next();
    if (done) return value;
  }
}

/** The first alarms of a scenario. @param {import("../../web/bench.js").Bench} bench */
function sweptBy(bench) {
  return [7, 8].flatMap((sets) => [0, 30, 60, 90].map((steal) => {
    const { alarm } = first({ ...bench, steal, sets });
    return [sets, steal, ...(alarm === null ? ["", ""] : [octal(alarm.code, 4), (alarm.time / 100).toFixed(2)])].join(",");
  }));
}

/** A scenario in which its first job is the most urgent, with some stolen time. @param {import("../../web/bench.js").Bench} bench @param {number} steal */
const moved = (bench, steal) => ({ ...bench, steal, ...withPriority(bench, bench.job[0]?.at ?? "04000", 31) });

/** Hundredths of a centisecond, as `agc_watch` writes them: to the nearest, or with this many added. @param {number} hundredths */
const seconds = (hundredths, added = 50) => (Math.floor((hundredths + added) / 100) / 100).toFixed(2);

/** The lines of a table without the names of jobs, whose commas don't matter: they come first. @param {string} text */
const rowsOf = (text) => text.trim().split("\n").map((it) => it.replace(/^"[^"]*"/, "").split(","));

/** A row of the table of jobs, as those columns. @param {import("../../web/jobs.js").JobRow} row */
function cellsOf({ began, ended, lost, alive, least, mean, most, share, deadline, missed, firstMissed }) {
  const responses = ended === 0 ? ["", "", ""] : [seconds(least), seconds(mean), seconds(most, 99)];
  return [began, ended, lost, alive, ...responses, (Math.floor(1000 * share + 0.5 + EXACT) / 10).toFixed(1),
    deadline === null ? "" : missed, firstMissed === null ? "" : seconds(firstMissed, 100)].join(",");
}

/** What the page has of a document; null where it isn't one. @param {string} text */
function computed(text) {
  try {
    const bench = readBench(text);
    const run = runOf(bench, [], {}, Infinity);
    const jobs = jobsOf(run, run.count);
    const limits = run.alarms.length > 0 ? null : boundsOf(bench);
    for (const { at, most } of jobs) assert.ok(most <= (limits?.longest.get(at) ?? Infinity), `${octal(at, 5)} takes ${most}: ${text}`);
    return { bench, swept: sweptBy(bench), jobs: jobs.map(cellsOf) };
  } catch (fault) {
    if (fault instanceof Lacking || fault instanceof Unread) return null;
    throw fault;
  }
}

test("the page computes what agc_watch does", { skip }, async () => {
  const texts = python(["-c", MAKE]);
  const sweeps = await each(WATCH, ["sweep", "sets", "7", "8", "--and", "steal:0:90:30", "--csv"], texts);
  const jobs = await each(WATCH, ["jobs", "--csv"], texts);
  const later = [];
  let alarms = 0;
  for (const [k, text] of texts.entries()) {
    const found = computed(text);
    assert.equal(found === null, sweeps[k].status !== 0, text);
    if (found === null) continue;
    const { bench, ...here } = found;
    later.push(moved(bench, 10 * (k % 8)));
    const [, ...swept] = sweeps[k].text.trim().split("\n").map((it) => it.split(",").slice(0, 4).join());
    const [head, ...rows] = rowsOf(jobs[k].text);
    const wanted = rows.map((row) => COLUMNS.map((it) => row[head.indexOf(it)]).join());
    assert.deepEqual(here, { swept, jobs: wanted }, text);
    alarms += swept.filter((it) => !it.endsWith(",")).length;
  }
  assert.ok(alarms > COUNT, `only ${alarms} alarms`);
  const others = await each(WATCH, ["jobs", "--csv"], later.map(writeBench));
  let late = 0;
  for (const [k, bench] of later.entries()) {
    const [head, ...rows] = rowsOf(others[k].text);
    const times = rows.map((row) => row[head.indexOf("first_missed")]).filter((it) => it !== "").sort((one, other) => Number(one) - Number(other));
    const { missed } = first(bench);
    assert.equal(missed === null ? undefined : seconds(missed.due, 100), times[0], writeBench(bench));
    late += Number(missed !== null);
  }
  assert.ok(late > COUNT / 10, `only ${late} missed deadlines`);
});
