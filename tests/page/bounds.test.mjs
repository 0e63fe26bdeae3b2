// What is said of jobs before they run: responses worked out by hand, as textbooks do, and what no order of priorities can do.
import assert from "node:assert/strict";
import { test } from "node:test";
import { boundsOf } from "../../web/bounds.js";
import { readBench } from "../../web/bench.js";

/** A scenario of jobs that come again and again: cost, period, priority and deadline. @param {number[][]} jobs @param {string} [more] */
function scenario(jobs, more = "") {
  const tables = jobs.map(([cost, period, priority, deadline], k) => `[[job]]\nat = "0400${k}"\ncost = ${cost}\n${deadline === undefined ? "" : `deadline = ${deadline}\n`}`
    + `[[task]]\nat = "0200${k}"\nbank = "00005"\naction = ["novac ${priority} 0400${k} 00005", "list ${period} 0200${k} 00005"]\n`);
  return boundsOf(readBench(`seconds = 60\n${more}${tables.join("")}[[event]]\nat = 0\ndo = ${JSON.stringify(jobs.map((_, k) => `list 1 0200${k} 00005`))}\n`));
}

/** The longest responses, in centiseconds. @param {ReturnType<typeof boundsOf>} bounds */
const responses = (bounds) => [...bounds?.longest.values() ?? []].map((it) => it / 100);

/** In 7, 12 and 20 seconds 3, 3 and 5: the last one waits for 3 + 3, and again as often as these come within 20. */
test("the longest response counts what comes in between", () => {
  const bounds = scenario([[300, 700, 30], [300, 1200, 20], [500, 2000, 10]]);
  assert.deepEqual(responses(bounds), [300, 600, 2000]);
  assert.equal(bounds?.safe?.toFixed(4), "0.7798");
});

/** 62 of 100 after 26 of 70 leave work from the first to the end of the seventh, 7 * 62 + 10 * 26: and of two that are alive either may go first. */
test("a job may wait for those of its own kind, before it and after it", () => {
  assert.deepEqual(responses(scenario([[26, 70, 20], [62, 100, 10]])), [26, 694]);
});

test("which load is safe is said only where priorities go by periods, and no deadline is before the next job", () => {
  assert.equal(scenario([[300, 700, 20], [300, 1200, 30]])?.safe, null);
  assert.equal(scenario([[300, 700, 30, 600], [300, 1200, 20]])?.safe, null);
  assert.equal(scenario([[300, 700, 30, 700], [300, 1200, 20]])?.safe?.toFixed(4), "0.8284");
});

/** Of each centisecond 10 hundredths are stolen: 10,000 take 111 centiseconds more than they fill, and one that isn't full. */
test("stolen time makes all of it longer", () => {
  const bounds = scenario([[100, 1000, 20]], "steal = 10\n");
  assert.deepEqual([responses(bounds), bounds?.safe], [[111.1], 1]);
  assert.deepEqual(responses(scenario([[100, 1000, 20]], "steal = 95\n")), [Infinity]);
});

/** 2 of 5 and 4 of 7 are 97 %: the second ends after 8, or the first after 6; with 3 of 7 it is 7. */
test("an order of priorities is there, or none", () => {
  assert.deepEqual([[200, 500, 20, 500], [400, 700, 10, 700]].map((_, k, all) => scenario(k === 0 ? all : all.toReversed())?.hasOrder), [false, false]);
  assert.equal(scenario([[200, 500, 10, 500], [300, 700, 20, 700]])?.hasOrder, true);
  assert.equal(scenario([[200, 500, 10], [400, 700, 20]])?.hasOrder, true);
});

test("nothing is said where a cost isn't known, or how often a job comes", () => {
  const asks = (/** @type {string} */ line) => boundsOf(readBench(`seconds = 9\n[[job]]\nat = "04000"\ncost = 5\n[[event]]\nat = 0\ndo = "${line}"\n`));
  assert.equal(asks("novac 20 05000 00005"), null);
  assert.equal(asks("rouse 04000"), null);
  assert.deepEqual(responses(asks("novac 20 04000 00005")), [5]);
});
