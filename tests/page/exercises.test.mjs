// The fields of the exercises have the answers that docs/teaching/solutions.md finds by the programs.
import assert from "node:assert/strict";
import { readFileSync } from "node:fs";
import { test } from "node:test";
import { start } from "../../libagc/js/machine.js";
import { EXERCISES, plainly, whole } from "../../web/fields.js";
import { moduleBytes } from "../../web/picture.mjs";
import { judged } from "../../web/predict.js";

await start(await moduleBytes());

/** What docs/teaching/solutions.md says. @type {Record<string, string[]>} */
const SOLVED = {
  1: ["12", "1201"], 2: ["3", "1"], 3: ["1201", "1202"], 4: ["3"], 5: ["10", "25"],
  6: ["02000, 05000", "04000, 04100", "05000", "02000", "04000"], 7: ["8", "5", "11"], 8: ["1202", "15", "25", "1201", "19", "30"],
  9: ["none", "1201", "6"], 10: ["22", "20"], 11: ["5", "04000, 05000", "02000"], 12: ["1", "48", "1201", "2"],
  13: ["85", "telemetry", "30", "0"], 14: ["autopilot", "1.7", "autopilot, guidance, display"], 15: ["90", "10", "1", "83", "2"],
};

const texts = [...readFileSync(new URL("../../docs/teaching/exercises.md", import.meta.url), "utf8").matchAll(/^```toml\n([^`]*)```/gm)].map((it) => it[1]);

for (const [number, wanted] of Object.entries(SOLVED)) {
  test(`exercise ${number} has its answers`, () => {
    const run = whole(texts[Number(number) - 1]);
    const found = EXERCISES[`exercise-${number}`].fields.map((it) => plainly(it.answer(run).value));
    assert.deepEqual(found, wanted.map(plainly));
  });
}

/** By hand: request 11 begins the sixth job that is alive then, and the fifth with an area. Each pass leaves one job more, so an end more puts
 * the alarm off by a pass and that end: from request 20 to 24, and to 28. In 20 s 40 telemetry jobs begin. */
test("a wrong answer is told what it would mean, and never the right one", () => {
  const means = (/** @type {number} */ number, /** @type {number} */ k, /** @type {string} */ given) => EXERCISES[`exercise-${number}`].fields[k].means?.(whole(texts[number - 1]), given) ?? "";
  for (const [number, k, given, wanted] of /** @type {[number, number, string, string][]} */ ([
    [1, 0, "11", "After request 11: 6 of 7 core sets, 5 of 5 areas, 0 of 9 tasks, and no alarm yet."], [1, 0, "13", "There is no such request."], [1, 1, "1203", "1203 would mean that nine tasks wait already; here at most 0."],
    [2, 0, "7", "That is all of them: how many of these sleep?"], [4, 0, "2", "With 2 more “end” the alarm comes still, in request 28."], [5, 1, "30", "That is enough; but fewer are, too."],
    [6, 0, "03000", "03000: no phase that is set names it here."], [6, 2, "02000", "It begins again all the same."], [7, 0, "3", "After request 3 job 1 runs."], [11, 0, "2", "77775 is the complement of 00002."],
    [13, 0, "20", "That is what telemetry asks for alone."], [13, 1, "guidance", "Each guidance ends in time: after 1.30 s at most, of 2.00 s."], [13, 2, "40", "So many telemetry jobs begin: does none of them end in time?"],
    [14, 2, "guidance, autopilot, display", "Then 10 deadlines are missed, the first one at 1.01 s, by autopilot."], [15, 2, "0.9", "With 0.9 s none is missed; and with more?"]])) {
    assert.equal(means(number, k, given), wanted);
  }
  for (const [name, { fields }] of Object.entries(EXERCISES)) for (const field of fields) {
    const run = whole(texts[Number(name.slice(9)) - 1]);
    const { value } = field.answer(run);
    for (const given of field.options ?? ["1", "7", "13", "31", "2.5", "02000", "05000", "x", "-1", "1e9"]) {
      const told = plainly(given) === plainly(value) ? "" : field.means?.(run, given) ?? "";
      if (!/NaN|undefined/.test(told) && !new RegExp(`(?<![0-9.])${value}(?![0-9.])`).test(told.replace(given, ""))) continue;
      assert.fail(`${name}, ${field.label} ${given}: ${told}`);
    }
  }
});

test("a load in percent may have decimals", () => {
  const now = { kept: [{ name: "exercise-15", text: texts[14] }], run: { source: { exercise: "exercise-15" } } };
  const isRight = (/** @type {string} */ load) => judged(/** @type {any} */ (now), ["", "", "", load, ""])[0].isRight;
  assert.deepEqual(["83", "83.3", "83,33 %", "84", "82.4", "most of it"].map(isRight), [true, true, true, false, false, false]);
});

test("an answer may be spelled in several ways", () => {
  for (const [one, other] of [["0.150 s", ",15".replace(",", "0,")], ["05000 02000", "02000, 05000"], ["22 %", "22"], ["None", "none"], ["048", "48"], ["4000 and 4100", "04100, 04000"]]) {
    assert.equal(plainly(one), plainly(other));
  }
  assert.notEqual(plainly("1201"), plainly("1202"));
});
