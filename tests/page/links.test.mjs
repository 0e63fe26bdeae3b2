// Links that are damaged: letters, parts, the document or what was done are others, by lot. A run comes of each, with all that was
// done, or a fault that the page tells; never an error of the language.
import assert from "node:assert/strict";
import { test } from "node:test";
import { Damaged, documentMark, follow, readAddress, readRecipe } from "../../web/address.js";
import { readBench } from "../../web/bench.js";
import { begunOf, passTime } from "../../web/clock.js";
import { packed, unpacked } from "../../web/files.js";
import { NO_SOURCE } from "../../web/run.js";
import { KEPT, Page, script } from "./state.mjs";

const MANY = 2000;
const FINDVAC = "findvac 20 02100 00005";
const TIMED = `seconds = 2\nsteal = 40\n[[job]]\nat = "04000"\ncost = 190\n[[event]]\nat = 0\ndo = "novac 20 04000 00005"\n`;
const LOTS = `seconds = 1\nseed = 3\n[[job]]\nname = "WORK"\nat = "04000"\ncost = { from = 1, to = 9 }\n[[event]]\nname = "WORK"\nat = 0\nevery = 20\ndo = "novac 20 04000 00005"\n`;
const LETTERS = [..."#&=-_%+/.?0129azAZ é\u2028", "\u{1f680}", ""];

/** What is in a recipe in place of something else. @type {any[]} */
const ODD = [null, true, -1, 0, 1, 8, 9, 0.5, 1e308, 2 ** 53, "", "x", "tick", "novac 20 02000 00005", "the clock", "event 1", [], [[]], {}, { at: 1 },
  ["c", 5], ["y", "tick", "you"], ["s", { steal: 101 }], ["s", { sets: 9 }], ["s", null], ["d", 1e9], "\ud800"];

/** Chance, the same each time: a number below this one. */
let lot = 1202;
const below = (/** @type {number} */ most) => (lot = (48271 * lot) % 2147483647) % most;
const choice = (/** @type {any} */ all) => all[below(all.length)];

/** A value of JSON, of which a part by lot is another. @param {any} it @returns {any} */
function exchanged(it) {
  if (it === null || typeof it !== "object" || Object.keys(it).length === 0 || below(5) === 0) return choice(ODD);
  const key = choice(Object.keys(it));
  if (Array.isArray(it)) return below(7) === 0 ? it.toSpliced(Number(key), 1) : it.with(Number(key), exchanged(it[Number(key)]));
  return { ...it, [below(5) === 0 ? choice(["x", "given", "parts", "sets", "__proto__"]) : key]: exchanged(it[key]) };
}

/** A damaged link. @param {string[]} marks */
async function damaged(marks) {
  const mark = choice(marks);
  const parts = mark.slice(1).split("&");
  const [at, k] = [below(mark.length), parts.findIndex((/** @type {string} */ it) => it.startsWith("do="))];
  switch (below(6)) {
    case 0: return `#${mark.slice(1, at)}${choice(LETTERS)}${mark.slice(at + below(3))}`;
    case 1: return mark.slice(0, at);
    case 2: return `#${[...parts.slice(below(parts.length)), ...choice(marks).slice(1).split("&")].join("&")}`;
    case 3: return `${mark}&${choice(["at=999999999", "at=-1", "at=", "see=9-3", "see=0-0", "shown", "embed", "x", "do=", "bench=", "was=0", "was=x"])}`;
    case 4: return `#bench=${await packed(TIMED.slice(0, below(TIMED.length)) + choice(LETTERS) + TIMED.slice(below(TIMED.length)))}`;
    default: return k < 0 ? `${mark}&do=${await packed(JSON.stringify({ parts: [choice(ODD), choice(ODD)] }))}`
      : `#${parts.with(k, `do=${await packed(JSON.stringify(exchanged(JSON.parse(await unpacked(parts[k].slice(3))))))}`).join("&")}`;
  }
}

/** The run that a link leads to, as web/keep.js opens it; null where it names nothing. @param {string} mark */
async function opened(mark) {
  const { name, bench, done } = readAddress(mark);
  const text = bench !== "" ? await unpacked(bench).catch(() => { throw new Damaged(""); }) : name === "new" ? "" : KEPT.find((it) => it.name === name)?.text;
  if (text === undefined) return null;
  const given = readBench(text);
  if (done === "") return { run: begunOf(given, { title: "", about: "", source: NO_SOURCE, given }), parts: [] };
  const recipe = await readRecipe(done, given);
  const run = begunOf({ ...given, ...recipe.given }, { title: "", about: "", source: NO_SOURCE, given });
  await follow(run, recipe, passTime, async () => {});
  return { run, parts: recipe.parts };
}

test("whatever is behind #, there is a run or a fault that can be told", async () => {
  const pages = [new Page(TIMED).slide("Stolen time", 30), new Page(LOTS).slide("Seed", 9).slide("WORK every", 30).slide("WORK priority", 5).slide("Stolen time", 10), new Page(TIMED).act("ask", FINDVAC).slide("Core sets", 8).act("ask", FINDVAC),
    new Page("#waitlist-full").act("ask", FINDVAC), new Page("#exercise-2").act("reveal").act("ask", FINDVAC), new Page(script([])).act("ask", "tick").act("ask", FINDVAC)];
  const made = await Promise.all(pages.map(async (it) => `#${await documentMark(it.now, KEPT, "", false)}`));
  assert.ok(made.every((it) => it.includes("&do=")), made.join("\n"));
  for (const [k, mark] of made.entries()) {
    const [found, { run, count }] = [await opened(mark), pages[k].now];
    assert.deepEqual([found?.run.lines.slice(0, count + 1), found?.run.sets], [run.lines.slice(0, count + 1), run.sets], mark);
  }
  const marks = [...made, "#new", "#exercise-3&shown&at=2", "#no-vac-area&see=2-6&embed", "#race-order"];
  const counts = { runs: 0, faults: 0 };
  for (let k = 0; k < MANY; k++) {
    const mark = await damaged(marks);
    try {
      const found = await opened(mark);
      counts.runs += Number(found !== null);
      for (const [kind, one, who] of found?.parts ?? []) assert.ok(kind !== "y" || found?.run.lines.includes(String(one)), `${one} ${who} isn't asked: ${mark}`);
    } catch (fault) {
      const isError = [TypeError, RangeError, ReferenceError, SyntaxError, assert.AssertionError].some((it) => fault instanceof it);
      assert.ok(!isError, `${mark}: ${/** @type {Error} */ (fault).stack}`);
      counts.faults += 1;
    }
  }
  assert.ok(counts.runs > MANY / 10 && counts.faults > MANY / 10, JSON.stringify(counts));
});
