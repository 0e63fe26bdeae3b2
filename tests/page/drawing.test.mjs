// What the drawing module makes of runs, each worked out by hand, that no label meets another one or leaves its picture, and
// that the pictures in examples/ are those of their documents.
import assert from "node:assert/strict";
import { readFileSync, readdirSync } from "node:fs";
import { test } from "node:test";
import { Clock, start } from "../../libagc/js/machine.js";
import { Names } from "../../web/account.js";
import { readBench, requestsOf } from "../../web/bench.js";
import { Colours } from "../../web/colours.js";
import { pictureOf } from "../../web/drawing.js";
import { Scale } from "../../web/drawing-scale.js";
import { svgOf, textWidth } from "../../web/drawing-pens.js";
import { hitAt } from "../../web/drawing-words.js";
import { budgetOf, countsOf, partAsked } from "../../web/work.js";
import { drawn, moduleBytes } from "../../web/picture.mjs";
import { Run } from "../../web/run.js";
import { marksOf, toldOf } from "../../web/strips.js";
import { faultsOf } from "./marks.mjs";

await start(await moduleBytes());

const TOP = new URL("../../", import.meta.url);

/** @param {string} what @param {unknown} found @param {unknown} wanted */
function expect(what, found, wanted) {
  assert.equal(JSON.stringify(found), JSON.stringify(wanted), `${what}: ${JSON.stringify(found)}, and not ${JSON.stringify(wanted)}`);
}

/** A run of a document, to the end of its time. @param {string} text */
function runOf(text) {
  const bench = readBench(text);
  const run = new Run(bench);
  for (const [line, who] of requestsOf(bench)) run.ask(line, who);
  if (bench.seconds !== undefined) {
    const { seconds, seed, steal, job, event } = bench;
    run.startClock(new Clock({ seconds, seed, steal, job, event }));
    run.askByClock(1_000_000, (it) => (it === null ? "the clock" : `event ${bench.event[it].name ?? it + 1}`));
  }
  return run;
}

/** @param {string[]} lines @param {string} [more] */
function script(lines, more = "") {
  return runOf(`${more}script = ${JSON.stringify(lines)}\n`);
}

const WORK = 'seconds = 2\nsteal = 50\n[[job]]\nname = "WORK"\nat = "04000"\ncost = 10\n'
  + '[[event]]\nname = "begin"\nat = 0\ndo = "novac 20 04000 00005"\n';

/** Half of each centisecond is stolen, so 10 centiseconds take 20; the first of them passes with the second tick. */
test("work is counted", () => {
  const run = runOf(WORK);
  const work = countsOf(run, run.count);
  const at = [0, 1, 2, 11, 20, 21].map((tick) => run.columns.waiting.items[run.rowAtTime(tick, run.count)]);
  expect("work that waits", at, [0, 1000, 950, 500, 50, 0]);
  expect("the most, and no table was full", [work.most, work.full], [1000, Infinity]);
  const lots = runOf('seconds = 2\nseed = 1\n[[job]]\nat = "04000"\ncost = 10\n[[job]]\nat = "05000"\ncost = { from = 10, to = 20 }\n'
    + '[[event]]\nat = 0\ndo = ["novac 20 04000 00005", "novac 10 05000 00005"]\n');
  expect("a cost by lot counts as its mean", lots.columns.waiting.items[2], 2500);
  expect("no costs, no work", pictureOf(runOf("seconds = 1\n"), 100, { width: 700 }).bands.some((it) => it.kind === "work"), false);
});

/** A job that needs half a second and has three tenths: a mark where it is asked for, a red one at its deadline, and red from there on. */
test("deadlines are marked", () => {
  for (const [deadline, fill] of /** @type {[number, string][]} */ ([[30, "alarm"], [60, "ink"]])) {
    const run = runOf(`seconds = 1\n[[job]]\nat = "04000"\ncost = 50\ndeadline = ${deadline}\n[[event]]\nat = 10\ndo = "novac 20 04000 00005"\n`);
    const picture = pictureOf(run, run.count, { width: 700 });
    const placeOf = (/** @type {number} */ ticks) => picture.left + (ticks / 100) * (picture.right - picture.left);
    const near = (/** @type {number} */ x, /** @type {number} */ ticks) => Math.abs(x - placeOf(ticks)) < 8;
    const red = picture.marks.filter((it) => it.kind === "rect" && it.fill === "alarm");
    expect(`red after ${deadline}`, red.map((it) => it.kind === "rect" && near(it.x, 40) && near(it.x + it.width, 60)), fill === "alarm" ? [true] : []);
    const marks = picture.marks.flatMap((it) => (it.kind === "path" && it.points.length === 4 && it.stroke === undefined ? [it] : []));
    expect(`marks of ${deadline}`, marks.map((it) => [it.fill, near(it.points[1][0], it.fill === "alarm" ? 40 : it === marks[0] ? 10 : 70)]), [["ink", true], [fill, true]]);
  }
});

/** Seven jobs of 10 centiseconds: as the seventh comes 70 wait; the eighth finds none, and the restart sweeps them. */
test("alarms sweep work", () => {
  const run = runOf(WORK.replace('do = "novac', `do = [${'"novac 20 04000 00005", '.repeat(7)}"novac`).replace('00005"\n', '00005"]\n'));
  const work = countsOf(run, run.count);
  const [alarm] = run.alarms;
  expect("the alarm's row", alarm, 8);
  expect("work before it, and after it", [run.columns.waiting.items[alarm - 1], run.columns.waiting.items[alarm]], [7000, 0]);
  expect("a table is full from here on", work.full, 7000);
});

/** 170 of 200 are 85 %, 12 of 100 are 12 %, and 15 % are stolen. After the alarm at 38.01 s no display is asked for. */
test("budgets are added up", () => {
  const run = runOf(readFileSync(new URL("examples/landing.toml", TOP), "utf8"));
  const shares = (/** @type {number} */ from, /** @type {number} */ to) => {
    const found = budgetOf(run, run.count, { from, to });
    return [found?.jobs.map((it) => it.share), found?.stolen, found?.total];
  };
  expect("from 10 to 20 s", shares(1000, 2000), [[85, 12], 15, 112]);
  expect("a part of a period", shares(1010, 1040), [[85, 12], 15, 112]);
  expect("after the alarm", shares(20_000, 30_000), [[85], 15, 100]);
  const upTo = budgetOf(run, run.count, partAsked(run, { from: 0, to: 4500 }));
  expect("up to the alarm, without what its restart asks for", [upTo?.jobs.map((it) => it.share), upTo?.total], [[85, 12], 112]);
  expect("stolen in half of the time", budgetOf(runOf(WORK.replace("steal = 50", "steal = [{ from = 0, to = 100, percent = 50 }]")), 200, { from: 0, to: 200 })?.stolen, 25);
});

/** 85 % of two seconds are 1.7 s, of which two displays take 0.24 s: 1.46 s are left. What waits as long as 1 s says so. */
test("the picture says why its alarm came", () => {
  const run = runOf(readFileSync(new URL("examples/landing.toml", TOP), "utf8"));
  const told = (/** @type {string[]} */ parts) => pictureOf(run, run.count, { width: 900, to: 4500, parts }).marks.flatMap((it) => (it.kind === "text" ? [it.text] : []));
  const notes = ["each SERVICER adds 1.7 s of work, but only 1.5 s gets done", "all 5 areas taken:", "5 SERVICERs"];
  expect("what is said", notes.map((it) => told(["alarms", "work", "sets", "notes"]).includes(it)), [true, true, true]);
  expect("who waits, and since when", told(["sets", "notes"]).some((it) => /^SERVICER, waiting since [0-9]+([.][0-9]+)? s$/.test(it)), true);
  // (in a view that begins long before, it doesn't hold)
  const apollo = runOf(readFileSync(new URL("examples/apollo-11.toml", TOP), "utf8"));
  expect("a steady part isn't explained", pictureOf(apollo, apollo.count, { width: 900, parts: ["work", "notes"] }).marks.filter((it) => it.kind === "text" && it.text.includes("done")), []);
  expect("without notes", told(["alarms", "work", "sets"]).filter((it) => notes.includes(it) || it.includes("waits")), []);
});

/** By requests each has a column, and one more what its restart swept. */
test("requests have columns", () => {
  const run = script(["novac 20 04000 00005", "restart", "novac 20 04100 00005"]);
  const scale = new Scale(run, 3);
  expect("places", [0, 1, 2, 3].map((row) => scale.placeOf(row)), [0, 1, 3, 4]);
  expect("keys", [0, 1, 2, 3, 4, 4.9].map((place) => scale.keyAt(place)), [1, 3, 4, 5, 7, 7]);
  expect("the end", scale.end, 5);
  expect("ticks of a bench", [20, 120, 121].map((count) => new Scale(script(Array(count).fill("tick")), count).isTime), [false, false, true]);
});

/** One of these runs has a restart with its second request: what follows stands in the same column of both, and its end, too. */
test("a run before has the columns of this one", () => {
  const [restarted, plain] = ["restart", "change"].map((it) => script(["novac 20 04000 00005", it, "novac 20 04100 00005"]));
  for (const [run, other, wanted] of /** @type {[Run, Run, number[]][]} */ ([[plain, restarted, [0, 1, 2, 3, 4]], [restarted, plain, [0, 1, 3, 4, 5]]])) {
    const scale = new Scale(run, 3).ofOther({ run: other, count: 3 });
    expect("columns", [...[0, 1, 2, 3].map((row) => scale?.placeOf(row)), scale?.end], wanted);
  }
});

/** The second task of the tick finds no core set: what the first one established is seen nowhere but in that moment. */
test("moments are kept", () => {
  const task = (/** @type {string} */ at) => `[[task]]\nat = "${at}"\nbank = "00005"\naction = "novac 20 04${at.slice(2)} 00005"\n`;
  const run = runOf(`script = ${JSON.stringify([...Array(6).fill("novac 10 05000 00005"), "list 1 02100 00005", "list 1 02200 00005", "tick"])}\n${task("02100")}${task("02200")}`);
  expect("an alarm", run.alarms, [9]);
  const set = run.lanes.logs.set.map((_, k) => run.lanes.blockAt(k, 2 * 9)?.at);
  expect("the job of the moment runs", set.filter((it) => it === 0o4100 || it === 0o4200).length, 1);
  expect("after it nobody does", run.lanes.logs.set.map((_, k) => run.lanes.blockAt(k, 2 * 9 + 1)), Array(7).fill(null));
  const picture = pictureOf(run, run.count, { width: 900 });
  expect("it is told", svgOf(picture).includes("job 7, 04100") || svgOf(picture).includes("job 7, 04200"), true);
});

/** What is said at a place: of the job that is there then, of a free place, of a strip, and of an alarm's line. */
test("places are told", () => {
  const run = script(["list 5 02000 00005", ...Array(24).fill("tick"), "findvac 20 04000 00005", "findvac 20 04100 00005", "end"]);
  const picture = pictureOf(run, run.count, { width: 900, opened: ["areas", "tasks"] });
  const at = (/** @type {string} */ kind, /** @type {number} */ k, /** @type {number} */ row) => {
    const band = picture.bands.find((it) => it.kind === kind && it.k === k);
    return hitAt(picture, picture.xOf(picture.scale.placeOf(row)) + 1, (band?.top ?? 0) + 2)?.text.split("\n");
  };
  expect("a task", at("task", 0, 5), ["request 5, Waitlist", "task 02000", "since request 1", "until 0.05 s (request 6)"]);
  expect("a place that is free again", at("task", 0, 6), ["request 6, Waitlist: nothing waits here"]);
  expect("a job", at("set", 0, 28), ["request 28, core set 0", "job 2, 04100", "priority 20, runs, VAC area 2", "since 0.24 s (request 27)", "still there at the end"]);
  expect("the first area", at("area", 0, 27), ["request 27, VAC area 1", "job 1, 04000", "priority 20, runs, VAC area 1", "since 0.24 s (request 26)", "until 0.24 s (request 28): end"]);
  expect("a free core set", at("set", 3, 28), ["request 28, core set 3: free"]);
  expect("beside all", hitAt(picture, 5, 1), null);
});

/** Digits are 0.59 of their size wide. A longer name isn't written where it has no room. */
test("texts have room", () => {
  expect("how wide a code is", textWidth("1202", 12), 28.32);
  const named = (/** @type {string} */ name) => pictureOf(runOf(WORK.replace('"WORK"', `"${name}"`)), 40, { width: 400 })
    .marks.filter((it) => it.kind === "text").map((it) => it.text);
  expect("a name that has room", named("WORK").includes("WORK"), true);
  expect("a name that has none", named("W".repeat(90)).includes("W".repeat(90)), false);
});

/** 320 points are 32 columns of 10 for 31 requests, where a digit of 7.08 has room in the middle; for 40 a column has 7.8, and it needs 2 more. */
test("a narrow block has its job's number", () => {
  const texts = (/** @type {number} */ count) => {
    const run = script(["novac 20 02000 00005", "end", ...Array(count - 2).fill("change")]);
    return pictureOf(run, count, { width: 384, parts: ["sets"] }).marks.flatMap((it) => (it.kind === "text" && it.fill === "i0" ? [[it.text, it.x, it.anchor]] : []));
  };
  expect("31 requests", texts(31), [["1", 69, "middle"]]);
  expect("40 requests", texts(40), []);
});

/** No text is smaller than 12 points, meets another one, or leaves the picture, and neither does any mark. */
test("nothing meets", () => {
  const names = readdirSync(new URL("examples/", TOP)).filter((it) => it.endsWith(".toml"));
  for (const name of names) {
    const run = runOf(readFileSync(new URL(`examples/${name}`, TOP), "utf8"));
    for (const view of [{ width: 960 }, { width: 360, high: 20 }, { width: 860, high: 40, to: 4500, parts: ["alarms", "work", "sets", "axis", "notes"] }, { width: 1900, text: 19, high: 40, opened: ["areas", "tasks"] },
      { width: 700, parts: ["title", "events", "alarms", "work", "sets", "strips", "before", "axis", "budget", "notes", "legend"], title: "A ".repeat(99), before: { run, count: run.count } }]) {
      expect(`${name}, ${view.width} points wide`, faultsOf(pictureOf(run, run.count, view)), []);
    }
  }
});

/** Of an exercise that is asked only the first rows are drawn, in the room of all. */
test("the rows up to one are drawn, with room for the others", () => {
  const run = runOf(readFileSync(new URL("examples/no-vac-area.toml", TOP), "utf8"));
  const [some, all] = [3, run.count].map((count) => pictureOf(run, count, { width: 900, all: run.count, parts: ["alarms", "sets", "axis"] }));
  expect("as wide", some.scale.end, all.scale.end);
  const far = (/** @type {any} */ picture) => Math.max(...picture.marks.flatMap((/** @type {any} */ it) => (it.kind === "rect" && /^[bph][0-9]/.test(it.fill) ? [it.x + it.width] : [])));
  assert.ok(far(some) <= some.xOf(some.scale.placeOf(3) + 1) && far(all) > some.xOf(some.scale.placeOf(6)), `${far(some)} ${far(all)}`);
  expect("its alarms", [some, all].map((it) => it.marks.filter((mark) => mark.kind === "path" && mark.stroke === "alarm").length), [0, 1]);
});

/** What is drawn is told, and what isn't, isn't: in the first second of these jobs no deadline is missed. */
test("the legend tells the marks that there are", () => {
  const run = runOf(readFileSync(new URL("examples/still-too-late.toml", TOP), "utf8"));
  const entries = (/** @type {number} */ count) => {
    const bare = pictureOf(run, count, { width: 900, parts: ["sets"] }).marks.length;
    return pictureOf(run, count, { width: 900, parts: ["sets", "legend"] }).marks.slice(bare).flatMap((it) => (it.kind === "text" && !it.text.startsWith("set ") ? [it.text] : []));
  };
  expect("all", entries(run.count), ["runs", "waits", "asked for", "deadline", "deadline missed", "guidance", "steering"]);
  expect("the first second", entries(run.rowAtTime(95, run.count)).includes("deadline missed"), false);
});

/** Values 0 to 10: up to 4 no alarm comes, and from 8 on a deadline is missed, as the bar along the bottom says; the own curve is bold. */
test("a strip marks what comes of each value", () => {
  const first = (/** @type {number} */ k, /** @type {number} */ time) => ({ alarm: k < 5 ? null : { code: 0o1202, time }, missed: k < 8 ? null : { at: 0, due: 100 } });
  const firsts = [100, 90].map((time) => new Map(Array.from({ length: 11 }, (_, k) => [k, first(k, time)])));
  const number = { name: "it", own: "%", min: 0, max: 10, value: 9, unit: "%", what: "", given: () => ({}) };
  const marks = marksOf({ firsts, isDone: true, number }, 116, 1);
  expect("no text is in it, which could meet a curve", marks.filter((it) => it.kind === "text").length, 0);
  expect("what is said below it", toldOf({ firsts, isDone: true, number }), ["no alarm up to 4 % (shaded)", "a deadline is missed from 8 % (red below)"]);
  // (a value is 10 points wide, from 8 on; what holds of one holds halfway to the next)
  expect("where none comes, and where one misses", marks.flatMap((it) => (it.kind === "rect" && it.fill !== "line" ? [[it.fill, it.x, it.x + it.width]] : [])), [["work", 0, 53], ["alarm", 83, 116]]);
  expect("the curves", marks.flatMap((it) => (it.kind === "path" && it.fill === undefined ? [[it.stroke, it.width, it.isDashed ?? false]] : [])), [["curve", 1, true], ["alarm", 2, false]]);
});

/** A job has one colour, before and after, and whichever run is drawn first. */
test("colours stay", () => {
  const text = readFileSync(new URL("examples/landing.toml", TOP), "utf8");
  const [run, other] = [runOf(text), runOf(text.replace("steal = 15", "steal = 0"))];
  const names = new Names(run.bench);
  const colours = new Colours(run.bench, names);
  const fills = (/** @type {Run} */ one) => new Set(pictureOf(one, one.count, { width: 900, names, colours, before: { run, count: run.count } })
    .marks.flatMap((it) => (it.kind === "rect" && /^[bph][0-9]/.test(it.fill) ? [it.fill.slice(1)] : [])));
  expect("two jobs, two colours", [[...fills(run)].sort(), [...fills(other)].sort()], [["0", "1"], ["0", "1"]]);
  expect("red is for alarms", new Set(pictureOf(other, other.count, { width: 900 }).marks.flatMap((it) =>
    (it.fill === "alarm" || (it.kind === "path" && it.stroke === "alarm") ? [it.kind] : []))).size, 0);
});

/** A name is text, whatever is in it, and the same run makes the same picture. */
test("names are no markup", () => {
  const name = "</title><script>x</script>&amp;\"']]>";
  const text = WORK.replace('"WORK"', JSON.stringify(name)).replace('"begin"', JSON.stringify(name));
  const [one, other] = [runOf(text), runOf(text)].map((run) => svgOf(pictureOf(run, run.count, { width: 1200 }), name));
  expect("markup", /<script|<\/title><s/.test(one), false);
  expect("the name", one.includes("&lt;/title&gt;&lt;script&gt;x&lt;/script&gt;&amp;amp;&quot;&#39;]]&gt;"), true);
  expect("the same picture", one === other, true);
});

test("the pictures in examples/ are those of their documents", () => {
  for (const name of readdirSync(new URL("examples/", TOP)).filter((it) => it.endsWith(".svg"))) {
    const [svg, text] = [name, name.replace(".svg", ".toml")].map((it) => readFileSync(new URL(`examples/${it}`, TOP), "utf8"));
    assert.ok(drawn(text, { width: 680, isEight: false }).svg === svg, `${name}: web/picture.mjs draws it otherwise`);
  }
});
