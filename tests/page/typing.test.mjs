// What is offered and said as a request is typed, what words of the memory are called, and which numbers of a run are sliders,
// with their bounds: each worked out by hand.
import assert from "node:assert/strict";
import { readFileSync } from "node:fs";
import { test } from "node:test";
import { start } from "../../libagc/js/machine.js";
import { readBench } from "../../web/bench.js";
import { runWith } from "../../web/clock.js";
import { whole } from "../../web/fields.js";
import { moduleBytes } from "../../web/picture.mjs";
import { Run } from "../../web/run.js";
import { differencesOf, numbersOf } from "../../web/sliders.js";
import { GLOSSARY } from "../../web/touch.js";
import { completions, hintOf } from "../../web/typing.js";
import { wordName } from "../../web/words.js";

await start(await moduleBytes());

/** At request 5 job 1 sleeps at 06000. */
test("what may come next is offered, and what a part of a line is, is said", () => {
  const run = whole(readFileSync(new URL("named.toml", import.meta.url), "utf8"));
  const [{ scene }] = run.show(5, 5);
  const address = "an address is five octal digits, 00001 to 37777";
  for (const [typed, offered, hint] of /** @type {[string, string[], string][]} */ ([
    ["rouse ", ["rouse 06000"], `rouse A: ${address}`], ["list 5 ", ["list 5 02000", "list 5 02100"], `list D A W: ${address}`],
    ["novac 20 w", ["novac 20 05000"], `novac P A W: ${address}`], ["novac 20 ", ["novac 20 05000", "novac 20 04000"], `novac P A W: ${address}`],
    ["novac 20 05000 ", ["novac 20 05000 00006", "novac 20 05000 00005", "novac 20 05000 00007"], "novac P A W: a word is five octal digits, 00000 to 77777"],
    ["phase 2 ", ["phase 2 3"], "phase G N: a phase is decimal, 0 to 127"], ["phase", ["phase"], "phase G N: set a restart group's phase"],
    ["pr", ["prio"], "A request, as in a script. The down arrow lists all kinds."], ["tick 5", [], "tick: let a centisecond pass"],
    ["list ", ["list 1", "list 100", "list 200"], "list D A W: a delay is decimal, 1 to 16250"]])) {
    assert.deepEqual([completions(typed, run.bench, scene), hintOf(typed)], [offered, hint], typed);
  }
});

test("words of the memory have names", () => {
  const names = Array.from({ length: 144 }, (_, place) => wordName(place));
  assert.equal(new Set(names).size, 144);
  for (const [place, name] of /** @type {[number, string][]} */ ([[0, "core set 0, number"], [7, "core set 0, MODE"], [83, "core set 6, PRIORITY"],
    [84, "use word of the VAC area at 00300"], [88, "use word of the VAC area at 00560"], [89, "NEWJOB"], [90, "TIME3"], [91, "LST1, word 1"],
    [98, "LST1, word 8"], [99, "LST2, address of task 1"], [100, "LST2, bank of task 1"], [116, "LST2, bank of task 9"], [117, "-PHASE1"], [118, "PHASE1"],
    [128, "PHASE6"], [129, "FAILREG, first"], [130, "FAILREG, second"], [131, "FAILREG, latest"], [132, "core set 7, number"], [143, "core set 7, PRIORITY"]])) {
    assert.equal(names[place], name);
  }
});

test("sliders have names that tell them apart, and bounds of their own", () => {
  const job = (/** @type {string} */ at, /** @type {string} */ more) => `[[job]]\nat = "${at}"\n${more}\n`;
  const tick = '[[event]]\nat = 0\ndo = "tick"\n';
  const lists = (/** @type {string} */ bank, /** @type {string} */ other) =>
    `[[task]]\nname = "T"\nat = "02000"\nbank = "${bank}"\naction = "list 9 02000 ${other}"\n`;
  const twins = `${job("04000", 'cost = 10\nname = "WORK"')}${job("05000", 'cost = 20\nname = "WORK"')}[[event]]\nname = "WORK"\nat = 0\nevery = 60\n`
    + 'do = ["novac 20 04000 00005", "novac 21 05000 00005"]\n';
  const sliders = (/** @type {string} */ text) => numbersOf(new Run(readBench(`seconds = 2\n${text}`)))
    .map(({ name, min, max, value }) => `${name} ${min} ${max} ${value}`);
  const [stolen, sets] = ["Stolen time 0 100 0", "Core sets 7 8 7"];
  for (const [text, wanted] of /** @type {[string, string[]][]} */ ([
    [twins, [stolen, "WORK needs (04000) 1 400 10", "WORK needs (05000) 1 400 20", "WORK every 1 400 60", sets, "WORK priority (04000) 1 31 16", "WORK priority (05000) 1 31 17"]],
    [lists("00005", "00005") + lists("00006", "00006"), [stolen, "T every (02000), 2 1 400 9", "T every (02000), 3 1 400 9", sets]],
    [lists("00005", "00006"), [stolen, sets]], [job("04000", "cost = 1000"), [stolen, "04000 needs 1 2000 1000", sets]],
    [`seed = 7\n${job("05000", "cost = { from = 1, to = 9 }")}${tick}`, [stolen, "Seed 1 100 7", sets]],
    [`seed = 7\n${job("05000", "cost = 3")}${tick}`, [stolen, "05000 needs 1 400 3", sets]]])) {
    assert.deepEqual(sliders(text), wanted);
  }
  assert.deepEqual(numbersOf(new Run(readBench(""))), []);
  let run = whole(`seconds = 2\n${twins}`);
  const [, first] = numbersOf(run);
  run = runWith(run, first.given(37), 0);
  const [, , second] = numbersOf(run);
  run = runWith(run, second.given(29), 0);
  assert.match(differencesOf(run), /^This run differs from its document: .*WORK costs .*0[.]37 s \(document: 0[.]10 s\); WORK costs .*0[.]29 s \(document: 0[.]20 s\)\.$/);
  const urgent = numbersOf(run).find((it) => it.name === "WORK priority (05000)");
  run.bench = { ...run.bench, ...urgent?.given(31) };
  assert.deepEqual(run.bench.event[0].do, ["novac 20 04000 00005", "novac 37 05000 00005"]);
  assert.match(differencesOf(run), /; WORK priority 37 \(document: 21\)\.$/);
});

test("the field's words are told as docs/MODEL.md has them", () => {
  const model = readFileSync(new URL("../../docs/MODEL.md", import.meta.url), "utf8").replaceAll("**", "").replace(/\s+/g, " ");
  for (const [name, ...wanted] of [["sets", "the address at which it begins, its priority and six work words", "The job in core set 0 runs, unless every job is asleep"],
    ["areas", "a longer block of memory"], ["tasks", "There is room for nine"], ["phases", "There are six restart groups, and each has a phase"],
    ["codes", "FAILREG keeps the codes of alarms"], ["newjob", "NEWJOB names the job that is more urgent than the running one"]]) {
    const told = JSON.stringify(GLOSSARY[/** @type {keyof typeof GLOSSARY} */ (name)]);
    for (const it of wanted) assert.ok(told.includes(it) && model.includes(it), `${it}: ${told}`);
  }
});

/** A key that is nearly another, one of another kind of document or table, and any other. */
test("an unknown key is told in its line, with what may be meant", () => {
  for (const [text, wanted] of [['title = "A"\nsecnds = 5\nsteal = 3\n', 'line 2: unknown key "secnds"; did you mean "seconds"?'],
    ['steal = 5\nscript = ["tick"]\n', 'line 1: unknown key "steal"; a scenario has it, which has "seconds" too'],
    ['seconds = 5\nscript = ["tick"]\n', 'line 2: unknown key "script"; a bench has it, but no scenario'],
    ['seconds = 5\n[[job]]\nat = "04000"\ncost = 1\nsteal = 5\n', 'line 5: job 1: unknown key "steal"; it belongs above all tables'],
    ['seconds = 1\n[[event]]\nat = 0\naction = "tick"\n', 'line 4: event 1: unknown key "action" in an event; did you mean "do"? Known: name, at, after, do, every, until'],
    ["seconds = 1\n[[job]]\nwcet = 5\n", 'line 3: job 1: unknown key "wcet" in a job; did you mean "cost"? Known: name, at, cost, deadline, then']]) {
    assert.throws(() => readBench(text), (/** @type {Error} */ fault) => fault.message.startsWith(wanted));
  }
});
