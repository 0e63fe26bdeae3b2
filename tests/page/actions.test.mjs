// What the page shows after actions, one after the other, as keys, buttons and sliders begin them: each worked out by hand, or as the
// documents have it. The times of the landing are those of docs/LANDING.md, and those of Apollo 11 of docs/teaching/history.md.
import assert from "node:assert/strict";
import { test } from "node:test";
import { cameText, orderOf } from "../../web/account.js";
import { lateOf } from "../../web/because.js";
import { scenarioOf } from "../../web/build.js";
import { summaryOf } from "../../web/drawing-words.js";
import { fillOn } from "../../web/clock.js";
import { jobsOf, missedIn } from "../../web/jobs.js";
import { judged } from "../../web/predict.js";
import { isHidden, namesOf, rowOf, shownOf, textOf } from "../../web/state.js";
import { triedText, triesOf } from "../../web/story.js";
import { Page, read, script } from "./state.mjs";

const [THREE_ALARMS, NOVAC] = [read("tests/page/three-alarms.toml"), "novac 20 04000 00005"];

/** These actions lead to these rows. @param {Page} page @param {[any[], number][]} steps */
function goes(page, steps) {
  for (const [[name, ...given], row] of steps) assert.equal(page.act(name, ...given).now.at, row, `${name} ${given}`);
}

test("alarms, changes, requests and times are gone to", () => {
  const page = new Page(THREE_ALARMS);
  goes(page, [[["alarm-next"], 7], [["alarm-next"], 17], [["alarm-next"], 24], [["alarm-next"], 24], [["alarm-back"], 17], [["alarm-back"], 7],
    [["first"], 0], [["to-alarm"], 7], [["to-alarm"], 17], [["to-alarm"], 24], [["to-alarm"], 24], [["typed", "0.02 s"], 18], [["typed", "0.01"], 9],
    [["typed", "6"], 6], [["typed", "999"], 24], [["typed", "6"], 6], [["alarm-next"], 7], [["back"], 6], [["last"], 24]]);
  assert.equal(textOf(page.now, "note"), "");
  assert.equal(page.act("alarm-next").sentence, "There is no alarm after this row.");
  assert.equal(page.act("first").act("alarm-back").sentence, "There is no alarm before this row.");
  assert.equal(page.act("typed", "x").sentence, "Type the number of a request (20), or a time (38.01 s).");
  assert.equal(summaryOf(page.now.run, 24), "Over 24 requests: at most 6 of 7 core sets, 5 of 5 areas and 9 of 9 tasks at once; 3 alarms, the first one 1201, in request 7.");
  assert.equal(new Page(script(["tick"])).act("to-alarm").sentence, "No alarm came in this run.");
  goes(new Page(script([...Array(49).fill("tick"), NOVAC, "tick"])), [[["change-next"], 50], [["change-back"], 50], [["first"], 0], [["event"], 50]]);
  const timed = new Page("#landing-1202").act("typed", "32");
  assert.equal(textOf(timed.now, "note"), "32 is the number of a request. For a time, type 32 s.");
  assert.equal(textOf(timed.act("typed", "32 s").now, "note"), "");
});

test("a title is that of what is shown", () => {
  const page = new Page(script(["tick"]));
  const titles = ["", "text", "undo", "redo"].map((it) => (it === "text" ? page.act("text", 'seconds = 1\ntitle = "A title"\n', "pasted") : it && page.act(it), page.now.run.title));
  assert.deepEqual(titles, ["what was pasted", "A title", "what was pasted", "A title"]);
});

test("undo and redo", () => {
  const page = new Page(THREE_ALARMS).act("typed", "6").act("ask", "tick");
  assert.equal(textOf(page.now, "note"), "The 18 requests that followed are set aside; Undo brings them back.");
  assert.deepEqual([page.now.count, page.outcome.split(";")[0]], [7, "no alarm"]);
  const shown = () => [page.now.at, page.now.count, page.now.history.undone.length];
  assert.deepEqual([page.act("undo"), shown()].slice(1), [[6, 24, 1]]);
  page.act("ask", "end");
  assert.equal(page.now.history.undone.length, 0);
  for (const [name, wanted] of /** @type {[string, number[]][]} */ ([["undo", [6, 24, 1]], ["redo", [7, 7, 0]], ["undo", [6, 24, 1]]])) {
    page.act(name);
    assert.deepEqual(shown(), wanted, name);
  }
  const ticks = new Page("");
  for (let k = 0; k < 10; k++) ticks.act("ask", "tick");
  for (let k = 0; k < 9; k++) ticks.act("undo");
  assert.deepEqual([ticks.now.count, ticks.act("ask", "change").sentence], [1, "Request 2 of 2, at 0.01 s: change. Reply: no job. No job is running."]);
});

test("a log that is full is told", () => {
  const full = new Page(script(Array(1400).fill("tick")));
  assert.match(summaryOf(full.now.run, 1400), /no alarm; 400 requests refused, from request 1001 on, since the log was full\.$/);
});

/** The ninth job finds eight core sets in use, as the eighth finds seven. */
test("a bench runs with eight core sets, at the same row", () => {
  const page = new Page(script(Array(9).fill(NOVAC))).act("alarm-next");
  const [[name, ...given]] = triesOf(page.now, shownOf(page.now)).slice(1);
  assert.deepEqual([name, page.now.at], ["With eight core sets?", 8]);
  page.act(.../** @type {[string]} */ (given));
  assert.deepEqual([page.now.at, page.now.run.alarms, page.before], [8, [9], "1 alarm: 1202, in request 8; at most 7 of 7 core sets"]);
});

test("after a restart its tables are shown, and what begins again", () => {
  const page = new Page("#exercise-6").act("reveal").act("last");
  const [before, after] = [[[2, 1, 3, 4, 5, 6, 7], [], ["4000"]], [[1, 2], [1], ["4100", "4000"]]];
  for (const [name, wanted] of /** @type {[string, any][]} */ ([["next", after], ["next", after], ["back", before], ["next", after], ["back", before], ["after", after]])) {
    assert.deepEqual(page.act(name).tables, wanted, name);
  }
  assert.deepEqual(page.account, ["After the restart", "All jobs and tasks from before are gone. The phases are 1 0 2 0 1 0.", "These begin again:",
    "job 1, priority 20, at 02000", "job 2, priority 25, at 05000", "task 04100 in 0.10 s", "task 04000 in 1.00 s"]);
  assert.deepEqual(page.tries, ["Before the restart"]);
  const fresh = new Page(script(["phase 1 1", "novac 20 02000 00005", "fresh"])).act("last").act("next");
  assert.equal(fresh.sentence, "After the fresh start of request 3, at 0.00 s. No job is running.");
  assert.deepEqual(fresh.account.slice(1), ["All jobs and tasks from before are gone. The phases are 0 0 0 0 0 0.", "Nothing begins again."]);
});

test("what might have prevented an alarm is offered", () => {
  const event = (/** @type {string} */ name, /** @type {string} */ more, /** @type {string[]} */ lines) =>
    `[[event]]\n${name && `name = "${name}"\n`}${more}\ndo = ${JSON.stringify(lines)}\n`;
  const late = [1, 2, 3].map((k) => event(`late ${k}`, `at = ${k}`, ["rouse 02000"])).join("");
  const full = event("begin", "at = 0", Array(8).fill(NOVAC));
  const [first, eight] = [["After the restart"], "With eight core sets?"];
  for (const [text, wanted] of /** @type {[string, string[]][]} */ ([
    [`seconds = 1\nsteal = 1\n${full}${late}`, [...first, eight, "Without stolen time?", "Without late 1?", "Without late 2?"]],
    [`seconds = 1\n${event("begin", "at = 0", Array(6).fill("findvac 20 04000 00005"))}`, first], [script(Array(8).fill(NOVAC)), [...first, eight]]])) {
    assert.deepEqual(new Page(text).act("alarm-next").tries, wanted, text);
  }
  const both = event("first", "at = 1", ["rouse 02000"]) + event("second", 'after = "first"\nat = 0', ["rouse 02100"]);
  const page = new Page(`seconds = 1\nsets = 8\n${both}${event("", "at = 9", Array(9).fill(NOVAC))}`).act("alarm-next");
  assert.deepEqual(page.tries, [...first, "Without first?", "Without second?"]);
  assert.equal(page.act("without", "first").differs, "This run differs from its document: without first; without second.");
});

test("a slider runs the document with another number", () => {
  const page = new Page("#landing-1202").act("alarm-next").slide("Stolen time", 0);
  assert.match(page.before, /^1 alarm: 1202, in request 3128 at 30\.50 s;/);
  assert.deepEqual([page.outcome.split(";")[0], page.differs], ["no alarm", "This run differs from its document: steal 0 % (document: 15 %)."]);
  for (const [name, value, wanted] of /** @type {[string, number, string][]} */ ([["SERVICER needs", 100, "SERVICER costs 1.00 s (document: 1.70 s)"],
    ["Core sets", 8, "core sets 8 (document: 7)"], ["SERVICER every", 300, "SERVICER every 3.00 s (document: 2.00 s)"]])) {
    assert.equal(new Page("#landing-1202").slide(name, value).differs, `This run differs from its document: ${wanted}.`);
  }
  const keys = new Page("#landing-1202").act("alarm-next");
  for (const [percent, when] of /** @type {[number, string][]} */ ([[14, ""], [8, "at 38.50 s"], [5, "at 50.50 s"], [2, ""]])) {
    keys.slide("Stolen time", percent);
    assert.match(keys.before, /^1 alarm: 1202, in request 3128 at 30\.50 s;/);
    fillOn(keys.now.run, Infinity);
    keys.act("filled", keys.now.run);
    assert.ok(keys.outcome.includes(when), keys.outcome);
  }
  assert.deepEqual([keys.outcome.split(";")[0], keys.act("undo").now.at], ["no alarm", 3128]);
  const beats = new Page("seconds = 2\nsteal = [{ from = 10, to = 12, percent = 100, every = 50 }, { from = 0, to = 360000, percent = 15 }]\n");
  assert.equal(beats.slide("Stolen time", 20).differs, "This run differs from its document: "
    + "steal 20 % at most, and its beats (document: 15 % at most, and its beats).");
});

/** Half of the time is stolen; a job takes 0.2 seconds, and at 1.5 s another the rest. */
test("time passes by a centisecond, to the next event, and up to an alarm", () => {
  const page = new Page('seconds = 2\nsteal = 50\n[[job]]\nat = "04000"\ncost = 10\n[[job]]\nat = "05000"\ncost = 300\n'
    + `[[event]]\nat = 0\ndo = "${NOVAC}"\n[[event]]\nat = 150\ndo = ["novac 20 05000 00005", "list 20 02000 00005"]\n`);
  for (const [[name, ...given], wanted] of /** @type {[string[], string][]} */ ([[["typed", "0.29 s"], "at 0.29 s: tick."], [["tick"], "at 0.30 s: tick."],
    [["event"], "at 1.50 s: novac 20 05000 00005. Reply: job 1."], [["event"], "list 20 02000 00005. Reply: listed."], [["last"], "at 2.00 s"],
    [["tick"], "The time of this run is over."], [["event"], "The time of this run is over."],
    [["run"], "The time of this run is over: go to an earlier row, or edit the document."]])) {
    assert.ok(page.act(name, ...given).sentence.includes(wanted), `${name} ${given}: ${page.sentence}`);
  }
  const task = '[[task]]\nat = "02000"\nbank = "00005"\naction = ["novac 20 04000 00005", "list 1 02000 00005"]\n';
  const full = new Page(script(["list 1 02000 00005"]) + task).act("last").act("run").act("advance", 999);
  assert.equal(full.sentence, "Request 9 of 9, at 0.08 s: tick. Reply: tick 02000/00005 alarm 1202. Job 1 ran.");
  assert.equal(full.now.clock.isRunning, false);
});

test("an exercise that is changed keeps its question, and undo brings back what was hidden", () => {
  const page = new Page("#exercise-4");
  const { question, document } = page.now.run.source;
  const state = () => [page.now.run.source.question === question, page.now.run.source.isChanged || page.now.run.isChanged(page.now.count), isHidden(page.now)];
  assert.deepEqual(state(), [true, false, true]);
  page.act("edited", document.replaceAll('"end",\n', '"end", "end", "end",\n'));
  for (const [name, wanted] of /** @type {[string, boolean[]][]} */ ([["", [true, true, false]], ["undo", [true, false, true]], ["redo", [true, true, false]]])) {
    assert.deepEqual([name && page.act(name), state()].slice(1), [wanted], name);
  }
  assert.deepEqual([page.act("undo").act("kept", "exercise-4"), state()].slice(1), [[true, false, true]]);
  page.act("text", script([]), "another");
  assert.deepEqual([page.now.run.source.question, page.act("undo").now.run.source.question], ["", question]);
});

test("a wrong try gives no answer away, and what is all right shows what happens", () => {
  const page = new Page("#exercise-1").act("check", ["", ""]);
  assert.match(textOf(page.now, "note"), /^Say first what you expect/);
  const seen = () => [isHidden(page.now), judged(page.now, page.now.predicted).map((it) => it.isRight)];
  assert.deepEqual([page.act("check", ["12", "1202"]), seen()].slice(1), [[true, [true, false]]]);
  assert.deepEqual([page.act("check", ["12", "1203"]), seen()].slice(1), [[true, [true, false]]]);
  assert.deepEqual([page.act("check", ["12", "1201"]), seen()].slice(1), [[false, [true, true]]]);
  assert.equal(judged(page.now, page.now.predicted)[1].row, 12);
  const right = new Page("#exercise-10").act("check", ["22 %", "20"]);
  assert.equal(isHidden(right.now), false);
  const part = new Page("#exercise-8").act("check", ["1202", "15", "25", "", "", ""]);
  assert.equal(isHidden(part.now), true);
});

test("an exercise doesn't answer itself", () => {
  const page = new Page("#exercise-11");
  assert.match(rowOf(page.now, 0).reply, /^not shown yet$/);
  assert.deepEqual(page.account, ["Power comes back", "Power comes back, and the computer looks at the phase words that are in the document.", "What it does isn't shown yet."]);
  assert.deepEqual(page.tries, []);
  assert.equal(page.act("reveal").account[0], "Alarm 1107: why");
  const nothing = "No request has been served yet: there is no job, no task waits, and all phases are 0.";
  const first = new Page("#exercise-1");
  assert.deepEqual(first.account.slice(1), [nothing, "Next serves one request after the other."]);
  assert.deepEqual(first.act("reveal").account.slice(1), [nothing, "12 requests follow, with 1 alarm: 1201, in request 12 at 0.01 s."]);
  const order = "The threads may take turns in many orders. This is only one of them: first all requests of worker 1, then all of worker 2.";
  assert.deepEqual(new Page("#exercise-9").act("reveal").account.slice(1), [nothing, "12 requests follow, with no alarm.", order]);
  assert.ok(orderOf(new Page('[[worker]]\nscript = ["tick"]\n[[device]]\nline = "timer"\npulses = 2\n').now.run.bench)
    .endsWith("first all requests of worker 1, then all of device 1 (timer)."));
});

/** The guidance computes from 0 to 1.5 s, and the steering waits: its first job, of 0.15 s, has to end by 1.0. Up to 5 s three guidance jobs began, and
 * five of the steering, of which those of 0 and 2 s are late. */
test("why a job is late is told, and what would run it sooner", () => {
  const page = new Page("#still-too-late");
  const { run, count } = page.now;
  page.act("late", jobsOf(run, count).find((it) => it.missed > 0)?.missedRow);
  assert.equal(lateOf(run, shownOf(page.now), namesOf(run))?.text, "steering was asked for at 0.01 s and had to end by 1.01 s. Since then guidance has had 1 s of computing, steering none. "
    + "First goes guidance, by its priority 20: steering has 10.");
  assert.deepEqual(jobsOf(run, run.rowAtTime(500, count)).map((it) => [it.began, it.ended, it.missed]), [[3, 2, 0], [5, 4, 2]]);
  const [[name, ...given]] = triesOf(page.now, shownOf(page.now));
  assert.equal(name, "Steering before all others?");
  page.act(.../** @type {[string]} */ (given));
  assert.deepEqual([missedIn(run, count), missedIn(page.now.run, page.now.count), page.differs], [10, 0, "This run differs from its document: steering priority 37 (document: 10)."]);
  assert.deepEqual(page.act("last").tries, []);
  assert.equal(page.account.length > 0 && cameText(page.now.run, page.now.count, namesOf(page.now.run)), "No alarm comes in 20\u00a0s, and no deadline is missed.");
});

test("the tour goes on by itself, and never back", () => {
  const page = new Page("#landing").act("tour-again");
  const step = (/** @type {string} */ name, /** @type {any[]} */ ...given) => page.act(name, ...given).now.tour.step;
  assert.deepEqual([page.now.tour.step, step("run"), step("alarm-next"), step("first")], [1, 2, 3, 3]);
  page.act("alarm-next");
  assert.deepEqual([step("guess", "set"), step("guess", "radar"), step("guess", "display"), step("guess", "guidance"), step("first")], [4, 4, 4, 4, 4]);
  for (const { run } of page.now.tour.tried) fillOn(run, Infinity);
  assert.deepEqual(page.now.tour.tried.map(triedText), ["With an eighth core set: alarm 1201 at 38.01 s: all five VAC areas, which some jobs need for larger work, are taken.",
    ...["Without stolen time", "Without the display", "With a guidance of 1.4 s"].map((it) => `${it}: no alarm in 600\u00a0s.`)]);
  assert.equal(step("kept", "landing"), 0);
});

test("the tour waits while something else is open, and keeps its guesses", () => {
  const page = new Page("#landing").act("tour-again").act("run").act("alarm-next").act("guess", "set");
  const told = () => [page.now.tour.step, page.now.tour.left, page.now.tour.tried.map((/** @type {any} */ it) => it.name)];
  assert.deepEqual([page.act("new").tries, told()], [["Back to the tour", "Deadlines: one job too late"], [0, 4, ["set"]]]);
  assert.deepEqual([page.act("tour-again").now.run.isAlarm(page.now.at), told()], [true, [4, 0, ["set"]]]);
  // (who skips it guesses on at the alarm)
  assert.deepEqual([page.act("tour", 0).tries, told()], [["After the restart", "No stolen time", "No display", "A shorter guidance"], [0, 4, ["set"]]]);
  assert.deepEqual([page.act("guess", "radar").tries, page.now.tour.step, page.differs], [["No display", "A shorter guidance"], 0, "This run differs from its document: steal 0 % (document: 15 %)."]);
  assert.deepEqual([page.act("tour-again").act("tour", 5).act("tour", 0).act("tour-again").now.tour], [{ step: 1, left: 0, tried: [] }]);
});

/** By hand: of each two jobs a the first waits 0.7 s for b, and ends after 1.3 s; the second ends after 0.9 s. */
test("a run without an alarm tells which deadlines it misses", () => {
  const page = new Page(scenarioOf([{ name: "a", every: 100, needs: 60, priority: 8, deadline: 100, hasArea: false }, { name: "b", every: 200, needs: 70, priority: 16, hasArea: false }]));
  fillOn(page.now.run, Infinity);
  page.act("filled", page.now.run);
  const story = "30 deadlines are missed, the first one at 1.01 s, by a. No alarm comes in 60\u00a0s.";
  assert.deepEqual([page.account[1], page.tries], [story, ["To the first deadline missed"]]);
  page.act("last");
  assert.deepEqual([cameText(page.now.run, page.now.count, namesOf(page.now.run)), page.tries], [story, ["To the first deadline missed"]]);
});

/** The rows of history.md: the alarm, its minute and second, and the seconds since ignition at 102:33:05, flown and here. */
test("the five alarms of Apollo 11 come when they were flown", () => {
  const { run } = new Page("#apollo-11").act("last").now;
  const rows = [...read("docs/teaching/history.md").matchAll(/^[|] (120[12]) [|] 102:(\d\d):(\d\d) [|] (\d+) [|] ([0-9.]+) [|]$/gm)].map((it) => it.slice(1).map(Number));
  assert.deepEqual(run.alarms.map((row) => [Number(run.columns.numbers.items[row].toString(8)), run.ticksAt(row) / 100]), rows.map((it) => [it[0], it[4]]));
  for (const [, minute, second, flown, here] of rows) assert.ok(60 * (minute - 33) + second - 5 === flown && Math.abs(here - flown) <= 2);
});
