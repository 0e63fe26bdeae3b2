// What the workbench's modules make of texts, rows and runs, each worked out by hand: node --test tests/page/*.test.mjs.
import assert from "node:assert/strict";
import { test } from "node:test";
import { Clock, start } from "../../libagc/js/machine.js";
import { Names, accountOf, orderOf, standingOf } from "../../web/account.js";
import { follow, readAddress, readRecipe } from "../../web/address.js";
import { runWith } from "../../web/clock.js";
import { periodOf } from "../../web/because.js";
import { countOf, readBench, requestsOf, textFault, writeBench } from "../../web/bench.js";
import { summaryOf } from "../../web/drawing-words.js";
import { Colours } from "../../web/colours.js";
import { Column } from "../../web/column.js";
import { firstSentence, packed, textOfData, withoutQuestion } from "../../web/files.js";
import { documentOfScript, forgiven } from "../../web/forgive.js";
import { goingOn } from "../../web/history.js";
import { Run, afterOf } from "../../web/run.js";
import { differencesOf, numbersOf } from "../../web/sliders.js";
import { stolenAt, stolenParts } from "../../web/stolen.js";
import { Scale } from "../../web/drawing-scale.js";
import { moduleBytes } from "../../web/picture.mjs";
import { completions } from "../../web/typing.js";
import { counted, lineFault } from "../../web/words.js";

await start(await moduleBytes());

/** @param {string} what @param {unknown} found @param {unknown} wanted */
function expect(what, found, wanted) {
  assert.equal(JSON.stringify(found), JSON.stringify(wanted), `${what}: ${JSON.stringify(found)}, and not ${JSON.stringify(wanted)}`);
}

/** A run of a script. @param {string[]} lines @param {string} more */
function runOf(lines, more = "") {
  const run = new Run(readBench(`${more}script = ${JSON.stringify(lines)}\n`));
  for (const line of lines) run.ask(line, "the script");
  return run;
}

/** A run of a scenario, at its beginning. @param {import("../../web/bench.js").Bench} bench */
function clockedRun(bench) {
  const run = new Run(bench);
  const { seconds, seed, steal, job, event } = bench;
  run.startClock(new Clock({ seconds, seed, steal, job, event }));
  return run;
}

test("documents are written as they are read", () => {
  for (const text of ['script = ["tick"]\n', '\n[[worker]]\nscript = ["tick"]\n', '\n[[worker]]\nscript = []\n',
    'title = "a \\\\ b \\"c\\""\nseconds = 1\n', 'key = ["rouse 02000", "nothing"]\nradar = "rouse 02000"\n',
    'seconds = 1\n\n[[event]]\nat = 0\ndo = "tick"\n', 'sets = 8\nlimit = 7\nallowance = 9223372036854775807\n']) {
    expect(text, writeBench(readBench(text)).split("\n").toSorted(), text.split("\n").toSorted());
  }
});

/** One of the script, two of a worker, two for each of three key pulses, none for a radar pulse, four ticks. */
test("requests are counted", () => {
  const devices = [["key", 3], ["radar", 5], ["timer", 4]].map(([line, pulses]) =>
    `[[device]]\nline = "${line}"\npulses = ${pulses}\n`).join("");
  const text = `key = ["rouse 02000", "rouse 02100"]\nscript = ["tick"]\n[[worker]]\nscript = ["tick", "end"]\n${devices}`;
  expect("a bench's requests", countOf(readBench(text)), 13);
  expect("who asks", Array.from(requestsOf(readBench(text)), ([line, who]) => `${who}: ${line}`), ["the script: tick", "worker 1: tick", "worker 1: end",
    ...Array(3).fill(["device 1, key: rouse 02000", "device 1, key: rouse 02100"]).flat(), ...Array(4).fill("device 3, timer: tick")]);
  for (const [count, wanted] of /** @type {[number, string][]} */ ([[0, "0 alarms"], [1, "1 alarm"], [2, "2 alarms"],
    [999, "999 alarms"], [1000, "1,000 alarms"], [1234567, "1,234,567 alarms"]])) {
    expect(`${count} are counted`, counted(count, "alarm"), wanted);
  }
});

/** Callers that never stop ask once. */
test("callers that never stop are taken", () => {
  const text = 'key = "rouse 02000"\n\n[[worker]]\nscript = ["novac 20 02000 00005", "end"]\nrepeat = true\n\n[[device]]\nline = "key"\n';
  const bench = readBench(text);
  expect("what it asks for", [...requestsOf(bench)], [["novac 20 02000 00005", "worker 1"], ["end", "worker 1"], ["rouse 02000", "device 1, key"]]);
  expect("how many", countOf(bench), 3);
  expect("it is written", writeBench(bench), text);
  expect("it is said", orderOf(bench).endsWith("then all of device 1 (key). Workers that repeat and devices without pulses are run once here."), true);
  expect("of one", orderOf(readBench('[[worker]]\nscript = []\nrepeat = true\n')), "Workers that repeat and devices without pulses are run once here.");
  expect("of one that stops", orderOf(readBench('[[worker]]\nscript = []\nrepeat = false\n')), "");
  assert.throws(() => readBench('[[worker]]\nscript = []\nrepeat = 1\n'), /worker 1, repeat: expected true or false/);
});

test("numbers have their ends", () => {
  for (const [line, wanted] of /** @type {[string, string | null][]} */ ([["phase 1 127", null], ["phase 1 128", 'a phase is decimal, 0 to 127, not "128"'],
    ["phase 1 00", 'a phase is decimal, 0 to 127, not "00"'], ["phase 7 1", 'a group is 1 to 6, not "7"'], ["list 16250 02000 00005", null],
    ["list 16251 02000 00005", 'a delay is decimal, 1 to 16250, not "16251"'],
    ["list 01 02000 00005", 'a delay is decimal, 1 to 16250, not "01"'],
    ["store 7 00001", "a work word's place is 1 to 6, not \"7\""], ["prio 00", 'a priority is octal, 01 to 37, not "00"'], ["prio 37", null],
    ["sleep 00000", 'an address is five octal digits, 00001 to 37777, not "00000"'],
    ["sleep 40000", 'an address is five octal digits, 00001 to 37777, not "40000"'],
    ["store 1 77777", null], ["", "a line may not be empty"], ["end ", "it ends with a space"],
    ["lick", 'its first word is unknown; did you mean "tick"?']])) {
    expect(line, lineFault(line), wanted);
  }
  expect("sleep 00000 as an end", textFault("then", "sleep 00000"), 'it is "end", or "sleep" and an address');
});

/** A beat of two centiseconds each half second, up to 1.1 s; and a fifth of the second from 5 s on. */
test("stolen time holds", () => {
  const beat = { from: 10, to: 12, percent: 100, every: 50, until: 110 };
  const steal = [beat, { from: 500, to: 600, percent: 20 }];
  for (const [time, wanted] of [[9, 0], [10, 100], [11, 100], [12, 0], [60, 100], [110, 100], [111, 100], [112, 0], [160, 0],
    [499, 0], [500, 20], [599, 20], [600, 0]]) {
    expect(`stolen at ${time}`, stolenAt(steal, time), wanted);
  }
  expect("half of each third centisecond", stolenParts([{ from: 0, to: 1, percent: 50, every: 3 }], 0, 6, 3),
    [{ from: 0, to: 6, percent: 17 }]);
});

/** What an event asks at one time is one mark on the chart; what it asks later is another. */
test("events are marked", () => {
  const run = new Run(readBench("seconds = 1\n"));
  for (const [line, who] of [["phase 1 1", "event A"], ["phase 1 2", "event A"], ["phase 2 1", "event 2"], ["tick", "the clock"],
    ["phase 1 3", "event A"]]) run.ask(line, who);
  expect("events are marked", run.lanes.events, [1, 3, 5]);
  expect("events up to a row", [2, 3, 4, 5].map((row) => run.fork(row).lanes.events.length), [1, 2, 2, 3]);
});

/** Of a run with rows of a script, of a hand, and of an event that was pressed. */
test("hands are counted", () => {
  const run = new Run(readBench("seconds = 1\n"));
  for (const who of ["the clock", "you", "you: P64", "event P64", "worker 1"]) run.ask("tick", who);
  expect("rows by hand", [run.handRows(), run.handRows(2), run.handRows(1)], [2, 1, 0]);
  expect("a run is changed", [run.isChanged(1), run.isChanged(2)], [false, true]);
  expect("rows by whom", Array.from(run.counts(4)), [["nobody", 0], ["the clock", 1], ["you", 1], ["you: P64", 1], ["event P64", 1], ["worker 1", 0]]);
  const given = { ...run.bench, sets: 8 };
  expect("another number of core sets", Object.assign(new Run(given), { given: run.bench }).isChanged(0), true);
});

/** A slider of a profile scales all of it, as the document has it, and back. */
test("a profile of stolen time stays one", () => {
  const run = clockedRun(readBench('seconds = 9\nsteal = [{ from = 0, to = 300, percent = 10 }, { from = 300, to = 900, percent = 40 }]\n'));
  const [stolen] = numbersOf(run);
  expect("its number", [stolen.value, stolen.unit], [40, "% at most"]);
  expect("half of it", stolen.given(20), { steal: [{ from: 0, to: 300, percent: 5 }, { from: 300, to: 900, percent: 20 }] });
  const [none] = numbersOf(runWith(run, stolen.given(0), 0));
  expect("nothing, and as it was", [none.value, none.given(40)], [0, { steal: run.given.steal }]);
  const beat = { from: 0, to: 1, percent: 100, every: 20 };
  const [beside] = numbersOf(new Run(readBench("seconds = 9\nsteal = [{ from = 0, to = 1, percent = 100, every = 20 }]\n")));
  expect("a beat stays", [beside.value, beside.unit, beside.given(7)], [0, "%", { steal: [beat, { from: 0, to: 900, percent: 7 }] }]);
  const [plain] = numbersOf(new Run(readBench("seconds = 9\nsteal = 15\n")));
  expect("a percentage", [plain.value, plain.unit, plain.given(20)], [15, "%", { steal: 20 }]);
});

/** Of two events at one time one is left out. */
test("differences are told", () => {
  const bench = readBench('seconds = 2\n[[job]]\nname = "WORK"\nat = "04000"\ncost = 10\ndeadline = 50\n'
    + '[[event]]\nname = "A"\nat = 150\ndo = "tick"\n[[event]]\nname = "B"\nat = 150\ndo = "tick"\n');
  const told = "This run differs from its document: ";
  const other = (/** @type {any} */ given) => differencesOf(runWith(clockedRun(bench), given, 0));
  expect("a cost", other({ job: [{ ...bench.job[0], cost: 37 }] }), `${told}WORK costs 0.37 s (document: 0.10 s).`);
  expect("a deadline", other({ job: [{ ...bench.job[0], deadline: 70 }] }), `${told}WORK deadline 0.70 s (document: 0.50 s).`);
  expect("all that differs", other({ steal: [{ from: 100, to: 200, percent: 30 }], event: bench.event.slice(0, 1) }),
    `${told}steal 30 % at most (document: 0 %); without B.`);
});

/** A part that is seen is within the run, and has twenty ticks at least. */
test("parts are seen", () => {
  const timed = () => {
    const run = clockedRun(readBench("seconds = 1\n"));
    run.askByClock(100, () => "the clock");
    return new Scale(run, 100);
  };
  const [scale, other, short] = [timed(), timed(), new Scale(runOf(Array(100).fill("change")), 100)];
  for (const [from, to, wanted] of /** @type {[number, number, number[]][]} */ ([[50, 51, [50, 70]], [95, 96, [80, 100]], [-5, 30, [0, 35]],
    [10, 900, [0, 100]]])) {
    scale.see(from, to);
    expect(`${from} to ${to} are seen`, [scale.from, scale.to], wanted);
  }
  scale.see(20, 60);
  const same = scale.ofOther(other);
  expect("what another scale sees", [scale.ofOther(short), same?.from, same?.to], [null, 20, 60]);
  expect("rows at places", [scale.keyAt(0), scale.keyAt(3.7), scale.keyAt(100), short.keyAt(1.9)].map((it) => it >> 1), [0, 3, 100, 1]);
});

/** The jobs of a document come first, then those of its phases; the ninth has the first colour again, as all from the 65th on. */
test("colours are given", () => {
  const bench = readBench('[[phase]]\ngroup = 1\nphase = 1\njob = "novac 20 05100 00005"\n');
  const colours = new Colours(bench, new Names(bench));
  const found = [0o6000, 0o5100, ...Array.from({ length: 63 }, (_, k) => 0o7000 + k), 0o10000, 0o10001].map((it) => colours.of(it));
  expect("colours", found.slice(0, 9), [1, 0, 2, 3, 4, 5, 6, 7, 0]);
  expect("colours from the 64th on", found.slice(63), [7, 0, 0, 0]);
  const column = new Column(Uint8Array);
  for (let k = 0; k < 100; k++) column.set(k, k);
  const front = column.front(80);
  expect("the front of a column", [front.items[79], front.items[80], column.items[80]], [79, 0, 80]);
});

test("documents are told", () => {
  for (const [text, first, rest] of [["# Is it? Yes.\nsets = 8\n", "Is it?", "sets = 8\n"], ["# A 1.5 b. C\n\nsets = 8\n", "A 1.5 b.", "sets = 8\n"],
    ["# no end\n# of it\nsets = 8\n", "no end of it", "sets = 8\n"], ["sets = 8\n# b.\n", "", "sets = 8\n# b.\n"]]) {
    expect(text, [firstSentence(text), withoutQuestion(text)], [first, rest]);
  }
  expect("data of the page", textOfData("a\\lb\\\\l\\\nc"), "a<b\\lc");
  const bench = readBench('[[task]]\nat = "02000"\nbank = "00005"\naction = "nothing"\n'
    + [1, 2, 3, 4, 5, 6, 7, 8, 9].map((it) => `[[phase]]\ngroup = 1\nphase = ${it}\n`).join(""));
  const scene = new Run(bench).head.machine.scene();
  const named = { ...bench, job: [{ at: "04100", cost: 1, name: "WORK" }] };
  expect("phases that are offered", completions("phase 1 ", bench, scene), [1, 2, 3, 4, 5, 6, 7, 8].map((it) => `phase 1 ${it}`));
  expect("a name", completions("novac 20 wo", named, scene), ["novac 20 04100"]);
  expect("a task", completions("list 5 0", bench, scene), ["list 5 02000"]);
});

/** Behind a restart, requests that are refused leave the tables as they are, and nothing in them is new. */
test("refused requests change nothing", () => {
  const lines = ["novac 20 04000 00005", "restart", "novac 20 04100 00005", "tick", "tick"];
  const run = runOf(lines, "allowance = 2\n");
  const [restart, ...refused] = run.show(2, 5);
  expect("refused", [run.refused, refused.map((it) => it.reply)], [[3, 4, 5], Array(3).fill("refused spent")]);
  expect("the last row alone", run.show(5, 5)[0].scene.sets[0], null);
  expect("jobs behind a restart", refused.map((it) => it.scene.sets[0]), [null, null, null]);
  expect("jobs in the row before", refused.map((it) => it.last?.sets[0]?.number ?? 0), [1, 0, 0]);
  const after = afterOf(restart);
  expect("a restart", [restart.scene.sets[0]?.number, after.scene.sets[0], after.last?.sets[0]?.number], [1, null, 1]);
});

/** A run goes on from what is shown: a copy, unless that is its last row. */
test("a run goes on from its last row", () => {
  const run = runOf(["tick", "tick", "tick", "tick"]);
  for (const [count, at, isSame] of /** @type {[number, number, boolean][]} */ ([[4, 4, true], [2, 2, false], [4, 3, false]])) {
    const other = goingOn({ run, count, at });
    expect(`going on at ${at} of ${count}`, [other === run, other.count], [isSame, at]);
    expect(`what comes after row ${at}`, [run.fork(2).columns.ticks.items[2], run.fork(2).columns.ticks.items[3]], [2, 0]);
  }
});

/** Jobs of one address begin with requests 1, 3 and 6, after 0, 1 and 3 ticks: of the gaps, 1 and 2, the greater one is in the middle. */
test("how often jobs come is the middle of their gaps", () => {
  const run = runOf(["novac 20 04000 00005", "tick", "novac 20 04000 00005", "tick", "tick", "novac 20 04000 00005"]);
  expect("three jobs, and two", [periodOf(run, 0o4000, 6), periodOf(run, 0o4000, 5)], [2, 0]);
});

/** One of fifty centiseconds before an alarm, and two of three, rounded down as by agc_watch peaks; and which phase words disagree. */
test("accounts are given", () => {
  const seven = Array(7).fill("novac 20 04000 00005");
  for (const [lines, wanted] of /** @type {[string[], string][]} */ ([
    [["tick", "novac 20 04000 00005", ...Array(49).fill("tick")], "idle 2 % of the time. There was hardly any time to end more."],
    [["tick", "tick", "novac 20 04000 00005", "tick"], "idle 66 % of the time."]])) {
    const run = new Run(readBench("seconds = 1\n"));
    for (const line of [...lines, ...seven]) run.ask(line, "the clock");
    const [shown] = run.show(run.count, run.count);
    const told = accountOf(run, shown, new Names(run.bench)).lines[8];
    expect(`an alarm after ${lines.length} requests`, told[0], `Since the beginning 7 jobs began and 0 ended, and the computer was ${wanted} `);
  }
  const power = ["77600", "00177", "77776", "00002", ...Array(4).fill(["77777", "00000"]).flat()];
  const run = new Run(readBench(`power = ${JSON.stringify(power)}\n`));
  const [shown] = run.show(0, 0);
  expect("phase words", accountOf(run, shown, new Names(run.bench)).lines.flat(),
    ["No phase can be trusted, and nothing begins again.", "group 2: 77776 is not the complement of 00002"]);
});

/** Two of three jobs wait, the third sleeps; then areas and core sets are full, and at last nobody is there. */
test("how things stand is told", () => {
  const told = (/** @type {string[]} */ lines, more = "") => {
    const run = runOf(lines, more);
    return standingOf(run.show(run.count, run.count)[0], new Names(readBench(`seconds = 9\n[[job]]\nname = "WORK"\nat = "02000"\ncost = 1\n`)));
  };
  const work = "findvac 20 02000 00005";
  expect("some", told(["novac 37 06000 00005", "sleep 06000", work, work, "novac 10 04000 00005", "list 151 02000 00005"]),
    "WORK runs, WORK and job 4 wait, job 1 sleeps. There is room for 3 more jobs. The task 02000 is due in 1.51 s.");
  expect("no area", told(Array(5).fill(work)), "WORK runs, 4 WORKs wait. All five VAC areas are owned: with one more job that needs one alarm 1201 comes.");
  expect("no core set", told([...Array(6).fill("novac 10 02000 00005"), work]), "WORK runs, 6 WORKs wait. No core set is free: with one more job alarm 1202 comes.");
  expect("nobody", told(["tick"]), "No job runs. There is room for 7 more jobs.");
  expect("eight", told(["novac 20 02000 00005"], "sets = 8\n"), "WORK runs. There is room for 7 more jobs.");
});

/** What a link says was done is either all such as may have been done, or nothing is done. */
test("recipes are read", async () => {
  const bench = readBench("seconds = 1\n");
  const isTaken = async (/** @type {any} */ recipe) => readRecipe(await packed(JSON.stringify(recipe)), bench).then(() => true, () => false);
  for (const [recipe, wanted] of /** @type {[any, boolean][]} */ ([[{ parts: [] }, true], [{ parts: [["c", 5], ["d", 0], ["y", "tick", "you"]] }, true],
    [{ given: { steal: 100 }, parts: [] }, true], [{ given: { sets: 8 }, parts: [] }, true], [{ parts: [["y", "tick", "the clock"]] }, false],
    [{ parts: [["y", "tick", "event 1"]] }, false], [{ parts: [["y", "tick"]] }, false], [{ parts: [["c", -1]] }, false], [{ parts: [["d", 0.5]] }, false],
    [{ given: { steal: 101 }, parts: [] }, false], [{ given: { sets: 9 }, parts: [] }, false], [{ given: { limit: 1 }, parts: [] }, false],
    [{ given: {}, parts: 1 }, false], [{ parts: [["x", 1]] }, false]])) {
    expect(JSON.stringify(recipe), await isTaken({ given: {}, ...recipe }), wanted);
  }
  expect("an address", readAddress("#landing&at=7&see=0-90&do=x&was=0&shown&embed"),
    { name: "landing", bench: "", at: 7, see: [0, 90], done: "x", was: "0", isShown: true, isEmbedded: true });
});

/** However many requests a link asks for, others get their turn after each 2,000; and it asks for no more than there are. */
test("links are followed in stretches", async () => {
  const passTime = (/** @type {any} */ run, /** @type {number} */ most) => run.askByClock(most, () => "the clock") < most;
  const followed = async (/** @type {Run} */ run, /** @type {any[]} */ parts) => {
    let rests = 0;
    const why = await follow(run, { parts }, passTime, async () => { rests += 1; }).then(() => "", (fault) => fault.message);
    return [run.count, rests, why];
  };
  const timed = () => clockedRun(readBench("seconds = 3000\n"));
  expect("200,000 ticks", await followed(timed(), [["c", 200_000]]), [200_000, 100, ""]);
  expect("those of two parts", await followed(timed(), [["c", 40_000], ["y", "tick", "you"], ["c", 40_000]]), [80_001, 40, ""]);
  expect("more than the time has", await followed(timed(), [["c", Number.MAX_SAFE_INTEGER], ["c", 1]]), [300_000, 150, ""]);
  const scripted = () => new Run(readBench('script = ["tick", "tick"]\n'));
  expect("the document's own", await followed(scripted(), [["d", 2]]), [2, 0, ""]);
  expect("more than it has", await followed(scripted(), [["d", 3]]), [2, 0, "it asks for more than its document has"]);
});

test("runs are summed up", () => {
  for (const [count, wanted] of /** @type {[number, string][]} */ ([[19, "Over 19 requests: "], [20, "Over 0.20 s: "]])) {
    const text = summaryOf(runOf(Array(count).fill("tick")), count);
    expect(`${count} ticks`, text, `${wanted}at most 0 of 7 core sets, 0 of 5 areas and 0 of 9 tasks at once; no alarm.`);
  }
});

test("lines are forgiven", () => {
  for (const [given, line, told] of [["tick,", "tick", "“tick” is meant"], ['"TICK",', "tick", "“tick” is meant"],
    ["prio 5", "prio 05", "05 is meant"], ["novac 5 4000 5", "novac 05 04000 00005", "05 and 04000 and 00005 are meant"],
    ["list 0100 02000 00005", "list 100 02000 00005", "100 is meant"], ["phase 1 00", "phase 1 0", "0 is meant"], ["tick", "tick", ""]]) {
    expect(given, forgiven(given), { line, told });
  }
  for (const [count, wanted] of /** @type {[number, string][]} */ ([[1000, ""], [1001, "limit = 1001\n"]])) {
    const text = documentOfScript("tick\n".repeat(count));
    expect(`a script of ${count}`, text.split("script = ")[0], `# A script of ${count} requests.\n${wanted}`);
  }
});

/** A run has at most 4,000,000 rows, and a day more: where it is cut, that is said. */
test("a long run is said to be cut", () => {
  const empty = "at most 0 of 7 core sets, 0 of 5 areas and 0 of 9 tasks at once; no alarm.";
  for (const [count, wanted] of /** @type {[number, string][]} */ ([[3_999_999, `Over 39999.99 s: ${empty}`],
    [4_000_000, `Over 40000.00 s: ${empty} The page runs no more than 4,000,000 requests.`]])) {
    const run = {
      ...{ sets: 7, alarms: [], refused: [], bench: { seconds: 86_400 } },
      columns: { uses: { items: new Uint16Array(count + 1) }, waiting: { items: new Uint32Array(count + 1) } },
      ticksAt: (/** @type {number} */ row) => row,
    };
    expect(`${count} ticks`, summaryOf(/** @type {any} */ (run), count), wanted);
  }
});
