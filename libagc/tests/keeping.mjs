// What machines and clocks of machine.js refuse with a sentence, and how they are kept. Prints what doesn't hold, and fails
// then.
//
//     node keeping.mjs AGC_JS
//     node keeping.mjs AGC_JS kept    reads a machine and a clock as JSON, and writes them again
import { readFileSync } from "node:fs";
import { pathToFileURL } from "node:url";
import { setFlagsFromString } from "node:v8";
import { inspect } from "node:util";
import { runInNewContext } from "node:vm";

const agc = await import(pathToFileURL(process.argv[2]).href);
const { Clock, Code, Kind, AgcError, Machine, VERSION, findingOf, placeName, pulseOf, refusalOf, replyText, sceneOf } = agc;

if (process.argv[3] === "kept") {
  const [machine, clock] = JSON.parse(readFileSync(0, "utf8"));
  console.log(JSON.stringify([Machine.ofState(machine), Clock.ofState(clock)]));
  process.exit();
}

const SERVICER = {
  steal: 15,
  job: [{ at: "04000", cost: 170 }, { at: "04100", cost: 12, then: "sleep 04200" }],
  event: [{ at: 0, every: 200, do: "findvac 20 04000 00005" }, { at: 50, do: ["novac 27 04100 00005", "prio 20"] }],
};
const PLAN = { task: [{ at: "02000", bank: 5, action: ["findvac 20 04000 00007", "list 2 02000 00005"] }] };
const same = (one, other) => JSON.stringify(one) === JSON.stringify(other);

function want(holds, what) {
  if (!holds) throw new Error(`it doesn't hold: ${what}`);
}

function thrown(kind, call, told) {
  try {
    call();
  } catch (fault) {
    want(fault instanceof kind && (told === undefined || fault.message === told), `${call} throws ${fault}`);
    return fault;
  }
  throw new Error(`nothing is thrown by ${call}`);
}

function timeGoesOn() {
  const [machine, clock] = [new Machine(), new Clock()];
  thrown(AgcError, () => machine.run(clock, -1), "centiseconds is -1, but must be 0 to 4294967295");
  thrown(TypeError, () => machine.run(clock, 2.5), "centiseconds must be an integer, not 2.5");
  want(machine.run(clock, 0) === 0 && clock.time === 0 && machine.run(clock, 3) === 3, "a run");
  want(new Clock({ seconds: 86400 }).lasts === 8640000 && clock.lasts === 8640000 && new Clock({ seconds: 0.29 }).lasts === 29, "a day");
  thrown(AgcError, () => new Clock({ seconds: Number.NaN }), "a timetable: seconds is NaN, but must be 0 to 86400");
  // A run stops where its function returns false.
  clock.change({ event: [{ at: 5, do: "novac 20 04000 00005" }] });
  want(machine.run(clock, 5, (asked, step, time) => time < 5) === 2 && clock.time === 5 && machine.run(clock, 0) === 1, "a run that stops");
}

/** By the rule of `agc`: the allowance is looked at first, and a full log serves what starts over. */
function boundsRefuse() {
  const most = 2n ** 64n - 1n;
  for (const [counts, code, lines] of [
    [[0, 1, 0, 1], Code.OK, ["change", "tick", "restart"]],
    [[most - 1n, most, 999999, 1000000], Code.OK, ["novac 20 02000 00005"]],
    [[5, 2 ** 32, 0, 5], Code.OK, ["tick"]],
    [[9, 10, 5, 5], Code.OK, ["restart", "fresh"]],
    [[9, 10, 5, 5], Code.LOG_FULL, ["tick", "novac 20 02000 00005"]],
    [[10, 10, 5, 5], Code.SPENT, ["tick", "fresh"]],
    [[2 ** 40, 2n ** 40n, 0, 5], Code.SPENT, ["tick"]],
    [[11, 10, 0, 5], Code.SPENT, ["restart"]],
  ]) {
    const [count, allowance, logged, limit] = counts;
    const found = lines.map((it) => refusalOf(it, { served: count, allowance, logged, limit }));
    want(found.every((it) => it === code), `${counts} of ${lines}: ${found}`);
  }
  const bounds = { served: 0, allowance: 1, logged: 0, limit: 1 };
  want(refusalOf(new agc.Asked("prio", [1], null), bounds) === Code.OK, "what a clock gave");
  thrown(AgcError, () => refusalOf("tock", bounds), '"tock": its first word is unknown; did you mean "tick"?');
  thrown(AgcError, () => refusalOf("tick", { ...bounds, allowance: 2n ** 64n }), "bounds: allowance is 18446744073709551616, but must be 0 to 18446744073709551615");
  thrown(AgcError, () => refusalOf("tick", { ...bounds, logged: -1 }), "bounds: logged is -1, but must be 0 to 4294967295");
  thrown(TypeError, () => refusalOf("tick", { served: 0 }), "bounds must be a plain object with served, allowance, logged, limit, and allowance is missing");
}

/** A timer's pulse asks for a tick, the others for what the plan has done; no machine takes note of it. */
function pulsesAsk() {
  const key = ["nothing", "novac 20 02000 00005", "rouse 02100", "nothing"];
  const machine = new Machine({ plan: PLAN });
  machine.ask("list 1 02000 00005");
  want(same(pulseOf("timer"), ["tick"]) && same(pulseOf("timer", { key, radar: key }), ["tick"]), "a timer");
  want(same(pulseOf("key", { key }), ["novac 20 02000 00005", "rouse 02100"]), "a key");
  want(same(pulseOf("radar", { key }), []), "a radar of nothing");
  want(same(pulseOf("key", { key: "rouse 02100", allowance: 5n }), ["rouse 02100"]), "a bench as a plan");
  want(same(pulseOf("radar", { radar: "list 16250 37777 77777" }), ["list 16250 37777 77777"]), "a radar");
  const four = new Array(4).fill("findvac 01 00001 00000");
  want(same(pulseOf("key", { key: four }), four), "four actions");
  thrown(AgcError, () => pulseOf("bell"), 'line is "bell", but must be timer, key or radar');
  want(machine.ask("tick").fired.length === 1 && machine.scene().sets[0].at === 0o4000, "the machine goes on");
}

/** The faults of a document, a state and a request have a code, a row, a key, and the words of other languages. */
function faultsAreTold() {
  const calls = {
    clock: (it) => new Clock(it), plan: (plan) => new Machine({ plan }), machine: (it) => new Machine(it), pulse: (key) => pulseOf("key", { key }),
    ask: (it) => new Machine().ask(...it), "machine state": Machine.ofState, "clock state": Clock.ofState,
  };
  for (const [kind, given, code, row, key, told] of JSON.parse(readFileSync(new URL("faults.json", import.meta.url), "utf8"))) {
    const fault = thrown(AgcError, () => calls[kind](given), told);
    want(fault.code === code && fault.row === row && fault.key === key, `${told}: ${fault.code}, ${fault.row}, ${fault.key}`);
  }
  const many = { event: new Array(1001).fill({ at: 0, do: "tick" }) };
  thrown(AgcError, () => new Clock(many), "a timetable: event must have at most 1000 tables, but has 1001");
  const [job, event] = [{ at: 1, cost: 1 }, { at: 0, do: "tick" }];
  for (const [given, told] of [
    [{ steal: null }, "a timetable: steal must be an integer or an array of tables, not null"],
    [{ job: [{ ...job, at: true }] }, "job 1: at must be an integer or five octal digits, not true"],
    [{ job: [{ ...job, cost: 5n }] }, "job 1: cost must be an integer, not 5n"],
    [{ event: [{ ...event, at: 1e30 }] }, "event 1: at must be an integer, not 1e+30"],
    [{ event: [{ ...event, do: () => "tick" }] }, 'event 1: do must be an array of lines, not () => "tick"'],
  ]) want(thrown(AgcError, () => new Clock(given), told).code === Code.WRONG_TYPE, told);
  thrown(AgcError, () => new Machine({ set: 7 }), 'a machine: unknown key "set"; did you mean "sets"?');
  want(thrown(AgcError, () => new Clock({ steal: 101 })).number === 15, "codes have numbers");
  thrown(TypeError, () => new Clock([]), "a timetable must be a plain object, not []");
  thrown(TypeError, () => new Clock(new Machine()), "a timetable must be a plain object, not a Machine");
  // An object of another realm is as plain as one of this.
  want(new Clock(runInNewContext("({ seconds: 2, job: [] })")).lasts === 200, "another realm");
}

/** Machines and clocks share one module: they take turns, and each keeps what is its own. */
function theyTakeTurns() {
  const event = [[1, "novac 20 04000 00005"], [2, "restart"], [3, "novac 20 04000 00005"]].map(([at, line]) => ({ at, do: line }));
  const pairs = [3, 2].map((cost) => [new Machine(), new Clock({ steal: 40, job: [{ at: "04000", cost }], event }), []]);
  for (let k = 0; k < 11; k++) {
    const asked = pairs.map(([its, own]) => own.next(its));
    const steps = pairs.map(([its], j) => its.ask(asked[j]));
    pairs.forEach(([its, own, texts], j) => { own.served(its, steps[j]); texts.push(`${own.time} ${asked[j].name}`); });
  }
  const turns = pairs.map(([, , texts]) => texts.filter((it) => !it.endsWith("tick")).join(", "));
  want(same(turns, ["1 novac, 2 restart, 3 novac, 7 end", "1 novac, 2 restart, 3 novac, 6 end"]), turns.join("; "));
  const both = [new Machine(), new Clock({ event: [{ at: 2, do: "phase 1 1" }] }), new Clock({ event: [{ at: 1, do: "phase 2 2" }] })];
  const counts = [1, 2, 1, 2].map((k) => both[0].run(both[k], 1));
  want(same([counts, both[1].time, both[2].time, both[0].scene().phases.slice(0, 2)], [[1, 2, 2, 1], 2, 2, [1, 2]]), `two clocks: ${counts}`);
  // What isn't changed stays, also where it was changed before.
  both[1].change({ steal: 5 });
  both[1].change({ seconds: 9 });
  want(same(both[1].state.timetable, { seconds: 9, steal: 5, event: [{ at: 2, do: "phase 1 1" }] }) && both[2].lasts === 8640000, "two changes");
}

/** A bench or a scenario has the core sets and the power-up of its machine, and a scenario its timetable. */
function documentsStandForTheirParts() {
  const scenario = { title: "a landing", sets: 8, seconds: 60, ...PLAN, ...SERVICER };
  want(new Clock(scenario).lasts === 6000 && new Machine({ plan: scenario }).sets === 8 && new Machine({ sets: 8, plan: scenario }).sets === 8, "a scenario");
  const power = [...Array(5).fill(["77777", "00000"]).flat(), "77776", "00001"];
  const bench = { limit: 9, allowance: 5n, attends: 1, power, script: ["tick"], worker: [{ script: ["tick"], repeat: true }], device: [{ line: "key" }] };
  want(same(new Machine({ plan: bench }).scene().phases, [0, 0, 0, 0, 0, 1]), "a bench");
  want(new Machine({ plan: JSON.parse('{ "allowance": 9223372036854775807 }') }).sets === 7, "an allowance that no number holds");
  want(same(new Machine({ plan: bench, words: new Machine().words }).scene().phases, [0, 0, 0, 0, 0, 0]), "words of an earlier machine");
}

function foreignWordsHaveNoScene() {
  const machine = new Machine();
  const words = Array.from(machine.words);
  want(same(sceneOf(words), machine.scene()), "a scene");
  for (const [place, bits] of [[11, 0o1001], [89, 0o14], [129, 5], [90, 1], [3, 32768]]) {
    thrown(AgcError, () => sceneOf(words.map((it, k) => (k === place ? bits : it))));
  }
  // A number that is no word is found as others are; what is no number isn't.
  for (const [bits, found] of [[-1, "-1"], [65536, "200000"]]) {
    const told = findingOf(words.map((it, k) => (k === 3 ? bits : it)));
    want(same([told.code, told.rule, told.place, told.found], [Code.NOT_WORDS, 1, 3, bits]), `a finding: ${JSON.stringify(told)}`);
    want(told.text === `MPAC+3 of core set 0 (word 3) is ${found}: a word has at most fifteen bits`, told.text);
  }
  thrown(AgcError, () => findingOf([...words.slice(0, 131), null]), "words: FAILREG 2 (word 131) must be an integer, not null");
  thrown(AgcError, () => sceneOf(words.slice(1)), "words: there must be 132 or 144, but there are 131");
}

/** What a clock gave is to be asked, and it is to be told of it, before it gives another. */
function aClockIsToldOfItsRequest() {
  const [machine, clock] = [new Machine(), new Clock()];
  const asked = clock.next(machine);
  const told = "the clock was asked again, and not told by `served` what came of its request";
  for (const again of [() => clock.next(machine), () => clock.copy().next(machine), () => machine.run(clock, 1)]) thrown(AgcError, again, told);
  clock.served(machine, machine.ask(asked));
  want(`${clock.next(machine)}` === "tick" && clock.time === 2, "a clock that was told");
}

/** What is kept goes on as what was kept does, and leaves it alone. */
function areKept() {
  const [machine, clock] = [new Machine({ sets: 8, plan: PLAN }), new Clock(SERVICER)];
  machine.ask("list 500 02000 00005");
  machine.run(clock, 3000);
  const told = (its, own) => [its.words, its.moment, its.totals, own.time, own.given];
  const goesOn = (its, own) => {
    const texts = [];
    its.run(own, 700, (asked, step) => texts.push(`${asked}: ${step}`));
    return texts;
  };
  const was = told(machine, clock);
  const wanted = goesOn(machine.copy(), clock.copy());
  want(wanted.length > 700 && machine.totals.restarts > 0, "a busy machine");
  for (const kept of [(it) => it, structuredClone, (it) => JSON.parse(JSON.stringify(it))]) {
    const [other, own] = [Machine.ofState(kept(machine.state)), Clock.ofState(kept(clock.state))];
    want(same(told(other, own), was) && other.sets === 8, `${kept}`);
    want(same(goesOn(other, own), wanted) && same(told(machine, clock), was), `${kept} goes on`);
  }
  want(same(Clock.ofState(clock.state).state, clock.state), "a clock's state");
  want(same(JSON.parse(JSON.stringify([machine, clock])), [machine.state, clock.state]), "JSON has the state");
  const { state } = machine;
  thrown(AgcError, () => Machine.ofState({ ...state, words: state.words.map(() => 0) }));
  thrown(AgcError, () => Machine.ofState({ ...state, moment: state.moment.map(() => 0) }));
  thrown(AgcError, () => Machine.ofState({ ...state, totals: { ...state.totals, served: -1 } }));
  const many = Machine.ofState({ ...state, totals: { ...state.totals, served: 2 ** 40 + 5 } });
  want(many.report().includes("\nSERVED 1099511627781\n"), "a count above 32 bits");
  const full = Machine.ofState({ ...state, totals: { served: 2 ** 64, alarms: [2 ** 53, 0, 0], restarts: 2 ** 64 } });
  const was53 = full.totals;
  want(full.ask("restart") && same(full.totals, was53) && same(Machine.ofState(full.state).totals, was53), "counts stay at their most");
}

/** An alarm moves the events of a clock, and of none that was copied before. */
function anAlarmMovesWhatCountsFromIt() {
  const key = { name: "key", after: "1202", at: 10, do: "phase 1 1" };
  const event = [{ at: 5, do: new Array(8).fill("novac 20 04000 00005") }, key, { after: "key", at: 5, do: "phase 1 2" }];
  const [machine, clock] = [new Machine(), new Clock({ event })];
  want(machine.run(clock, 4) === 4, "four ticks");
  const [other, its] = [machine.copy(), clock.copy()];
  want(machine.run(clock, 4) === 12 && same(clock.state.alarms, { 1202: 5 }) && same(its.state.alarms, {}), "an alarm");
  const again = Clock.ofState(clock.state);
  const changed = clock.copy();
  changed.change({ event });
  for (const [one, timer] of [[machine.copy(), again], [machine.copy(), changed], [other, its], [machine, clock]]) {
    const found = [];
    one.run(timer, 20, (asked, step, time) => { if (asked.name === "phase") found.push(`${time} ${asked}`); });
    want(same(found, ["15 phase 1 1", "20 phase 1 2"]), `what counts from an alarm: ${found}`);
  }
  const { alarms, ...old } = clock.state;
  want(same(alarms, { 1202: 5 }) && same(Clock.ofState(old).state.alarms, {}), "a state without alarms");
  thrown(AgcError, () => Clock.ofState({ ...old, alarms: { 1204: 1 } }));
  thrown(AgcError, () => new Clock({ event: [{ at: 1, after: "1204", do: "tick" }] }));
}

/** The last time of an event that counts from another counts from that, too. */
function lastTimesCountFromEvents() {
  const times = [];
  const event = [{ name: "P64", at: 30, do: "restart" }, { after: "P64", at: 5, every: 10, until: 20, do: "phase 1 1" }];
  new Machine().run(new Clock({ event }), 90, (asked, _, time) => { if (asked.name === "phase") times.push(time); });
  want(same(times, [35, 45]), `an event that counts from another comes at ${times}`);
}

function wordsAreNamed() {
  for (const [place, name] of [[0, "MPAC of core set 0"], [11, "PRIORITY of core set 0"], [83, "PRIORITY of core set 6"], [84, "VAC 1"], [89, "NEWJOB"],
    [90, "TIME3"], [91, "LST1 0"], [98, "LST1 7"], [99, "LST2 0, the address"], [116, "LST2 8, the bank"], [117, "-PHASE of group 1"],
    [128, "PHASE of group 6"], [129, "FAILREG 0"], [132, "MPAC of core set 7"], [143, "PRIORITY of core set 7"]]) {
    want(placeName(place) === name, `word ${place} is called ${placeName(place)}`);
  }
  const machine = new Machine();
  const seen = ["novac 20 04000 00005", "novac 30 04100 00005", "change"].map((it) => machine.ask(it) && machine.scene());
  want(same(seen.map((it) => [it.running, it.next]), [[1, 0], [1, 2], [2, 0]]), "whom NEWJOB names");
}

/** What no line and no JSON has: invisible characters, null, and arguments of wrong types. */
function messagesCanBeShown() {
  const machine = new Machine();
  for (const [call, told] of [
    [() => machine.ask(new agc.Asked("prio", [0o40], null)), "priority is 40 (octal), but must be 1 to 37"],
    [() => machine.ask("tick\xa0"), '"tick\\u{a0}": its first word is unknown; did you mean "tick"?'],
    [() => machine.ask("\ufefftick"), '"\\u{feff}tick": its first word is unknown; did you mean "tick"?'],
    [() => machine.ask("toString")], [() => machine.ask("tick\0")], [() => machine.ask(`tick${" ".repeat(9999)}`)], [() => machine.ask("\u0174ick")],
    [() => placeName(-1), "place is -1, but must be 0 to 143"],
  ]) thrown(AgcError, call, told);
  for (const [call, told] of [
    [() => new Clock().next(null), "machine must be a Machine, not null"],
    [() => new Clock().served(machine, "tick"), 'step must be a Step, not "tick"'],
    [() => machine.run(undefined, 5), "clock must be a Clock, not undefined"],
    [() => machine.run(new Clock(), 5, "row"), 'row must be a function, not "row"'],
    [() => machine.ask("novac", "20", 1, 1), 'priority must be an integer, not "20"'],
    [() => machine.ask("store", 1, true), "word must be an integer, not true"],
    [() => machine.ask(null), "request must be a string, not null"],
    [() => machine.ask("prio", 5n), "priority must be an integer, not 5n"],
    [() => refusalOf("tick", { served: 0, allowance: "1", logged: 0, limit: 1 }), 'bounds: allowance must be an integer, not "1"'],
    [() => pulseOf(5), "line must be a string, not 5"],
    [() => placeName("x"), 'place must be an integer, not "x"'],
    [() => new Machine({ words: machine.words, power: [] }), "a machine begins with words or with power, and not with both"],
  ]) thrown(TypeError, call, told);
  machine.ask("findvac 20 02000 00005");
  want(`${machine}` === "<Machine: job 1 runs; jobs: 1, tasks: 0, alarms: 0>" && agc.Lacking === AgcError, `${machine}`);
  const clock = new Clock({ seconds: 2, ...SERVICER });
  want(inspect(clock) === "<Clock: 0 of 200 centiseconds; jobs: 2, events: 2>" && inspect(machine) === `${machine}`, inspect(clock));
  // What was told is kept, whatever is asked next; and a plan of many rows wants more memory, and leaves other machines as they were.
  const [words, moment] = [machine.words, machine.moment];
  const row = (_, k) => ({ at: k + 1, bank: 5, action: ["list 1 00001 00005", "nothing"] });
  const long = new Machine({ plan: { task: Array.from({ length: 3000 }, row) } });
  long.ask("list", 1, 3000, 5);
  want(long.ask("tick").text === "tick 05670/00005" && long.scene().tasks[0].left === 1, "the last row of many");
  want(machine.ask("end").text === "left idle" && words[0] === 1 && moment[0] === 1, "what was told is kept");
}

/** What is collected gives its part of the module's memory back, to others, and never what one that is there still has. */
async function roomsAreGivenBackOnce() {
  setFlagsFromString("--expose-gc");
  const collect = runInNewContext("gc");
  const event = [{ after: "1202", at: 10, do: "phase 1 1" }];
  const made = (k) => {
    const [machine, clock] = [new Machine({ plan: PLAN }), new Clock({ event })];
    machine.ask("novac", 1 + k % 31, 1 + k, 5);
    machine.run(clock, 1 + k % 7);
    clock.change({ steal: k % 100 });
    return [machine, clock];
  };
  const told = (pairs) => pairs.map(([machine, clock]) => [machine.copy().state, clock.copy().state]);
  const kept = Array.from({ length: 40 }, (_, k) => made(k));
  const was = told(kept);
  for (let turn = 0; turn < 5; turn++) {
    for (let k = 0; k < 200; k++) made(k).map((it) => it.copy());
    collect();
    await new Promise((done) => { setTimeout(done, 5); });
  }
  const later = Array.from({ length: 200 }, (_, k) => made(k + 40));
  want(same(told(kept), was) && same(told(later).slice(0, 3), told([made(40), made(41), made(42)])), "machines that are there stay");
}

await roomsAreGivenBackOnce();
timeGoesOn();
theyTakeTurns();
messagesCanBeShown();
boundsRefuse();
pulsesAsk();
faultsAreTold();
documentsStandForTheirParts();
foreignWordsHaveNoScene();
aClockIsToldOfItsRequest();
areKept();
anAlarmMovesWhatCountsFromIt();
lastTimesCountFromEvents();
wordsAreNamed();
want(/^\d+\.\d+\.\d+$/.test(VERSION) && replyText(Kind.ALARMED) === "a table is full: an alarm" && agc.codeText(Code.OK) === "the call was served", "texts");
