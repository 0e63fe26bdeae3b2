// Asks a `Machine` and its `Clock` what lines say, which caller.py describes, and writes what came of it.
//
//     node caller.mjs AGC_JS           by the module agc.js at this path
//     node caller.mjs AGC_JS MODULE    by machine.js beside it, and another module of WebAssembly
//
// In a browser a page of browse.py imports it, and calls `written`.

const KINDS = ["", "novac", "findvac", "end", "sleep", "rouse", "prio", "change", "store", "list", "tick", "phase", "restart", "fresh"];
const BASES = { store: [10, 8], list: [10, 8, 8], phase: [10, 10] };

function want(holds, what) {
  if (!holds) throw new TypeError(`it doesn't hold: ${what}`);
}

const octal = (number, width) => number.toString(8).padStart(width, "0");
const same = (one, other) => JSON.stringify(one) === JSON.stringify(other);

/** A scene as arrays alone. */
function told(scene) {
  const values = (it) => (it === null || typeof it !== "object" ? it : Object.values(it).map(values));
  return JSON.stringify(values(scene));
}

function numbersOf(line) {
  const [name, ...texts] = line.split(" ");
  return texts.map((it, k) => parseInt(it, (BASES[name] ?? [8, 8, 8])[k]));
}

/** A bench or a scenario. What it says is made with the first request, when its plan is whole. */
class Caller {
  constructor(agc, out, [name, sets, seconds = 86400, seed = 0]) {
    const plan = { task: [], phase: [] };
    Object.assign(this, { agc, out, isBench: name === "bench", sets: Number(sets), plan, power: undefined, restarts: 0, fault: null });
    this.begin(seconds, seed);
  }

  begin(seconds, seed) {
    this.time = { seconds: Number(seconds), seed: Number(seed) || undefined, steal: [], job: [], event: [] };
    this.isChanged = true;
  }

  make() {
    this.machine ??= new this.agc.Machine({ sets: this.sets, plan: this.plan, power: this.power });
    if (this.clock === undefined) this.clock = new this.agc.Clock(this.time);
    else if (this.isChanged) this.clock.change(this.time);
    this.isChanged = false;
  }

  /** A row of the plan or of the timetable. */
  add(name, words, parts) {
    const numbers = words.map(Number);
    if (name === "task") this.plan.task.push({ at: words[0], bank: words[1], action: parts });
    else if (name === "phase") {
      const [job, task] = parts.map((it) => it || undefined);
      this.plan.phase.push({ group: numbers[0], phase: numbers[1], job, task });
    } else if (name === "job") {
      const [, from, to] = numbers;
      this.time.job.push({ at: words[0], cost: from === to ? from : { from, to }, then: parts });
    } else {
      const [every, until] = name === "steal" ? numbers.slice(3) : numbers.slice(1);
      const again = every === 0 ? {} : { every, until };
      const after = name === "steal" || words[3] === "0" ? {} : { after: words[3] };
      const row = name === "steal" ? { from: numbers[0], to: numbers[1], percent: numbers[2] } : { at: numbers[0], do: parts };
      this.time[name].push({ ...row, ...again, ...after });
    }
  }

  /** A reply's line by its numbers alone. */
  spelled({ kind, number, fired }) {
    const { Kind } = this.agc;
    const tick = ["tick", ...fired.map((it) => `${octal(it.at, 5)}/${octal(it.bank, 5)}`)].join(" ");
    return {
      [Kind.ESTABLISHED]: `job ${number}`, [Kind.LEFT]: `left ${number}`, [Kind.IDLE]: "left idle",
      [Kind.ROUSED]: `roused ${number}`, [Kind.NO_SLEEPER]: "no sleeper", [Kind.NO_JOB]: "no job",
      [Kind.RUNS]: `runs ${number}`, [Kind.STORED]: "stored", [Kind.LISTED]: "listed",
      [Kind.ALARMED]: `alarm ${octal(number)}`, [Kind.PHASED]: "phased", [Kind.TICKED]: tick,
      [Kind.TICK_ALARMED]: `${tick} alarm ${octal(number)}`, [Kind.RESTARTED]: "restarted",
    }[kind];
  }

  /** Asks for a line, and of a copy for its numbers. */
  ask(line) {
    const other = this.machine.copy();
    const step = this.machine.ask(line);
    want(same(other.ask(line.split(" ")[0], ...numbersOf(line)), step) && step.text === this.spelled(step), line);
    want(same([other.words, other.moment, other.totals], [this.machine.words, this.machine.moment, this.machine.totals]), line);
    const { restarts } = other.totals;
    want(step.action > 0 === (step.kind === this.agc.Kind.TICK_ALARMED) && step.beginsEra === restarts > this.restarts, line);
    this.restarts = restarts;
    return step.text;
  }

  write(time, source, name, numbers, step) {
    this.out.push([time, source, KINDS.indexOf(name), ...numbers, ...Array(3 - numbers.length).fill(0), step.text].join(" "));
  }

  /** Lets time pass by `run`, and of copies request by request, which has to leave the same. */
  run(centiseconds) {
    const [machine, clock] = [this.machine.copy(), this.clock.copy()];
    const count = this.machine.run(this.clock, centiseconds, (asked, step, time) => {
      this.write(time, asked.event === null ? 1 : asked.event + 2, asked.name, asked.numbers, step);
      const next = clock.next(machine);
      const other = machine.ask(next);
      clock.served(machine, other);
      want(same(next, asked) && next.text === asked.text && same(other, step), asked.text);
    });
    want(same([machine.words, machine.totals, clock.time], [this.machine.words, this.machine.totals, this.clock.time]), "a run");
    want(count > 0 || centiseconds === 0 || this.clock.time === this.clock.lasts, "a run that asks for nothing");
  }

  asks(centiseconds) {
    const texts = [];
    this.machine.run(this.clock, centiseconds, (asked, _, time) => { if (asked.name !== "tick") texts.push(`${time} ${asked}`); });
    this.out.push(`asks ${texts.join(", ")}`);
  }

  keeps(end) {
    const texts = [];
    const row = (asked, _, time) => { if (asked.name !== "tick") texts.push(`${time} ${asked}`); return false; };
    while (this.machine.run(this.clock, end - this.clock.time, row) > 0) this.kept();
    this.out.push(`keeps ${texts.join(", ")}`);
  }

  kept() {
    const text = JSON.stringify([this.machine, this.clock]);
    const [machine, clock] = JSON.parse(text);
    [this.machine, this.clock] = [this.agc.Machine.ofState(machine), this.agc.Clock.ofState(clock)];
    want(JSON.stringify([this.machine, this.clock]) === text, "what is kept");
  }

  words(place, bits) {
    const words = Array.from(this.machine.words, (it, k) => (k === place ? bits : it));
    const finding = this.agc.findingOf(words);
    try {
      const made = new this.agc.Machine({ words });
      want(finding === null && same([made.words, made.moment].map((it) => Array.from(it)), [words, words]) && made.totals.served === 0, "other words");
    } catch (fault) {
      want(fault.message === `words: ${finding?.text}` && fault.code === finding.code, fault);
      throw fault;
    }
  }

  /** Does what a line says. */
  serve(name, rest, line) {
    this.make();
    if (name === "run") this.run(Number(rest));
    else if (name === "hand") {
      const step = this.machine.ask(rest);
      this.clock.served(this.machine, step);
      this.write(this.clock.time, 0, rest.split(" ")[0], numbersOf(rest), step);
    } else if (name === "asks") this.asks(Number(rest));
    else if (name === "keeps") this.keeps(this.clock.time + Number(rest));
    else if (name === "given") this.out.push(["given", ...this.clock.given, this.clock.state.at.at(-1)].join(" "));
    else if (name === "kept") this.kept();
    else if (name === "words") this.words(Number(rest.split(" ")[0]), parseInt(rest.split(" ")[1], 8));
    else if (name === "scene") this.out.push(`scene ${told(this.machine.scene())}`);
    else if (name === "moment") this.out.push(`moment ${told(this.agc.sceneOf(this.machine.moment))}`);
    else this.out.push(this.ask(line));
  }

  take(line) {
    const [name, rest] = line.includes(" ") ? [line.slice(0, line.indexOf(" ")), line.slice(line.indexOf(" ") + 1)] : [line, ""];
    const [first, ...parts] = rest.split("|");
    this.notes(() => {
      if (name === "timetable") this.begin(...first.split(" "));
      else if (name === "power") this.power = first.split(" ");
      else if (parts.length > 0 || name === "steal") this.add(name, first.split(" "), parts);
      else if (name === "refused") this.refused();
      else this.serve(name, rest, line);
    });
  }

  /** Does it, and notes what is refused. */
  notes(call) {
    try {
      call();
    } catch (fault) {
      if (!(fault instanceof this.agc.AgcError)) throw fault;
      this.fault = fault;
    }
  }

  refused() {
    this.notes(() => this.make());
    const told = this.fault === null ? "nothing" : [this.fault.number, this.fault.row, this.fault.key, this.fault.message].join("|");
    this.out.push(`refused ${told}`);
    this.fault = null;
  }
}

/** What is written of all lines. */
export function written(agc, lines) {
  const out = [];
  let caller = null;
  for (const line of [...lines, "bench 7"]) {
    const words = line.split(" ");
    if (words[0] === "bench" || words[0] === "scenario") {
      if (caller?.isBench) {
        caller.make();
        out.push(caller.machine.report().slice(0, -1));
      }
      caller = new Caller(agc, out, words);
      if (!caller.isBench) out.push(line);
    } else caller.take(line);
  }
  return `${out.join("\n")}\n`;
}

/** A module takes another's place, and each machine goes on. */
export async function goesOn(agc, bytes, last) {
  const phase = [{ group: 4, phase: 5, job: "findvac 25 06000 00007" }];
  const made = Array.from({ length: 2 }, () => new agc.Machine({ plan: { phase } }));
  made.forEach((it) => it.ask("phase 4 5"));
  await agc.start(bytes);
  for (let k = 0; k < 5; k++) made.forEach((it) => it.ask("findvac 01 00001 00000"));
  await agc.start(last);
  for (const it of made) {
    want(it.ask("findvac 01 00001 00000").alarm === 0o1201 && it.words[8] === 0o6000, "another module");
    want(it.totals.served === 7 && it.report().includes("\nSERVED 7\nALARMS 1 0 0\nRESTARTS 1\n"), "its totals");
  }
}

if (typeof process !== "undefined" && process.argv[1]?.endsWith("caller.mjs")) {
  const { readFileSync } = await import("node:fs");
  const { pathToFileURL } = await import("node:url");
  const [path, module] = process.argv.slice(2);
  const agc = await import(pathToFileURL(module ? path.replace(/agc\.js$/, "machine.js") : path).href);
  if (module) await agc.start(readFileSync(module));
  const own = readFileSync(path.replace(/agc\.js$/, "agc.wasm"));
  await goesOn(agc, own, module ? readFileSync(module) : own);
  process.stdout.write(written(agc, readFileSync(0, "utf8").split("\n").slice(0, -1)));
}
