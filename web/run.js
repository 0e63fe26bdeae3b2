/**
 * A run: the requests that were asked of a machine, what came of each, and checkpoints from which
 * each state in between is computed anew. Row n is request n, and row 0 the beginning.
 *
 * @typedef {import("../libagc/js/machine.js").Machine} MachineType
 * @typedef {import("../libagc/js/machine.js").Step} StepType
 * @typedef {import("../libagc/js/machine.js").Scene} Scene
 * @typedef {{ at: number, bank: number, left: number, due: number, since: number }} HeldTask
 * @typedef {{ row: number, line: string, who: string, reply: string, kind: number,
 *   step: StepType | null, scene: Scene, words: Uint16Array, jobsSince: number[], jobsFrom: number[],
 *   tasksSince: number[], before: Scene | null, after: Scene | null, ticks: number, time: number,
 *   afterWords: Uint16Array, last: Scene | null, era: number, begun: number, ended: number,
 *   isAfter?: boolean }} Shown
 */
import { NUMBERS } from "../libagc/js/library.js";
import { Code, Kind, Machine, refusalOf, sceneOf } from "../libagc/js/machine.js";
import { Column } from "./column.js";
import { Lanes, lastWhere } from "./lanes.js";
import { costsOf, needOf } from "./work.js";

/** How many rows lie between two checkpoints, and how many are kept that were looked at. */
const [APART, MOST_SEEN] = [256, 256];

/** How many requests are asked at a stretch, so that the page goes on answering. */
export const STRETCH = 2_000;

/** How many rows a run has at most, and how many a bench may ask for. */
export const MOST_ROWS = 4_000_000;
export const MOST_ASKED = 2_000_000;

/** Each line that was asked, once: a run of many requests has few different lines. @type {Map<string, string>} */
const spelled = new Map();

/** How many different lines are kept so. */
const MOST_SPELLED = 10_000;

/** @param {string} line */
function once(line) {
  const found = spelled.get(line);
  if (found !== undefined) return found;
  if (spelled.size >= MOST_SPELLED) spelled.clear();
  spelled.set(line, line);
  return line;
}

/** What came of a request that was not served, and by which code of the module. */
export const SPENT = 100;
export const LOG_FULL = 101;
const REFUSED = { [Code.OK]: 0, [Code.SPENT]: SPENT, [Code.LOG_FULL]: LOG_FULL };

/**
 * The document that a run came of, and the exercise that it is, if any: name and question, and
 * whether the document isn't the exercise's own. A run that goes on from another has the same source.
 *
 * @typedef {{ document: string, exercise: string, question: string, isChanged: boolean }} Source
 */

/** @type {Source} */
export const NO_SOURCE = Object.freeze({ document: "", exercise: "", question: "", isChanged: false });

/** What of a bench a slider may change. @type {(keyof import("./bench.js").Bench)[]} */
export const CHANGING = ["steal", "seed", "job", "event", "sets", "task", "phase"];

/** Whether two values of a bench are spelled alike. @param {any} one @param {any} other */
export const isAlike = (one, other) => JSON.stringify(one) === JSON.stringify(other);

// What is kept of each row: bits of `marks`.
const ALARM = 1;
const CHANGE = 2;

/** A machine, and since which request each of its jobs and tasks is there. */
class Witness {
  /** @param {MachineType} machine */
  constructor(machine) {
    this.machine = machine;
    /** Since which row each job is there, by number: twice it, and 1 more where an era began so. */
    this.born = new Float64Array(NUMBERS.MOST_SETS + 1);
    /** At which address each job began, by number. */
    this.from = new Uint16Array(NUMBERS.MOST_SETS + 1);
    /** @type {HeldTask[]} */
    this.tasks = [];
    this.living = 0;
    this.running = 0;
    /** How many sets, areas and tasks are used, and whether no job is running: four bits each. */
    this.use = 0;
    /** The jobs that don't sleep. @type {import("../libagc/js/machine.js").Job[]} */
    this.awake = [];
    /** How many jobs of this era have begun, and how many are gone. */
    this.begun = 0;
    this.ended = 0;
    /** How many ticks were served, requests served, and requests in the log. */
    this.now = 0;
    this.served = 0;
    this.log = 0;
    /** The row and the ticks with which the era began. */
    this.era = 0;
    this.eraTicks = 0;
    /** The clock that says which request comes next, where there is one. */
    this.clock = /** @type {any} */ (null);
    /** Where it is told what each lane holds: of the run's last row alone. */
    this.lanes = /** @type {Lanes | null} */ (null);
  }

  copy() {
    const made = Object.assign(Object.create(Witness.prototype), this, { lanes: null });
    made.machine = this.machine.copy();
    made.born = this.born.slice();
    made.from = this.from.slice();
    made.clock = this.clock === null ? null : this.clock.copy();
    return /** @type {Witness} */ (made);
  }

  /** Looks at the tables as they are after a row. @param {number} row @param {boolean} beginsEra @param {boolean} movesTasks */
  look(row, beginsEra, movesTasks) {
    const { sets, areas, tasks, running } = this.machine.scene();
    let living = 0;
    let used = 0;
    for (const job of sets) {
      if (job === null) continue;
      living |= 1 << job.number;
      used += 1;
    }
    const fresh = beginsEra ? living : living & ~this.living;
    const gone = beginsEra ? 0 : this.living & ~living;
    if (beginsEra) [this.begun, this.ended] = [0, 0];
    for (const job of fresh === 0 ? [] : sets) {
      if (job !== null && (fresh >> job.number) & 1) this.from[job.number] = job.at;
    }
    for (let job = 1; (fresh | gone) !== 0 && job < this.born.length; job++) {
      if ((fresh >> job) & 1) this.born[job] = 2 * row + (beginsEra ? 1 : 0);
      this.begun += (fresh >> job) & 1;
      this.ended += (gone >> job) & 1;
    }
    if (movesTasks) this.tasks = this.tasksIn(tasks, row, beginsEra);
    if (this.lanes !== null) {
      this.lanes.lookAtJobs(2 * row + 1, sets, beginsEra);
      if (movesTasks) this.lanes.lookAtTasks(2 * row + 1, this.tasks, beginsEra);
    }
    this.living = living;
    this.running = running;
    this.awake = sets.flatMap((job) => (job === null || job.asleep ? [] : [job]));
    const owned = areas.reduce((count, owner) => count + (owner === 0 ? 0 : 1), 0);
    this.use = used | (owned << 4) | (this.tasks.length << 8) | (running === 0 ? 1 << 12 : 0);
  }

  /** Looks at what was there as a request was answered, before an era began with it. @param {number} row */
  lookAtMoment(row) {
    if (this.lanes === null) return;
    const { sets, tasks } = sceneOf(this.machine.moment);
    this.lanes.lookAtJobs(2 * row, sets, false);
    this.lanes.lookAtTasks(2 * row, this.tasksIn(tasks, row, false), false);
  }

  /** These tasks, each with its row: that of a task which waited before, or else this. @param {{ at: number, bank: number, left: number }[]} tasks @param {number} row @param {boolean} beginsEra @returns {HeldTask[]} */
  tasksIn(tasks, row, beginsEra) {
    const older = beginsEra ? [] : [...this.tasks];
    return tasks.map((it) => {
      const due = this.now + it.left;
      const isIt = (/** @type {HeldTask} */ one) =>
        one.at === it.at && one.bank === it.bank && one.due === due;
      const k = older.findIndex(isIt);
      return k < 0 ? { ...it, due, since: 2 * row + (beginsEra ? 1 : 0) } : older.splice(k, 1)[0];
    });
  }

  /** Asks a request that is served, and looks at what came of it. @param {string} line @param {number} row */
  ask(line, row) {
    const step = this.machine.ask(line);
    this.took(step, row);
    return step;
  }

  /** Looks at what came of a request. A centisecond in which no task is due changes only the time. @param {StepType} step @param {number} row */
  took(step, row) {
    this.served += 1;
    this.log += 1;
    if (step.kind === Kind.TICKED || step.kind === Kind.TICK_ALARMED) this.now += 1;
    if (step.kind === Kind.TICKED && step.fired.length === 0) return;
    const beginsEra = step.beginsEra;
    if (beginsEra) this.lookAtMoment(row);
    this.look(row, beginsEra, beginsEra || step.kind === Kind.LISTED || step.fired.length > 0);
    if (beginsEra) [this.log, this.era, this.eraTicks] = [0, row, this.now];
  }
}

/** Whether a request changed more than the time. @param {StepType} step @param {string} line @param {number} before @param {number} after */
function isChange(step, line, before, after) {
  if (step.kind === Kind.RUNS) return before !== after || line.startsWith("prio");
  if (step.kind === Kind.TICKED) return step.fired.length > 0;
  return step.kind !== Kind.NO_JOB && step.kind !== Kind.NO_SLEEPER;
}

/** What is there after the restart that a row ended with. @param {Shown} shown @returns {Shown} */
export function afterOf(shown) {
  const { row, after, scene, afterWords: words } = shown;
  if (after === null) return shown;
  const [tasksSince, jobsSince] = [after.tasks, after.sets].map((all) => all.map(() => 2 * row + 1));
  return { ...shown, scene: after, last: scene, words, tasksSince, isAfter: true, jobsSince, jobsFrom: after.sets.map((it) => it?.at ?? 0) };
}

/** Whether it is the clock that asks, or one of its events. @param {string} who */
export function isClock(who) {
  return /^the clock|^event/.test(who);
}

export class Run {
  /** @param {import("./bench.js").Bench} bench */
  constructor(bench) {
    this.bench = bench;
    /** The bench as its document has it. */
    this.given = bench;
    this.sets = bench.sets ?? 7;
    /** What the document is called that it came of, and what that says of itself. */
    this.title = "AGC workbench";
    this.about = "";
    this.source = NO_SOURCE;
    /** Whether it was made of all of the document, and isn't a copy of another run. */
    this.isOpened = false;
    /** Whether its clock has more to ask for, which comes in the background. */
    this.isFilling = false;
    /** @type {string[]} */
    this.lines = [""];
    /** Who asked, by number. */
    this.who = ["nobody"];
    this.count = 0;
    // (the last three: the clock's centisecond, how many hundredths of it are left, and what jobs still need)
    this.columns = { kinds: new Column(Uint8Array), numbers: new Column(Uint16Array), by: new Column(Uint16Array), marks: new Column(Uint8Array),
      ticks: new Column(Uint32Array), uses: new Column(Uint16Array), times: new Column(Uint32Array), left: new Column(Uint8Array), waiting: new Column(Uint32Array) };
    this.costs = costsOf(bench);
    /** @type {number[]} */
    this.alarms = [];
    /** The rows that weren't served. @type {number[]} */
    this.refused = [];
    const plan = { task: bench.task, phase: bench.phase };
    this.head = new Witness(new Machine({ sets: this.sets, plan, power: bench.power }));
    this.lanes = new Lanes(this.sets);
    this.head.lanes = this.lanes;
    this.head.look(0, true, true);
    this.columns.uses.set(0, this.head.use);
    this.noteWork(0);
    this.checkpoints = [this.head.copy()];
  }

  /** Gives the run a clock, before anything is asked. @param {import("../libagc/js/machine.js").Clock} clock */
  startClock(clock) {
    this.head.clock = clock;
    this.noteWork(0);
    this.checkpoints = [this.head.copy()];
  }

  /** Why a request isn't served, after so many more: `SPENT`, `LOG_FULL`, or 0, as the module says. @param {string} line @param {number} [more] */
  refusal(line, more = 0) {
    const { served, log } = this.head;
    const { limit, allowance } = this.bench;
    const counts = { served: served + more, logged: log + more };
    return REFUSED[/** @type {keyof typeof REFUSED} */ (refusalOf(line, { ...counts, limit, allowance }))];
  }

  /** @param {string} who */
  asker(who) {
    const k = this.who.lastIndexOf(who);
    return k >= 0 ? k : this.who.push(who) - 1;
  }

  /** Asks a request, as the next row. A line that spells none is thrown, and nothing is changed. @param {string} line @param {string} who @returns {StepType | null} what came of it; nothing where it was refused */
  ask(line, who) {
    const before = this.head.running;
    const refused = this.refusal(line);
    const step = refused === 0 ? this.head.ask(line, this.count + 1) : null;
    if (step !== null) this.head.clock?.served(this.head.machine, step);
    this.note(once(line), this.asker(who), step, refused, before);
    return step;
  }

  /** Whether the clock may ask so many requests before the log is full or the allowance is used up. @param {number} most */
  hasRoomFor(most) {
    return this.refusal("tick", most) === 0;
  }

  /** Lets the clock ask at most so many requests, of which none may be refused: in one loop of the module. Returns how many these were: fewer, where its time is over. @param {number} most @param {(event: number | null) => string} whoOf */
  askByClock(most, whoOf) {
    const { head } = this;
    /** @type {Map<number | null, number>} */
    const askers = new Map();
    let left = most;
    head.machine.run(head.clock, 0x7fffffff, (asked, step) => {
      const { event } = asked;
      let by = askers.get(event);
      if (by === undefined) askers.set(event, by = this.asker(whoOf(event)));
      const before = head.running;
      head.took(step, this.count + 1);
      this.note(asked.name === "tick" ? "tick" : once(asked.text), by, step, 0, before);
      left -= 1;
      return left > 0;
    });
    return most - left;
  }

  /** Keeps a row. @param {string} line @param {number} asker @param {StepType | null} step @param {number} refused @param {number} before who ran */
  note(line, asker, step, refused, before) {
    const row = this.count + 1;
    const { kinds, numbers, by, marks, ticks, uses } = this.columns;
    this.count = row;
    this.lines.push(line);
    by.set(row, asker);
    if (this.who[asker].startsWith("event ")) this.noteEvent(row, asker);
    kinds.set(row, step === null ? refused : step.kind);
    numbers.set(row, step === null ? 0 : step.number);
    ticks.set(row, this.head.now);
    uses.set(row, this.head.use);
    this.noteWork(row);
    const changes = step !== null && isChange(step, line, before, this.head.running);
    marks.set(row, (changes ? CHANGE : 0) | (step !== null && step.alarm !== 0 ? ALARM : 0));
    if (step !== null && step.alarm !== 0) this.alarms.push(row);
    if (step === null) this.refused.push(row);
    if (row % APART === 0) this.checkpoints.push(this.head.copy());
  }

  /** Keeps what a row has left of the clock's centisecond, and of its jobs' work. @param {number} row */
  noteWork(row) {
    const { clock, awake } = this.head;
    this.columns.times.set(row, clock?.time ?? 0);
    this.columns.left.set(row, clock?.left ?? 0);
    this.columns.waiting.set(row, clock === null ? 0 : needOf(this.costs, awake, clock.given));
  }

  /** When a row was asked, in hundredths of a centisecond of the clock. @param {number} row */
  momentAt(row) {
    return 100 * this.columns.times.items[row] - this.columns.left.items[row];
  }

  /** An event with several requests is one mark. @param {number} row @param {number} asker */
  noteEvent(row, asker) {
    const { events } = this.lanes;
    const last = events.at(-1);
    const isSame = last !== undefined && this.columns.by.items[last] === asker && this.ticksAt(last) === this.head.now;
    if (!isSame) events.push(row);
  }

  /** The witness as it was after a row: to show it, or with its clock, to go on from there. @param {number} row @param {boolean} goesOn */
  stateAt(row, goesOn = false) {
    const k = Math.floor(row / APART);
    const state = this.checkpoints[k].copy();
    if (!goesOn) state.clock = null;
    this.replay(state, k * APART + 1, row);
    return state;
  }

  /** Asks a state for these rows once more. @param {Witness} state @param {number} from @param {number} to */
  replay(state, from, to) {
    for (let at = from; at <= to; at++) {
      if (this.columns.kinds.items[at] >= SPENT) continue;
      if (state.clock !== null && this.isByClock(at)) state.clock.next(state.machine);
      const step = state.ask(this.lines[at], at);
      state.clock?.served(state.machine, step);
    }
  }

  /** Whether a row was asked by the clock, or by one of its events. @param {number} row */
  isByClock(row) {
    return isClock(this.whoAsked(row));
  }

  /** A run of its own with the rows up to this one. @param {number} row */
  fork(row) {
    const made = Object.create(Run.prototype);
    Object.assign(made, this, { isOpened: false });
    made.lines = this.lines.slice(0, row + 1);
    made.who = [...this.who];
    made.count = row;
    made.columns = Object.fromEntries(
      Object.entries(this.columns).map(([name, it]) => [name, it.front(row + 1)]),
    );
    made.alarms = this.alarms.filter((it) => it <= row);
    made.refused = this.refused.filter((it) => it <= row);
    made.head = this.stateAt(row, true);
    made.lanes = this.lanes.front(row);
    made.head.lanes = made.lanes;
    made.isFilling = false;
    made.checkpoints = this.checkpoints.slice(0, Math.floor(row / APART) + 1);
    return /** @type {Run} */ (made);
  }

  /** The requests of the first rows, and who asked each. @param {number} count @returns {Generator<[string, string]>} */
  *requests(count) {
    for (let row = 1; row <= count; row++) yield [this.lines[row], this.whoAsked(row)];
  }

  /** Asks at most so many of these requests. True where there are no more. @param {Iterator<[string, string]>} asked @param {number} most */
  askSome(asked, most) {
    for (let k = 0; k < most; k++) {
      const next = asked.next();
      if (next.done) return true;
      this.ask(...next.value);
    }
    return false;
  }

  /** How many of the first rows each one asked. @param {number} count */
  counts(count) {
    const found = new Uint32Array(this.who.length);
    for (let row = 1; row <= count; row++) found[this.columns.by.items[row]] += 1;
    return new Map(this.who.map((it, k) => [it, found[k]]));
  }

  /** Whether the first rows aren't what the document asks for: something was asked by hand, or its numbers are others. @param {number} count */
  isChanged(count) {
    return this.handRows(count) > 0 || CHANGING.some((it) => !isAlike(this.bench[it], this.given[it]));
  }

  /** How many of the first rows were asked by hand. @param {number} count */
  handRows(count = this.count) {
    const isHand = this.who.map((it) => it.startsWith("you"));
    if (!isHand.includes(true)) return 0;
    let found = 0;
    for (let row = 1; row <= count; row++) if (isHand[this.columns.by.items[row]]) found += 1;
    return found;
  }

  /** @param {number} row */
  whoAsked(row) {
    return this.who[this.columns.by.items[row]];
  }

  /** @param {number} row */
  isAlarm(row) {
    return (this.columns.marks.items[row] & ALARM) !== 0;
  }

  /** @param {number} row */
  isChange(row) {
    return (this.columns.marks.items[row] & CHANGE) !== 0;
  }

  /** @param {number} row */
  isRefused(row) {
    return row > 0 && this.columns.kinds.items[row] >= SPENT;
  }

  /** @param {number} row */
  ticksAt(row) {
    return this.columns.ticks.items[row];
  }

  /** Of the ticks of these rows, in how many percent no job was running, rounded down as by `agc_watch peaks`. @param {number} from @param {number} to */
  idlePercent(from, to) {
    const { ticks, uses } = this.columns;
    let [count, idle] = [0, 0];
    for (let row = from + 1; row <= to; row++) {
      if (ticks.items[row] === ticks.items[row - 1]) continue;
      count += 1;
      idle += uses.items[row - 1] >> 12;
    }
    return count === 0 ? 0 : Math.floor((100 * idle) / count);
  }

  /** How much of each table is used after a row. @param {number} row */
  useAt(row) {
    const use = this.columns.uses.items[row];
    return { sets: use & 15, areas: (use >> 4) & 15, tasks: (use >> 8) & 15, idle: use >> 12 };
  }

  /** The first row from which on so many ticks were served. @param {number} ticks @param {number} count how many rows there are to look at */
  rowAtTime(ticks, count) {
    return lastWhere(count, (row) => this.ticksAt(row) < ticks) + 1;
  }

  /** The rows from one to another, with all that is shown of them. @param {number} from @param {number} to @returns {Shown[]} */
  show(from, to) {
    const found = [];
    const state = this.stateAt(Math.max(from - 1, 0));
    if (from === 0) found.push(this.showFirst(state));
    for (let row = Math.max(from, 1); row <= to; row++) found.push(this.showNext(state, row));
    return found;
  }

  /** @param {Witness} state @returns {Shown} */
  showFirst(state) {
    const scene = state.machine.scene();
    const isBroken = scene.codes[0] !== 0;
    return { row: 0, line: this.bench.power === undefined ? "fresh start" : "power-up", who: "nobody", reply: isBroken ? "alarm 1107" : "restarted",
      kind: Kind.RESTARTED, step: null, scene, words: state.machine.words, afterWords: state.machine.words, before: null, after: null, last: null,
      jobsSince: scene.sets.map(() => 1), tasksSince: scene.tasks.map(() => 1), jobsFrom: scene.sets.map((it) => it?.at ?? 0),
      ticks: 0, time: 0, era: 0, begun: state.begun, ended: state.ended };
  }

  /** Asks the next request of a state, and describes it as it was when it was answered. @param {Witness} state @param {number} row @returns {Shown} */
  showNext(state, row) {
    const line = this.lines[row];
    const kind = this.columns.kinds.items[row];
    const before = state.machine.scene();
    const { living, era, eraTicks, begun, ended } = state;
    // (a row shows what was there as it was answered, before an era began)
    const { machine } = state;
    const wasServed = row > 1 && this.columns.kinds.items[row - 1] < SPENT;
    const last = sceneOf(wasServed ? machine.moment : machine.words);
    const born = state.born.slice();
    const from = state.from.slice();
    const isServed = kind < SPENT;
    const older = isServed ? Object.assign(Object.create(Witness.prototype), state) : state;
    const step = isServed ? state.ask(line, row) : null;
    older.now = state.now;
    const words = isServed ? state.machine.moment : state.machine.words;
    const scene = sceneOf(words);
    const tasks = older.tasksIn(scene.tasks, row, false);
    const after = step !== null && step.beginsEra ? state.machine.scene() : null;
    const fresh = scene.sets.filter((job) => job !== null && ((living >> job.number) & 1) === 0);
    return { row, line, kind, step, scene, words, afterWords: state.machine.words, before, after, last, who: this.whoAsked(row),
      reply: step !== null ? step.text : kind === SPENT ? "refused spent" : "refused log full",
      jobsSince: scene.sets.map((job) => (job === null ? 0 : (living >> job.number) & 1 ? born[job.number] : 2 * row)),
      jobsFrom: scene.sets.map((job) => (job === null ? 0 : (living >> job.number) & 1 ? from[job.number] : job.at)),
      tasksSince: tasks.map((/** @type {HeldTask} */ it) => it.since), ticks: state.now, time: state.now - eraTicks, era, begun: begun + fresh.length, ended };
  }
}

/** The rows that were looked at last, which are few: a step along a run asks for few anew. */
export class Rows {
  /** @param {Run} run */
  constructor(run) {
    this.run = run;
    /** @type {Map<number, Shown>} */
    this.found = new Map();
    /** The machine as it is before row `next`. */
    this.state = /** @type {Witness | null} */ (null);
    this.next = 0;
  }

  /** A row with all that is shown of it. @param {number} row @returns {Shown} */
  at(row) {
    const known = this.found.get(row);
    if (known !== undefined) return known;
    if (this.found.size >= MOST_SEEN) this.found.clear();
    if (this.state === null || row < this.next || row > this.next + APART) {
      this.state = this.run.stateAt(Math.max(row - 1, 0));
      this.next = Math.max(row, 1);
    }
    const { state } = this;
    if (row > 0) this.run.replay(state, this.next, row - 1);
    const shown = row === 0 ? this.run.showFirst(state) : this.run.showNext(state, row);
    this.next = row + 1;
    this.found.set(row, shown);
    return shown;
  }
}
