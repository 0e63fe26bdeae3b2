/** tools/bindings had tsc write this from the comments of the modules. */
/** What a code says, whatever it is. */
export function codeText(code: string): string;
/** What a kind of reply says, whatever the number. */
export function replyText(kind: number): string;
/**
 * Takes the module agc.wasm, as bytes or compiled, unless one is there: `agc.js` has done it.
 */
export function start(source: BufferSource | WebAssembly.Module): Promise<void>;
/**
 * Whether a request is served, with these counts before it: `Code.OK`, `Code.SPENT`, or
 * `Code.LOG_FULL`, which is the answer neither to a restart nor to a fresh start. A line that spells
 * no request is thrown.
 */
export function refusalOf(request: string | Asked, bounds: Bounds): string;
/**
 * The lines of what a pulse of a device asks for, where `line` is "timer", "key" or "radar": a tick,
 * or what a plan has done for a key or a radar pulse, which is at most four actions.
 */
export function pulseOf(line: string, plan?: {
    key?: string | string[] | undefined;
    radar?: string | string[] | undefined;
} | undefined): string[];
/**
 * What a place of the words is called: "LOC of core set 2", "VAC 1", "NEWJOB", "LST1 0",
 * "PHASE of group 3".
 */
export function placeName(place: number): string;
/**
 * Why no machine begins with these words, 132 or 144; null where one does.
 */
export function findingOf(words: ArrayLike<number>): Finding | null;
/**
 * What words say that a machine has left, or had at a moment. Other words are refused.
 */
export function sceneOf(words: ArrayLike<number>): Scene;
/** The release of this module. */
export const VERSION: "1.0.0";
/** How many numbers an array of words has, and how many phase words there are. */
export const WORDS: 144;
export const PHASE_WORDS: 12;
/** What was not served, or may not stand in a document. `code` says why, `message` the same as a sentence. */
export class AgcError extends Error {
    /** @param {string} code */
    constructor(code: string, sentence?: string | undefined, row?: string | null | undefined, key?: string | null | undefined);
    /** The code's name, as "NOT_SPELLED". */
    readonly code: string;
    /** Its number, as agc.h has it. */
    readonly number: number;
    /** Which table of a document, as "event 2"; or null. */
    readonly row: string | null;
    /** Which key of a document, or null. */
    readonly key: string | null;
}
/** The name that `AgcError` had. */
export const Lacking: typeof AgcError;
/** What a machine replies to a request. */
export class Step {
    /** @param {number} kind */
    constructor(kind: number, number: number, fired: Task[], action: number);
    /** The kind, of `Kind`. */
    readonly kind: number;
    /** The job's number, or the alarm, as 0o1201; else 0. */
    readonly number: number;
    /** The tasks that fired, in order. */
    readonly fired: Task[];
    /** Which action, 1 to 4, of the last of them raised the alarm; 0 where none did. */
    readonly action: number;
    /** The alarm, 0o1201, 0o1202 or 0o1203, after which an era began; 0 where there was none. */
    get alarm(): number;
    /** Whether an era began with it. */
    get beginsEra(): boolean;
    /** The line that `agc` writes. */
    get text(): string;
    toString(): string;
}
/**
 * A machine: its words, and the plan by which it goes on after an alarm.
 *
 * `plan` has `task` and `phase` as a bench has them, and both may be missing, or is a whole bench or
 * scenario, whose `sets` and `power` hold, too. `power` are the twelve phase words that were found as
 * power came back. `words` are those of an earlier machine, with as many core sets as these have.
 */
export class Machine {
    /** A machine of what `state` told. Its words are looked at as those from elsewhere are. */
    static ofState(state: MachineState): Machine;
    constructor(given?: {
        sets?: number | undefined;
        plan?: Partial<import("./library.js").Bench & import("./library.js").Scenario> | undefined;
        power?: readonly (string | number)[] | undefined;
        words?: ArrayLike<number> | undefined;
    });
    /**
     * Asks one request: a line as `"findvac 30 02100 00005"`, or its name and numbers, as
     * `"findvac", 0o30, 0o2100, 5`, or what a clock gave. After an alarm, a restart or a fresh start an
     * era has begun.
     */
    ask(request: string | Asked, ...given: number[]): Step;
    /**
     * Lets time pass by a clock: asks all that it gives until so many centiseconds have passed, or its
     * time is over, and tells it what came of each. Returns how many requests that were. `row` is
     * called with each request, its reply and the centisecond; where it returns false, the run stops.
     */
    run(clock: Clock, centiseconds: number, row?: ((asked: Asked, step: Step, time: number) => unknown) | undefined): number;
    /** Who runs, and how many jobs, tasks and alarms there are. */
    toString(): string;
    /** How many core sets there are: 7 or 8. */
    get sets(): number;
    /** The words as they are now: 132 with seven core sets, 144 with eight. */
    get words(): Uint16Array;
    /** The words as they were when the last request was answered: at an alarm, before the restart. */
    get moment(): Uint16Array;
    /** How many requests were served, alarms 1201, 1202 and 1203 came, and eras began. */
    get totals(): Totals;
    /** What the words say, as `sceneOf` has it. */
    scene(): Scene;
    /** All of it, of which JSON can be made, for `Machine.ofState`. */
    get state(): MachineState;
    /** What JSON has of it. */
    toJSON(): MachineState;
    /** The report that `agc` writes. */
    report(): string;
    /** A machine of its own with the same words, plan and totals. */
    copy(): Machine;
    #private;
}
/** A request that a clock gave: its name, its numbers, and who asks for it. */
export class Asked {
    /** @param {string} name */
    constructor(name: string, given: number[], event: number | null);
    readonly name: string;
    readonly numbers: number[];
    /** The number of the event that asks, from 0; null where the clock itself does. */
    readonly event: number | null;
    /** Its line, as in a script. */
    get text(): string;
    toString(): string;
}
/**
 * A clock: it lets time pass by a timetable, as docs/TIME.md says, and gives what a machine is asked
 * next. `timetable` has `seconds`, `steal`, `job` and `event` as a scenario has them, and all may be
 * missing. The cost of a job may be by lot, `{ from: 150, to: 190 }`, and then there has to be a
 * `seed`, 1 to 2147483646. A clock goes with one machine, and is told of all that this is asked.
 */
export class Clock {
    /** A clock of what `state` told. */
    static ofState(state: ClockState): Clock;
    constructor(timetable?: Timetable);
    /** All of it, of which JSON can be made, for `Clock.ofState`. */
    get state(): ClockState;
    /** What JSON has of it. */
    toJSON(): ClockState;
    /** Where it is, and how many jobs and events its timetable has. */
    toString(): string;
    /**
     * The next request for this machine, or null where the time is over. The clock has then gone on,
     * so that it is to be asked, and `served` to be told of it.
     */
    next(machine: Machine): Asked | null;
    /** Tells what came of a request, also of one that the clock didn't give. */
    served(machine: Machine, step: Step): void;
    /** The centisecond that passes; 0 before the first tick. */
    get time(): number;
    /**
     * How many hundredths of a centisecond jobs 1 to 8 were given since they began or were roused; what
     * a lot spared a job counts as given.
     */
    get given(): number[];
    /** How many centiseconds the timetable lasts. */
    get lasts(): number;
    /** Another timetable from here on, of which what isn't named stays as it was. */
    change(timetable: Timetable): void;
    /** A clock of its own with the same time, counts and timetable. */
    copy(): Clock;
    #private;
}
/**
 * What agc.wasm exports, for those who instantiate it themselves.
 */
export type Library = import("./library.js").Library;
/**
 * What is done when a task fires.
 */
export type PlanTask = import("./library.js").NamedTask;
/**
 * What begins again while a restart group is in a phase.
 */
export type PlanPhase = import("./library.js").NamedPhase;
/**
 * A plan, as a bench has it, or a whole bench or scenario.
 */
export type Plan = Partial<import("./library.js").Bench & import("./library.js").Scenario>;
/**
 * A task of the Waitlist.
 */
export type Task = {
    at: number;
    bank: number;
};
/**
 * A task that waits, and the centiseconds that are left to it.
 */
export type Waiting = {
    at: number;
    bank: number;
    left: number;
};
/**
 * A job in a core set; `area` is the number of its VAC area, 1 to 5, or 0.
 */
export type Job = {
    number: number;
    priority: number;
    at: number;
    bank: number;
    asleep: boolean;
    area: number;
    work: number[];
};
/**
 * What words say: who runs and whom a change of job would bring (job numbers, 0 for nobody), the core sets with their
 * jobs, who owns each VAC area, the tasks that wait, the six phases, and the three codes.
 */
export type Scene = {
    running: number;
    next: number;
    sets: (Job | null)[];
    areas: number[];
    tasks: Waiting[];
    phases: number[];
    codes: number[];
};
/**
 * How many requests were served, how many alarms 1201, 1202 and 1203 came, how many eras began.
 */
export type Totals = {
    served: number;
    alarms: number[];
    restarts: number;
};
/**
 * All of a machine, of which JSON can be made.
 */
export type MachineState = {
    sets: number;
    plan: Plan;
    words: number[];
    moment: number[];
    totals: Totals;
};
/**
 * From one centisecond until just before another, something else takes so many percent of each. With `every` this
 * repeats at that interval, and last begins at `until` or earlier.
 */
export type Stolen = import("./library.js").Steal;
/**
 * What a job at an address costs, in centiseconds, or by lot between two such; then `"end"` or `"sleep 04000"`, or several
 * requests, the last of which is one of these. A clock passes over `deadline`.
 */
export type JobCost = Omit<import("./library.js").Job, "cost"> & {
    cost: number | import("./library.js").Cost;
};
/**
 * What is asked at a centisecond, and with `every` again, at last at `until`. Where `after` is the name of an event above
 * it, these count from the first time of that one; where it is "1201", "1202" or "1203", and no event above has that name,
 * from the first alarm of that code.
 */
export type TimedEvent = import("./library.js").Event;
/**
 * What a scenario has of time: how many seconds, at most a day, 86400 where it isn't named; the seed of lots, 1 to
 * 2147483646, where a cost is by lot; percent of each centisecond that something else takes, or rows of it.
 */
export type Timetable = {
    seconds?: number;
    seed?: number;
    steal?: number | readonly Stolen[];
    job?: readonly JobCost[];
    event?: readonly TimedEvent[];
};
/**
 * When the first alarm of each code came, in centiseconds.
 */
export type FirstAlarms = {
    1201?: number;
    1202?: number;
    1203?: number;
};
/**
 * All of a clock, of which JSON can be made.
 */
export type ClockState = {
    timetable: Timetable;
    at: number[];
    alarms?: FirstAlarms;
};
/**
 * Why no machine begins with words: the code that a call lacks; the rule that is broken first; the word's place, from 0, what
 * stands there, and what would have to: null where the other words leave more than one choice.
 */
export type Finding = {
    code: string;
    rule: number;
    place: number;
    found: number;
    wanted: number | null;
    text: string;
};
/**
 * How many requests were served, and how many are at most; how many were since the last era began, and how many are at
 * most.
 */
export type Bounds = {
    served: number | bigint;
    allowance: number | bigint;
    logged: number;
    limit: number;
};
import { Code } from "./library.js";
import { Kind } from "./library.js";
declare const at: Record<keyof typeof SIZE, number>;
/** The rooms that their owners have left, by size. */
declare const left: Map<number, number[]>;
/** Throws the code of a call that was not served. */
declare function served(code: number): void;
declare namespace SIZE {
    const other: number;
    const moment: number;
    const phases: number;
    const answer: number;
    const text: number;
    const fired: number;
    const request: number;
    const totals: number;
    const clock: number;
    const scene: number;
    const bounds: number;
    const pulse: number;
    const actions: number;
}
export { Code, Kind };
