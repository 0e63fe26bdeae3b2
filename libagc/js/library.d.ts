/** tools/bindings had tsc write this from the comments of the modules. */
/**
 * The library as agc.h has it. tools/bindings wrote this from agc.h, the tables of keys and the forms of lines.
 */
/** What a call or a document lacked: the first that applies. */
export const Code: Readonly<{
    OK: "OK";
    NO_SUCH_SETS: "NO_SUCH_SETS";
    NOT_WORDS: "NOT_WORDS";
    UNLAWFUL: "UNLAWFUL";
    OUT_OF_RANGE: "OUT_OF_RANGE";
    NOT_A_WORD: "NOT_A_WORD";
    NOT_NOW: "NOT_NOW";
    UNTIDY: "UNTIDY";
    PLAN_RANGE: "PLAN_RANGE";
    TASK_TWICE: "TASK_TWICE";
    PHASE_TWICE: "PHASE_TWICE";
    TOO_MANY_AREAS: "TOO_MANY_AREAS";
    NOT_SPELLED: "NOT_SPELLED";
    NO_ROOM: "NO_ROOM";
    TIME_RANGE: "TIME_RANGE";
    STEAL_TWICE: "STEAL_TWICE";
    COST_TWICE: "COST_TWICE";
    SPENT: "SPENT";
    LOG_FULL: "LOG_FULL";
    UNKNOWN_KEY: "UNKNOWN_KEY";
    MISSING_KEY: "MISSING_KEY";
    WRONG_TYPE: "WRONG_TYPE";
}>;
/** The numbers of codes. */
export const CODE_NUMBERS: Record<string, number>;
/** The kinds of replies. */
export const Kind: Readonly<{
    ESTABLISHED: 1;
    LEFT: 2;
    IDLE: 3;
    ROUSED: 4;
    NO_SLEEPER: 5;
    NO_JOB: 6;
    RUNS: 7;
    STORED: 8;
    LISTED: 9;
    ALARMED: 10;
    PHASED: 11;
    TICKED: 12;
    TICK_ALARMED: 13;
    RESTARTED: 14;
}>;
/** Texts, by the codes' names. */
export const CODE_TEXTS: Record<string, string>;
/** Texts, by the kinds' numbers. */
export const REPLY_TEXTS: Record<number, string>;
/** How many there are of what, and the places of words. */
export const NUMBERS: Readonly<{
    MPAC: 0;
    MODE: 7;
    LOC: 8;
    BANKSET: 9;
    PUSHLOC: 10;
    PRIORITY: 11;
    SET_SIZE: 12;
    USE_WORDS: 84;
    NEWJOB: 89;
    TIME3: 90;
    LST1: 91;
    LST2: 99;
    FAILREG: 129;
    LAST_SET: 132;
    WORDS: 144;
    PHASE_WORDS: 12;
    PHASE_PLACE: 117;
    FIRED: 9;
    ACTIONS: 4;
    MOST_SETS: 8;
    TASKS: 9;
    AREAS: 5;
    GROUPS: 6;
    CODES: 3;
    WORK: 6;
    LINE: 128;
    REPORT: 2048;
    ANY: 65535;
}>;
/** How large each struct is, and where its fields are in it. */
export const LAYOUT: Record<string, Record<string, number>>;
/** What each place of the words is called. */
export const PLACES: string[];
/** The numbers of lines: `digits` is how many octal ones, and 0 where a number is decimal. */
export const PARTS: Record<string, {
    name: string;
    sentence: string;
    digits: number;
    low: number;
    high: number;
}>;
/** Each request's kind, and a letter for each of its numbers. */
export const FORMS: Map<string, {
    kind: number;
    letters: string;
}>;
export const REQUEST_KINDS: string[];
export const ACTION_KINDS: string[];
export const JOB_KINDS: string[];
export const LEAVING_KINDS: string[];
export const STEP_KINDS: string[];
export const LISTING_KINDS: string[];
/** What is wrong with a line that begins as none of a list does. */
export const OTHERWISE: Map<string[], string>;
export const DEVICES: string[];
/** The keys of each kind of table. */
export const KEYS: Record<string, Record<string, Key>>;
/**
 * What agc.wasm exports, for those who instantiate it themselves: the calls as agc.h has them. Pointers are places in
 * `memory` from `__heap_base` on, of which a caller makes as much as it wants by `memory.grow`. What is returned as a
 * struct in C is written to `answer`.
 */
export type Library = {
    memory: WebAssembly.Memory;
    __heap_base: WebAssembly.Global;
    agc_plan_check(plan: bigint): number;
    agc_step(answer: bigint, words: bigint, sets: number, plan: bigint, request: bigint, fired: bigint, moment: bigint): void;
    agc_step_trusted(answer: bigint, words: bigint, sets: number, plan: bigint, request: bigint, fired: bigint, moment: bigint): void;
    agc_begin(words: bigint, sets: number, alarm: number, entries: bigint, entry_count: bigint): number;
    agc_power_up(answer: bigint, words: bigint, sets: number, entries: bigint, entry_count: bigint, phase_words: bigint): void;
    agc_read_request(text: bigint, length: bigint, request: bigint): number;
    agc_read_action(text: bigint, length: bigint, action: bigint): number;
    agc_write_reply(answer: bigint, step: bigint, fired: bigint, text: bigint, room: bigint): void;
    agc_write_rule(answer: bigint, rule: number, text: bigint, room: bigint): void;
    agc_write_report(answer: bigint, words: bigint, sets: number, totals: bigint, text: bigint, room: bigint): void;
    agc_refusal(request: bigint, bounds: bigint): number;
    agc_pulse(answer: bigint, line: number, key: bigint, key_count: bigint, radar: bigint, radar_count: bigint, requests: bigint): void;
    agc_clock_check(table: bigint): number;
    agc_clock_next(answer: bigint, words: bigint, sets: number, table: bigint, clock: bigint, request: bigint): void;
    agc_clock_next_trusted(answer: bigint, words: bigint, sets: number, table: bigint, clock: bigint, request: bigint): void;
    agc_clock_served(words: bigint, sets: number, step: bigint, clock: bigint): number;
    agc_clock_served_trusted(words: bigint, sets: number, step: bigint, clock: bigint): number;
    agc_clock_told(step: bigint, clock: bigint, event: bigint): number;
    agc_clear(words: bigint, sets: number): number;
    agc_check(answer: bigint, words: bigint, sets: number): void;
    agc_explain(answer: bigint, words: bigint, sets: number): void;
    agc_scene(words: bigint, sets: number, scene: bigint): number;
    agc_version(): number;
    agc_migrate(words: bigint): number;
    agc_call(answer: bigint, words: bigint, sets: number, request: bigint): void;
    agc_dispatch(answer: bigint, words: bigint, sets: number): void;
    agc_record_alarm(words: bigint, sets: number, alarm: number): number;
};
export type Bench = {
    sets?: number;
    limit?: number;
    allowance?: number;
    attends?: number;
    key?: string | readonly string[];
    radar?: string | readonly string[];
    power?: readonly string[];
    script?: readonly string[];
    task?: readonly Task[];
    phase?: readonly Phase[];
    worker?: readonly Worker[];
    device?: readonly Device[];
};
export type Task = {
    at: string | number;
    bank: string | number;
    action: string | readonly string[];
};
export type NamedTask = {
    at: string | number;
    bank: string | number;
    action: string | readonly string[];
    name?: string;
};
export type Phase = {
    group: number;
    phase: number;
    job?: string;
    task?: string;
};
export type NamedPhase = {
    group: number;
    phase: number;
    job?: string;
    task?: string;
    name?: string;
};
export type Worker = {
    script: readonly string[];
};
export type ExploredWorker = {
    script: readonly string[];
    repeat?: boolean;
};
export type Device = {
    line: string;
    pulses: number;
};
export type Scenario = {
    seconds: number;
    title?: string;
    seed?: number;
    sets?: number;
    limit?: number;
    allowance?: number;
    key?: string | readonly string[];
    radar?: string | readonly string[];
    power?: readonly string[];
    steal?: number;
    task?: readonly NamedTask[];
    phase?: readonly NamedPhase[];
    job?: readonly Job[];
    event?: readonly Event[];
};
export type Steal = {
    from: number;
    to: number;
    percent: number;
    every?: number;
    until?: number;
};
export type Cost = {
    from: number;
    to: number;
};
export type Job = {
    at: string | number;
    cost: number;
    deadline?: number;
    then?: string | readonly string[];
    name?: string;
};
export type Event = {
    at: number;
    after?: string;
    do: string | readonly string[];
    every?: number;
    until?: number;
    name?: string;
};
export type Key = {
    kind: string;
    form: string;
    low: number;
    high: bigint;
    required: boolean;
};
