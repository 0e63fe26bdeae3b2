/**
 * The library as agc.h has it. tools/bindings wrote this from agc.h, the tables of keys and the forms of lines.
 */

/**
 * What agc.wasm exports, for those who instantiate it themselves: the calls as agc.h has them. Pointers are places in
 * `memory` from `__heap_base` on, of which a caller makes as much as it wants by `memory.grow`. What is returned as a
 * struct in C is written to `answer`.
 * @typedef {{
 *  memory: WebAssembly.Memory, __heap_base: WebAssembly.Global,
 *  agc_plan_check(plan: bigint): number,
 *  agc_step(answer: bigint, words: bigint, sets: number, plan: bigint, request: bigint, fired: bigint, moment: bigint): void,
 *  agc_step_trusted(answer: bigint, words: bigint, sets: number, plan: bigint, request: bigint, fired: bigint, moment: bigint): void,
 *  agc_begin(words: bigint, sets: number, alarm: number, entries: bigint, entry_count: bigint): number,
 *  agc_power_up(answer: bigint, words: bigint, sets: number, entries: bigint, entry_count: bigint, phase_words: bigint): void,
 *  agc_read_request(text: bigint, length: bigint, request: bigint): number,
 *  agc_read_action(text: bigint, length: bigint, action: bigint): number,
 *  agc_write_reply(answer: bigint, step: bigint, fired: bigint, text: bigint, room: bigint): void,
 *  agc_write_rule(answer: bigint, rule: number, text: bigint, room: bigint): void,
 *  agc_write_report(answer: bigint, words: bigint, sets: number, totals: bigint, text: bigint, room: bigint): void,
 *  agc_refusal(request: bigint, bounds: bigint): number,
 *  agc_pulse(answer: bigint, line: number, key: bigint, key_count: bigint, radar: bigint, radar_count: bigint, requests: bigint): void,
 *  agc_clock_check(table: bigint): number,
 *  agc_clock_next(answer: bigint, words: bigint, sets: number, table: bigint, clock: bigint, request: bigint): void,
 *  agc_clock_next_trusted(answer: bigint, words: bigint, sets: number, table: bigint, clock: bigint, request: bigint): void,
 *  agc_clock_served(words: bigint, sets: number, step: bigint, clock: bigint): number,
 *  agc_clock_served_trusted(words: bigint, sets: number, step: bigint, clock: bigint): number,
 *  agc_clock_told(step: bigint, clock: bigint, event: bigint): number,
 *  agc_clear(words: bigint, sets: number): number,
 *  agc_check(answer: bigint, words: bigint, sets: number): void,
 *  agc_explain(answer: bigint, words: bigint, sets: number): void,
 *  agc_scene(words: bigint, sets: number, scene: bigint): number,
 *  agc_version(): number,
 *  agc_migrate(words: bigint): number,
 *  agc_call(answer: bigint, words: bigint, sets: number, request: bigint): void,
 *  agc_dispatch(answer: bigint, words: bigint, sets: number): void,
 *  agc_record_alarm(words: bigint, sets: number, alarm: number): number,
 * }} Library
 */

/** @typedef {{ sets?: number, limit?: number, allowance?: number, attends?: number, key?: string | readonly string[], radar?: string | readonly string[], power?: readonly string[], script?: readonly string[], task?: readonly Task[], phase?: readonly Phase[], worker?: readonly Worker[], device?: readonly Device[] }} Bench */
/** @typedef {{ at: string | number, bank: string | number, action: string | readonly string[] }} Task */
/** @typedef {{ at: string | number, bank: string | number, action: string | readonly string[], name?: string }} NamedTask */
/** @typedef {{ group: number, phase: number, job?: string, task?: string }} Phase */
/** @typedef {{ group: number, phase: number, job?: string, task?: string, name?: string }} NamedPhase */
/** @typedef {{ script: readonly string[] }} Worker */
/** @typedef {{ script: readonly string[], repeat?: boolean }} ExploredWorker */
/** @typedef {{ line: string, pulses: number }} Device */
/** @typedef {{ seconds: number, title?: string, seed?: number, sets?: number, limit?: number, allowance?: number, key?: string | readonly string[], radar?: string | readonly string[], power?: readonly string[], steal?: number, task?: readonly NamedTask[], phase?: readonly NamedPhase[], job?: readonly Job[], event?: readonly Event[] }} Scenario */
/** @typedef {{ from: number, to: number, percent: number, every?: number, until?: number }} Steal */
/** @typedef {{ from: number, to: number }} Cost */
/** @typedef {{ at: string | number, cost: number, deadline?: number, then?: string | readonly string[], name?: string }} Job */
/** @typedef {{ at: number, after?: string, do: string | readonly string[], every?: number, until?: number, name?: string }} Event */

/** What a call or a document lacked: the first that applies. */
export const Code = Object.freeze({
  OK: "OK",
  NO_SUCH_SETS: "NO_SUCH_SETS",
  NOT_WORDS: "NOT_WORDS",
  UNLAWFUL: "UNLAWFUL",
  OUT_OF_RANGE: "OUT_OF_RANGE",
  NOT_A_WORD: "NOT_A_WORD",
  NOT_NOW: "NOT_NOW",
  UNTIDY: "UNTIDY",
  PLAN_RANGE: "PLAN_RANGE",
  TASK_TWICE: "TASK_TWICE",
  PHASE_TWICE: "PHASE_TWICE",
  TOO_MANY_AREAS: "TOO_MANY_AREAS",
  NOT_SPELLED: "NOT_SPELLED",
  NO_ROOM: "NO_ROOM",
  TIME_RANGE: "TIME_RANGE",
  STEAL_TWICE: "STEAL_TWICE",
  COST_TWICE: "COST_TWICE",
  SPENT: "SPENT",
  LOG_FULL: "LOG_FULL",
  UNKNOWN_KEY: "UNKNOWN_KEY",
  MISSING_KEY: "MISSING_KEY",
  WRONG_TYPE: "WRONG_TYPE",
});

/** The numbers of codes. @type {Record<string, number>} */
export const CODE_NUMBERS = Object.freeze({
  OK: 0,
  NO_SUCH_SETS: 1,
  NOT_WORDS: 2,
  UNLAWFUL: 3,
  OUT_OF_RANGE: 4,
  NOT_A_WORD: 5,
  NOT_NOW: 6,
  UNTIDY: 8,
  PLAN_RANGE: 9,
  TASK_TWICE: 10,
  PHASE_TWICE: 11,
  TOO_MANY_AREAS: 12,
  NOT_SPELLED: 13,
  NO_ROOM: 14,
  TIME_RANGE: 15,
  STEAL_TWICE: 16,
  COST_TWICE: 17,
  SPENT: 19,
  LOG_FULL: 20,
  UNKNOWN_KEY: 101,
  MISSING_KEY: 102,
  WRONG_TYPE: 103,
});

/** The kinds of replies. */
export const Kind = Object.freeze({
  ESTABLISHED: 1,
  LEFT: 2,
  IDLE: 3,
  ROUSED: 4,
  NO_SLEEPER: 5,
  NO_JOB: 6,
  RUNS: 7,
  STORED: 8,
  LISTED: 9,
  ALARMED: 10,
  PHASED: 11,
  TICKED: 12,
  TICK_ALARMED: 13,
  RESTARTED: 14,
});

/** Texts, by the codes' names. @type {Record<string, string>} */
export const CODE_TEXTS = Object.freeze({
  OK: "the call was served",
  NO_SUCH_SETS: "the number of core sets is neither 7 nor 8",
  NOT_WORDS: "a number of the image is above 077777",
  UNLAWFUL: "the image isn't lawful",
  OUT_OF_RANGE: "a number of the call is out of its range",
  NOT_A_WORD: "a word of the call is above 077777",
  NOT_NOW: "a task is due, or none is where one has to be",
  UNTIDY: "the image is lawful, and no step leaves it so",
  PLAN_RANGE: "a number of the plan is out of its range",
  TASK_TWICE: "a task has two rows of the plan",
  PHASE_TWICE: "a group's phase has two entries of the plan",
  TOO_MANY_AREAS: "each of six groups wants a VAC area, and there are five",
  NOT_SPELLED: "the line spells no request",
  NO_ROOM: "the text doesn't fit into the room that is lent",
  TIME_RANGE: "a number of the timetable is out of its range",
  STEAL_TWICE: "two rows of stolen time hold at one time",
  COST_TWICE: "one address has two costs",
  SPENT: "as many requests were served as the allowance says",
  LOG_FULL: "the log is full, which only a restart or a fresh start empties",
  UNKNOWN_KEY: "a key of the document is unknown",
  MISSING_KEY: "a key of the document is missing",
  WRONG_TYPE: "a value of the document is of the wrong type",
});

/** Texts, by the kinds' numbers. @type {Record<number, string>} */
export const REPLY_TEXTS = Object.freeze({
  1: "a job was established",
  2: "the running job ended or sleeps, and another runs",
  3: "the running job ended or sleeps, and no job is running",
  4: "a sleeper was awakened",
  5: "no job sleeps at that address",
  6: "no job is running, so there is none to act on",
  7: "a job runs",
  8: "a work word was set",
  9: "a task was listed",
  10: "a table is full: an alarm",
  11: "a phase was set",
  12: "a tick passed",
  13: "an action raised an alarm in a tick, and an era began",
  14: "an era began by a restart or a fresh start",
});

/** How many there are of what, and the places of words. */
export const NUMBERS = Object.freeze({
  MPAC: 0,
  MODE: 7,
  LOC: 8,
  BANKSET: 9,
  PUSHLOC: 10,
  PRIORITY: 11,
  SET_SIZE: 12,
  USE_WORDS: 84,
  NEWJOB: 89,
  TIME3: 90,
  LST1: 91,
  LST2: 99,
  FAILREG: 129,
  LAST_SET: 132,
  WORDS: 144,
  PHASE_WORDS: 12,
  PHASE_PLACE: 117,
  FIRED: 9,
  ACTIONS: 4,
  MOST_SETS: 8,
  TASKS: 9,
  AREAS: 5,
  GROUPS: 6,
  CODES: 3,
  WORK: 6,
  LINE: 128,
  REPORT: 2048,
  ANY: 65535,
});

/** How large each struct is, and where its fields are in it. @type {Record<string, Record<string, number>>} */
export const LAYOUT = Object.freeze({
  AgcReply: { size: 12, code: 0, reply: 4, number: 8 },
  AgcNumber: { size: 8, code: 0, number: 4 },
  AgcTruth: { size: 8, code: 0, truth: 4 },
  AgcTask: { size: 12, code: 0, at: 4, bank: 8 },
  AgcJob: { size: 36, number: 0, priority: 4, at: 8, bank: 12, area: 16, asleep: 20, work: 22 },
  AgcWaiting: { size: 12, at: 0, bank: 4, left: 8 },
  AgcScene: { size: 444, running: 0, next: 4, sets: 8, areas: 296, tasks: 316, failreg: 424, phases: 436 },
  AgcFinding: { size: 20, code: 0, rule: 4, place: 8, found: 12, wanted: 16 },
  AgcRequest: { size: 16, kind: 0, first: 4, second: 8, third: 12 },
  AgcRow: { size: 72, at: 0, bank: 4, actions: 8 },
  AgcFired: { size: 8, at: 0, bank: 4 },
  AgcStep: { size: 20, code: 0, reply: 4, number: 8, fired: 12, action: 16 },
  AgcTotals: { size: 40, served: 0, alarms_1201: 8, alarms_1202: 16, alarms_1203: 24, restarts: 32 },
  AgcBounds: { size: 24, served: 0, allowance: 8, logged: 16, limit: 20 },
  AgcPhaseEntry: { size: 36, group: 0, phase: 4, job: 8, priority: 12, job_at: 16, job_bank: 20, delay: 24, task_at: 28, task_bank: 32 },
  AgcPlan: { size: 32, rows: 0, row_count: 8, entries: 16, entry_count: 24 },
  AgcStolen: { size: 20, from: 0, to: 4, percent: 8, every: 12, until: 16 },
  AgcCost: { size: 24, at: 0, hundredths: 4, then: 8, first: 12, count: 16, spread: 20 },
  AgcEvent: { size: 24, at: 0, every: 4, until: 8, first: 12, count: 16, after: 20 },
  AgcTimetable: { size: 72, lasts: 0, stolen: 8, stolen_count: 16, costs: 24, cost_count: 32, events: 40, event_count: 48, requests: 56, request_count: 64 },
  AgcClock: { size: 72, time: 0, event: 8, asked: 16, looks: 24, left: 28, given: 32, lot: 64 },
});

/** What each place of the words is called. */
export const PLACES = [
  "MPAC of core set 0", "MPAC+1 of core set 0", "MPAC+2 of core set 0", "MPAC+3 of core set 0",
  "MPAC+4 of core set 0", "MPAC+5 of core set 0", "MPAC+6 of core set 0", "MODE of core set 0",
  "LOC of core set 0", "BANKSET of core set 0", "PUSHLOC of core set 0", "PRIORITY of core set 0",
  "MPAC of core set 1", "MPAC+1 of core set 1", "MPAC+2 of core set 1", "MPAC+3 of core set 1",
  "MPAC+4 of core set 1", "MPAC+5 of core set 1", "MPAC+6 of core set 1", "MODE of core set 1",
  "LOC of core set 1", "BANKSET of core set 1", "PUSHLOC of core set 1", "PRIORITY of core set 1",
  "MPAC of core set 2", "MPAC+1 of core set 2", "MPAC+2 of core set 2", "MPAC+3 of core set 2",
  "MPAC+4 of core set 2", "MPAC+5 of core set 2", "MPAC+6 of core set 2", "MODE of core set 2",
  "LOC of core set 2", "BANKSET of core set 2", "PUSHLOC of core set 2", "PRIORITY of core set 2",
  "MPAC of core set 3", "MPAC+1 of core set 3", "MPAC+2 of core set 3", "MPAC+3 of core set 3",
  "MPAC+4 of core set 3", "MPAC+5 of core set 3", "MPAC+6 of core set 3", "MODE of core set 3",
  "LOC of core set 3", "BANKSET of core set 3", "PUSHLOC of core set 3", "PRIORITY of core set 3",
  "MPAC of core set 4", "MPAC+1 of core set 4", "MPAC+2 of core set 4", "MPAC+3 of core set 4",
  "MPAC+4 of core set 4", "MPAC+5 of core set 4", "MPAC+6 of core set 4", "MODE of core set 4",
  "LOC of core set 4", "BANKSET of core set 4", "PUSHLOC of core set 4", "PRIORITY of core set 4",
  "MPAC of core set 5", "MPAC+1 of core set 5", "MPAC+2 of core set 5", "MPAC+3 of core set 5",
  "MPAC+4 of core set 5", "MPAC+5 of core set 5", "MPAC+6 of core set 5", "MODE of core set 5",
  "LOC of core set 5", "BANKSET of core set 5", "PUSHLOC of core set 5", "PRIORITY of core set 5",
  "MPAC of core set 6", "MPAC+1 of core set 6", "MPAC+2 of core set 6", "MPAC+3 of core set 6",
  "MPAC+4 of core set 6", "MPAC+5 of core set 6", "MPAC+6 of core set 6", "MODE of core set 6",
  "LOC of core set 6", "BANKSET of core set 6", "PUSHLOC of core set 6", "PRIORITY of core set 6",
  "VAC 1", "VAC 2", "VAC 3", "VAC 4", "VAC 5", "NEWJOB", "TIME3", "LST1 0", "LST1 1", "LST1 2",
  "LST1 3", "LST1 4", "LST1 5", "LST1 6", "LST1 7", "LST2 0, the address", "LST2 0, the bank",
  "LST2 1, the address", "LST2 1, the bank", "LST2 2, the address", "LST2 2, the bank",
  "LST2 3, the address", "LST2 3, the bank", "LST2 4, the address", "LST2 4, the bank",
  "LST2 5, the address", "LST2 5, the bank", "LST2 6, the address", "LST2 6, the bank",
  "LST2 7, the address", "LST2 7, the bank", "LST2 8, the address", "LST2 8, the bank",
  "-PHASE of group 1", "PHASE of group 1", "-PHASE of group 2", "PHASE of group 2",
  "-PHASE of group 3", "PHASE of group 3", "-PHASE of group 4", "PHASE of group 4",
  "-PHASE of group 5", "PHASE of group 5", "-PHASE of group 6", "PHASE of group 6", "FAILREG 0",
  "FAILREG 1", "FAILREG 2", "MPAC of core set 7", "MPAC+1 of core set 7", "MPAC+2 of core set 7",
  "MPAC+3 of core set 7", "MPAC+4 of core set 7", "MPAC+5 of core set 7", "MPAC+6 of core set 7",
  "MODE of core set 7", "LOC of core set 7", "BANKSET of core set 7", "PUSHLOC of core set 7",
  "PRIORITY of core set 7",
];

/** The numbers of lines: `digits` is how many octal ones, and 0 where a number is decimal. @type {Record<string, { name: string, sentence: string, digits: number, low: number, high: number }>} */
export const PARTS = Object.freeze({
  P: { name: "priority", sentence: "a priority is octal, 01 to 37", digits: 2, low: 1, high: 31 },
  A: { name: "address", sentence: "an address is five octal digits, 00001 to 37777", digits: 5, low: 1, high: 16383 },
  W: { name: "word", sentence: "a word is five octal digits, 00000 to 77777", digits: 5, low: 0, high: 32767 },
  D: { name: "delay", sentence: "a delay is decimal, 1 to 16250", digits: 0, low: 1, high: 16250 },
  K: { name: "place", sentence: "a work word's place is 1 to 6", digits: 0, low: 1, high: 6 },
  G: { name: "group", sentence: "a group is 1 to 6", digits: 0, low: 1, high: 6 },
  N: { name: "phase", sentence: "a phase is decimal, 0 to 127", digits: 0, low: 0, high: 127 },
});

/** Each request's kind, and a letter for each of its numbers. */
export const FORMS = new Map([
  ["nothing", { kind: 0, letters: "" }],
  ["novac", { kind: 1, letters: "PAW" }],
  ["findvac", { kind: 2, letters: "PAW" }],
  ["end", { kind: 3, letters: "" }],
  ["sleep", { kind: 4, letters: "A" }],
  ["rouse", { kind: 5, letters: "A" }],
  ["prio", { kind: 6, letters: "P" }],
  ["change", { kind: 7, letters: "" }],
  ["store", { kind: 8, letters: "KW" }],
  ["list", { kind: 9, letters: "DAW" }],
  ["tick", { kind: 10, letters: "" }],
  ["phase", { kind: 11, letters: "GN" }],
  ["restart", { kind: 12, letters: "" }],
  ["fresh", { kind: 13, letters: "" }],
]);
export const REQUEST_KINDS = ["novac", "findvac", "end", "sleep", "rouse", "prio", "change", "store", "list", "tick", "phase", "restart", "fresh"];
export const ACTION_KINDS = ["nothing", "novac", "findvac", "rouse", "list"];
export const JOB_KINDS = ["novac", "findvac"];
export const LEAVING_KINDS = ["end", "sleep"];
export const STEP_KINDS = ["novac", "findvac", "prio", "store", "list", "phase"];
export const LISTING_KINDS = ["list"];

/** What is wrong with a line that begins as none of a list does. */
export const OTHERWISE = new Map([
  [REQUEST_KINDS, "its first word is unknown: a request begins with novac, findvac, end, sleep, rouse, prio, change, store, list, tick, phase, restart or fresh"],
  [ACTION_KINDS, "an action is nothing, or begins with novac, findvac, rouse or list"],
  [JOB_KINDS, "a job begins with novac or findvac"],
  [LISTING_KINDS, "a task begins with list"],
  [LEAVING_KINDS, "a job leaves by end or sleep"],
  [STEP_KINDS, "before its last line a job makes requests novac, findvac, prio, store, list or phase"],
]);

export const DEVICES = ["timer", "key", "radar"];

/** @typedef {{ kind: string, form: string, low: number, high: bigint, required: boolean }} Key */

/** The keys of each kind of table. @type {Record<string, Record<string, Key>>} */
export const KEYS = Object.freeze({
  bench: {
    sets: { kind: "integer", form: "", low: 7, high: 8n, required: false },
    limit: { kind: "integer", form: "", low: 1, high: 1000000n, required: false },
    allowance: { kind: "integer", form: "", low: 0, high: 9223372036854775807n, required: false },
    attends: { kind: "integer", form: "", low: 0, high: 1000n, required: false },
    key: { kind: "oneOrMore", form: "action", low: 1, high: 4n, required: false },
    radar: { kind: "oneOrMore", form: "action", low: 1, high: 4n, required: false },
    power: { kind: "texts", form: "word", low: 12, high: 12n, required: false },
    script: { kind: "texts", form: "request", low: 0, high: 18446744073709551615n, required: false },
    task: { kind: "tables", form: "task", low: 0, high: 18446744073709551615n, required: false },
    phase: { kind: "tables", form: "phase", low: 0, high: 18446744073709551615n, required: false },
    worker: { kind: "tables", form: "worker", low: 0, high: 32n, required: false },
    device: { kind: "tables", form: "device", low: 0, high: 32n, required: false },
  },
  task: {
    at: { kind: "text", form: "address", low: 0, high: 18446744073709551615n, required: true },
    bank: { kind: "text", form: "word", low: 0, high: 18446744073709551615n, required: true },
    action: { kind: "oneOrMore", form: "action", low: 1, high: 4n, required: true },
  },
  namedTask: {
    at: { kind: "text", form: "address", low: 0, high: 18446744073709551615n, required: true },
    bank: { kind: "text", form: "word", low: 0, high: 18446744073709551615n, required: true },
    action: { kind: "oneOrMore", form: "action", low: 1, high: 4n, required: true },
    name: { kind: "text", form: "name", low: 0, high: 18446744073709551615n, required: false },
  },
  phase: {
    group: { kind: "integer", form: "", low: 1, high: 6n, required: true },
    phase: { kind: "integer", form: "", low: 1, high: 127n, required: true },
    job: { kind: "text", form: "job", low: 0, high: 18446744073709551615n, required: false },
    task: { kind: "text", form: "listing", low: 0, high: 18446744073709551615n, required: false },
  },
  namedPhase: {
    group: { kind: "integer", form: "", low: 1, high: 6n, required: true },
    phase: { kind: "integer", form: "", low: 1, high: 127n, required: true },
    job: { kind: "text", form: "job", low: 0, high: 18446744073709551615n, required: false },
    task: { kind: "text", form: "listing", low: 0, high: 18446744073709551615n, required: false },
    name: { kind: "text", form: "name", low: 0, high: 18446744073709551615n, required: false },
  },
  worker: {
    script: { kind: "texts", form: "request", low: 0, high: 18446744073709551615n, required: true },
  },
  exploredWorker: {
    script: { kind: "texts", form: "request", low: 0, high: 18446744073709551615n, required: true },
    repeat: { kind: "flag", form: "", low: 0, high: 18446744073709551615n, required: false },
  },
  device: {
    line: { kind: "text", form: "device", low: 0, high: 18446744073709551615n, required: true },
    pulses: { kind: "integer", form: "", low: 0, high: 1000000n, required: true },
  },
  scenario: {
    seconds: { kind: "integer", form: "", low: 1, high: 86400n, required: true },
    title: { kind: "text", form: "name", low: 0, high: 18446744073709551615n, required: false },
    seed: { kind: "integer", form: "", low: 1, high: 2147483646n, required: false },
    sets: { kind: "integer", form: "", low: 7, high: 8n, required: false },
    limit: { kind: "integer", form: "", low: 1, high: 1000000n, required: false },
    allowance: { kind: "integer", form: "", low: 0, high: 9223372036854775807n, required: false },
    key: { kind: "oneOrMore", form: "action", low: 1, high: 4n, required: false },
    radar: { kind: "oneOrMore", form: "action", low: 1, high: 4n, required: false },
    power: { kind: "texts", form: "word", low: 12, high: 12n, required: false },
    steal: { kind: "integer", form: "", low: 0, high: 100n, required: false },
    task: { kind: "tables", form: "namedTask", low: 0, high: 18446744073709551615n, required: false },
    phase: { kind: "tables", form: "namedPhase", low: 0, high: 18446744073709551615n, required: false },
    job: { kind: "tables", form: "job", low: 0, high: 100n, required: false },
    event: { kind: "tables", form: "event", low: 0, high: 1000n, required: false },
  },
  steal: {
    from: { kind: "integer", form: "", low: 0, high: 8640000n, required: true },
    to: { kind: "integer", form: "", low: 0, high: 8640000n, required: true },
    percent: { kind: "integer", form: "", low: 0, high: 100n, required: true },
    every: { kind: "integer", form: "", low: 1, high: 8640000n, required: false },
    until: { kind: "integer", form: "", low: 0, high: 8640000n, required: false },
  },
  cost: {
    from: { kind: "integer", form: "", low: 1, high: 1000000n, required: true },
    to: { kind: "integer", form: "", low: 1, high: 1000000n, required: true },
  },
  job: {
    at: { kind: "text", form: "address", low: 0, high: 18446744073709551615n, required: true },
    cost: { kind: "integer", form: "", low: 1, high: 1000000n, required: true },
    deadline: { kind: "integer", form: "", low: 1, high: 8640000n, required: false },
    then: { kind: "oneOrMore", form: "request", low: 1, high: 8n, required: false },
    name: { kind: "text", form: "name", low: 0, high: 18446744073709551615n, required: false },
  },
  event: {
    at: { kind: "integer", form: "", low: 0, high: 8640000n, required: true },
    after: { kind: "text", form: "name", low: 0, high: 18446744073709551615n, required: false },
    do: { kind: "oneOrMore", form: "request", low: 1, high: 16n, required: true },
    every: { kind: "integer", form: "", low: 1, high: 8640000n, required: false },
    until: { kind: "integer", form: "", low: 0, high: 8640000n, required: false },
    name: { kind: "text", form: "name", low: 0, high: 18446744073709551615n, required: false },
  },
});
