/**
 * The machine of the Apollo Guidance Computer's job tables, Block II, over the proved library
 * libagc as WebAssembly.
 *
 * `agc.js` hands all this on with its module loaded. Whoever has the module's bytes elsewhere, as a
 * page that carries them within itself, imports this file and awaits `start(bytes)` first.
 *
 * What isn't served, and whatever is wrong in a document, is thrown as `AgcError`, with a code and a
 * sentence; the machine is then as it was. An argument of the wrong type, such as null for a machine,
 * is a `TypeError`. agc.h and docs/EMBEDDING.md say what each call means. tools/bindings writes
 * agc.d.ts from this file.
 */
import {
  ACTION_KINDS, CODE_NUMBERS, CODE_TEXTS, Code, DEVICES, FORMS, JOB_KINDS, KEYS, Kind, LAYOUT, LEAVING_KINDS, LISTING_KINDS, NUMBERS,
  PARTS, PLACES, REPLY_TEXTS, REQUEST_KINDS, STEP_KINDS,
} from "./library.js";
import { countFault, isPlain, lineFault, nearest, shown, spells } from "./lines.js";

export { Code, Kind };

/** What agc.wasm exports, for those who instantiate it themselves. @typedef {import("./library.js").Library} Library */

/** What is done when a task fires. @typedef {import("./library.js").NamedTask} PlanTask */

/** What begins again while a restart group is in a phase. @typedef {import("./library.js").NamedPhase} PlanPhase */

/** A plan, as a bench has it, or a whole bench or scenario. @typedef {Partial<import("./library.js").Bench & import("./library.js").Scenario>} Plan */

/** A task of the Waitlist. @typedef {{ at: number, bank: number }} Task */

/** A task that waits, and the centiseconds that are left to it. @typedef {{ at: number, bank: number, left: number }} Waiting */

/**
 * A job in a core set; `area` is the number of its VAC area, 1 to 5, or 0.
 * @typedef {{ number: number, priority: number, at: number, bank: number, asleep: boolean, area: number, work: number[] }} Job
 */

/**
 * What words say: who runs and whom a change of job would bring (job numbers, 0 for nobody), the core sets with their
 * jobs, who owns each VAC area, the tasks that wait, the six phases, and the three codes.
 * @typedef {{ running: number, next: number, sets: (Job | null)[], areas: number[], tasks: Waiting[], phases: number[],
 *   codes: number[] }} Scene
 */

/**
 * How many requests were served, how many alarms 1201, 1202 and 1203 came, how many eras began.
 * @typedef {{ served: number, alarms: number[], restarts: number }} Totals
 */

/**
 * All of a machine, of which JSON can be made.
 * @typedef {{ sets: number, plan: Plan, words: number[], moment: number[], totals: Totals }} MachineState
 */

/**
 * From one centisecond until just before another, something else takes so many percent of each. With `every` this
 * repeats at that interval, and last begins at `until` or earlier.
 * @typedef {import("./library.js").Steal} Stolen
 */

/**
 * What a job at an address costs, in centiseconds, or by lot between two such; then `"end"` or `"sleep 04000"`, or several
 * requests, the last of which is one of these. A clock passes over `deadline`.
 * @typedef {Omit<import("./library.js").Job, "cost"> & { cost: number | import("./library.js").Cost }} JobCost
 */

/**
 * What is asked at a centisecond, and with `every` again, at last at `until`. Where `after` is the name of an event above
 * it, these count from the first time of that one; where it is "1201", "1202" or "1203", and no event above has that name,
 * from the first alarm of that code.
 * @typedef {import("./library.js").Event} TimedEvent
 */

/**
 * What a scenario has of time: how many seconds, at most a day, 86400 where it isn't named; the seed of lots, 1 to
 * 2147483646, where a cost is by lot; percent of each centisecond that something else takes, or rows of it.
 * @typedef {{ seconds?: number, seed?: number, steal?: number | readonly Stolen[], job?: readonly JobCost[],
 *   event?: readonly TimedEvent[] }} Timetable
 */

/** When the first alarm of each code came, in centiseconds. @typedef {{ 1201?: number, 1202?: number, 1203?: number }} FirstAlarms */

/** All of a clock, of which JSON can be made. @typedef {{ timetable: Timetable, at: number[], alarms?: FirstAlarms }} ClockState */

/**
 * Why no machine begins with words: the code that a call lacks; the rule that is broken first; the word's place, from 0, what
 * stands there, and what would have to: null where the other words leave more than one choice.
 * @typedef {{ code: string, rule: number, place: number, found: number, wanted: number | null, text: string }} Finding
 */

/**
 * How many requests were served, and how many are at most; how many were since the last era began, and how many are at
 * most.
 * @typedef {{ served: number | bigint, allowance: number | bigint, logged: number, limit: number }} Bounds
 */

/** The release of this module. */
export const VERSION = "1.0.0";

/** How many numbers an array of words has, and how many phase words there are. */
export const WORDS = NUMBERS.WORDS;
export const PHASE_WORDS = NUMBERS.PHASE_WORDS;

/** What a code says, whatever it is. @param {string} code */
export function codeText(code) {
  return CODE_TEXTS[code] ?? "no call answers this code";
}

/** What a kind of reply says, whatever the number. @param {number} kind */
export function replyText(kind) {
  return REPLY_TEXTS[kind] ?? "no reply is of this kind";
}

/** The name of a code, by its number. @type {Record<number, string>} */
const CODE_NAMES = Object.fromEntries(Object.entries(CODE_NUMBERS).map(([name, number]) => [number, name]));

/** What was not served, or may not stand in a document. `code` says why, `message` the same as a sentence. */
export class AgcError extends Error {
  /** @param {string} code @param {string} [sentence] @param {string | null} [row] @param {string | null} [key] */
  constructor(code, sentence, row = null, key = null) {
    super(sentence || codeText(code));
    this.name = "AgcError";
    /** The code's name, as "NOT_SPELLED". @readonly */
    this.code = code;
    /** Its number, as agc.h has it. @readonly */
    this.number = CODE_NUMBERS[code];
    /** Which table of a document, as "event 2"; or null. @readonly */
    this.row = row;
    /** Which key of a document, or null. @readonly */
    this.key = key;
  }
}

/** The name that `AgcError` had. */
export const Lacking = AgcError;

// The module, and what lies where in its memory behind its own: a call's numbers and answer, a clock, a text, words from
// elsewhere; and behind these the rooms of machines, clocks and plans.
const { AgcClock: CLOCK, AgcEvent: EVENT, AgcJob: JOB, AgcPlan: PLAN, AgcRequest: REQUEST, AgcScene: SCENE } = LAYOUT;
const { AgcTimetable: TABLE, AgcWaiting: WAITING } = LAYOUT;
const SIZE = {
  other: 2 * WORDS, moment: 2 * WORDS, phases: 2 * PHASE_WORDS, answer: 40, text: NUMBERS.REPORT,
  fired: NUMBERS.FIRED * LAYOUT.AgcFired.size, request: REQUEST.size, totals: LAYOUT.AgcTotals.size, clock: CLOCK.size,
  scene: SCENE.size, bounds: LAYOUT.AgcBounds.size, pulse: NUMBERS.ACTIONS * REQUEST.size,
  actions: 2 * NUMBERS.ACTIONS * REQUEST.size,
};
const PAGE = 65536;
const MOST = 0xffffffff;

/** @type {any} */
let calls = null;
/** @type {Record<keyof typeof SIZE, number>} */
const at = /** @type {any} */ ({});
/** @type {Record<keyof typeof SIZE, bigint>} */
const to = /** @type {any} */ ({});
/** @type {Uint8Array} */
let bytes;
/** @type {Uint16Array} */
let halves;
/** @type {Uint32Array} */
let numbers;
/** Where the part of the memory begins that no room has had. */
let unused = 0;
/** The rooms that their owners have left, by size. @type {Map<number, number[]>} */
const left = new Map();
/** @type {FinalizationRegistry<[number, number]>} */
const owners = new FinalizationRegistry(([size, place]) => left.get(size)?.push(place));
const decoder = new TextDecoder();

/**
 * A place for so many bytes that none has had, in a memory that is made longer, at once for several, where it has to be.
 * A module with a 64-bit memory counts pages by a BigInt.
 * @param {number} size
 */
function freshRoom(size) {
  const place = unused;
  unused += size;
  const lacking = Math.ceil((unused - calls.memory.buffer.byteLength) / PAGE);
  if (lacking > 0) {
    const pages = Math.max(lacking, 16);
    try {
      calls.memory.grow(pages);
    } catch {
      calls.memory.grow(BigInt(pages));
    }
  }
  if (bytes === undefined || bytes.buffer !== calls.memory.buffer) {
    bytes = new Uint8Array(calls.memory.buffer);
    halves = new Uint16Array(calls.memory.buffer);
    numbers = new Uint32Array(calls.memory.buffer);
  }
  return place;
}

/** A place for so many bytes, as long as its owner is there. @param {object} owner @param {number} bytesWanted */
function roomFor(owner, bytesWanted) {
  const size = (bytesWanted + 7) & ~7;
  if (!left.has(size)) left.set(size, []);
  const place = left.get(size)?.pop() ?? freshRoom(size);
  owners.register(owner, [size, place]);
  return place;
}

/**
 * Takes the module agc.wasm, as bytes or compiled, unless one is there: `agc.js` has done it.
 * @param {BufferSource | WebAssembly.Module} source
 * @returns {Promise<void>}
 */
export async function start(source) {
  const made = await WebAssembly.instantiate(/** @type {any} */ (source), {});
  if (calls !== null) return;
  calls = ("instance" in made ? /** @type {any} */ (made).instance : made).exports;
  unused = (Number(calls.__heap_base.value ?? calls.__heap_base) + 7) & ~7;
  for (const name of /** @type {(keyof typeof SIZE)[]} */ (Object.keys(SIZE))) {
    at[name] = freshRoom((SIZE[name] + 7) & ~7);
    to[name] = BigInt(at[name]);
  }
}

function isStarted() {
  if (calls === null) throw new TypeError("the module isn't there yet: await start(bytes)");
}

// What is given from outside. `what` names it in a message: "job 2: cost".

/** A place in a document: as a message names it, its row, and its key. */
class Place {
  /** @param {string} text @param {string | null} [row] @param {string | null} [key] */
  constructor(text, row = null, key = null) {
    this.text = text;
    this.row = row;
    this.key = key;
  }

  toString() {
    return this.text;
  }
}

/** A key of a row. @param {string} row @param {string} key */
const keyAt = (row, key) => new Place(`${row}: ${key}`, row, key);

/** What is wrong with what was given for something. @param {string} code @param {string | Place} what @param {string} told */
function fault(code, what, told) {
  const { row = null, key = null } = what instanceof Place ? what : {};
  return new AgcError(code, `${what}${told}`, row, key);
}

/** Another type than a document has there, or a call takes. @param {string | Place} what @param {string} wanted @param {unknown} given */
function wrong(what, wanted, given) {
  const told = ` must be ${wanted}, not ${shown(given)}`;
  return what instanceof Place ? fault(Code.WRONG_TYPE, what, told) : new TypeError(`${what}${told}`);
}

/** Throws where a thing isn't what it has to be. @param {Function} kind @param {string} what @param {unknown} given */
function isOf(kind, what, given) {
  if (!(given instanceof /** @type {any} */ (kind))) throw wrong(what, `a ${kind.name}`, given);
}

/**
 * An integer in its range, which a message has in octal digits where these are wanted.
 * @param {string | Place} what @param {unknown} given @param {number} [low] @param {number | bigint} [high] @param {string} [code]
 * @param {number} [digits]
 * @returns {number}
 */
function integer(what, given, low = 0, high = MOST, code = Code.OUT_OF_RANGE, digits = 0) {
  // (counts that may be above 2^53 have a bigint as their most)
  const number = /** @type {number} */ (given);
  if (!Number.isSafeInteger(given) && !(typeof given === "bigint" && typeof high === "bigint")) throw wrong(what, "an integer", given);
  if (number >= low && number <= high) return number;
  const [is, least, most] = [number, low, high].map((it) => it.toString(digits === 0 ? 10 : 8));
  const to = Number(high) === low + 1 ? "or" : "to";
  throw fault(code, what, ` is ${is}${digits === 0 ? "" : " (octal)"}, but must be ${least} ${to} ${most}`);
}

/** A count that JSON has and no number holds, as the most that one does. @template T @param {T} given @returns {T | number} */
function held(given) {
  return typeof given === "number" && given > Number.MAX_SAFE_INTEGER ? Number.MAX_SAFE_INTEGER : given;
}

/** A word or an address: a number, or its five octal digits. @param {string | Place} what @param {unknown} given @param {string} letter @param {string} code */
function word(what, given, letter, code) {
  const { low, high, sentence, digits } = PARTS[letter];
  if (Number.isSafeInteger(given)) return integer(what, given, low, high, code, digits);
  if (typeof given !== "string") throw wrong(what, "an integer or five octal digits", given);
  if (spells(given, letter)) return parseInt(given, 8);
  throw fault(code, what, `: ${shown(given)}: ${sentence}`);
}

/** What is said of a key that a table of this level doesn't have, as `agc_watch check` says it. @param {string} key @param {string} level @param {string[]} keys */
function unknown(key, level, keys) {
  const near = nearest(key, keys);
  if (level !== "" && DOCUMENT.includes(key)) {
    if (level === "scenario") return "a bench has it, but no scenario";
    return level === "bench" ? 'a scenario has it, which has "seconds" too' : "it belongs above all tables";
  }
  return near === undefined ? `the keys are ${keys.join(", ")}` : `did you mean "${near}"?`;
}

/**
 * Throws where what is given isn't an object with some of these keys and no others, and all that are wanted. What is
 * undefined isn't given.
 * @param {Place} what @param {any} given @param {string[]} keys @param {string[]} [wanted] @param {string} [level]
 */
function known(what, given, keys, wanted = [], level = "") {
  if (!isPlain(given)) throw what.row === null ? wrong(`${what}`, "a plain object", given) : wrong(what, "a table", given);
  const other = Object.keys(given).find((it) => given[it] !== undefined && !keys.includes(it));
  if (other !== undefined) {
    const place = new Place(what.text, what.row, other);
    throw fault(Code.UNKNOWN_KEY, place, `: unknown key ${shown(other)}; ${unknown(other, level, keys)}`);
  }
  const missing = wanted.find((it) => given[it] === undefined);
  if (missing === undefined) return;
  throw fault(Code.MISSING_KEY, new Place(what.text, what.row, missing), `: the key "${missing}" is missing`);
}

/**
 * The items of an array, so many.
 * @param {string | Place} what @param {any} given @param {string} of @param {number} [low] @param {number | bigint} [high] @param {string} [code]
 * @returns {any[]}
 */
function items(what, given, of, low = 0, high = MOST, code = Code.OUT_OF_RANGE) {
  if (typeof given !== "object" || !Number.isInteger(given?.length)) throw wrong(what, `an array of ${of}`, given);
  const { length } = given;
  if (length >= low && length <= high) return Array.from(given);
  const many = low === Number(high) ? `${low}` : low === 0 ? `at most ${high}` : `${low} to ${high}`;
  throw fault(code, what, ` must have ${many} ${of}, but has ${length}`);
}

/** @type {Record<string, string[]>} */
const KINDS = {
  action: ACTION_KINDS, job: JOB_KINDS, listing: LISTING_KINDS, request: REQUEST_KINDS, step: STEP_KINDS, leaving: LEAVING_KINDS,
};
const { PLAN_RANGE, TIME_RANGE } = Code;

// What a plan and a timetable have of a document, which each may stand for, and what a bench has and no scenario.
const PLANS = ["task", "phase"];
const TIMES = Object.keys(KEYS.scenario).filter((it) => !(it in KEYS.bench) && it !== "title");
const OF_BENCH = Object.keys(KEYS.bench).filter((it) => !(it in KEYS.scenario));
const DOCUMENT = [...OF_BENCH, ...Object.keys(KEYS.scenario)];
const LAST_TIME = Number(KEYS.event.at.high);

/** What a number of this key lacks that is out of its range. @param {string} level @param {string} name */
function codeOf(level, name) {
  if (name === "sets") return Code.NO_SUCH_SETS;
  if (name === "power") return Code.NOT_WORDS;
  return ["steal", "job", "cost", "event"].includes(level) || TIMES.includes(name) ? TIME_RANGE : PLAN_RANGE;
}

/**
 * What a text of this form says: the number of a word or an address, or the numbers of a line.
 * @param {string | Place} what @param {string} form @param {unknown} given @param {string} code
 * @returns {any}
 */
function textOf(what, form, given, code) {
  if (form === "address" || form === "word") return word(what, given, form[0].toUpperCase(), code);
  if (form in KINDS) {
    read(given, KINDS[form], what);
    return numbersAt(at.request, 4);
  }
  if (typeof given !== "string") throw wrong(what, "a string", given);
  if (form === "device" && !DEVICES.includes(given)) throw fault(code, what, `: ${shown(given)}: a line is timer, key or radar`);
  // eslint-disable-next-line no-control-regex
  if (form !== "name" || !/[\0-\x1f\x7f]/.test(given)) return given;
  throw fault(code, what, `: ${shown(given)}: a name is one line, without control characters`);
}

/**
 * What the value of a key in a table of this level says; undefined where it isn't given.
 * @param {Place} table @param {string} level @param {string} name @param {any} given
 * @returns {any}
 */
function valueOf(table, level, name, given) {
  const { kind, form, low, high: most } = KEYS[level][name];
  const high = most > Number.MAX_SAFE_INTEGER ? most : Number(most);
  const what = new Place(`${table}: ${name}`, table.row, table.key ?? name);
  const code = codeOf(level, name);
  if (given === undefined) return undefined;
  if (name === "seconds") return centiseconds(what, given);
  if (name === "cost" && isPlain(given)) return tableOf(what, "cost", given);
  if (kind === "tables" || (name === "steal" && typeof given !== "number")) return tablesOf(what, name, kind === "tables", form || name, high, given);
  if (kind === "integer") return integer(what, typeof high === "bigint" ? held(given) : given, low, high, code);
  if (kind === "text") return textOf(what, form, given, code);
  if (kind === "flag" && typeof given !== "boolean") throw wrong(what, "true or false", given);
  if (kind === "flag") return given;
  const isOne = kind === "oneOrMore" && typeof given === "string";
  const all = isOne ? [given] : items(what, given, form === "word" ? "words" : "lines", low, high, code);
  const formAt = (/** @type {number} */ k) => (name !== "then" ? form : k === all.length - 1 ? "leaving" : "step");
  return all.map((it, k) => textOf(new Place(`${what} ${k + 1}`, what.row, what.key), formAt(k), it, code));
}

/** What the tables of an array say. @param {Place} what @param {string} name @param {boolean} isOnly @param {string} form @param {number | bigint} high @param {any} given */
function tablesOf(what, name, isOnly, form, high, given) {
  if (!Array.isArray(given)) throw wrong(what, `${isOnly ? "" : "an integer or "}an array of tables`, given);
  const level = form === "worker" ? "exploredWorker" : form;
  return items(what, given, "tables", 0, high).map((it, k) => tableOf(new Place(`${name} ${k + 1}`, `${name} ${k + 1}`), level, it));
}

/** What a table of this level says, key by key. @param {Place} what @param {string} level @param {any} given @returns {any} */
function tableOf(what, level, given) {
  const keys = Object.keys(KEYS[level]);
  // (a device without pulses never stops)
  known(what, given, keys, keys.filter((it) => KEYS[level][it].required && it !== "pulses"), level);
  return Object.fromEntries(keys.map((name) => [name, valueOf(what, level, name, given[name])]));
}

/**
 * A document, all of whose keys are looked at: what it says, and these keys as they are given, of which a later change
 * changes nothing.
 * @param {string} what @param {any} given @param {string[]} keys
 */
function documentOf(what, given, keys) {
  const has = (/** @type {string} */ it) => isPlain(given) && given[it] !== undefined;
  const level = keys === PLANS && !has("seconds") && OF_BENCH.some(has) ? "bench" : "scenario";
  // (with other keys it is a whole scenario)
  const isWhole = keys === TIMES && DOCUMENT.some((it) => has(it) && !keys.includes(it));
  const names = Object.keys(KEYS[level]);
  known(new Place(what), given, names, isWhole ? ["seconds"] : [], level);
  const says = Object.fromEntries(names.map((it) => [it, valueOf(new Place(what), level, it, given[it])]));
  return { says, kept: structuredClone(Object.fromEntries(keys.filter(has).map((it) => [it, given[it]]))) };
}

/** How many centiseconds so many seconds are. @param {Place} what @param {unknown} seconds */
function centiseconds(what, seconds) {
  if (typeof seconds !== "number") throw wrong(what, "a number", seconds);
  if (!(seconds >= 0 && seconds <= LAST_TIME / 100)) {
    throw fault(TIME_RANGE, what, ` is ${seconds}, but must be 0 to ${LAST_TIME / 100}`);
  }
  const found = Math.round(100 * seconds);
  if (Math.abs(100 * seconds - found) < 1e-6) return found;
  throw fault(TIME_RANGE, what, ` must be whole centiseconds, but is ${seconds}`);
}

/**
 * Puts lists of rows into a room of their owner's, behind the struct that a call takes of them, whose first list is at
 * `first`. Returns the struct's place.
 * @param {object} owner @param {number} first @param {number[][][]} lists
 */
function lend(owner, first, lists) {
  const all = lists.flat(2);
  const head = first + 16 * lists.length;
  const place = roomFor(owner, head + 4 * all.length);
  let from = place + head;
  numbers.set(all, from / 4);
  for (const [k, rows] of lists.entries()) {
    numbers.set([from, 0, rows.length, 0], (place + first) / 4 + 4 * k);
    from += 4 * rows.flat().length;
  }
  return place;
}

const octal = (/** @type {number} */ it) => it.toString(8).padStart(5, "0");

/** What is said of a row that may not stand beside another. @type {Record<string, (row: number[]) => string>} */
const SUBJECTS = {
  TASK_TWICE: ([where, bank]) => `${octal(where)}/${octal(bank)} already has`,
  PHASE_TWICE: ([group, phase]) => `phase ${phase} of group ${group} already has`,
  COST_TWICE: ([where]) => `${octal(where)} already has`,
  STEAL_TWICE: () => "it overlaps",
};

/**
 * Throws what a call finds lacking in lists of rows, and which row it is: the first with which its list, without the others,
 * lacks it; and the row that it may not stand beside.
 * @param {(lent: bigint) => number} call @param {number} first @param {Record<string, number[][]>} lists @param {number[][]} [others]
 */
function look(call, first, lists, others = []) {
  const lacks = (/** @type {number[][][]} */ some) => call(BigInt(lend({}, first, [...some, others])));
  const code = lacks(Object.values(lists));
  if (code === 0) return;
  const name = CODE_NAMES[code];
  for (const [list, rows] of Object.entries(lists)) {
    const alone = (/** @type {number[][]} */ some) => lacks(Object.values(lists).map((it) => (it === rows ? some : []))) === code;
    const k = rows.findIndex((_, it) => alone(rows.slice(0, it + 1)));
    if (k === -1) continue;
    const twin = rows.slice(0, k).findIndex((it) => alone([it, rows[k]]));
    const told = twin === -1 ? codeText(name) : `${SUBJECTS[name](rows[k])} row ${twin + 1}`;
    throw fault(name, new Place(`${list} ${k + 1}`, `${list} ${k + 1}`), `: ${told}`);
  }
  throw new AgcError(name);
}

/**
 * Writes a line into the module's memory: of one that is too long a part, and for what isn't ASCII a byte that isn't.
 * Neither spells anything.
 * @param {string} line
 */
function put(line) {
  const length = Math.min(line.length, SIZE.text);
  for (let k = 0; k < length; k++) bytes[at.text + k] = Math.min(line.charCodeAt(k), 0x80);
  return BigInt(length);
}

/** Throws the code of a call that was not served. @param {number} code */
function served(code) {
  if (code !== 0) throw new AgcError(CODE_NAMES[code]);
}

/** The text that a call has written, whose answer is there. @param {number} place */
function textAt(place) {
  served(numbers[place / 4]);
  return decoder.decode(bytes.subarray(at.text, at.text + numbers[place / 4 + 1]));
}

/**
 * So many numbers of a memory, from the one with this number on.
 * @param {Uint8Array | Uint16Array | Uint32Array} memory @param {number} from @param {number} count
 */
function taken(memory, from, count) {
  // (a list that grows is made faster than one of a part of the memory)
  const found = [];
  for (let k = from; k < from + count; k++) found.push(memory[k]);
  return found;
}

/** So many numbers of 32 bits that are in the memory, from a place on. @param {number} place @param {number} count */
function numbersAt(place, count) {
  return taken(numbers, place / 4, count);
}

const NAMES = [...FORMS.keys()];

/** A number of a request, for which this letter stands. @param {string} letter @param {any} given */
function numberOf(letter, given) {
  const { name, low, high, digits } = PARTS[letter];
  return integer(name, given, low, high, letter === "W" ? Code.NOT_A_WORD : Code.OUT_OF_RANGE, digits);
}

/**
 * Reads a line of one of these kinds into the place for a request.
 * @param {unknown} line @param {string[]} kinds @param {string | Place} [what]
 */
function read(line, kinds, what = "") {
  if (typeof line !== "string") throw wrong(what || "request", "a string", line);
  const call = kinds === ACTION_KINDS ? calls.agc_read_action : calls.agc_read_request;
  if (call(to.text, put(line), to.request) !== 0 || !kinds.includes(NAMES[numbers[at.request / 4]])) {
    throw fault(Code.NOT_SPELLED, what, `${what && ": "}${shown(line)}: ${lineFault(line, kinds)}`);
  }
}

/** A plan's rows and entries in the module's memory. */
class LentPlan {
  /** @param {Plan} plan */
  constructor(plan) {
    const { says, kept } = documentOf("a plan", plan, PLANS);
    this.says = says;
    const rows = (says.task ?? []).map((/** @type {any} */ it) => {
      const row = [it.at, it.bank, ...it.action.flat()];
      return [...row, ...new Array(LAYOUT.AgcRow.size / 4 - row.length).fill(0)];
    });
    // (a task's first number is its delay)
    const entries = (says.phase ?? []).map((/** @type {any} */ { group, phase, job = [0, 0, 0, 0], task = [0, 0, 0, 0] }) =>
      [group, phase, ...job, ...task.slice(1)]);
    this.given = kept;
    look(calls.agc_plan_check, PLAN.rows, { task: rows, phase: entries });
    const place = lend(this, PLAN.rows, [rows, entries]);
    this.lent = BigInt(place);
    /** Where the entries are, and how many. */
    this.entries = [BigInt(numbers[(place + PLAN.entries) / 4]), BigInt(entries.length)];
  }

  /** What a document has for this key of a machine, or what is given for it: both, where they are the same. @param {string} name @param {unknown} given */
  value(name, given) {
    const [its, named] = [this.says[name], valueOf(new Place("a machine"), "bench", name, given)];
    if (its === undefined || named === undefined || `${its}` === `${named}`) return named ?? its;
    throw fault(codeOf("bench", name), new Place("a machine", null, name), `: its ${name} and its plan's differ`);
  }
}

/** What a machine replies to a request. */
export class Step {
  /** @param {number} kind @param {number} number @param {Task[]} fired @param {number} action */
  constructor(kind, number, fired, action) {
    /** The kind, of `Kind`. @readonly */
    this.kind = kind;
    /** The job's number, or the alarm, as 0o1201; else 0. @readonly */
    this.number = number;
    /** The tasks that fired, in order. @readonly */
    this.fired = fired;
    /** Which action, 1 to 4, of the last of them raised the alarm; 0 where none did. @readonly */
    this.action = action;
  }

  /** The alarm, 0o1201, 0o1202 or 0o1203, after which an era began; 0 where there was none. */
  get alarm() {
    return this.kind === Kind.ALARMED || this.kind === Kind.TICK_ALARMED ? this.number : 0;
  }

  /** Whether an era began with it. */
  get beginsEra() {
    return this.alarm !== 0 || this.kind === Kind.RESTARTED;
  }

  /** The line that `agc` writes. */
  get text() {
    putStep(this);
    this.fired.slice(0, NUMBERS.FIRED).forEach((it, k) => numbers.set([it.at, it.bank], at.fired / 4 + 2 * k));
    // (what is written tells of itself by the request's place, which is free)
    calls.agc_write_reply(to.request, to.answer, to.fired, to.text, BigInt(SIZE.text));
    return textAt(at.request).slice(0, -1);
  }

  toString() {
    return this.text;
  }
}

/** Writes a step to the place of an answer. @param {Step} step */
function putStep({ kind, number, fired, action }) {
  numbers.set([0, kind, number, fired.length, action], at.answer / 4);
}

/** The reply that a step has written. */
function stepAt() {
  const place = at.answer / 4;
  const fired = [];
  for (let k = 0; k < numbers[place + 3]; k++) {
    fired.push({ at: numbers[at.fired / 4 + 2 * k], bank: numbers[at.fired / 4 + 2 * k + 1] });
  }
  return new Step(numbers[place + 1], numbers[place + 2], fired, numbers[place + 4]);
}

/**
 * A machine: its words, and the plan by which it goes on after an alarm.
 *
 * `plan` has `task` and `phase` as a bench has them, and both may be missing, or is a whole bench or
 * scenario, whose `sets` and `power` hold, too. `power` are the twelve phase words that were found as
 * power came back. `words` are those of an earlier machine, with as many core sets as these have.
 */
export class Machine {
  #sets = 7;
  /** @type {LentPlan} */
  #plan;
  // (the words, and behind them those of the moment)
  #place = 0;
  #words = 0n;
  #moment = 0n;
  /** @type {Totals} */
  #totals = { served: 0, alarms: [0, 0, 0], restarts: 0 };

  /** @param {{ sets?: number, plan?: Plan, power?: readonly (number | string)[], words?: ArrayLike<number> }} given */
  constructor(given = {}) {
    known(new Place("a machine"), given, ["sets", "plan", "power", "words"]);
    isStarted();
    const { plan = {}, words } = given;
    if (words !== undefined && given.power !== undefined) throw new TypeError("a machine begins with words or with power, and not with both");
    // (a copy's is looked at already)
    this.#plan = plan instanceof LentPlan ? plan : new LentPlan(plan);
    const [sets, power] = [this.#plan.value("sets", given.sets), this.#plan.value("power", given.power)];
    const found = words === undefined ? [] : wordsOf("words", words, sets);
    this.#sets = sets ?? setsOf(found);
    this.#place = roomFor(this, 4 * WORDS);
    [this.#words, this.#moment] = [BigInt(this.#place), BigInt(this.#place + 2 * WORDS)];
    if (words !== undefined) {
      checked("words", found, this.#sets, []);
      putWords(found, this.#place);
    } else if (power === undefined) {
      served(calls.agc_clear(this.#words, this.#sets));
    } else {
      halves.set(power, at.phases / 2);
      calls.agc_power_up(to.answer, this.#words, this.#sets, ...this.#plan.entries, to.phases);
      served(numbers[at.answer / 4]);
    }
    bytes.copyWithin(this.#place + 2 * WORDS, this.#place, this.#place + 2 * WORDS);
  }

  /**
   * Writes a request by its name and numbers, or by its line, to its place.
   * @param {string} request @param {number[]} given
   */
  #spell(request, given) {
    if (typeof request !== "string") throw wrong("request", "a string", request);
    const form = FORMS.get(request);
    if (form !== undefined && form.letters.length === given.length && form.kind !== 0) {
      const place = at.request / 4;
      numbers[place] = form.kind;
      for (let k = 0; k < given.length; k++) {
        const isTaken = Number.isInteger(given[k]) && given[k] >= 0 && given[k] <= MOST;
        numbers[place + 1 + k] = isTaken ? given[k] : numberOf(form.letters[k], given[k]);
      }
    } else if (given.length === 0) {
      read(request, REQUEST_KINDS);
    } else {
      throw new AgcError(Code.NOT_SPELLED, countFault(request, given.length));
    }
  }

  /** One of the two calls of a step. @param {Function} call */
  #step(call) {
    call(to.answer, this.#words, this.#sets, this.#plan.lent, to.request, to.fired, this.#moment);
  }

  /**
   * Asks one request: a line as `"findvac 30 02100 00005"`, or its name and numbers, as
   * `"findvac", 0o30, 0o2100, 5`, or what a clock gave. After an alarm, a restart or a fresh start an
   * era has begun.
   * @param {string | Asked} request
   * @param {...number} given
   * @returns {Step}
   */
  ask(request, ...given) {
    const name = request instanceof Asked ? request.name : request;
    const its = request instanceof Asked ? request.numbers : given;
    this.#spell(name, its);
    this.#step(calls.agc_step_trusted);
    const code = numbers[at.answer / 4];
    if (code !== 0) {
      its.forEach((it, k) => numberOf(FORMS.get(name)?.letters[k] ?? "", it));
      served(code);
    }
    this.#count();
    return stepAt();
  }

  /** Counts the reply that a step has written. */
  #count() {
    const kind = numbers[at.answer / 4 + 1];
    const alarmed = kind === Kind.ALARMED || kind === Kind.TICK_ALARMED;
    const { served: count, alarms, restarts } = this.#totals;
    const alarm = numbers[at.answer / 4 + 2] - 0o1201;
    this.#totals.served = Math.min(count + 1, Number.MAX_SAFE_INTEGER);
    if (alarmed) alarms[alarm] = Math.min(alarms[alarm] + 1, Number.MAX_SAFE_INTEGER);
    if (alarmed || kind === Kind.RESTARTED) this.#totals.restarts = Math.min(restarts + 1, Number.MAX_SAFE_INTEGER);
  }

  /**
   * Lets time pass by a clock: asks all that it gives until so many centiseconds have passed, or its
   * time is over, and tells it what came of each. Returns how many requests that were. `row` is
   * called with each request, its reply and the centisecond; where it returns false, the run stops.
   * @param {Clock} clock
   * @param {number} centiseconds
   * @param {(asked: Asked, step: Step, time: number) => unknown} [row]
   * @returns {number}
   */
  run(clock, centiseconds, row) {
    isOf(Clock, "clock", clock);
    if (row !== undefined && typeof row !== "function") throw wrong("row", "a function", row);
    const end = clock.time + integer("centiseconds", centiseconds);
    for (let count = 0; ; count++) {
      if (!clock.give(this.#words, this.#sets, end)) return count;
      const request = row && askedAt();
      this.#step(calls.agc_step_trusted);
      this.#count();
      clock.take(this.#words, this.#sets);
      if (row && request && row(request, stepAt(), clock.time) === false) return count + 1;
    }
  }

  /** Where its words are, and how many core sets. @internal @returns {[bigint, number]} */
  get inside() {
    return [this.#words, this.#sets];
  }

  /** Who runs, and how many jobs, tasks and alarms there are. */
  toString() {
    const { running, sets, tasks } = this.scene();
    const alarms = this.#totals.alarms.reduce((sum, it) => sum + it, 0);
    const who = running === 0 ? "no job is running" : `job ${running} runs`;
    return `<Machine: ${who}; jobs: ${sets.filter((it) => it !== null).length}, tasks: ${tasks.length}, alarms: ${alarms}>`;
  }

  /** How many core sets there are: 7 or 8. */
  get sets() {
    return this.#sets;
  }

  /** The words as they are now: 132 with seven core sets, 144 with eight. */
  get words() {
    return halves.slice(this.#place / 2, this.#place / 2 + sizeOf(this.#sets));
  }

  /** The words as they were when the last request was answered: at an alarm, before the restart. */
  get moment() {
    const place = this.#place / 2 + WORDS;
    return halves.slice(place, place + sizeOf(this.#sets));
  }

  /** How many requests were served, alarms 1201, 1202 and 1203 came, and eras began. @returns {Totals} */
  get totals() {
    return { ...this.#totals, alarms: [...this.#totals.alarms] };
  }

  /** What the words say, as `sceneOf` has it. @returns {Scene} */
  scene() {
    return sceneAt(this.#words, this.#sets);
  }

  /** All of it, of which JSON can be made, for `Machine.ofState`. @returns {MachineState} */
  get state() {
    const [words, moment] = [Array.from(this.words), Array.from(this.moment)];
    return { sets: this.#sets, plan: structuredClone(this.#plan.given), words, moment, totals: this.totals };
  }

  /** What JSON has of it. */
  toJSON() {
    return this.state;
  }

  /** A machine of what `state` told. Its words are looked at as those from elsewhere are. @param {MachineState} state */
  static ofState(state) {
    const keys = ["sets", "plan", "words", "moment", "totals"];
    known(new Place("a machine's state"), state, keys, keys);
    const made = new Machine({ sets: state.sets, plan: state.plan, words: state.words });
    made.#totals = totalsOf(state.totals);
    const moment = wordsOf("moment", state.moment, made.#sets);
    checked("moment", moment, made.#sets);
    putWords(moment, made.#place + 2 * WORDS);
    return made;
  }

  /** The report that `agc` writes. */
  report() {
    const { served: count, alarms, restarts } = this.#totals;
    [count, ...alarms, restarts].forEach((it, k) => {
      numbers.set([it % 2 ** 32, Math.floor(it / 2 ** 32)], at.totals / 4 + 2 * k);
    });
    calls.agc_write_report(to.answer, this.#words, this.#sets, to.totals, to.text, BigInt(SIZE.text));
    return textAt(at.answer);
  }

  /** A machine of its own with the same words, plan and totals. */
  copy() {
    const made = new Machine({ sets: this.#sets, plan: /** @type {any} */ (this.#plan) });
    bytes.copyWithin(made.#place, this.#place, this.#place + 4 * WORDS);
    made.#totals = this.totals;
    return made;
  }
}

/** A request that a clock gave: its name, its numbers, and who asks for it. */
export class Asked {
  /** @param {string} name @param {number[]} given @param {number | null} event */
  constructor(name, given, event) {
    /** @readonly */
    this.name = name;
    /** @readonly */
    this.numbers = given;
    /** The number of the event that asks, from 0; null where the clock itself does. @readonly */
    this.event = event;
  }

  /** Its line, as in a script. */
  get text() {
    const { letters = "" } = FORMS.get(this.name) ?? {};
    const shown = this.numbers.map((it, k) => {
      const { digits } = PARTS[letters[k]];
      return digits === 0 ? String(it) : it.toString(8).padStart(digits, "0");
    });
    return [this.name, ...shown].join(" ");
  }

  toString() {
    return this.text;
  }
}

/** The request that is in the memory there, by this event. @param {number} place @param {number | null} event */
function requestAt(place, event) {
  const name = NAMES[numbers[place / 4]];
  const count = FORMS.get(name)?.letters.length ?? 0;
  // (most are ticks, which have none)
  return new Asked(name, count === 0 ? [] : numbersAt(place + 4, count), event);
}

/** What a clock has written. */
function askedAt() {
  const source = numbers[at.answer / 4 + 1];
  return requestAt(at.request, source === 1 ? null : source - 2);
}

const BOUNDS = ["served", "allowance", "logged", "limit"];
const TOTALS = ["served", "alarms", "restarts"];

/** The totals of a state. @param {any} found @returns {Totals} */
function totalsOf(found) {
  known(new Place("totals", "totals"), found, TOTALS, TOTALS);
  const count = (/** @type {string} */ what, /** @type {any} */ it) =>
    integer(keyAt("totals", what), held(it), 0, Number.MAX_SAFE_INTEGER);
  const alarms = items(keyAt("totals", "alarms"), found.alarms, "counts", 3, 3).map((it, k) => count(`alarms ${k + 1}`, it));
  return { served: count("served", found.served), alarms, restarts: count("restarts", found.restarts) };
}

/**
 * Whether a request is served, with these counts before it: `Code.OK`, `Code.SPENT`, or
 * `Code.LOG_FULL`, which is the answer neither to a restart nor to a fresh start. A line that spells
 * no request is thrown.
 * @param {string | Asked} request
 * @param {Bounds} bounds
 * @returns {string}
 */
export function refusalOf(request, bounds) {
  isStarted();
  const lacked = BOUNDS.find((it) => !isPlain(bounds) || Reflect.get(bounds, it) === undefined);
  if (lacked !== undefined) throw new TypeError(`bounds must be a plain object with ${BOUNDS.join(", ")}, and ${lacked} is missing`);
  read(request instanceof Asked ? request.text : request, REQUEST_KINDS);
  const counts = new DataView(calls.memory.buffer, at.bounds);
  BOUNDS.forEach((name, k) => {
    const it = Reflect.get(bounds, name);
    integer(`bounds: ${name}`, it, 0, k < 2 ? 2n ** 64n - 1n : MOST);
    if (k < 2) counts.setBigUint64(8 * k, BigInt(it), true);
    else counts.setUint32(8 + 4 * k, Number(it), true);
  });
  return CODE_NAMES[calls.agc_refusal(to.request, to.bounds)];
}

/**
 * The lines of what a pulse of a device asks for, where `line` is "timer", "key" or "radar": a tick,
 * or what a plan has done for a key or a radar pulse, which is at most four actions.
 * @param {string} line
 * @param {{ key?: string | string[], radar?: string | string[] }} [plan]
 * @returns {string[]}
 */
export function pulseOf(line, plan = {}) {
  isStarted();
  if (typeof line !== "string") throw wrong("line", "a string", line);
  if (!DEVICES.includes(line)) {
    throw new AgcError(Code.OUT_OF_RANGE, `line is ${shown(line)}, but must be ${DEVICES.slice(0, -1).join(", ")} or ${DEVICES.at(-1)}`);
  }
  known(new Place("a plan of pulses"), plan, DOCUMENT);
  const [key, radar] = [plan.key, plan.radar].map((it, k) =>
    (Array.isArray(it) && it.length === 0 ? [] : valueOf(new Place("a pulse"), "bench", k === 0 ? "key" : "radar", it) ?? []));
  numbers.set([...key, ...radar].flat(), at.actions / 4);
  const second = to.actions + BigInt(REQUEST.size * key.length);
  calls.agc_pulse(to.answer, DEVICES.indexOf(line), to.actions, BigInt(key.length), second, BigInt(radar.length), to.pulse);
  served(numbers[at.answer / 4]);
  return Array.from({ length: numbers[at.answer / 4 + 1] }, (_, k) => requestAt(at.pulse + REQUEST.size * k, null).text);
}

/** The last time of what comes again, which counts from another. @param {number | undefined} until @param {number} [from] */
function untilOf(until, from = 0) {
  return until === undefined ? LAST_TIME : Math.min(from + until, LAST_TIME);
}

/** The rows of stolen time, of a percentage or of its tables. @param {any} steal */
function stolenOf(steal = 0) {
  if (typeof steal === "number") return steal === 0 ? [] : [[0, MOST, steal, 0, LAST_TIME]];
  return steal.map((/** @type {any} */ { from, to, percent, every, until }, /** @type {number} */ k) => {
    if (to <= from) throw fault(TIME_RANGE, keyAt(`steal ${k + 1}`, "to"), ` is ${to}, but must be above from, ${from}`);
    if (every >= to - from || every === undefined) return [from, to, percent, every ?? 0, untilOf(until)];
    const least = `as long as the row lasts, ${to - from}, or longer`;
    throw fault(TIME_RANGE, keyAt(`steal ${k + 1}`, "every"), ` is ${every}, but must be ${least}`);
  });
}

/**
 * What a job costs, whose requests before it leaves are put to the others.
 * @param {any} it @param {number} k @param {number[][]} requests
 */
function costOf({ at, cost, then = [[0, 0]] }, k, requests) {
  const { from, to } = typeof cost === "number" ? { from: cost, to: cost } : cost;
  if (from > to) throw fault(TIME_RANGE, keyAt(`job ${k + 1}`, "cost"), `: to is ${to}, but must not be less than from, ${from}`);
  const first = requests.length;
  requests.push(...then.slice(0, -1));
  // (of an end the address is 0)
  return [at, 100 * to, then.at(-1)[1], first, then.length - 1, 100 * (to - from)];
}

/**
 * The rows of events, whose requests are put to the others. One with `after` counts from the first time of an event of that
 * name above it, or else from the alarm of that code. One that would come after a day never comes.
 * @param {any[]} events @param {number[][]} requests
 */
function eventsOf(events, requests) {
  const firsts = new Map();
  return events.map(({ name, at, after, every = 0, until, do: lines }, k) => {
    const base = after === undefined ? { alarm: 0, from: 0 } : firsts.get(after) ?? ALARMS.get(after);
    if (base === undefined) {
      const told = "no event above it has that name, and it is no alarm: 1201, 1202 or 1203";
      throw fault(TIME_RANGE, keyAt(`event ${k + 1}`, "after"), `: ${shown(after)}: ${told}`);
    }
    const { alarm, from } = base;
    const first = Math.max(alarm && 1, Math.min(from + at, LAST_TIME + 1));
    if (name !== undefined && !firsts.has(name)) firsts.set(name, { alarm, from: first });
    const again = first > LAST_TIME ? [1, 0] : [every, untilOf(until, from)];
    requests.push(...lines);
    return [Math.min(first, LAST_TIME), ...again, requests.length - lines.length, lines.length, alarm];
  });
}

const ALARMS = new Map(["1201", "1202", "1203"].map((code) => [code, { alarm: parseInt(code, 8), from: 0 }]));

/** A timetable in the module's memory: its events as they are at the start. */
class LentTimes {
  /** @param {Timetable} timetable */
  constructor(timetable) {
    const { says: { seconds = LAST_TIME, seed, steal, job = [], event = [] }, kept } = documentOf("a timetable", timetable, TIMES);
    /** @type {number} */
    this.lasts = seconds;
    /** @type {Timetable} */
    this.given = kept;
    /** @type {number[][]} */
    const requests = [];
    const stolen = stolenOf(steal);
    const costs = job.map((/** @type {any} */ it, /** @type {number} */ k) => costOf(it, k, requests));
    this.events = eventsOf(event, requests);
    const byLot = costs.findIndex((/** @type {number[]} */ it) => it[5] !== 0);
    if (seed === undefined && byLot !== -1) {
      throw fault(TIME_RANGE, keyAt(`job ${byLot + 1}`, "cost"), " is by lot, and there is no seed");
    }
    this.seed = seed ?? 0;
    look(calls.agc_clock_check, TABLE.stolen, { steal: stolen, job: costs, event: this.events }, requests);
    this.place = lend(this, TABLE.stolen, [stolen, costs, this.events, requests]);
  }
}

/**
 * A clock: it lets time pass by a timetable, as docs/TIME.md says, and gives what a machine is asked
 * next. `timetable` has `seconds`, `steal`, `job` and `event` as a scenario has them, and all may be
 * missing. The cost of a job may be by lot, `{ from: 150, to: 190 }`, and then there has to be a
 * `seed`, 1 to 2147483646. A clock goes with one machine, and is told of all that this is asked.
 */
export class Clock {
  /** @type {LentTimes} */
  #times;
  /** When the first alarm of each code came. @type {Record<string, number>} */
  #alarms = {};
  // (the clock, behind it the events of its timetable, which alarms move, and the timetable with these)
  #place = 0;
  /** Whether it has given a request, and was not told what came of it. */
  #owes = false;
  #clock = 0n;
  #lent = 0n;

  /** @param {Timetable} timetable */
  constructor(timetable = {}) {
    isStarted();
    // (a copy's is looked at already)
    this.#times = timetable instanceof LentTimes ? timetable : new LentTimes(timetable);
    this.#enter({});
    bytes.fill(0, this.#place, this.#place + CLOCK.size);
    numbers[(this.#place + CLOCK.lot) / 4] = this.#times.seed;
  }

  /**
   * Takes a room for the clock, as it is, and for the events, as these first alarms move them.
   * @param {Record<string, number>} alarms
   */
  #enter(alarms) {
    const { events, place: times } = this.#times;
    const size = CLOCK.size + EVENT.size * events.length;
    const place = roomFor(this, size + TABLE.size);
    bytes.copyWithin(place, this.#place, this.#place + CLOCK.size);
    numbers.set(events.flat(), (place + CLOCK.size) / 4);
    bytes.copyWithin(place + size, times, times + TABLE.size);
    numbers[(place + size + TABLE.events) / 4] = place + CLOCK.size;
    [this.#place, this.#clock, this.#lent, this.#alarms] = [place, BigInt(place), BigInt(place + size), {}];
    for (const [code, time] of Object.entries(alarms)) {
      numbers[(at.clock + CLOCK.time) / 4] = time;
      numbers.set([0, Kind.ALARMED, parseInt(code, 8), 0, 0], at.answer / 4);
      this.#hear(to.clock, time);
    }
  }

  /**
   * The events take the alarm of the reply that is at its place, which came as this clock says, if it is the first.
   * @param {bigint} clock @param {number} time
   */
  #hear(clock, time) {
    const code = numbers[at.answer / 4 + 2].toString(8);
    if (code in this.#alarms) return;
    this.#alarms = { ...this.#alarms, [code]: time };
    const place = this.#place + CLOCK.size;
    this.#times.events.forEach((_, k) => calls.agc_clock_told(to.answer, clock, BigInt(place + EVENT.size * k)));
  }

  /** All of it, of which JSON can be made, for `Clock.ofState`. @returns {ClockState} */
  get state() {
    const numbersOf = (/** @type {number[]} */ ...fields) => fields.map((it) => numbers[(this.#place + it) / 4]);
    const looks = bytes[this.#place + CLOCK.looks];
    const at = [...numbersOf(CLOCK.time, CLOCK.event, CLOCK.asked), looks, ...numbersOf(CLOCK.left), ...this.given,
      ...numbersOf(CLOCK.lot)];
    return { timetable: structuredClone(this.#times.given), at, alarms: { ...this.#alarms } };
  }

  /** What JSON has of it. */
  toJSON() {
    return this.state;
  }

  /** Where it is, and how many jobs and events its timetable has. */
  toString() {
    const { job = [], event = [] } = this.#times.given;
    return `<Clock: ${this.time} of ${this.lasts} centiseconds; jobs: ${job.length}, events: ${event.length}>`;
  }

  /** A clock of what `state` told. @param {ClockState} state */
  static ofState(state) {
    known(new Place("a clock's state"), state, ["timetable", "at", "alarms"], ["timetable", "at"]);
    const made = new Clock(state.timetable);
    const { alarms = {} } = state;
    known(new Place("alarms", "alarms"), alarms, [...ALARMS.keys()]);
    Object.entries(alarms).forEach(([code, it]) => integer(keyAt("alarms", code), it, 0, LAST_TIME, TIME_RANGE));
    made.#enter(/** @type {Record<string, number>} */ (alarms));
    const given = items(new Place("at", null, "at"), state.at, "numbers", 14, 14);
    given.forEach((it, k) => integer(new Place(`at: number ${k + 1}`, null, "at"), it, 0, k === 3 ? 1 : MOST));
    [CLOCK.time, CLOCK.event, CLOCK.asked, CLOCK.looks, CLOCK.left].forEach((field, k) => { numbers[(made.#place + field) / 4] = given[k]; });
    numbers.set(given.slice(5), (made.#place + CLOCK.given) / 4);
    return made;
  }

  /**
   * Writes the next request for a machine with these words to its place, up to a centisecond; false where there is none.
   * @internal @param {bigint} words @param {number} sets @param {number} end
   */
  give(words, sets, end) {
    if (this.#owes) throw new AgcError(Code.NOT_NOW, "the clock was asked again, and not told by `served` what came of its request");
    numbers[(Number(this.#lent) + TABLE.lasts) / 4] = Math.min(this.#times.lasts, end);
    calls.agc_clock_next_trusted(to.answer, words, sets, this.#lent, this.#clock, to.request);
    this.#owes = numbers[at.answer / 4 + 1] !== 0;
    return this.#owes;
  }

  /**
   * Takes the reply that is at its place, of a machine with these words.
   * @internal @param {bigint} words @param {number} sets
   */
  take(words, sets) {
    this.#owes = false;
    calls.agc_clock_served_trusted(words, sets, to.answer, this.#clock);
    const kind = numbers[at.answer / 4 + 1];
    if (kind === Kind.ALARMED || kind === Kind.TICK_ALARMED) this.#hear(this.#clock, this.time);
  }

  /**
   * The next request for this machine, or null where the time is over. The clock has then gone on,
   * so that it is to be asked, and `served` to be told of it.
   * @param {Machine} machine
   * @returns {Asked | null}
   */
  next(machine) {
    isOf(Machine, "machine", machine);
    return this.give(...machine.inside, MOST) ? askedAt() : null;
  }

  /** Tells what came of a request, also of one that the clock didn't give. @param {Machine} machine @param {Step} step */
  served(machine, step) {
    isOf(Machine, "machine", machine);
    isOf(Step, "step", step);
    putStep(step);
    this.take(...machine.inside);
  }

  /** The centisecond that passes; 0 before the first tick. */
  get time() {
    return numbers[(this.#place + CLOCK.time) / 4];
  }

  /** How many hundredths of that centisecond are left. @internal */
  get left() {
    return numbers[(this.#place + CLOCK.left) / 4];
  }

  /**
   * How many hundredths of a centisecond jobs 1 to 8 were given since they began or were roused; what
   * a lot spared a job counts as given.
   */
  get given() {
    return numbersAt(this.#place + CLOCK.given, NUMBERS.MOST_SETS);
  }

  /** How many centiseconds the timetable lasts. */
  get lasts() {
    return this.#times.lasts;
  }

  /** Another timetable from here on, of which what isn't named stays as it was. @param {Timetable} timetable */
  change(timetable) {
    this.#times = new LentTimes({ ...this.#times.given, ...documentOf("a timetable", timetable, TIMES).kept });
    this.#enter(this.#alarms);
    // (lots are drawn anew where a seed is named)
    if (timetable.seed !== undefined) numbers[(this.#place + CLOCK.lot) / 4] = this.#times.seed;
  }

  /** A clock of its own with the same time, counts and timetable. */
  copy() {
    const made = new Clock(/** @type {any} */ (this.#times));
    [made.#alarms, made.#owes] = [this.#alarms, this.#owes];
    bytes.copyWithin(made.#place, this.#place, this.#place + CLOCK.size + EVENT.size * this.#times.events.length);
    return made;
  }
}

/** How many core sets these words have. @param {number[]} words */
function setsOf(words) {
  return words.length === WORDS ? NUMBERS.MOST_SETS : NUMBERS.MOST_SETS - 1;
}

/** How many words there are with so many core sets. @param {number} sets */
function sizeOf(sets) {
  return sets === NUMBERS.MOST_SETS ? WORDS : NUMBERS.LAST_SET;
}

/**
 * Words from outside, as many as there are with so many core sets; a rule says of each number whether it is a word.
 * @param {string} what @param {any} words @param {number} [sets] @returns {number[]}
 */
function wordsOf(what, words, sets) {
  isStarted();
  const sizes = sets === undefined ? [NUMBERS.LAST_SET, WORDS] : [sizeOf(sets)];
  const found = items(new Place(what, null, what), words, "words");
  if (!sizes.includes(found.length)) {
    throw fault(Code.NOT_WORDS, new Place(what, null, what), `: there must be ${sizes.join(" or ")}, but there are ${found.length}`);
  }
  return found.map((it, k) => {
    if (Number.isInteger(it)) return it;
    const one = new Place(`${what}: ${PLACES[k]} (word ${k})`, null, what);
    return typeof it === "string" ? word(one, it, "W", Code.NOT_WORDS) : integer(one, it);
  });
}

/** Writes words to a place. @param {number[]} words @param {number} place */
function putWords(words, place) {
  for (let k = 0; k < words.length; k++) halves[place / 2 + k] = words[k] >= 0 && words[k] <= 0xffff ? words[k] : 0xffff;
}

/**
 * Throws what these words lack, but for one of these codes; and which word it is.
 * @param {string} what @param {number[]} words @param {number} sets @param {string[]} [but]
 */
function checked(what, words, sets, but = [Code.NOT_NOW, Code.UNTIDY]) {
  const finding = findingIn(words, sets);
  if (finding !== null && !but.includes(finding.code)) throw new AgcError(finding.code, `${what}: ${finding.text}`);
}

/**
 * What a place of the words is called: "LOC of core set 2", "VAC 1", "NEWJOB", "LST1 0",
 * "PHASE of group 3".
 * @param {number} place
 * @returns {string}
 */
export function placeName(place) {
  return PLACES[integer("place", place, 0, WORDS - 1)];
}

/** Why no machine begins with words, or null. @param {number[]} words @param {number} sets @returns {Finding | null} */
function findingIn(words, sets) {
  putWords(words, at.other);
  calls.agc_explain(to.answer, to.other, sets);
  const [number, rule, place, , right] = numbersAt(at.answer, 5);
  const code = CODE_NAMES[number];
  if (code === Code.OK) return null;
  const [found, wanted] = [words[place], right === NUMBERS.ANY ? null : right];
  calls.agc_write_rule(to.answer, rule, to.text, BigInt(SIZE.text));
  const other = wanted === null ? "" : `, but should be ${octal(wanted)}`;
  const is = `${PLACES[place]} (word ${place}) is ${found < 0 ? found : octal(found)}${other}`;
  return { code, rule, place, found, wanted, text: `${is}: ${textAt(at.answer)}` };
}

/**
 * Why no machine begins with these words, 132 or 144; null where one does.
 * @param {ArrayLike<number>} words
 * @returns {Finding | null}
 */
export function findingOf(words) {
  const found = wordsOf("words", words);
  return findingIn(found, setsOf(found));
}

/**
 * What words say that a machine has left, or had at a moment. Other words are refused.
 * @param {ArrayLike<number>} words
 * @returns {Scene}
 */
export function sceneOf(words) {
  const found = wordsOf("words", words);
  checked("words", found, setsOf(found));
  return sceneAt(to.other, setsOf(found));
}

/** The job that a call has written there, or null. @param {number} place @returns {Job | null} */
function jobAt(place) {
  const number = numbers[(place + JOB.number) / 4];
  if (number === 0) return null;
  return {
    number,
    priority: numbers[(place + JOB.priority) / 4],
    at: numbers[(place + JOB.at) / 4],
    bank: numbers[(place + JOB.bank) / 4],
    asleep: bytes[place + JOB.asleep] !== 0,
    area: numbers[(place + JOB.area) / 4],
    work: taken(halves, (place + JOB.work) / 2, NUMBERS.WORK),
  };
}

/** What the tables of words in the module's memory hold. @param {bigint} words @param {number} sets @returns {Scene} */
function sceneAt(words, sets) {
  served(calls.agc_scene(words, sets, to.scene));
  const place = at.scene;
  const jobs = [];
  for (let k = 0; k < sets; k++) jobs.push(jobAt(place + SCENE.sets + JOB.size * k));
  const tasks = [];
  for (let k = 0; k < NUMBERS.TASKS; k++) {
    const task = place + SCENE.tasks + WAITING.size * k;
    const where = numbers[(task + WAITING.at) / 4];
    if (where === 0) break;
    tasks.push({ at: where, bank: numbers[(task + WAITING.bank) / 4], left: numbers[(task + WAITING.left) / 4] });
  }
  return {
    running: numbers[(place + SCENE.running) / 4],
    next: numbers[(place + SCENE.next) / 4],
    sets: jobs,
    areas: numbersAt(place + SCENE.areas, NUMBERS.AREAS),
    tasks,
    phases: taken(bytes, place + SCENE.phases, NUMBERS.GROUPS),
    codes: numbersAt(place + SCENE.failreg, NUMBERS.CODES),
  };
}

// (what node prints of them)
for (const it of [Machine, Clock]) {
  Object.defineProperty(it.prototype, Symbol.for("nodejs.util.inspect.custom"), { value: it.prototype.toString });
}
