/**
 * A bench or a scenario: the table of its keys, how it is read from a document, and how it is
 * written as one. `docs/FORMATS.md` says what each key means.
 *
 * @typedef {{ at: string, bank: string, action: string[], name?: string }} TaskRow
 * @typedef {{ group: number, phase: number, job?: string, task?: string, name?: string }} PhaseRow
 * @typedef {{ at: string, cost: number | { from: number, to: number }, name?: string,
 *   then?: string[], deadline?: number }} JobRow
 * @typedef {{ at: number, after?: string, do: string[], every?: number, until?: number,
 *   name?: string }} EventRow
 * @typedef {{ from: number, to: number, percent: number, every?: number,
 *   until?: number }} StealRow
 * @typedef {{ title?: string, sets?: number, limit: number, allowance: bigint, attends?: number,
 *   key: string[], radar: string[], power?: string[], script: string[], task: TaskRow[],
 *   phase: PhaseRow[], worker: { script: string[], repeat?: boolean }[],
 *   device: { line: string, pulses?: number }[], seconds?: number, seed?: number,
 *   steal: number | StealRow[],
 *   job: JobRow[], event: EventRow[] }} Bench
 */
import { KEYS } from "../libagc/js/library.js";
import { pulseOf } from "../libagc/js/machine.js";
import { partsOf } from "./stolen.js";
import { Unread, linesOf, readToml } from "./toml.js";
import { ACTIONS, JOBS, LISTS, PARTS, REQUESTS, STEPS, lineFault, nearest } from "./words.js";

/** The longest document that is taken, in bytes, as by `agc`. */
export const MOST_BYTES = 1_048_576;

/**
 * @typedef {{ kind: string, form: string, low: number, high: bigint, required: boolean }} Key
 * @param {Record<string, Key>} keys
 * @returns {Record<string, Key>}
 */
function nameFirst({ name, ...rest }) {
  return name === undefined ? rest : { name, ...rest };
}

const levels = Object.fromEntries(Object.entries(KEYS).map(([level, it]) => [level, nameFirst(it)]));
const { scenario, job, device } = levels;

/** The keys of each kind of table, and of three the values that only their readers know; callers may never stop, as for `agc_watch`. @type {Record<string, Record<string, Key>>} */
export const LEVELS = {
  ...levels,
  scenario: { ...scenario, steal: { ...scenario.steal, kind: "steal" } },
  job: { ...job, cost: { ...job.cost, kind: "cost" }, then: { ...job.then, form: "then" } },
  worker: levels.exploredWorker,
  device: { ...device, pulses: { ...device.pulses, required: false } },
};

/** What is wrong with a text of this form; nothing where it is one. @param {string} form @param {string} given @returns {string | null} */
export function textFault(form, given) {
  const lines = { request: REQUESTS, action: ACTIONS, job: JOBS, listing: LISTS, step: STEPS };
  if (form in lines) return lineFault(given, lines[/** @type {keyof typeof lines} */ (form)]);
  if (form === "address") return PARTS.A.is(given) ? null : PARTS.A.sentence;
  if (form === "word") return PARTS.W.is(given) ? null : PARTS.W.sentence;
  if (form === "device") {
    return /^(timer|key|radar)$/.test(given) ? null : "a line is timer, key or radar";
  }
  if (form === "then") {
    const isThen = given === "end" || (given.startsWith("sleep ") && PARTS.A.is(given.slice(6)));
    return isThen ? null : 'it is "end", or "sleep" and an address';
  }
  return /^[^\u0000-\u001f\u007f]*$/.test(given) ? null : "it stands on one line";
}

/** Where something is in a document. */
class Place {
  /** @param {number} line @param {string} path */
  constructor(line, path) {
    this.line = line;
    this.path = path;
  }

  /** @param {string} reason @returns {never} */
  refuse(reason) {
    throw new Unread(this.line, this.path === "" ? reason : `${this.path}: ${reason}`);
  }

  /** @param {string} step */
  below(step) {
    return new Place(this.line, this.path === "" ? step : `${this.path}, ${step}`);
  }
}

/** @param {any} given @param {Key} row @param {Place} place */
function integerOf(given, row, place) {
  const between = `${row.low} ${row.high === BigInt(row.low) + 1n ? "or" : "to"} ${row.high}`;
  if (typeof given !== "bigint" || given < BigInt(row.low) || given > row.high) {
    place.refuse(`expected an integer, ${between}`);
  }
  return row.high > 2n ** 53n ? given : Number(given);
}

/** @param {any} given @param {Key} row @param {Place} place @returns {string} */
function textOf(given, row, place) {
  if (typeof given !== "string") place.refuse("expected a string");
  const fault = textFault(row.form, given);
  if (fault !== null) place.refuse(`${JSON.stringify(given)}: ${fault}`);
  return given;
}

/** @param {any} given @param {Key} row @param {Place} place */
function textsOf(given, row, place) {
  const items = row.kind === "oneOrMore" && typeof given === "string" ? [given] : given;
  if (!Array.isArray(items)) place.refuse("expected an array of strings");
  if (items.length < row.low || BigInt(items.length) > row.high) {
    const many = row.low === Number(row.high) ? row.low : `${row.low} to ${row.high}`;
    place.refuse(`expected ${many} strings`);
  }
  const isOne = row.kind === "oneOrMore" && items.length === 1;
  const lines = linesOf.get(items);
  return items.map((/** @type {any} */ it, /** @type {number} */ k) => {
    const here = new Place(lines?.[k] ?? place.line, place.path);
    const isStep = row.form === "then" && k + 1 < items.length;
    const its = isStep ? { ...row, form: "step" } : row;
    const what = row.form === "then" ? "request" : row.form;
    return textOf(it, its, isOne ? here : here.below(`${what} ${k + 1}`));
  });
}

/** @param {any} given @param {Key} row @param {Place} place */
function tablesOf(given, row, place) {
  const isTables = Array.isArray(given) && given.every((it) => it.keys instanceof Map);
  if (!isTables) place.refuse(`expected an array of tables, each below its line [[${place.path}]]`);
  if (BigInt(given.length) > row.high) place.refuse(`expected at most ${row.high} tables`);
  return given.map((/** @type {any} */ it, /** @type {number} */ k) =>
    tableOf(it, row.form, new Place(it.line, `${place.path} ${k + 1}`)));
}

/** What a job costs: always as much, or by lot. @param {any} given @param {Place} place */
function costOf(given, place) {
  if (given?.keys instanceof Map) {
    const cost = tableOf(given, "cost", place);
    if (cost.from > cost.to) place.refuse('"from" may not be above "to"');
    return cost;
  }
  if (typeof given !== "bigint") {
    place.refuse('expected an integer, 1 to 1000000, or a table of "from" and "to"');
  }
  return integerOf(given, KEYS.job.cost, place);
}

/** The value of a key. @param {any} given @param {Key} row @param {Place} place */
function valueOf(given, row, place) {
  switch (row.kind) {
    case "integer": return integerOf(given, row, place);
    case "text": return textOf(given, row, place);
    case "tables": return tablesOf(given, row, place);
    case "steal":
      return typeof given === "bigint" ? integerOf(given, row, place)
        : tablesOf(given, { ...row, form: "steal" }, place);
    case "cost": return costOf(given, place);
    case "flag": return typeof given === "boolean" ? given : place.refuse("expected true or false");
    default: return textsOf(given, row, place);
  }
}

/** Words of which another one may be the key that is meant. */
const ALIKE = [["do", "action", "actions", "then", "request", "requests"], ["at", "time", "start", "offset", "address", "when"],
  ["every", "period", "interval"], ["cost", "wcet", "needs", "duration"], ["seconds", "duration", "length"], ["until", "end", "to"],
  ["deadline", "due"], ["steal", "stolen"], ["percent", "steal", "stolen"]];

/** What a table of each level is called in a sentence. @type {Record<string, string>} */
const CALLED = { task: "a task", namedTask: "a task", phase: "a phase", namedPhase: "a phase", worker: "a worker", device: "a device", job: "a job",
  event: "an event", steal: "a row of stolen time", cost: "a cost" };

/** What is said of a key that is unknown in a table of this level. @param {string} name @param {string} level */
function aboutKey(name, level) {
  const isIn = (/** @type {"bench" | "scenario"} */ other) => Object.hasOwn(LEVELS[other], name);
  const keys = Object.keys(LEVELS[/** @type {keyof typeof LEVELS} */ (level)]);
  const meant = nearest(name, keys) ?? keys.find((key) => ALIKE.some((it) => it.includes(key) && it.includes(name)));
  if (level === "bench" && isIn("scenario")) return '; a scenario has it, which has "seconds" too';
  if (level === "scenario" && isIn("bench")) return "; a bench has it, but no scenario";
  if (level !== "bench" && level !== "scenario" && (isIn("bench") || isIn("scenario"))) {
    return "; it belongs above all tables";
  }
  const where = level in CALLED ? ` in ${CALLED[level]}` : "";
  return `${where}${meant === undefined ? "." : `; did you mean "${meant}"?`} Known: ${keys.join(", ")}`;
}

/** Whether a document is a scenario: it has seconds, or a key that nearly is that. @param {import("./toml.js").Table} table */
function isScenario({ keys }) {
  return [...keys.keys()].some((it) => it === "seconds"
    || (!Object.hasOwn(LEVELS.bench, it) && nearest(it, ["seconds"]) !== undefined));
}

/** The values of a table of this level. @param {import("./toml.js").Table} table @param {string} level @param {Place} place */
function tableOf(table, level, place) {
  /** @type {Record<string, Key>} */
  const rows = LEVELS[/** @type {keyof typeof LEVELS} */ (level)];
  /** @type {any} */
  const values = {};
  for (const [name, given] of table.keys) {
    const line = table.lines.get(name) ?? place.line;
    const here = new Place(line, place.path === "" ? name : `${place.path}, ${name}`);
    if (!Object.hasOwn(rows, name)) {
      new Place(line, place.path).refuse(`unknown key ${JSON.stringify(name)}${aboutKey(name, level)}`);
    }
    values[name] = valueOf(given, rows[name], here);
  }
  const missing = Object.keys(rows).find((it) => rows[it].required && !(it in values));
  if (missing !== undefined) place.refuse(`the key "${missing}" is missing`);
  return values;
}

/** A bench that asks for nothing. */
export function emptyBench() {
  return /** @type {Bench} */ ({ limit: 1000, allowance: 1_000_000n, key: ["nothing"], radar: ["nothing"], script: [],
    task: [], phase: [], worker: [], device: [], steal: 0, job: [], event: [] });
}

/** What a document has whose keys are left out: a scenario has room for all that its clock asks. @param {string} level */
export function leftOut(level) {
  const ample = { limit: Number(KEYS.bench.limit.high), allowance: KEYS.bench.allowance.high };
  return { ...emptyBench(), ...(level === "scenario" ? ample : {}) };
}

/** Each row of stolen time ends after it begins, and before it comes again; and those that come only once may not overlap. @param {Bench} bench */
function checkSteal({ steal }) {
  if (typeof steal === "number") return;
  const place = new Place(1, "steal");
  for (const { from, to, every = to } of steal) {
    if (to <= from) place.refuse("a row ends after it begins");
    if (every < to - from) place.refuse("a row comes again after it ends");
  }
  const { once } = partsOf(steal);
  if (once.some((it, k) => k > 0 && it.from < once[k - 1].to)) place.refuse("two rows overlap");
}

/** A cost by lot needs a seed. @param {Bench} bench */
function checkLots({ seed, job }) {
  const byLot = job.findIndex(({ cost }) => typeof cost !== "number" && cost.from < cost.to);
  if (seed === undefined && byLot !== -1) {
    new Place(1, `job ${byLot + 1}, cost`)
      .refuse('a cost "from" .. "to" needs the key "seed" in the scenario');
  }
}

/** The alarms from which an event may count, where no event above it has that name. */
const ALARMS = new Set(["1201", "1202", "1203"]);

/** Whether what an event names is there: one of these events above it, or an alarm. @param {string | undefined} after @param {EventRow[]} above */
export function hasBase(after, above) {
  return after === undefined || above.some((it) => it.name === after) || ALARMS.has(after);
}

/** An event counts from one above it, or from an alarm. @param {Bench} bench */
function checkAfter({ event }) {
  const none = event.findIndex(({ after }, k) => !hasBase(after, event.slice(0, k)));
  if (none !== -1) {
    new Place(1, `event ${none + 1}, after`).refuse("no event above this one has that name");
  }
}

/** The bench or scenario of a document. @param {string} document @returns {Bench} */
export function readBench(document) {
  if (new TextEncoder().encode(document).length > MOST_BYTES) {
    throw new Unread(1, `the document has more than ${MOST_BYTES} bytes`);
  }
  if (/\p{Surrogate}/u.test(document)) throw new Unread(1, "the document isn't text");
  const table = readToml(document);
  const level = isScenario(table) ? "scenario" : "bench";
  const bench = { ...leftOut(level), ...tableOf(table, level, new Place(1, "")) };
  checkSteal(bench);
  checkLots(bench);
  checkAfter(bench);
  return bench;
}

/** Each request of a bench, in the order of `serial`, and who asks for it: those of callers that never stop once. @param {Bench} bench @returns {Generator<[string, string]>} */
export function* requestsOf(bench) {
  for (const line of bench.script) yield [line, "the script"];
  for (const [k, { script }] of bench.worker.entries()) {
    for (const line of script) yield [line, `worker ${k + 1}`];
  }
  for (const [k, { line, pulses = 1 }] of bench.device.entries()) {
    const lines = pulseOf(line, bench);
    for (let n = 0; n < pulses && lines.length > 0; n++) {
      for (const one of lines) yield [one, `device ${k + 1}, ${line}`];
    }
  }
}

/** How many requests a bench asks for. @param {Bench} bench */
export function countOf(bench) {
  const { script, worker, device } = bench;
  const pulses = device.map((it) => (it.pulses ?? 1) * pulseOf(it.line, bench).length);
  return [script.length, ...worker.map((it) => it.script.length), ...pulses]
    .reduce((sum, it) => sum + it, 0);
}

/** @param {string} given */
function quoted(given) {
  return `"${given.replace(/[\\"]/g, "\\$&")}"`;
}

/** Texts as an array, several in a line. @param {string[]} items */
function arrayText(items) {
  const lines = [];
  let line = "   ";
  for (const it of items.map(quoted)) {
    if (line.length + it.length > 96) {
      lines.push(line);
      line = "   ";
    }
    line += ` ${it},`;
  }
  if (items.length < 5) return `[${items.map(quoted).join(", ")}]`;
  return `[\n${[...lines, line].join("\n")}\n]`;
}

/** A table in one line. @param {any} table @returns {string} */
function inlineText(table) {
  const pairs = Object.entries(table).map(([name, one]) => `${name} = ${valueText(one)}`);
  return `{ ${pairs.join(", ")} }`;
}

/** A value as a document has it. @param {any} value @returns {string} */
function valueText(value) {
  if (["number", "bigint", "boolean"].includes(typeof value)) return String(value);
  if (typeof value === "string") return quoted(value);
  if (!Array.isArray(value)) return inlineText(value);
  if (value.length > 0 && typeof value[0] === "object") {
    return `[${value.map(inlineText).join(", ")}]`;
  }
  return arrayText(value);
}

/** The document of a bench: keys that are as if they were missing are left out. @param {Bench} bench */
export function writeBench(bench) {
  const kind = bench.seconds === undefined ? "bench" : "scenario";
  const level = LEVELS[kind];
  const plain = /** @type {any} */ (leftOut(kind));
  /** @type {any} */
  const given = bench;
  const lines = [];
  const tableLines = [];
  for (const [name, row] of Object.entries(level)) {
    const value = given[name];
    if (value === undefined) continue;
    if (row.kind !== "tables") {
      const isPlain = plain[name] !== undefined && valueText(value) === valueText(plain[name]);
      if (isPlain) continue;
      const isOne = row.kind === "oneOrMore" && value.length === 1;
      lines.push(`${name} = ${valueText(isOne ? value[0] : value)}`);
      continue;
    }
    for (const it of value) {
      tableLines.push("", `[[${name}]]`);
      for (const [field, one] of Object.entries(it)) {
        if (one === undefined || one === "") continue;
        const single = Array.isArray(one) && one.length === 1 && field !== "script";
        tableLines.push(`${field} = ${valueText(single ? one[0] : one)}`);
      }
    }
  }
  return [...lines, ...tableLines, ""].join("\n");
}
