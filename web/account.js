/**
 * What is said of a row, in sentences: at an alarm which table was full, what begins again, and who
 * holds the table since when; otherwise what changed. A sentence is a list of pieces: texts, links,
 * and prose in which code is between backquotes.
 *
 * @typedef {{ text: string, row?: number, part?: string, isProse?: boolean }} Link
 * @typedef {string | Link} Piece
 * @typedef {{ heading: string, lines: Piece[][], isAlarm: boolean }} Account
 * @typedef {import("./run.js").Shown} Shown
 */
import { Kind } from "../libagc/js/machine.js";
import { actionOf } from "./because.js";
import { alarmsOf } from "./drawing-words.js";
import { missedText } from "./jobs.js";
import { LOG_FULL, SPENT } from "./run.js";
import { PLACES, counted, octal, seconds, visible } from "./words.js";

/** What is full at each alarm, where that table is, and what comes before the list of those in it. */
const TABLES = {
  0o1201: { text: "All five VAC areas are owned", part: "areas", more: ". These hold them:" },
  0o1202: { text: "A job is in each core set", part: "sets", more: ". These hold them:" },
  0o1203: { text: "Nine tasks wait", part: "tasks", more: ":" },
};

/** At most so many percent of idle time are hardly any; and how many letters of a name are shown in a cell. */
const [HARDLY, MOST_LETTERS] = [2, 24];

/** A number or an address in a cell, and after it the name, if there is one, without blanks. @param {string} number @param {string | undefined} name */
function joined(number, name) {
  if (name === undefined) return number;
  return `${number}:${[...name].slice(0, MOST_LETTERS).join("").replaceAll(" ", "_")}`;
}

/** An address in a sentence: after its name, if there is one. @param {string} address @param {string | undefined} name */
function named(address, name) {
  return name === undefined ? address : `${name} (${address})`;
}

/** What names a scenario has: those of jobs by their addresses, those of tasks by their rows. */
export class Names {
  /** @param {import("./bench.js").Bench} bench */
  constructor({ job, task }) {
    /** @type {Map<string, string>} */
    this.jobs = new Map();
    /** @type {Map<string, string>} */
    this.tasks = new Map();
    for (const it of job) if (it.name !== undefined) this.jobs.set(it.at, visible(it.name));
    for (const it of task) {
      if (it.name !== undefined) this.tasks.set(`${it.at} ${it.bank}`, visible(it.name));
    }
  }

  /** What a job at this address is called. @param {number} at */
  job(at) {
    return this.jobs.get(octal(at, 5));
  }

  /** What a task is called. @param {{ at: number, bank: number }} task */
  task({ at, bank }) {
    return this.tasks.get(`${octal(at, 5)} ${octal(bank, 5)}`);
  }

  /** Where a job is, in a sentence. @param {number} at */
  ofJob(at) {
    return named(octal(at, 5), this.job(at));
  }

  /** A task in a sentence. @param {{ at: number, bank: number }} task */
  ofTask(task) {
    return named(octal(task.at, 5), this.task(task));
  }

  /** A job in a cell. @param {{ number: number, at: number }} job */
  jobCell({ number, at }) {
    return joined(String(number), this.job(at));
  }

  /** A task in a cell. @param {{ at: number, bank: number }} task */
  taskCell(task) {
    return joined(octal(task.at, 5), this.task(task));
  }
}

/** Since when something is there: a link to its request, with the time of that. @param {import("./run.js").Run} run @param {number} since twice the row, and 1 more where an era began with it @returns {Piece[]} */
export function sinceOf(run, since) {
  const row = Math.floor(since / 2);
  const beginning = run.bench.power === undefined ? "the beginning" : "power-up";
  if (row === 0) return [", since ", { text: beginning, row }];
  const time = run.ticksAt(row) > 0 ? ` (${seconds(run.ticksAt(row))})` : "";
  const words = since % 2 === 1 ? ", since the restart of " : ", since ";
  return [words, { text: `request ${row}`, row }, time];
}

/** The action of a task that raised an alarm in a tick. @param {import("./run.js").Run} run @param {Shown} shown @param {Names} names @returns {Piece[][]} */
function raisedBy(run, shown, names) {
  const action = actionOf(run, shown);
  if (action === null) return [];
  const { last, isOne, number, line } = action;
  const told = `${isOne ? "" : `action ${number} of `}the task ${names.ofTask(last)}${line === "" ? "" : `: ${line}`}`;
  return [[`It was asked in the tick of request ${shown.row}, by ${told}.`]];
}

/** Who holds the table that was full. @param {import("./run.js").Run} run @param {Shown} shown @param {Names} names @returns {Piece[][]} */
function holders(run, { step, scene, jobsSince, tasksSince }, names) {
  if (step === null) return [];
  if (step.number === 0o1203) {
    return scene.tasks.map((it, k) =>
      [`place ${k + 1}: task ${names.ofTask(it)}, in ${seconds(it.left)}`,
        ...sinceOf(run, tasksSince[k])]);
  }
  const lines = scene.sets.map((job, k) => {
    if (job === null) return [];
    const area = job.area === 0 ? "" : `, area ${job.area}`;
    const at = job.asleep ? `, asleep at ${names.ofJob(job.at)}` : `, at ${names.ofJob(job.at)}`;
    const told = `set ${k}: job ${job.number}, priority ${octal(job.priority, 2)}${at}${area}`;
    return [told, ...sinceOf(run, jobsSince[k])];
  });
  const isHolder = scene.sets.map((job) => step.number === 0o1202 || (job?.area ?? 0) > 0);
  return lines.filter((it, k) => it.length > 0 && isHolder[k]);
}

/** How many jobs began and ended in the era that an alarm ends, and whether time was left. @param {import("./run.js").Run} run @param {Shown} shown @returns {Piece[]} */
function balance(run, { row, era, begun, ended, step }) {
  if (step === null || step.number === 0o1203) return [];
  const since = era === 0 ? "the beginning" : `the restart of request ${era}`;
  const jobs = `${counted(begun, "job")} began and ${ended} ended`;
  if (run.bench.seconds === undefined) return [`Since ${since} ${jobs}. `];
  const idle = run.idlePercent(era, row);
  const end = idle <= HARDLY ? "There was hardly any time to end more. " : "";
  return [`Since ${since} ${jobs}, and the computer was idle ${idle} % of the time. ${end}`];
}

/** The jobs and tasks that are there as an era begins. @param {import("./run.js").Scene} scene @param {Names} names */
function everyone({ sets, tasks }, names) {
  return [
    ...sets.flatMap((job) =>
      (job === null ? [] : [`job ${job.number}, priority ${octal(job.priority, 2)}, at ${names.ofJob(job.at)}`])),
    ...tasks.map((it) => `task ${names.ofTask(it)} in ${seconds(it.left)}`),
  ];
}

/** What begins again with an era. @param {import("./run.js").Scene} after @param {Names} names @returns {Piece[][]} */
function beginsAgain(after, names) {
  const all = everyone(after, names);
  const phases = after.phases.join(" ");
  return [[`All jobs and tasks are gone. By the phases ${phases} `
    + (all.length === 0 ? "nothing begins again." : `these begin again: ${all.join("; ")}.`)]];
}

/** What is there after the restart that a row ended with: each job and task on its own line. @param {Shown} shown @param {Names} names @returns {Account} */
function accountOfRestart({ line, scene }, names) {
  const all = everyone(scene, names);
  const lines = [
    [`All jobs and tasks from before are gone. The phases are ${scene.phases.join(" ")}.`],
    [all.length === 0 ? "Nothing begins again." : "These begin again:"],
    ...all.map((it) => [it]),
  ];
  return { heading: `After the ${nameOfRestart(line)}`, lines, isAlarm: false };
}

/** What a request that begins an era is called. @param {string} line */
export function nameOfRestart(line) {
  return line === "fresh" ? "fresh start" : "restart";
}

/** What is to be said of a bench whose threads could take turns in several orders. @param {import("./bench.js").Bench} bench */
export function orderOf({ worker, device }) {
  const names = [...worker.map((_, k) => `worker ${k + 1}`),
    ...device.map(({ line }, k) => `device ${k + 1} (${line})`)];
  const [first, ...others] = names;
  const once = worker.some((it) => it.repeat) || device.some((it) => it.pulses === undefined)
    ? "Workers that repeat and devices without pulses are run once here." : "";
  return others.length === 0 ? once : `The threads may take turns in many orders. This is only one of them: first all requests `
    + `of ${first}, ${others.map((it) => `then all of ${it}`).join(", ")}. ${once}`.trim();
}

/** Why the phase words that were found as power came back can't be trusted. @param {string[]} power @returns {Piece[][]} */
function brokenPairs(power) {
  const lines = [];
  for (let k = 0; k < 6; k++) {
    const [turned, plain] = power.slice(2 * k, 2 * k + 2).map((it) => parseInt(it, 8));
    if (turned !== 0o77777 - plain) {
      const pair = `${octal(turned, 5)} is not the complement of ${octal(plain, 5)}`;
      lines.push([`group ${k + 1}: ${pair}`]);
    } else if (plain > 127) {
      lines.push([`group ${k + 1}: phase ${plain} is above 127`]);
    }
  }
  return lines;
}

/** What comes of a run in which time passes: the deadlines that are missed, and its alarms. @param {import("./run.js").Run} run @param {number} count @param {Names} names */
export function cameText(run, count, names) {
  const [missed, alarms] = [missedText(run, count, names), alarmsOf(run, count)];
  const none = `No alarm ${run.isFilling ? "so far" : "comes"} in ${run.bench.seconds}\u00a0s${missed === "" && !run.isFilling && run.bench.job.some((it) => it.deadline !== undefined) ? ", and no deadline is missed" : ""}.`;
  return `${missed} ${alarms === "no alarm" ? none : `${alarms[0].toUpperCase()}${alarms.slice(1)}.`}`.trim();
}

/** The beginning of a run, where its answer is shown. @param {import("./run.js").Run} run @param {Shown} shown @param {Names} names @param {Given} given @returns {Account} */
function accountOfBeginning(run, shown, names, { about, count }) {
  const { power } = run.bench;
  const said = about === "" ? [] : [[{ text: about, isProse: true }]];
  const order = count > 0 && run.isOpened ? orderOf(run.bench) : "";
  const isTimed = run.bench.seconds !== undefined;
  const follow = count === 0 ? [] : [isTimed ? [{ text: cameText(run, count, names), isProse: true }]
    : [`${counted(count, "request")} ${count === 1 ? "follows" : "follow"}, with ${alarmsOf(run, count)}.`], ...(order === "" ? [] : [[order]])];
  if (power === undefined) {
    const asked = count === 0 ? "Nothing has been asked" : "No request has been served yet";
    const isNew = count === 0 && run.source.document === "" && about === "";
    const first = isNew ? [["Say above which jobs come again and again, and press Run. Or ask for one request after the other, below: the tables show what it does."]] : [];
    const lines = about !== "" ? said
      : [...first, [`${asked}: there is no job, no task waits, and all phases are 0.`]];
    return { heading: "The beginning", lines: isTimed && about === "" ? [...follow, ...lines] : [...lines, ...follow], isAlarm: false };
  }
  const isBroken = shown.reply.startsWith("alarm");
  const lines = isBroken
    ? [["No phase can be trusted, and nothing begins again."], ...brokenPairs(power)]
    : beginsAgain(shown.scene, names);
  const heading = isBroken ? "Alarm 1107: why" : "Power is back";
  return { heading, lines: [...said, ...lines, ...follow], isAlarm: isBroken };
}

/** The beginning of an exercise whose answer is hidden. @param {import("./run.js").Run} run @returns {Account} */
function accountOfQuestion({ bench }) {
  const [heading, ...lines] = bench.power !== undefined ? ["Power comes back", "Power comes back, and the computer looks at the phase words that are in the document.", "What it does isn't shown yet."]
    : ["The beginning", "No request has been served yet: there is no job, no task waits, and all phases are 0.", "Next serves one request after the other."];
  return { heading, lines: lines.map((it) => [it]), isAlarm: false };
}

/** @param {import("./run.js").Run} run @param {Shown} shown @param {Names} names @returns {Account} */
function accountOfAlarm(run, shown, names) {
  const number = /** @type {keyof typeof TABLES} */ (shown.step?.number ?? 0);
  const table = TABLES[number];
  const { running } = shown.scene;
  const lines = [
    [{ text: table.text, part: table.part }, table.more],
    ...holders(run, shown, names),
    [...balance(run, shown), running === 0 ? "No job was running." : `Job ${running} ran.`],
    ...raisedBy(run, shown, names),
    ...(shown.after === null ? []
      : [["The tables are as they were when the alarm came."], ...beginsAgain(shown.after, names)]),
  ];
  return { heading: `Alarm ${octal(number, 4)}: why`, lines, isAlarm: true };
}

/** Which job a request ended, and what that freed. @param {Shown} shown */
function endedSentence({ line, before }) {
  const job = before?.sets.find((it) => it !== null && it.number === before.running);
  if (line !== "end" || !job) return "";
  const free = job.area > 0 ? "its core set and its VAC area are free" : "its core set is free";
  return `Job ${job.number} ended: ${free}. `;
}

/** When a task that was listed is due, and how full the Waitlist is. @param {Shown} shown @param {Names} names */
function listedSentence({ line, scene }, names) {
  const [, delay, ...words] = line.split(" ");
  const [at, bank] = words.map((it) => parseInt(it, 8));
  const count = scene.tasks.length;
  return `Task ${names.ofTask({ at, bank })} is due in ${seconds(Number(delay))}; ${count} of ${PLACES} `
    + `places ${count === 1 ? "is" : "are"} in use.`;
}

/** What a phase means from now on. @param {import("./run.js").Run} run @param {Shown} shown */
function phasedSentence({ bench }, { line }) {
  const [group, phase] = line.split(" ").slice(1).map(Number);
  if (phase === 0) return `Group ${group} is in phase 0: after a restart nothing of it begins again.`;
  const found = bench.phase.find((it) => it.group === group && it.phase === phase);
  const what = [found?.job, found?.task].filter((it) => it !== undefined).map((it) => `“${it}”`);
  return `Group ${group} is in phase ${phase}. After a restart ${what.length === 0
    ? "nothing of it begins again: the document has no row of this phase."
    : `${what.join(" and ")} ${what.length === 1 ? "is" : "are"} asked for again.`}`;
}

/** Where a word was stored. @param {Shown} shown */
function storedSentence({ line, scene }) {
  const [, place, word] = line.split(" ");
  return `Work word ${place} of job ${scene.running} is ${word} now: the job keeps it in its core set.`;
}

/** What else a reply says. @param {import("./run.js").Run} run @param {Shown} shown @param {Names} names @returns {Piece[][]} */
function replySentence(run, shown, names) {
  const { step, kind, scene } = shown;
  const runner = scene.sets[0];
  switch (kind) {
    case SPENT: return [["The machine serves no more: its allowance is used up."]];
    case LOG_FULL:
      return [[`The log is full: it holds ${counted(run.bench.limit, "request")} of this era. Only `
        + "restart and fresh are served now. The document may have a greater limit."]];
    case Kind.ESTABLISHED: {
      const k = scene.sets.findIndex((it) => it?.number === step?.number);
      const job = scene.sets[k];
      return [[`Job ${step?.number} is established at ${names.ofJob(job?.at ?? 0)}, in core set `
        + `${k}${job?.area ? ` with VAC area ${job.area}` : ""}. `
        + (scene.running === step?.number ? "It runs." : "It waits.")]];
    }
    case Kind.NO_JOB: return [["No job is running, so there is none to act on."]];
    case Kind.NO_SLEEPER: return [["No job sleeps at that address."]];
    case Kind.ROUSED: return [[`Job ${step?.number} is awake.`]];
    case Kind.LISTED: return [[listedSentence(shown, names)]];
    case Kind.PHASED: return [[phasedSentence(run, shown)]];
    case Kind.STORED: return [[storedSentence(shown)]];
    case Kind.IDLE: return [[`${endedSentence(shown)}No job is left that is awake.`]];
    case Kind.LEFT: case Kind.RUNS: {
      const ended = endedSentence(shown);
      const equals = scene.sets.filter((it) => it !== null && !it.asleep && it.priority === runner?.priority);
      const runs = `Job ${step?.number} runs${ended === "" ? "" : " next"}`;
      return [[`${ended}${runs}${runner ? `, at ${names.ofJob(runner.at)}` : ""}.`], ...(ended !== "" && equals.length > 1 ? [["Of equal priority, the lowest number goes first."]] : [])];
    }
    default: return [];
  }
}

/** What fired, and what came of it. @param {Shown} shown @param {Names} names @returns {Piece[][]} */
function firedSentences({ step, scene, before }, names) {
  if (step === null || step.fired.length === 0) return [];
  const had = new Set(before?.sets.map((it) => it?.number ?? 0));
  const jobs = scene.sets.filter((it) => it !== null && !had.has(it.number))
    .map((it) => `Job ${it?.number} is established at ${names.ofJob(it?.at ?? 0)}.`);
  return [[`Due: the task ${step.fired.map((it) => names.ofTask(it)).join(", then ")}.`],
    ...jobs.map((it) => [it])];
}

/**
 * What the account of the beginning needs to know: what the document says of itself, how many rows
 * follow, and whether these are hidden.
 * @typedef {{ about: string, count: number, isHidden: boolean }} Given
 */

/** The account of a row. @param {import("./run.js").Run} run @param {Shown} shown @param {Names} names @param {Given} given @returns {Account} */
export function accountOf(run, shown, names, given = { about: "", count: 0, isHidden: false }) {
  if (shown.row === 0 && given.isHidden) return accountOfQuestion(run);
  if (shown.row === 0) return accountOfBeginning(run, shown, names, given);
  if (shown.isAfter) return accountOfRestart(shown, names);
  if (shown.step !== null && shown.step.alarm !== 0) return accountOfAlarm(run, shown, names);
  const lines = [...replySentence(run, shown, names), ...firedSentences(shown, names)];
  if (shown.after !== null) lines.push(...beginsAgain(shown.after, names));
  if (lines.length === 0 && shown.kind !== Kind.TICKED) lines.push(["Done."]);
  return { heading: "What happens", lines, isAlarm: false };
}

/** Names of jobs in a sentence, with what they do: `two SERVICERs and display wait`. @param {string[]} names @param {string} what */
function clauseOf(names, what) {
  const told = [...new Set(names)].map((name) => {
    const count = names.filter((it) => it === name).length;
    return count === 1 ? name : `${count} ${name}s`;
  });
  const all = told.length < 2 ? told.join() : `${told.slice(0, -1).join(", ")} and ${told.at(-1)}`;
  return names.length === 0 ? [] : [`${all} ${what}${names.length === 1 ? "s" : ""}`];
}

/** How things stand after a row: who runs, waits and sleeps, for how many more there is room, and what is due next. @param {Shown} shown @param {Names} names */
export function standingOf({ scene, jobsFrom }, names) {
  const { sets, areas, tasks, running } = scene;
  const jobs = sets.flatMap((job, k) => (job === null ? [] : [{ ...job, name: names.job(jobsFrom[k]) ?? `job ${job.number}` }]));
  const namesOf = (/** @type {boolean} */ asleep) => jobs.filter((it) => it.number !== running && it.asleep === asleep).map((it) => it.name);
  const runner = jobs.find((it) => it.number === running);
  const clauses = [runner === undefined ? "No job runs" : `${runner.name} runs`, ...clauseOf(namesOf(false), "wait"), ...clauseOf(namesOf(true), "sleep")];
  const free = sets.length - jobs.length;
  const room = free === 0 ? "No core set is free: with one more job alarm 1202 comes."
    : !areas.includes(0) ? "All five VAC areas are owned: with one more job that needs one alarm 1201 comes." : `There is room for ${counted(free, "more job")}.`;
  const [next] = tasks;
  const due = next === undefined ? "" : ` ${names.task(next) ?? `The task ${octal(next.at, 5)}`} is due in ${seconds(next.left)}.`;
  const told = clauses.join(", ");
  return `${told[0].toUpperCase()}${told.slice(1)}. ${room}${due}`;
}

/** A time of a mission, in hours, minutes and seconds. @param {number} time */
function missionTime(time) {
  const parts = [Math.floor(time / 3600), Math.floor(time / 60) % 60, Math.floor(time) % 60];
  return parts.map((it) => String(it).padStart(2, "0")).join(":");
}

/** The second of a mission at which a document's time begins, if its comment says it so: `102:33:05 of the mission`. @param {string} about */
export function missionOf(about) {
  const found = /([0-9]+):([0-9]{2}):([0-9]{2}) of the mission/.exec(about);
  return found === null ? null : Number(found[1]) * 3600 + Number(found[2]) * 60 + Number(found[3]);
}

/**
 * A row in a sentence, as the live region says it. With a restart its jobs are gone: so they ran.
 * @param {Shown} shown
 * @param {number} count
 * @param {Names} names
 * @param {number | null} mission the second of a mission at which its time begins
 */
export function sentenceOf(shown, count, names, mission = null) {
  const { running, sets } = shown.scene;
  const where = shown.row === 0 ? "The beginning" : `Request ${shown.row} of ${count}`;
  const at = `at ${seconds(shown.ticks)}${mission === null ? "" : ` (${missionTime(mission + shown.ticks / 100)})`}`;
  const job = sets[0];
  const name = job === null ? undefined : names.job(job.at);
  const isOver = shown.after !== null && !shown.isAfter;
  const runs = running === 0 ? `No job ${isOver ? "was" : "is"} running.`
    : `Job ${running} ${isOver ? "ran" : "runs"}${name === undefined ? "" : `: ${name}`}.`;
  const restart = `After the ${nameOfRestart(shown.line)} of request ${shown.row}`;
  if (shown.isAfter) return `${restart}, ${at}. ${runs}`;
  return `${where}, ${at}: ${shown.line}. Reply: ${shown.reply}. ${runs}`;
}
