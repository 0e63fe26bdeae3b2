/**
 * What can be done, by name: of the state that is, and what is given, each action makes what is
 * another then. Keys, buttons and what may be tried go by these names.
 *
 * @typedef {import("./state.js").State} State
 * @typedef {import("./bench.js").Bench} Bench
 * @typedef {import("./run.js").Run} Run
 */
import { scenarioOf } from "./build.js";
import { countOf, emptyBench, hasBase, readBench, requestsOf } from "./bench.js";
import { fillOn, nextText, passOne, runOf, runWith, speedOf, step } from "./clock.js";
import { told as toldOf } from "./examples.js";
import { documentOfScript, isScript } from "./forgive.js";
import { firstSentence, questionOf, withoutQuestion } from "./files.js";
import { goingOn, left, stepped, NOTHING_DONE } from "./history.js";
import { nextMissed } from "./jobs.js";
import { judged } from "./predict.js";
import { MOST_ASKED, NO_SOURCE, STRETCH } from "./run.js";
import { scaleOf, shownOf } from "./state.js";
import { GUESSES } from "./guesses.js";
import { counted, visible } from "./words.js";

/** How much closer one step zooms, and what is seen around an alarm, in ticks and in requests. */
const STEP = 1.5;
const AROUND = { time: [1100, 350], rows: [22, 7] };

/** How much of a run is there at once as it is opened, in ticks: what is left comes behind the first picture. */
export const SOON = 3600;

/** The last step of the tour, and the one in which its guesses begin. */
const [LAST_STEP, GUESSED] = [5, 3];

/** More ticks are many; and how much is seen of a long run whose first alarm comes soon: up to that, and some more. */
const [LONG, BEYOND] = [9000, 1.15];

/** The bench of `New`: so much may be asked of it that its clock runs for an hour and more. */
export const NEW_BENCH = Object.freeze({ ...emptyBench(), limit: 1_000_000 });

const NOBODY = Object.freeze({ run: null, at: -1, text: "" });
const UNMOVED = Object.freeze({ slider: "", run: null, at: 0 });

/** The state in which the page begins. @param {any} given */
export function firstState(given) {
  return {
    run: runOf(NEW_BENCH, []), count: 0, at: 0, isAfter: false, seen: null,
    clock: { isRunning: false, speed: null }, dialog: null, touched: null,
    opened: [], swept: ["Stolen time"], selection: null, built: null, isEditing: false, isProjected: false, isEmbedded: false, before: null,
    hidden: [], predicted: [], history: NOTHING_DONE, moved: UNMOVED, edited: null, note: NOBODY, said: NOBODY,
    tour: { step: 0, left: 0, tried: [] }, ...given,
  };
}

/** @param {State} s */
function stopped(s) {
  return s.clock.isRunning ? { ...s.clock, isRunning: false } : s.clock;
}

/** A note beside the row that is shown. @param {State} s @param {string} text */
const noted = (s, text) => ({ note: { run: s.run, at: s.at, text } });

/** An answer in place of the sentence. @param {State} s @param {string} text */
const told = (s, text) => ({ clock: stopped(s), said: { run: s.run, at: s.at, text } });

/** What is seen, so that a row is in it. @param {State} s @param {number} at */
function followed(s, at) {
  if (s.seen === null || s.count === 0) return s.seen;
  const scale = scaleOf(s);
  const place = scale.placeOf(at);
  if (scale.partOf(place) >= 0 && scale.partOf(place) <= 1) return s.seen;
  const span = scale.to - scale.from;
  return seenOf(s, (it) => it.see(place - 0.3 * span, place + 0.7 * span));
}

/** What is seen after the scale was changed. @param {State} s @param {(scale: any) => void} change */
function seenOf(s, change) {
  if (s.count === 0) return null;
  const scale = scaleOf(s);
  change(scale);
  return scale.isWhole ? null : { from: scale.from, to: scale.to };
}

/** Goes to a row, which stops the clock. @param {State} s @param {number} row */
function go(s, row) {
  const at = Math.max(0, Math.min(row, s.count));
  const isShown = s.tour.step > 0 && s.tour.step < 3 && s.run.isAlarm(at);
  return { at, isAfter: false, clock: stopped(s), seen: followed(s, at), note: NOBODY, said: NOBODY, ...(isShown ? { tour: { ...s.tour, step: 3 } } : {}) };
}

/** All of a run that is filled in the background, for whoever wants to know its end. @param {State} s @returns {State} */
function whole(s) {
  if (!s.run.isFilling || s.count < s.run.count - STRETCH) return s;
  fillOn(s.run, Infinity);
  return { ...s, count: s.run.count };
}

/** To the next row of which this holds, or the one before. @param {State} s @param {(row: number) => boolean} holds @param {number} by @param {string} what @returns {Partial<State>} */
function seek(s, holds, by, what) {
  for (let row = s.at + by; row > 0 && row <= s.count; row += by) if (holds(row)) return go(s, row);
  const all = whole(s);
  if (all !== s) return { count: all.count, ...seek(all, holds, by, what) };
  return told(s, `There is no ${what} ${by > 0 ? "after" : "before"} this row.`);
}

const shownAgain = { isAfter: false, edited: null, note: NOBODY, said: NOBODY };

/** The tour is left: what was guessed stays, and where it goes on; from its last step it is done. @param {State} s */
const leftTour = ({ tour }) => ({ ...tour, step: 0, left: tour.step === 0 ? tour.left : tour.step % LAST_STEP });

/** Begins with a document's run, or with another one. @param {State} s @param {Bench} bench @param {any} more */
function begun(s, bench, more) {
  const count = countOf(bench);
  if (count > MOST_ASKED) {
    throw new Error(`It asks for ${counted(count, "request")}; this page takes at most ${counted(MOST_ASKED, "request")}.`);
  }
  const run = runOf(bench, requestsOf(bench), { isOpened: true, source: NO_SOURCE, about: "", ...more }, SOON);
  const isTour = s.tour.step > 0 && run.source.exercise === s.run.source.exercise && run.source.document === s.run.source.document;
  return { ...shownAgain, run, count: run.count, at: 0, seen: firstSeen(run), before: null, touched: null, selection: null, dialog: null,
    history: left(s.history, s), moved: UNMOVED, tour: isTour ? s.tour : leftTour(s),
    clock: { ...s.clock, isRunning: false, speed: null } };
}

/** Opens a text: a bench, a scenario, or a script. What isn't one is thrown. @param {State} s @param {string} given @param {string} name @param {any} source @param {string} [called] */
function opened(s, given, name, source = NO_SOURCE, called) {
  const text = isScript(given) ? documentOfScript(given) : given;
  const bench = readBench(text);
  const isOwn = source.question === "";
  const title = called ?? (isOwn ? firstSentence(text) || name : source.question.split("\n")[0]);
  return begun(s, bench, { title: visible(bench.title ?? title), source: { ...source, document: text },
    about: isOwn ? visible(questionOf(text)).replaceAll("\n", " ") : "" });
}

/** An example or an exercise, if there is one of this name. @param {State} s @param {string} name */
function openedKept(s, name) {
  const kept = s.kept.find((it) => it.name === name);
  if (kept === undefined) return noted(s, `There is no example or exercise named “${visible(name).slice(0, 60)}”.`);
  if (kept.kind !== "exercise") return opened(s, kept.text, name, { ...NO_SOURCE, exercise: name }, toldOf(name)?.[0]);
  const source = { ...NO_SOURCE, exercise: name, question: visible(questionOf(kept.text)) };
  const change = opened(s, withoutQuestion(kept.text), name, source);
  return { ...change, hidden: [...s.hidden, change.run.source], predicted: [] };
}

/** What is still hidden once the answer of the exercise that is open is shown. @param {State} s */
function revealed({ hidden, run }) {
  return hidden.includes(run.source) ? hidden.filter((it) => it !== run.source) : hidden;
}

/** What can't be opened is told, in the dialog in which it was given, or else in one of its own. @param {State} s @param {() => Partial<State>} change */
function orTold(s, change) {
  try {
    return change();
  } catch (fault) {
    const text = visible(`This can't be opened. ${/** @type {Error} */ (fault).message}`);
    return { dialog: s.dialog?.name === "open" ? { ...s.dialog, fault: text } : { name: "fault", given: text } };
  }
}

/** The exercise that is open, with another document. @param {State} s @param {string} text */
function changedTo(s, text) {
  const { source } = s.run;
  const kept = s.kept.find((it) => it.name === source.exercise)?.text ?? "";
  return { ...source, document: text, isChanged: text.trim() !== withoutQuestion(kept).trim() };
}

/** Asks a request behind the row that is shown. @param {State} s @param {string} line @param {string} who */
function ask(s, line, who) {
  const run = goingOn(s);
  run.isFilling = false;
  run.ask(line, who);
  const after = s.count - s.at;
  const next = { ...shownAgain, run, count: run.count, at: run.count, clock: stopped(s), history: left(s.history, s) };
  const now = { ...s, ...next, seen: followed({ ...s, ...next }, run.count) };
  const aside = after === 1 ? "The 1 request that followed is set aside; Undo brings it back."
    : `The ${after} requests that followed are set aside; Undo brings them back.`;
  return { ...next, seen: now.seen, ...(after > 0 ? noted(now, aside) : {}) };
}

/**
 * Runs the document with other numbers, and goes to the same time. A slider that is moved on, after nothing
 * else, changes what it changed before; the run before that stays on the chart.
 * @param {State} s @param {any} given @param {string} slider
 */
function change(s, given, slider = "") {
  const { moved } = s;
  const isMoved = slider !== "" && moved.slider === slider && moved.run === s.run && moved.at === s.at;
  const base = isMoved ? { ...s, ...stepped(s.history, s, "done") } : { ...s, before: { run: s.run, count: s.count } };
  const { run: old } = base;
  const time = old.ticksAt(base.at);
  const run = runWith(old, given, Math.max(time, s.seen?.to ?? 0));
  const at = run.bench.seconds === undefined ? Math.min(base.at, run.count) : run.rowAtTime(time, run.count);
  // (the speed stays: it was chosen for what came before)
  const clock = { ...stopped(s), speed: s.clock.speed ?? speedOf(s.run, false) };
  return { ...shownAgain, run, count: run.count, at, before: base.before, hidden: revealed(s), clock, seen: s.seen,
    history: left(base.history, base), moved: { slider, run, at } };
}

/** Runs a document as it is typed: what is typed on, after nothing else, is one step of undo. @param {State} s @param {string} text */
function edited(s, text) {
  const bench = readBench(text);
  if (countOf(bench) > MOST_ASKED) throw new Error("it asks for too many requests");
  const base = s.edited === s.run ? { ...s, ...stepped(s.history, s, "done") } : { ...s, before: { run: s.run, count: s.count } };
  const isOwn = s.run.source.question === "";
  const title = isOwn ? firstSentence(text) || "A run" : s.run.title;
  const source = isOwn ? { ...NO_SOURCE, document: text } : changedTo(s, text);
  const time = s.run.ticksAt(s.at);
  const run = runOf(bench, requestsOf(bench), { isOpened: true, title: visible(bench.title ?? title), source,
    about: isOwn ? visible(questionOf(text)).replaceAll("\n", " ") : s.run.about }, time);
  return { ...shownAgain, run, count: run.count, at: Math.min(run.count, run.rowAtTime(time, run.count)), before: base.before,
    history: left(base.history, base), edited: run, clock: stopped(s) };
}

/** Where the clock goes on: the run to which rows are added, behind the row that is shown. @param {State} s */
function toAddTo(s) {
  const run = goingOn(s);
  run.isFilling = false;
  return { ...shownAgain, run, count: run.count, at: run.count, history: left(s.history, s) };
}

/** The rows that the clock has added are shown. @param {State} s */
function atEnd(s) {
  const { run } = s;
  const now = { ...s, count: run.count, at: run.count };
  const over = nextText(run) === undefined ? told(now, "The time of this run is over.") : {};
  return { ...now, seen: followed(now, run.count), ...over };
}

/** A centisecond, or to the next row that changes more than the time. @param {State} s @param {"tick" | "event"} what */
function pass(s, what) {
  const { run, at, count } = s;
  if (at < count && what === "event") return ACTIONS["change-next"](s);
  if (at < count) {
    const after = run.rowAtTime(run.ticksAt(at) + 2, count);
    return go(s, run.ticksAt(after) < run.ticksAt(at) + 2 ? count : after - 1);
  }
  const now = { ...s, clock: stopped(s), ...toAddTo(s) };
  passOne(now.run, what);
  return atEnd(now);
}

/** The clock has come to a time: to rows that are there already, and then to new ones. It stops at an alarm. @param {State} s @param {number} ticks */
function advance(s, ticks) {
  const { run, at, count } = s;
  if (!s.clock.isRunning) return {};
  if (at < count) {
    const after = run.rowAtTime(ticks + 1, count);
    const to = run.ticksAt(after) > ticks ? after - 1 : after;
    const alarm = run.alarms.find((row) => row > at && row <= to);
    const row = Math.max(at, alarm ?? to);
    const isEnd = row === count && !run.isFilling && nextText(run) === undefined;
    return { at: row, isAfter: false, seen: followed(s, row), ...(alarm !== undefined || isEnd ? { clock: stopped(s) } : {}) };
  }
  if (run.isFilling) return {};
  let [isOver, isAlarm] = [false, false];
  while (!isOver && !isAlarm && (run.head.now < ticks || nextText(run) !== "tick")) {
    isOver = !step(run);
    isAlarm = !isOver && run.isAlarm(run.count);
  }
  const now = { ...s, count: run.count, at: run.count };
  return { count: run.count, at: run.count, isAfter: false, seen: followed(now, run.count), ...(isOver || isAlarm ? { clock: stopped(s) } : {}) };
}

/** To the request or the time that is typed. @param {State} s @param {string} typed */
function goTyped(s, typed) {
  const found = /^([0-9]+(?:\.[0-9]+)?) ?(s?)$/.exec(typed.trim());
  if (found === null) return told(s, "Type the number of a request (20), or a time (38.01 s).");
  if (found[2] === "s" || found[1].includes(".")) return go(s, s.run.rowAtTime(Math.round(Number(found[1]) * 100), s.count));
  const next = go(s, Number(found[1]));
  const isTimed = s.run.bench.seconds !== undefined;
  return { ...next, ...(isTimed ? noted({ ...s, ...next }, `${found[1]} is the number of a request. For a time, type ${found[1]} s.`) : {}) };
}

/** Sees an alarm with what came before it: the next one from here on, or else the first. @param {State} given */
function toAlarm(given) {
  const s = given.run.alarms.length === 0 ? whole(given) : given;
  const rows = s.run.alarms.filter((row) => row <= s.count);
  const row = rows.find((it) => it > s.at) ?? rows.find((it) => it === s.at) ?? rows[0];
  if (row === undefined) return told(s, "No alarm came in this run.");
  return { count: s.count, ...go(s, row), seen: around(s, row) };
}

/** What is seen of a run as it is opened: of a long one whose first alarm comes soon, just up to that. @param {Run} run */
export function firstSeen(run) {
  const [alarm] = run.alarms;
  const isSoon = isLong(run) && alarm !== undefined && run.ticksAt(alarm) <= SOON;
  return isSoon ? { from: 0, to: BEYOND * run.ticksAt(alarm) } : null;
}

/** Whether a run is so long that a row is seen better with what is around it. @param {Run} run */
function isLong({ bench }) {
  return 100 * (bench.seconds ?? 0) > LONG;
}

/** What is seen of a run that is opened at a row. @param {State} s */
export function seenAtFirst(s) {
  if (s.at === 0) return firstSeen(s.run);
  return isLong(s.run) ? around(s, s.at) : null;
}

/** What is seen around a row. @param {State} s @param {number} row */
function around(s, row) {
  const scale = scaleOf(s);
  const [before, after] = scale.isTime ? AROUND.time : AROUND.rows;
  const place = scale.placeOf(row);
  return seenOf(s, (it) => it.see(place - before, place + after));
}

/** Zooms, and keeps this part of the width where it is, or else the row that is shown. @param {State} s @param {number} times @param {number} [part] */
function zoom(s, times, part) {
  const scale = scaleOf(s);
  const at = scale.partOf(scale.placeOf(s.at));
  return { seen: seenOf(s, (it) => it.zoom(times, part ?? (at >= 0 && at <= 1 ? at : 0.5))) };
}

/** Events without one of them, and without those that count from it. @param {Bench["event"]} events @param {any} gone */
export function eventsWithout(events, gone) {
  /** @type {Bench["event"]} */
  const rest = [];
  for (const it of events) if (it !== gone && hasBase(it.after, rest)) rest.push(it);
  return rest;
}

/** Up to which centisecond a guess is seen: the alarm that comes with an eighth set is later. */
const GUESS_SEEN = 4500;

/** A guess of the tour is run: from the beginning of the document itself, so that guesses don't add up. @param {State} s @param {string} name */
function guess(s, name) {
  const first = [s.run, s.before?.run].find((it) => it !== undefined && it.bench === it.given) ?? runWith(s.run, s.run.given, GUESS_SEEN);
  const base = { ...s, run: first, count: first.count, at: Math.min(first.count, first.rowAtTime(s.run.ticksAt(s.at), first.count)) };
  const made = s.tour.tried.find((it) => it.name === name) ?? null;
  const next = made === null ? change(base, GUESSES[name].given(first.given)) : { ...s, run: made.run, count: made.run.count,
    at: made.run.rowAtTime(s.run.ticksAt(s.at), made.run.count), history: left(s.history, s), before: s.before, ...shownAgain, clock: stopped(s) };
  const tried = made === null ? [...s.tour.tried, { name, run: next.run }] : s.tour.tried;
  const seen = s.seen === null ? null : { from: s.seen.from, to: Math.max(s.seen.to, GUESS_SEEN) };
  return { ...next, seen, before: { run: first, count: first.count }, tour: { ...s.tour, step: s.tour.step === 0 ? 0 : GUESSED + 1, tried } };
}

/** @param {string[]} names @param {string} name */
function toggled(names, name) {
  return names.includes(name) ? names.filter((it) => it !== name) : [...names, name];
}

/** @type {Record<string, (s: State, ...given: any[]) => any>} */
export const ACTIONS = {
  go,
  first: (s) => go(s, 0),
  last(s) {
    const { count } = whole(s);
    return { count, ...go({ ...s, count }, count) };
  },
  back: (s) => go(s, s.at - (s.isAfter ? 0 : 1)),
  // (after the last row comes what its restart left, if it ended with one)
  next: (s) => (s.at < s.count ? go(s, s.at + 1) : shownOf(s).after !== null && !s.isAfter ? ACTIONS.after(s) : { clock: stopped(s) }),
  after: (s) => ({ isAfter: true, clock: stopped(s), said: NOBODY }),
  "alarm-next": (s) => seek(s, (row) => s.run.isAlarm(row), 1, "alarm"),
  "alarm-back": (s) => seek(s, (row) => s.run.isAlarm(row), -1, "alarm"),
  "change-next": (s) => seek(s, (row) => s.run.isChange(row), 1, "change"),
  "change-back": (s) => seek(s, (row) => s.run.isChange(row), -1, "change"),
  typed: goTyped,
  undo: (s) => ({ ...stepped(s.history, s, "done"), ...shownAgain, before: null, clock: stopped(s) }),
  redo: (s) => ({ ...stepped(s.history, s, "undone"), ...shownAgain, before: null, clock: stopped(s) }),
  dismiss: () => ({ before: null }),

  run(s) {
    if (s.clock.isRunning) return { clock: stopped(s) };
    const isEnd = s.at === s.count;
    if (isEnd && !s.run.isFilling && nextText(s.run) === undefined) return told(s, "The time of this run is over: go to an earlier row, or edit the document.");
    const tour = s.tour.step === 1 ? { ...s.tour, step: 2 } : s.tour;
    return { ...(isEnd && !s.run.isFilling ? toAddTo(s) : {}), clock: { ...s.clock, isRunning: true }, said: NOBODY, note: NOBODY, isAfter: false, tour };
  },
  advance,
  tick: (s) => pass(s, "tick"),
  event: (s) => pass(s, "event"),
  speed: (s, speed) => ({ clock: { ...s.clock, speed: Number(speed) } }),
  /** More of a run that is filled in the background is there. */
  filled: (s, run) => (s.run === run && s.count < run.count ? { count: run.count } : { clock: { ...s.clock } }),

  closer: (s) => zoom(s, 1 / STEP),
  wider: (s) => zoom(s, STEP),
  zoom,
  fit: () => ({ seen: null }),
  move: (s, part) => ({ seen: seenOf(s, (it) => it.move(part)) }),
  see: (s, from, to) => ({ seen: seenOf(s, (it) => it.see(from, to)) }),
  "to-alarm": toAlarm,
  /** To the row by which a job has missed its deadline, with what came before. */
  late: (s, row) => ({ ...go(s, row), ...(isLong(s.run) ? { seen: around(s, row) } : {}) }),
  "late-next"(s) {
    const all = whole(s);
    const row = nextMissed(all.run, all.count, s.at);
    return row === null ? told(all, "No deadline is missed after this row.") : { count: all.count, ...ACTIONS.late(all, row) };
  },
  toggle: (s, strip) => ({ opened: toggled(s.opened, strip) }),
  /** Shows when the first alarm comes, over all values of a slider. */
  sweep: (s, name) => ({ swept: toggled(s.swept, name) }),
  select: (s, selection) => ({ selection: s.selection !== null && selection?.kind === s.selection.kind && selection.id === s.selection.id ? null : selection }),

  ask(s, line, who = "you") {
    return ask(s, line, who);
  },
  change,
  guess,
  without: (s, name) => change(s, { event: eventsWithout(s.run.bench.event, s.run.bench.event.find((it) => it.name === name)) }),
  edited,

  begin: (s, bench, more) => begun(s, bench, more),
  kept: (s, name) => orTold(s, () => openedKept(s, name)),
  text: (s, text, name, isExercise = false) => orTold(s, () => {
    const source = isExercise ? changedTo(s, text) : NO_SOURCE;
    return opened(s, text, name, source);
  }),
  new: (s) => ({ ...begun(s, NEW_BENCH, { title: "An empty bench" }), built: "" }),
  /** The scenario of the form of New, with its document beside. */
  build(s, jobs) {
    if (jobs.length === 0) return ACTIONS.new(s);
    const document = scenarioOf(jobs);
    return { ...opened(s, document, "My jobs"), built: document, isEditing: true };
  },
  reveal: (s) => ({ hidden: revealed(s) }),
  /** What is expected of an exercise: what is wrong gets a hint, and only what is all right shows what happens. */
  check(s, given) {
    const { count } = whole(s);
    const all = judged(s, given);
    if (all.length === 0) return noted(s, "Say first what you expect, or press Show what happens.");
    const isRight = all.length === given.length && all.every((it) => it.isRight);
    return { count, predicted: given, ...(isRight ? { hidden: revealed(s) } : {}) };
  },

  touch: (s, list, k) => ({ touched: { list, k } }),
  "touch-close": () => ({ touched: null }),
  edit: (s) => ({ isEditing: !s.isEditing }),
  projector: (s) => ({ isProjected: !s.isProjected }),
  embed: (s, isEmbedded) => ({ isEmbedded }),
  note: (s, text) => noted(s, text),
  ...Object.fromEntries(["open", "examples", "help", "share"].map((name) => [name, (/** @type {State} */ s) => ({ dialog: { name }, clock: stopped(s) })])),
  // (what is saved is all of it)
  save: (s) => ({ count: whole(s).count, dialog: { name: "save" }, clock: stopped(s) }),
  form: (s, word) => ({ dialog: { name: "form", given: word }, clock: stopped(s) }),
  close: () => ({ dialog: null }),

  tour: (s, step) => ({ tour: step === 0 ? leftTour(s) : { ...s.tour, step }, clock: stopped(s) }),
  /** The tour from its beginning, or where it was left. */
  "tour-again"(s) {
    const made = /** @type {any} */ (openedKept(s, "landing-1202"));
    const { left: step, tried } = s.tour;
    return { ...made, at: step < GUESSED ? 0 : made.run.alarms[0], tour: { step: step || 1, left: 0, tried: step === 0 ? [] : tried } };
  },
};

/** What follows of itself: the tour ends with its landing, and goes on as a number is changed. @param {State} s */
export function settled(s) {
  const { tour, run, count } = s;
  if (tour.step === 0) return null;
  if (count === 0 || run.source.exercise !== "landing-1202") return { tour: leftTour(s) };
  return tour.step === GUESSED && run !== s.before?.run && s.before !== null ? { tour: { ...tour, step: GUESSED + 1 } } : null;
}
