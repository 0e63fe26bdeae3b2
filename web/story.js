/** The story beside the chart: the tour, what is told of the row, what may be tried, and an exercise's question. */
import { accountOf, cameText, nameOfRestart, orderOf, standingOf } from "./account.js";
import { TAKES_OVER, becauseOf, lateOf, short, strawOf } from "./because.js";
import { assign, attribute, button, by, fill, make, set, withCode, withNumbers } from "./dom.js";
import { GUESSES } from "./guesses.js";
import { loadOf } from "./job-table.js";
import { jobsOf, missedIn, periodOf, priorityOf, withPriority } from "./jobs.js";
import { pieceOf } from "./pieces.js";
import { predictionOf, verdictOf } from "./predict.js";
import { act, differ, isHidden, namesOf, rowsOf, shownOf } from "./state.js";
import { counted, octal, seconds, visible } from "./words.js";

/** @typedef {import("./state.js").State} State @typedef {import("./run.js").Run} Run @typedef {[string, string, ...any[]]} Try what is on the button, the action, and what it is given */

const SEEN = "agc-workbench-guide";

/** Which table is full at an alarm that comes in place of 1202. @type {Record<number, string>} */
const FULL = { 0o1201: "all five VAC areas, which some jobs need for larger work, are taken", 0o1203: "the Waitlist is full" };

/** The greatest priority, and how many events may be left out. */
const [MOST_URGENT, MOST_EVENTS] = [31, 2];

/** Whether the tour was seen before. */
export function isTourSeen() {
  try {
    return localStorage.getItem(SEEN) !== null;
  } catch {
    return false;
  }
}

/** What else the page is for. @type {Try} */
const DEADLINES = ["Deadlines: one job too late", "kept", "still-too-late"];

/** What hasn't been guessed yet. @param {State} now @returns {Try[]} */
const guessesOf = ({ tour: { tried } }) => Object.entries(GUESSES).filter(([name]) => !tried.some((it) => it.name === name)).map(([name, { label }]) => [label, "guess", name]);

/** Whether the landing of the tour is shown, and whether it runs as it was guessed. @param {State} now */
const isTours = ({ run, count }) => count > 0 && run.source.exercise === "landing-1202";
const isGuess = (/** @type {State} */ now) => isTours(now) && now.tour.tried.some((it) => it.run === now.run);

/** The steps of the tour: what each says, and its buttons. @param {State} now @returns {{ text: string, steps: Try[] }} */
function tourOf(now) {
  const { run, at } = now;
  const guesses = guessesOf(now);
  return /** @type {{ text: string, steps: Try[] }[]} */ ([
    { text: "In July 1969, minutes before it landed on the Moon, Apollo 11's computer ran out of room. This landing is like that one.\nThe computer shares its time "
        + "among jobs. Each job needs a core set, a block of twelve words of memory, and there are seven: the rows of the picture.", steps: [["Run", "run"], DEADLINES] },
    { text: "Every two seconds a guidance job begins, the SERVICER. With a display, and a radar that steals computing time from all jobs, there is 2.24 s of work in every two.\n"
        + "Bright: the job that runs. Pale: jobs that wait, and still hold their core sets.",
      steps: [run.isAlarm(at) ? ["What happened?", "tour", 3] : ["To the alarm", "alarm-next"]] },
    { text: `Alarm 1202: ${firstBecause(now)} Two jobs that sleep (hatched) hold the other two.\nWhat would have prevented it? Guess:`, steps: guesses },
    { text: guesses.length > 0 ? "Try the others, or go on:" : "You have tried all four.", steps: [...guesses, ["What helps", "tour", 5]] },
    { text: "Less work prevents the alarm; more room only delays it.\nIn 1969 nobody had time to try. But with each alarm the computer restarted: it dropped all jobs, "
        + "the sleepers too, and by its phase tables began the guidance again and nothing else. So it went on, five times, down to the Moon.",
      steps: [["Apollo 11: five alarms", "kept", "apollo-11"], ["90 %, and still too late", "kept", "still-too-late"], ["Build your own", "new"]] },
  ])[now.tour.step - 1];
}

/** How a button of the tour looks: one leads on. @param {Try} it @param {number} k @param {number} step */
function lookOf([, action, given], k, step) {
  if (action === "tour" && given < step) return given === 0 ? "quiet last" : "quiet";
  return action !== "guess" && (k === 0 || step === 4) ? "primary" : "";
}

/** What the first alarm was, and below it why it came. @param {State} now */
function firstBecause({ run, tour }) {
  const [row] = run.alarms;
  if (tour.step < 3 || row === undefined) return "";
  const shown = rowsOf(run).at(row);
  return `${strawOf(run, shown, namesOf(run))}\n${becauseOf(run, shown, namesOf(run))}`;
}

/** What came of a guess. @param {{ name: string, run: import("./run.js").Run }} tried */
export function triedText({ name, run }) {
  const [first] = run.alarms;
  const { done } = GUESSES[name];
  if (first !== undefined) {
    const number = run.columns.numbers.items[first];
    const when = `at ${seconds(run.ticksAt(first))}`;
    return number === 0o1202 ? `${done}: still alarm 1202, ${when}.` : `${done}: alarm ${octal(number, 4)} ${when}: ${FULL[number]}.`;
  }
  return run.isFilling ? `${done}: no alarm up to ${seconds(run.head.now)} …` : `${done}: no alarm in ${run.bench.seconds}\u00a0s.`;
}

/** Buttons of an element, made anew only where they differ. @param {string} id @param {Try[]} steps @param {(it: Try, k: number) => any} [more] */
function buttons(id, steps, more = () => ({})) {
  const key = JSON.stringify(steps.map(([name, action]) => [name, action]));
  const place = by(id);
  place.steps = steps;
  if (place.dataset.key === key) return;
  place.dataset.key = key;
  const isIn = place.contains(document.activeElement);
  fill(place, steps.map((it, k) => button(it[0], () => act(.../** @type {[string]} */ (place.steps[k].slice(1))), more(it, k))));
  // (what stood here had the focus: what stands here now has it, or the tour's text above)
  if (isIn) (id === "guide-steps" ? by("guide-text") : place.querySelector("button"))?.focus({ preventScroll: true });
}

/** @param {State} now @param {State} before */
export function tour(now, before) {
  if (!differ(now, before, "tour", "run", "count", "before", "clock")) return;
  const { step } = now.tour;
  assign(by("guide"), { hidden: step === 0, className: `guide step-${step}` });
  document.body.classList.toggle("touring", step > 0);
  if (before.tour !== undefined && before.tour.step > 0 && step === 0) {
    try {
      localStorage.setItem(SEEN, "seen");
    } catch {
      // (a browser that keeps nothing shows it again)
    }
  }
  showTried(now);
  if (step === 0) return;
  const { text, steps } = tourOf(now);
  set(by("guide-step"), `${step} of 5`);
  const [lead, ...more] = text.split("\n");
  if (by("guide-text").textContent !== [lead, ...more].join(" ")) fill("guide-text", [lead, ...more.flatMap((it) => [" ", make("span", { class: "more" }, it)])]);
  const back = /** @type {Try[]} */ ([2, 3, 5].includes(step) ? [["Back", "tour", step - 1]] : []);
  buttons("guide-steps", [...steps, ...back, [step === 5 ? "Done" : "Skip", "tour", 0]], (it, k) => ({ class: lookOf(it, k, step) }));
}

/** What came of each guess: in the tour, and after it with what is told of its landing. @param {State} now */
function showTried(now) {
  const { step, tried } = now.tour;
  const lines = isTours(now) ? tried.map(triedText) : [];
  const [list, before] = [by("tried"), by(step > 0 ? "guide-text" : "try")];
  if (list.nextSibling !== before) before.before(list);
  attribute(list, "aria-busy", lines.length === 0 ? null : String(tried.some((it) => it.run.isFilling)));
  if (list.childElementCount !== lines.length) fill(list, lines.map(() => make("li")));
  lines.forEach((it, k) => {
    set(list.children[k], it);
    assign(list.children[k], { className: tried[k].run === now.run ? "shown" : "" });
  });
}

/** A sentence with a capital. @param {string} text */
const begun = (text) => text.slice(0, 1).toUpperCase() + text.slice(1);

/** At the beginning, and at the end: how to go on. @param {State} now @returns {Try[]} */
function atBeginning({ run, count, tour }) {
  if (count === 0 && run.source.document !== "") return [];
  if (count === 0) return [tour.left > 0 ? ["Back to the tour", "tour-again"] : ["A landing with alarm 1202", "kept", "landing-1202"], DEADLINES];
  const alarm = run.alarms.find((row) => row <= count);
  const late = run.isFilling ? 0 : Math.min(...jobsOf(run, count).flatMap((it) => it.missedRow || []));
  return /** @type {Try[]} */ ([...(alarm === undefined ? [] : [["To the first alarm", "go", alarm]]), ...(late > 0 && late < Infinity ? [["To the first deadline missed", "late", late]] : [])]);
}

/** Where a job is late: it as the most urgent of all. @param {State} now @param {any} shown @returns {Try[]} */
function atLate({ run }, shown) {
  const late = lateOf(run, shown, namesOf(run));
  if (late === null || run.bench.seconds === undefined) return [];
  const at = octal(late.at, 5);
  const isUrgent = [null, MOST_URGENT].includes(priorityOf(run.bench, at));
  return isUrgent ? [] : [[`${begun(late.name)} before all others?`, "change", withPriority(run.bench, at, MOST_URGENT)]];
}

/** At an alarm: what might have prevented it. @param {State} now @param {any} shown @returns {Try[]} */
function atAlarm({ run }, shown) {
  const { bench } = run;
  /** @type {Try[]} */
  const found = [];
  if (shown.step?.number === 0o1202 && run.sets === 7) found.push(["With eight core sets?", "change", { sets: 8 }]);
  if (bench.seconds === undefined) return found;
  const isStolen = typeof bench.steal === "number" ? bench.steal > 0 : bench.steal.length > 0;
  if (isStolen) found.push(["Without stolen time?", "change", { steal: 0 }]);
  const later = bench.event.filter((it) => it.name !== undefined && (it.at > 0 || it.after !== undefined));
  return [...found, ...later.slice(0, MOST_EVENTS).map((it) => /** @type {Try} */ ([`Without ${visible(it.name ?? "")}?`, "without", it.name]))];
}

/** What may be tried at a row: where an exercise's answer is hidden, only what doesn't give it away. @param {State} now @param {any} shown @returns {Try[]} */
export function triesOf(now, shown) {
  if (shown.row === 0) return isHidden(now) ? [] : atBeginning(now);
  const restart = nameOfRestart(shown.line);
  /** @type {Try[]} */
  const after = shown.after === null && !shown.isAfter ? [] : [shown.isAfter ? [`Before the ${restart}`, "go", shown.row] : [`After the ${restart}`, "after"]];
  const isAlarm = shown.step !== null && shown.step.alarm !== 0 && !shown.isAfter;
  if (isHidden(now)) return after;
  if (isAlarm || isGuess(now)) return [...after, ...(isGuess(now) || (isTours(now) && now.run.bench === now.run.given) ? guessesOf(now) : atAlarm(now, shown))];
  return [...after, ...(shown.isAfter ? [] : [...atLate(now, shown), ...(isEnd(now) ? atBeginning(now) : [])])];
}

/** Whether the last row of a run is shown whose time is over. @param {State} now */
const isEnd = ({ run, count, at, clock }) => at === count && !run.isFilling && !clock.isRunning && run.ticksAt(count) >= 100 * (run.bench.seconds ?? Infinity);

let drawn = "";

/** What came of a change, in a sentence, at the row at which it was made; nothing where none was. @param {State} now */
function changeText({ run, count, at, before, moved, clock }) {
  if (before === null || moved.run !== run || moved.at !== at || run.isFilling || clock.isRunning || run.bench.seconds === undefined) return "";
  const [then, now] = [before, { run, count }].map((it) => ({ load: loadOf(it.run), missed: missedIn(it.run, it.count),
    alarms: it.run.alarms.filter((row) => row <= it.count).length }));
  const load = `${then.load === now.load ? "Same load," : "A load of"} ${now.load} %`;
  const said = now.missed > 0 ? `${counted(now.missed, "deadline")} missed, ${then.missed} before.` : then.missed > 0 ? "nothing is late now."
    : now.alarms > 0 ? `${counted(now.alarms, "alarm")}, ${then.alarms} before.` : then.alarms > 0 ? "no alarm comes now." : "no alarm, as before.";
  return `${load}: ${said}`;
}

/** Whether jobs had other priorities in the run before. @param {State} now */
const isReordered = ({ run, before }) => before !== null && run.bench.job.some(({ at }) => priorityOf(run.bench, at) !== priorityOf(before.run.bench, at));

/** What is opened or gone to is seen from its top: not as a number is changed, or a request typed, further down. @param {State} now @param {State} before */
function toTop(now, before) {
  if (now.clock.isRunning || now.moved.run === now.run && now.moved !== before.moved) return;
  by("told").scrollTop = 0;
  if (document.activeElement?.closest(".ask, .clock, .edit") === null) by("side").scrollTop = 0;
}

/** What a document says of itself first, up to its first full stop, and what else is told at the beginning. @param {any[][]} lines @returns {[string, any[][]]} */
function leadOf(lines) {
  const [[said], ...more] = lines;
  const [, lead, rest] = (said.isProse && /^([^`]*?[.?!]) +(.+)$/s.exec(said.text)) || [];
  return lead === undefined ? ["", lines] : [lead, [[{ ...said, text: rest }], ...more]];
}

/** @param {State} now @param {State} before */
export function account(now, before) {
  if (!differ(now, before, "run", "count", "at", "isAfter", "hidden", "tour", "clock")) return;
  const { run, count } = now;
  const shown = shownOf(now);
  toTop(now, before);
  const names = namesOf(run);
  const { heading, lines, isAlarm } = accountOf(run, shown, names, { about: run.about, count, isHidden: isHidden(now) });
  const late = isAlarm || shown.isAfter || isHidden(now) ? null : lateOf(run, shown, names);
  const isPlain = shown.row > 0 && !isAlarm && late === null && !shown.isAfter && !isHidden(now);
  assign(by("told"), { hidden: now.tour.step > 0, className: `told${isAlarm || late !== null ? " alarm" : isPlain ? " plain" : ""}${shown.row === 0 ? " first" : ""}${by("told").classList.contains("long") ? " long" : ""}` });
  const verdict = isPlain || shown.row === 0 ? changeText(now) || (isPlain && isEnd(now) ? cameText(run, count, names) : "") : "";
  set(by("told-name"), verdict !== "" ? "What came of it" : late === null ? heading : "A deadline is missed: why");
  const [lead, rest] = shown.row === 0 && verdict === "" ? leadOf(lines) : ["", lines];
  set(by("because"), verdict !== "" ? verdict : late !== null ? begun(late.text) : isAlarm ? begun(`${strawOf(run, shown, names)} ${becauseOf(run, shown, names)}`.trim()) : lead);
  const isChange = shown.line === "change" && shown.who === "the clock" && shown.before?.running !== shown.scene.running;
  set(by("rule"), run.bench.seconds !== undefined && !isHidden(now) && (late !== null || isChange || (verdict !== "" && isReordered(now))) ? TAKES_OVER : "");
  buttons("try", triesOf(now, shown));
  assign(by("try"), { hidden: by("try").childElementCount === 0 });
  const isAsked = !["nobody", "the clock"].includes(shown.who) && !shown.isAfter;
  const all = late !== null || (isPlain && (verdict !== "" || now.clock.isRunning)) ? [[standingOf(shown, names)]]
    : [...rest, ...(isAsked ? [[`Asked by ${shown.who}.`]] : []), ...(isPlain ? [[standingOf(shown, names)]] : [])];
  const key = JSON.stringify(all);
  if (key === drawn) return;
  drawn = key;
  // (what explains it is seen, and all else is unfolded)
  const isLong = lead !== "" || isAlarm || (verdict !== "" && shown.row === 0);
  by("told").classList.toggle("long", isLong);
  assign(by("telling"), { open: !isLong, hidden: all.length === 0 });
  set(by("telling-name"), isAlarm ? "Who holds what" : "More");
  fill("account", all.map((line) => make("li", {}, ...line.map(pieceOf))));
  by("account").scrollTop = 0;
}

/** The jobs of an exercise that come again and again, as a table; nothing where it has none. @param {import("./bench.js").Bench} bench */
export function jobsAsked(bench) {
  const rows = bench.job.filter((it) => it.cost !== 1).map(({ name, at, cost, deadline }) => [name ?? at, ...[periodOf(bench, at), cost].map((it) => (typeof it === "number" ? short(it) : "–")),
    octal(priorityOf(bench, at) ?? 0, 2), deadline === undefined ? "–" : short(deadline), bench.task.some((it) => it.action.some((line) => line.startsWith("findvac") && line.includes(at))) ? "yes" : "–"]);
  const line = (/** @type {string} */ kind, /** @type {string[]} */ cells) => make("tr", {}, ...cells.map((it) => make(kind, {}, it)));
  return rows.length === 0 ? [] : [make("table", { class: "jobs" }, make("thead", {}, line("th", ["job", "every", "needs", "priority", "deadline", "VAC area"])),
    make("tbody", {}, ...rows.map((it) => line("td", it.map(visible)))))];
}

/** The document of an exercise: its requests, or its jobs, and all of it to unfold. @param {Run} run */
function askedOf({ given, source: { document } }) {
  const jobs = jobsAsked(given);
  const parts = document.trim().split(/\n\n+/).map((it) => make("pre", {}, ...withNumbers(it)));
  return jobs.length === 0 ? parts : [...jobs, make("details", { open: given.phase.length > 0 }, make("summary", {}, "The document"), make("div", { class: "parts" }, ...parts))];
}

/** An exercise: its question, its document, and what may be done. @param {State} now @param {State} before */
export function question(now, before) {
  if (!differ(now, before, "run", "count", "at", "hidden", "predicted")) return;
  const { run, count } = now;
  const { question: asked, document, exercise } = run.source;
  assign(by("question"), { hidden: asked === "", className: isHidden(now) || now.at === 0 ? "question" : "question later" });
  const isChanged = asked !== "" && (run.source.isChanged || run.isChanged(count));
  const key = JSON.stringify([asked, document, isHidden(now), isChanged, now.predicted]);
  if (by("question").dataset.key === key) return;
  by("question").dataset.key = key;
  assign(by("asked"), { hidden: asked === "" });
  fill("asked", asked === "" ? [] : askedOf(run));
  if (asked === "") return;
  const [, ...lines] = asked.split("\n");
  const order = isHidden(now) ? "" : orderOf(run.bench);
  const verdict = isHidden(now) ? [] : verdictOf(now);
  const names = now.kept.filter((it) => it.kind === "exercise").map((it) => it.name);
  const at = names.indexOf(exercise);
  const next = names[at + 1];
  fill("question", [
    make("h2", { class: "which", id: "which" }, `Exercise ${at + 1} of ${names.length}`),
    make("p", {}, ...withCode(lines.join(" "))),
    ...(order === "" ? [] : [make("p", { id: "order" }, order)]),
    ...(verdict.length === 0 ? [] : [make("ul", { class: "verdict", id: "verdict", role: "status" }, ...verdict)]),
    ...predictionOf(now),
    make("div", { class: "steps" }, ...(isHidden(now) ? [button("Show what happens", () => act("reveal"), { id: "show-answer" })] : []),
      button("Change it", () => act("edit"), { id: "change-exercise" }),
      ...(next === undefined ? [] : [button("Next exercise", () => act("kept", next), { id: "exercise-next" })]),
      ...(isChanged ? [button("Back to the exercise as it was", () => act("kept", exercise), { id: "exercise-again" }), "You have changed this exercise."] : [])),
  ]);
}
