/** The head of the page: what is shown, the DSKY, the steps, and the note beside the row. */
import { nameOfRestart, missionOf, sentenceOf } from "./account.js";
import { SPEEDS, speedOf } from "./clock.js";
import { paletteOf } from "./colours.js";
import { assign, attribute, by, fill, make, set } from "./dom.js";
import { themeNow } from "./stage.js";
import { coloursOf, isHidden, namesOf, shownOf, textOf } from "./state.js";
import { octal, seconds } from "./words.js";

/** What is full at each alarm. */
const FULL = { 0o1201: "no free VAC area", 0o1202: "no free core set", 0o1203: "no free place", 0o1107: "phases that don't agree" };

/** How many times real time the clock runs: as was chosen, or so that something happens soon. @param {import("./state.js").State} now */
export function speedNow(now) {
  return now.clock.speed ?? speedOf(now.run, isHidden(now));
}

/** The row in a few words, time first. @param {import("./state.js").State} now @param {import("./run.js").Shown} shown */
function headline(now, shown) {
  const { run, count, at } = now;
  const time = run.ticksAt(count) > 0 ? `${seconds(shown.ticks)}: ` : at === 0 ? "" : `Request ${at}: `;
  const alarm = shown.isAfter ? 0 : shown.step?.alarm || (/^alarm 1107/.test(shown.reply) ? 0o1107 : 0);
  if (alarm !== 0) return `${time}ALARM ${octal(alarm, 4)}, ${FULL[/** @type {keyof typeof FULL} */ (alarm)] ?? ""}`;
  if (shown.isAfter) return `${time}after the ${nameOfRestart(shown.line)}`;
  if (at === 0 && (count === 0 || isHidden(now))) return "The beginning";
  const { sets, running } = shown.scene;
  const used = sets.filter((it) => it !== null).length;
  const runner = running === 0 ? "no job runs" : `${namesOf(run).job(shown.jobsFrom[0]) ?? `job ${running}`} runs`;
  return `${time}${runner}, ${used} of ${sets.length} core sets in use`;
}

/** The seven strokes of a digit, and which of them each digit has, as bits. */
const STROKES = [[2, 1, "h8"], [11, 2, "v8"], [11, 13, "v8"], [2, 22, "h8"], [1, 13, "v8"], [1, 2, "v8"], [2, 11.5, "h8"]];
const DIGITS = [63, 6, 91, 79, 102, 109, 125, 7, 127, 111];

/** Digits as the strokes of them that are lit, and those that aren't; before a register's is the place of its sign, which octal numbers don't have. @param {Element} field @param {string} text */
function drawDigits(field, text) {
  if (field.getAttribute("data-text") === text) return;
  field.setAttribute("data-text", text);
  const shapes = ["", text.length > 2 ? "M2 11.5h8M6 7v9" : ""];
  [...text].forEach((it, k) => STROKES.forEach(([x, y, more], n) => {
    shapes[1 - ((DIGITS[Number(it)] >> n) & 1)] += `M${Number(x) + 15 * (k + (text.length > 2 ? 1 : 0))} ${y}${more}`;
  }));
  shapes.forEach((it, k) => field.children[1 - k].setAttribute("d", it));
}

/** What the astronauts had: lights, and on VERB 05 NOUN 09 the three codes. An alarm lights one at once, before the tables are swept. @param {import("./run.js").Shown} shown */
function drawDisplay({ scene, after, step }) {
  const { codes } = (step?.alarm ? after : null) ?? scene;
  const isLit = codes.some((/** @type {number} */ it) => it !== 0);
  const numbers = codes.map((/** @type {number} */ it) => octal(it, 5));
  by("prog").classList.toggle("on", isLit);
  by("activity").classList.toggle("on", scene.running !== 0);
  ["05", "09", ...numbers].forEach((it, k) => drawDigits(by("dsky").querySelectorAll("svg")[k], it));
  attribute(by("dsky"), "aria-label", `DSKY: program alarm light ${isLit ? "on" : "off"}, VERB 05 NOUN 09 shows ${numbers.join(" ")}`);
}

/** @param {import("./state.js").State} now @param {import("./state.js").State} before */
export function head(now, before) {
  if (now === before) return;
  const { run, count, at, history } = now;
  const shown = shownOf(now);
  if (before.run !== run) {
    set(by("title"), run.title);
    document.title = `${run.title} - AGC workbench`;
    coloursOf(run);
    for (const [name, colour] of Object.entries(paletteOf(themeNow()))) if (/[0-9]$/.test(name)) document.documentElement.style.setProperty(`--${name}`, colour);
  }
  const isAlarm = !shown.isAfter && shown.reply.includes("alarm");
  set(by("state"), headline(now, shown));
  assign(by("state"), { className: isAlarm ? "alarm" : "" });
  set(by("sentence"), textOf(now, "said") || sentenceOf(shown, count, namesOf(run), missionOf(run.about)));
  set(by("note"), textOf(now, "note"));
  drawDisplay(shown);
  assign(by("undo"), { disabled: history.done.length === 0 });
  assign(by("redo"), { disabled: history.undone.length === 0 });
  for (const id of ["alarm-next", "alarm-back", "to-alarm"]) assign(by(id), { disabled: isHidden(now) });
  set(by("run"), now.clock.isRunning ? "Pause" : "Run");
  attribute(by("run"), "aria-pressed", String(now.clock.isRunning));
  assign(by("speed"), { value: String(speedNow(now)) });
  if (before.clock?.isRunning !== now.clock.isRunning) {
    // (nothing is read aloud while time passes)
    for (const it of document.querySelectorAll("[aria-live]")) attribute(it, "aria-live", now.clock.isRunning ? "off" : "polite");
  }
  assign(by("projector"), { hidden: !now.isProjected });
  for (const [name, is] of Object.entries({ running: now.clock.isRunning, embed: now.isEmbedded, projector: now.isProjected })) {
    document.body.classList.toggle(name, is);
  }
}

/** The speeds are there from the beginning. */
export function fillSpeeds() {
  fill("speed", SPEEDS.map((it) => make("option", { value: String(it) }, `${it} ×`)));
}
