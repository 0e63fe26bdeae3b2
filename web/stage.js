/**
 * The chart on the page: it is painted where another run, part or size is shown; the row that is shown is
 * a line over it. What is pointed at is told beside the pointer; a click goes there and shows what asked
 * for it; Ctrl and the wheel, two fingers, keys and a drawn range zoom.
 */
import { addMarks, paint } from "./drawing-pens.js";
import { hitAt, summaryOf } from "./drawing-words.js";
import { PARTS, pictureOf } from "./drawing.js";
import { assign, attribute, by, fill, make, set } from "./dom.js";
import { act, coloursOf, differ, isHidden, namesOf, scaleOf, state } from "./state.js";
import { seconds } from "./words.js";

/** @typedef {import("./state.js").State} State @typedef {import("./drawing.js").Sheet} Sheet */

/** How far the pointer goes before a click becomes a range, and how wide the picture is on paper, in points; how often
 * it is painted while rows are added, in milliseconds; and how many jobs of a lane are told in words. */
const [LEAST_DRAWN, PAPER_WIDE, PAINTED_EACH, MOST_TOLD] = [6, 980, 300, 8];

/** What was painted last: nothing is heard of the chart before that; and what is to be written once the clock is there. */
const drawn = { sheet: /** @type {Sheet} */ (/** @type {unknown} */ (null)), time: 0, alarms: 0, late: /** @type {import("./drawing.js").Mark[]} */ ([]) };

/** The pointers that are down, by number; and whether a range was drawn. */
const hand = { pointers: new Map(), isDrawn: false };

export function themeNow() {
  if (matchMedia("(forced-colors: active)").matches) return "forced";
  return matchMedia("(prefers-color-scheme: dark)").matches ? "dark" : "light";
}

/** How high all else is in the tour, for a projector, and on the page, where a letter is one high; and each line of the table of jobs. */
const [TOUR_BESIDE, PROJECTOR_BESIDE, PAGE_BESIDE, JOB_LINE] = [31.2, 24, 33.8, 1.7];

/** What the tour's picture has, what its words need; and that of an exercise whose answer is hidden. */
const [TOURED, ASKED] = [["alarms", "work", "sets", "axis", "budget", "notes"], ["alarms", "sets", "strips", "axis"]];

/** How many rows are drawn: where an exercise's answer is hidden, those up to the one that is shown. @param {State} now */
const rowsOf = (now) => (isHidden(now) ? now.at : now.count);

/** How large lanes and text are, as the page's text is, and what is drawn. @param {State} now */
function sizes(now) {
  const { run, tour, isProjected, before } = now;
  const isToured = tour.step > 0;
  if (window.innerWidth <= 640) return { high: 19, text: 12, strips: ["areas"], parts: isHidden(now) ? ASKED : isToured ? TOURED : [...PARTS.filter((it) => it !== "before"), "notes"] };
  const size = parseFloat(getComputedStyle(document.documentElement).fontSize);
  // (where little else is below it, it fills the window; and elsewhere it stands above the foot of a low one)
  const jobLines = run.bench.job.some((it) => it.deadline !== undefined) ? run.bench.job.length + 1.4 : 0;
  const [least, most, beside] = !(isToured || isProjected) || window.innerWidth < 54 * size ? [1.5, window.innerWidth < 54 * size ? 1.87 : 2.5, PAGE_BESIDE]
    : isProjected ? [1.3, 3, PROJECTOR_BESIDE + JOB_LINE * jobLines] : [1.6, 3, TOUR_BESIDE];
  // (with the run before it is as high as without)
  const [line, half] = before === null || isToured || isProjected ? [0, 0] : [1.4, before.run.sets / 2];
  const lanes = Math.max(least, Math.min(most, (window.innerHeight / size - beside - line) / (run.sets + 3.6 + half)));
  const parts = isHidden(now) ? ASKED : [...(isToured || isProjected ? TOURED : [...PARTS, "notes"]), "legend"];
  return { high: Math.round(lanes * size), text: Math.round((isProjected ? 1 : 0.8) * size), ...(isProjected ? { least: Math.round(0.76 * size) } : {}), parts };
}

/** What is seen of the run, as a picture. @param {State} now @param {import("./drawing.js").View} view how */
function pictureAs(now, view) {
  const { run, count, opened, selection } = now;
  const { from, to } = scaleOf(now);
  return pictureOf(run, rowsOf(now), { all: count, from, to, opened, selection, names: namesOf(run), colours: coloursOf(run), ...view });
}

/** The same for paper, or as a picture of its own. @param {State} now */
export function pictureSeen(now) {
  return pictureAs(now, { width: PAPER_WIDE, high: 20, parts: [...PARTS, "notes", "legend"] });
}

/** Whether rows were added that needn't be painted yet. @param {State} now */
function canWait({ run, seen, clock }) {
  const { sheet, time } = drawn;
  if (sheet.run !== run) return false;
  const isPast = seen !== null && sheet.scale.to >= seen.to && run.ticksAt(sheet.count) >= seen.to && drawn.alarms === run.alarms.length;
  return isPast || (seen === null && run.isFilling) || ((clock.isRunning || run.isFilling) && performance.now() - time < PAINTED_EACH);
}

/** @param {State} now @param {State} before */
export function chart(now, before) {
  const [isThere, rows] = [now.count > 0, rowsOf(now)];
  assign(by("chart-box"), { hidden: !isThere });
  by("chart-box").dataset.filling = now.run.isFilling ? "yes" : "no";
  assign(by("slider"), { max: String(now.count), value: String(now.at) });
  attribute(by("slider"), "aria-valuetext", `request ${now.at} of ${now.count}`);
  if (!isThere) return;
  if (differ(now, before, "run", "count", "hidden") || rows < now.count) set(by("summary"), summaryOf(now.run, rows));
  const isOther = drawn.sheet?.run !== now.run || differ(now, before, "run", "seen", "opened", "selection", "before", "hidden", "isProjected", "isEmbedded", "tour");
  if (isOther || ((drawn.sheet.count !== rows || drawn.sheet.scale.all !== now.count) && !canWait(now))) paintNow(now);
  else if (differ(now, before, "at")) drawAt(now);
}

/** @param {State} now @param {ReturnType<typeof sizes>} size */
function paintNow(now, size = sizes(now)) {
  const sheet = pictureAs(now, { width: by("lanes-box").clientWidth, before: now.before, theme: themeNow(), isJoined: now.isProjected && !now.run.isFilling, ...size });
  const { scale: { from, to, isWhole }, top, bottom, marks } = sheet;
  const late = marks.filter(({ ends }) => ends !== undefined && ends > sheet.left);
  paint(by("lanes-chart"), { ...sheet, marks: marks.filter((it) => !late.includes(it)) });
  Object.assign(drawn, { sheet, late, time: performance.now(), alarms: now.run.alarms.length });
  by("chart-box").dataset.seen = `${Math.round(from)}-${Math.round(to)}`;
  assign(by("fit"), { disabled: isWhole });
  assign(by("dismiss"), { hidden: now.before === null });
  for (const id of ["cursor", "range", "future"]) Object.assign(by(id).style, { top: `${top}px`, height: `${bottom - top}px` });
  const end = now.tour.step === 1 ? sheet.bands.findLast((it) => it.kind === "budget")?.bottom ?? bottom : bottom;
  Object.assign(by("future").style, { left: `${sheet.left}px`, width: `${sheet.right - sheet.left + 4}px`, height: `${end + 4 - top}px` });
  by("future").style.setProperty("--axis", `${bottom - top}px`);
  tellLanes(now, sheet);
  drawAt(now);
  // (for a projector all is on one screen, if its lanes don't get too low for that)
  const over = now.isProjected && window.innerWidth > 864 ? Math.max(...["player", "jobs-box"].map((it) => by(it).getBoundingClientRect().bottom)) + window.scrollY + 10 - window.innerHeight : 0;
  const high = Math.max(size.text + 4, size.high - Math.ceil(over / (now.run.sets + 3.6)));
  if (over > 0 && high < size.high) paintNow(now, { ...size, high });
}

/** What each lane holds, for those who hear the page. @param {State} now @param {Sheet} sheet */
function tellLanes({ run: { lanes } }, { scale, names }) {
  const when = (/** @type {number} */ key) => (scale.isTime ? seconds(scale.placeOfKey(key)) : `request ${key >> 1}`);
  const rows = lanes.logs.set.map((log, k) => {
    /** @type {Map<number, string>} */
    const told = new Map();
    let entry = Math.max(0, log.entryAt(scale.keyAt(scale.from)));
    for (; entry < log.count && told.size < MOST_TOLD && log.keys.items[entry] <= scale.keyAt(scale.to); entry++) {
      const block = lanes.block(k, entry);
      if (block !== null && !told.has(block.id)) told.set(block.id, `${names.job(block.at) ?? `job ${block.number}`} from ${when(block.from)}`);
    }
    return `Core set ${k}: ${told.size === 0 ? "free" : [...told.values()].join(", ")}${told.size === MOST_TOLD ? ", and so on" : ""}.`;
  });
  const list = by("lane-list");
  if (list.childElementCount !== rows.length) fill(list, rows.map(() => make("li")));
  rows.forEach((it, k) => set(list.children[k], it));
}

/** Where the row is, for which nothing is laid out anew; in the tour's first steps what comes after it is pale, and what is written there isn't there yet. @param {State} now */
function drawAt({ at, tour, run }) {
  const { sheet } = drawn;
  const x = sheet.xOf(sheet.scale.placeOf(at));
  assign(by("cursor"), { hidden: x < sheet.left - 1 || x > sheet.right + 1 });
  by("cursor").style.translate = `${x}px`;
  by("cursor").classList.toggle("alarm", run.isAlarm(at));
  const isVeiled = (tour.step === 1 || tour.step === 2) && x <= sheet.right;
  const due = drawn.late.filter(({ ends = 0 }) => !isVeiled || ends <= x);
  if (due.length > 0) addMarks(by("lanes-chart"), due, themeNow());
  drawn.late = drawn.late.filter((it) => !due.includes(it));
  assign(by("future"), { hidden: !isVeiled });
  by("future").style.clipPath = `inset(0 0 0 ${Math.max(0, x - sheet.left)}px)`;
}

/** Where an event is on the picture. @param {MouseEvent} event @returns {[number, number]} */
function pointOf(event) {
  const box = by("lanes-chart").getBoundingClientRect();
  return [event.clientX - box.left, event.clientY - box.top];
}

/** Tells what is at the pointer, beside it. @param {MouseEvent} event */
function tell(event) {
  const [x, y] = pointOf(event);
  const hit = isHidden(state()) ? null : hitAt(drawn.sheet, x, y);
  const block = by("block");
  assign(block, { hidden: hit === null || hit.text === "" });
  set(block, hit?.text ?? "");
  by("lanes-chart").style.cursor = hit?.kind === "open" ? "pointer" : "crosshair";
  const wide = block.hidden ? 0 : by("lanes-box").clientWidth - block.offsetWidth - 2;
  Object.assign(block.style, { left: `${Math.max(0, Math.min(x + 14, wide))}px`, top: `${y + 18}px` });
  return hit;
}

/** A click goes to what is there, and shows what asked for it. @param {MouseEvent} event */
function click(event) {
  const hit = hand.isDrawn ? null : tell(event);
  hand.isDrawn = false;
  if (hit === null) return;
  const { kind, name = "", id, row } = hit;
  if (kind === "open" || (kind === "strip" && ["areas", "tasks"].includes(name))) act("toggle", name);
  if (kind === "job" || kind === "task") act("select", { kind, id });
  if (row !== undefined && kind !== "open") act("go", row);
}

/** @param {PointerEvent} event */
function down(event) {
  const [x] = pointOf(event);
  hand.isDrawn = false;
  hand.pointers.set(event.pointerId, { x, now: x });
  if (event.pointerType === "mouse") by("lanes-chart").setPointerCapture(event.pointerId);
}

/** @param {PointerEvent} event */
function moved(event) {
  const held = hand.pointers.get(event.pointerId);
  const isMouse = event.pointerType === "mouse";
  if (held === undefined) {
    if (isMouse) tell(event);
    return;
  }
  const { x, now: before } = held;
  [held.now] = pointOf(event);
  const isFar = Math.abs(held.now - x) >= LEAST_DRAWN;
  const isPinched = hand.pointers.size === 2;
  hand.isDrawn = isFar || isPinched || (hand.isDrawn && !isMouse);
  if (isPinched) {
    const other = [...hand.pointers.values()].find((it) => it !== held);
    const [was, is] = [Math.abs(before - other.now), Math.abs(held.now - other.now)];
    if (was > 8 && is > 8) act("zoom", was / is, drawn.sheet.partAt((held.now + other.now) / 2));
  } else if (isMouse) {
    assign(by("range"), { hidden: !isFar });
    Object.assign(by("range").style, { left: `${Math.min(x, held.now)}px`, width: `${Math.abs(held.now - x)}px` });
  } else if (isFar) act("move", drawn.sheet.partAt(before) - drawn.sheet.partAt(held.now));
}

/** @param {PointerEvent} event */
function up(event) {
  const held = hand.pointers.get(event.pointerId);
  hand.pointers.delete(event.pointerId);
  if (by("range").hidden || held === undefined) return;
  by("range").hidden = true;
  const [low, high] = [held.x, held.now].sort((a, b) => a - b).map((x) => drawn.sheet.placeAt(x));
  act("see", low, high);
}

/** @param {WheelEvent} event */
function wheel(event) {
  const isAcross = Math.abs(event.deltaX) > Math.abs(event.deltaY) || event.shiftKey;
  if (!isAcross && !event.ctrlKey) return;
  if (isAcross) act("move", (event.deltaX || event.deltaY) / 900);
  else act("zoom", Math.exp(Math.max(-1, Math.min(1, event.deltaY / 400))), drawn.sheet.partAt(pointOf(event)[0]));
  event.preventDefault();
}

export function hearChart() {
  const canvas = by("lanes-chart");
  canvas.addEventListener("wheel", wheel, { passive: false });
  const heard = { pointerdown: down, pointermove: moved, pointerup: up, click, pointercancel: () => hand.pointers.clear(),
    pointerleave: () => { by("block").hidden = true; } };
  for (const [name, hear] of Object.entries(heard)) canvas.addEventListener(name, hear);
  by("slider").addEventListener("input", () => act("go", Number(by("slider").value)));
}
