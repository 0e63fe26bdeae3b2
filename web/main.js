/** The workbench: the state, the views that draw it, and the keys and buttons that act on it. */
import { start } from "../libagc/js/machine.js";
import { build } from "./build.js";
import { drawCards } from "./cards.js";
import { ACTIONS, firstState, settled } from "./actions.js";
import { account, isTourSeen, question, tour } from "./story.js";
import { fillOn } from "./clock.js";
import { dialogs, hearDialog } from "./dialogs.js";
import { by } from "./dom.js";
import { editor, hearEditor } from "./editor.js";
import * as files from "./files.js";
import { asked, makeCommon } from "./forms.js";
import { fillSpeeds, head, speedNow } from "./head.js";
import { jobs } from "./job-table.js";
import { fromAddress, hearAddress, keepFrom, keeping } from "./keep.js";
import { list, makeList } from "./list.js";
import { print } from "./paper.js";
import { whatIf } from "./sliders.js";
import { chart, hearChart } from "./stage.js";
import { act, begin, drawAgain, isAction, sceneAfter, set, state } from "./state.js";
import { drawWords, makeBoxes, tables } from "./tables.js";
import { hearTouch, touch } from "./touch.js";
import { Prompt, completions } from "./typing.js";

/** @typedef {import("./state.js").State} State */

/** What is opened where nothing is asked for. */
const FIRST = "landing-1202";

/** How often time is drawn where less motion is wished, how often the row's texts are while time passes, and how far a frame goes
 * at most, in milliseconds. */
const [CALM, READ, MOST_PASSED] = [250, 100, 500];

/** Which action each key is. */
const KEYS = {
  ArrowLeft: "back", ArrowRight: "next", Home: "first", End: "last", a: "alarm-next", A: "alarm-back", c: "change-next", C: "change-back",
  u: "undo", z: "undo", r: "redo", " ": "run", ".": "tick", n: "event", "?": "help", s: "save", o: "open", e: "examples", b: "new",
  d: "edit", "+": "closer", "=": "closer", "-": "wider", f: "fit", x: "to-alarm", p: "projector", P: "projector", Escape: "projector",
};

/** @param {KeyboardEvent} event */
function key(event) {
  const on = /** @type {HTMLElement} */ (event.target);
  if (by("dialog").open) return;
  const isTyped = on.matches("input:not(#slider):not([type=checkbox]), textarea, select");
  const isPressed = on.matches("button, a, summary") && [" ", "Enter"].includes(event.key);
  const isControl = event.ctrlKey || event.metaKey;
  if (isTyped || isPressed || event.altKey || (isControl && event.key !== "z")) return;
  if (event.key === "Escape" && !state().isProjected) {
    if (state().tour.step > 0) act("tour", 0);
    return;
  }
  const name = KEYS[/** @type {keyof typeof KEYS} */ (event.key)];
  const pressed = name === undefined ? null : document.getElementById(name);
  if (event.key === "i" || event.key === "/") by("line").focus();
  else if (event.key === "g") {
    for (const it of ["more", "expert"]) by(it).open = true;
    by("go").focus();
  } else if (event.key === "[" || event.key === "]") act("move", event.key === "[" ? -0.3 : 0.3);
  else if (pressed !== null) pressed.click();
  else if (name !== undefined) act(name);
  else return;
  event.preventDefault();
}

/** As the clock is started, its frames come, until it stops. */
const frames = { last: 0, target: 0 };

/** @param {State} now @param {State} before */
function clock(now, before) {
  if (!now.clock.isRunning || before.clock?.isRunning) return;
  Object.assign(frames, { last: performance.now(), target: now.run.ticksAt(now.at) });
  requestAnimationFrame(frame);
}

/** @param {number} time */
function frame(time) {
  const now = state();
  if (!now.clock.isRunning) return;
  const isCalm = matchMedia("(prefers-reduced-motion: reduce)").matches;
  if (!isCalm || time - frames.last >= CALM) {
    frames.target += (Math.min(MOST_PASSED, Math.max(0, time - frames.last)) / 10) * speedNow(now);
    frames.last = time;
    act("advance", Math.floor(frames.target));
  }
  requestAnimationFrame(frame);
}

/** A run that has more to come is filled between the frames, and so is the one before. @param {State} now @param {State} before */
function filling({ run, before: older }, before) {
  for (const it of new Set([run, older?.run])) {
    if (it?.isFilling && ![before.run, before.before?.run].includes(it)) setTimeout(fillSome, 0, it, 0);
  }
}

/** @param {import("./run.js").Run} run @param {number} told when that was told last */
function fillSome(run, told) {
  const { run: now, before, tour: { tried } } = state();
  if (!run.isFilling || ![now, before?.run, ...tried.map((it) => it.run)].includes(run)) return;
  fillOn(run);
  const isDue = !run.isFilling || performance.now() - told > 200;
  if (isDue) act("filled", run);
  setTimeout(fillSome, 0, run, isDue ? performance.now() : told);
}

/** The state for which a calm view was drawn last. */
let calmed = /** @type {State | null} */ (null);

/** What needn't keep up with time that passes is drawn a few times a second, and of several such views one in a frame. @param {(now: State, before: State) => void} view @param {number} [each] */
function calm(view, each = CALM) {
  const last = { before: /** @type {State | null} */ (null), time: 0 };
  return (/** @type {State} */ now, /** @type {State} */ before) => {
    last.before ??= before;
    const isPassing = now.clock.isRunning && before.clock?.isRunning;
    if (isPassing && (now === calmed || performance.now() - last.time < each)) return;
    calmed = now;
    view(now, last.before);
    Object.assign(last, { before: null, time: performance.now() });
  };
}

/** What the row is, in words, and its tables. @param {State} now @param {State} before */
function texts(now, before) {
  head(now, before);
  tables(now, before);
}

/** A button does what it is called. */
function hear() {
  document.addEventListener("click", (event) => {
    const pressed = /** @type {Element} */ (event.target).closest("button[id]");
    if (pressed !== null && isAction(pressed.id)) act(pressed.id);
  });
  document.addEventListener("keydown", key);
  by("speed").addEventListener("change", () => act("speed", by("speed").value));
  by("words-box").addEventListener("toggle", () => drawWords(state()));
  window.addEventListener("resize", () => drawAgain());
  window.addEventListener("beforeprint", () => {
    const { run } = state();
    if (run.isFilling) {
      fillOn(run, Infinity);
      act("filled", run);
    }
    print(state());
  });
  for (const it of ["(prefers-color-scheme: dark)", "(forced-colors: active)"]) matchMedia(it).addEventListener("change", () => drawAgain());
  // (what is scrolled to stands below the bar, however high that is)
  const bar = /** @type {HTMLElement} */ (document.querySelector(".bar"));
  new ResizeObserver(() => {
    document.documentElement.style.setProperty("--bar-high", `${bar.offsetHeight}px`);
    document.querySelector("main :focus")?.scrollIntoView({ block: "nearest" });
  }).observe(bar);
  files.hearDrops((text, name) => act("text", text, name));
  for (const it of [hearChart, hearTouch, hearEditor, hearDialog, hearAddress]) it();
  const prompt = new Prompt((line) => {
    try {
      act("ask", line);
      // (the chart comes in above it, and the tables unfold)
      requestAnimationFrame(() => by("line").scrollIntoView({ block: "nearest" }));
    } catch (fault) {
      prompt.hint(/** @type {Error} */ (fault).message, true);
    }
  }, (typed) => completions(typed, state().run.bench, sceneAfter(state())));
}

/** Begins: with the document within the page, with what the address says, or with a landing. */
async function open() {
  const own = files.textOfData(by("document").textContent.replace(/^\n/, ""));
  // (`agc_watch page --view chart` says so behind its document)
  document.body.classList.toggle("chart-alone", document.getElementById("view")?.textContent === "chart");
  makeBoxes();
  makeList();
  makeCommon();
  fillSpeeds();
  begin(firstState({ kept: files.keptTexts(by("kept").textContent.trim()), own }), { actions: ACTIONS, settled,
    views: [calm(texts, READ), build, question, tour, calm(account), chart, touch, calm(jobs), calm(list), whatIf, asked, editor, dialogs, keeping,
      filling, clock] });
  hear();
  // (a link to an example isn't a link to the button of that name)
  if (document.activeElement instanceof HTMLElement) document.activeElement.blur();
  const isFirst = own === "" && /^#?(&.*)?$|^#[0-9]+$/.test(location.hash);
  if (own !== "") act("text", own, "A run");
  else if (isFirst) {
    act("kept", FIRST);
    if (!isTourSeen()) act("tour", 1);
  }
  const isAsked = location.hash.length > 1;
  await fromAddress();
  await keepFrom(isAsked);
  // (what the page opened with can't be undone)
  set({ history: { ...state().history, done: [] } });
  document.documentElement.dataset.ready = "yes";
  setTimeout(drawCards, 500, state().kept.filter((it) => it.kind === "example"));
}

/** The module's bytes, which stand deflated in the page. */
async function moduleBytes() {
  const packed = Uint8Array.from(atob(by("module").textContent.replace(/\s/g, "")), (it) => it.charCodeAt(0));
  return new Uint8Array(await new Response(new Blob([packed]).stream().pipeThrough(new DecompressionStream("deflate-raw"))).arrayBuffer());
}

try {
  await start(await moduleBytes());
} catch (fault) {
  by("broken").hidden = false;
  document.body.classList.add("lost");
  by("broken").textContent = "This page runs the proved machine as WebAssembly, which this browser doesn't have, "
    + "or doesn't allow here, and nothing on it works without. Open the file in a current browser, from a disk or "
    + `from a place without such a rule. (${/** @type {Error} */ (fault).message})`;
  for (const it of document.querySelectorAll("button, input, select")) /** @type {any} */ (it).disabled = true;
}
if (by("broken").hidden) await open();
