/**
 * The pictures on the cards of the examples: their core sets over time, with their alarms, as they are seen at
 * first. Each run is made once, in stretches, in idle time after the page has opened, so that nothing waits for it.
 */
import { SOON, firstSeen } from "./actions.js";
import { readBench, requestsOf } from "./bench.js";
import { fillOn, runOf } from "./clock.js";
import { paint } from "./drawing-pens.js";
import { pictureOf } from "./drawing.js";
import { make } from "./dom.js";
import { themeNow } from "./stage.js";
import { state } from "./state.js";
import { octal } from "./words.js";

/** How wide a picture is, and how high all its lanes; how long what is more urgent is waited for, in milliseconds. */
const [WIDE, HIGH, BUSY] = [270, 56, 200];

/** @type {Map<string, import("./run.js").Run>} */
const runs = new Map();

/** What waits to be drawn, or without a canvas, just to be made. @typedef {{ name: string, text: string, canvas?: HTMLCanvasElement }} Card @type {Card[]} */
let waiting = [];

/** Draws examples on canvases, each once it is its turn; those without one are made ready after all others. @param {Card[]} cards */
export function drawCards(cards) {
  if (waiting.length === 0) setTimeout(drawNext, 0);
  const [drawn, others] = [true, false].map((isDrawn) => [...waiting, ...cards].filter((it) => (it.canvas !== undefined) === isDrawn));
  waiting = [...drawn, ...others];
}

/** An example's run, with some more of it each time, and whether all is there that its picture shows. @param {Card} card */
function runFor({ name, text }) {
  const known = runs.get(name);
  const bench = readBench(text);
  const run = known ?? runOf(bench, requestsOf(bench), {}, SOON);
  runs.set(name, run);
  const seen = firstSeen(run);
  const isReady = !run.isFilling || seen !== null;
  if (!isReady && known !== undefined) fillOn(run);
  return { run, seen, isReady };
}

function drawNext() {
  // (a dialog that was closed draws nothing)
  waiting = waiting.filter((it) => it.canvas?.isConnected ?? true);
  const card = waiting.shift();
  if (card === undefined) return;
  const isBusy = card.canvas === undefined && (state().clock.isRunning || state().run.isFilling);
  const made = isBusy ? null : runFor(card);
  // (a long one lets the others go first)
  if (made === null || !made.isReady) waiting.push(card);
  else if (card.canvas !== undefined) draw(card.canvas, made);
  setTimeout(drawNext, isBusy ? BUSY : 0);
}

/** @param {HTMLCanvasElement} canvas @param {ReturnType<typeof runFor>} made */
function draw(canvas, { run, seen }) {
  if (run.count > 0) {
    paint(canvas, pictureOf(run, run.count, { width: canvas.clientWidth || WIDE, high: HIGH / run.sets, parts: ["sets"], isBare: true, theme: themeNow(), ...seen }));
    return;
  }
  // (where no request follows there is nothing over time: the code that is kept is the picture)
  const { scene: { codes } } = run.show(0, 0)[0];
  canvas.replaceWith(make("span", { class: "picture dsky" }, make("span", {}, "PROG"), octal(codes[2], 5)));
}
