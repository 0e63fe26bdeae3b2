/**
 * What is shown is kept in the address, a moment after nothing more happens; what an address says is opened.
 *
 * @typedef {import("./state.js").State} State
 */
import { seenAtFirst } from "./actions.js";
import * as address from "./address.js";
import { begunOf, fillOn, passTime } from "./clock.js";
import { by } from "./dom.js";
import { unpacked } from "./files.js";
import { act, differ, isHidden, scaleOf, set, state } from "./state.js";
import { counted } from "./words.js";

/** How long nothing has to happen before the address says what is shown, in milliseconds. */
const KEPT_AFTER = 150;

/** What the address says, its document with what was done to it, the timer, and what is done last with it. */
const kept = { mark: "", documentMark: "", due: 0, turn: Promise.resolve() };

/** Until what else the page has to do is done. @returns {Promise<void>} */
export function others() {
  return new Promise((done) => { setTimeout(done, 0); });
}

/** Does this after what was begun before: a document is unpacked beside what the reader does. @param {() => Promise<any>} what */
function inTurn(what) {
  kept.turn = kept.turn.catch(() => {}).then(what);
  return kept.turn;
}

/** @param {State} now @param {State} before */
export function keeping(now, before) {
  if (!differ(now, before, "run", "count", "at", "seen", "hidden", "isEmbedded") || document.documentElement.dataset.ready !== "yes") return;
  keepSoon();
}

function keepSoon() {
  clearTimeout(kept.due);
  kept.due = setTimeout(() => inTurn(keepNow), KEPT_AFTER);
}

/** The document of a view, and what was done to it. @param {any} view */
function markOf(view) {
  const now = state();
  return address.documentMark(view, now.kept, now.own, isHidden({ ...now, run: view.run }));
}

/** What stands behind # for what is shown: its document, with what was done to it, and all of it. @param {State} now */
async function shownMark(now) {
  const { at, seen } = now;
  const first = await markOf(now);
  // (what is seen is told where that isn't what is seen at first)
  const rounded = (/** @type {typeof seen} */ it) => (it === null ? "" : `${Math.round(it.from)}-${Math.round(it.to)}`);
  const see = rounded(seen) === rounded(seenAtFirst(now)) ? [] : [`see=${rounded(scaleOf(now))}`];
  const rest = [...(at === 0 ? [] : [`at=${at}`]), ...see, ...(now.isEmbedded ? ["embed"] : [])];
  const isOwn = first === "" && rest.length === 1 && at > 0 && see.length === 0;
  return { first, mark: isOwn ? `#${at}` : [`#${first}`, ...rest].join("&").replace("#&", "#") };
}

/** What stands behind # in a link that is shared: the run before is in it, too. @param {State} now */
export async function sharedMark(now) {
  const { mark } = await shownMark(now);
  if (now.before === null || isHidden(now)) return mark;
  const was = /&do=([^&]*)/.exec(await markOf(now.before))?.[1] ?? address.AS_IT_WAS;
  return `${/^#[0-9]+$/.test(mark) ? `#&at=${mark.slice(1)}` : mark}&was=${was}`;
}

async function keepNow() {
  const now = state();
  if (now.clock.isRunning || now.run.isFilling) return keepSoon();
  const { first, mark } = await shownMark(now);
  // (a link that was followed meanwhile is opened first)
  if (location.hash !== kept.mark || mark === kept.mark || (mark === "#" && kept.mark === "")) return;
  try {
    if (first === kept.documentMark || kept.mark === "") history.replaceState(null, "", mark);
    else history.pushState(null, "", mark);
  } catch {
    // (an address that is too long, or too many of them: the old one stays)
  }
  Object.assign(kept, { mark: location.hash, documentMark: first });
}

/** Opens what the address says. */
export function fromAddress() {
  return inTurn(openMark);
}

/** What can't be read of the address is said, and nothing is opened. */
async function openMark() {
  if (location.hash === kept.mark) return;
  kept.mark = location.hash;
  document.body.setAttribute("aria-busy", "true");
  try {
    const found = address.readAddress(location.hash);
    act("embed", found.isEmbedded);
    if (await openAddress(found)) await doAgain(found);
  } catch (fault) {
    const more = fault instanceof address.Damaged && fault.message !== "" ? ` (${fault.message})` : "";
    act("note", `The part of the link after # can't be read${more}.`);
  } finally {
    document.body.removeAttribute("aria-busy");
  }
}

/** Opens the document of an address. False where there is none to open. @param {address.Address} found */
async function openAddress({ name, bench }) {
  const { run, own } = state();
  if (bench !== "") {
    const text = await unpacked(bench).catch(() => {
      throw new address.Damaged("its document is damaged or cut");
    });
    act("text", text, "From a link");
  } else if (name === "new") act("new");
  else if (name !== "") act("kept", name);
  else if (own !== "" && run.source.document !== own) act("text", own, "A run");
  else return true;
  return state().run !== run;
}

/** A run on which is done again what was done. @param {string} done */
async function runAgain(done, { title, about, source, given } = state().run) {
  const recipe = await address.readRecipe(done, given);
  const run = begunOf({ ...given, ...recipe.given }, { title, about, source, given });
  return { run, follow: () => address.follow(run, recipe, passTime, others) };
}

/** Does what was done, and shows what was seen. @param {address.Address} found */
async function doAgain({ done, at, see, isShown, was }) {
  const { run: old } = state();
  if (done !== "") {
    const { run, follow } = await runAgain(done);
    act("note", "The requests that the link names are being asked again.");
    await follow();
    if (state().run !== old) return;
    set({ run, count: run.count, at: 0 });
  } else while (state().run === old && old.isFilling && at !== null && at > state().count) await others();
  if (isShown) act("reveal");
  if (was !== "") await bringBack(was, old);
  const { count } = state();
  if (at !== null) act("go", at);
  if (see !== null) act("see", see[0], see[1]);
  else if (at !== null) set({ seen: seenAtFirst(state()) });
  if (at === null) return;
  if (at > count) act("note", `The link names request ${at}, and this run has ${counted(count, "request")}: this is the last one.`);
}

/** The run before, for comparison. @param {string} was @param {import("./run.js").Run} plain the document's own run */
async function bringBack(was, plain) {
  const { run } = state();
  const { run: before, follow } = was === address.AS_IT_WAS ? { run: plain, follow: async () => fillOn(plain, Infinity) } : await runAgain(was, plain);
  await follow();
  if (state().run === run) set({ before: { run: before, count: before.count } });
}

/** The page is ready: from now on the address is kept. @param {boolean} isAsked whether the address said something */
export async function keepFrom(isAsked) {
  if (!isAsked) kept.mark = location.hash;
  kept.documentMark = await markOf(state());
}

export function hearAddress() {
  window.addEventListener("popstate", () => fromAddress());
  by("go").addEventListener("keydown", (/** @type {KeyboardEvent} */ event) => {
    if (event.key === "Enter") act("typed", by("go").value);
  });
}
