/**
 * The address says what is shown, so that F5, Back, a copied address and a saved link bring it back:
 * `#DOCUMENT&at=ROW&see=FROM-TO&do=DATA&was=DATA&shown&embed`. The document is the name of an example or an
 * exercise, `new`, `bench=DATA`, or nothing for the one within the page. `do` has what was done to
 * the document's run, and `was` what was done to the run before: other numbers, and rows by hand.
 *
 * @typedef {import("./run.js").Run} Run
 * @typedef {{ given?: any, parts: any[] }} Recipe `given`: other numbers of the bench
 */
import { readBench, requestsOf, writeBench } from "./bench.js";
import { packed, unpacked } from "./files.js";
import { CHANGING, STRETCH, isAlike, isClock } from "./run.js";

/** The run before is just what its document asks for. */
export const AS_IT_WAS = "0";

/** What an address has that can't be read. */
export class Damaged extends Error {}

/** What was done to a run, up to a row: nothing where it is just what its document asks for. @param {Run} run @param {number} count @returns {Recipe | null} */
export function recipeOf(run, count) {
  const asked = requestsOf(run.given);
  const given = Object.fromEntries(CHANGING.flatMap((it) => (isAlike(run.bench[it], run.given[it]) ? [] : [[it, run.bench[it]]])));
  /** @type {any[]} */
  const parts = [];
  const add = (/** @type {string} */ kind) => {
    const last = parts.at(-1);
    if (last?.[0] === kind) last[1] += 1;
    else parts.push([kind, 1]);
  };
  for (let row = 1; row <= count; row++) {
    const [line, who] = [run.lines[row], run.whoAsked(row)];
    const next = run.isByClock(row) ? null : asked.next().value;
    if (run.isByClock(row)) add("c");
    else if (next?.[0] === line && next[1] === who) add("d");
    else parts.push(["y", line, who]);
  }
  const isPlain = parts.every((it) => it[0] === "d" || it[0] === "c")
    && (run.given.seconds !== undefined || parts.every((it) => it[0] === "d"));
  if (isPlain && Object.keys(given).length === 0 && count === run.count) return null;
  return { given, parts };
}

/**
 * Does to a run that has just begun what was done to it before, a stretch at a time.
 * @param {Run} run
 * @param {Recipe} recipe
 * @param {(run: Run, most: number) => boolean} passTime
 * @param {() => Promise<void>} others lets the page do what else it has to do
 */
export async function follow(run, { parts }, passTime, others) {
  const asked = requestsOf(run.given);
  let rested = run.count;
  /** Asks for so many, and says whether there were fewer. */
  const ask = async (/** @type {number} */ many, /** @type {(most: number) => boolean} */ some) => {
    for (let left = many; left > 0; left -= STRETCH) {
      if (some(Math.min(left, STRETCH))) return true;
      if (run.count < rested + STRETCH) continue;
      rested = run.count;
      await others();
    }
    return false;
  };
  for (const [kind, one, who] of parts) {
    if (kind === "c") await ask(one, (most) => passTime(run, most));
    else if (kind === "y") run.ask(String(one), String(who));
    else if (kind !== "d") throw new Damaged("it has a part of an unknown kind");
    else if (await ask(one, (most) => run.askSome(asked, most))) throw new Damaged("it asks for more than its document has");
  }
}

/**
 * @typedef {{ name: string, bench: string, at: number | null, see: [number, number] | null,
 *   done: string, was: string, isShown: boolean, isEmbedded: boolean }} Address
 */

/** Reads what stands behind `#`. @param {string} mark @returns {Address} */
export function readAddress(mark) {
  /** @type {Address} */
  const found = { name: "", bench: "", at: null, see: null, done: "", was: "", isShown: false, isEmbedded: false };
  for (const [k, part] of mark.replace(/^#/, "").split("&").entries()) {
    const [name, value] = part.includes("=") ? [part.slice(0, part.indexOf("=")), part.slice(part.indexOf("=") + 1)] : [part, ""];
    if (part === "" && k === 0) continue;
    if (/^[0-9]{1,9}$/.test(part) && k === 0) found.at = Number(part);
    else if (name === "at" && /^[0-9]{1,9}$/.test(value)) found.at = Number(value);
    else if (name === "see" && /^[0-9]{1,9}-[0-9]{1,9}$/.test(value)) {
      const [from, to] = value.split("-").map(Number);
      found.see = [from, to];
    } else if (name === "bench" && value !== "") found.bench = value;
    else if (name === "do" && value !== "") found.done = value;
    else if (name === "was" && value !== "") found.was = value;
    else if (part === "shown") found.isShown = true;
    else if (part === "embed") found.isEmbedded = true;
    else if (k === 0 && value === "" && !part.includes("=")) found.name = part;
    else throw new Damaged(`"${part.slice(0, 40)}" has no meaning here`);
  }
  return found;
}

/** Whether these are numbers of a bench that a recipe may have changed, such as its document might have. @param {any} given @param {import("./bench.js").Bench} bench */
function areOf(given, bench) {
  const isObject = typeof given === "object" && !Array.isArray(given);
  if (!isObject || !Object.keys(given).every((it) => CHANGING.includes(/** @type {any} */ (it)))) return false;
  readBench(writeBench({ ...bench, seconds: bench.seconds ?? 1, ...given }));
  return true;
}

/** Whether this is a part of what was done: rows of the document or of the clock, or one by somebody else. @param {any} part */
function isPart(part) {
  if (!Array.isArray(part)) return false;
  const [kind, one, who] = part;
  if (kind === "c" || kind === "d") return Number.isSafeInteger(one) && one >= 0;
  return kind === "y" && typeof one === "string" && typeof who === "string" && !isClock(who);
}

/** What was done to a run of this bench. @param {string} data @param {import("./bench.js").Bench} bench */
export async function readRecipe(data, bench) {
  try {
    const { given, parts } = JSON.parse(await unpacked(data));
    if (!areOf(given, bench) || !parts.every(isPart)) throw new Damaged("");
    return /** @type {Recipe} */ ({ given, parts });
  } catch {
    throw new Damaged("what was done can't be read: it may be cut");
  }
}

/**
 * The document and what was done to it, as the first parts of an address.
 * @param {{ run: Run, count: number }} view
 * @param {{ name: string, text: string }[]} kept
 * @param {string} own the document within the page
 * @param {boolean} isHidden whether it is an exercise whose answer is hidden
 */
export async function documentMark(view, kept, own, isHidden = false) {
  const { run, count } = view;
  const { source } = run;
  const state = `${count} ${isHidden} ${run.count}`;
  const known = marks.get(run);
  if (known?.state === state) return known.mark;
  const named = !source.isChanged && kept.some((it) => it.name === source.exercise);
  const first = named ? source.exercise : source.document === "" ? "new"
    : source.document === own ? "" : `bench=${await packed(source.document)}`;
  const recipe = recipeOf(run, count);
  const parts = [first];
  if (recipe !== null) parts.push(`do=${await packed(JSON.stringify(recipe))}`);
  if (source.question !== "" && !isHidden) parts.push("shown");
  marks.set(run, { mark: parts.join("&"), state });
  return parts.join("&");
}

/** The marks that were worked out last. @type {WeakMap<Run, { mark: string, state: string }>} */
const marks = new WeakMap();
