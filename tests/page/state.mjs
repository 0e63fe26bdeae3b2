// The page, as far as it is a state: for tests of what its actions do.
import assert from "node:assert/strict";
import { readFileSync } from "node:fs";
import { start } from "../../libagc/js/machine.js";
import { accountOf, sentenceOf } from "../../web/account.js";
import { ACTIONS, firstState, settled } from "../../web/actions.js";
import { outcomeOf } from "../../web/drawing-words.js";
import { keptTexts } from "../../web/files.js";
import { moduleBytes } from "../../web/picture.mjs";
import { differencesOf, numbersOf } from "../../web/sliders.js";
import { isHidden, namesOf, shownOf, textOf } from "../../web/state.js";
import { triesOf } from "../../web/story.js";

await start(await moduleBytes());

const TOP = new URL("../../", import.meta.url);
/** A file of the repository. */
export const read = (/** @type {string} */ path) => readFileSync(new URL(path, TOP), "utf8");
/** The examples and exercises. */
export const KEPT = keptTexts(read("share/workbench.html").split('id="kept">\n')[1].split("</script>")[0].trim());
/** A bench that asks for these. */
export const script = (/** @type {string[]} */ lines, more = "") => `${more}script = ${JSON.stringify(lines)}\n`;

/** The page, as far as it is a state. */
export class Page {
  /** @param {string} given a document, or the name of an example or an exercise behind # */
  constructor(given) {
    this.now = /** @type {any} */ (firstState({ kept: KEPT, own: "" }));
    if (given.startsWith("#")) this.act("kept", given.slice(1));
    else this.act("text", given, "what was pasted");
    assert.equal(this.now.dialog, null, this.now.dialog?.given);
  }

  /** @param {string} name @param {...any} given */
  act(name, ...given) {
    const next = { ...this.now, ...ACTIONS[name](this.now, ...given) };
    this.now = { ...next, ...settled(next) };
    return this;
  }

  /** Moves a slider. @param {string} name @param {number} value */
  slide(name, value) {
    const number = numbersOf(this.now.run).find((it) => it.name === name);
    return this.act("change", number?.given(value), name);
  }

  get sentence() {
    return textOf(this.now, "said") || sentenceOf(shownOf(this.now), this.now.count, namesOf(this.now.run));
  }

  get account() {
    const { run, count } = this.now;
    const { heading, lines } = accountOf(run, shownOf(this.now), namesOf(run), { about: run.about, count, isHidden: isHidden(this.now) });
    return [heading, ...lines.map((line) => line.map((it) => (typeof it === "string" ? it : it.text)).join(""))];
  }

  get outcome() {
    return outcomeOf(this.now.run, this.now.count);
  }

  get before() {
    return outcomeOf(this.now.before.run, this.now.before.count);
  }

  get differs() {
    return differencesOf(this.now.run);
  }

  get tries() {
    return triesOf(this.now, shownOf(this.now)).map(([name]) => name);
  }

  get tables() {
    const { sets, areas, tasks } = shownOf(this.now).scene;
    return [sets.flatMap((/** @type {any} */ it) => it?.number ?? []), areas.filter((/** @type {number} */ it) => it > 0), tasks.map((/** @type {any} */ it) => it.at.toString(8))];
  }
}
