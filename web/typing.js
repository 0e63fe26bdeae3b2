/**
 * The line in which a request is typed: what may come next, history, and what is wrong.
 */
import { by, fill, make } from "./dom.js";
import { areSeveral, forgiven, requestsIn } from "./forgive.js";
import { FORMS, MEANINGS, PARTS, REQUESTS, formOf, lineFault, octal } from "./words.js";

/** How many completions are offered. */
const MOST_OFFERED = 8;

/** What a bench and a state have for a part of a line. @param {string} part @param {import("./bench.js").Bench} bench @param {import("../libagc/js/machine.js").Scene} scene @param {string} word */
function textsFor(part, bench, scene, word) {
  if (part === "P") return ["10", "20", "30"];
  if (part === "D") return ["1", "100", "200"];
  if (part === "K" || part === "G") return ["1", "2", "3", "4", "5", "6"];
  if (part === "N") return bench.phase.map((it) => String(it.phase));
  if (part === "W") return [...bench.task.map((it) => it.bank), "00005", "00007"];
  const sleepers = scene.sets.filter((it) => it?.asleep).map((it) => octal(it?.at ?? 0, 5));
  const jobs = [...bench.job.map((it) => it.at), "04000"];
  if (word === "rouse") return sleepers;
  return word === "list" ? bench.task.map((it) => it.at) : jobs;
}

/** The lines that may come of what was typed. @param {string} typed @param {import("./bench.js").Bench} bench @param {import("../libagc/js/machine.js").Scene} scene */
export function completions(typed, bench, scene) {
  const words = typed.split(" ");
  const last = words.at(-1) ?? "";
  if (words.length === 1) return REQUESTS.filter((it) => it.startsWith(last));
  const part = FORMS.get(words[0])?.[words.length - 2];
  if (part === undefined) return [];
  const named = [...bench.task, ...bench.job].filter((it) => part === PARTS.A && last !== ""
    && it.name?.toLowerCase().startsWith(last.toLowerCase())).map((it) => it.at);
  const texts = textsFor(part.name, bench, scene, words[0]).filter((it) => it.startsWith(last));
  const front = words.slice(0, -1).join(" ");
  return [...new Set([...named, ...texts])].slice(0, MOST_OFFERED).map((it) => `${front} ${it}`);
}

/** What is said below the line as it is typed. @param {string} typed */
export function hintOf(typed) {
  const words = typed.split(" ");
  const parts = FORMS.get(words[0]);
  if (parts === undefined) return "A request, as in a script. The down arrow lists all kinds.";
  const part = words.length > 1 ? parts[words.length - 2] : undefined;
  const more = part === undefined ? MEANINGS.get(words[0]) : part.sentence;
  return `${formOf(words[0])}: ${more}`;
}

/** The line, with its history and its offers. */
export class Prompt {
  /** @param {(line: string) => void} ask @param {(typed: string) => string[]} offers */
  constructor(ask, offers) {
    this.ask = ask;
    this.offers = offers;
    /** @type {string[]} */
    this.history = [];
    this.back = 0;
    this.chosen = -1;
    this.field = by("line");
    this.field.addEventListener("input", () => this.typed());
    this.field.addEventListener("keydown", (/** @type {KeyboardEvent} */ event) => this.key(event));
    this.field.addEventListener("blur", () => this.close());
    this.field.addEventListener("paste", (/** @type {ClipboardEvent} */ event) => this.paste(event));
    by("enter").addEventListener("click", () => this.enter());
    this.hint(hintOf(""), false);
  }

  /** @param {string} text @param {boolean} isWrong */
  hint(text, isWrong) {
    by("hint").textContent = text;
    by("hint").classList.toggle("wrong", isWrong);
  }

  typed() {
    this.hint(hintOf(this.field.value), false);
    this.show(this.field.value === "" ? [] : this.offers(this.field.value));
  }

  /** @param {string[]} lines */
  show(lines) {
    this.chosen = -1;
    this.lines = lines.length === 1 && lines[0] === this.field.value ? [] : lines;
    fill("offers", this.lines.map((it, k) => make("li", { role: "option", id: `offer-${k}`, "aria-selected": "false",
      onmousedown: (/** @type {Event} */ event) => {
        event.preventDefault();
        this.take(it);
      },
    }, it)));
    by("offers").hidden = this.lines.length === 0;
    this.field.setAttribute("aria-expanded", String(this.lines.length > 0));
    this.field.removeAttribute("aria-activedescendant");
  }

  close() {
    this.show([]);
  }

  /** Chooses an offer, or the one that follows the last. @param {number} step */
  choose(step) {
    const offers = [...by("offers").children];
    this.chosen = (this.chosen + step + offers.length) % offers.length;
    offers.forEach((it, k) => it.setAttribute("aria-selected", String(k === this.chosen)));
    offers[this.chosen].scrollIntoView({ block: "nearest" });
    this.field.setAttribute("aria-activedescendant", `offer-${this.chosen}`);
  }

  /** Takes an offer: where more has to follow, the next is offered. @param {string} line */
  take(line) {
    const wants = FORMS.get(line.split(" ")[0])?.length ?? 0;
    this.field.value = line.split(" ").length <= wants ? `${line} ` : line;
    this.hint(hintOf(this.field.value), false);
    this.show(this.offers(this.field.value));
    this.field.focus();
  }

  /** A line of the history. @param {number} step */
  recall(step) {
    const to = Math.max(0, Math.min(this.history.length, this.back + step));
    this.back = to;
    this.field.value = to === 0 ? "" : this.history[this.history.length - to];
    this.hint(hintOf(this.field.value), false);
  }

  enter() {
    if (areSeveral(this.field.value)) {
      this.close();
      this.askAll(this.field.value);
      return;
    }
    const { line, told } = forgiven(this.field.value);
    const fault = lineFault(line);
    this.close();
    if (fault !== null) {
      this.hint(`${line === "" ? "" : `"${line}": `}${fault}`, true);
      return;
    }
    this.history = [...this.history.filter((it) => it !== line), line];
    this.back = 0;
    this.field.value = "";
    this.hint(told === "" ? hintOf("") : `Asked: ${line}. ${told[0].toUpperCase()}${told.slice(1)}.`, false);
    this.ask(line);
  }

  /** Lines that are pasted are asked one after the other, up to the first that is none. @param {ClipboardEvent} event */
  paste(event) {
    const text = event.clipboardData?.getData("text/plain").trim() ?? "";
    if (!text.includes("\n") && !areSeveral(text)) return;
    event.preventDefault();
    this.askAll(text);
  }

  /** Asks several lines; none of them, if one spells no request. @param {string} text */
  askAll(text) {
    try {
      const lines = requestsIn(text);
      for (const line of lines) this.ask(line);
      this.field.value = "";
      this.hint(`${lines.length} lines were asked.`, false);
    } catch (fault) {
      this.hint(`Nothing was asked: ${/** @type {Error} */ (fault).message}`, true);
    }
  }

  /** @param {KeyboardEvent} event */
  key(event) {
    const isOpen = !by("offers").hidden;
    const step = event.key === "ArrowDown" ? 1 : event.key === "ArrowUp" ? -1 : 0;
    if (step !== 0 && isOpen) this.choose(this.chosen < 0 && step < 0 ? 0 : step);
    else if (step > 0 && this.back === 0) this.show(this.offers(this.field.value));
    else if (step !== 0) this.recall(-step);
    else if (event.key === "Enter" && this.chosen >= 0) this.take(this.lines?.[this.chosen] ?? "");
    else if (event.key === "Enter") this.enter();
    else if (event.key === "Escape" && isOpen) this.close();
    else if (event.key === "Escape") this.field.blur();
    else return;
    event.preventDefault();
  }
}
