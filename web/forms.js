/** Buttons for the common requests: those that need numbers open a small form. And buttons for the requests of a bench's workers. */
import { assign, button, by, fill, labelled, make, priorities, set } from "./dom.js";
import { act, differ } from "./state.js";
import { FORMS, MEANINGS, octal, visible } from "./words.js";

/** The text in a field before it is filled. */
const FIRST = { P: 0o20, A: "04000", W: "00005", D: "100", K: "1", G: "1", N: "1" };

/** Names and addresses that a bench has for jobs and tasks, as choices of a field. @param {string} id @param {import("./bench.js").Bench} bench @param {import("../libagc/js/machine.js").Scene} scene */
function addressChoices(id, bench, scene) {
  const rows = [...bench.task, ...bench.job].map((it) => [it.at, it.name ?? ""]);
  const jobs = scene.sets.filter((it) => it !== null)
    .map((it) => [octal(it?.at ?? 0, 5), `job ${it?.number}${it?.asleep ? ", asleep" : ""}`]);
  const known = new Map([...jobs, ...rows].map(([at, name]) => [at, name]));
  return make("datalist", { id },
    ...[...known].map(([at, name]) => make("option", { value: at, label: name })));
}

/** The field of a part of a line. @param {import("./words.js").Part} part */
function fieldOf({ name, label, sentence }) {
  if (name === "P") return priorities(FIRST.P, { name });
  return make("input", {
    ...{ type: "text", name, autocomplete: "off", spellcheck: false, title: sentence, size: 8 },
    ...(name === "A" ? { list: null } : {}),
    value: FIRST[/** @type {keyof typeof FIRST} */ (name)],
    "aria-label": label,
  });
}

/** The form of a request. @param {string} word @param {import("./bench.js").Bench} bench @param {import("../libagc/js/machine.js").Scene} scene @param {(line: string) => void} ask */
export function formOf(word, bench, scene, ask) {
  const parts = FORMS.get(word) ?? [];
  const fields = parts.map(fieldOf);
  const said = make("p", { class: "wrong", role: "status" });
  parts.forEach((part, k) => {
    if (part.name === "A") fields[k].setAttribute("list", "addresses");
    if (part.name === "W" && word === "store") fields[k].setAttribute("aria-label", "Word");
  });
  const enter = () => {
    const wrong = parts.findIndex((part, k) => !part.is(fields[k].value.trim()));
    set(said, wrong < 0 ? "" : parts[wrong].sentence);
    if (wrong >= 0) fields[wrong].focus();
    else ask([word, ...fields.map((it) => it.value.trim())].join(" "));
  };
  const form = make("div", { class: "fields",
    onkeydown: (/** @type {KeyboardEvent} */ event) => {
      if (event.key !== "Enter" || event.target instanceof HTMLButtonElement) return;
      event.preventDefault();
      enter();
    } },
  ...parts.map((part, k) => labelled(word === "store" && part.name === "W" ? "Word" : part.label,
    fields[k])), button("Ask", enter));
  return { heading: `${word}: ${MEANINGS.get(word)}`, children: [addressChoices("addresses", bench, scene), form, said],
    focus: () => fields[0]?.focus() };
}

/** Buttons for the common requests: those that need numbers open their form. */
export function makeCommon() {
  fill("common", [...MEANINGS].map(([word, title]) => {
    const wants = (FORMS.get(word)?.length ?? 0) > 0;
    return button(wants ? `${word} …` : word, () => (wants ? act("form", word) : act("ask", word)), { title });
  }));
}

/** Events by name, and the next request of each worker of a bench, so that they take turns in an order of one's own. @param {import("./state.js").State} now @param {import("./state.js").State} before */
export function asked(now, before) {
  if (!differ(now, before, "run", "at")) return;
  const { run, at } = now;
  const { worker, event } = run.bench;
  const named = event.filter((it) => it.name !== undefined);
  assign(by("events"), { hidden: named.length === 0 });
  // (a scenario asks by itself: whoever wants to ask for more opens the list)
  const isTimed = run.bench.seconds !== undefined;
  if (isTimed !== (before.run?.bench.seconds !== undefined) || before.run === undefined) by("common-box").open = !isTimed;
  if (run !== before.run) {
    fill("events", named.map((it) => {
      const name = visible(it.name ?? "");
      return button(name, () => { for (const line of it.do) act("ask", line, `you: ${name}`); }, { title: it.do.join(", ") });
    }));
    fill("turns", worker.map((_, k) => button("", () => act("ask", by("turns").children[k].dataset.line, `worker ${k + 1}`))));
  }
  assign(by("turns"), { hidden: worker.length === 0 });
  const counts = worker.length === 0 ? new Map() : run.counts(at);
  worker.forEach(({ script }, k) => {
    const name = `worker ${k + 1}`;
    const line = script[counts.get(name) ?? 0];
    const made = by("turns").children[k];
    set(made, line === undefined ? `${name} has asked for all` : `${name}: ${line}`);
    assign(made, { disabled: line === undefined });
    made.dataset.line = line ?? "";
  });
}
