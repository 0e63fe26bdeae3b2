/**
 * What a reader expects of an exercise: its own fields. Each is right or not yet, with a hint; the machine's answers, and where
 * they are seen, come when all are right or asked for. Fields may be left empty, so that it can be answered part by part.
 */
import { button, make } from "./dom.js";
import { EXERCISES, plainly, whole } from "./fields.js";
import { withoutQuestion } from "./files.js";
import { act, isHidden } from "./state.js";

/** @typedef {import("./state.js").State} State */
/** @typedef {import("./fields.js").Field} Field */

/** The fields of the exercise that is open. @param {State} now @returns {Field[]} */
const fieldsOf = ({ run }) => EXERCISES[run.source.exercise]?.fields ?? [];

/** The answers that were asked for so far: some take a while. @type {Map<Field, { value: string, row?: number }>} */
const answers = new Map();

/** A field's answer: that of the exercise as it is asked, however a reader has changed it since. @param {State} now @param {Field} field */
function answerOf(now, field) {
  const known = answers.get(field);
  if (known !== undefined) return known;
  const answer = field.answer(asAsked(now));
  answers.set(field, answer);
  return answer;
}

/** What is right for each field that was filled, and whether it was said. @param {State} now @param {string[]} given */
export function judged(now, given) {
  return fieldsOf(now).flatMap((field, k) => {
    const text = given[k] ?? "";
    if (text === "") return [];
    const { value, row } = answerOf(now, field);
    const said = field.isRounded ? String(Math.round(Number(plainly(text)))) : plainly(text);
    return [{ label: field.label, given: text, value, row, isRight: said === plainly(value) }];
  });
}

/** The run of the exercise as it is asked, for what wrong answers mean. @param {State} now */
const asAsked = ({ kept, run }) => whole(withoutQuestion(kept.find((it) => it.name === run.source.exercise)?.text ?? ""));

/** What is said of a try, if anything. @param {State} now @param {{ label: string, given: string, isRight: boolean }[]} all */
function hintOf(now, all) {
  const wrong = all.filter((it) => !it.isRight);
  if (all.length === 0) return [];
  const run = asAsked(now);
  const means = wrong.map((it) => `${it.label} ${fieldsOf(now).find(({ label }) => label === it.label)?.means?.(run, it.given) ?? ""}`.trim());
  const told = wrong.length === 0 ? ["Right so far. And the others?"] : [`Not yet: ${means[0]}`, ...means.slice(1), EXERCISES[now.run.source.exercise].hint];
  return [make("div", { class: "hint-given", id: "hint-given", role: "status" }, ...told.map((it) => make("p", {}, it)))];
}

/** @param {Field} field @param {string} value @param {boolean} isWrong */
function inputOf({ options, size = 6 }, value, isWrong) {
  const more = isWrong ? { "aria-invalid": "true" } : {};
  if (options === undefined) return make("input", { type: "text", size, autocomplete: "off", value, ...more });
  return make("select", more, ...["", ...options].map((it) => make("option", { value: it, selected: it === value }, it === "" ? "–" : it)));
}

/** What a field is, once it was checked: right, or not yet. @param {{ isRight: boolean } | undefined} said */
function markOf(said) {
  return said === undefined ? [] : [make("span", { class: said.isRight ? "is-right" : "wrong" }, said.isRight ? "\u2713 right" : "not yet")];
}

/** The form of a prediction, with what was typed and what is said of it; once the run is shown, only the fields that are empty still. @param {State} now */
export function predictionOf(now) {
  const given = fieldsOf(now).map((_, k) => now.predicted[k] ?? "");
  const all = isHidden(now) ? judged(now, given) : [];
  const saidOf = (/** @type {string} */ label) => all.find((it) => it.label === label);
  const inputs = fieldsOf(now).map((field, k) => (isHidden(now) || given[k] === "" ? inputOf(field, given[k], saidOf(field.label)?.isRight === false) : null));
  if (inputs.every((it) => it === null)) return [];
  const check = () => act("check", inputs.map((it, k) => (it === null ? given[k] : it.value.trim())));
  const labels = fieldsOf(now).flatMap(({ label }, k) => (inputs[k] === null ? [] : [make("label", {}, label, inputs[k], ...markOf(saidOf(label)))]));
  return [make("div", { class: "fields", role: "group", "aria-label": "What do you expect?", id: "prediction",
    onkeydown: (/** @type {KeyboardEvent} */ event) => { if (event.key === "Enter" && event.target instanceof HTMLInputElement) check(); } }, ...labels,
  button("Check", check, { id: "check-prediction", class: "primary" })), ...hintOf(now, all)];
}

/** What is said of a prediction once the run is shown, with links to where it is seen; nothing where none was made. @param {State} now @returns {any[]} */
export function verdictOf(now) {
  return judged(now, now.predicted).map(({ label, given, value, row, isRight }) => {
    const question = label.replace(/ Addresses$/, "");
    if (isRight) return make("li", { class: "right" }, `${question} Right: ${value}.`);
    // (the rows of an exercise that was changed are others)
    const link = row === undefined || now.run.source.isChanged ? [] : [" See ", make("a", { href: `#${row}`, onclick: (/** @type {Event} */ event) => {
      event.preventDefault();
      act("go", row);
    } }, `request ${row}`), "."];
    return make("li", { class: "not" }, `${question} You expected “${given}”, and it is: ${value}.`, ...link);
  });
}
