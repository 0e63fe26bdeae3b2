/**
 * The document beside its run: what is typed runs at once, and a fault is marked in its line while
 * the run before stays.
 */
import { writeBench } from "./bench.js";
import { assign, by, make, set } from "./dom.js";
import { documentOfScript, isScript } from "./forgive.js";
import { act, differ } from "./state.js";
import { Unread } from "./toml.js";

/** How long nothing has to be typed before it runs, in milliseconds. */
const PAUSE = 300;

/** The text that ran last, and what is due. */
const last = { ran: "", due: 0 };

/** The numbers of the lines, of which one may have a fault. @param {string} fault @param {number} wrong */
function tell(fault, wrong) {
  set(by("edit-fault"), fault);
  const count = by("edit-text").value.split("\n").length;
  by("edit-lines").replaceChildren(...Array.from({ length: count }, (_, k) =>
    make("span", k + 1 === wrong ? { class: "wrong" } : {}, k + 1 === wrong ? `✗ ${k + 1}` : String(k + 1))));
  by("edit-lines").scrollTop = by("edit-text").scrollTop;
}

function apply() {
  const field = by("edit-text");
  field.dataset.ran = "yes";
  try {
    last.ran = isScript(field.value) ? documentOfScript(field.value) : field.value;
    act("edited", last.ran);
    tell("", 0);
  } catch (fault) {
    const { message } = /** @type {Error} */ (fault);
    tell(message, fault instanceof Unread ? fault.line : Number(/^line ([0-9]+)/.exec(message)?.[1] ?? 0));
  }
}

export function hearEditor() {
  const field = by("edit-text");
  field.addEventListener("input", () => {
    tell(by("edit-fault").textContent, 0);
    clearTimeout(last.due);
    last.due = setTimeout(apply, PAUSE);
  });
  field.addEventListener("scroll", () => { by("edit-lines").scrollTop = field.scrollTop; });
  field.addEventListener("keydown", (/** @type {KeyboardEvent} */ event) => {
    if (event.key === "Escape") act("edit");
  });
  by("edit-close").addEventListener("click", () => act("edit"));
}

/** @param {import("./state.js").State} now @param {import("./state.js").State} before */
export function editor(now, before) {
  if (!differ(now, before, "isEditing", "run")) return;
  const { run, isEditing } = now;
  const field = by("edit-text");
  assign(by("edit-box"), { hidden: !isEditing });
  const { document: text } = run.source;
  if (isEditing && before.isEditing === false) {
    field.value = text || writeBench(run.bench);
    tell("", 0);
    // (who adds jobs by the form of New goes on there)
    if (now.built === text) return;
    field.focus();
    field.setSelectionRange(0, 0);
    by("edit-box").scrollIntoView({ block: "nearest" });
  } else if (isEditing && field.value !== text && text !== last.ran) {
    field.value = text;
    tell("", 0);
  } else if (!isEditing && before.isEditing) {
    clearTimeout(last.due);
    by("edit").focus();
  }
}
