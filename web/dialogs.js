/** What is opened over the page: help, examples, a document to open, the plan, what is saved, the form of a request. */
import { isSaved, openedMark } from "./saving.js";
import { assign, button, by, fill, make, set, withCode } from "./dom.js";
import * as files from "./files.js";
import { TOPICS, told } from "./examples.js";
import { formOf } from "./forms.js";
import { help } from "./help.js";
import { sharedMark } from "./keep.js";
import { drawCards } from "./cards.js";
import { MOST_BYTES } from "./bench.js";
import { paint, svgOf } from "./drawing-pens.js";
import { pictureSeen } from "./stage.js";
import { act, differ, isHidden, sceneAfter, state } from "./state.js";

/** @typedef {import("./state.js").State} State @typedef {{ heading: string, children: (Node | string)[], focus?: () => void }} Dialog */

/** How many letters a link has at most. */
const MOST_LINK = 8000;

/** A card of a document: its title, and what it shows. @param {{ kind: string, name: string, text: string }} kept @param {number} k @param {{ length: number }} all */
function cardOf({ kind, name, text }, k, { length }) {
  const [title, about] = kind === "exercise" ? [files.questionOf(text).split("\n")[0], ""] : told(name) ?? [name, files.firstSentence(text)];
  // (a picture of an exercise would answer it)
  const pictures = kind === "exercise" ? [] : [make("canvas", { class: "picture", "aria-hidden": "true" })];
  drawCards(pictures.map((canvas) => ({ name, text, canvas })));
  return make("li", {}, ...pictures, make("button", { type: "button", class: "choice", onclick: () => act("kept", name) }, make("b", {}, title)),
    ...(kind === "exercise" ? [make("span", { class: "name" }, `${k + 1} of ${length}`)] : []), make("span", { class: "about" }, ...withCode(about)));
}

/** @type {Record<string, (now: State) => Dialog>} */
const DIALOGS = {
  help: ({ tour }) => ({ heading: "Help", children: [make("p", {}, button(tour.left > 0 ? "Back to the tour" : "Show the tour again", () => act("tour-again"), { id: "tour-again" })), ...help()] }),
  examples({ kept }) {
    const listOf = (/** @type {string} */ topic, /** @type {typeof kept} */ all) => [make("h3", {}, topic), make("ul", { class: "choices", "aria-label": topic }, ...all.map(cardOf))];
    const [examples, exercises] = ["example", "exercise"].map((kind) => kept.filter((it) => it.kind === kind));
    // (an example of no topic comes with the last one)
    const topics = TOPICS.flatMap(([topic, all], k) => listOf(topic, [...Object.keys(all).flatMap((name) => examples.find((it) => it.name === name) ?? []),
      ...(k + 1 < TOPICS.length ? [] : examples.filter((it) => told(it.name) === undefined))]));
    const own = make("p", { class: "own" }, button("Build your own", () => act("new"), { id: "build-own", class: "primary" }),
      "Say how often each job comes, how much it needs, how urgent it is, and by when it has to end.",
      button("To the exercises", () => by("dialog-body").querySelector("h3:last-of-type").scrollIntoView(), { id: "to-exercises", class: "quiet" }));
    return { heading: "Examples", children: [own, ...topics, ...listOf("Exercises", exercises)],
      focus: () => by("dialog-body").querySelector("button")?.focus() };
  },
  fault: ({ dialog }) => ({ heading: "It isn't opened", children: [make("p", { class: "wrong", id: "fault" }, dialog?.given)] }),
  open: ({ run: { source } }) => openingOf(source),
  form: (now) => formOf(now.dialog?.given, now.run.bench, sceneAfter(now), (line) => {
    act("close");
    act("ask", line);
  }),
  save: (now) => savingOf(now),
  share: (now) => sharingOf(now),
};

/** A document is chosen, pasted, or changed and run again. @param {import("./run.js").Source} source what is open @returns {Dialog} */
function openingOf({ document, question }) {
  const isExercise = question !== "";
  const file = make("input", { type: "file", accept: ".toml,.txt", id: "file" });
  file.addEventListener("change", async () => {
    const [given] = file.files;
    if (given !== undefined) act("text", files.textOf(await given.arrayBuffer()), given.name);
  });
  const keep = make("input", { type: "checkbox", id: "keep-question", checked: isExercise });
  const area = make("textarea", { id: "pasted", spellcheck: false, "aria-label": "A document", maxLength: MOST_BYTES + 1, value: document });
  return { heading: "Open a bench or a scenario", children: [
    make("p", {}, make("label", {}, "A file: ", file)),
    make("p", {}, "Or change the document that is open, or paste another one over it. You can also drop a file on the page."), area,
    make("p", { hidden: !isExercise }, make("label", {}, keep, " This is still the exercise: keep its question on the page.")),
    make("p", {}, button("Run it", () => act("text", area.value, "what was pasted", keep.checked), { id: "open-pasted" }), " ",
      button("Begin with an empty bench", () => act("text", "", "an empty bench"), { id: "open-empty" })),
    make("p", { class: "wrong", id: "open-fault", role: "status" }),
  ], focus: () => {
    area.setSelectionRange(0, 0);
    (isExercise ? area : file).focus();
    area.scrollTop = 0;
  } };
}

/** What can be saved, and a link to it, which comes a moment later. @param {State} now @returns {Dialog} */
function savingOf(now) {
  const { bench, whole } = isSaved(now);
  const link = make("input", { type: "text", readOnly: true, "aria-label": "The link" });
  const told = make("p", { class: "link" }, "A link to it: ", link);
  openedMark(now).then((mark) => {
    if (mark.length > MOST_LINK) fill(told, ["It is too long for a link."]);
    else link.value = `${location.href.split("#")[0]}${mark}`;
  });
  return { heading: "Save", children: [
    make("p", {}, "This bench has all requests up to the last row: agc serial comes to the same tables with it."),
    make("textarea", { readOnly: true, value: bench, "aria-label": "The bench" }),
    make("p", {}, button("Save the bench", () => files.download("bench.toml", bench)), " ",
      ...(whole === bench ? [] : [button("Save the scenario", () => files.download("scenario.toml", whole)), " "]),
      ...(now.count === 0 || isHidden(now) ? [] : [button("Picture (SVG)", () => savePicture(now, "svg"), { id: "save-svg" }), " ",
        button("Picture (PNG)", () => savePicture(now, "png"), { id: "save-png" })])),
    told,
  ] };
}

/** Hands out what the chart shows as a picture. @param {State} now @param {"svg" | "png"} kind */
function savePicture(now, kind) {
  const picture = pictureSeen(now);
  if (kind === "svg") {
    files.download("run.svg", svgOf(picture, now.run.title));
    return;
  }
  const canvas = make("canvas");
  paint(canvas, picture);
  const pen = canvas.getContext("2d");
  Object.assign(pen, { globalCompositeOperation: "destination-over", fillStyle: "#fff" });
  pen.fillRect(0, 0, canvas.width, canvas.height);
  canvas.toBlob((/** @type {Blob | null} */ blob) => { if (blob !== null) files.download("run.png", blob); });
}

/** A text to be copied. @param {string} name @param {string} about @param {string} id */
function copied(name, about, id) {
  const field = make("input", { type: "text", readOnly: true, id, "aria-label": name });
  const copy = button("Copy", async () => {
    field.select();
    await (navigator.clipboard?.writeText(field.value) ?? Promise.reject()).catch(() => document.execCommand("copy"));
    set(copy, "Copied");
  });
  return { field, children: [make("p", {}, about), make("p", { class: "link" }, field, copy)] };
}

/** Links to what is shown, which come a moment later. @param {State} now @returns {Dialog} */
function sharingOf(now) {
  const link = copied("The link", "A link to what is shown: this document with what was done to it, this row, this part of the chart, and the run before.", "share-link");
  const frame = copied("The frame", "To put chart and story into a page of your own:", "share-frame");
  const said = make("p", {}, location.protocol === "file:" ? "The link names this file: it opens where the file is. For others put the file on a server." : "");
  sharedMark(now).then((mark) => {
    const whole = `${location.href.split("#")[0]}${mark}`;
    if (whole.length > MOST_LINK) set(said, "What was done is too long for a link: save the document, and share that.");
    else [link.field.value, frame.field.value] = [whole, make("iframe", { src: `${whole}&embed`, width: "100%", height: "720", title: now.run.title }).outerHTML];
  });
  return { heading: "Share", children: [...link.children, ...frame.children, said], focus: () => link.field.focus() };
}

export function hearDialog() {
  by("dialog").addEventListener("close", () => {
    if (by("dialog").open) return;
    fill("dialog-body", []);
    if (state().dialog !== null) act("close");
  });
}

/** @param {State} now @param {State} before */
export function dialogs(now, before) {
  const { dialog } = now;
  if (!differ(now, before, "dialog")) return;
  const element = by("dialog");
  if (dialog === null) {
    if (element.open) element.close();
    // (what is opened is seen from its top)
    if (now.run !== before.run) window.scrollTo(0, 0);
    return;
  }
  const isSame = element.open && before.dialog?.name === dialog.name;
  if (isSame && dialog.fault !== undefined) {
    set(by("open-fault"), dialog.fault);
    return;
  }
  const { heading, children, focus } = DIALOGS[dialog.name](now);
  set(by("dialog-name"), heading);
  fill("dialog-body", children);
  if (!element.open) element.showModal();
  assign(element, { scrollTop: 0 });
  focus?.();
}
