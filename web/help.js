/** What the help says. */
import { EQUALS, TAKES_OVER } from "./because.js";
import { make, withCode } from "./dom.js";
import { GLOSSARY } from "./touch.js";
import { MEANINGS, PARTS, REQUESTS, formOf } from "./words.js";

const KEYS = [
  ["← →", "the row before, the next row"], ["Home End", "the first row, the last"],
  ["a A", "the next alarm, the alarm before"], ["c C", "the next change, the change before"],
  ["g", "go to a request or a time"], ["i /", "type a request"],
  ["space", "run the clock, or pause"], [". n", "a centisecond; to the next event"],
  ["u r", "undo, redo"], ["b o e", "new, open, examples"], ["d s", "edit, save"],
  ["+ -", "closer, wider"], ["[ ]", "move along the chart"], ["f x", "all of the chart; to an alarm"],
  ["P", "larger, for a projector: chart, story and table of jobs"], ["?", "this help"],
];

/** Words and what they mean. @param {string[][]} rows @param {(word: string) => any[]} spelled how a word is written */
function listOf(rows, spelled) {
  return make("dl", { class: "keys" }, ...rows.flatMap(([word, what]) =>
    [make("dt", {}, ...spelled(word)), make("dd", {}, what)]));
}

export function help() {
  const keys = listOf(KEYS, (it) => it.split(" ").flatMap((key) => [make("kbd", {}, key), " "]));
  const requests = REQUESTS.map((it) => [formOf(it), MEANINGS.get(it) ?? ""]);
  return [
    make("p", {}, "This page runs the job tables of the Apollo Guidance Computer: the Executive's jobs, the Waitlist's tasks and the phases of the restart, by a "
      + "program that is proved to keep its rules. Type a request, or open an example, and step through what happens."),
    make("p", { id: "read-on" }, ...withCode("To read on, in the folder that the page came with: docs/LANDING.md tells how a computer runs out of room, by examples, and "
      + "docs/teaching/README.md has a lesson of 45 minutes with this page.")),
    make("p", {}, "Each request is a row. If you type a request at an earlier row, the run goes on from there, and Undo brings back the rows that came after it. "
      + "A box with a marked corner has changed since the row before. A job has the colour of its name, or of the address at which it began. Touch a box, "
      + "by a click or by Tab and the arrows, and it is told what it is."),
    make("p", {}, "The chart has a lane for each core set: a job is bright while it runs, pale while it waits, and hatched while it sleeps. Point at a block to see "
      + "who it is; a click goes there, and shows what asked for it. Zoom by Ctrl and the wheel, by two fingers, by keys, or draw a range."),
    make("p", {}, "The clock lets centiseconds pass. A job with a cost ends when it has run for that long, or first asks for what its list says; stolen time is "
      + "taken away from the jobs. The sliders change these numbers; the run before stays on the chart until you "
      + "forget it. The address keeps what you did: copy it, or reload the page."),
    make("p", { id: "takes-over" }, `${TAKES_OVER} ${EQUALS}`),
    make("p", {}, "An alarm comes when a request needs a place and the table is full: 1201 areas, 1202 core sets, 1203 the Waitlist. Then all jobs and tasks are "
      + "gone, and the phases say what begins again. The button After the restart shows the tables with that."),
    make("h3", {}, "Tables"), make("ul", {}, ...Object.values(GLOSSARY).map((it) => make("li", {}, it))),
    make("h3", {}, "Keys"), keys,
    make("h3", {}, "Requests"), listOf(requests, (it) => [make("code", {}, it)]),
    make("p", {}, Object.values(PARTS).map((it) => `${it.name}: ${it.sentence}`).join("; ") + "."),
  ];
}
