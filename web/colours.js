/**
 * The colours of jobs: by a job's name, or the address at which it began, so that a job has its
 * colour in the chart, in the boxes and after a restart. The names of the document come first.
 */
import { octal } from "./words.js";

/** The hues of jobs that run, on light ground and on dark. They differ in lightness, too, for eyes that don't tell red from green. */
const HUES = {
  light: ["#3b63ad", "#dd9a33", "#449b8a", "#a97fc2", "#7cbce6", "#9a5a40", "#7d7a25", "#4d5764"],
  dark: ["#6f97e3", "#e8b25c", "#57bda5", "#c39be0", "#a5d8f5", "#c27c5c", "#a5a13f", "#7f8b99"],
};

/** The ink on dark hues and on light ones, and which of the hues on light ground are dark; how much of its hue a job has that waits, and one that sleeps. */
const [ON_DARK, ON_LIGHT, DARK] = ["#fff", "#10161d", [0, 5, 6, 7]];
const [WAITS, SLEEPS] = [0.36, 0.13];

/** Forced colours have none between ink and ground, on which ink can be read. @param {number} percent of ink */
const ground = (percent) => `color-mix(in srgb, CanvasText ${percent}%, Canvas)`;

/** What else a picture is drawn with. Red is an alarm, or what is asked for beyond all the time there is. */
export const GROUND = {
  light: {
    ...{ ink: "#1c2530", soft: "#5b6775", faint: "#8b96a3", line: "#e6eaef", paper: "#ffffff" },
    ...{ alarm: "#c8102e", act: "#1f5fd0", used: "#aeb8c3", stolen: "#c3cad3", idle: "#b9cbd8" },
    ...{ curve: "#7488a3", work: "#e3e9f1", over: "#f3bfc6", pale: "#1c2530" },
  },
  dark: {
    ...{ ink: "#e7ebf0", soft: "#a7b1bd", faint: "#7d8895", line: "#2b333d", paper: "#1a2027" },
    ...{ alarm: "#ff6b7d", act: "#7fa8ff", used: "#5a6673", stolen: "#4d5763", idle: "#41566a" },
    ...{ curve: "#8fa6c4", work: "#2a3645", over: "#6b2f3b", pale: "#e7ebf0" },
  },
  forced: {
    ...{ ink: "CanvasText", soft: "CanvasText", faint: "CanvasText", line: ground(15), paper: "Canvas" },
    ...{ alarm: "Highlight", act: "LinkText", used: ground(25), stolen: ground(25), idle: "CanvasText" },
    ...{ curve: "CanvasText", work: ground(15), over: ground(35), pale: "#000" },
  },
};

/** So much of a colour, over another one. @param {string} one @param {string} other @param {number} part */
function mix(one, other, part) {
  const [a, b] = [one, other].map((it) => [1, 3, 5].map((k) => parseInt(it.slice(k, k + 2), 16)));
  return `#${a.map((it, k) => Math.round(it * part + b[k] * (1 - part)).toString(16).padStart(2, "0")).join("")}`;
}

/** The colours by their names in a picture: `b3` is the third job's as it runs, `p3` as it waits, `h3` as it sleeps,
 * `i3` the ink on `b3`; and those of the ground.
 * @param {"light" | "dark" | "forced"} theme
 * @returns {Record<string, string>} */
export function paletteOf(theme) {
  const on = theme === "dark" ? "dark" : "light";
  const { paper } = GROUND[on];
  const jobs = HUES[on].flatMap((it, k) => [[`b${k}`, it], [`p${k}`, mix(it, paper, WAITS)], [`h${k}`, mix(it, paper, SLEEPS)],
    [`i${k}`, on === "light" && DARK.includes(k) ? ON_DARK : ON_LIGHT]]);
  return { ...Object.fromEntries(jobs), ...GROUND[theme] };
}

/** How many names are told apart at most. */
const MOST_NAMES = 64;

export class Colours {
  /** @param {import("./bench.js").Bench} bench @param {import("./account.js").Names} names */
  constructor(bench, names) {
    this.names = names;
    /** @type {Map<string, number>} */
    this.found = new Map();
    for (const it of bench.job) this.of(parseInt(it.at, 8));
    for (const it of bench.phase) {
      const at = /^\w+ [0-7]+ ([0-7]{5})/.exec(it.job ?? "");
      if (at !== null) this.of(parseInt(at[1], 8));
    }
  }

  /** The colour of a job that began at this address: 0 to 7. @param {number} at */
  of(at) {
    const name = this.names.job(at) ?? octal(at, 5);
    const known = this.found.get(name);
    if (known !== undefined) return known;
    const made = this.found.size % HUES.light.length;
    if (this.found.size < MOST_NAMES) this.found.set(name, made);
    return made;
  }

  /** Sees who begins in a run, in that order. @param {import("./lanes.js").Lanes} lanes */
  see({ jobs }) {
    for (let id = 1; id < jobs.count && this.found.size < MOST_NAMES; id++) {
      this.of(jobs.at.items[id]);
    }
  }
}
