/**
 * How requests, numbers and words of the memory are spelled, and what is wrong with a line that is
 * no request. The sentences are those of `agc_watch check`.
 */

import {
  ACTION_KINDS, FORMS as SPELLINGS, JOB_KINDS, LISTING_KINDS, NUMBERS, PARTS as SPELLED, REQUEST_KINDS, STEP_KINDS,
} from "../libagc/js/library.js";
import { lineFault, nearest, spells } from "../libagc/js/lines.js";

export { lineFault, nearest };

/**
 * What a word of a line is: its spelling as a sentence, and the texts that are one.
 * @typedef {{ name: string, label: string, sentence: string, is: (text: string) => boolean }} Part
 */

/** How many tasks may wait. */
export const PLACES = NUMBERS.TASKS;

/** @param {number} number @param {number} digits */
export function octal(number, digits) {
  return number.toString(8).padStart(digits, "0");
}

/** What a field for a part is called. */
const LABELS = { P: "Priority", A: "Address", W: "Bank", D: "Centiseconds", K: "Place", G: "Group", N: "Phase" };

/** @type {Record<string, Part>} */
export const PARTS = Object.fromEntries(Object.entries(SPELLED).map(([letter, { sentence }]) => [letter, {
  name: letter, label: LABELS[/** @type {keyof typeof LABELS} */ (letter)], sentence, is: (/** @type {string} */ text) => spells(text, letter) }]));

/** Each request's form: its word, and what follows. */
export const FORMS = new Map([...SPELLINGS].filter(([, { kind }]) => kind !== 0)
  .map(([word, { letters }]) => [word, [...letters].map((it) => PARTS[it])]));

/** What each request does, in a few words. */
export const MEANINGS = new Map([
  ["novac", "establish a job without a VAC area"],
  ["findvac", "establish a job with a VAC area"],
  ["end", "end the running job"],
  ["sleep", "put the running job to sleep"],
  ["rouse", "wake a job that sleeps at an address"],
  ["prio", "set the running job's priority"],
  ["change", "change to a more urgent job"],
  ["store", "set a work word of the running job"],
  ["list", "list a task for later"],
  ["tick", "let a centisecond pass"],
  ["phase", "set a restart group's phase"],
  ["restart", "restart: the phases say what begins again"],
  ["fresh", "fresh start: all is gone, phases too"],
]);

export const REQUESTS = REQUEST_KINDS;
export const ACTIONS = ACTION_KINDS;
export const JOBS = JOB_KINDS;
export const LISTS = LISTING_KINDS;
export const STEPS = STEP_KINDS;

/** How a line of this word is written: `novac P A W`. @param {string} word */
export function formOf(word) {
  return [word, ...(FORMS.get(word) ?? []).map((it) => it.name)].join(" ");
}

const SET_WORDS = ["number", "work word 1", "work word 2", "work word 3", "work word 4",
  "work word 5", "work word 6", "MODE", "LOC", "BANKSET", "PUSHLOC", "PRIORITY"];
const AREA_PLACES = ["00300", "00354", "00430", "00504", "00560"];

/** What a word of the memory is called, by its place. @param {number} place */
export function wordName(place) {
  const { SET_SIZE, LAST_SET, USE_WORDS, NEWJOB, TIME3, LST1, LST2, PHASE_PLACE, FAILREG } = NUMBERS;
  if (place >= LAST_SET) return `core set 7, ${SET_WORDS[place - LAST_SET]}`;
  if (place < USE_WORDS) return `core set ${Math.floor(place / SET_SIZE)}, ${SET_WORDS[place % SET_SIZE]}`;
  if (place < NEWJOB) return `use word of the VAC area at ${AREA_PLACES[place - USE_WORDS]}`;
  if (place === NEWJOB) return "NEWJOB";
  if (place === TIME3) return "TIME3";
  if (place < LST2) return `LST1, word ${place - LST1 + 1}`;
  if (place < PHASE_PLACE) {
    const task = Math.floor((place - LST2) / 2) + 1;
    return `LST2, ${(place - LST2) % 2 === 0 ? "address" : "bank"} of task ${task}`;
  }
  if (place < FAILREG) {
    return `${(place - PHASE_PLACE) % 2 === 0 ? "-" : ""}PHASE${Math.floor((place - PHASE_PLACE) / 2) + 1}`;
  }
  return `FAILREG, ${["first", "second", "latest"][place - FAILREG]}`;
}

/** A text without signs that would turn the direction of what stands after it. @param {string} text */
export function visible(text) {
  return text.replace(/[\u061c\u200e\u200f\u202a-\u202e\u2066-\u2069]/g, "\ufffd");
}

/** A time in seconds, from centiseconds: `38.01 s`. @param {number} centiseconds */
export function seconds(centiseconds) {
  return `${(centiseconds / 100).toFixed(2)} s`;
}

/** A time in seconds, from hundredths of a centisecond: to the nearest centisecond, or with 99 the next and with 100 the one after it. @param {number} hundredths */
export const took = (hundredths, added = 50) => seconds(Math.floor((hundredths + added) / 100));

/** A count and what is counted: `1 request`, `12 requests`. @param {number} count @param {string} what */
export function counted(count, what) {
  return `${count.toLocaleString("en-US")} ${what}${count === 1 ? "" : "s"}`;
}
