/** What might have prevented the alarm of a landing: the guesses of the tour, and what each changes. */

/** @typedef {import("./bench.js").Bench} Bench */

/** A job's cost is another. @param {Bench} bench @param {string} name @param {number} cost */
function costing({ job }, name, cost) {
  return { job: job.map((it) => (it.name === name ? { ...it, cost } : it)) };
}

/** @type {Record<string, { label: string, done: string, given: (bench: Bench) => any }>} */
export const GUESSES = {
  radar: { label: "No stolen time", done: "Without stolen time", given: () => ({ steal: 0 }) },
  set: { label: "An eighth set", done: "With an eighth core set", given: () => ({ sets: 8 }) },
  display: { label: "No display", done: "Without the display", given: ({ event }) => ({ event: event.filter((it) => it.name !== "display") }) },
  guidance: { label: "A shorter guidance", done: "With a guidance of 1.4 s", given: (bench) => costing(bench, "SERVICER", 140) },
};
