/**
 * Stolen time: a percentage, or rows, of which some come again. `docs/FORMATS.md` says when a row
 * holds.
 *
 * @typedef {import("./bench.js").StealRow} StealRow
 * @typedef {import("./bench.js").Bench["steal"]} Steal
 */

/** @param {StealRow} row @param {number} time */
function holds(row, time) {
  if (row.every === undefined) return row.from <= time && time < row.to;
  const after = (time - row.from) % row.every;
  return row.from <= time && after < row.to - row.from && time - after <= (row.until ?? time);
}

/** The percentage that is stolen of a centisecond: that of the first row that holds. @param {Steal} steal @param {number} time */
export function stolenAt(steal, time) {
  if (typeof steal === "number") return steal;
  return steal.find((it) => holds(it, time))?.percent ?? 0;
}

/** Rows that come again, and those that come once, which don't overlap, in the order of time. @param {StealRow[]} steal */
export function partsOf(steal) {
  const once = steal.filter((it) => it.every === undefined).sort((a, b) => a.from - b.from);
  return { once, beats: steal.filter((it) => it.every !== undefined) };
}

/**
 * How much is stolen, part by part of a time: a part of a column of this many centiseconds has what
 * is stolen of it on average, and parts of one percentage are joined.
 * @param {Steal} steal
 * @param {number} from
 * @param {number} to
 * @param {number} column
 * @returns {StealRow[]}
 */
export function stolenParts(steal, from, to, column) {
  if (typeof steal === "number") return [{ from, to, percent: steal }];
  const { once, beats } = partsOf(steal);
  if (beats.length === 0) return once;
  /** @type {StealRow[]} */
  const parts = [];
  const step = Math.max(1, Math.round(column));
  for (let begins = Math.floor(from); begins < to; begins += step) {
    const ends = Math.min(begins + step, Math.ceil(to));
    let sum = 0;
    for (let time = begins; time < ends; time++) sum += stolenAt(steal, time);
    const percent = Math.round(sum / (ends - begins));
    const last = parts.at(-1);
    if (last?.percent === percent) last.to = ends;
    else parts.push({ from: begins, to: ends, percent });
  }
  return parts;
}
