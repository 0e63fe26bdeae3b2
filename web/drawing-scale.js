/**
 * Which part of a run is seen, and what lies where across: time in centiseconds, or where hardly any
 * time goes by, the requests. By requests each one has a column for what it has left, and before that
 * another one for what a restart swept.
 */
import { lastUpTo, lastWhere } from "./lanes.js";

/** The least part that is zoomed to, in ticks or requests; up to how many requests of a bench have a column each, even if
 * time goes by; and how far two marks of an axis are apart at least, in points: of seconds, and of requests. */
const [LEAST_SPAN, FEW, APART] = [20, 120, [64, 45]];

export class Scale {
  /** @param {import("./run.js").Run} run @param {number} count @param {import("./run.js").Run} [over] whose restarts have columns @param {number} [all] for how many rows there is room */
  constructor(run, count, over = run, all = count) {
    this.run = run;
    this.count = count;
    this.all = all;
    this.eras = over.lanes.eras;
    this.lastKey = 2 * count + 1;
    this.isTime = (run.bench.seconds !== undefined || all > FEW) && run.ticksAt(all) >= LEAST_SPAN;
    this.known = Math.max(1, this.isTime ? run.ticksAt(count) : this.placeOf(count) + 1);
    // (of a run that is still computed there is room for all)
    this.end = Math.max(1, !this.isTime ? this.placeOf(all) + 1 : run.isFilling ? 100 * (run.bench.seconds ?? 0) : 0, this.isTime ? run.ticksAt(all) : 0);
    this.from = 0;
    this.to = this.end;
  }

  /** Whether all of the run is seen. */
  get isWhole() {
    return this.from === 0 && this.to === this.end;
  }

  /** @param {number} row */
  placeOf(row) {
    return this.isTime ? this.run.ticksAt(row) : row + lastUpTo(this.eras, this.eras.length, row) + 1;
  }

  /** The place of an entry of the lanes. @param {number} key */
  placeOfKey(key) {
    return this.placeOf(key >> 1) - (this.isTime || (key & 1) === 1 ? 0 : 1);
  }

  /** Where something ends: with what is known of the run, where nothing has ended it. @param {number} key and 0 for none */
  endOf(key) {
    return key === 0 || key > this.lastKey ? this.known : this.placeOfKey(key);
  }

  /** The last key at a place: what entry of the lanes holds there. @param {number} place */
  keyAt(place) {
    const row = Math.max(0, lastWhere(this.count + 1, (it) => this.placeOf(it) <= place));
    const isSwept = !this.isTime && this.placeOf(row) <= place - 1 && row < this.count;
    return 2 * row + (isSwept ? 2 : 1);
  }

  /** How far across a place is: 0 is the left edge, and 1 the right. @param {number} place */
  partOf(place) {
    return (place - this.from) / (this.to - this.from);
  }

  /** Sees this part, within the run. @param {number} from @param {number} to */
  see(from, to) {
    const span = Math.min(this.end, Math.max(Math.min(LEAST_SPAN, this.end), to - from));
    this.from = Math.max(0, Math.min(from, this.end - span));
    this.to = this.from + span;
  }

  /** Sees more, or less: what is at this part of the width stays there. @param {number} times @param {number} part */
  zoom(times, part) {
    const span = this.to - this.from;
    const still = this.from + part * span;
    this.see(still - part * span * times, still + (1 - part) * span * times);
  }

  /** @param {number} part of what is seen */
  move(part) {
    const by = part * (this.to - this.from);
    this.see(this.from + by, this.to + by);
  }

  /** The scale of another run, of which the same part is seen; null where that isn't measured alike. @param {{ run: import("./run.js").Run, count: number }} other */
  ofOther({ run, count }) {
    const made = Object.assign(new Scale(run, count, this.run), { from: this.from, to: this.to });
    return made.isTime === this.isTime ? made : null;
  }

  /** The marks of an axis this wide: round numbers of seconds, or of requests. @param {number} width in points */
  marks(width) {
    const most = Math.max(2, Math.floor(width / APART[this.isTime ? 0 : 1]));
    const least = Math.max((this.to - this.from) / most, 1);
    const ten = 10 ** Math.floor(Math.log10(least));
    const step = [1, 2, 5].map((it) => it * ten).find((it) => it >= least) ?? 10 * ten;
    const first = Math.ceil(this.from / step);
    return Array.from({ length: Math.max(0, Math.floor(this.to / step) - first + 1) }, (_, k) => {
      const at = (first + k) * step;
      return this.isTime ? { place: at, text: `${at / 100} s` } : { place: this.placeOf(at), text: String(at) };
    }).filter(({ place }) => place >= this.from && place <= Math.min(this.to, this.isTime ? this.end : this.placeOf(this.count)));
  }
}
