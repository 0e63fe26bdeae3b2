/** An array of numbers that grows: what a run keeps of each row. */

/** @template {Uint8Array | Uint16Array | Uint32Array} T */
export class Column {
  /** @param {new (count: number) => T} kind */
  constructor(kind) {
    this.kind = kind;
    this.items = new kind(64);
  }

  /** @param {number} at @param {number} value */
  set(at, value) {
    if (at >= this.items.length) {
      const longer = new this.kind(4 * this.items.length);
      longer.set(this.items);
      this.items = longer;
    }
    this.items[at] = value;
  }

  /** The first numbers, as a column of its own. @param {number} count */
  front(count) {
    const made = new Column(this.kind);
    const items = new this.kind(Math.max(64, count + (count >> 2)));
    items.set(this.items.subarray(0, count));
    made.items = items;
    return made;
  }
}
