/**
 * What each lane of a run holds over its rows: the jobs in each core set, who owns each VAC area, and the task in
 * each place of the Waitlist; and how many areas and places are taken. Each is a log of changes. An entry's key
 * says since when it holds: 2 n + 1 is what request n has left, and 2 n what was there as request n was answered,
 * where a restart swept it at once.
 *
 * @typedef {"set" | "area" | "task"} Kind
 * @typedef {{ id: number, number: number, at: number, now: number, priority: number, area: number,
 *   state: number, from: number, to: number }} Block `at` is where the job began, `now` where it is;
 *   `from` and `to` are keys, and `to` is 0 where nothing came after
 */
import { NUMBERS } from "../libagc/js/library.js";
import { Column } from "./column.js";

/** What a job does that is in a core set. */
export const State = Object.freeze({ RUNS: 1, WAITS: 2, SLEEPS: 3 });

/** How many places each table has at most. */
export const MOST = { set: NUMBERS.MOST_SETS, area: 5, task: NUMBERS.TASKS };

/** The last of so many numbers for which this holds, as it does for all before. @param {number} count @param {(number: number) => boolean} holds */
export function lastWhere(count, holds) {
  let [low, high] = [0, count];
  while (low < high) {
    const middle = (low + high) >> 1;
    if (holds(middle)) low = middle + 1;
    else high = middle;
  }
  return low - 1;
}

/** The last of so many numbers, which go up, that is at most this. @param {ArrayLike<number>} numbers @param {number} count @param {number} most */
export function lastUpTo(numbers, count, most) {
  return lastWhere(count, (k) => numbers[k] <= most);
}

/** A copy with the first entries alone. @template {Log | Comers} T @param {T} of @param {number} count @returns {T} */
function front(of, count) {
  const made = Object.assign(Object.create(Object.getPrototypeOf(of)), of, { count });
  for (const [name, it] of Object.entries(of)) if (it instanceof Column) made[name] = it.front(count);
  return made;
}

/** The log of a lane: since when who is there, or how many are; and of a job, how it is and at which address. */
export class Log {
  count = 0;
  keys = new Column(Uint32Array);
  ids = new Column(Uint32Array);
  values = new Column(Uint32Array);

  /** @param {number} key @param {number} id 0 where it is free @param {number} [value] */
  put(key, id, value = 0) {
    const { keys, ids, values } = this;
    const last = this.count - 1;
    if (last >= 0 && ids.items[last] === id && values.items[last] === value) return;
    const k = last >= 0 && keys.items[last] === key ? last : this.count;
    keys.set(k, key);
    ids.set(k, id);
    values.set(k, value);
    this.count = k + 1;
  }

  /** Who sleeps there last of all; 0 where nobody does. */
  get sleeper() {
    const last = this.count - 1;
    return ((this.values.items[last] >> 4) & 3) === State.SLEEPS ? this.ids.items[last] : 0;
  }

  /** Whether nobody was ever there. */
  get isFree() {
    return this.count === 1 && this.ids.items[0] === 0;
  }

  /** The entry that holds at a key; -1 where none does. @param {number} key */
  entryAt(key) {
    return lastUpTo(this.keys.items, this.count, key);
  }

  /** Until which key an entry holds: 0 where nothing came after. @param {number} entry */
  endOf(entry) {
    return entry + 1 < this.count ? this.keys.items[entry + 1] : 0;
  }
}

/** Those that come and go: jobs, or tasks. Number 0 is nobody. */
class Comers {
  count = 1;
  at = new Column(Uint16Array);
  bank = new Column(Uint16Array);
  born = new Column(Uint32Array);
  gone = new Column(Uint32Array);
  /** A job's number, or when a task is due. */
  more = new Column(Uint32Array);
  /** In which core set a job began, or where on the Waitlist a task waits. */
  place = new Column(Uint8Array);

  /** @param {number} key @param {{ at: number, bank: number, more: number, place: number }} of */
  come(key, of) {
    for (const [name, it] of Object.entries({ ...of, born: key, gone: 0 })) /** @type {any} */ (this)[name].set(this.count, it);
    return this.count++;
  }

  /** Those of whom this holds. @param {(id: number) => boolean} holds */
  which(holds) {
    const found = [];
    for (let id = 1; id < this.count; id++) if (holds(id)) found.push(id);
    return found;
  }

  /** Those that had come up to a key, as it was then. @param {number} key */
  front(key) {
    const made = front(this, lastUpTo(this.born.items, this.count, key) + 1);
    for (const id of made.which((it) => made.gone.items[it] > key)) made.gone.items[id] = 0;
    return made;
  }
}

export class Lanes {
  /** @param {number} sets */
  constructor(sets) {
    const logs = (/** @type {number} */ count) => Array.from({ length: count }, () => new Log());
    /** The logs of lanes by their kinds, and of how many places are taken. */
    this.logs = { set: logs(sets), area: logs(MOST.area), task: logs(MOST.task) };
    this.taken = { area: new Log(), task: new Log() };
    this.jobs = new Comers();
    this.tasks = new Comers();
    /** The living jobs, by number, and the tasks that wait. */
    this.byNumber = new Uint32Array(MOST.set + 1);
    this.waiting = /** @type {number[]} */ ([]);
    /** The rows with which an event came, and with which an era began. */
    this.events = /** @type {number[]} */ ([]);
    this.eras = /** @type {number[]} */ ([]);
    /** The rows with which a job began to need time, as it was established or roused. @type {{ row: number, at: number }[]} */
    this.needs = [];
  }

  /** The jobs that are there since a key, by core set. @param {number} key @param {(import("../libagc/js/machine.js").Job | null)[]} jobs @param {boolean} beginsEra */
  lookAtJobs(key, jobs, beginsEra) {
    if (beginsEra && key > 1) this.eras.push(key >> 1);
    const before = this.byNumber;
    const owners = Array(MOST.area).fill(0);
    const sleepers = this.logs.set.map((it) => it.sleeper);
    this.byNumber = new Uint32Array(MOST.set + 1);
    this.logs.set.forEach((log, k) => {
      const job = jobs[k];
      if (job === null) return log.put(key, 0);
      const { number, at, bank, asleep, priority, area } = job;
      const isOld = !beginsEra && before[number] > 0;
      const id = isOld ? before[number] : this.jobs.come(key, { at, bank, more: number, place: k });
      this.byNumber[number] = id;
      if (area > 0) owners[area - 1] = id;
      if (!asleep && (!isOld || sleepers.includes(id)) && (key & 1) === 1) this.needs.push({ row: key >> 1, at });
      const state = asleep ? State.SLEEPS : k === 0 ? State.RUNS : State.WAITS;
      return log.put(key, id, number | (state << 4) | (priority << 6) | (area << 11) | (at << 14));
    });
    for (const [number, id] of before.entries()) if (id > 0 && id !== this.byNumber[number]) this.jobs.gone.items[id] = key;
    this.take("area", key, owners);
  }

  /** The tasks that wait since a key. @param {number} key @param {{ at: number, bank: number, due: number }[]} tasks @param {boolean} beginsEra */
  lookAtTasks(key, tasks, beginsEra) {
    const { at, bank, more, place, gone } = this.tasks;
    const left = beginsEra ? [] : [...this.waiting];
    const found = tasks.map((it) => {
      const k = left.findIndex((id) => at.items[id] === it.at && bank.items[id] === it.bank && more.items[id] === it.due);
      return k < 0 ? 0 : left.splice(k, 1)[0];
    });
    for (const id of beginsEra ? this.waiting : left) gone.items[id] = key;
    const places = Array(MOST.task).fill(0);
    for (const id of found) if (id > 0) places[place.items[id]] = id;
    this.waiting = found.map((id, k) => {
      if (id > 0) return id;
      const free = places.indexOf(0);
      return places[free] = this.tasks.come(key, { at: tasks[k].at, bank: tasks[k].bank, more: tasks[k].due, place: free });
    });
    this.take("task", key, places);
  }

  /** Who is in each place of a table since a key. @param {"area" | "task"} kind @param {number} key @param {number[]} ids */
  take(kind, key, ids) {
    ids.forEach((id, k) => this.logs[kind][k].put(key, id));
    this.taken[kind].put(key, ids.filter((id) => id > 0).length);
  }

  /** The lanes up to a row. @param {number} row */
  front(row) {
    const made = new Lanes(0);
    const key = 2 * row + 1;
    const upTo = (/** @type {Log} */ log) => front(log, log.entryAt(key) + 1);
    const { set, area, task } = this.logs;
    made.logs = { set: set.map(upTo), area: area.map(upTo), task: task.map(upTo) };
    made.taken = { area: upTo(this.taken.area), task: upTo(this.taken.task) };
    [made.jobs, made.tasks] = [this.jobs.front(key), this.tasks.front(key)];
    [made.eras, made.events] = [this.eras, this.events].map((rows) => rows.filter((it) => it <= row));
    made.needs = this.needs.filter((it) => it.row <= row);
    const [jobs, tasks] = [made.jobs, made.tasks].map((it) => it.which((id) => it.gone.items[id] === 0));
    for (const id of jobs) made.byNumber[made.jobs.more.items[id]] = id;
    made.waiting = tasks;
    return made;
  }

  /** The job in a core set at a key, or null. @param {number} set @param {number} key */
  blockAt(set, key) {
    const entry = this.logs.set[set].entryAt(key);
    return entry < 0 ? null : this.block(set, entry);
  }

  /** An entry of a core set's log, or null where the set is free. @param {number} set @param {number} k @returns {Block | null} */
  block(set, k) {
    const log = this.logs.set[set];
    const [id, value] = [log.ids.items[k], log.values.items[k]];
    if (id === 0) return null;
    return { id, number: value & 15, state: (value >> 4) & 3, priority: (value >> 6) & 31, area: (value >> 11) & 7, at: this.jobs.at.items[id],
      now: value >> 14, from: log.keys.items[k], to: log.endOf(k) };
  }
}
