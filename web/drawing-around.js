/**
 * What stands around the lanes of a picture: its title, the events' names and the alarms' codes above,
 * the lines that go down from them, the axis and the legend below.
 *
 * @typedef {import("./drawing.js").Sheet} Sheet
 */
import { textWidth } from "./drawing-pens.js";
import { restartOf, whenOf } from "./drawing-words.js";
import { seconds, visible } from "./words.js";

/** How much larger a title is than the rest, how many names a legend tells, and of how many alarms all have their codes. */
const [TITLE, MOST_NAMED, MOST_CODES] = [1.5, 16, 8];

/** The title, as much of it as there is room for. @param {Sheet} sheet */
export function drawTitle(sheet) {
  const size = Math.round(TITLE * sheet.size);
  let text = sheet.view.title ?? "";
  const letters = [...text];
  while (textWidth(text, size, true) > sheet.width - 16 && letters.pop() !== undefined) text = `${letters.join("").trimEnd()}…`;
  sheet.text(text, 8, 0.9 * size, { size, isBold: true });
  sheet.y += Math.ceil(1.7 * size);
}

/** A mark for each event, and its name once, where there is room. @param {Sheet} sheet */
export function drawEvents(sheet) {
  const { run, line, right } = sheet;
  sheet.top = sheet.y;
  if (!(run.lanes.events[0] <= sheet.count)) return;
  const y = sheet.y + line / 2;
  sheet.name("events", y);
  const named = new Set();
  let [last, end] = ["", -1];
  for (const { row, x } of sheet.seen(run.lanes.events)) {
    const name = visible(run.whoAsked(row).slice("event ".length));
    // (one that comes again within a point is one mark)
    if (x < end && name === last) continue;
    [last, end] = [name, x + 1];
    const text = `${name}, ${whenOf(run, row)}`;
    sheet.rect([Math.min(x, right - 1.5), sheet.y + line - 1, 1.5, 5], "soft", named.has(name) ? undefined : text);
    sheet.bands.push({ kind: "event", name, row, text, left: x - 4, right: x + 6, top: sheet.y, bottom: sheet.y + line + 4 });
    const isNew = !/^[0-9]+$/.test(name) && !named.has(name) && x + 3 + textWidth(name, sheet.size) < right;
    if (isNew && sheet.text(name, x + 3, y, { fill: "soft" })) named.add(name);
  }
  sheet.y += line + 6;
}

/** The alarms' codes, each beside the top of its line: where they are close, in two or three levels, and of many not all. @param {Sheet} sheet */
export function drawCodes(sheet) {
  const { run, line, size } = sheet;
  const alarms = sheet.seen(run.alarms);
  const gapOf = (/** @type {number} */ count) => Math.min(...alarms.map(({ x }, k) => x - (alarms[k - count]?.x ?? -Infinity)));
  const [isLong, isFar] = ["alarm 0000", "0000"].map((it) => gapOf(1) > 2 * textWidth(it, size, true) + 8);
  const levels = isFar ? 1 : alarms.length <= MOST_CODES && gapOf(2) < textWidth("0000", size, true) ? 3 : 2;
  sheet.top = sheet.y + (levels - 1) * line;
  // (the lines of all alarms go through all levels but the highest, and through that only its own)
  for (const { x } of alarms) sheet.taken.push([x - 1, x + 1, Math.min(sheet.top, sheet.y + line), sheet.top + line]);
  for (const { row, x } of alarms) {
    const text = restartOf(run, row).replace(isLong ? "" : "alarm ", "");
    const writes = (/** @type {number} */ top) => [x + 5, x - 5].some((at, k) =>
      sheet.text(text, at, top + line / 2, { fill: "paper", ground: "alarm", isBold: true, anchor: k === 0 ? "start" : "end" }));
    const top = Array.from({ length: levels }, (_, k) => sheet.top - k * line).find(writes);
    if (top !== undefined) sheet.tops.set(row, top);
  }
  // (an alarm that has moved out of what is seen isn't gone)
  const next = run.alarms.find((row) => row <= sheet.count && sheet.scale.placeOf(row) > sheet.scale.to);
  if (alarms.length === 0 && next !== undefined && sheet.parts.has("notes") && sheet.scale.isTime)
    sheet.text(`${restartOf(run, next)} at ${seconds(run.ticksAt(next))} \u2192`, sheet.right, sheet.top + line / 2, { anchor: "end", fill: "alarm", isBold: true });
  sheet.y += levels * line;
}

/** Where the lanes end: lines of the axis below all, of alarms and restarts above all. @param {Sheet} sheet */
export function drawLines(sheet) {
  const { run, top, y, left, right } = sheet;
  sheet.bottom = y;
  for (const it of sheet.view.isBare ? [] : sheet.bands) {
    if (it.kind === "set") sheet.path([[left, it.bottom], [right, it.bottom]], { stroke: "line" }, 0);
  }
  for (const { place } of sheet.scale.marks(right - left)) {
    sheet.path([[sheet.xOf(place), top], [sheet.xOf(place), y]], { stroke: "line" }, 0);
  }
  for (const { row, x } of sheet.seen(run.lanes.eras)) {
    const look = run.isAlarm(row) ? { stroke: "alarm", width: 2 } : { stroke: "ink", width: 1.5, isDashed: true };
    sheet.path([[x, sheet.tops.get(row) ?? top], [x, y]], { ...look, told: `${restartOf(run, row)}, ${whenOf(run, row)}` });
    if (run.isAlarm(row)) sheet.bands.push({ kind: "alarm", row, left: x - 3, right: x + 3, top, bottom: y });
  }
}

/** The axis: seconds, or requests with their times where some goes by. @param {Sheet} sheet */
export function drawAxis(sheet) {
  const { run, scale, left, right, line } = sheet;
  const y = sheet.y + 4 + line / 2;
  const hasTimes = !scale.isTime && run.ticksAt(sheet.count) > 0;
  sheet.path([[left, sheet.y], [right, sheet.y]], { stroke: "faint" });
  if (!scale.isTime) sheet.name("request", y);
  if (hasTimes) sheet.name("time", y + line);
  for (const { place, text } of scale.marks(right - left)) {
    const x = sheet.xOf(place);
    const wide = textWidth(text, sheet.size) / 2;
    const anchor = x - wide < left - 4 ? "start" : x + wide > sheet.width - 2 ? "end" : "middle";
    sheet.path([[x, sheet.y], [x, sheet.y + 4]], { stroke: "faint" });
    sheet.text(text, x, y, { anchor, fill: "soft" });
    if (hasTimes) sheet.text(`${run.ticksAt(Number(text)) / 100} s`, x, y + line, { anchor, fill: "soft" });
  }
  sheet.y += line * (hasTimes ? 2 : 1) + 8;
}

/** What the marks mean, and whose each colour is: entries one after the other, in lines. @param {Sheet} sheet */
export function drawLegend(sheet) {
  const { size, line } = sheet;
  const marks = sheet.layers.flat();
  const { at, count } = sheet.run.lanes.jobs;
  /** @type {Map<string, string>} */
  const named = new Map();
  for (let id = 1; id < count && named.size < MOST_NAMED; id++) named.set(sheet.jobName(at.items[id]), `b${sheet.colours.of(at.items[id])}`);
  // (where some have names, those without one are told on their blocks alone)
  const withName = [...named].filter(([name]) => !/^[0-7]{5}$/.test(name));
  const isThere = (/** @type {RegExp} */ fill) => marks.some((it) => fill.test(it.fill ?? ""));
  const lines = marks.filter((it) => it.kind === "path" && typeof it.told === "string" && it.fill === undefined);
  const entries = [
    ...(isThere(/^b[0-9]/) ? [{ text: "runs", fill: "b7" }] : []), ...(isThere(/^p[0-9]/) ? [{ text: "waits", fill: "p7" }] : []),
    ...(isThere(/^h[0-9]/) ? [{ text: "sleeps", fill: "h7", hatch: "p7" }] : []), ...(isThere(/^stolen$/) ? [{ text: "stolen time", fill: "stolen" }] : []),
    ...[["alarm", "alarm"], ["ink", "restart or fresh start"]].flatMap(([stroke, text]) =>
      lines.flatMap((it) => (it.kind === "path" && it.stroke === stroke ? { text, line: it } : [])).slice(0, 1)),
    ...[["ink", -1, "asked for"], ["ink", 1, "deadline"], ["alarm", 1, "deadline missed"]].flatMap(([fill, down, text]) =>
      (marks.some((it) => it.kind === "path" && it.fill === fill && it.points.length === 4 && Math.sign(it.points[1][1] - it.points[0][1]) === down) ? { text, fill, down } : [])),
    ...(withName.length > 0 ? withName : [...named]).map(([text, fill]) => ({ text, fill })),
  ];
  let [x, y] = [8, sheet.y + 4];
  for (const { text, fill, hatch, down, line: like } of /** @type {{ text: string, fill?: string, hatch?: string, down?: number, line?: any }[]} */ (entries)) {
    const width = 24 + textWidth(text, size);
    if (x > 8 && x + width > sheet.width - 8) [x, y] = [8, y + line];
    const top = y + (line - 12) / 2;
    if (down !== undefined) sheet.path([[x + 4, top + 6 - 5 * down], [x + 9, top + 6 + 5 * down], [x + 14, top + 6 - 5 * down], [x + 4, top + 6 - 5 * down]], { fill });
    else if (fill !== undefined) sheet.rect([x, top, 18, 12, 3], fill);
    if (hatch !== undefined) sheet.hatch([x, x + 18, top, 12], hatch);
    if (like !== undefined) sheet.path([[x + 9, top - 1], [x + 9, top + 13]], { stroke: like.stroke, width: like.width, isDashed: like.isDashed });
    sheet.text(text, x + 24, y + line / 2, { fill: "soft" });
    x += width + 18;
  }
  sheet.y = y + line;
}
