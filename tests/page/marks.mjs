// What is wrong with the marks of a picture.
import { textWidth } from "../../web/drawing-pens.js";

/** @param {import("../../web/drawing.js").Mark} mark */
function boxOf(mark) {
  if (mark.kind === "rect") return [mark.x, mark.y, mark.x + mark.width, mark.y + mark.height];
  if (mark.kind === "path") return [Math.min, Math.max].flatMap((end) => [0, 1].map((k) => mark.points.reduce((most, it) => end(most, it[k]), mark.points[0]?.[k] ?? 0)));
  const wide = textWidth(mark.text, mark.size, mark.isBold);
  const left = mark.x - (mark.anchor === "end" ? wide : mark.anchor === "middle" ? wide / 2 : 0);
  return [left, mark.y - 0.86 * mark.size, left + wide, mark.y + 0.14 * mark.size];
}

/** Marks that leave the frame, and texts that are smaller than 12 points or meet another one. @param {import("../../web/drawing.js").Picture} picture */
export function faultsOf({ width, height, marks }) {
  const boxes = marks.map((it) => ({ it, box: boxOf(it) }));
  const outside = boxes.filter(({ box: [left, top, right, bottom] }) => !(left >= 0 && top >= 0 && right <= width + 0.1 && bottom <= height + 0.1));
  const texts = boxes.filter(({ it }) => it.kind === "text");
  const meeting = texts.filter(({ box: a }, k) => texts.slice(k + 1).some(({ box: b }) => a[0] < b[2] && b[0] < a[2] && a[1] < b[3] && b[1] < a[3]));
  const small = texts.filter(({ it }) => it.kind === "text" && it.size < 12);
  return [...outside.map((it) => ["outside", it]), ...meeting.map((it) => ["meets another", it]), ...small.map((it) => ["small", it])];
}
