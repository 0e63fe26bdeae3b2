/**
 * The two pens that draw a picture's marks: on a canvas, and as SVG, which is the same text on each machine.
 * Both have a shape's outline as a path, and a text's width by a table of its characters.
 *
 * @typedef {import("./drawing.js").Mark} Mark
 * @typedef {{ width: number, height: number, marks: Mark[], theme?: "light" | "dark" | "forced" }} Drawn
 */
import { paletteOf } from "./colours.js";
import { tellMark } from "./drawing-words.js";

/** The widths of ASCII's characters from the blank on, in hundredths of the size: Arial, and a twentieth more. */
const WIDTHS = [
  ...[30, 30, 38, 59, 59, 94, 71, 21, 35, 35, 41, 62, 30, 35, 30, 30, 59, 59, 59, 59, 59, 59, 59, 59],
  ...[59, 59, 30, 30, 62, 62, 62, 59, 107, 71, 71, 76, 76, 71, 65, 82, 76, 30, 53, 71, 59, 88, 76, 82],
  ...[71, 82, 76, 71, 65, 76, 71, 100, 71, 71, 65, 30, 30, 30, 50, 59, 35, 59, 59, 53, 59, 59, 30, 59],
  ...[59, 24, 24, 53, 24, 88, 59, 59, 59, 59, 35, 53, 30, 59, 53, 76, 53, 53, 53, 36, 28, 36, 62],
];

/** What a letter beyond ASCII takes, and one beyond the first plane or of East Asia; and how much broader bold is. */
const [OTHER, BROAD, FIRST_BROAD, BOLD] = [78, 130, 0x1100, 1.08];

/** No font is loaded: these are on most machines, and none is broader than the table has it. */
const FONT = "'Segoe UI',Roboto,'Helvetica Neue','Noto Sans','Liberation Sans',Arial,sans-serif";

const ENTITIES = /** @type {Record<string, string>} */ ({ "&": "&amp;", "<": "&lt;", ">": "&gt;", '"': "&quot;", "'": "&#39;" });

/** How wide a text is at most, in points. @param {string} text @param {number} size @param {boolean} [isBold] */
export function textWidth(text, size, isBold = false) {
  let hundredths = 0;
  for (const letter of text) {
    const code = letter.codePointAt(0) ?? 0;
    hundredths += WIDTHS[code - 32] ?? (code >= FIRST_BROAD ? BROAD : OTHER);
  }
  return (hundredths * size * (isBold ? BOLD : 1)) / 100;
}

/** @param {number} number */
function tenth(number) {
  return Math.round(10 * number) / 10;
}

/** @param {import("./drawing.js").Rect | import("./drawing.js").Path} mark */
function shapeOf(mark) {
  if (mark.kind === "rect") {
    const [x, y, width, height] = [mark.x, mark.y, mark.width, mark.height].map(tenth);
    const r = mark.round ?? 0;
    if (r === 0) return `M${x} ${y}h${width}v${height}h-${width}z`;
    const [wide, high, turn] = [tenth(width - 2 * r), tenth(height - 2 * r), `a${r} ${r} 0 0 1 `];
    return `M${tenth(x + r)} ${y}h${wide}${turn}${r} ${r}v${high}${turn}-${r} ${r}h-${wide}${turn}-${r}-${r}v-${high}${turn}${r}-${r}z`;
  }
  const points = mark.points.map((it) => it.map(tenth).join(" "));
  if (mark.isHatch) return points.map((it, k) => (k % 2 === 0 ? `M${it}` : `L${it}`)).join("");
  const [first, ...rest] = points;
  if (rest.length === 0) return "";
  return mark.isArrow ? `M${first}Q${rest.join(" ")}${headOf(mark)}` : `M${first}L${rest.join(" ")}`;
}

/** The head of an arrow. @param {import("./drawing.js").Path} mark */
function headOf({ points: [, [a, b], [x, y]], width = 1 }) {
  const angle = Math.atan2(y - b, x - a);
  const far = 5 + 2 * width;
  const [one, other] = [0.4, -0.4].map((turn) =>
    [x - far * Math.cos(angle + turn), y - far * Math.sin(angle + turn)].map(tenth).join(" "));
  return `M${one}L${tenth(x)} ${tenth(y)} ${other}`;
}

/** Draws a picture, as fine as the screen is. @param {HTMLCanvasElement} canvas @param {Drawn} picture */
export function paint(canvas, { width, height, theme, marks }) {
  const ratio = globalThis.devicePixelRatio || 1;
  [canvas.width, canvas.height] = [width, height].map((it) => Math.max(1, Math.round(it * ratio)));
  canvas.style.height = `${height}px`;
  canvas.getContext("2d")?.setTransform(ratio, 0, 0, ratio, 0, 0);
  addMarks(canvas, marks, theme);
}

/** Draws marks over what is there. @param {HTMLCanvasElement} canvas @param {Mark[]} marks @param {Drawn["theme"]} [theme] */
export function addMarks(canvas, marks, theme = "light") {
  const context = canvas.getContext("2d");
  if (context === null) return;
  const palette = paletteOf(theme);
  for (const mark of marks) {
    context.fillStyle = palette[mark.fill ?? "paper"];
    if (mark.kind === "rect" && mark.round === undefined) context.fillRect(mark.x, mark.y, mark.width, mark.height);
    else if (mark.kind === "text") {
      context.font = `${mark.isBold ? "bold " : ""}${mark.size}px ${FONT}`;
      context.textAlign = mark.anchor === "middle" ? "center" : mark.anchor ?? "start";
      context.fillText(mark.text, mark.x, mark.y);
    } else {
      const shape = new Path2D(shapeOf(mark));
      if (mark.fill !== undefined) context.fill(shape);
      if (mark.kind === "rect" || mark.stroke === undefined) continue;
      context.setLineDash(mark.isDashed ? [4, 3] : []);
      [context.strokeStyle, context.lineWidth] = [palette[mark.stroke], mark.width ?? 1];
      context.stroke(shape);
    }
  }
}

/** A text as SVG has it: nothing in it is markup, and what XML forbids is left out. @param {string} text */
function escaped(text) {
  return text.replace(/[\u0000-\u0008\u000b-\u001f\u007f\ufffe\uffff]|\p{Surrogate}/gu, "\ufffd")
    .replace(/[&<>"']/g, (it) => ENTITIES[it]);
}

/** A picture as a document of its own. @param {Drawn} picture @param {string} [title] */
export function svgOf(picture, title = "") {
  const { width, height, marks } = picture;
  return [
    `<svg xmlns="http://www.w3.org/2000/svg" viewBox="0 0 ${width} ${height}" width="${width}" height="${height}" role="img">`,
    ...(title === "" ? [] : [`<title>${escaped(title)}</title>`]),
    `<style>\n${styleOf(marks)}</style>`,
    `<rect class="paper" width="${width}" height="${height}"/>`,
    ...bodyOf(picture, marks), "</svg>", "",
  ].join("\n");
}

/** The colours of all classes that these marks have, bright and dark. @param {Mark[]} marks */
function styleOf(marks) {
  const fills = marks.flatMap((it) => it.fill ?? []);
  const strokes = marks.flatMap((it) => (it.kind === "path" && it.stroke !== undefined ? [`-${it.stroke}`] : []));
  const names = [...new Set(["paper", ...fills, ...strokes])].sort();
  const rules = (/** @type {Record<string, string>} */ palette) => names.map((name) =>
    (name.startsWith("-") ? `.s${name}{stroke:${palette[name.slice(1)]}}` : `.${name}{fill:${palette[name]}}`)).join("");
  return `text{font-family:${FONT};white-space:pre}`
    + ".n{fill:none}.d{stroke-dasharray:4 3}.bold{font-weight:bold}"
    + `.end{text-anchor:end}.middle{text-anchor:middle}\n${rules(paletteOf("light"))}\n`
    + `@media(prefers-color-scheme:dark){${rules(paletteOf("dark"))}}\n`;
}

/** The marks one after the other; neighbours of one look that need no words are one path. @param {any} picture @param {Mark[]} marks */
function bodyOf(picture, marks) {
  /** @type {string[]} */
  const lines = [];
  let open = { look: "", shape: "" };
  const close = () => {
    if (open.shape !== "") lines.push(`<path ${open.look} d="${open.shape}"/>`);
    open = { look: "", shape: "" };
  };
  for (const mark of marks) {
    const told = mark.kind === "text" ? [] : tellMark(picture, mark.told);
    const look = lookOf(mark);
    if (mark.kind === "text" || told.length > 0 || look !== open.look) close();
    if (mark.kind === "text") lines.push(`<text ${look} x="${tenth(mark.x)}" y="${tenth(mark.y)}">${escaped(mark.text)}</text>`);
    else if (told.length > 0) lines.push(`<path ${look} d="${shapeOf(mark)}"><title>${escaped(told.join("\n"))}</title></path>`);
    else open = { look, shape: open.shape + shapeOf(mark) };
  }
  close();
  return lines;
}

/** The classes of a mark, how broad its line is, and how large its text. @param {Mark} mark */
function lookOf(mark) {
  const names = [mark.fill ?? "n"];
  if (mark.kind === "text") {
    names.push(...(mark.isBold ? ["bold"] : []), ...(mark.anchor === undefined || mark.anchor === "start" ? [] : [mark.anchor]));
    return `class="${names.join(" ")}" font-size="${mark.size}"`;
  }
  if (mark.kind === "rect" || mark.stroke === undefined) return `class="${names[0]}"`;
  return `class="${[...names, `s-${mark.stroke}`, ...(mark.isDashed ? ["d"] : [])].join(" ")}" stroke-width="${mark.width ?? 1}"`;
}
