/**
 * Reads a document of just the TOML that a bench or a scenario has: keys, strings, integers, arrays
 * and tables in arrays. What else TOML allows is refused as unknown here; what TOML refuses is
 * refused too. An integer is a BigInt, so that none is rounded.
 *
 * @typedef {string | bigint | boolean | any[] | Table} Value
 * @typedef {{ keys: Map<string, Value>, line: number, lines: Map<string, number> }} Table
 */

/** A document that isn't read: in which line, and why. */
export class Unread extends Error {
  /** @param {number} line @param {string} reason */
  constructor(line, reason) {
    super(`line ${line}: ${reason}`);
    this.line = line;
    this.reason = reason;
  }
}

/** In which line each item of an array stands. @type {WeakMap<object, number[]>} */
export const linesOf = new WeakMap();

const ESCAPES = { b: "\b", t: "\t", n: "\n", f: "\f", r: "\r", '"': '"', "\\": "\\" };
// What may stand in a text: no control but the tab.
const CONTROL = /[\u0000-\u0008\u000a-\u001f\u007f]/;
const [LEAST, MOST] = [-(2n ** 63n), 2n ** 63n - 1n];

/** @param {number} line @returns {Table} */
function newTable(line) {
  return { keys: new Map(), line, lines: new Map() };
}

/** A text, and how far it is read. */
class Reader {
  /** @param {string} text */
  constructor(text) {
    this.text = text.startsWith("\ufeff") ? text.slice(1) : text;
    this.at = 0;
    this.line = 1;
    /** The arrays of tables that were begun by a heading. */
    this.opened = new Set();
  }

  /** @param {string} reason @returns {never} */
  refuse(reason) {
    throw new Unread(this.line, reason);
  }

  /** @param {string} text */
  meets(text) {
    return this.text.startsWith(text, this.at);
  }

  /** Passes over a text, if it is next. @param {string} text */
  takes(text) {
    if (!this.meets(text)) return false;
    this.at += text.length;
    return true;
  }

  /** What a pattern that is bound to its place finds here, which is passed over. @param {RegExp} pattern */
  match(pattern) {
    pattern.lastIndex = this.at;
    const found = pattern.exec(this.text);
    if (found === null) return null;
    this.at += found[0].length;
    return found;
  }

  spaces() {
    this.match(/[ \t]*/y);
  }

  /** Passes over a comment, if one is next. */
  comment() {
    const found = this.match(/#[^\r\n]*/y);
    if (found !== null && CONTROL.test(found[0])) this.refuse("a comment has a control character");
  }

  /** Passes over a line's end, and says whether there was one. */
  lineEnd() {
    if (!this.takes("\n") && !this.takes("\r\n")) return false;
    this.line += 1;
    return true;
  }

  /** Passes over spaces, comments and line ends. */
  blanks() {
    do {
      this.spaces();
      this.comment();
    } while (this.lineEnd());
  }

  /** The end of a line, after its contents. */
  restOfLine() {
    this.spaces();
    this.comment();
    if (this.at < this.text.length && !this.lineEnd()) this.refuse("the line should end here");
  }

  /** @returns {string} */
  key() {
    const bare = this.match(/[A-Za-z0-9_-]+/y);
    if (bare !== null) return bare[0];
    if (this.meets('"""') || this.meets("'''")) this.refuse("a key stands on one line");
    if (this.takes('"')) return this.basic();
    if (this.takes("'")) return this.literal();
    return this.refuse("a key is expected");
  }

  /** A key, and the sign after it. */
  keyAndSign() {
    const key = this.key();
    this.spaces();
    if (this.meets(".")) this.refuse("keys with points are a form that isn't known here");
    if (!this.takes("=")) this.refuse("= is expected");
    this.spaces();
    return key;
  }

  /** The rest of a string in single quotes. */
  literal() {
    const found = this.match(/([^'\r\n]*)'/y);
    if (found === null) return this.refuse("a string doesn't end");
    if (CONTROL.test(found[1])) this.refuse("a string has a control character");
    return found[1];
  }

  /** The rest of a string in double quotes. */
  basic() {
    const pieces = [];
    for (;;) {
      const found = this.match(/[^"\\\r\n]*/y);
      if (found === null || CONTROL.test(found[0])) this.refuse("a string has a control character");
      else pieces.push(found[0]);
      if (this.takes('"')) return pieces.join("");
      if (!this.takes("\\")) this.refuse("a string doesn't end");
      pieces.push(this.escape());
    }
  }

  /** What follows a backslash. */
  escape() {
    const sign = this.text[this.at] ?? "";
    if (Object.hasOwn(ESCAPES, sign)) {
      this.at += 1;
      return ESCAPES[/** @type {keyof typeof ESCAPES} */ (sign)];
    }
    const found = this.match(/u([0-9A-Fa-f]{4})|U([0-9A-Fa-f]{8})/y);
    const code = found === null ? -1 : parseInt(found[1] ?? found[2], 16);
    if (code < 0 || code > 0x10ffff || (code >= 0xd800 && code <= 0xdfff)) {
      return this.refuse("an escape isn't known here");
    }
    return String.fromCodePoint(code);
  }

  /** The rest of a string over several lines, in these quotes. @param {string} quote */
  manyLines(quote) {
    this.lineEnd();
    const from = this.at;
    const end = this.text.indexOf(quote.repeat(3), this.at);
    const inner = end < 0 ? "" : this.text.slice(from, end);
    if (end < 0) this.refuse("a string doesn't end");
    if (inner.includes("\\") && quote === '"') {
      this.refuse("escapes in a long string aren't known here");
    }
    if (this.text[end + 3] === quote) this.refuse("quotes at a string's end aren't known here");
    const lines = inner.split(/\r?\n/);
    if (lines.some((it) => CONTROL.test(it))) this.refuse("a string has a control character");
    this.line += lines.length - 1;
    this.at = end + 3;
    return lines.join("\n");
  }

  /** @returns {bigint} */
  integer() {
    const pattern = /([+-]?)(0x[0-9A-Fa-f_]+|0o[0-7_]+|0b[01_]+|[0-9][0-9_]*)(?![0-9A-Za-z_.:+-])/y;
    const found = this.match(pattern);
    if (found === null) return this.refuse("this value is of a form that isn't known here");
    const [, sign, digits] = found;
    const isDecimal = /^[0-9]/.test(digits) && !/^0[xob]/.test(digits);
    const body = isDecimal ? digits : digits.slice(2);
    if (/^_|__|_$/.test(body)) this.refuse("a number's _ stands between two digits");
    if (isDecimal && /^0./.test(digits)) this.refuse("a number has no zero before it");
    if (!isDecimal && sign !== "") this.refuse("such a number has no sign");
    const number = BigInt(digits.replaceAll("_", "")) * (sign === "-" ? -1n : 1n);
    if (number < LEAST || number > MOST) this.refuse("a number has more than 64 bits");
    return number;
  }

  /** @param {number} depth @returns {Value} */
  value(depth) {
    if (depth > 8) this.refuse("arrays nested so deep aren't known here");
    if (this.takes('"""')) return this.manyLines('"');
    if (this.takes("'''")) return this.manyLines("'");
    if (this.takes('"')) return this.basic();
    if (this.takes("'")) return this.literal();
    if (this.takes("[")) return this.array(depth);
    if (this.takes("{")) return this.inline(depth);
    const flag = this.match(/(true|false)(?![0-9A-Za-z_.:+-])/y);
    return flag === null ? this.integer() : flag[0] === "true";
  }

  /** @param {number} depth */
  array(depth) {
    /** @type {Value[]} */
    const items = [];
    /** @type {number[]} */
    const lines = [];
    linesOf.set(items, lines);
    for (;;) {
      this.blanks();
      if (this.takes("]")) return items;
      lines.push(this.line);
      items.push(this.value(depth + 1));
      this.blanks();
      if (this.takes("]")) return items;
      if (!this.takes(",")) this.refuse("a comma or ] is expected");
    }
  }

  /** @param {number} depth */
  inline(depth) {
    const table = newTable(this.line);
    for (;;) {
      this.blanks();
      if (this.takes("}")) return table;
      this.entry(table, depth + 1);
      this.blanks();
      if (this.takes("}")) return table;
      if (!this.takes(",")) this.refuse("a comma or } is expected");
    }
  }

  /** A key and its value. @param {Table} table @param {number} depth */
  entry(table, depth) {
    const line = this.line;
    const key = this.keyAndSign();
    if (table.keys.has(key)) this.refuse(`the key ${JSON.stringify(key)} stands twice`);
    table.keys.set(key, this.value(depth));
    table.lines.set(key, line);
  }

  /** The table that a heading begins. @param {Table} top */
  heading(top) {
    if (!this.takes("[[")) this.refuse("a table alone, [..], has no place here: write [[..]]");
    this.spaces();
    const line = this.line;
    const key = this.key();
    this.spaces();
    if (this.meets(".")) this.refuse("keys with points are a form that isn't known here");
    if (!this.takes("]]")) this.refuse("]] is expected");
    const found = top.keys.get(key);
    if (found !== undefined && !this.opened.has(key)) {
      this.refuse(`the key ${JSON.stringify(key)} stands twice`);
    }
    const tables = /** @type {Table[]} */ (found ?? []);
    tables.push(newTable(line));
    top.keys.set(key, tables);
    if (!top.lines.has(key)) top.lines.set(key, line);
    this.opened.add(key);
    return tables[tables.length - 1];
  }
}

/** The table of a document. @param {string} text @returns {Table} */
export function readToml(text) {
  const reader = new Reader(text);
  const top = newTable(1);
  let table = top;
  for (;;) {
    reader.blanks();
    if (reader.at >= reader.text.length) return top;
    if (reader.meets("[")) table = reader.heading(top);
    else reader.entry(table, 0);
    reader.restOfLine();
  }
}
