// The types that the comments of web/ and libagc/js say, and those of agc.d.ts, checked by tsc --strict, where it is there:
// Debian's node-typescript.
import assert from "node:assert/strict";
import { spawnSync } from "node:child_process";
import { mkdirSync, mkdtempSync, readFileSync, readdirSync, rmSync, writeFileSync } from "node:fs";
import { tmpdir } from "node:os";
import { fileURLToPath } from "node:url";
import { test } from "node:test";

const TOP = fileURLToPath(new URL("../../", import.meta.url));
const WORDS = "--noEmit --allowJs --checkJs --strict --target es2022 --module esnext --moduleResolution node --lib esnext,dom,dom.iterable".split(" ");
const ROOTS = ["known.d.ts", "web/main.js", "web/picture.mjs", "libagc/js/browser.js", "declared/agc.d.ts"];

// What tsc doesn't know: node, and what came after its release 4.8.
const KNOWN = `declare module "node:*";
declare const process: any, Buffer: any, CompressionStream: any, DecompressionStream: any;
type Buffer = any;
interface Array<T> { findLast(holds: (it: T, k: number) => boolean): T | undefined }
`;

// tsc reads a tag only where a line of a comment begins.
const COMMENT_LINE = /^ *(?:\/\*)?\*.*/gm;
const TAG = /(?<=[^*\n]) (?=@(?:param|returns|type|typedef|template|readonly|internal)\b)/g;

const isThere = spawnSync("tsc", ["--version"]).status === 0;

test("types are as the comments say", { skip: !isThere && "there is no tsc" }, () => {
  const room = mkdtempSync(`${tmpdir()}/types-`);
  try {
    for (const folder of ["web", "libagc/js", "declared"]) mkdirSync(`${room}/${folder}`, { recursive: true });
    for (const folder of ["web", "libagc/js"]) {
      for (const name of readdirSync(`${TOP}/${folder}`).filter((it) => /\.(m?js|d\.ts)$/.test(it))) {
        const to = name.endsWith(".d.ts") ? "declared" : folder;
        writeFileSync(`${room}/${to}/${name}`, readFileSync(`${TOP}/${folder}/${name}`, "utf8").replace(COMMENT_LINE, (it) => it.replace(TAG, "\n * ")));
      }
    }
    writeFileSync(`${room}/known.d.ts`, KNOWN);
    const { status, stdout } = spawnSync("tsc", [...WORDS, ...ROOTS], { cwd: room, encoding: "utf8" });
    assert.deepEqual({ status, stdout }, { status: 0, stdout: "" });
  } finally {
    rmSync(room, { recursive: true });
  }
});
