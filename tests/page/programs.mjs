// The programs and Python beside which the page's functions are tried.
import assert from "node:assert/strict";
import { spawn, spawnSync } from "node:child_process";
import { existsSync } from "node:fs";
import { availableParallelism } from "node:os";
import { fileURLToPath } from "node:url";

export const TOP = fileURLToPath(new URL("../../", import.meta.url));
export const [AGC, WATCH] = ["agc", "agc_watch"].map((it) => `${TOP}crates/${it}/out/${it}`);

/** Why what needs the programs is skipped, if they aren't built. */
export const skip = !(existsSync(AGC) && existsSync(WATCH)) && "tools/prove agc agc_watch builds the programs";

/** What a program of Python, or a file of one, prints as JSON. @param {string[]} words @param {unknown} [given] */
export function python(words, given) {
  const { status, stdout, stderr } = spawnSync("python3", ["-B", ...words], { cwd: TOP, input: JSON.stringify(given ?? null), encoding: "utf8", maxBuffer: 1e9 });
  assert.equal(status, 0, stderr);
  return JSON.parse(stdout);
}

/** How a program ends with an input, and what it writes; a status of null is one that takes longer than a minute.
 * @param {string} program @param {string[]} words @param {string | Uint8Array} input @returns {Promise<{ status: number | null, text: string }>} */
function ended(program, words, input) {
  return new Promise((done) => {
    const child = spawn(program, words, { stdio: ["pipe", "pipe", "ignore"], timeout: 60_000 });
    /** @type {any[]} */
    const parts = [];
    child.stdout.on("data", (part) => parts.push(part));
    child.stdin.on("error", () => {});
    child.on("close", (status) => done({ status, text: Buffer.concat(parts).toString() }));
    child.stdin.end(input);
  });
}

/** How a program ends with each of these inputs, some at a time. @param {string} program @param {string[]} words @param {(string | Uint8Array)[]} inputs */
export async function each(program, words, inputs) {
  /** @type {{ status: number | null, text: string }[]} */
  const found = Array(inputs.length);
  let next = 0;
  await Promise.all(Array.from({ length: availableParallelism() }, async () => {
    while (next < inputs.length) {
      const k = next++;
      found[k] = await ended(program, words, inputs[k]);
    }
  }));
  return found;
}
