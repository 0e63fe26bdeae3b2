// What bash completes: every command and option that agc_watch's help has, and nothing where a file is wanted.
import assert from "node:assert/strict";
import { spawnSync } from "node:child_process";
import { test } from "node:test";
import { fileURLToPath } from "node:url";

const TOP = fileURLToPath(new URL("../../", import.meta.url));
const PROGRAM = `${TOP}crates/agc_watch/out/agc_watch`;

/** What a program writes. @param {string[]} words */
const written = (...words) => spawnSync(PROGRAM, words, { encoding: "utf8" }).stdout;

/** The words that bash offers after these, the last of which is begun. @param {string} name @param {string[]} words */
function offered(name, ...words) {
  const program = `source share/completions/agc_watch.bash
    COMP_WORDS=("$@"); COMP_CWORD=$(($# - 1)); _${name} ${name === "agc" ? "agc" : PROGRAM} "\${COMP_WORDS[COMP_CWORD]}"
    printf '%s\\n' "\${COMPREPLY[@]}"`;
  const { stdout } = spawnSync("bash", ["-c", program, "bash", name, ...words], { cwd: TOP, encoding: "utf8" });
  return stdout.split("\n").filter(Boolean);
}

test("every command and option of the help is completed", () => {
  const commands = ["trace", "page", "check", "explore", "bench", "peaks", "jobs", "compare", "sweep", "play", "help"];
  assert.deepEqual(offered("agc_watch", ""), commands);
  assert.deepEqual(offered("agc_watch", "help", "p"), ["page", "peaks", "play"]);
  assert.deepEqual(offered("agc_watch", "--"), ["--help", "--version"]);
  for (const command of commands.slice(0, -1)) {
    const options = written(command, "--help").match(/(?<=^ +(-h, )?)--[a-z]+/gm) ?? [];
    assert.deepEqual(offered("agc_watch", command, "--"), options, command);
  }
  assert.deepEqual(offered("agc_watch", "explore", "--b"), ["--bench"]);
});

test("words that are no options", () => {
  assert.deepEqual(offered("agc", ""), ["script", "serial", "threads"]);
  assert.deepEqual(offered("agc", "serial", ""), []);
  assert.deepEqual(offered("agc_watch", "trace", ""), []);
  assert.deepEqual(offered("agc_watch", "sweep", "se"), ["sets", "seconds", "seed"]);
});
