// The page's reader of documents takes what agc takes, and reads it so, or says that it doesn't know the form; and it takes a scenario
// where agc_watch does. The documents are those of documents.py.
import assert from "node:assert/strict";
import { test } from "node:test";
import { Clock, start } from "../../libagc/js/machine.js";
import { readBench, requestsOf } from "../../web/bench.js";
import { moduleBytes } from "../../web/picture.mjs";
import { Run } from "../../web/run.js";
import { AGC, WATCH, each, python, skip } from "./programs.mjs";

await start(await moduleBytes());

/** How many requests are asked of one document. */
const MOST = 50_000;

/** The report of a document's run, "scenario", or "long" where it asks for very much; or why it isn't read. @param {string} text @returns {{ report?: string, reason?: string }} */
function read(text) {
  try {
    const bench = readBench(text);
    const run = new Run(bench);
    if (bench.seconds !== undefined) {
      const { seconds, seed, steal, job, event } = bench;
      new Clock({ seconds, seed, steal, job, event });
      return { report: "scenario" };
    }
    for (const [line, who] of requestsOf(run.bench)) {
      run.ask(line, who);
      if (run.count > MOST) return { report: "long" };
    }
    return { report: run.head.machine.report() };
  } catch (fault) {
    return { reason: String(/** @type {Error} */ (fault).message) };
  }
}

/** The bytes of a text, also of half a letter, which is no UTF-8. @param {string} text */
function bytesOf(text) {
  return text.isWellFormed() ? Buffer.from(text) : Buffer.from(text.replaceAll(/[\ud800-\udfff]/gu, "\xff"), "latin1");
}

test("documents are read as agc and agc_watch read them", { skip }, async () => {
  /** @type {{ lines: [string, number][], edges: string[], others: string[] }} */
  const { lines, edges, others } = python(["tests/page/documents.py"]);
  for (const [text, line] of lines) assert.match(read(text).reason ?? "", new RegExp(`^line ${line}: `), text);
  for (const text of edges) assert.match(read(text).reason ?? "line ", /^line /, text);
  // (of what asks for very much nothing is compared)
  const found = new Map([...lines.map(([it]) => it), ...edges, ...others].map((it) => [it, read(it)]));
  const texts = [...found.keys()].filter((it) => found.get(it)?.report !== "long");
  const answers = await each(AGC, ["serial"], texts.map(bytesOf));
  const refused = texts.filter((it, k) => answers[k].status !== 0 && /seconds|repeat|device/.test(it));
  const watched = await each(WATCH, ["peaks"], refused.map(bytesOf));
  // (agc_watch has taken what it runs for long)
  const scenarios = new Set(refused.filter((_, k) => watched[k].status === 0 || watched[k].status === null));
  const counts = { taken: 0, unknown: 0, scenarios: scenarios.size };
  for (const [k, text] of texts.entries()) {
    const [{ report, reason = "" }, agc] = [found.get(text) ?? {}, answers[k]];
    if (scenarios.has(text)) assert.ok(report !== undefined || reason.includes("known here"), `agc_watch takes it, ${reason}: ${text}`);
    else if (report !== undefined) {
      const from = agc.text.indexOf(agc.text.includes("SETS 8\n") ? "SETS 8\n" : "SET 0 ");
      assert.deepEqual([agc.status, report], [0, agc.text.slice(from)], text);
      counts.taken += 1;
    } else if (agc.status === 0) {
      assert.match(reason, /known here/, text);
      counts.unknown += 1;
    }
  }
  assert.ok(counts.taken > 500 && counts.scenarios > 20, JSON.stringify(counts));
});
