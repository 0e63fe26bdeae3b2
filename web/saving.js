/** What is saved of a run: as a bench, as its document, and as a link. */
import { writeBench } from "./bench.js";
import { benchOf, packed } from "./files.js";

/** The bench that comes to the same tables, and the scenario, if it is one. @param {import("./state.js").State} now */
export function isSaved({ run, count }) {
  const bench = benchOf(run, count);
  return { bench, whole: run.bench.seconds === undefined ? bench : writeBench(run.bench) };
}

/** What stands behind `#` in a link to what is shown. @param {import("./state.js").State} now */
export async function openedMark(now) {
  const { run, count, kept } = now;
  const { source } = run;
  const isTimed = run.bench.seconds !== undefined;
  const isMore = count < run.count
    || run.who.some((it) => it.startsWith("you") || (!isTimed && it === "the clock"));
  const isOpened = run.isOpened && source.document !== "" && !isMore;
  const found = isOpened && !source.isChanged && kept.find((it) => it.text === source.document || it.name === source.exercise);
  return found ? `#${found.name}` : `#bench=${await packed(isOpened ? source.document : isSaved(now).whole).catch(() => "")}`;
}
