/**
 * The machine of machine.js, with the module agc.wasm that lies beside this file. It is loaded by
 * reading that file, as in node, or else by fetching it.
 */
import { start } from "./machine.js";

export * from "./machine.js";

/** @param {URL} place */
async function bytesOf(place) {
  if (place.protocol === "file:" && typeof process !== "undefined") {
    const { readFile } = await import("node:fs/promises");
    return readFile(place);
  }
  const found = await fetch(place);
  if (!found.ok) throw new Error(`${place} can't be fetched: status ${found.status}`);
  return found.arrayBuffer();
}

await start(await bytesOf(new URL("./agc.wasm", import.meta.url)));
