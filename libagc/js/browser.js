/**
 * The machine of machine.js, with the module agc.wasm that lies beside this file, as bundlers take it
 * for a browser: it is fetched. Bundlers that know `new URL(.., import.meta.url)` copy it beside what
 * they write; with others copy it there.
 */
import { start } from "./machine.js";

export * from "./machine.js";

const place = new URL("./agc.wasm", import.meta.url);
const found = await fetch(place);
if (!found.ok) throw new Error(`${place} can't be fetched: status ${found.status}`);
await start(await found.arrayBuffer());
