// Times calls from JavaScript, by the module of WebAssembly: medians of nine turns.
import { readFileSync } from "node:fs";
import { Machine } from "../js/agc.js";

const COUNT = 100_000;

function timed(name, call) {
  const times = Array.from({ length: 9 }, () => {
    const from = performance.now();
    for (let k = 0; k < COUNT; k++) call(k);
    return ((performance.now() - from) / COUNT) * 1e6;
  });
  console.log(`JavaScript, ${name}: ${times.sort((a, b) => a - b)[4].toFixed(0)} ns`);
}

const ats = Array.from({ length: 9 }, (_, k) => 0o2000 + k);
const lines = ats.map((at) => `list 1 ${at.toString(8).padStart(5, "0")} 00005`);
const task = ats.map((at, k) => ({ at, bank: 5, action: lines[k] }));
const machine = new Machine({ sets: 7, plan: { task } });
timed("Machine.ask of FINDVACs with alarms, by numbers", () => machine.ask("findvac", 0o30, 0o2100, 5));
timed("Machine.ask of FINDVACs with alarms, by lines", () => machine.ask("findvac 30 02100 00005"));
timed("Machine.ask of ticks with no task", () => machine.ask("tick"));
lines.forEach((line) => machine.ask(line));
timed("Machine.ask of ticks with nine tasks", () => machine.ask("tick"));
const { instance } = await WebAssembly.instantiate(readFileSync(new URL("../js/agc.wasm", import.meta.url)));
const { agc_clear, memory, __heap_base } = instance.exports;
memory.grow(1);
const words = BigInt((Number(__heap_base.value) + 1) & ~1);
timed("agc_clear, as the module has it", () => agc_clear(words, 7));
