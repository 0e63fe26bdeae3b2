import { Machine } from "../js/agc.js";

const entry = { group: 4, phase: 5, job: "findvac 25 06000 00007", task: "list 10 06100 00007" };
const machine = new Machine({ sets: 7, plan: { phase: [entry] } });
let step = machine.ask("phase 4 5");
while (!step.alarm) step = machine.ask("findvac 30 02100 00005");
const [job] = machine.scene().sets;
console.log(`${step}, then job ${job.number} runs at ${job.at.toString(8).padStart(5, "0")}`);
while (!step.fired.length) step = machine.ask("tick");
console.log(`${step}`);
