import { readFileSync } from "node:fs";
import { Clock, Machine } from "../js/agc.js";

const scenario = JSON.parse(readFileSync(0, "utf8"));
const machine = new Machine({ plan: scenario });
const clock = new Clock(scenario);
const tell = (time, what) =>
  console.log(`${(time / 100).toFixed(2)} s, request ${machine.totals.served}: ${what}`);
machine.run(clock, clock.lasts, (asked, step, time) => {
  if (step.alarm) tell(time, `alarm ${step.alarm.toString(8)}`);
});
tell(clock.time, "the end");
