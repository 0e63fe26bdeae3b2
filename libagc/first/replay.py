import sys
import tomllib

from agc import Clock, Machine

scenario = tomllib.load(sys.stdin.buffer)
machine = Machine(plan=scenario)
clock = Clock(scenario)
for asked, step in machine.iter(clock, clock.lasts):
    if step.alarm:
        print(f"{clock.time / 100:.2f} s, request {machine.totals.served}: alarm {step.alarm:o}")
print(f"{clock.time / 100:.2f} s, request {machine.totals.served}: the end")
