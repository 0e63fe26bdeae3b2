from agc import Machine

entry = {"group": 4, "phase": 5, "job": "findvac 25 06000 00007", "task": "list 10 06100 00007"}
machine = Machine(sets=7, plan={"phase": [entry]})
step = machine.ask("phase 4 5")
while not step.alarm:
    step = machine.ask("findvac 30 02100 00005")
job = machine.scene().sets[0]
print(f"{step}, then job {job.number} runs at {job.at:05o}")
while not step.fired:
    step = machine.ask("tick")
print(step)
