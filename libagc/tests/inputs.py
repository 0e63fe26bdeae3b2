"""Random inputs for the callers of the library, and what these have to write, by the plain model of tools/plain.

    inputs.py requests SEED COUNT               prints script lines
    inputs.py benches PROGRAM SEED COUNT FOLDER
    inputs.py scenarios SEED COUNT FOLDER

caller.py says what the lines are. Of each bench `lines` in the folder has the plan, the words found at power-up, and its
script; `wanted` has what `agc serial` writes, and the model. `steps` has the same lines, and here and there `scene` and
`moment`. `scenes` has what a caller with a class tells then, `moments` reports in place of these. Fails where agc and the
model differ, or an alarm never came, by itself or inside a tick. `passed` has what comes of `scenarios`.
"""
import os
import subprocess
import sys

sys.dont_write_bytecode = True
sys.path.insert(0, f"{os.path.dirname(os.path.realpath(__file__))}/../../tools")

from plain import documents, make, orders, tables, time, words
from plain.machine import Machine

NO_COUNTS = ["SERVED 0", "ALARMS 0 0 0", "RESTARTS 0"]
EACH = 500


def requests(seed, count):
    """Each stretch of lines has addresses and a mixture of kinds of its own."""
    return [line for k in range(count // EACH) for line in make.Dice(f"{seed} {k}").lines(EACH)]


def watched(bench, dice):
    """Of a bench's script: the lines with `scene` and `moment` among them, and what the two sorts of callers write then."""
    machine, lines, scenes, moments = Machine(bench), [], [], []
    for request in bench.script:
        machine.log = []
        reply, _ = machine.ask(request)
        stood = next((it[1] for it in machine.log if it[0] == "era"), machine)
        lines.append(documents.line_of(request))
        scenes.append(reply)
        moments.append(reply)
        if dice.often(0.8 if "alarm" in reply else 0.1):
            lines.append("moment")
            scenes.append(f"moment {tables.scene_list(stood)}")
            moments += [*words.report(stood)][:-3] + NO_COUNTS
        if dice.often(0.1):
            lines.append("scene")
            scenes.append(f"scene {tables.scene_list(machine)}")
    report = [*words.report(machine)]
    return [*documents.caller_lines(bench, []), *lines], scenes + report, moments + report


def benches(program, seed, count):
    """The lines of each file, by its name."""
    files = {name: [] for name in ("lines", "wanted", "steps", "scenes", "moments")}
    for k in range(count):
        dice = make.Dice(f"{seed} {k}")
        made = make.plain_bench(dice, dice.lines(dice.randint(20, 200)))
        made["sets"] = dice.choice([7, 8])
        bench, text = documents.Bench(made), make.toml(made, dice)
        ran = subprocess.run([program, "serial"], input=text, capture_output=True, text=True, check=False)
        run = orders.Run(bench, bench.script)
        if ran.stdout != run.text or run.has_refused:
            sys.exit(f"inputs.py: agc and the plain model differ:\n{text}\n{ran.stdout}\n{run.text}\n{ran.stderr}")
        steps, scenes, moments = watched(bench, dice)
        lines = [*documents.caller_lines(bench, bench.script)]
        begins = [f"bench {bench.sets}"]
        for name, more in (("lines", begins + lines), ("wanted", run.text.splitlines()), ("steps", begins + steps),
                           ("scenes", scenes), ("moments", moments)):
            files[name] += more
    alarms = {it.split(" ")[0] + it[-5:] for it in files["wanted"] if "alarm " in it}
    if not alarms >= {f"{kind} {code:o}" for kind in ("alarm", "tick") for code in words.CODES[1:]}:
        sys.exit(f"inputs.py: there were only these alarms: {sorted(alarms)}")
    return files


def scenario(dice):
    """Events have no names, since only a bench's reader knows these: they count from alarms."""
    made = make.scenario(dice)
    for it in made["event"]:
        it.pop("name", None)
        if it.get("after") not in time.CODES:
            it.pop("after", None)
    return made


def scenarios(seed, count):
    files = {"scenarios": [], "passed": []}
    for k in range(count):
        dice = make.Dice(f"{seed} {k}")
        made = scenario(dice)
        kinds = [*documents.REQUESTS]
        steps = [(dice.randint(0, 100), dice.line(dice.choice(kinds)) if dice.often(0.5) else "") for _ in range(dice.randint(1, 4))]
        files["scenarios"] += (lines := [*time.caller_lines(made, [*steps, (1000, "")])])
        clock = time.Clock(made)
        for centiseconds, line in [*steps, (1000, "")]:
            clock.run(centiseconds)
            if line:
                clock.ask(None, line)
        files["passed"].append(lines[0])
        for row in clock.rows:
            kind, *numbers = documents.request_of(row.line)
            who = {None: 0, time.CLOCK: 1}.get(row.who, row.who + 2 if isinstance(row.who, int) else None)
            numbers = [1 + kinds.index(kind), *numbers, *[0] * (3 - len(numbers))]
            files["passed"].append(" ".join(map(str, [row.time, who, *numbers, row.reply])))
    return files


def main(kind, *rest):
    if kind == "requests":
        print(*requests(rest[0], int(rest[1])), sep="\n")
        return
    *rest, seed, count, folder = rest
    for name, lines in (benches if kind == "benches" else scenarios)(*rest, seed, int(count)).items():
        with open(f"{folder}/{name}", "w", encoding="ascii") as file:
            file.writelines(f"{it}\n" for it in lines)


main(*sys.argv[1:])
