"""A trace of a run, from docs/FORMATS.md, as CSV, as JSON and as a chart. It is made from the rows of time.py: the requests, the
machine after each, and the log of what happened. Sums of runs, jobs and eras are proved; what remains is how they are written,
which cases compare."""
import collections
import csv
import io
import json
import re

from .time import CLOCK, Clock


def seconds(centiseconds):
    return f"{centiseconds // 100}.{centiseconds % 100:02}"


# Traces.

COLUMNS = ["no", "time", "total", "by", "request", "reply", "alarm", "running", "priority", "sets_used", "areas_used", "tasks_waiting",
           *(f"set{k}" for k in range(8)), *(f"area{k}" for k in range(1, 6))]


class Names:
    """What a scenario calls things."""

    def __init__(self, scenario):
        self.jobs, self.tasks, self.phases = {}, {}, {}
        for names, key, kind in ((self.jobs, lambda it: int(it["at"], 8), "job"),
                                 (self.tasks, lambda it: (int(it["at"], 8), int(it["bank"], 8)), "task"),
                                 (self.phases, lambda it: (it["group"], it["phase"]), "phase")):
            for row in scenario.get(kind, []):
                if "name" in row:
                    names.setdefault(key(row), row["name"])
        self.events = [row.get("name") for row in scenario.get("event", [])]

    def source(self, who):
        return who if who == CLOCK else self.events[who] or f"event {who + 1}"

    def task(self, at, bank):
        return {"at": f"{at:05o}", "bank": f"{bank:05o}", "name": self.tasks.get((at, bank))}


class Origins:
    """Since which request each job and each waiting task is there, and whether an era began with it."""

    def __init__(self):
        self.jobs, self.tasks, self.stood = {}, [], None

    def note(self, number, log, begins_era=False):
        self.stood = self.jobs, self.tasks
        for kind, *parts in log:
            since = {"since": number, **({"restart": True} if begins_era else {})}
            if kind == "era":
                self.stood, begins_era = (self.jobs, self.tasks), True
                self.jobs, self.tasks = {}, []
            elif kind == "began":
                self.jobs = {**self.jobs, parts[0]: since}
            elif kind == "listed":
                self.tasks = [*self.tasks, since]
            elif kind == "fired":
                self.tasks = [it for k, it in enumerate(self.tasks) if k != parts[0]]


def number_text(centiseconds):
    """Seconds with two decimals, to be a number in JSON."""
    return f"seconds {seconds(centiseconds)}"


def scene(names, shown, jobs=None, tasks=None):
    """The tables of a machine, by the names of a scenario; with the origins of its jobs and tasks, if these are given."""
    def seat(number):
        if not number:
            return None
        it = shown.jobs[number]
        cells = {"job": number, "at": f"{it.at:05o}", "name": names.jobs.get(it.at), "priority": f"{it.priority:02o}",
                 "asleep": it.asleep, "area": it.area}
        return {**cells, **(jobs[number] if jobs else {})}

    order = sorted(range(len(shown.tasks)), key=lambda k: shown.tasks[k].due)
    waiting = [(names.task(*shown.tasks[k][:2]) | {"in": number_text(max(shown.tasks[k].due - shown.time, 0))}
                | (tasks[k] if tasks else {})) for k in order]
    return {
        "running": shown.running,
        "newjob": shown.newjob(),
        "sets": [seat(number) for number in shown.places],
        "areas": [next((number for number, job in shown.jobs.items() if job.area == area), None) for area in range(1, 6)],
        "tasks": waiting,
        "phases": [{"group": group, "phase": phase, "name": names.phases.get((group, phase))}
                   for group, phase in enumerate(shown.phases, 1) if phase],
    }


def trace(scenario):
    """An object for each request, as `--json` has it."""
    clock = Clock(scenario)
    before, names, origins, total, objects = clock.machine.copy(), Names(scenario), Origins(), 0, []
    origins.note(0, clock.start, True)
    for number, row in enumerate(clock.run(), 1):
        origins.note(number, row.log)
        total += row.line == "tick"
        stood = next((it[1] for it in row.log if it[0] == "era"), None)
        # (a fresh start clears the phases as the era ends, and its row still shows them)
        shown = row.after if not stood else before if row.line in ("restart", "fresh") else stood
        now = origins.stood if stood else (origins.jobs, origins.tasks)
        fired = [names.task(*parts[1:]) for kind, *parts in row.log if kind == "fired"]
        objects.append({"no": number, "time": number_text(shown.time), "total": number_text(total), "by": names.source(row.who),
                        "request": row.line, "reply": row.reply, "alarm": row.alarm, "fired": fired, **scene(names, shown, *now),
                        "era": scene(names, row.after) if stood else None})
        before = row.after
    return objects


def trace_json(scenario):
    text = "".join(json.dumps(it, ensure_ascii=False, separators=(",", ":")) + "\n" for it in trace(scenario))
    return re.sub(r'"seconds (\d+\.\d\d)"', r"\1", text)


def called(seat):
    return "" if seat is None else seat["name"] or seat["at"]


def trace_csv(scenario):
    text = io.StringIO()
    lines = csv.writer(text, lineterminator="\n")
    lines.writerow(COLUMNS)
    for row in trace(scenario):
        seats = row["sets"]
        taken = [seat for seat in seats if seat]
        owners = [next((seat for seat in taken if seat["area"] == area), None) for area in range(1, 6)]
        runs = row["running"] is not None
        lines.writerow([row["no"], row["time"].split()[1], row["total"].split()[1], row["by"], row["request"], row["reply"],
                      row["alarm"] or "", row["running"] if runs else "", seats[0]["priority"] if runs else "", len(taken),
                      sum(seat["area"] > 0 for seat in taken), len(row["tasks"]),
                      *(called(seats[k]) if k < len(seats) else "" for k in range(8)), *map(called, owners)])
    return text.getvalue()


# Charts, as `trace --perfetto` writes them.

def fault_of_event(event, last, named, open_slices):
    """What is wrong with an event of a chart, or None. `last` and `open_slices` have of each lane its time and its slices."""
    phase, track = event.get("ph"), (event.get("pid"), event.get("tid"))
    if phase not in {"B", "E", "C", "i", "M"} or not all(isinstance(it, int) for it in (*track, event.get("ts"))):
        return "its form"
    if phase != "E" and not (isinstance(event.get("name"), str) and event["name"]):
        return "it has no name"
    if phase == "M":
        named.add(track)
        return None if event["args"].get("name") or isinstance(event["args"].get("sort_index"), int) else "it names nothing"
    lane = (*track, event["name"] if phase == "C" else "")
    if event["ts"] < last[lane]:
        return "time falls"
    last[lane] = event["ts"]
    if phase in "BEi" and track not in named:
        return "its track has no name"
    open_slices[lane] += {"B": 1, "E": -1}.get(phase, 0)
    if open_slices[lane] < 0:
        return "it ends nothing"
    is_count = phase != "C" or all(isinstance(it, (int, float)) for it in event["args"].values())
    return None if is_count else "it counts nothing"


def fault_of_form(chart):
    if not isinstance(chart, dict) or not isinstance(chart.get("traceEvents"), list):
        return "no list of events"
    last, named, open_slices = collections.defaultdict(int), set(), collections.defaultdict(int)
    for k, event in enumerate(chart["traceEvents"]):
        fault = fault_of_event(event, last, named, open_slices)
        if fault:
            return f"event {k}: {fault}: {event}"
    return "slices that don't end" if any(open_slices.values()) else None


def slices_of(objects):
    """What each core set and each area holds, one after the other."""
    slices, held = collections.defaultdict(list), {}
    for scene_of_row in (it for row in objects for it in ([row, {"sets": []}, row["era"]] if row["era"] else [row])):
        now = {}
        for k, seat in enumerate(scene_of_row["sets"]):
            if seat:
                name = called(seat)
                now[f"core set {k}"] = name + " asleep" * seat["asleep"], seat["job"], seat["at"], seat["priority"]
                if seat["area"]:
                    now[f"VAC area {seat['area']}"] = name, seat["job"], seat["at"], None
        for track, it in now.items():
            if held.get(track) != it:
                slices[track].append(it)
        held = now
    return slices


def fault_of_chart(text, scenario=None):
    """What is wrong with a chart: its form, and, of a scenario, its alarms and slices."""
    try:
        chart = json.loads(text)
    except ValueError as error:
        return f"no JSON: {error}"
    fault = fault_of_form(chart)
    if fault or scenario is None:
        return fault
    objects, events = trace(scenario), chart["traceEvents"]
    tracks = {it["tid"]: it["args"]["name"] for it in events if it["ph"] == "M" and it["name"] == "thread_name"}
    found = collections.defaultdict(list)
    for event in (it for it in events if it["ph"] == "B"):
        track, parts = tracks.get(event["tid"], ""), event["args"]
        if not track.startswith("task"):
            found[track].append((event["name"], parts["job"], parts["at"], parts.get("priority")))
    alarms = [it["name"] for it in events if it["ph"] == "i"]
    if alarms != [f"alarm {row['alarm']}" if row["alarm"] else row["request"] for row in objects if row["era"]]:
        return "other alarms"
    wanted = slices_of(objects)
    return next((f"{track}: {found[track]}, not {wanted[track]}"[:400] for track in {*found, *wanted} if found[track] != wanted[track]), None)


# What libagc tells of a machine's tables: a list in place of each object.

def scene_list(machine):
    jobs = machine.jobs
    sets = [[it, jobs[it].priority, jobs[it].at, jobs[it].bank, jobs[it].asleep, jobs[it].area, list(jobs[it].work)] if it else None
            for it in machine.places]
    owners = [next((number for number, job in jobs.items() if job.area == area), 0) for area in range(1, 6)]
    tasks = [[it.at, it.bank, it.due - machine.time] for it in sorted(machine.tasks, key=lambda it: it.due)]
    text = [machine.running or 0, machine.newjob() or 0, sets, owners, tasks, machine.phases, machine.codes]
    return json.dumps(text, separators=(",", ":"))
