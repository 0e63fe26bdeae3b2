"""How time passes in a scenario: which requests come of it, from docs/TIME.md and docs/FORMATS.md."""
from typing import Any, NamedTuple

from . import documents
from .machine import ALARMS, Machine

CLOCK = "clock"
CODES = [f"{it:o}" for it in ALARMS]


class Row(NamedTuple):
    """A request that was asked: the centisecond, who asked (the clock, None for a person, or the number of an event), and what
    came of it. `after` is the machine then."""
    time: int
    who: Any
    line: str
    reply: str
    after: Machine
    log: list

    @property
    def begins_era(self):
        return any(kind == "era" for kind, *_ in self.log)

    @property
    def alarm(self):
        """The code of the alarm that it raised, or None."""
        return self.reply.split()[-1] if "alarm" in self.reply else None


def holds(row, time):
    """Whether a row of stolen time holds: since one of the times at which it comes, it is shorter than it lasts."""
    begins, last = row["from"], min(time, row.get("until", time))
    starts = range(begins, last + 1, row["every"]) if "every" in row else [begins]
    return any(start <= time < start + row["to"] - begins for start in starts)


def stolen(scenario, time):
    """The percent that is stolen of a centisecond."""
    steal = scenario.get("steal", 0)
    if isinstance(steal, int):
        return steal
    return next((row["percent"] for row in steal if holds(row, time)), 0)


def origin_of(events, number):
    """The alarm from which an event counts, through the events above it that it names, and how long after that, or else
    after the start."""
    after = events[number].get("after")
    if after is None:
        return None, 0
    above = next((k for k in range(number) if events[k].get("name") == after), None)
    if above is None:
        return (after, 0)
    alarm, base = origin_of(events, above)
    first = base + events[above]["at"]
    return alarm, max(1, first) if alarm else first


def comes(event, origin, alarms, time):
    """Whether an event comes now. From an alarm it counts once that came, and comes a centisecond later at the earliest."""
    alarm, base = origin
    if alarm and alarm not in alarms:
        return False
    begin = alarms[alarm] if alarm else 0
    first, last = (begin + (max(1, base + it) if alarm else base + it) for it in (event["at"], event.get("until", time)))
    if "every" not in event:
        return time == first
    return first <= time and (time <= last or "until" not in event) and (time - first) % event["every"] == 0


class Clock:
    """Time that passes over a machine. `rows` has all that was asked."""

    def __init__(self, scenario):
        self.scenario, self.machine = scenario, Machine(documents.bench_of(scenario))
        self.start, self.machine.log = self.machine.log, []
        self.time, self.rows = 0, []
        self.given, self.needs, self.lot = {}, {}, scenario.get("seed")
        self.events = scenario.get("event", [])
        self.origins, self.alarms = [origin_of(self.events, k) for k in range(len(self.events))], {}
        self.costs = {}
        for job in scenario.get("job", []):
            self.costs.setdefault(int(job["at"], 8), (job["cost"], documents.list_of(job.get("then", "end"))))
        self.is_begun = False

    def ask(self, who, line):
        machine = self.machine
        reply, _ = machine.ask(documents.request_of(line))
        row = Row(self.time, who, line, reply, machine.copy(), machine.log)
        machine.log = []
        self.rows.append(row)
        if row.alarm:
            self.alarms.setdefault(row.alarm, self.time)
        awake = set() if row.begins_era else {number for number, job in machine.jobs.items() if not job.asleep}
        self.given = {number: given for number, given in self.given.items() if number in awake}

    def ask_events(self):
        coming = [k for k, event in enumerate(self.events) if comes(event, self.origins[k], self.alarms, self.time)]
        for k in coming:
            for line in documents.list_of(self.events[k]["do"]):
                self.ask(k, line)

    def cost_of(self, cost):
        """What a job that begins needs, in hundredths: a plain cost, or one of several by the next lot of Lehmer's generator."""
        if isinstance(cost, int):
            return 100 * cost
        low, high = 100 * cost["from"], 100 * cost["to"]
        if low < high:
            self.lot = 48271 * self.lot % 2147483647
        return low + (self.lot % (high - low + 1) if low < high else 0)

    def give(self):
        """The running job gets what is left of the centisecond, and whoever runs after it the rest."""
        machine, share = self.machine, 100 - stolen(self.scenario, self.time)
        while share and machine.running and machine.jobs[machine.running].at in self.costs:
            number = machine.running
            cost, then = self.costs[machine.jobs[number].at]
            if number not in self.given:
                self.needs[number] = self.cost_of(cost)
            more = min(share, max(1, self.needs[number] - self.given.get(number, 0)))
            self.given[number] = self.given.get(number, 0) + more
            share -= more
            step = self.given[number] - self.needs[number]
            if step >= 0:
                if step == len(then) - 1:
                    del self.given[number]
                self.ask(CLOCK, then[step])

    def pass_centisecond(self):
        self.time += 1
        self.ask(CLOCK, "tick")
        self.ask_events()
        if self.machine.newjob():
            self.ask(CLOCK, "change")
        self.give()

    def run(self, centiseconds=None):
        """So many centiseconds pass, or all that are left. Returns all rows."""
        if not self.is_begun:
            self.is_begun = True
            self.ask_events()
        end = 100 * self.scenario["seconds"]
        for _ in range(min(end - self.time, end if centiseconds is None else centiseconds)):
            self.pass_centisecond()
        return self.rows


def requests_of(scenario):
    return [it.line for it in Clock(scenario).run()]


# Scenarios as lines, for the callers of libagc in other languages: libagc/tests/caller.py says what these are.

def line_of_parts(name, *parts):
    numbers, *lines = parts
    return f"{name} {' '.join(map(str, numbers))}" + "".join(f"|{it}" for it in lines)


def caller_lines(scenario, steps):
    """A scenario, and then how long time passes, and what a person asks in between: pairs of centiseconds and lines."""
    day = 8640000
    yield line_of_parts("scenario", [scenario.get("sets", 7), scenario["seconds"], scenario.get("seed", 1)])
    yield from documents.caller_lines(documents.bench_of(scenario), [])
    steal = scenario.get("steal", 0)
    for row in steal if isinstance(steal, list) else [{"from": 0, "to": day, "percent": steal}]:
        yield line_of_parts("steal", [row["from"], row["to"], row["percent"], row.get("every", 0), row.get("until", day)])
    for row in scenario.get("job", []):
        cost = row["cost"] if isinstance(row["cost"], dict) else {"from": row["cost"], "to": row["cost"]}
        yield line_of_parts("job", [row["at"], cost["from"], cost["to"]], *documents.list_of(row.get("then", "end")))
    for row in scenario.get("event", []):
        numbers = [row["at"], row.get("every", 0), row.get("until", day), row.get("after", 0)]
        yield line_of_parts("event", numbers, *documents.list_of(row["do"]))
    for centiseconds, line in steps:
        yield f"run {centiseconds}"
        yield from [f"hand {line}"] * bool(line)
