"""Asks a `Machine` and its `Clock` what lines say, and writes what came of it. libagc/run compares that with `agc`, the plain
model, and callers in C, JavaScript and Rust, which take the same lines; each begins with a word:

    bench SETS                          a machine, whose report is written as the next begins, and at last
    scenario SETS SECONDS SEED          a machine and a clock; a seed of 0 is none. The line itself is written
    task AT BANK|ACTION|..              of its plan what is done as a task fires,
    phase GROUP PHASE|JOB|TASK          and what begins again in a phase, a job, a task, or both
    power WORD ..                       the phase words that were found as power came back
    steal FROM TO PERCENT EVERY UNTIL   of its timetable a row of stolen time, of which EVERY may be 0,
    job AT LEAST COST|LINE|..           what a job costs, and what it then asks for,
    event AT EVERY UNTIL AFTER|LINE|..  and an event, of which EVERY and AFTER may be 0
    scene, moment                       writes what the tables hold, now and as the last request was answered
    run CENTISECONDS, hand LINE         lets time pass, and asks in between. Of each request there is a line: the centisecond,
                                        who asks (0 a person, 1 the clock, from 2 on the events), its kind, numbers and reply
    LINE                                asks, and writes the reply

Callers with classes take these, too, which are in `by-hand`:

    asks CENTISECONDS                   lets time pass, and writes what is asked but ticks, and when
    keeps CENTISECONDS                  the same of a machine and a clock that are kept after each request
    given                               writes what jobs were given, and the lot that was drawn last
    kept                                machine and clock are made again of their states
    timetable SECONDS SEED              the clock gets another timetable, whose rows follow
    words PLACE WORD                    a machine is made of the machine's words, one of which is another
    refused                             writes what was wrong since the bench or scenario began: code, row, key and sentence
"""
import json
import sys

from agc import AgcError, Clock, Kind, Machine, finding_of, scene_of

KINDS = ["", "novac", "findvac", "end", "sleep", "rouse", "prio", "change", "store", "list", "tick", "phase", "restart", "fresh"]
BASES = {"store": (10, 8), "list": (10, 8, 8), "phase": (10, 10)}
TEXTS = {
    Kind.ESTABLISHED: "job {}", Kind.LEFT: "left {}", Kind.IDLE: "left idle", Kind.ROUSED: "roused {}", Kind.NO_SLEEPER: "no sleeper",
    Kind.NO_JOB: "no job", Kind.RUNS: "runs {}", Kind.STORED: "stored", Kind.LISTED: "listed", Kind.ALARMED: "alarm {:o}",
    Kind.PHASED: "phased", Kind.TICKED: "tick", Kind.TICK_ALARMED: "tick", Kind.RESTARTED: "restarted",
}


def spelled(step):
    """A reply's line by its numbers alone."""
    fired = "".join(f" {it.at:05o}/{it.bank:05o}" for it in step.fired)
    alarm = f" alarm {step.number:o}" if step.kind == Kind.TICK_ALARMED else ""
    return TEXTS[step.kind].format(step.number) + fired + alarm


def numbers_of(line):
    name, *texts = line.split(" ")
    return [int(it, base) for it, base in zip(texts, BASES.get(name, (8, 8, 8)))]


def told(scene):
    return json.dumps(scene, separators=(",", ":"))


class Caller:
    """A bench or a scenario. What it says is made with the first request, when its plan is whole."""

    def __init__(self, sets, seconds="86400", seed="0"):
        self.sets, self.plan, self.power, self.fault = int(sets), {"task": [], "phase": []}, None, None
        self.machine = self.clock = None
        self.begin(seconds, seed)

    def begin(self, seconds, seed):
        self.time = {"seconds": int(seconds), "steal": [], "job": [], "event": [], **({"seed": int(seed)} if seed != "0" else {})}
        self.is_changed = True

    def make(self):
        self.machine = self.machine or Machine(self.sets, self.plan, self.power)
        if self.clock is None:
            self.clock = Clock(self.time)
        elif self.is_changed:
            self.clock.change(self.time)
        self.is_changed = False

    def add(self, name, words, parts):
        """A row of the plan or of the timetable."""
        numbers = [int(it) for it in words] if name not in ("task", "job") else []
        if name == "task":
            self.plan["task"].append({"at": words[0], "bank": words[1], "action": parts})
        elif name == "phase":
            begun = {key: it for key, it in zip(("job", "task"), parts) if it}
            self.plan["phase"].append({"group": numbers[0], "phase": numbers[1], **begun})
        elif name == "job":
            least, most = map(int, words[1:])
            cost = most if least == most else {"from": least, "to": most}
            self.time["job"].append({"at": words[0], "cost": cost, "then": parts})
        else:
            every, until = numbers[-2:] if name == "steal" else numbers[1:3]
            again = {"every": every, "until": until} if every else {}
            after = {"after": words[3]} if name == "event" and numbers[3] else {}
            row = dict(zip(("from", "to", "percent"), numbers)) if name == "steal" else {"at": numbers[0], "do": parts}
            self.time[name].append({**row, **again, **after})

    def ask(self, line):
        """Asks for a line, and of a copy for its numbers."""
        other = self.machine.copy()
        step = self.machine.ask(line)
        assert other.ask(line.split(" ")[0], *numbers_of(line)) == step and step.text == spelled(step), line
        assert (other.words, other.moment, other.totals) == (self.machine.words, self.machine.moment, self.machine.totals), line
        assert (step.action > 0) == (step.kind == Kind.TICK_ALARMED) and step.begins_era == (other.totals.restarts > self.restarts), line
        self.restarts = other.totals.restarts
        return step

    restarts = 0

    def write(self, source, name, numbers, step):
        print(self.clock.time, source, KINDS.index(name), *numbers, *[0] * (3 - len(numbers)), step.text)

    def kept(self):
        states = json.loads(json.dumps([self.machine.state, self.clock.state]))
        self.machine, self.clock = Machine.of_state(states[0]), Clock.of_state(states[1])
        assert [self.machine.state, self.clock.state] == states

    def words(self, place, bits):
        words = [*self.machine.words]
        words[place] = bits
        finding = finding_of(words)
        try:
            self.machine = Machine(words=words)
        except AgcError as fault:
            assert str(fault) == f"words: {finding}" and finding.code == fault.code
            raise
        assert finding is None and self.machine.moment == self.machine.words and self.machine.totals.served == 0

    def serve(self, name, rest, line):
        """Does what a line says."""
        self.make()
        if name == "run":
            for asked, step in self.machine.iter(self.clock, int(rest)):
                self.write(1 if asked.event is None else asked.event + 2, asked.name, asked.numbers, step)
        elif name == "hand":
            step = self.machine.ask(rest)
            self.clock.served(self.machine, step)
            self.write(0, rest.split(" ")[0], numbers_of(rest), step)
        elif name == "asks":
            found = self.machine.iter(self.clock, int(rest))
            print("asks", ", ".join(f"{self.clock.time} {asked}" for asked, _ in found if asked.name != "tick"))
        elif name == "keeps":
            texts, end = [], self.clock.time + int(rest)
            while one := next(self.machine.iter(self.clock, end - self.clock.time), None):
                texts += [f"{self.clock.time} {one[0]}"] * (one[0].name != "tick")
                self.kept()
            print("keeps", ", ".join(texts))
        elif name == "given":
            print(name, *self.clock.given, self.clock.state["at"][-1])
        elif name == "kept":
            self.kept()
        elif name == "words":
            place, bits = rest.split(" ")
            self.words(int(place), int(bits, 8))
        elif name in ("scene", "moment"):
            print(name, told(self.machine.scene() if name == "scene" else scene_of(self.machine.moment)))
        else:
            print(self.ask(line))

    def take(self, line):
        name, _, rest = line.partition(" ")
        first, *parts = rest.split("|")
        try:
            if name == "timetable":
                self.begin(*first.split(" "))
            elif name == "power":
                self.power = first.split(" ")
            elif parts or name == "steal":
                self.add(name, first.split(" "), parts)
            elif name == "refused":
                self.refused()
            else:
                self.serve(name, rest, line)
        except AgcError as fault:
            self.fault = fault

    def refused(self):
        try:
            self.make()
        except AgcError as fault:
            self.fault = fault
        it, self.fault = self.fault, None
        print("refused", "|".join([str(int(it.code)), it.row or "", it.key or "", str(it)]) if it else "nothing")


def main():
    caller = None
    for line in [*sys.stdin.read().splitlines(), "bench 7"]:
        name, *rest = line.split(" ")
        if name in ("bench", "scenario"):
            if caller and caller.is_bench:
                caller.make()
                print(caller.machine.report(), end="")
            caller = Caller(*rest)
            caller.is_bench = name == "bench"
            if not caller.is_bench:
                print(line)
        else:
            caller.take(line)


main()
