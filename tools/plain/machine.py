"""A machine: what each request does, from docs/MODEL.md.

A job is kept by its number, and a task in order of arrival. Nothing is kept as words; words.py makes these.
"""
from typing import NamedTuple

MOST_AREAS, MOST_TASKS = 5, 9
ALARMS = 0o1201, 0o1202, 0o1203
POWER_ALARM = 0o1107


class Job(NamedTuple):
    at: int
    bank: int
    priority: int
    asleep: bool
    area: int
    work: tuple


class Task(NamedTuple):
    at: int
    bank: int
    due: int


class Alarm(Exception):
    """A table is full. `front` is what the reply has before the alarm."""

    def __init__(self, code):
        super().__init__(code)
        self.code, self.front = code, ""


class Machine:
    """A machine of a bench, and its log: what happened, and to which job, or to which of the waiting tasks. With "began" and
    "fired" there is the address, and with "era" a copy of the machine as it stood before."""

    def __init__(self, bench):
        self.bench, self.log = bench, []
        self.phases, self.codes = (0,) * 6, (0,) * 3
        self.served, self.alarms, self.restarts = 0, (0, 0, 0), 0
        self.clear()
        self.power_up()

    def copy(self):
        made = object.__new__(Machine)
        made.__dict__.update(self.__dict__)
        made.jobs, made.log = dict(self.jobs), []
        return made

    def key(self):
        """All that a later reply or report can depend on."""
        jobs = tuple(sorted(self.jobs.items()))
        return (jobs, self.running, self.places, self.tasks, self.time, self.phases, self.codes, self.logged, self.served,
                self.alarms, self.restarts)

    def counts(self):
        """How much is taken of each table."""
        return len(self.jobs), sum(job.area > 0 for job in self.jobs.values()), len(self.tasks)

    # Jobs.

    def best(self):
        """The most urgent job that is awake, the first of several, or None."""
        awake = [(-job.priority, number) for number, job in self.jobs.items() if not job.asleep]
        return min(awake)[1] if awake else None

    def newjob(self):
        """The job that is more urgent than the running one, or None."""
        best = self.best()
        return best if best and self.jobs[best].priority > self.jobs[self.running].priority else None

    def set_job(self, **changes):
        self.jobs[self.running] = self.jobs[self.running]._replace(**changes)

    def seat(self):
        """The running job, if there is none the best, exchanges its core set with core set 0."""
        if self.running is None:
            self.running = self.best()
        if self.running is not None:
            places = list(self.places)
            at = places.index(self.running)
            places[0], places[at] = places[at], places[0]
            self.places = tuple(places)

    def establish(self, priority, at, bank, wants_area):
        areas = {job.area for job in self.jobs.values()}
        area = next((it for it in range(1, MOST_AREAS + 1) if it not in areas), None) if wants_area else 0
        number = next((it for it in range(1, self.bench.sets + 1) if it not in self.jobs), None)
        for place, code in ((area, 0o1201), (number, 0o1202)):
            if place is None:
                raise Alarm(code)
        self.jobs[number] = Job(at, bank, priority, False, area, (0,) * 6)
        self.log.append(("began", number, at))
        free = self.places.index(0)
        self.places = self.places[:free] + (number,) + self.places[free + 1 :]
        self.seat()
        return f"job {number}"

    def novac(self, priority, at, bank):
        return self.establish(priority, at, bank, False)

    def findvac(self, priority, at, bank):
        return self.establish(priority, at, bank, True)

    def leave(self):
        self.running = None
        self.seat()
        return "left idle" if self.running is None else f"left {self.running}"

    def end(self):
        if self.running is None:
            return "no job"
        del self.jobs[self.running]
        self.places = tuple(0 if it == self.running else it for it in self.places)
        return self.leave()

    def sleep(self, at):
        if self.running is None:
            return "no job"
        self.set_job(at=at, asleep=True)
        return self.leave()

    def rouse(self, at):
        number = min((number for number, job in self.jobs.items() if job.asleep and job.at == at), default=None)
        if number is None:
            return "no sleeper"
        self.jobs[number] = self.jobs[number]._replace(asleep=False)
        self.seat()
        return f"roused {number}"

    def change(self):
        if self.running is None:
            return "no job"
        other = self.newjob()
        if other:
            self.running = other
            self.seat()
        return f"runs {self.running}"

    def prio(self, priority):
        if self.running is None:
            return "no job"
        self.set_job(priority=priority)
        return self.change()

    def store(self, place, word):
        if self.running is None:
            return "no job"
        work = self.jobs[self.running].work
        self.set_job(work=work[: place - 1] + (word,) + work[place:])
        return "stored"

    # Tasks.

    def list(self, delay, at, bank):
        if len(self.tasks) == MOST_TASKS:
            raise Alarm(0o1203)
        self.log.append(("listed", len(self.tasks)))
        self.tasks += (Task(at, bank, self.time + delay),)
        return "listed"

    def nothing(self):
        """An action of a task or pulse."""

    def perform(self, requests):
        for kind, *numbers in requests:
            getattr(self, kind)(*numbers)

    def tick(self):
        self.time += 1
        reply = "tick"
        while due := [it for it in self.tasks if it.due <= self.time]:
            at, bank, _ = due[0]
            first = self.tasks.index(due[0])
            self.tasks = self.tasks[:first] + self.tasks[first + 1 :]
            self.log.append(("fired", first, at, bank))
            reply += f" {at:05o}/{bank:05o}"
            try:
                self.perform(self.bench.rows.get((at, bank), ()))
            except Alarm as alarm:
                alarm.front = f"{reply} "
                raise
        return reply

    # Eras.

    def clear(self):
        self.jobs, self.running, self.places = {}, None, (0,) * self.bench.sets
        self.tasks, self.time, self.logged = (), 0, 0

    def begin(self, code=0):
        """An era begins, after an alarm of this code, with what the phases say."""
        self.log.append(("era", self.copy()))
        if code:
            first, second, _ = self.codes
            self.codes = first or code, second or (code if first else 0), code
            self.alarms = tuple(count + (alarm == code) for alarm, count in zip(ALARMS, self.alarms))
        self.clear()
        for group, phase in enumerate(self.phases, 1):
            self.perform(self.bench.entries.get((group, phase), ()) if phase else ())

    def power_up(self):
        """The first era, by the words that were found as power came back, if there are any."""
        words = self.bench.power or ()
        pairs = list(zip(words[::2], words[1::2]))
        is_whole = all(negative == 0o77777 - phase and phase <= 127 for negative, phase in pairs)
        if pairs and is_whole:
            self.phases = tuple(phase for _, phase in pairs)
        self.begin(0 if is_whole else POWER_ALARM)

    def phase(self, group, phase):
        self.phases = self.phases[: group - 1] + (phase,) + self.phases[group:]
        return "phased"

    def restart(self, code=0):
        self.restarts += 1
        self.begin(code)
        return "restarted"

    def fresh(self):
        self.phases, self.codes = (0,) * 6, (0,) * 3
        return self.restart()

    def ask(self, request):
        """The reply to a request, and whether it was refused."""
        kind, *numbers = request
        if self.served >= self.bench.allowance:
            return "refused spent", True
        if self.logged >= self.bench.limit and kind not in ("restart", "fresh"):
            return "refused log full", True
        self.served, self.logged = self.served + 1, self.logged + 1
        try:
            return getattr(self, kind)(*numbers), False
        except Alarm as alarm:
            self.restart(alarm.code)
            return f"{alarm.front}alarm {alarm.code:o}", False
