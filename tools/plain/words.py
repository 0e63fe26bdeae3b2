"""The words of a machine, the report that is made of them, and which words are lawful, from the READMEs of the crates of the
tables and from agc.h. There are 132, or with eight core sets 144."""
import itertools

AREAS = 0o300, 0o354, 0o430, 0o504, 0o560
CODES = 0o1107, 0o1201, 0o1202, 0o1203
SETS = [12 * k for k in range(7)] + [132]
TABLES = {"VAC": (84, 89), "NEWJOB": (89, 90), "TIME3": (90, 91), "LST1": (91, 99), "LST2": (99, 117), "PHASE": (117, 129),
          "FAILREG": (129, 132)}
MINUS_ZERO = FREE = 0o77777
BLANK_GAP = 0o57777
MOST_POSITIVE = 0o37777
LONGEST = 16250


def negative(number):
    return MINUS_ZERO - number


def words_of_job(number, job):
    packed = 512 * job.priority + (AREAS[job.area - 1] if job.area else 0)
    return [number, *job.work, 0, job.at, job.bank, 0, negative(packed) if job.asleep else packed]


def words_of_tasks(machine):
    """TIME3, LST1 and LST2. TIME3 overflows as the first task is due."""
    tasks = sorted(machine.tasks, key=lambda it: it.due)
    gaps = [1 - (after.due - before.due) for before, after in zip(tasks, tasks[1:])]
    gaps = [it if it >= 0 else MINUS_ZERO + it for it in gaps] + [BLANK_GAP] * 8
    places = [word for at, bank, _ in tasks for word in (at, bank)] + [0] * 18
    return [(16384 - (tasks[0].due - machine.time)) % 16384 if tasks else 0, *gaps[:8], *places[:18]]


def words_of(machine):
    sets = [words_of_job(it, machine.jobs[it]) if it else [0] * 11 + [FREE] for it in machine.places]
    owned = {job.area for job in machine.jobs.values()}
    areas = [0 if k in owned else at for k, at in enumerate(AREAS, 1)]
    best = machine.newjob()
    newjob = FREE if machine.best() is None else 12 * machine.places.index(best) if best else 0
    phases = [word for phase in machine.phases for word in (negative(phase), phase)]
    return [*sum(sets[:7], []), *areas, newjob, *words_of_tasks(machine), *phases, *machine.codes, *sum(sets[7:], [])]


def spell(words):
    return " ".join(f"{it:05o}" for it in words)


def report(machine):
    """The lines of a report."""
    words, sets = words_of(machine), machine.bench.sets
    yield from ["SETS 8"] * (sets == 8)
    for k, at in enumerate(SETS[:sets]):
        yield f"SET {k} {spell(words[at : at + 12]) if words[at + 11] != FREE else 'FREE'}"
    yield from (f"{name} {spell(words[begin:end])}" for name, (begin, end) in TABLES.items())
    yield f"SERVED {machine.served}"
    yield "ALARMS {} {} {}".format(*machine.alarms)
    yield f"RESTARTS {machine.restarts}"


# Which words are lawful: each rule that words break, with its place and what would have to stand there, if that is known.

class Seat:
    """A core set that holds a job."""

    def __init__(self, words, k):
        self.k, self.at = k, SETS[k]
        self.number, self.loc, word = words[self.at], words[self.at + 8], words[self.at + 11]
        self.is_awake = word <= MOST_POSITIVE
        self.priority, self.area = divmod(word if self.is_awake else negative(word), 512)


def broken_by_jobs(words, sets):
    seats = [Seat(words, k) for k, at in enumerate(SETS[:sets]) if words[at + 11] != FREE]
    for k, it in enumerate(seats):
        before = seats[:k]
        checks = [
            (2, 0, 1 <= it.number <= sets),
            (3, 0, all(it.number != other.number for other in before)),
            (4, 8, 1 <= it.loc <= MOST_POSITIVE),
            (5, 11, it.priority >= 1),
            (6, 11, it.area in (0, *AREAS)),
            (7, 11, it.area == 0 or all(it.area != other.area for other in before)),
        ]
        yield from ((rule, it.at + word, None) for rule, word, is_kept in checks if not is_kept)
    awake = [it for it in seats if it.is_awake]
    if awake and awake[0].k != 0:
        yield 8, 11, None
    for k, address in enumerate(AREAS):
        wanted = 0 if any(it.area == address for it in seats) else address
        if words[84 + k] != wanted:
            yield 9, 84 + k, wanted
    best = min(awake, key=lambda it: (-it.priority, it.number), default=None)
    first = next((it.priority for it in awake if it.k == 0), 0)
    wanted = FREE if best is None else 12 * best.k if best.priority > first else 0
    if words[89] != wanted:
        yield 10, 89, wanted


def task_count(words):
    return next((k for k in range(9) if words[99 + 2 * k] == 0), 9)


def broken_by_tasks(words):
    count = task_count(words)
    if words[90] > MOST_POSITIVE or (count == 0 and words[90] != 0):
        yield 11, 90, 0 if count == 0 else None
        if words[90] > MOST_POSITIVE:
            return
    left = 16384 - words[90] if words[90] else 0
    for k in range(count):
        gap = words[91 + k] if k < 8 else 0
        if left > LONGEST:
            yield 12, 90 + k, None
        if words[99 + 2 * k] > MOST_POSITIVE:
            yield 13, 99 + 2 * k, None
        if k + 1 < count and 1 < gap <= MOST_POSITIVE:
            yield 14, 91 + k, None
        left += max(0, 1 - gap) if gap <= MOST_POSITIVE else 1 + negative(gap)
    unused = [(15, place, BLANK_GAP) for place in range(91 + max(0, count - 1), 99)]
    unused += [(16, place, 0) for place in range(99 + 2 * count, 117)]
    yield from (it for it in unused if words[it[1]] != it[2])


def broken_by_phases(words):
    for place in range(117, 129, 2):
        minus, phase = words[place : place + 2]
        if phase > 127:
            yield 17, place + 1, None
        if minus != negative(phase):
            yield 18, place, negative(phase)
    first, second, latest = words[129:132]
    if first not in (0, *CODES):
        yield 19, 129, None
    if second not in (0, *CODES) or (first == 0 and second != 0):
        yield 19, 130, 0 if first == 0 else None
    if second == 0 and latest != first:
        yield 19, 131, first
    if second != 0 and latest not in CODES:
        yield 19, 131, None


def first_broken(words, sets):
    """The first rule that words break, by the order of agc.h: of the jobs by core sets, of the tasks as they come due."""
    wide = ((1, place, None) for place, word in enumerate(words) if word > MINUS_ZERO)
    parts = wide, broken_by_jobs(words, sets), broken_by_tasks(words), broken_by_phases(words)
    return next(itertools.chain.from_iterable(parts), None)
