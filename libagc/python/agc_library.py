"""The library as agc.h has it. tools/bindings wrote this from agc.h, the tables of keys and the forms of lines."""

from __future__ import annotations

import ctypes
import enum
from ctypes import POINTER, Structure, c_bool, c_char_p, c_int32, c_size_t, c_uint8, c_uint16, c_uint32, c_uint64
from typing import Any, Dict, List, NamedTuple, Tuple

MPAC = 0
MODE = 7
LOC = 8
BANKSET = 9
PUSHLOC = 10
PRIORITY = 11
SET_SIZE = 12
USE_WORDS = 84
NEWJOB = 89
TIME3 = 90
LST1 = 91
LST2 = 99
FAILREG = 129
LAST_SET = 132
WORDS = 144
PHASE_WORDS = 12
PHASE_PLACE = 117
FIRED = 9
ACTIONS = 4
MOST_SETS = 8
TASKS = 9
AREAS = 5
GROUPS = 6
CODES = 3
WORK = 6
LINE = 128
REPORT = 2048
ANY = 65535

TABLES: Dict[str, Tuple[int, int]] = {'VAC': (84, 89), 'NEWJOB': (89, 90), 'TIME3': (90, 91), 'LST1': (91, 99), 'LST2': (99, 117), 'PHASE': (117, 129), 'FAILREG': (129, 132)}

PLACES = (
    "MPAC of core set 0", "MPAC+1 of core set 0", "MPAC+2 of core set 0", "MPAC+3 of core set 0",
    "MPAC+4 of core set 0", "MPAC+5 of core set 0", "MPAC+6 of core set 0", "MODE of core set 0", "LOC of core set 0",
    "BANKSET of core set 0", "PUSHLOC of core set 0", "PRIORITY of core set 0", "MPAC of core set 1",
    "MPAC+1 of core set 1", "MPAC+2 of core set 1", "MPAC+3 of core set 1", "MPAC+4 of core set 1",
    "MPAC+5 of core set 1", "MPAC+6 of core set 1", "MODE of core set 1", "LOC of core set 1",
    "BANKSET of core set 1", "PUSHLOC of core set 1", "PRIORITY of core set 1", "MPAC of core set 2",
    "MPAC+1 of core set 2", "MPAC+2 of core set 2", "MPAC+3 of core set 2", "MPAC+4 of core set 2",
    "MPAC+5 of core set 2", "MPAC+6 of core set 2", "MODE of core set 2", "LOC of core set 2",
    "BANKSET of core set 2", "PUSHLOC of core set 2", "PRIORITY of core set 2", "MPAC of core set 3",
    "MPAC+1 of core set 3", "MPAC+2 of core set 3", "MPAC+3 of core set 3", "MPAC+4 of core set 3",
    "MPAC+5 of core set 3", "MPAC+6 of core set 3", "MODE of core set 3", "LOC of core set 3",
    "BANKSET of core set 3", "PUSHLOC of core set 3", "PRIORITY of core set 3", "MPAC of core set 4",
    "MPAC+1 of core set 4", "MPAC+2 of core set 4", "MPAC+3 of core set 4", "MPAC+4 of core set 4",
    "MPAC+5 of core set 4", "MPAC+6 of core set 4", "MODE of core set 4", "LOC of core set 4",
    "BANKSET of core set 4", "PUSHLOC of core set 4", "PRIORITY of core set 4", "MPAC of core set 5",
    "MPAC+1 of core set 5", "MPAC+2 of core set 5", "MPAC+3 of core set 5", "MPAC+4 of core set 5",
    "MPAC+5 of core set 5", "MPAC+6 of core set 5", "MODE of core set 5", "LOC of core set 5",
    "BANKSET of core set 5", "PUSHLOC of core set 5", "PRIORITY of core set 5", "MPAC of core set 6",
    "MPAC+1 of core set 6", "MPAC+2 of core set 6", "MPAC+3 of core set 6", "MPAC+4 of core set 6",
    "MPAC+5 of core set 6", "MPAC+6 of core set 6", "MODE of core set 6", "LOC of core set 6",
    "BANKSET of core set 6", "PUSHLOC of core set 6", "PRIORITY of core set 6", "VAC 1", "VAC 2", "VAC 3", "VAC 4",
    "VAC 5", "NEWJOB", "TIME3", "LST1 0", "LST1 1", "LST1 2", "LST1 3", "LST1 4", "LST1 5", "LST1 6", "LST1 7",
    "LST2 0, the address", "LST2 0, the bank", "LST2 1, the address", "LST2 1, the bank", "LST2 2, the address",
    "LST2 2, the bank", "LST2 3, the address", "LST2 3, the bank", "LST2 4, the address", "LST2 4, the bank",
    "LST2 5, the address", "LST2 5, the bank", "LST2 6, the address", "LST2 6, the bank", "LST2 7, the address",
    "LST2 7, the bank", "LST2 8, the address", "LST2 8, the bank", "-PHASE of group 1", "PHASE of group 1",
    "-PHASE of group 2", "PHASE of group 2", "-PHASE of group 3", "PHASE of group 3", "-PHASE of group 4",
    "PHASE of group 4", "-PHASE of group 5", "PHASE of group 5", "-PHASE of group 6", "PHASE of group 6", "FAILREG 0",
    "FAILREG 1", "FAILREG 2", "MPAC of core set 7", "MPAC+1 of core set 7", "MPAC+2 of core set 7",
    "MPAC+3 of core set 7", "MPAC+4 of core set 7", "MPAC+5 of core set 7", "MPAC+6 of core set 7",
    "MODE of core set 7", "LOC of core set 7", "BANKSET of core set 7", "PUSHLOC of core set 7",
    "PRIORITY of core set 7",
)


class Code(enum.IntEnum):
    """What a call or a document lacked: the first that applies."""

    OK = 0
    NO_SUCH_SETS = 1
    NOT_WORDS = 2
    UNLAWFUL = 3
    OUT_OF_RANGE = 4
    NOT_A_WORD = 5
    NOT_NOW = 6
    UNTIDY = 8
    PLAN_RANGE = 9
    TASK_TWICE = 10
    PHASE_TWICE = 11
    TOO_MANY_AREAS = 12
    NOT_SPELLED = 13
    NO_ROOM = 14
    TIME_RANGE = 15
    STEAL_TWICE = 16
    COST_TWICE = 17
    SPENT = 19
    LOG_FULL = 20
    UNKNOWN_KEY = 101
    MISSING_KEY = 102
    WRONG_TYPE = 103


class Kind(enum.IntEnum):
    """The kinds of replies."""

    ESTABLISHED = 1
    LEFT = 2
    IDLE = 3
    ROUSED = 4
    NO_SLEEPER = 5
    NO_JOB = 6
    RUNS = 7
    STORED = 8
    LISTED = 9
    ALARMED = 10
    PHASED = 11
    TICKED = 12
    TICK_ALARMED = 13
    RESTARTED = 14


CODE_TEXTS: Dict[int, str] = {
    Code.OK: "the call was served",
    Code.NO_SUCH_SETS: "the number of core sets is neither 7 nor 8",
    Code.NOT_WORDS: "a number of the image is above 077777",
    Code.UNLAWFUL: "the image isn't lawful",
    Code.OUT_OF_RANGE: "a number of the call is out of its range",
    Code.NOT_A_WORD: "a word of the call is above 077777",
    Code.NOT_NOW: "a task is due, or none is where one has to be",
    Code.UNTIDY: "the image is lawful, and no step leaves it so",
    Code.PLAN_RANGE: "a number of the plan is out of its range",
    Code.TASK_TWICE: "a task has two rows of the plan",
    Code.PHASE_TWICE: "a group's phase has two entries of the plan",
    Code.TOO_MANY_AREAS: "each of six groups wants a VAC area, and there are five",
    Code.NOT_SPELLED: "the line spells no request",
    Code.NO_ROOM: "the text doesn't fit into the room that is lent",
    Code.TIME_RANGE: "a number of the timetable is out of its range",
    Code.STEAL_TWICE: "two rows of stolen time hold at one time",
    Code.COST_TWICE: "one address has two costs",
    Code.SPENT: "as many requests were served as the allowance says",
    Code.LOG_FULL: "the log is full, which only a restart or a fresh start empties",
    Code.UNKNOWN_KEY: "a key of the document is unknown",
    Code.MISSING_KEY: "a key of the document is missing",
    Code.WRONG_TYPE: "a value of the document is of the wrong type",
}

REPLY_TEXTS: Dict[int, str] = {
    Kind.ESTABLISHED: "a job was established",
    Kind.LEFT: "the running job ended or sleeps, and another runs",
    Kind.IDLE: "the running job ended or sleeps, and no job is running",
    Kind.ROUSED: "a sleeper was awakened",
    Kind.NO_SLEEPER: "no job sleeps at that address",
    Kind.NO_JOB: "no job is running, so there is none to act on",
    Kind.RUNS: "a job runs",
    Kind.STORED: "a work word was set",
    Kind.LISTED: "a task was listed",
    Kind.ALARMED: "a table is full: an alarm",
    Kind.PHASED: "a phase was set",
    Kind.TICKED: "a tick passed",
    Kind.TICK_ALARMED: "an action raised an alarm in a tick, and an era began",
    Kind.RESTARTED: "an era began by a restart or a fresh start",
}



class AgcReply(Structure):
    """What a request is answered: the kind of the reply, and its number, or 0."""

    code: int
    reply: int
    number: int
    _fields_ = [
        ("code", c_uint32), ("reply", c_uint32), ("number", c_uint32),
    ]


class AgcNumber(Structure):
    """A number."""

    code: int
    number: int
    _fields_ = [
        ("code", c_uint32), ("number", c_uint32),
    ]


class AgcTruth(Structure):
    """Yes or no."""

    code: int
    truth: bool
    _fields_ = [
        ("code", c_uint32), ("truth", c_bool),
    ]


class AgcTask(Structure):
    """A task of the Waitlist: its address, and the word for its bank."""

    code: int
    at: int
    bank: int
    _fields_ = [
        ("code", c_uint32), ("at", c_uint32), ("bank", c_uint32),
    ]


class AgcJob(Structure):
    """A job in a core set: its number, 0 where the set is free; its priority; where it begins, or at which
    address it sleeps; the word for its bank; its VAC area, 1 to 5, or 0; whether it sleeps; and its six work
    words."""

    number: int
    priority: int
    at: int
    bank: int
    area: int
    asleep: bool
    work: ctypes.Array[c_uint16]
    _fields_ = [
        ("number", c_uint32), ("priority", c_uint32), ("at", c_uint32), ("bank", c_uint32),
        ("area", c_uint32), ("asleep", c_bool), ("work", c_uint16 * 6),
    ]


class AgcWaiting(Structure):
    """A task that waits, and the centiseconds that are left to it. Its address is 0 where there is none."""

    at: int
    bank: int
    left: int
    _fields_ = [
        ("at", c_uint32), ("bank", c_uint32), ("left", c_uint32),
    ]


class AgcScene(Structure):
    """All that the tables hold: the numbers of the job that runs and of that which NEWJOB names, 0 for none; the
    jobs in the core sets, no job beyond the last set; the numbers of the jobs that own VAC areas 1 to 5; the
    tasks that wait, as they come due, no task after the last; FAILREG; and the phases of groups 1 to 6."""

    running: int
    next: int
    sets: ctypes.Array[AgcJob]
    areas: ctypes.Array[c_uint32]
    tasks: ctypes.Array[AgcWaiting]
    failreg: ctypes.Array[c_uint32]
    phases: ctypes.Array[c_uint8]
    _fields_ = [
        ("running", c_uint32), ("next", c_uint32), ("sets", AgcJob * 8), ("areas", c_uint32 * 5),
        ("tasks", AgcWaiting * 9), ("failreg", c_uint32 * 3), ("phases", c_uint8 * 6),
    ]


class AgcFinding(Structure):
    """Why no step is asked on words: the rule that is broken first, at which place of the array, what stands
    there, and what would have to, or ANY where the other words leave more than one choice."""

    code: int
    rule: int
    place: int
    found: int
    wanted: int
    _fields_ = [
        ("code", c_uint32), ("rule", c_uint32), ("place", c_uint32), ("found", c_uint32),
        ("wanted", c_uint32),
    ]


class AgcRequest(Structure):
    """A request: its kind, and its numbers. Those that its kind doesn't have aren't looked at."""

    kind: int
    first: int
    second: int
    third: int
    _fields_ = [
        ("kind", c_uint32), ("first", c_uint32), ("second", c_uint32), ("third", c_uint32),
    ]


class AgcRow(Structure):
    """A row of a plan: a task, and what is done when it fires, in order, up to the first that raises an alarm."""

    at: int
    bank: int
    actions: ctypes.Array[AgcRequest]
    _fields_ = [
        ("at", c_uint32), ("bank", c_uint32), ("actions", AgcRequest * 4),
    ]


class AgcFired(Structure):
    """A task that fired."""

    at: int
    bank: int
    _fields_ = [
        ("at", c_uint32), ("bank", c_uint32),
    ]


class AgcStep(Structure):
    """What a step answers: the kind of the reply, and its number, or 0; how many tasks fired; and which action,
    1 to 4, of the last of these raised the alarm, 0 where none did. An era began where the reply is ALARMED,
    TICK_ALARMED or RESTARTED."""

    code: int
    reply: int
    number: int
    fired: int
    action: int
    _fields_ = [
        ("code", c_uint32), ("reply", c_uint32), ("number", c_uint32), ("fired", c_uint32),
        ("action", c_uint32),
    ]


class AgcTotals(Structure):
    """Counts of the requests that were served, which you keep: all, those that raised each alarm, by themselves
    or in a tick, and those with which an era began."""

    served: int
    alarms_1201: int
    alarms_1202: int
    alarms_1203: int
    restarts: int
    _fields_ = [
        ("served", c_uint64), ("alarms_1201", c_uint64), ("alarms_1202", c_uint64), ("alarms_1203", c_uint64),
        ("restarts", c_uint64),
    ]


class AgcBounds(Structure):
    """How many requests were served, and how many are at most; how many were since the last era began, and how
    many are at most. You keep the counts."""

    served: int
    allowance: int
    logged: int
    limit: int
    _fields_ = [
        ("served", c_uint64), ("allowance", c_uint64), ("logged", c_uint32), ("limit", c_uint32),
    ]


class AgcPhaseEntry(Structure):
    """An entry of a plan: what begins again while a restart group, 1 to 6, stands in a phase, 1 to 127. A job,
    where `job` isn't 0, and a task, where `delay` isn't 0; their numbers are those of the requests."""

    group: int
    phase: int
    job: int
    priority: int
    job_at: int
    job_bank: int
    delay: int
    task_at: int
    task_bank: int
    _fields_ = [
        ("group", c_uint32), ("phase", c_uint32), ("job", c_uint32), ("priority", c_uint32),
        ("job_at", c_uint32), ("job_bank", c_uint32), ("delay", c_uint32), ("task_at", c_uint32),
        ("task_bank", c_uint32),
    ]


class AgcPlan(Structure):
    """A plan: its rows and its entries."""

    rows: Any
    row_count: int
    entries: Any
    entry_count: int
    _fields_ = [
        ("rows", POINTER(AgcRow)), ("row_count", c_size_t), ("entries", POINTER(AgcPhaseEntry)),
        ("entry_count", c_size_t),
    ]


class AgcStolen(Structure):
    """Stolen time: from centisecond `from` until just before `to`, something else takes `percent`, 0 to 100, of
    each centisecond. If `every` isn't 0, this repeats at that interval, for the same length each time; it
    last begins at `until` or earlier, and if `until` is before `from` it never begins. `every` is 0, or at
    least `to` less `from`. Two rows with `every` 0 must not overlap; if other rows do, the first one counts."""

    to: int
    percent: int
    every: int
    until: int
    _fields_ = [
        ("from", c_uint32), ("to", c_uint32), ("percent", c_uint32), ("every", c_uint32), ("until", c_uint32),
    ]


class AgcCost(Structure):
    """What a job costs that stands at an address, in hundredths of a centisecond of computing, 1 to 100,000,000.
    Each time a job begins it may cost less, by up to `spread`, as a lot says: its cost is `hundredths -
    spread`, plus the next lot modulo `spread + 1`. `spread` is less than `hundredths`; where it is 0 no lot
    is drawn. With the last of these it asks for the first of `count` requests, 0 to 7, of those that are
    handed to the call, from number `first` on; with each hundredth more for the next; and at last it ends,
    where `then` is 0, or sleeps at that address. A request is NOVAC, FINDVAC, PRIO, STORE, LIST or PHASE.
    Where these are left out, as in {04000, 17000, 0}, it asks for nothing before."""

    at: int
    hundredths: int
    then: int
    first: int
    count: int
    spread: int
    _fields_ = [
        ("at", c_uint32), ("hundredths", c_uint32), ("then", c_uint32), ("first", c_uint32),
        ("count", c_uint32), ("spread", c_uint32),
    ]


class AgcEvent(Structure):
    """An event: it comes at a centisecond, 0 to 8,640,000, and where `every` isn't 0 again each so many
    centiseconds, at last at `until`: never, where that is before the first. Each time it asks for `count`
    requests, 1 to 16, of those that are handed to the call, from number `first` on, which counts from 0.
    Where `after` is 0, its times count from the start. Where it is 01201, 01202 or 01203, they are distances
    from the first alarm of this code (a distance of 0 counts as 1), and it doesn't come before agc_clock_told
    was told of that."""

    at: int
    every: int
    until: int
    first: int
    count: int
    after: int
    _fields_ = [
        ("at", c_uint32), ("every", c_uint32), ("until", c_uint32), ("first", c_uint32), ("count", c_uint32),
        ("after", c_uint32),
    ]


class AgcTimetable(Structure):
    """A timetable: how many centiseconds it lasts, and its rows and requests."""

    lasts: int
    stolen: Any
    stolen_count: int
    costs: Any
    cost_count: int
    events: Any
    event_count: int
    requests: Any
    request_count: int
    _fields_ = [
        ("lasts", c_uint32), ("stolen", POINTER(AgcStolen)), ("stolen_count", c_size_t),
        ("costs", POINTER(AgcCost)), ("cost_count", c_size_t), ("events", POINTER(AgcEvent)),
        ("event_count", c_size_t), ("requests", POINTER(AgcRequest)), ("request_count", c_size_t),
    ]


class AgcClock(Structure):
    """A clock: its centisecond, what of that is done, the hundredths that jobs 1 to 8 were given since they were
    established or roused (what a lot spared a job counts as given), and the lot that was drawn last, where
    the next is 48271 times that modulo 2147483647. All zeros is a clock at its start, whose lots are all 0,
    so that costs are least; for others set `lot` to a seed, 1 to 2147483646. Any other clock is as a call
    left it."""

    time: int
    event: int
    asked: int
    looks: bool
    left: int
    given: ctypes.Array[c_uint32]
    lot: int
    _fields_ = [
        ("time", c_uint32), ("event", c_size_t), ("asked", c_size_t), ("looks", c_bool), ("left", c_uint32),
        ("given", c_uint32 * 8), ("lot", c_uint32),
    ]


#: Each call: the types of what it takes, and of what it answers.
CALLS: Dict[str, Tuple[List[Any], Any]] = {
    "agc_plan_check": ([POINTER(AgcPlan)], c_uint32),
    "agc_step": ([POINTER(c_uint16), c_uint32, POINTER(AgcPlan), POINTER(AgcRequest), POINTER(AgcFired), POINTER(c_uint16)], AgcStep),
    "agc_step_trusted": ([POINTER(c_uint16), c_uint32, POINTER(AgcPlan), POINTER(AgcRequest), POINTER(AgcFired), POINTER(c_uint16)], AgcStep),
    "agc_begin": ([POINTER(c_uint16), c_uint32, c_uint32, POINTER(AgcPhaseEntry), c_size_t], c_uint32),
    "agc_power_up": ([POINTER(c_uint16), c_uint32, POINTER(AgcPhaseEntry), c_size_t, POINTER(c_uint16)], AgcNumber),
    "agc_read_request": ([c_char_p, c_size_t, POINTER(AgcRequest)], c_uint32),
    "agc_read_action": ([c_char_p, c_size_t, POINTER(AgcRequest)], c_uint32),
    "agc_write_reply": ([POINTER(AgcStep), POINTER(AgcFired), c_char_p, c_size_t], AgcNumber),
    "agc_write_rule": ([c_uint32, c_char_p, c_size_t], AgcNumber),
    "agc_write_report": ([POINTER(c_uint16), c_uint32, POINTER(AgcTotals), c_char_p, c_size_t], AgcNumber),
    "agc_refusal": ([POINTER(AgcRequest), POINTER(AgcBounds)], c_uint32),
    "agc_pulse": ([c_uint32, POINTER(AgcRequest), c_size_t, POINTER(AgcRequest), c_size_t, POINTER(AgcRequest)], AgcNumber),
    "agc_clock_check": ([POINTER(AgcTimetable)], c_uint32),
    "agc_clock_next": ([POINTER(c_uint16), c_uint32, POINTER(AgcTimetable), POINTER(AgcClock), POINTER(AgcRequest)], AgcNumber),
    "agc_clock_next_trusted": ([POINTER(c_uint16), c_uint32, POINTER(AgcTimetable), POINTER(AgcClock), POINTER(AgcRequest)], AgcNumber),
    "agc_clock_served": ([POINTER(c_uint16), c_uint32, POINTER(AgcStep), POINTER(AgcClock)], c_uint32),
    "agc_clock_served_trusted": ([POINTER(c_uint16), c_uint32, POINTER(AgcStep), POINTER(AgcClock)], c_uint32),
    "agc_clock_told": ([POINTER(AgcStep), POINTER(AgcClock), POINTER(AgcEvent)], c_uint32),
    "agc_clear": ([POINTER(c_uint16), c_uint32], c_uint32),
    "agc_check": ([POINTER(c_uint16), c_uint32], AgcTruth),
    "agc_explain": ([POINTER(c_uint16), c_uint32], AgcFinding),
    "agc_scene": ([POINTER(c_uint16), c_uint32, POINTER(AgcScene)], c_uint32),
    "agc_version": ([], c_uint32),
    "agc_migrate": ([POINTER(c_uint16)], c_uint32),
    "agc_call": ([POINTER(c_uint16), c_uint32, POINTER(AgcRequest)], AgcReply),
    "agc_dispatch": ([POINTER(c_uint16), c_uint32], AgcTask),
    "agc_record_alarm": ([POINTER(c_uint16), c_uint32, c_uint32], c_uint32),
}


class Part(NamedTuple):
    """A number of a line: what it is, a sentence of it, its octal digits, 0 where it is decimal, its least and its most."""

    name: str
    sentence: str
    digits: int
    low: int
    high: int


PARTS = {
    'P': Part('priority', 'a priority is octal, 01 to 37', 2, 1, 31),
    'A': Part('address', 'an address is five octal digits, 00001 to 37777', 5, 1, 16383),
    'W': Part('word', 'a word is five octal digits, 00000 to 77777', 5, 0, 32767),
    'D': Part('delay', 'a delay is decimal, 1 to 16250', 0, 1, 16250),
    'K': Part('place', "a work word's place is 1 to 6", 0, 1, 6),
    'G': Part('group', 'a group is 1 to 6', 0, 1, 6),
    'N': Part('phase', 'a phase is decimal, 0 to 127', 0, 0, 127),
}

#: Each request's kind, and a letter for each of its numbers.
FORMS: Dict[str, Tuple[int, str]] = {
    "nothing": (0, ""),
    "novac": (1, "PAW"),
    "findvac": (2, "PAW"),
    "end": (3, ""),
    "sleep": (4, "A"),
    "rouse": (5, "A"),
    "prio": (6, "P"),
    "change": (7, ""),
    "store": (8, "KW"),
    "list": (9, "DAW"),
    "tick": (10, ""),
    "phase": (11, "GN"),
    "restart": (12, ""),
    "fresh": (13, ""),
}
REQUEST_KINDS = ('novac', 'findvac', 'end', 'sleep', 'rouse', 'prio', 'change', 'store', 'list', 'tick', 'phase', 'restart', 'fresh')
ACTION_KINDS = ('nothing', 'novac', 'findvac', 'rouse', 'list')
JOB_KINDS = ('novac', 'findvac')
LEAVING_KINDS = ('end', 'sleep')
STEP_KINDS = ('novac', 'findvac', 'prio', 'store', 'list', 'phase')
LISTING_KINDS = ('list',)

#: What is wrong with a line that begins as none of a list does.
OTHERWISE: Dict[Tuple[str, ...], str] = {
    REQUEST_KINDS: "its first word is unknown: a request begins with novac, findvac, end, sleep, rouse, prio, change, store, list, tick, phase, restart or fresh",
    ACTION_KINDS: "an action is nothing, or begins with novac, findvac, rouse or list",
    JOB_KINDS: "a job begins with novac or findvac",
    LISTING_KINDS: "a task begins with list",
    LEAVING_KINDS: "a job leaves by end or sleep",
    STEP_KINDS: "before its last line a job makes requests novac, findvac, prio, store, list or phase",
}
DEVICES = ('timer', 'key', 'radar')


class Key(NamedTuple):
    """A key of a table: the kind of its value, its form, its least and its most, and whether it has to be there."""

    kind: str
    form: str
    low: int
    high: int
    required: bool


#: The keys of each kind of table.
KEYS = {
    "bench": {
        "sets": Key('integer', '', 7, 8, False),
        "limit": Key('integer', '', 1, 1000000, False),
        "allowance": Key('integer', '', 0, 9223372036854775807, False),
        "attends": Key('integer', '', 0, 1000, False),
        "key": Key('oneOrMore', 'action', 1, 4, False),
        "radar": Key('oneOrMore', 'action', 1, 4, False),
        "power": Key('texts', 'word', 12, 12, False),
        "script": Key('texts', 'request', 0, 18446744073709551615, False),
        "task": Key('tables', 'task', 0, 18446744073709551615, False),
        "phase": Key('tables', 'phase', 0, 18446744073709551615, False),
        "worker": Key('tables', 'worker', 0, 32, False),
        "device": Key('tables', 'device', 0, 32, False),
    },
    "task": {
        "at": Key('text', 'address', 0, 18446744073709551615, True),
        "bank": Key('text', 'word', 0, 18446744073709551615, True),
        "action": Key('oneOrMore', 'action', 1, 4, True),
    },
    "namedTask": {
        "at": Key('text', 'address', 0, 18446744073709551615, True),
        "bank": Key('text', 'word', 0, 18446744073709551615, True),
        "action": Key('oneOrMore', 'action', 1, 4, True),
        "name": Key('text', 'name', 0, 18446744073709551615, False),
    },
    "phase": {
        "group": Key('integer', '', 1, 6, True),
        "phase": Key('integer', '', 1, 127, True),
        "job": Key('text', 'job', 0, 18446744073709551615, False),
        "task": Key('text', 'listing', 0, 18446744073709551615, False),
    },
    "namedPhase": {
        "group": Key('integer', '', 1, 6, True),
        "phase": Key('integer', '', 1, 127, True),
        "job": Key('text', 'job', 0, 18446744073709551615, False),
        "task": Key('text', 'listing', 0, 18446744073709551615, False),
        "name": Key('text', 'name', 0, 18446744073709551615, False),
    },
    "worker": {
        "script": Key('texts', 'request', 0, 18446744073709551615, True),
    },
    "exploredWorker": {
        "script": Key('texts', 'request', 0, 18446744073709551615, True),
        "repeat": Key('flag', '', 0, 18446744073709551615, False),
    },
    "device": {
        "line": Key('text', 'device', 0, 18446744073709551615, True),
        "pulses": Key('integer', '', 0, 1000000, True),
    },
    "scenario": {
        "seconds": Key('integer', '', 1, 86400, True),
        "title": Key('text', 'name', 0, 18446744073709551615, False),
        "seed": Key('integer', '', 1, 2147483646, False),
        "sets": Key('integer', '', 7, 8, False),
        "limit": Key('integer', '', 1, 1000000, False),
        "allowance": Key('integer', '', 0, 9223372036854775807, False),
        "key": Key('oneOrMore', 'action', 1, 4, False),
        "radar": Key('oneOrMore', 'action', 1, 4, False),
        "power": Key('texts', 'word', 12, 12, False),
        "steal": Key('integer', '', 0, 100, False),
        "task": Key('tables', 'namedTask', 0, 18446744073709551615, False),
        "phase": Key('tables', 'namedPhase', 0, 18446744073709551615, False),
        "job": Key('tables', 'job', 0, 100, False),
        "event": Key('tables', 'event', 0, 1000, False),
    },
    "steal": {
        "from": Key('integer', '', 0, 8640000, True),
        "to": Key('integer', '', 0, 8640000, True),
        "percent": Key('integer', '', 0, 100, True),
        "every": Key('integer', '', 1, 8640000, False),
        "until": Key('integer', '', 0, 8640000, False),
    },
    "cost": {
        "from": Key('integer', '', 1, 1000000, True),
        "to": Key('integer', '', 1, 1000000, True),
    },
    "job": {
        "at": Key('text', 'address', 0, 18446744073709551615, True),
        "cost": Key('integer', '', 1, 1000000, True),
        "deadline": Key('integer', '', 1, 8640000, False),
        "then": Key('oneOrMore', 'request', 1, 8, False),
        "name": Key('text', 'name', 0, 18446744073709551615, False),
    },
    "event": {
        "at": Key('integer', '', 0, 8640000, True),
        "after": Key('text', 'name', 0, 18446744073709551615, False),
        "do": Key('oneOrMore', 'request', 1, 16, True),
        "every": Key('integer', '', 1, 8640000, False),
        "until": Key('integer', '', 0, 8640000, False),
        "name": Key('text', 'name', 0, 18446744073709551615, False),
    },
}
