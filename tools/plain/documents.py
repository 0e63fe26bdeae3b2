"""Reads scripts, benches and scenarios, and says what is wrong with these, from docs/FORMATS.md."""
import functools
import math
import os
import re
import sys
import tomllib

sys.path.append(os.path.realpath(f"{os.path.dirname(os.path.realpath(__file__))}/../../libagc/python"))
from agc_library import KEYS

MOST_BYTES = 1048576
MOST_ACTIONS = KEYS["task"]["action"].high
LINES = ["timer", "key", "radar"]

PRIORITY, ADDRESS, WORD, PLACE, GROUP, DELAY, PHASE = range(7)
# How each number is written, its base, its range, and its format.
FORMS = {
    PRIORITY: ("[0-7]{2}", 8, 1, 0o37, "02o"),
    ADDRESS: ("[0-7]{5}", 8, 1, 0o37777, "05o"),
    WORD: ("[0-7]{5}", 8, 0, 0o77777, "05o"),
    PLACE: ("[0-9]", 10, 1, 6, ""),
    GROUP: ("[0-9]", 10, 1, 6, ""),
    DELAY: ("[1-9][0-9]*", 10, 1, 16250, ""),
    PHASE: ("0|[1-9][0-9]*", 10, 0, 127, ""),
}
JOBS = {"novac": [PRIORITY, ADDRESS, WORD], "findvac": [PRIORITY, ADDRESS, WORD]}
ACTIONS = {"nothing": [], **JOBS, "rouse": [ADDRESS], "list": [DELAY, ADDRESS, WORD]}
REQUESTS = {**JOBS, "end": [], "sleep": [ADDRESS], "rouse": [ADDRESS], "prio": [PRIORITY], "change": [], "store": [PLACE, WORD],
            "list": [DELAY, ADDRESS, WORD], "tick": [], "phase": [GROUP, PHASE], "restart": [], "fresh": []}
NOTHING = ("nothing",)


class Fault(Exception):
    """What the program says of its input, with the exit status 1."""


class Unknown(Exception):
    """TOML 1.1 may allow what tomllib, which reads 1.0, doesn't."""


# What is new in 1.1: two escapes, inline tables over several lines or with a comma at their end, times without seconds.
NEWER = re.compile(r"\\[ex]|\{[^}]*(\n|,\s*\})|\d\d:\d\d(?!:)")


# Lines.

@functools.lru_cache(1 << 16)
def number_of(text, form):
    """The number that a word of a line spells, or None."""
    pattern, base, least, most, _ = FORMS[form]
    number = int(text, base) if re.fullmatch(pattern, text, re.ASCII) else None
    return number if number is not None and least <= number <= most else None


@functools.lru_cache(1 << 16)
def request_of(line, *kinds):
    """The request that a line spells, its kind and numbers; None where it spells none of these kinds, if any are named."""
    kind, *words = line.split(" ")
    forms = (ACTIONS if "nothing" in kinds else REQUESTS).get(kind) if kind in (kinds or REQUESTS) else None
    if forms is None or len(words) != len(forms):
        return None
    numbers = [number_of(*it) for it in zip(words, forms)]
    return None if None in numbers else (kind, *numbers)


def texts_of(request):
    """The words of a request's line."""
    kind, *numbers = request
    return [kind, *(f"{it:{FORMS[form][4]}}" for it, form in zip(numbers, {**REQUESTS, **ACTIONS}[kind]))]


@functools.lru_cache(1 << 16)
def line_of(request):
    return " ".join(texts_of(request))


def list_of(value):
    """An array's values; a single value stands for an array of it."""
    return value if isinstance(value, list) else [value]


def or_fault(value):
    """What a string spells. It is the bench's fault if it spells nothing."""
    if value is None:
        raise Fault("line")
    return value


def text_of(given):
    if len(given) > MOST_BYTES:
        raise Fault("too long")
    try:
        return given.decode()
    except UnicodeDecodeError:
        raise Fault("not text") from None


def read_script(given):
    """The requests of a script."""
    lines = text_of(given).split("\n")
    if lines[-1] == "":
        lines.pop()
    requests = [request_of(it) for it in lines]
    if None in requests:
        raise Fault(f"line {requests.index(None) + 1}")
    return requests


# Benches.

class Bench:
    """What a document has of a machine and of its callers. Rows and entries are tuples of requests."""

    def __init__(self, table=None):
        table = table or {}
        self.sets, self.limit = table.get("sets", 7), table.get("limit", 1000)
        self.allowance, self.attends = table.get("allowance", 1000000), table.get("attends", 16)
        pulses = {it: actions_of(table.get(it, "nothing")) for it in LINES[1:]}
        self.pulses = {"timer": [("tick",)], **{name: [it for it in found if it != NOTHING] for name, found in pulses.items()}}
        self.power = [or_fault(number_of(it, WORD)) for it in table["power"]] if "power" in table else None
        self.script = requests_of(table.get("script", []))
        rows = [row_of(it) for it in table.get("task", [])]
        entries = [entry_of(it) for it in table.get("phase", [])]
        self.workers = [requests_of(it["script"]) for it in table.get("worker", [])]
        self.devices = [(or_fault(it["line"] if it["line"] in LINES else None), it.get("pulses", 1)) for it in table.get("device", [])]
        self.rows, self.entries = dict(rows), dict(entries)
        for kept, tables, fault in ((self.rows, rows, "task twice"), (self.entries, entries, "phase twice")):
            if len(kept) < len(tables):
                raise Fault(fault)
        if len({group for (group, _), begun in entries if any(it[0] == "findvac" for it in begun)}) == 6:
            raise Fault("too many areas")

    def serially(self):
        """All requests, in the order of the file."""
        lanes = [self.script, *self.workers, *(self.pulses[line] * count for line, count in self.devices)]
        return [it for lane in lanes for it in lane]


def requests_of(lines):
    return [or_fault(request_of(it)) for it in lines]


def actions_of(value):
    return tuple(or_fault(request_of(it, *ACTIONS)) for it in list_of(value))


def row_of(table):
    task = or_fault(number_of(table["at"], ADDRESS)), or_fault(number_of(table["bank"], WORD))
    return task, actions_of(table["action"])


def entry_of(table):
    begun = [or_fault(request_of(table[key], *kinds)) for key, kinds in (("job", JOBS), ("task", ["list"])) if key in table]
    return (table["group"], table["phase"]), tuple(begun)


def is_of_kind(value, key):
    """Whether a value is of a key's kind, and within its bounds. What texts spell is looked at later."""
    if key.kind == "integer":
        return type(value) is int and key.low <= value <= key.high
    if key.kind == "text" or (key.kind == "oneOrMore" and isinstance(value, str)):
        return isinstance(value, str)
    if not isinstance(value, list) or not key.low <= len(value) <= key.high:
        return False
    if key.kind == "tables":
        return all(isinstance(it, dict) and has_keys(it, key.form) for it in value)
    return all(isinstance(it, str) for it in value)


def has_keys(table, level):
    """Whether a table has its keys and no others, each of its kind."""
    keys = KEYS[level]
    if not set(table) <= set(keys) or any(key.required and name not in table for name, key in keys.items()):
        return False
    return all(is_of_kind(value, keys[name]) for name, value in table.items())


def has_wide_integer(value):
    if isinstance(value, (dict, list)):
        return any(map(has_wide_integer, value.values() if isinstance(value, dict) else value))
    return type(value) is int and not -(2**63) <= value < 2**63


def real(text):
    """A float, which is refused where it is too large."""
    if math.isinf(float(text)) and "inf" not in text:
        raise Fault("not toml")
    return float(text)


def read_bench(given):
    text = text_of(given).removeprefix("\ufeff")
    try:
        table = tomllib.loads(text, parse_float=real)
    except (tomllib.TOMLDecodeError, RecursionError):
        raise (Unknown if NEWER.search(text) else Fault)("not toml") from None
    if has_wide_integer(table):
        raise Fault("not toml")
    if not has_keys(table, "bench"):
        raise Fault("key")
    return Bench(table)


def bench_of(scenario):
    """The machine of a scenario, which refuses nothing."""
    kept = {key: scenario[key] for key in ("sets", "power", "task", "phase") if key in scenario}
    return Bench({**kept, "limit": 10**9, "allowance": 10**9})


# Lines for the callers of libagc: libagc/tests/caller.py says what these are.

def caller_lines(bench, requests):
    """The plan, the words found at power-up, and requests."""
    for (group, phase), begun in bench.entries.items():
        job, task = ("".join(line_of(it) for it in begun if (it[0] in JOBS) == is_job and it[0] != "nothing") for is_job in (True, False))
        yield f"phase {group} {phase}|{job}|{task}"
    for (at, bank), actions in bench.rows.items():
        yield "|".join([f"task {at:05o} {bank:05o}", *map(line_of, actions)])
    if bench.power is not None:
        yield "power " + " ".join(f"{it:05o}" for it in bench.power)
    yield from map(line_of, requests)
