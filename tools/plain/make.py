"""Random inputs: one source of chance, one writer of TOML, one damager."""
import random

from . import documents, orders
from .machine import ALARMS
from .orders import text_of

RARE = ["restart", "fresh", "phase"]
class Dice(random.Random):
    """What one run is made of. Addresses and banks are few, so that sleepers, rows and entries are met."""

    def __init__(self, seed):
        super().__init__(seed)
        self.weights = [self.weight(kind) for kind in documents.REQUESTS]
        pool = [f"{0o2000 + k:05o}" for k in range(6)] + ["00001", "37777", f"{self.randint(1, 0o37777):05o}"]
        self.ats = self.sample(pool, self.randint(1, 6))
        self.banks = self.sample(["00000", "00005", "77777", "40000", f"{self.randrange(32768):05o}"], self.randint(1, 2))
        self.priorities = self.sample(range(1, 32), self.randint(1, 31))
        self.longest = self.choice([2, 4, 7, 20, 400, 16250])

    def weight(self, kind):
        """How often a kind is asked for: in some runs hardly ever, in others by far most often."""
        return self.random() ** 3 * (0.1 if kind in RARE else 1) + (0.2 if kind in ("tick", "list") else 0)

    def often(self, chance):
        return self.random() < chance

    def job(self, kind=None):
        kind = kind or self.choice([*documents.JOBS])
        return f"{kind} {self.choice(self.priorities):02o} {self.choice(self.ats)} {self.choice(self.banks)}"

    def listing(self):
        delay = self.choice([1, 2, 8193, 8194, 16249, 16250]) if self.often(0.1) else self.randint(1, self.longest)
        return f"list {delay} {self.choice(self.ats)} {self.choice(self.banks)}"

    def line(self, kind):
        if kind in documents.JOBS:
            return self.job(kind)
        if kind in ("sleep", "rouse"):
            return f"{kind} {self.choice(self.ats)}"
        if kind == "prio":
            return f"prio {self.choice(self.priorities):02o}"
        if kind == "store":
            return f"store {self.randint(1, 6)} {self.choice([0, 1, 0o37777, 0o40000, 0o77777, self.randrange(32768)]):05o}"
        if kind == "list":
            return self.listing()
        return f"phase {self.randint(1, 6)} {self.phase()}" if kind == "phase" else kind

    def phase(self):
        return self.choice([0, 1, 2, 127]) if self.often(0.8) else self.randint(0, 127)

    def lines(self, count):
        """So many lines, ticks in rows: else nothing that is listed would ever fire."""
        lines, kinds = [], [*documents.REQUESTS]
        while len(lines) < count:
            kind = self.choices(kinds, self.weights)[0]
            lines += [self.line(kind)] * (self.randint(1, 2 * min(self.longest, 40)) if kind == "tick" else 1)
        return lines[:count]

    def length(self):
        """Most runs are short: each table can be full after ten requests."""
        return self.choices([self.randint(0, 30), self.randint(30, 100), self.randint(100, 500)], [60, 32, 8])[0]

    def action(self):
        return self.choice(["nothing", self.line("rouse"), self.listing(), self.listing(), self.job(), self.job()])

    def actions(self):
        """What a task or pulse does: a line, or an array of one to four."""
        return self.action() if self.often(0.4) else [self.action() for _ in range(self.randint(1, documents.MOST_ACTIONS))]


# Scripts and benches.

def script(dice):
    text = text_of(dice.lines(1100 if dice.often(0.01) else dice.length()))
    return text[:-1] if dice.often(0.1) else text


def plan(dice):
    """Rows and entries of a plan."""
    tasks = [(at, bank) for at in dice.ats for bank in dice.banks]
    named = dice.sample(tasks, max(dice.randint(0, len(tasks)), dice.randint(0, len(tasks))))
    rows = [{"at": at, "bank": bank, "action": dice.actions()} for at, bank in named]
    phases = [(group, phase) for group in range(1, 7) for phase in (1, 2, 127) if dice.often(0.5)]
    spared, entries = dice.randint(1, 6), []
    for group, phase in dice.sample(phases, len(phases)):
        entries.append({"group": group, "phase": phase})
        if dice.often(0.7):
            entries[-1]["job"] = dice.job("novac" if group == spared or dice.often(0.5) else "findvac")
        if dice.often(0.6):
            entries[-1]["task"] = dice.listing()
    return {"task": rows, "phase": entries}


def power(dice):
    words = []
    for _ in range(6):
        phase = 128 if dice.often(0.01) else dice.phase()
        words += [0o77777 - phase, phase]
    if dice.often(0.2):
        words[dice.randrange(12)] ^= 1 << dice.randrange(15)
    return [f"{it:05o}" for it in words]


def plain_bench(dice, lines):
    """A bench of one caller, which refuses nothing."""
    more = {"sets": dice.choice([7, 8])} if dice.often(0.7) else {}
    if dice.often(0.3):
        more["power"] = power(dice)
    return {**more, **({"script": lines} if lines else {}), **plan(dice)}


def bench(dice, lines):
    """A bench of any keys. Seldom a row or an entry stands twice, or all groups want an area."""
    made = plain_bench(dice, lines)
    if dice.often(0.3):
        made["limit"] = dice.choice([1, dice.randint(1, 50), dice.randint(1, 1000), 1000000])
    if dice.often(0.2):
        made["allowance"] = dice.choice([0, dice.randint(1, 100), 2**63 - 1])
    made.update({name: dice.actions() for name in ("key", "radar") if dice.often(0.5)})
    for name, other in (("task", {"action": "nothing"}), ("phase", {})):
        if made[name] and dice.often(0.02):
            made[name].append({**dice.choice(made[name]), **other})
    if dice.often(0.02):
        made["phase"] += [{"group": group, "phase": 3, "job": dice.job("findvac")} for group in range(1, 7)]
    return made


def workers(dice, count, most):
    return [{"script": dice.lines(dice.randint(0, most))} for _ in range(count)]


def devices(dice, most, pulses):
    return [{"line": dice.choice(documents.LINES), "pulses": dice.randint(0, pulses)} for _ in range(dice.randint(0, most))]


def serial(dice):
    made = bench(dice, dice.lines(dice.length()))
    made.update(worker=workers(dice, dice.choice([0, 0, 1, 3]), 20), device=devices(dice, 3, dice.choice([3, 20])))
    if dice.often(0.3):
        made["attends"] = dice.choice([0, 1, 16, 1000])
    return toml(made, dice)


def threads(dice):
    """A bench of which few reports can come, of all orders in which its threads may ask. Seldom those are many."""
    moments = 4000 if dice.often(0.01) else 200
    while True:
        made = bench(dice, dice.lines(dice.choice([0, dice.randint(0, 30), dice.randint(0, 60)])))
        many = dice.choice([0, 1, 2, 3])
        made["worker"] = workers(dice, many, [0, 60, 5, 3][many])
        made["device"] = devices(dice, 3, dice.choice([1, 2, 3]) if many else dice.choice([2, 20, 100]))
        made["attends"] = 0 if dice.often(0.3) else dice.randint(0, 2)
        try:
            if orders.texts_of_threads(documents.Bench(made), moments) is None:
                continue
        except documents.Fault:
            pass
        return toml(made, dice)


FULL_JOBS = ["findvac 20 02000 00005", "novac 10 02100 00005", "findvac 30 02200 00005"]
OTHERS = ["end", "end", "change", "tick", "list 1 03000 00005", "list 2 03100 00005", "sleep 02000", "rouse 02000", "sleep 02100",
          "rouse 02100", "store 1 00007", "prio 25", "restart", "phase 1 3"]


def small_bench(dice):
    """A small bench whose tables are nearly full after its script, and whose workers may ask the same."""
    made = {"sets": dice.choice([7, 8])}
    made.update({key: dice.randint(least, most) for key, least, most, chance in (("limit", 1, 12, 0.3), ("allowance", 0, 14, 0.2))
                 if dice.often(chance)})
    made.update({key: [dice.choice([*FULL_JOBS[:2], "list 1 03000 00005", "nothing"]) for _ in range(dice.randint(1, 2))]
                 for key in ("key", "radar") if dice.often(0.7)})
    made["script"] = [dice.choice(FULL_JOBS) for _ in range(dice.randint(0, 5))] + ["list 1 03000 00005"] * dice.choice([0, 0, 7, 8])
    made["task"] = [{"at": "03000", "bank": "00005", "action": ["findvac 12 02300 00005"]}]
    made["phase"] = [{"group": 1, "phase": 3, "job": "novac 15 02400 00005"}] * dice.often(0.3)
    scripts = [[dice.choice(FULL_JOBS if dice.often(0.55) else OTHERS) for _ in range(dice.randint(0, 4))] for _ in range(dice.randint(0, 3))]
    made["worker"] = [{"script": scripts[0] if dice.often(0.4) else it} for it in scripts]
    made["device"] = [{"line": dice.choice(documents.LINES), "pulses": dice.randint(0, 3)} for _ in range(dice.randint(0, 2))]
    return made


# Scenarios.

def costs_and_steps(dice, at):
    """A job of a scenario."""
    job = {"at": at, "cost": dice.choice([1, 1, 2, 3, 7, 40])}
    if dice.often(0.4):
        job["cost"] = {"from": job["cost"], "to": job["cost"] + dice.choice([0, 1, 1, 3, 20])}
    leaves = dice.choice(["end", f"sleep {dice.choice(dice.ats)}"])
    kinds = [*documents.JOBS, "prio", "list", "phase", "store"]
    if dice.often(0.5):
        job["then"] = [*(dice.line(dice.choice(kinds)) for _ in range(dice.choice([0, 1, 2, 3, 7]))), leaves]
    elif dice.often(0.7):
        job["then"] = leaves
    if dice.often(0.4):
        job["deadline"] = dice.choice([1, 2, 5, 20, dice.randint(1, 200)])
    return job


def beat(dice):
    """A row of stolen time that comes again."""
    begins, long = dice.choice([0, 1, dice.randint(0, 150)]), dice.choice([1, 1, 2, 7])
    row = {"from": begins, "to": begins + long, "percent": dice.choice([1, 30, 100, dice.randint(0, 100)])}
    row["every"] = long + dice.choice([0, 1, 2, 9, 40])
    if dice.often(0.5):
        row["until"] = max(0, begins + dice.choice([-1, 0, row["every"] - 1, row["every"], dice.randint(0, 100)]))
    return row


def steal(dice):
    if dice.often(0.5):
        return dice.choice([0, 1, 15, 50, 99, 100, dice.randint(0, 100)])
    ends = sorted(dice.sample(range(0, 300), 2 * dice.randint(0, 3)))
    rows = [{"from": a, "to": b, "percent": dice.randint(0, 100)} for a, b in zip(ends[::2], ends[1::2])]
    rows += [beat(dice) for _ in range(dice.randint(0 if rows else 1, 2))]
    return dice.sample(rows, len(rows))


def event(dice, above):
    """An event, which may count from an alarm or from one of those above it. Some fill a table at once."""
    if dice.often(0.15):
        line = dice.choice([dice.job("novac"), dice.job("findvac"), f"list {dice.randint(20, 40)} {dice.choice(dice.ats)} 00005"])
        return {"at": dice.randint(0, 120), "do": [line] * 10}
    made = {"at": dice.choice([0, 0, dice.randint(0, 200)])}
    names = [it["name"] for it in above if "name" in it]
    if dice.often(0.4):
        made["after"] = dice.choice([*names, *names, *(f"{it:o}" for it in ALARMS)])
    if dice.often(0.5):
        made["name"] = dice.choice(["P63", "P64", "1201" if dice.often(0.2) else "P65"])
    odd = ["end", "change", "restart", "fresh", "sleep", "prio", "phase", "tick", "store"]
    lines = [dice.line(dice.choice(odd if dice.often(0.25) else ["novac", "findvac", "rouse", "list", "list"]))
             for _ in range(dice.randint(1, 3))]
    made["do"] = lines[0] if len(lines) == 1 and dice.often(0.5) else lines
    if dice.often(0.5):
        made["every"] = dice.choice([1, 2, 3, 10, 37])
        if dice.often(0.5):
            made["until"] = made["at"] + dice.randint(0, 100)
    return made


def scenario(dice):
    """Few delays are longer than a run."""
    dice.longest = min(dice.longest, 40)
    made = {"sets": dice.choice([7, 8]), "seconds": dice.randint(1, 2), "steal": steal(dice), **plan(dice)}
    made["job"] = [costs_and_steps(dice, at) for at in dice.sample(dice.ats, dice.randint(1, len(dice.ats)))]
    made["event"] = []
    for _ in range(dice.randint(1, 5)):
        made["event"].append(event(dice, made["event"]))
    for row in (row for kind in ("job", "task", "phase") for row in made[kind] if dice.often(0.2)):
        row["name"] = dice.choice(["SERVICER", "READACCS 2", "\u03b1, & <b>"])
    costs = [it["cost"] for it in made["job"]]
    if any(not isinstance(it, int) and it["from"] < it["to"] for it in costs) or dice.often(0.2):
        made["seed"] = dice.choice([1, 2147483646, dice.randint(1, 2147483646)])
    return made


# The writer of TOML: plainly, or with dice in one of many ways.

def string_text(text, dice):
    if dice and text and dice.often(0.03):
        return '"' + text.replace(text[0], f"\\u{ord(text[0]):04x}") + '"'
    return f"'{text}'" if dice and dice.often(0.1) else '"' + text.replace("\r", "\\r") + '"'


def integer_text(number, dice):
    if dice and dice.often(0.05):
        return dice.choice([f"+{number}", f"{number:_}", f"0x{number:x}", f"0o{number:o}", f"0b{number:b}"])
    return str(number)


def value_text(value, dice):
    if isinstance(value, bool):
        return str(value).lower()
    if isinstance(value, int):
        return integer_text(value, dice)
    if isinstance(value, str):
        return string_text(value, dice)
    if isinstance(value, dict):
        return "{ " + ", ".join(f"{key} = {value_text(it, dice)}" for key, it in value.items()) + " }"
    parts = [value_text(it, dice) for it in value]
    if dice and dice.often(0.2):
        return "[\n" + "".join(f"    {it},\n" for it in parts) + "]"
    return "[" + ", ".join(parts) + ("," if dice and parts and dice.often(0.1) else "") + "]"


def mixed(keys, dice):
    return dice.sample([*keys], len(keys)) if dice else [*keys]


def toml(table, dice=None):
    head, tail = [], []
    for name in mixed(table, dice):
        value = table[name]
        if not isinstance(value, list) or (value and not isinstance(value[0], dict)) or name == "script":
            head.append(f"{name} = {value_text(value, dice)}")
        elif not value and dice and dice.often(0.1):
            head.append(f"{name} = []")
        else:
            tail += ["\n".join([f"[[{name}]]", *(f"{key} = {value_text(row[key], dice)}" for key in mixed(row, dice))]) for row in value]
    comment = "# as it stands\n" if dice and dice.often(0.1) else ""
    text = "\n".join([*head, *tail, ""])
    if dice and dice.often(0.05):
        text = text.replace("\n", "\r\n")
    return ("\ufeff" if dice and dice.often(0.02) else "") + comment + text


# Inputs with faults.

PIECES = [b"\0", b"\xff", b"\xc3", b"\xed\xa0\x80", b"\xef\xbb\xbf", b"\r", b"\t", b"'", b'"', b"{", b"}", b"[", b"]", b"+", b"=", b"\n",
          b" ", b"#", b",", b".", b"_", b"0", b"7", b"9", b"-1", b"\\", b"\\u0041", b'"""', b"'''", b"1e999", b"1.5", b"nan", b"true",
          b"1979-05-27", b"seconds = 1\n", b"sets = 9\n", b"9223372036854775808", b"limit", b"77777", b"00000", b"tick", b"[[task]]",
          b"script = []", "\u00e9".encode()]


def damaged(dice, text, other=b""):
    """One to five changes: bytes turned, lost, doubled, put in, or taken from another text, or a line lost or doubled."""
    made = bytearray(text)
    for _ in range(dice.choice([1, 1, 1, 2, 3, 5])):
        at, there = dice.randrange(len(made) + 1), dice.randrange(len(other) + 1)
        to = len(made) if dice.often(0.03) else at + dice.choice([1, 1, 2, 5, 20, 100])
        line, end = made.rfind(b"\n", 0, at) + 1, made.find(b"\n", at) + 1 or len(made)
        turned = bytes([made[at] ^ 1 << dice.randrange(8)]) if at < len(made) else b""
        piece, byte = dice.choice(PIECES), bytes([dice.randrange(256)])
        at, to, put = dice.choice([(at, at + 1, turned), (at, at + 1, byte), (at, at + 1, piece), (at, at, piece), (at, to, b""),
                                   (at, at, made[at:to]), (at, to, other[there : there + to - at]), (line, end, b""),
                                   (line, line, made[line:end])])
        made[at:to] = put
    return bytes(made)
