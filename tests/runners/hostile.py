"""Runs the built programs where memory, reads and writes fail, and agc on benches with faults in them.

    tests/run hostile           all of it
    tests/run hostile PART ..   the parts named: growths, reads, writes, ends, texts, benches, scenarios, orders,
                                and many, starter, progress, play and workbench of commands.py

`failing.c` is put under the program: each growth of memory, each read of standard input and each write
of standard output is refused in turn, until a run has none refused; reads and writes then move one byte
at a time. What has to come of it is said beside each part. A run that ends otherwise has failed.
"""
import os
import re
import resource
import subprocess
import tempfile

import counting
from commands import many, play, progress, starter, workbench
from plain import make, orders as plain_orders
from repository import TOP, is_scenario

FAILING = f"{TOP}/tests/hostile/failing.c"
PROGRAMS = {name: f"{TOP}/crates/{name}/out/{name}" for name in ("agc", "agc_watch")}

# By these words agc_watch is run, by all others agc.
WATCHED = {"trace", "page", "check", "explore", "bench", "peaks", "sweep", "--help", "--version"}

# A run that takes longer hangs.
SECONDS = 1200

# So many benches are tried in every order.
BENCHES = 300

NO_MEMORY = (3, b"agc: no memory\n")
NO_THREAD = (3, b"agc: no thread\n")
# Why standard input can't be read, or standard output written.
BAD, FAILED, FULL, FOLDER = (
    b": Bad file descriptor (os error 9)", b": Input/output error (os error 5)", b": No space left on device (os error 28)",
    b": Is a directory (os error 21)")
NOT_TEXT = (1, b"-: not text: it isn't UTF-8\n")
DONE = (0, b"")

# What `read_bench` may say of a text that is no bench.
FAULTS = {"not text", "not toml", "key", "line", "task twice", "phase twice", "too many areas"}

SCRIPT = b"phase 2 3\n" + b"list 5 02000 00005\n" * 10 + b"tick\nfindvac 10 02000 00005\nchange\n"

# Power comes back with inactive groups. An alarm 1203 comes of the tenth listing, and the restart
# brings the phase's job and task back.
BENCH = b"""limit = 100
power = [%s]
script = ["phase 2 3", %s]
[[phase]]
group = 2
phase = 3
job = "findvac 20 04100 00007"
task = "list 100 04000 00007"
""" % (b", ".join([b'"77777", "00000"'] * 6), b", ".join([b'"list 5 02000 00005"'] * 10))

# Jobs and a task that take time, of which some is stolen; the sixth VAC area is one too many.
SCENARIO = b"""title = "Names & more"
seconds = 1
steal = [{ from = 0, to = 50, percent = 90 }]
[[job]]
name = "SERVICER"
at = "04000"
cost = 3
then = "sleep 04100"
[[task]]
name = "READACCS"
at = "02000"
bank = "00005"
action = ["findvac 20 04000 00007", "list 9 02000 00005"]
[[phase]]
name = "descent"
group = 5
phase = 1
task = "list 20 02000 00005"
[[event]]
name = "begin"
at = 0
do = ["phase 5 1", "list 1 02000 00005"]
[[event]]
at = 2
every = 40
do = "rouse 04100"
"""

# What scenarios are run by; a word may have others behind it. A page is as long for each document, and a bench's is
# written in parts already.
SCENARIO_WORDS = ("trace --brief", "check", "bench", "peaks", "sweep steal 0 100 50")

# In how many places of a long output a write fails: a page's would be seven thousand, and take ten minutes.
MOST_WRITES = 400

# Workers and devices of which each order leaves the same words and totals.
THREADS = BENCH + b"""
[[worker]]
script = ["restart", "restart", "restart"]
[[worker]]
script = ["restart", "restart"]
[[device]]
line = "radar"
pulses = 20
"""


def program_of(word):
    return "agc_watch" if word.split()[0] in WATCHED else "agc"


def told(word, ran):
    """Its status and standard error, with agc's name for its own; another name is a fault."""
    name = f"{program_of(word)}: ".encode()
    is_of_input = ran.stderr.startswith(b"-: ") and name != b"agc: "
    line = b"agc: " + ran.stderr[len(name) :] if ran.stderr.startswith(name) else ran.stderr if is_of_input else b"no name: " + ran.stderr
    return ran.returncode, line if ran.stderr else b""


def unread(word, reason):
    """How a program ends that can't read standard input for this reason, which agc doesn't tell."""
    return 4, (b"-" + reason if program_of(word) == "agc_watch" else b"agc: input") + b"\n"


def unwritten(word, reason=b""):
    """How a program ends that can't write for this reason, which agc doesn't tell."""
    return 4, b"agc: output" + (reason if program_of(word) == "agc_watch" else b"") + b"\n"


def cut_off(word):
    """How a program ends whose output goes to a closed pipe, of which agc_watch says nothing."""
    return (4, b"") if program_of(word) == "agc_watch" else unwritten(word)


class Ended:
    """How a run of the program ended, and how many growths, reads and writes it made."""

    def __init__(self, room, word, text, words=(), **settings):
        counts = os.path.join(room, "counts")
        given = {name.upper(): str(value) for name, value in settings.items()}
        under = {**os.environ, "LD_PRELOAD": os.path.join(room, "failing.so"), "COUNTS": counts, **given}
        called = [PROGRAMS[program_of(word)], *word.split(), *words]
        ran = subprocess.run(called, input=text, capture_output=True, timeout=SECONDS, env=under, check=False)
        self.said = told(word, ran)
        self.text, self.status = ran.stdout, ran.returncode
        with open(counts, encoding="ascii") as file:
            self.growths, self.before_input, self.reads, self.writes = map(int, file.read().split())
        os.remove(counts)


class Hostile:
    def __init__(self, room):
        self.room = room
        self.runs = 0
        self.passed = self.failed = 0

    def run(self, word, text, **settings):
        self.runs += 1
        return Ended(self.room, word, text, **settings)

    def expect(self, what, holds, ended=None):
        self.passed += bool(holds)
        if not holds:
            self.failed += 1
            print(f"hostile: {what}{f': {ended.said}, {len(ended.text)} bytes' if ended else ''}")


def words(hostile):
    """Each way to run the program, its input, and the whole text that comes of it."""
    watched = [(word, BENCH) for word in ("trace", "page", "check")]
    watched += [(word, SCENARIO) for word in SCENARIO_WORDS]
    for word, text in (("script", SCRIPT), ("serial", BENCH), ("threads", THREADS), *watched):
        whole = hostile.run(word, text)
        hostile.expect(f"{word} with nothing refused", whole.said == DONE and whole.text, whole)
        yield word, text, whole


def growths(hostile):
    """A run of which one growth is refused says so, and has written nothing, or of a sweep its first rows. One growth it
    may do without, as of room that is asked for ahead: then it writes the whole text, as if nothing was refused. What is
    taken for the command line is tried of one command of each program, since all commands take it alike."""
    tried = set()
    for word, text, whole in words(hostile):
        refusals = {NO_MEMORY, NO_THREAD} if word == "threads" else {NO_MEMORY}
        first, spared = whole.before_input if program_of(word) in tried else 0, 0
        tried.add(program_of(word))
        for k in range(first + 1, whole.growths + 1):
            ended = hostile.run(word, text, fail_growth=k)
            is_front = word.startswith("sweep") and whole.text.startswith(ended.text)
            is_told = ended.said in refusals and (not ended.text or is_front)
            is_spared = ended.said == DONE and ended.text == whole.text
            spared += is_spared
            hostile.expect(f"{word}, growth {k}", is_told or is_spared, ended)
        ended = hostile.run(word, text, fail_growth=whole.growths + 1)
        is_whole = ended.said == DONE and ended.growths == whole.growths
        hostile.expect(f"{word}, no growth left to refuse", is_whole, ended)
        hostile.expect(f"{word} can do without one growth at most", spared <= 1)
        print(f"hostile: {word}: {whole.growths - first} growths refused one at a time, of which it can do without {spared}")


def reads(hostile):
    """A run of which one read fails says so, and has written nothing; one byte a read is the same input."""
    for word, text, whole in words(hostile):
        for k in range(1, whole.reads + 1):
            ended = hostile.run(word, text, fail_read=k)
            hostile.expect(f"{word}, read {k}", ended.said == unread(word, FAILED) and not ended.text, ended)
        singly = hostile.run(word, text, most_read=1)
        hostile.expect(f"{word}, one byte a read", singly.said == DONE and singly.text == whole.text, singly)
        for k in (1, 2, singly.reads // 2, singly.reads):
            ended = hostile.run(word, text, most_read=1, fail_read=k)
            hostile.expect(f"{word}, read {k} of one byte each", ended.said == unread(word, FAILED) and not ended.text, ended)


def writes(hostile):
    """A run of which one write fails says so, and has written a front of the whole text, in order."""
    for word, text, _ in words(hostile):
        singly = hostile.run(word, text, most_written=1)
        whole = singly.text
        hostile.expect(f"{word}, one byte a write", singly.said == DONE and singly.writes == len(whole), singly)
        step = max(37, singly.writes // MOST_WRITES)
        for k in (*range(1, min(60, singly.writes)), *range(60, singly.writes, step), singly.writes):
            ended = hostile.run(word, text, most_written=1, fail_write=k)
            hostile.expect(f"{word}, write {k}", ended.said == unwritten(word, FAILED) and whole.startswith(ended.text), ended)
        ended = hostile.run(word, text, most_written=0)
        hostile.expect(f"{word}, writes that take nothing", ended.said == unwritten(word) and not ended.text, ended)


def ends(hostile):
    """Standard input and output that are closed, full, broken or no file: the status and line, and no signal."""
    for word, text, _ in words(hostile):
        with open("/dev/full", "wb") as full:
            hostile.expect(f"{word} to a full device", said_by(hostile, word, text, stdout=full) == unwritten(word, FULL))
        reading, writing = os.pipe()
        os.close(reading)
        hostile.expect(f"{word} to a broken pipe", said_by(hostile, word, text, stdout=writing) == cut_off(word))
        os.close(writing)
        closed = said_by(hostile, word, text, preexec_fn=lambda: os.close(1))
        hostile.expect(f"{word} without an output", closed == unwritten(word, BAD))
        folder = os.open("/", os.O_RDONLY)
        hostile.expect(f"{word} from a folder", said_by(hostile, word, None, stdin=folder) == unread(word, FOLDER))
        os.close(folder)
        closed = said_by(hostile, word, None, stdin=subprocess.DEVNULL, preexec_fn=lambda: os.close(0))
        hostile.expect(f"{word} without an input", closed == unread(word, BAD))
        small = said_by(hostile, word, text, preexec_fn=within_8_mib)
        hostile.expect(f"{word} in 8 MiB", small in {DONE, NO_MEMORY, NO_THREAD})


def texts(hostile):
    """The help and the version, which read nothing: each write refused in turn, and each growth of the help."""
    for word in ("--help", "--version"):
        whole = hostile.run(word, b"")
        hostile.expect(f"{word} with nothing refused", whole.said == DONE and whole.text and not whole.reads, whole)
        spared = 0
        for k in range(1, whole.growths + 1) if word == "--help" else ():
            ended = hostile.run(word, b"", fail_growth=k)
            is_spared = ended.said == DONE and ended.text == whole.text
            spared += is_spared
            hostile.expect(f"{word}, growth {k}", is_spared or (ended.said == NO_MEMORY and not ended.text), ended)
        hostile.expect(f"{word} can do without one growth at most", spared <= 1)
        singly = hostile.run(word, b"", most_written=1)
        hostile.expect(f"{word}, one byte a write", singly.said == DONE and singly.writes == len(whole.text), singly)
        for k in range(1, singly.writes + 1):
            ended = hostile.run(word, b"", most_written=1, fail_write=k)
            hostile.expect(f"{word}, write {k}", ended.said == unwritten(word, FAILED) and whole.text.startswith(ended.text), ended)
        closed = said_by(hostile, word, b"", preexec_fn=lambda: os.close(1))
        hostile.expect(f"{word} without an output", closed == unwritten(word, BAD))
        closed = said_by(hostile, word, None, stdin=subprocess.DEVNULL, preexec_fn=lambda: os.close(0))
        hostile.expect(f"{word} without an input", closed == DONE)
        print(f"hostile: {word}: {singly.writes} writes refused one at a time")


def within_8_mib():
    resource.setrlimit(resource.RLIMIT_AS, (8 << 20, 8 << 20))


def said_by(hostile, word, text, **settings):
    """How the program ended, with nothing under it: its status, below 0 for a signal, and its standard error."""
    hostile.runs += 1
    settings.setdefault("stdout", subprocess.PIPE)
    if text is not None:
        settings["input"] = text
    called = [PROGRAMS[program_of(word)], *word.split()]
    ran = subprocess.run(called, stderr=subprocess.PIPE, timeout=SECONDS, check=False, **settings)
    return told(word, ran)


def benches(hostile):
    """Each of 500 benches, made of the examples by seeded changes, is run or has one of the faults of a bench."""
    examples = sorted(name for name in os.listdir(f"{TOP}/examples") if name.endswith(".toml"))
    texts = [it for it in (read(f"{TOP}/examples/{name}") for name in examples) if not is_scenario(it)][:5]
    dice = make.Dice(1202)
    wanted = {DONE} | {(1, f"agc: {fault}\n".encode()) for fault in FAULTS}
    seen = {}
    for number in range(500):
        said = said_by(hostile, "serial", make.damaged(dice, dice.choice(texts).encode()))
        seen[said] = seen.get(said, 0) + 1
        hostile.expect(f"bench {number} of 500 ends in {said}", said in wanted)
    hostile.expect("all benches end alike", len(seen) > 3)


def scenarios(hostile):
    """Each of 300 scenarios, made of those here by seeded changes, is run, or is told line by line what is wrong."""
    examples = sorted(name for name in os.listdir(f"{TOP}/examples") if name.endswith(".toml"))
    texts = [it for it in (read(f"{TOP}/examples/{name}") for name in examples) if is_scenario(it)]
    dice = make.Dice(1107)
    findings = re.compile(rb"no name: (-:\d+: [^\n]+\n)+")
    seen = set()
    for number in range(300):
        text = make.damaged(dice, dice.choice([*texts, SCENARIO.decode()]).encode())
        said = said_by(hostile, "peaks", text)
        seen.add(said)
        is_told = said[0] == 1 and findings.fullmatch(said[1])
        hostile.expect(f"scenario {number} of 300 ends in {said}", said in {DONE, NOT_TEXT} or is_told)
    hostile.expect("all scenarios end alike", len(seen) > 3)


def orders(hostile):
    """Each of 300 small benches in every order, as tools/soak tries them; and a search that has more states than its bound."""
    crowded(hostile)
    for seed in range(BENCHES):
        dice = make.Dice(seed)
        table = make.small_bench(dice)
        for words, given, is_right in plain_orders.searches(table, plain_orders.random_manner(dice, table)):
            ended = hostile.run(words[0], make.toml(given).encode(), words=words[1:])
            hostile.expect(f"bench {seed}: {' '.join(words)}", is_right(ended.status, ended.text.decode()), ended)


def crowded(hostile):
    """32 workers of two requests have more states than any bound, if no two of them ask the same. At a bound of 200,000
    their search ends, undecided, and has taken no more than 400 bytes a state, besides the 4 MiB that the program is given
    here."""
    scripts = [[f"novac 10 {0o2100 + 8 * k:05o} 00005", "end"] for k in range(32)]
    text = make.toml({"worker": [{"script": it} for it in scripts]})
    called = [PROGRAMS["agc_watch"], "explore", "--states", "200000"]
    with subprocess.Popen(called, stdin=subprocess.PIPE, stdout=subprocess.PIPE, stderr=subprocess.DEVNULL) as run:
        run.stdin.write(text.encode())
        run.stdin.close()
        said = run.stdout.read()
        _, status, used = os.wait4(run.pid, 0)
        run.returncode = os.waitstatus_to_exitcode(status)
    taken = ((used.ru_maxrss << 10) - (4 << 20)) / 200_001
    hostile.expect(f"32 workers: {taken:.0f} bytes a state", taken <= 400)
    hostile.expect("32 workers are undecided", run.returncode == 11 and said.count(b": undecided, 200,000 states") == 3)


def read(path):
    with open(path, encoding="utf-8") as file:
        return file.read()


RUNS = (growths, reads, writes, ends, texts, benches, scenarios, orders, many, starter, progress, play, workbench)
PARTS = {it.__name__: it for it in RUNS}


def add_words(parser):
    parser.add_argument("parts", nargs="*", metavar="PART")


def check():
    missing = [] if os.path.isfile(FAILING) else [f"{FAILING}: it isn't there"]
    return counting.checked("hostile", len(PARTS), missing)


def run(given):
    parts = counting.chosen("hostile", given.parts, PARTS)
    for name, path in PROGRAMS.items():
        if not os.access(path, os.X_OK):
            counting.refuse("hostile", f"there is no program {path}: tools/prove {name} builds it")
    with tempfile.TemporaryDirectory() as room:
        made = ["cc", "-std=c11", "-O1", "-shared", "-fPIC", FAILING, "-o", os.path.join(room, "failing.so"), "-ldl"]
        subprocess.run(made, check=True)
        hostile = Hostile(room)
        for name in parts:
            PARTS[name](hostile)
    return counting.told("hostile", hostile.passed, hostile.failed, f", in {hostile.runs} runs")
