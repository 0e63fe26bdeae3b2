"""Tries the edits: wrong bodies that the prover has to refuse, so that no contract is too weak.

    tests/run edits                  all edits: those of tests/edits/CRATE.edits
    tests/run edits CRATE ..         those of these crates
    tests/run edits --only NAME ..   those of these names
    tests/run edits --often          those with the mark 'often' at their heading
    tests/run edits --check          only looks whether each edit can be applied, and proves nothing
    tests/run edits --compile        only looks whether each edit still compiles, and proves nothing
    tests/run edits --crates-only    only says of which crates they are, a line each

    --share K/N     cuts the edits into N shares of neighbours, most of which belong to the same crate
                    and can be made at once, and tries the K-th; K is any whole number from 0 on, and
                    is taken modulo N
    --seconds S     ends after S seconds; edits that have no verdict by then are no failure
    --jobs N        works in N copies at a time (as many as there are processors to use)
    --together N    makes up to N edits of a crate at once, each of other functions (1)
    --after-ci      takes the libraries that `rt ci` left in crates/*/out, which a check would prove
                    once more; nothing may have changed since

An edit begins with a line '=== NAME', or '=== NAME often'. Behind it stand a line `file: src/x.rt`
and pairs of lines `old: TEXT` and `new: TEXT`; each old TEXT stands once in that file, with the pairs
before it applied. A line `and: TEXT` goes on with the text above it. More `file:` lines may follow.
Before a crate's first edit stand lines `none: FUNCTION: REASON`: of a public function that no edit
changes, nor a function that it calls, and why.

Each edit is made in a copy of the repository that has the work which checks kept in out/. There
`rt check --only FUNCTION` is asked for each function that it changes. Only where these are proved,
or the edit stands outside a function, the whole crate is asked. Verdicts:

    refused      a goal of the edited text is not proved: as it must be
    NOT REFUSED  the whole crate is proved: a contract is too weak, or the edit means the same
    BAD EDIT     the edited text cannot be read, compiled or resolved, or the borrow checker does
                 not cover the function that it makes: no contract was tried
    NO VERDICT   the check ended in another way

Where several are made at once, one is refused if a goal of a function that it changes is not
proved: a function is proved by the contracts of those that it calls, not by their bodies. Each
other edit is tried once more, alone; all are, by halves, where the check of all has no verdict.

A line for each edit (with --compile, for each that doesn't) tells its seconds, its verdict and why:
where, and the goal, whose name ends with the clause's. The last line counts: each edit that is not
refused has failed.
"""
import argparse
import collections
import contextlib
import os
import re
import shutil
import signal
import subprocess
import tempfile
import threading
import time

import counting
import repository
from repository import TOP, Unfit, below, text_of

COLUMNS = 120
# A copy joins a crate in which others are at work only where it leaves them as many edits each.
LEFT_EACH = 6
# So many edits are compiled at once.
TOGETHER = 12
STOPS = (signal.SIGINT, signal.SIGTERM, signal.SIGHUP)

REFUSED, MISSED, BAD, UNSURE = "refused", "NOT REFUSED", "BAD EDIT", "NO VERDICT"
COMPILES = "compiles"

PLACE = re.compile(r"(?:note: )?(?:\./)?\S+:\d+:\d+:")
ERROR = re.compile(r"\berror\[[\w-]+\]")
# As rt tells them: what cannot be read, what a proof only names, and a limit of the prover.
AT = re.compile(r"(?:\./)?(\S+?):\d+:\d+: error: (?:(`[^`]*`): )?(.*)")
UNREAD = re.compile(
    r"is not in scope|has no field|is no name|operand is missing|expected the end|cannot continue"
)
NAMED = re.compile(
    r"(note: )?(\./)?proofs/.*(has no field|is not in scope|has no `|was not admitted)"
)
# What rt takes for a refusal, where no goal of the function was made.
UNCOVERED = "the borrow checker does not cover this function"
UNKNOWN = re.compile(r"error: `\w+` has no function|error: several functions are named")
LIMIT = re.compile(
    r"antt ran out of (stack|the (steps|memory) that the check of one declaration may (take|use))"
    r"|(outgrew the memory limit|stopped at the step limit) \("
)


class Stopped(Exception):
    """A signal came that ends the run."""


def over_libraries(crate, words):
    """Returns the command of a check of a crate over the libraries that `rt ci` left, and which it proved."""
    kit = os.path.dirname(os.path.dirname(os.path.realpath(shutil.which("rt"))))
    told = subprocess.run([f"{TOP}/tools/over-libraries", crate], stdout=subprocess.PIPE, text=True, check=True)
    command = [f"{kit}/bin/rattle", "check", *told.stdout.split("\n")[:-1], repository.root_of(crate)]
    command += ["--crate-type", "staticlib"] * repository.is_static(crate)
    return [*command, "--incremental", "out/incremental", "--jobs", "1", *words]


class Runs:
    """The checks that run, all of which end with this program."""

    def __init__(self, is_after_ci):
        self.is_after_ci = is_after_ci
        self.lock = threading.Lock()
        self.children = set()
        self.is_ended = False

    def check(self, folder, words):
        """Returns the status of a check in a crate's folder, and the lines that it prints."""
        how = {"stdin": subprocess.DEVNULL, "stdout": subprocess.PIPE, "stderr": subprocess.STDOUT}
        with self.lock:
            if self.is_ended:
                raise Stopped
            child = subprocess.Popen(self.command(folder, words), cwd=folder, start_new_session=True, **how)
            self.children.add(child)
        said = child.communicate()[0].decode(errors="replace")
        with self.lock:
            self.children.discard(child)
            if self.is_ended:
                raise Stopped
        return child.returncode, said.rstrip("\n").split("\n")

    def command(self, folder, words):
        crate = os.path.basename(folder)
        if not self.is_after_ci:
            return ["rt", "check", "--jobs", "1", *words]
        os.makedirs(f"{folder}/out", exist_ok=True)
        return over_libraries(crate, words)

    def end(self):
        """Ends each check with all that it began, which stands in its session."""
        with self.lock:
            self.is_ended = True
            sessions = {it.pid for it in self.children}
        for _ in range(100):
            left = [it for it in processes() if session_of(it) in sessions]
            for it in left:
                signal_to(it, signal.SIGKILL)
            if not left:
                break
            time.sleep(0.05)


def processes():
    return [int(it) for it in os.listdir("/proc") if it.isdigit()]


def session_of(process):
    """Returns the session of a process that has not ended."""
    try:
        with open(f"/proc/{process}/stat", encoding="utf-8", errors="replace") as file:
            words = file.read().rpartition(")")[2].split()
        return int(words[3]) if words[0] != "Z" else None
    except (OSError, IndexError):
        return None


def signal_to(process, number):
    try:
        os.kill(process, number)
    except ProcessLookupError:
        pass


class Copy:
    """A copy of the repository, which takes a crate's kept work when an edit of it comes."""

    def __init__(self, room, runs, compiles):
        self.room = room
        self.compiles = compiles
        self.runs = runs
        self.has = set()
        os.mkdir(room)
        repository.copy_crates(room)

    def take(self, crate):
        """Copies the work that checks of a crate begin with, and the libraries below it."""
        for it in below([crate]):
            self.take_part(f"crates/{it}/out/rlib")
        self.take_part(f"crates/{crate}/out/incremental")

    def take_part(self, part):
        """Copies a folder of kept work. A check may write over its files, so links would not do."""
        if part in self.has or not os.path.isdir(f"{TOP}/{part}"):
            return
        self.has.add(part)
        os.makedirs(os.path.dirname(f"{self.room}/{part}"), exist_ok=True)
        copied = ["cp", "-a", "--reflink=auto", f"{TOP}/{part}", f"{self.room}/{part}"]
        subprocess.run(copied, check=True)

    def tried(self, edits):
        """Gives each of some edits of a crate with its seconds, the verdict and why."""
        began, known = time.monotonic(), {}
        if self.compiles or len(edits) > 1:
            known = self.compiled_at_once(edits) if self.compiles else self.refused_at_once(edits)
            if not known:
                half = len(edits) // 2
                yield from self.tried(edits[:half])
                yield from self.tried(edits[half:])
                return
        each = (time.monotonic() - began) / max(len(known), 1)
        for edit in sorted(edits, key=lambda it: it not in known):
            began = time.monotonic()
            verdict, why = known.get(edit) or self.tried_alone(edit)
            yield edit, each if edit in known else time.monotonic() - began, verdict, why

    def compiled_at_once(self, edits):
        """Makes some edits, and returns each with the verdict where they compile, or it is one."""
        texts = {}
        for it in edits:
            texts, _, _ = it.applied(texts)
        with self.made(edits[0].crate, texts) as folder:
            status, lines = self.runs.check(folder, only([""]))
        if status == 0:
            return dict.fromkeys(edits, (COMPILES, ""))
        why = next((it for it in lines if ERROR.search(it)), lines[-1])
        return {edits[0]: (BAD, why)} if len(edits) == 1 else {}

    def refused_at_once(self, edits):
        """Makes some edits, and returns those that are refused, with the verdict and why."""
        texts, functions = {}, {}
        for it in edits:
            texts, functions[it], _ = it.applied(texts)
        with self.made(edits[0].crate, texts) as folder:
            asked = [it for changed in functions.values() for it in changed]
            status, lines = self.runs.check(folder, only(asked))
        if status != 1 or not is_unproved(lines) or any(is_unread(it, texts) for it in lines):
            return {}
        whys = {it: own_fault(changed, lines) for it, changed in functions.items()}
        return {it: (REFUSED, why) for it, why in whys.items() if why}

    def tried_alone(self, edit):
        """Returns the verdict on an edit, and why."""
        texts, functions, _ = edit.applied()
        with self.made(edit.crate, texts) as folder:
            verdict, why = MISSED, ""
            if functions:
                verdict, why = judged(*self.runs.check(folder, only(functions)), texts)
            if verdict == MISSED:
                asked = f"{why}; " if why else ""
                verdict, why = judged(*self.runs.check(folder, []), texts)
                why = f"{asked}by the whole crate: {why}" if verdict == REFUSED else why
            return verdict, why

    @contextlib.contextmanager
    def made(self, crate, texts):
        """Writes edited texts in the copy, gives the crate's folder, and puts them back."""
        self.take(crate)
        folder = f"{self.room}/crates/{crate}"
        kept = {path: text_of(f"{folder}/{path}") for path in texts}
        try:
            write_all(folder, texts)
            yield folder
        finally:
            write_all(folder, kept)


def only(functions):
    return [word for it in functions for word in ("--only", it)]


def write_all(folder, texts):
    for path, text in texts.items():
        repository.write(f"{folder}/{path}", text)


def judged(status, lines, texts):
    """Returns the verdict that a check of edited texts comes to, as in `rt must-fail`, and why."""
    unread = next((it for it in lines if is_unread(it, texts)), "")
    if unread and status == 1:
        return BAD, unread
    uncovered = next((it for it in lines if it.startswith("fn ") and UNCOVERED in it), "")
    if uncovered and status == 1:
        return BAD, UNCOVERED + uncovered.partition(UNCOVERED)[2]
    told = [it for it in lines if PLACE.match(it) and re.match(r"note: |.*: error", it)]
    if status == 1 and is_unproved(lines) and told:
        first = next((it for it in told if not NAMED.match(it)), "")
        return REFUSED, first.removeprefix("note: ") or f"only by a proof that names: {told[0]}"
    if status == 0:
        return MISSED, ""
    if status == 3 and any(LIMIT.search(it) for it in lines):
        return REFUSED, "at a limit of the prover, which says less of the contract"
    error = next((it for it in lines if ERROR.search(it)), "")
    if status == 1 and error:
        return BAD, error
    if any(UNKNOWN.search(it) for it in lines):
        return MISSED, "a check knows no function of this name"
    return UNSURE, f"the check ended with status {status}: {lines[-1]}"


def own_fault(functions, lines):
    """Returns why one of some functions is not proved for a goal of its own, or "" where none is
    known to be. A goal is told of by the folder of the function's proofs, or before its line."""
    for function in functions:
        begin = (f"fn {function}: not proved", f"fn {function}: no proof: expected")
        at = next((at for at, it in enumerate(lines) if it.startswith(begin)), None)
        if at is None or UNCOVERED in lines[at]:
            continue
        folder = re.escape(f"proofs/{'/'.join(function.split('::')[1:])}/")
        goal = re.compile(rf"\./{folder}\S+:\d+:\d+: error")
        told = [it for it in lines if goal.match(it) and not NAMED.match(it)]
        told = told or notes_before(at, lines)
        if told:
            return told[0]
    return ""


def notes_before(at, lines):
    """Returns the notes of goals of the function whose line this is: those since another's line."""
    since = next((it for it in reversed(range(at)) if lines[it].startswith("fn ")), -1) + 1
    return [it.removeprefix("note: ") for it in lines[since:at] if it.startswith("note: src/")]


def is_unproved(lines):
    """Whether a check says at its end that something it was asked for is not proved."""
    for line in lines:
        only = re.fullmatch(r"only=(\d+) proved=(\d+)", line)
        if only and int(only[2]) < int(only[1]) or line.startswith("logic=not-proved"):
            return True
    return False


def is_unread(line, texts):
    """Whether a line says that a text cannot be read, where one that is only wrong reads well."""
    at = AT.match(line)
    if not at or at[1] not in texts and not at[1].startswith(("src/", "specs/")):
        return False
    return not at[2] or bool(UNREAD.search(re.sub(r"`[^`]*`", "", at[3])))


class Turns:
    """Which edit comes next in a copy: a crate's edits stay in as few copies as is of use."""

    def __init__(self, edits, given):
        self.lock = threading.Lock()
        self.together = max(given.together, TOGETHER) if given.compile else given.together
        self.left = collections.defaultdict(list)
        self.copies = collections.Counter()
        for it in edits:
            self.left[it.crate].append(it)
        self.sizes = {it: sum(map(size_of, [it, *below([it])])) for it in self.left}

    def after(self, crate):
        """Returns the edits that come after those of a crate that the copy was at."""
        with self.lock:
            if not self.left.get(crate):
                crate = self.another()
                self.copies[crate] += 1
            return self.taken(self.left[crate]) if crate else []

    def taken(self, edits):
        """Takes the first of some edits, and those that can be made at once with it."""
        found, functions, texts = [], set(), {}
        for edit in list(edits):
            try:
                made, changed, is_within = edit.applied(texts)
            except Unfit:
                # (one before it changes the same text)
                continue
            if not found or is_within and functions.isdisjoint(changed):
                edits.remove(edit)
                found.append(edit)
                functions.update(changed)
                texts = made
            if not is_within and found == [edit] or len(found) >= self.together:
                break
        return found

    def another(self):
        """Returns the crate that a copy best goes to: nobody is there, and most is to do."""
        waiting = [it for it, edits in self.left.items() if edits and not self.copies[it]]
        many = [it for it, at in self.copies.items() if len(self.left[it]) > LEFT_EACH * at]
        return max(waiting or many, key=self.work_in, default=None)

    def work_in(self, crate):
        return len(self.left[crate]) * self.sizes[crate] / (1 + self.copies[crate])


def size_of(crate):
    folder = f"{TOP}/crates/{crate}/src"
    return sum(os.path.getsize(f"{at}/{it}") for at, _, names in os.walk(folder) for it in names)


def goal_first(why):
    """Puts the name of the goal, which tells the clause, before what is said of it."""
    return re.sub(r"(\S+:\d+:\d+: )(.*) \((`[^`]+`)\)", r"\1\3: \2", why, count=1)


class Tried:
    """Tries edits in copies, prints what each comes to, and counts."""

    def __init__(self, turns, runs):
        self.turns = turns
        self.runs = runs
        self.lock = threading.Lock()
        self.counts = collections.Counter()

    def all_in(self, copy):
        """Tries edits in a copy, as long as there are some."""
        crate = None
        try:
            while edits := self.turns.after(crate):
                crate = edits[0].crate
                for told in copy.tried(edits):
                    self.tell(*told)
        except Stopped:
            pass
        except (OSError, subprocess.CalledProcessError) as error:
            with self.lock:
                self.counts[UNSURE] += 1
                print(f"edits: no more is tried in this copy, where {crate} came: {error}")

    def tell(self, edit, seconds, verdict, why):
        with self.lock:
            self.counts[verdict] += 1
            why = f": {goal_first(why)[:COLUMNS]}" if why else ""
            if verdict != COMPILES:
                print(f"{seconds:7.1f} s {edit.label}: {verdict}{why}", flush=True)

    def failed(self):
        return self.counts.total() - self.counts[REFUSED] - self.counts[COMPILES]


def stop(number, _):
    raise Stopped(signal.Signals(number).name)


def tried_in_copies(edits, given):
    """Tries edits in so many copies, and returns the counts. No copy and no check outlives it."""
    runs = Runs(given.after_ci)
    tried = Tried(Turns(edits, given), runs)
    for it in STOPS:
        signal.signal(it, stop)
    room, threads = tempfile.mkdtemp(prefix="edits-"), []
    timer = threading.Timer(min(given.seconds, threading.TIMEOUT_MAX), runs.end)
    timer.start()
    try:
        for number in range(min(given.jobs, len(edits))):
            copy = Copy(f"{room}/{number}", runs, given.compile)
            threads.append(threading.Thread(target=tried.all_in, args=[copy]))
            threads[-1].start()
        for it in threads:
            it.join()
    finally:
        for it in STOPS:
            signal.signal(it, signal.SIG_IGN)
        timer.cancel()
        runs.end()
        for it in threads:
            it.join()
        shutil.rmtree(room, ignore_errors=True)
    return tried


def add_words(parser):
    parser.add_argument("crates", nargs="*", metavar="CRATE")
    parser.add_argument("--only", nargs="+", action="extend", default=[], metavar="NAME")
    parser.add_argument("--often", action="store_true")
    parser.add_argument("--compile", action="store_true")
    parser.add_argument("--share", default="0/1", type=share, metavar="K/N")
    parser.add_argument("--seconds", default=float("inf"), type=float, metavar="S")
    parser.add_argument("--jobs", default=len(os.sched_getaffinity(0)), type=count, metavar="N")
    parser.add_argument("--together", default=1, type=count, metavar="N")
    parser.add_argument("--after-ci", action="store_true")
    parser.add_argument("--crates-only", action="store_true")


def count(text):
    if not re.fullmatch(r"0*[1-9]\d*", text):
        raise argparse.ArgumentTypeError(f"{text} is no number from 1 on")
    return int(text)


def share(text):
    if not re.fullmatch(r"\d+/0*[1-9]\d*", text):
        raise argparse.ArgumentTypeError(f"{text} is no share K/N")
    number, of = map(int, text.split("/"))
    return number % of, of


def chosen(edits, given):
    """Returns the edits that the options ask for."""
    counting.chosen("edits", given.crates, {it.crate for it in edits})
    counting.chosen("edits", given.only, {it.name for it in edits})
    found = [it for it in edits if not given.crates or it.crate in given.crates]
    found = [it for it in found if not given.only or it.name in given.only]
    found = [it for it in found if not given.often or it.is_often]
    number, of = given.share
    return found[len(found) * number // of : len(found) * (number + 1) // of]


def check():
    edits = repository.edits()
    return counting.checked("edits", len(edits.all), edits.faults())


def run(given):
    began, edits = time.monotonic(), repository.edits()
    faults = edits.faults()
    if faults:
        return counting.checked("edits", len(edits.all), faults)
    wanted = chosen(edits.all, given)
    if given.crates_only:
        print(*dict.fromkeys(it.crate for it in wanted), sep="\n")
        return 0
    try:
        tried = tried_in_copies(wanted, given)
    except Stopped as signal_name:
        counting.refuse("edits", f"stopped by {signal_name}")
    failed, passed = tried.failed(), tried.counts.total() - tried.failed()
    more = f", {len(wanted) - passed - failed} not tried, in {time.monotonic() - began:.0f} s"
    return counting.told("edits", passed, failed, more, least=0)
