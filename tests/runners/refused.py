"""Tries what must not compile: each case of tests/refused/desk.cases, and the files of examples/embedding.

    tests/run refused             all
    tests/run refused NAME ..     those named, with .case or without

Each is a module of a library on the desk's crates, or on those that its line '// crates: ' names. Its
first lines say what comes of it: '// refused: ' and what the compiler says, a line for each error, or
'// compiles'; the tests of one that compiles are run. In tests/refused/desk.cases a line
'=== case NAME' stands above each; of examples/embedding each file NAME.case is one.
Those that have to compile are compiled together, and so are the others. What didn't come out as it has
to is compiled again without the rest, since the compiler passes over its later steps where an earlier
one found an error; what is left in the end is compiled alone, and what the compiler says then is
printed. None may name a crate that isn't its own.
Nothing is proved; all is done in folders that are removed at the end.
"""
import bisect
import concurrent.futures
import os
import re
import subprocess
import tempfile

import counting
import repository
from repository import TOP

TOGETHER = "tests/refused/desk.cases"
FOLDER = "examples/embedding"
HEADING = re.compile(r"=== case ([a-z0-9]+(?:-[a-z0-9]+)*)\n")
HIGHEST = "agc_desk"

# A test that does nothing, so that what compiles is run.
PASSES = "\n#[test]\nfn compiles(rt: HostRuntime) {\n    assert!(rt; true);\n}\n"

# A name that may be a crate's.
NAMED = re.compile(r"\b\w+(?=::)")

# An error, with its line, and a test that passed, with its module.
ERROR = re.compile(r"(?m)^src/lib\.rt:(\d+):\d+: error\[.*$")
PASSED = re.compile(r"(?m)^test attempt_(\d+)::.* \.\.\. ok$")
ALL_PASSED = re.compile(r"(?m)^test result: ok\. [1-9]\d* passed; 0 failed")


class Attempt:
    """A library, and what its first lines say: the compiler's errors, in their order, or that it compiles."""

    def __init__(self, place, text):
        self.place, self.text = place, text
        self.errors = re.findall(r"(?m)^// refused: (.+)$", self.text)
        self.compiles = self.text.startswith("// compiles\n")
        named = re.search(r"(?m)^// crates: (.+)$", self.text)
        self.used = named[1].split() if named else [*repository.below([HIGHEST]), HIGHEST]

    def fault(self):
        """Returns why it cannot be tried, or ""."""
        if not (self.compiles or self.errors and self.text.startswith("// refused: ")):
            return f"{self.place}: it is no line '// refused: ..' or '// compiles'"
        beyond = sorted({*NAMED.findall(self.text)} & {*repository.crates()} - {*self.used})
        return f"{self.place}: it names {beyond[0]}, which is none of its crates" if beyond else ""

    def are_wanted(self, errors):
        """Whether the compiler's errors are those of its first lines, in their order, and no more."""
        return len(errors) == len(self.errors) and all(want in it for want, it in zip(self.errors, errors))

    def differs(self, status, said):
        """Returns in what that which came of it alone isn't what its first lines say, or ""."""
        if self.compiles:
            return "" if status == 0 and ALL_PASSED.search(said) else "it has to compile"
        if status == 0:
            return "it compiles"
        is_so = self.are_wanted([it for it in said.split("\n") if "error[" in it])
        return "" if is_so else "the compiler has to say what its first lines do, and no more"

    def tried_alone(self):
        """Compiles it alone. Returns what is wrong, and what was said, or nothing."""
        _, status, said = compiled([self])
        why = self.differs(status, said)
        return f"{self.place}: {why}\n" + re.sub("(?m)^", "    ", said.rstrip("\n")) if why else ""


def compiled(found):
    """Compiles attempts as the modules of one library, and runs its tests. Returns the line on which each module
    begins, the status, and what was said."""
    starts, text = [], "#![tactic(auto)]\n"
    for at, it in enumerate(found):
        starts.append(text.count("\n") + 1)
        text += f"mod attempt_{at} {{\n{it.text}{PASSES}}}\n"
    with tempfile.TemporaryDirectory(prefix="refused-") as room:
        used = dict.fromkeys(crate for it in found for crate in it.used)
        repository.copy_crates(room, f"attempt: {' '.join(used)}")
        folder = f"{room}/crates/attempt"
        repository.write(f"{folder}/src/lib.rt", text)
        path = f"{TOP}/tools/without-hint:{os.environ['PATH']}"
        ran = subprocess.run(
            ["rt", "try", "--test"], cwd=folder, env={**os.environ, "PATH": path}, stdin=subprocess.DEVNULL,
            stdout=subprocess.PIPE, stderr=subprocess.STDOUT, text=True, errors="replace", check=False)
    return starts, ran.returncode, ran.stdout


def good_together(found):
    """Compiles attempts together. Returns those of which came what has to."""
    starts, status, said = compiled(found)
    if found[0].compiles:
        passed = {int(it) for it in PASSED.findall(said)} if status == 0 and ALL_PASSED.search(said) else {}
        return [it for at, it in enumerate(found) if at in passed]
    errors = [[] for _ in found]
    for it in ERROR.finditer(said):
        errors[bisect.bisect_right(starts, int(it[1])) - 1].append(it[0])
    return [it for it, own in zip(found, errors) if status and it.are_wanted(own)]


def tried(found):
    """Compiles attempts that all have to compile, or all not, as few times as it takes. Returns what is wrong, and what
    was said, a text for each of which something else came."""
    left, good = found, found
    while len(left) > 1 and good:
        good = good_together(left)
        left = [it for it in left if it not in good]
    return [said for said in map(Attempt.tried_alone, left) if said]


def attempts():
    """Returns each by its name; what can't be read is a line of the second result."""
    found, wrong, line = {}, [], 1
    begun, *parts = HEADING.split(repository.text_of(f"{TOP}/{TOGETHER}"))
    if begun:
        wrong.append(f"{TOGETHER}:1: it doesn't begin with a line '=== case NAME'")
    for name, text in zip(parts[::2], parts[1::2]):
        line += 1
        if name in found:
            wrong.append(f"{TOGETHER}:{line - 1}: there is a case {name} already")
        found[name] = Attempt(f"{TOGETHER}:{line}", text)
        line += text.count("\n")
    for it in sorted(os.listdir(f"{TOP}/{FOLDER}")):
        if it.endswith(".case"):
            found[it.removesuffix(".case")] = Attempt(f"{FOLDER}/{it}:1", repository.text_of(f"{TOP}/{FOLDER}/{it}"))
    return found, wrong


def read(names=()):
    known, wrong = attempts()
    names = [os.path.basename(it).removesuffix(".case") for it in names]
    found = [known[it] for it in counting.chosen("refused", names, known)]
    return found, wrong + [it.fault() for it in found if it.fault()]


def add_words(parser):
    parser.add_argument("names", nargs="*", metavar="NAME")


def check():
    found, wrong = read()
    return counting.checked("refused", len(found), wrong)


def run(given):
    found, wrong = read(given.names)
    if wrong:
        return counting.checked("refused", len(found), wrong)
    kinds = [[it for it in found if it.compiles], [it for it in found if not it.compiles]]
    with concurrent.futures.ThreadPoolExecutor(len(os.sched_getaffinity(0))) as pool:
        wrong = [said for group in pool.map(tried, kinds) for said in group]
    for said in wrong:
        print(said, flush=True)
    failed = len(wrong)
    is_all = not given.names
    if is_all and not (any(it.compiles for it in found) and any(it.errors for it in found)):
        counting.refuse("refused", "of those that compile, and of those that don't, there has to be one")
    return counting.told("refused", len(found) - failed, failed)
