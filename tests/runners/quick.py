"""Runs what tells most for its time.

    tests/run --quick

Whole runs: where the proved programs are there, and built from today's sources, all cases. Where not, tools/compile
compiles both programs unproved and keeps them, and all cases are run but those that are marked as long. Tests of
functions: those of the crates that hold the machine.

Nothing is proved, and all else is the gate's.
A test of a function that could not be judged, say for lack of memory, is told, and has not failed.
"""
import collections
import concurrent.futures
import re
import shutil
import subprocess
import sys

import cases
import counting
from repository import TOP

TESTED = ("agc_exec", "agc_wait", "agc_phase", "agc_machine")


def add_words(_):
    pass


def check():
    return 0


Came = collections.namedtuple("Came", "what passed wrong unjudged")


def run_cases():
    """Runs all cases by the proved programs, or what is short by those that are compiled unproved."""
    words = [sys.executable, f"{TOP}/tests/run", "cases", *([] if cases.are_built() else ["--unproved"])]
    ran = subprocess.run(words, check=False, stdout=subprocess.PIPE, text=True, errors="replace")
    told = re.search(r"(\d+) passed, \d+ failed$", ran.stdout)
    return Came("cases", int(told[1] if told else 0), ran.stdout.splitlines() if ran.returncode else [], [])


def run_tests():
    """Runs the tests of functions of the crates that hold the machine."""
    ran = subprocess.run([sys.executable, f"{TOP}/tests/run", "crates", *TESTED], check=False, stdout=subprocess.PIPE,
                         stderr=subprocess.STDOUT, text=True, errors="replace")
    passed = len(re.findall(r"^test \S+ \.\.\. ok$", ran.stdout, re.M))
    wrong, unjudged = [], []
    for name, why in re.findall(r"^test (\S+) \.\.\. FAILED\n((?: +.*\n)*)", ran.stdout, re.M):
        (unjudged if "no-answer" in why else wrong).append(f"{name}:\n{why.rstrip()}")
    if not ran.returncode:
        passed = int(re.search(r"^crates: (\d+) passed, 0 failed", ran.stdout, re.M)[1])
    elif not wrong and not unjudged:
        (wrong if "error" in ran.stdout else unjudged).append(ran.stdout)
    return Came("tests of functions", passed, wrong, unjudged)


def run(_):
    if not shutil.which("rt"):
        counting.refuse("quick", "the Rattle kit's command rt, which compiles the tests, is not on the path")
    is_compiled = cases.are_built() or cases.are_built(cases.UNPROVED)
    print(f"quick: cases and tests of functions, which take about {2 if is_compiled else 4} minutes on two idle cores", flush=True)
    with concurrent.futures.ThreadPoolExecutor(2) as pool:
        found = [it.result() for it in [pool.submit(run_cases), pool.submit(run_tests)]]
    for it in found:
        print(*[f"quick: {it.what}: failed: {line}" for line in it.wrong], sep="\n", end="\n" if it.wrong else "")
        print(*[f"quick: {it.what}: not judged: {line}" for line in it.unjudged], sep="\n", end="\n" if it.unjudged else "")
    unjudged = sum(len(it.unjudged) for it in found)
    more = f", {unjudged} not judged" if unjudged else ""
    return counting.told("quick", sum(it.passed for it in found), sum(len(it.wrong) for it in found), more)
