"""Runs the tests of the crates, in a copy of the crates that is removed at the end.

    tests/run crates             those of all crates that have a folder tests/crates/CRATE
    tests/run crates CRATE ..    those of the crates named
    tests/run crates --check     only whether they can be laid into the copy, in `rt fmt`'s layout

The files tests/crates/CRATE/NAME.test become modules of one crate that uses all others, so that these
are compiled once; files NAME.test beside the folders are modules that all may use. In the copy nothing
is private, so that a test may call what its crate doesn't offer. Growths of memory go through
tests/crates/growths.c, which refuses one where a test asks for it. `rt try --test` compiles all with the
address sanitizer and runs the tests; nothing is proved. Each crate has a line, and what `rt` says comes
whole after them where a test fails.
"""
import collections
import os
import re
import shutil
import signal
import subprocess
import sys
import tempfile
import time

import counting
import repository
from repository import TOP, write

TESTS = "tests/crates"
# A test that takes longer hangs.
SECONDS = 7200
ENDINGS = signal.SIGHUP, signal.SIGINT, signal.SIGTERM
NAME = "all_tests"


def end(number, _):
    """Ends an interrupted run; what it began is ended and removed on the way."""
    for it in ENDINGS:
        signal.signal(it, signal.SIG_IGN)
    sys.exit(128 + number)


def folders():
    return sorted(it for it in os.listdir(f"{TOP}/{TESTS}") if os.path.isdir(f"{TOP}/{TESTS}/{it}"))


def modules_of(crate):
    """Returns the modules that a crate's tests become, or those of all crates where none is named."""
    path = f"{TOP}/{TESTS}/{crate}"
    names = sorted(it for it in os.listdir(path) if os.path.isfile(f"{path}/{it}"))
    return [it.removesuffix(".test") for it in names if it.endswith(".test")]


def faults_of(crate):
    """What keeps a crate's tests from being run, a line each."""
    if not os.path.isdir(f"{TOP}/{TESTS}/{crate}"):
        return [f"{TESTS}/{crate}: there is no such folder"]
    if not os.path.isfile(f"{TOP}/crates/{crate}/src/lib.rt"):
        return [f"{TESTS}/{crate}: it is a folder of no library in crates/"]
    files = sorted(os.listdir(f"{TOP}/{TESTS}/{crate}"))
    others = [it for it in files if not re.fullmatch(r"[a-z][a-z0-9_]*\.test", it)]
    wrong = [f"{TESTS}/{crate}/{it}: it is no NAME.test" for it in others]
    return wrong or ([] if files else [f"{TESTS}/{crate}: it is empty"])


def lay(room, wanted):
    """Lays the crates into a folder, and the crate of these tests. Returns where each file stands in it."""
    uses = dict.fromkeys([*repository.below(wanted), *wanted, *kit_of(wanted)])
    repository.copy_crates(room, f"{NAME}: {' '.join(uses)}")
    make_public(f"{room}/crates")
    os.mkdir(f"{room}/tmp")
    os.makedirs(f"{room}/crates/{NAME}/c")
    placed = {"": ""} | {crate: f"/of_{crate}" for crate in wanted}
    files = {}
    for crate, folder in placed.items():
        names = modules_of(crate)
        for it in names:
            files[f"{room}/crates/{NAME}/src{folder}/{it}.rt"] = os.path.join(TESTS, crate, f"{it}.test")
        names = names if crate else names + [f"of_{it}" for it in wanted]
        lines = "".join(f"mod {it};\n" for it in names)
        write(f"{room}/crates/{NAME}/src{folder or '/lib'}.rt", lines)
    for path, file in files.items():
        os.makedirs(os.path.dirname(path), exist_ok=True)
        shutil.copy(f"{TOP}/{file}", path)
    return files


def kit_of(wanted):
    """Returns the kit's libraries that these crates and those below them name."""
    rows = repository.rows()
    found = [use for it in [*repository.below(wanted), *wanted] for use in rows[it][1] if use not in rows]
    return list(dict.fromkeys(found))


def kit_with_growths(room):
    """Makes a kit like the one on the path, but that growths.c is its heap. Returns its folder."""
    kit = os.path.dirname(os.path.dirname(os.path.realpath(shutil.which("rt"))))
    made = f"{room}/kit"
    own = {"bin": ["rt", "rtlib.py"], "c": ["liblibc_c.a"]}
    for folder in ("", *own):
        os.mkdir(os.path.join(made, folder))
        for it in set(os.listdir(os.path.join(kit, folder))) - {*own, *own.get(folder, [])}:
            os.symlink(os.path.join(kit, folder, it), os.path.join(made, folder, it))
    # `rt` takes the folder above its own for its kit.
    for it in own["bin"]:
        shutil.copy(f"{kit}/bin/{it}", f"{made}/bin")
    compiled = ["cc", "-std=c11", "-O2", "-fPIC", "-c", f"{TOP}/{TESTS}/growths.c", "-o", f"{made}/c/growths.o"]
    subprocess.run(compiled, check=True)
    subprocess.run(["ar", "rc", f"{made}/c/liblibc_c.a", f"{made}/c/growths.o"], check=True)
    return made


def make_public(path):
    """Opens what the crates of a folder keep private to themselves."""
    for it in repository.files_below(path, ".rt"):
        text = re.sub(r"\bpub\((crate|super)\)", "pub", repository.text_of(it))
        write(it, re.sub(r"^mod (\w+);", r"pub mod \1;", text, flags=re.M))


def layout_faults(room, files):
    """Returns a line for each file that isn't as `rt fmt` lays it out."""
    ran = subprocess.run(["rt", "fmt"], cwd=f"{room}/crates/{NAME}", stdin=subprocess.DEVNULL, stdout=subprocess.PIPE,
                         stderr=subprocess.STDOUT, text=True, check=False)
    if ran.returncode:
        said = ran.stdout
        for path, file in files.items():
            said = said.replace(path, file)
        return [it for it in said.split("\n") if it and not it.startswith("rt: formatted ")]
    pairs = [(file, repository.text_of(f"{TOP}/{file}"), repository.text_of(path)) for path, file in files.items()]
    return [f"{file}:{differs_at(old, new)}: `rt fmt` lays it out otherwise" for file, old, new in pairs if old != new]


def differs_at(old, new):
    """Returns the number of the first line in which two texts differ."""
    pairs = zip(old.split("\n"), new.split("\n"))
    return next((at for at, (one, other) in enumerate(pairs, 1) if one != other), 1)


def laid_and_looked_at(room, wanted):
    """Lays the tests into a folder. Returns how many files they are, and what is wrong with them."""
    wrong = [line for crate in wanted for line in faults_of(crate)]
    if not wrong and not shutil.which("rt"):
        wrong = ["crates: the Rattle kit's command rt is not on the path"]
    if wrong:
        return 0, wrong
    files = lay(room, wanted)
    return len(files), layout_faults(room, files)


def tried(room, wanted):
    """Runs the tests, with a line for each crate. Returns how many passed and failed."""
    began = time.monotonic()
    words = [f"{kit_with_growths(room)}/bin/rt", "try", "--test", "--seconds", str(SECONDS)]
    own = {"TMPDIR": f"{room}/tmp", "PATH": f"{TOP}/tools/without-hint:{os.environ['PATH']}", "RT_ALLOW_C": NAME}
    ran = subprocess.Popen(
        words, cwd=f"{room}/crates/{NAME}", env={**os.environ, **own}, stdin=subprocess.DEVNULL,
        stdout=subprocess.PIPE, stderr=subprocess.STDOUT, text=True, errors="replace")
    try:
        said = ran.communicate()[0]
    finally:
        ran.terminate()
        ran.wait()
    passed = collections.Counter(re.findall(r"^test of_(\w+?)::.* \.\.\. ok$", said, re.M))
    for crate in wanted:
        print(f"{crate}: {passed[crate]} passed")
    for it in re.findall(r"^ +(growths: .*)$", said, re.M):
        print(it)
    print(f"crates: compiled and run in {time.monotonic() - began:.0f} s")
    # All that it began with and that didn't pass have failed.
    begun = re.search(r"^tests: (\d+)$", said, re.M)
    failed = int(begun[1]) - passed.total() if begun else 1
    failed = failed or int(ran.returncode != 0 or not all(passed[it] for it in wanted))
    if failed:
        print(said, end="" if said.endswith("\n") else "\n", flush=True)
    return passed.total(), failed


def add_words(parser):
    parser.add_argument("crates", nargs="*", metavar="CRATE")


def check():
    with tempfile.TemporaryDirectory(prefix="tests-") as room:
        return counting.checked("crates", *laid_and_looked_at(room, folders()))


def run(given):
    for it in ENDINGS:
        signal.signal(it, end)
    wanted = list(dict.fromkeys(it.rstrip("/") for it in given.crates)) or folders()
    with tempfile.TemporaryDirectory(prefix="tests-") as room:
        count, wrong = laid_and_looked_at(room, wanted)
        if wrong:
            return counting.checked("crates", count, wrong)
        return counting.told("crates", *tried(room, wanted))
