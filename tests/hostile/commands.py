"""Parts of tests/run hostile: tools/many, ./agc and ./agc_watch, where much goes wrong around them."""
import os
import random
import re
import shutil
import subprocess
import sys
import tempfile
import threading
import time

TOP = os.path.realpath(os.path.join(os.path.dirname(os.path.realpath(__file__)), "../.."))
# A run that takes longer hangs.
SECONDS = 1200

HEAD = "bench,status,served,a1201,a1202,a1203,restarts,refused,last_alarm,fault\n"

# Seven core sets are taken, the eighth job raises alarm 1202 and two ticks are served; the
# allowance is spent, and two more are refused.
EIGHT_JOBS = """allowance = 10
script = [%s "tick", "tick", "tick", "tick"]
""" % ('"novac 20 02000 00005", ' * 8)

# What stands in for a program, and for one that was compiled unproved.
PROGRAM = "#!/bin/sh\necho ran $*\necho own line >&2\nexit 7\n"
UNPROVED = "#!/bin/sh\necho unproved $*\n"
PROGRAMS = ("agc", "agc_watch")
AGC, WATCH = (f"{TOP}/crates/{it}/out/{it}" for it in PROGRAMS)
WORKBENCH = f"{TOP}/share/workbench.html"
VERSION = open(f"{TOP}/VERSION", encoding="ascii").read().strip()
NEEDED = "sh dirname env find sort xargs cksum cp mkdir mktemp head cat tr awk sed rm grep python3".split()

# Cases of agc_watch that need no program: their words, and what comes on standard output.
HELPS = ("help", "help-short", "help-word", "help-of-trace", "check-help", "version", "version-short")

# Requests of agc_watch play, and benches that one plays from first.
ASKED = ["novac 20 02000 00005", "findvac 30 02100 00005", "findvac 10 02200 00005", "list 2 02300 00005", "tick",
         "tick", "end", "change", "sleep 02000", "rouse 02000", "prio 25", "store 1 00017", "phase 2 3"]
EXAMPLES = ["no-vac-area.toml", "comes-back-after-an-alarm.toml", "power-up-with-a-broken-pair.toml", "waitlist-full.toml"]

# A program that does what its bench says, as a script of the shell.
OBEYING = "#!/bin/sh\nexec sh\n"
REPORT = "printf 'SERVED 3\\nALARMS 0 0 0\\nRESTARTS 0\\n'"


def write(path, text, mode=0o644):
    os.makedirs(os.path.dirname(path), exist_ok=True)
    with open(path, "w", encoding="ascii") as file:
        file.write(text)
    os.chmod(path, mode)


def read(path):
    with open(path, encoding="utf-8", errors="surrogateescape") as file:
        return file.read()


def ended(words, **settings):
    """The status, standard output and standard error of a command."""
    settings.setdefault("stdout", subprocess.PIPE)
    ran = subprocess.run(words, stderr=subprocess.PIPE, stdin=subprocess.DEVNULL, timeout=SECONDS,
                         check=False, **settings)
    text = (ran.stdout or b"").decode("utf-8", "surrogateescape")
    return ran.returncode, text, ran.stderr.decode("utf-8", "surrogateescape")


def run_many(hostile, *words, **settings):
    hostile.runs += 1
    return ended([sys.executable, f"{TOP}/tools/many", *words], **settings)


def many(hostile):
    """What one bench or run does wrong costs tools/many that row; an output's fault ends it."""
    with tempfile.TemporaryDirectory() as room:
        for it in (rows_of_faults, rows_of_runs, rows_of_orders, tables_left, tables_that_are_none, outputs,
                   wrong_words):
            it(hostile, os.path.join(room, it.__name__))


def rows_of_faults(hostile, room):
    """A folder, a link to nothing and a file that can't be read are faults of their rows alone."""
    os.makedirs(f"{room}/a-folder.toml")
    os.symlink("nowhere", f"{room}/b-link.toml")
    write(f"{room}/c-jobs.toml", EIGHT_JOBS)
    write(f"{room}/d-key.toml", "no = 1\n")
    write(f"{room}/e-closed.toml", "no = 1\n", 0)
    write(os.fsdecode(room.encode() + b"/f-\xff.toml"), "")
    is_open = os.access(f"{room}/e-closed.toml", os.R_OK)
    closed = "1,,,,,,,,agc: key" if is_open else ",,,,,,,,not read: Permission denied"
    wanted = (HEAD + "a-folder,,,,,,,,,not read: it is no file\n"
              "b-link,,,,,,,,,not read: No such file or directory\n"
              "c-jobs,0,10,0,1,0,1,2,8,\nd-key,1,,,,,,,,agc: key\n"
              f"e-closed,{closed}\nf-\udcff,0,0,0,0,0,0,0,,\n")
    status, text, _ = run_many(hostile, room)
    hostile.expect(f"many, of faults: status {status}, {text}", (status, text) == (1, wanted))
    status, text, _ = run_many(hostile, room, "--mode", "threads", "--part", "3/6")
    wanted = HEAD + "c-jobs,0,10,0,1,0,1,,,\n"
    hostile.expect(f"many, of threads: status {status}, {text}", (status, text) == (0, wanted))


def rows_of_runs(hostile, room):
    """A run that goes on, one that is killed and one without a report: told in their rows."""
    write(f"{room}/obeying", OBEYING, 0o755)
    write(f"{room}/a-killed.toml", "kill -SEGV $$")
    write(f"{room}/b-silent.toml", "exit 7")
    write(f"{room}/c-other.toml", "echo SET")
    status, text, _ = run_many(hostile, room, "--program", f"{room}/obeying", "--keep", f"{room}/kept")
    wanted = (HEAD + "a-killed,,,,,,,,,killed by SIGSEGV\nb-silent,7,,,,,,,,it says nothing\n"
              "c-other,0,,,,,,,,it wrote no report\n")
    hostile.expect(f"many, of runs: status {status}, {text}", (status, text) == (1, wanted))
    # These end hours after the test's own limit, if tools/many doesn't end them.
    write(f"{room}/long/a-long.toml", "exec sleep 20000")
    write(f"{room}/long/b-apart.toml", "sleep 20000; echo")
    status, text, _ = run_many(hostile, f"{room}/long", "--program", f"{room}/obeying", "--seconds", "2")
    wanted = HEAD + "a-long,,,,,,,,,too long\nb-apart,,,,,,,,,too long\n"
    hostile.expect(f"many, of long runs: status {status}, {text}", (status, text) == (1, wanted))
    hostile.expect("many keeps what was written", read(f"{room}/kept/c-other.out") == "SET\n")


def rows_of_orders(hostile, room):
    """With --mode explore: an alarm of some orders, of the script, or of none; and what is undecided."""
    worker = '[[worker]]\nscript = [%s]\n'
    write(f"{room}/a-calm.toml", (worker % '"novac 20 02000 00005"') * 2)
    write(f"{room}/b-key.toml", "unheard = 1\n")
    write(f"{room}/c-race.toml", (worker % ('"findvac 20 02000 00005", ' * 3 + '"end"')) * 2)
    write(f"{room}/d-script.toml", EIGHT_JOBS)
    status, text, _ = run_many(hostile, room, "--mode", "explore")
    head = "bench,status,a1201,a1202,a1203,most_sets,most_areas,most_tasks,fault\n"
    wanted = (f"{head}a-calm,0,never,never,never,2,0,0,\n"
              'b-key,1,,,,,,,"-:1: unknown key ""unheard"""\n'
              "c-race,10,6,never,never,5,5,0,\nd-script,10,never,8,never,,,,\n")
    hostile.expect(f"many, of orders: status {status}, {text}", (status, text) == (1, wanted))
    write(f"{room}/told/obeying", OBEYING, 0o755)
    told = "alarm 1201: by 1,000 requests (9 states):\nalarm 1202: undecided, 11 states seen\nalarm 1203: never"
    write(f"{room}/told/a-some.toml", f"echo '{told}'; exit 4")
    write(f"{room}/told/b-long.toml", "echo undecided: one caller has more; exit 3")
    write(f"{room}/told/c-other.toml", "echo alarm 1201: never")
    status, text, _ = run_many(hostile, f"{room}/told", "--mode", "explore", "--program", f"{room}/told/obeying")
    wanted = (f"{head}a-some,4,1000,undecided,never,,,,\nb-long,3,undecided,undecided,undecided,,,,\n"
              "c-other,0,,,,,,,it wrote no report\n")
    hostile.expect(f"many, of told orders: status {status}, {text}", (status, text) == (1, wanted))


def tables_left(hostile, room):
    """The rows of a run that is killed are there; --resume adds the others, and runs none again."""
    write(f"{room}/obeying", OBEYING, 0o755)
    write(f"{room}/a.toml", f"echo SET; {REPORT}")
    write(f"{room}/b.toml", "exec sleep 600")
    write(f"{room}/c.toml", f"echo no job; echo SET; {REPORT}")
    words = [room, "--program", f"{room}/obeying"]
    table = f"{room}/table"
    hostile.runs += 1
    with open(table, "wb") as file:
        run = subprocess.Popen([sys.executable, f"{TOP}/tools/many", *words], stdout=file,
                               stderr=subprocess.DEVNULL)
    while read(table).count("\n") < 2 and run.poll() is None:
        time.sleep(0.02)
    run.kill()
    run.wait()
    first = HEAD + "a,0,3,0,0,0,0,0,,\n"
    hostile.expect(f"many, killed: {read(table)}", read(table) == first)
    write(f"{room}/a.toml", "exit 7")
    write(f"{room}/b.toml", f"echo alarm 1201; echo refused spent; echo SET; {REPORT}")
    whole = first + "b,0,3,0,0,0,0,1,1,\nc,0,3,0,0,0,0,0,,\n"
    for cut in (len(first), len(first) + 1, len(first) + 18, len(whole)):
        write(table, whole[:cut])
        status, text, said = run_many(hostile, *words, "--resume", table)
        is_right = (status, text, read(table)) == (0, "", whole)
        hostile.expect(f"many, resumed at {cut}: status {status}, {said}, {read(table)}", is_right)


def tables_that_are_none(hostile, room):
    """A file that isn't such a table, or in which a row before the last is cut, stays as it is."""
    write(f"{room}/a.toml", "")
    for text in ("bench,status\n", HEAD + "b,0,3\nc,0,3,0,0,0,0,0,,\n", "\0\n"):
        write(f"{room}/table", text)
        status, _, said = run_many(hostile, room, "--resume", f"{room}/table")
        is_right = status == 2 and "is no table of" in said and read(f"{room}/table") == text
        hostile.expect(f"many, resumed with no table: status {status}, {said}", is_right)
    status, _, said = run_many(hostile, room, "--resume", "/dev/full")
    hostile.expect(f"many, resumed with a device: status {status}, {said}", status == 2)


def outputs(hostile, room):
    """An output that is full, broken or closed ends tools/many with status 4 and one line."""
    for k in range(40):
        write(f"{room}/{k}.toml", "")
    reading, broken = os.pipe()
    os.close(reading)
    with open("/dev/full", "wb") as full:
        ways = {"No space left on device": {"stdout": full}, "Broken pipe": {"stdout": broken},
                "Bad file descriptor": {"preexec_fn": lambda: os.close(1)}}
        for fault, settings in ways.items():
            status, _, said = run_many(hostile, room, **settings)
            is_right = (status, said) == (4, f"many: output: {fault}\n")
            hostile.expect(f"many, output {fault}: status {status}, {said}", is_right)
    os.close(broken)


def wrong_words(hostile, room):
    """No job at all, a folder or a program that isn't there: told before a row is written."""
    write(f"{room}/a.toml", "")
    for wanted, words in (
        ((2, "many: error: --jobs: N is 1 or more"), (room, "--jobs", "0")),
        ((4, f"many: there is no folder {room}/none"), (f"{room}/none",)),
        ((4, f"many: there is no program {room}/none: tools/prove builds it"), (room, "--program", f"{room}/none")),
    ):
        status, text, said = run_many(hostile, *words)
        is_right = status == wanted[0] and text == "" and said.endswith(f"{wanted[1]}\n")
        hostile.expect(f"many, with {words}: status {status}, {text}, {said}", is_right)


class Clone:
    """A clone of two crates, with ./agc and ./agc_watch, and no kit."""

    def __init__(self, hostile, room):
        self.hostile, self.room = hostile, room

    def fill(self):
        for name in (*PROGRAMS, "tools/launch", "tools/sources"):
            os.makedirs(os.path.dirname(f"{self.room}/{name}"), exist_ok=True)
            shutil.copy(f"{TOP}/{name}", f"{self.room}/{name}")
        write(f"{self.room}/crates.txt", "".join(f"{it}:\n" for it in PROGRAMS))
        for it in PROGRAMS:
            write(f"{self.room}/crates/{it}/src/main.rt", "fn main() {}\n")
        os.mkdir(f"{self.room}/tools-of-system")
        for name in NEEDED:
            os.symlink(shutil.which(name), f"{self.room}/tools-of-system/{name}")

    def build(self, path, text):
        """A program, with what tools/prove and tools/compile keep beside it."""
        path = f"{self.room}/crates/{path}"
        write(path, text, 0o755)
        sources = ended([f"{self.room}/tools/sources"])[1]
        write(f"{path}.sums", ended(["sh", "-c", f"cksum < {path}"])[1] + sources)

    def copy(self, name):
        """A copy whose files are all new, the sources newest."""
        shutil.copytree(self.room, name, symlinks=True, copy_function=shutil.copy)
        clone = Clone(self.hostile, name)
        clone.date(60)
        return clone

    def date(self, seconds):
        """Dates the source so many seconds from now, and later than all that was written: times of
        files move by steps of up to 10 ms, and a change within the same step is no later one."""
        time.sleep(0.05)
        when = time.time() + seconds
        os.utime(f"{self.room}/crates/agc/src/main.rt", (when, when))

    def run(self, *command):
        self.hostile.runs += 1
        return ended([*command], env={"PATH": f"{self.room}/tools-of-system"})

    def expect(self, what, wanted, *words, name="agc"):
        """What ./agc writes, its status, and the end of the last line of its own on standard error, if any."""
        status, text, said = self.run(f"{self.room}/{name}", *words)
        first = ([it for it in said.splitlines() if it.startswith(f"{name}: ")] or [""])[-1]
        is_right = (status, text) == wanted[:2] and first.endswith(wanted[2]) and bool(first) == bool(wanted[2])
        self.hostile.expect(f"./{name}, {what}: status {status}, {text}, {said}", is_right)


def starter(hostile):
    """Without the kit ./agc runs what was built from the sources that stand there, proved or else unproved; else what is there,
    and says that it is of others."""
    ran, old = (7, "ran script\n", ""), (7, "ran script\n", "is not on the path")
    with tempfile.TemporaryDirectory() as room:
        clone = Clone(hostile, f"{room}/clone")
        clone.fill()
        clone.expect("with nothing", (70, "", "is not on the path"), "script")
        helps_at_once(clone)
        clone.build("agc_watch/out/unproved/agc_watch", UNPROVED)
        for words in (["trace", "file"], ["--help"]):
            clone.expect(f"unproved, {words}", (0, f"unproved {' '.join(words)}\n", "makes the proved program"), *words, name="agc_watch")
        clone.build("agc/out/agc", PROGRAM)
        clone.expect("when it is built", ran, "script")
        copy = clone.copy(f"{room}/copy")
        copy.expect("copied", ran, "script")
        linked = Clone(hostile, f"{room}/linked")
        os.mkdir(linked.room)
        for name in os.listdir(copy.room):
            os.symlink(f"{copy.room}/{name}", f"{linked.room}/{name}")
        linked.expect("called in a folder of links", ran, "script")
        write(f"{room}/copy/crates/agc/src/main.rt", "fn main() { }\n")
        copy.expect("changed", old, "script")
        copy.expect("changed, unproved", (70, "", "is not on the path"), "trace", name="agc_watch")
        copy.date(-9999)
        copy.expect("changed, and dated back", old, "script")
        write(f"{room}/copy/crates/agc/out/agc", f"{PROGRAM}#\n", 0o755)
        copy.expect("built by others", ran, "script")
        copy.date(60)
        copy.expect("built by others, and older", old, "script")
        for words in ([], ["--help"], ["help"], ["script", "serial"]):
            clone.expect(f"asked for {words}", (7, f"ran {' '.join(words)}".strip() + "\n", ""), *words)


def progress(hostile):
    """Long work tells each second how far it has come, where that is asked for or standard error is a terminal: a trace how
    many requests were asked, and a sweep how many runs are done."""
    with tempfile.TemporaryDirectory() as room:
        bench = f"{room}/bench.toml"
        write(bench, "script = []\n" + 32 * '[[device]]\nline = "timer"\npulses = 1000000\n')
        for ends, words, total in (
                (os.pipe, ["trace", "--alarms", "--progress", bench], "32000000 requests"),
                (os.openpty, ["trace", "--alarms", bench], "32000000 requests"),
                (os.pipe, ["sweep", "--progress", "seconds", "1", "3600", f"{TOP}/examples/landing.toml"], "3600 runs"),
                (os.openpty, ["sweep", "seconds", "1", "3600", f"{TOP}/examples/landing.toml"], "3600 runs")):
            reading, writing = ends()
            ran = subprocess.Popen([WATCH, *words], stdout=subprocess.DEVNULL, stderr=writing)
            with open(reading, encoding="utf-8") as file:
                said = [file.readline() for _ in range(2)]
                ran.kill()
                ran.wait()
            os.close(writing)
            hostile.runs += 1
            found = [re.fullmatch(rf"agc_watch: (\d+) of {total}\n", it) for it in said]
            is_right = all(found) and 0 < int(found[0][1]) < int(found[1][1])
            hostile.expect(f"agc_watch {words[0]}: {said}", is_right)


class Player:
    """agc_watch play behind pipes. It is killed if it answers nothing for so long."""

    def __init__(self, *words):
        called = [WATCH, "play", *words]
        self.run = subprocess.Popen(called, stdin=subprocess.PIPE, stdout=subprocess.PIPE)
        self.killer = threading.Timer(SECONDS, self.run.kill)
        self.killer.start()
        self.first = self.answer()

    def answer(self):
        """The lines up to the empty one that ends an answer."""
        return list(iter(lambda: self.run.stdout.readline().decode().rstrip("\n"), ""))

    def ask(self, line):
        self.run.stdin.write(f"{line}\n".encode())
        self.run.stdin.flush()
        return self.answer()

    def end(self):
        self.run.stdin.close()
        left = self.run.stdout.read()
        self.killer.cancel()
        self.run.stdout.close()
        return self.run.wait(), left


def play(hostile):
    """Each line of agc_watch play is answered before the next is asked, as trace tells it; what is saved runs alike."""
    dice = random.Random(1201)
    with tempfile.TemporaryDirectory() as room:
        for k in range(10):
            played_at_random(hostile, dice, f"{room}/{k}.toml", EXAMPLES[k] if k < len(EXAMPLES) else None)
        saved_too_long(hostile, f"{room}/long.toml")
    played_on_a_terminal(hostile)


def saved_too_long(hostile, path):
    """A bench that agc would not read isn't saved."""
    player = Player()
    player.ask("tick 110000")
    wrote = player.ask(f"save {path}")
    wanted = rf"\"{re.escape(path)}\": not written: it would have ([0-9]+) bytes, and agc reads 1048576"
    found = len(wrote) == 1 and re.fullmatch(wanted, wrote[0])
    is_right = found and int(found[1]) > 1100000 and not os.path.exists(path) and player.end() == (0, b"")
    hostile.runs += 1
    hostile.expect(f"play, saved too long: {wrote}", is_right)


def played_at_random(hostile, dice, saved, example):
    """60 requests, each of which may be taken back and asked again, from a bench or from nothing."""
    player = Player(*([f"{TOP}/examples/{example}"] if example else []))
    asked, told = [], []
    for _ in range(60):
        request = dice.choice(ASKED)
        while dice.random() < 0.2 and asked:
            asked.pop()
            told.pop()
            hostile.expect("undo", player.ask("undo")[0] == "1 request is taken back")
        asked.append(request)
        told.append(player.ask(request))
    state = player.ask("show")
    wrote = player.ask(f"save {saved}")
    ending = player.end()
    rows = ended([WATCH, "trace", saved])[1].splitlines()
    hostile.runs += 1
    wanted = rf"\"{re.escape(saved)}\": a bench of {'[0-9]+' if example else len(asked)} requests"
    is_told = ending == (0, b"") and len(wrote) == 1 and re.fullmatch(wanted, wrote[0])
    hostile.expect(f"play, {example}: {ending}, {wrote}", is_told)
    lines = [line for it in told for line in it]
    hostile.expect(f"play, {example}: other rows than trace", lines and rows[-len(lines):] == lines)
    again = Player(saved)
    is_same = again.first[-len(state):] == state and again.ask("show") == state
    hostile.expect(f"play, {example}: other state from what was saved", is_same and again.end() == (0, b""))
    if not example:
        script = "".join(f"{it}\n" for it in asked)
        runs = [subprocess.run([AGC, word], input=text.encode(), stdout=subprocess.PIPE, check=False).stdout
                for word, text in (("script", script), ("serial", read(saved)))]
        hostile.expect("play: agc serial runs what was saved otherwise", runs[0] == runs[1] != b"")


def played_on_a_terminal(hostile):
    """On a terminal it says that it waits, and puts the tables of a row below it."""
    master, slave = os.openpty()
    run = subprocess.Popen([WATCH, "play"], stdin=slave, stdout=slave, stderr=slave)
    os.close(slave)
    os.write(master, b"novac 20 02000 00005\n\n\4")
    text = b""
    try:
        while piece := os.read(master, 4096):
            text += piece
    except OSError:  # it has ended
        pass
    os.close(master)
    row = "1         0.00      0.00      novac 20 02000 00005    job 1"
    tables = "    running 1  sets 1/20 . . . . . .  areas . . . . .  tasks -"
    said = text.decode().replace("\r\n", "\n")
    greeting = "\nType a request, such as findvac 20 02000 00005, or help. Ctrl-D ends.\n> "
    is_right = run.wait() == 0 and greeting in said and f"{row}\n{tables}\n" in said
    is_right = is_right and said.count("> ") == 3 and "line 2" not in said  # an empty line is passed over
    hostile.runs += 1
    hostile.expect(f"play, on a terminal: {said}", is_right)


def helps_at_once(clone):
    """Where nothing is built, helps are answered without the kit, as the cases say."""
    helps = "tests/cases/watch-help.cases"
    parts = read(f"{TOP}/{helps}").split("=== case watch-")
    cases = {name: text for name, _, text in (it.partition("\n") for it in parts) if name in HELPS}
    clone.hostile.expect(f"{helps} has each of {HELPS}", set(cases) == set(HELPS))
    write(f"{clone.room}/{helps}", "".join(f"=== case watch-{it}\n{text}" for it, text in cases.items()))
    for text in cases.values():
        words = text.partition("=== stdout\n")[0].splitlines()[1:]
        wanted = (0, text.partition("=== stdout\n")[2], "")
        found = clone.run(f"{clone.room}/agc_watch", *words)
        clone.hostile.expect(f"./agc_watch {words}, unbuilt: {found}", found == wanted)
    shutil.rmtree(f"{clone.room}/tests")


def workbench(hostile):
    """agc_watch page finds the workbench beside the program, then in ../share/agc, or where the variable says; else it
    says where it looked, and writes nothing."""
    with tempfile.TemporaryDirectory() as room:
        room = os.path.realpath(room)
        program, beside, installed = f"{room}/bin/agc_watch", f"{room}/bin/workbench.html", f"{room}/share/agc/workbench.html"
        os.makedirs(f"{room}/share/agc")
        os.mkdir(f"{room}/bin")
        shutil.copy(WATCH, program)
        whole = read(WORKBENCH)

        def expect(what, wanted, **variables):
            hostile.runs += 1
            found = ended([program, "page"], env=variables)
            hostile.expect(f"page, {what}: {found[0]}, {len(found[1])} letters, {found[2]}", found == wanted)
        name = "name one by --workbench or AGC_WORKBENCH\n"
        expect("without a workbench", (4, "", f"agc_watch: no workbench at {beside} or {installed}: {name}"))
        expect("by a variable", (0, whole, ""), AGC_WORKBENCH=WORKBENCH)
        expect("by a wrong variable", (4, "", "/no: No such file or directory (os error 2)\n"), AGC_WORKBENCH="/no")
        shutil.copy(WORKBENCH, installed)
        expect("installed", (0, whole, ""))
        write(beside, "")
        none = (1, "", f"{beside}: this is not an empty AGC workbench\n")
        expect("beside it another file", none)
        for length in (1, 20, 60, len(whole) // 2, len(whole) - 30, len(whole) - 1):
            write(beside, whole[:length])
            expect(f"beside it {length} letters of one", none)
        for what, text in (("a page", "<!DOCTYPE html>\n<p>5</p>\n"), ("a head", whole[:60] + "\n"), ("its end", whole[-200:]), ("more", whole + "\n")):
            write(beside, text)
            expect(f"beside it {what}", none)
        write(beside, whole.replace(f"workbench {VERSION} -->", "workbench 9.0.1 -->", 1))
        expect("beside it another version", (1, "", f"{beside}: this is the workbench of version 9.0.1, not {VERSION}\n"))
        os.remove(beside)
        os.mkdir(beside)
        expect("beside it a folder", (4, "", f"{beside}: Is a directory (os error 21)\n"))
        os.rmdir(beside)
        shutil.copy(WORKBENCH, beside)
        os.remove(installed)
        expect("beside it", (0, whole, ""))
        os.symlink(program, f"{room}/agc_watch")
        program = f"{room}/agc_watch"
        expect("by a link to the program", (0, whole, ""))
