"""Runs whole runs of the programs, and compares what comes of them.

    tests/run cases                 all
    tests/run cases NAME ..         those named; TOPIC.cases stands for all of that file
    tests/run cases --input NAME    prints what a case's program reads on standard input
    tests/run cases --unproved      by programs that tools/compile compiles unproved: all but those that
                                    limit memory, which a build with checks exceeds, and long ones

The cases of a topic are in one file, tests/cases/TOPIC.cases. A case begins with a line
'=== case NAME'. Its sections begin with a line '=== SECTION', which no output has, and end at the
next. Each may be missing: it is empty then, and the status is 0. A case named watch-* is of
agc_watch, any other of agc.

    === args            the words of the command line, one a line
    === long            it serves more than some thousand requests, which takes seconds unproved
    === memory KIB      how much the program may address
    === stdin           standard input
    === stdout          what has to come on standard output, and
    === stderr          on standard error
    === status NUMBER   the exit status

What cannot be written as it is stands behind '=== SECTION escaped': \\xNN is a byte, \\\\ a backslash,
and a last \\ says that the text has no line end there. '=== SECTION by sh' has commands that write a
long text. '=== stdin from PATH' names what is read, '=== stdout from PATH' a file that has what comes,
'=== stdout to PATH' what is written and not compared. Each document of examples/ is read by a case
whose output is the file .out of its name. A run that takes more than twenty minutes hangs, and fails.
"""
import concurrent.futures
import os
import re
import subprocess
import sys
import tempfile

import counting
import repository

FOLDER = f"{repository.TOP}/tests/cases"
HEADING = re.compile(r"=== (\w+)(?: (.+))?")
NAME = re.compile(r"[a-z0-9]+(?:-[a-z0-9]+)*")
# How the text of each section may be given.
FORMS = {"args": "|escaped", "long": "", "stdin": "|escaped|by sh|from .+", "stdout": "|escaped|by sh|from .+|to .+",
         "stderr": "|escaped|by sh", "memory": r"\d+", "status": r"\d+"}
ESCAPE = re.compile(rb"\\(?:x([0-9a-f]{2})|(\\)|(.?))", re.S)
SECONDS = 1200
PROGRAMS = ("agc", "agc_watch")
# Where programs are, below their crates: those that are proved, and those that tools/compile keeps.
PROVED, UNPROVED = "out", "out/unproved"


class Unread(Exception):
    """Why a case cannot be read."""


class Section:
    """A part of a case: the number of its heading's line, how it is written, and its lines."""

    def __init__(self, line, how):
        self.line, self.how = line, how
        self.lines = []

    def text(self):
        """Returns its bytes."""
        text = b"".join(it + b"\n" for it in self.lines)
        if self.how == "escaped":
            text = ESCAPE.sub(byte_of, text[:-2] if text.endswith(b"\\\n") and ends_open(text) else text)
        elif self.how == "by sh":
            ran = subprocess.run(["sh", "-c", text], cwd=repository.TOP, stdin=subprocess.DEVNULL, stdout=subprocess.PIPE, check=False)
            if ran.returncode:
                raise Unread(f"its commands end with status {ran.returncode}")
            text = ran.stdout
        elif self.file("from"):
            try:
                with open(self.file("from"), "rb") as file:
                    text = file.read()
            except OSError as why:
                raise Unread(str(why)) from why
        return text

    def file(self, word):
        """Returns which file it names behind this word, if it names one."""
        before, _, name = self.how.partition(" ")
        return os.path.join(FOLDER, name) if before == word else ""

    def words(self):
        """Returns its lines as the words of a command line, in each of which all that is escaped is put back."""
        is_escaped = self.how == "escaped"
        return [ESCAPE.sub(byte_of, it) if is_escaped else it for it in self.lines]


def ends_open(text):
    """Whether the last backslash before a line end is one by itself."""
    bare = text.rstrip(b"\n")
    return (len(bare) - len(bare.rstrip(b"\\"))) % 2 == 1


def byte_of(found):
    number, backslash, other = found.groups()
    if number:
        return bytes([int(number, 16)])
    if backslash:
        return b"\\"
    raise Unread(f"'\\{other.decode(errors='replace').strip()}' is no \\xNN and no \\\\")


class Case:
    """A case, from its lines in a file, the first of which has this number."""

    # Where its program is.
    folder = PROVED

    def __init__(self, name, path, first, lines):
        self.name, self.path = name, path
        self.parts = {}
        at = None
        for number, line in enumerate(lines, first):
            if line.startswith(b"==="):
                at = self.begun(number, line)
            elif not at:
                raise Unread(f"{self.path}:{number}: no section has begun")
            elif at.how not in ("", "escaped", "by sh"):
                raise Unread(f"{self.path}:{number}: a section of one line goes on")
            else:
                at.lines.append(line)
        for part in self.parts:
            self.look_at(part)

    def begun(self, number, line):
        """Returns the section that begins with a line."""
        found = HEADING.fullmatch(line.decode(errors="replace"))
        part, how = (found[1], found[2] or "") if found else ("", "")
        if part not in FORMS or not re.fullmatch(FORMS[part], how):
            raise Unread(f"{self.path}:{number}: no section begins so: {line.decode(errors='replace')}")
        if part in self.parts:
            raise Unread(f"{self.path}:{number}: it has a second section '{part}'")
        self.parts[part] = Section(number, how)
        return self.parts[part]

    def look_at(self, part):
        """Refuses a section whose escaped text means nothing."""
        section = self.parts[part]
        for number, line in enumerate(section.lines if section.how == "escaped" else [], section.line + 1):
            is_last = number == section.line + len(section.lines)
            try:
                ESCAPE.sub(byte_of, line[:-1] if is_last and part != "args" and ends_open(line) else line)
            except Unread as why:
                raise Unread(f"{self.path}:{number}: {why}") from why

    def program(self):
        return "agc_watch" if self.name.startswith("watch-") else "agc"

    def how(self, part):
        return self.parts[part].how if part in self.parts else ""

    def file(self, part, word):
        """Returns which file a section names behind this word, if it names one."""
        return self.parts[part].file(word) if part in self.parts else ""

    def text(self, part):
        """Returns the bytes of a section, none where it is missing."""
        try:
            return self.parts[part].text() if part in self.parts else b""
        except Unread as why:
            raise Unread(f"{self.path}:{self.parts[part].line}: {part}: {why}") from why

    def words(self):
        """Returns the command that is run."""
        program = program_of(self.program(), self.folder)
        words = [program, *(self.parts["args"].words() if "args" in self.parts else [])]
        if "memory" in self.parts:
            words = ["sh", "-c", 'ulimit -v "$0" && exec "$@"', self.how("memory"), *words]
        return words

    def faults(self):
        """Runs it, and returns a line for each part that differs."""
        try:
            with tempfile.TemporaryFile() as given:
                given.write(self.text("stdin") if not self.file("stdin", "from") else b"")
                given.seek(0)
                ended = self.ended(given)
            return [it for part in ended for it in self.differs(part, ended[part])]
        except Unread as why:
            return [str(why)]
        except OSError as why:
            return [f"{self.path}: {why}"]
        except subprocess.TimeoutExpired:
            return [f"{self.path}: it runs for more than {SECONDS} seconds"]

    def ended(self, given):
        """Returns of each part that is compared what came of the run."""
        source, target = self.file("stdin", "from"), self.file("stdout", "to")
        files = [os.open(source, os.O_RDONLY)] if source else []
        files += [os.open(target, os.O_WRONLY)] if target else []
        try:
            ran = subprocess.run(
                self.words(), stdin=files[0] if source else given, stdout=files[-1] if target else subprocess.PIPE,
                stderr=subprocess.PIPE, timeout=SECONDS, check=False)
        finally:
            for it in files:
                os.close(it)
        found = {"stdout": ran.stdout, "stderr": ran.stderr, "status": ran.returncode}
        return {part: it for part, it in found.items() if part != "stdout" or not target}

    def differs(self, part, found):
        """Returns a line that says where a part differs, if it does."""
        if part == "status":
            wanted = int(self.how(part) or 0)
            return [f"{self.path}: status {found}, not {wanted}"] if found != wanted else []
        wanted = self.text(part)
        if wanted == found:
            return []
        lines = [it.split(b"\n") for it in (found, wanted)]
        at = next((at for at, (one, other) in enumerate(zip(*lines)) if one != other), min(map(len, lines)))
        said, should = (shown(it[at]) if at < len(it) else "nothing" for it in lines)
        is_by_line = part in self.parts and self.how(part) in ("", "escaped")
        place = f"{self.path}:{self.parts[part].line + 1 + at}" if is_by_line else self.path
        return [f"{place}: {part} has {said} in line {at + 1}, not {should}"]


def shown(line):
    return repr(line[:100].decode("utf-8", "backslashreplace"))


def program_of(name, folder=PROVED):
    return f"{repository.TOP}/crates/{name}/{folder}/{name}"


def are_built(folder=PROVED):
    """Whether both programs are in this folder, built from today's sources."""
    paths = [program_of(it, folder) for it in PROGRAMS]
    return all(os.access(it, os.X_OK) and not subprocess.run([f"{repository.TOP}/tools/sources", it], check=False).returncode
               for it in paths)


def written():
    """Returns what Case takes of each case, by name; a file that is none, or a second case of a name, ends the run."""
    found = {}
    for it in sorted(os.listdir(FOLDER)):
        path = f"tests/cases/{it}"
        if not it.endswith(".cases"):
            counting.refuse("cases", f"{path} is no TOPIC.cases")
        for name, first, lines in cut(path):
            if name in found:
                counting.refuse("cases", f"{path}:{first - 1}: a second case is called {name}")
            found[name] = (path, first, lines)
    return found


def cut(path):
    """Yields of each case of a file its name, the number of its first line, and its lines."""
    with open(f"{repository.TOP}/{path}", "rb") as file:
        lines = file.read().split(b"\n")
    if lines.pop():
        counting.refuse("cases", f"{path}:{len(lines) + 1}: its last line has no end")
    heads = [at for at, it in enumerate(lines) if it.startswith(b"=== case ")]
    if not heads or heads[0]:
        counting.refuse("cases", f"{path}:1: no case has begun")
    for at, end in zip(heads, [*heads[1:], len(lines)]):
        name = lines[at].decode(errors="replace").removeprefix("=== case ")
        if not NAME.fullmatch(name):
            counting.refuse("cases", f"{path}:{at + 1}: a case can't be called {name!r}")
        yield name, at + 2, lines[at + 1 : end]


def read(wanted, all_written):
    """Returns the cases of these names, and what is wrong with those that can't be read."""
    found, wrong = [], []
    for it in wanted:
        try:
            found.append(Case(it, *all_written[it]))
        except Unread as why:
            wrong.append(str(why))
    return found, wrong


def all_read():
    """Returns all cases, and what is wrong with those that can't be read."""
    all_written = written()
    return read(all_written, all_written)


def named(words, all_written):
    """Returns the names of the cases that these words name, a case or a file of them each."""
    for it in words:
        below = [name for name, (path, *_) in all_written.items() if path == f"tests/cases/{os.path.basename(it)}"]
        yield from below or [it]


def add_words(parser):
    parser.add_argument("names", nargs="*", metavar="NAME")
    parser.add_argument("--input", metavar="NAME", help="prints what a case's program reads")
    parser.add_argument("--unproved", action="store_true", help="runs short cases by programs compiled unproved")


def examples_without(found):
    """Yields what is wrong with the examples: each document is read by a case that writes its .out, and no other file is left."""
    folder = f"{repository.TOP}/examples"
    pairs = {tuple(map(os.path.realpath, (it.file("stdin", "from"), it.file("stdout", "from")))) for it in found if it.file("stdout", "from")}
    for it in sorted(os.listdir(folder)):
        name, ending = os.path.splitext(f"{folder}/{it}")
        if ending == ".toml" and (f"{name}.toml", f"{name}.out") not in pairs:
            yield f"examples/{it}: no case reads it and writes the file .out of its name"
        elif ending in (".out", ".svg") and not os.path.isfile(f"{name}.toml"):
            yield f"examples/{it}: there is no document of its name"


def check():
    found, wrong = all_read()
    return counting.checked("cases", len(found) + len(wrong), [*wrong, *examples_without(found)])


def run(given):
    all_written = written()
    asked = list(named([*given.names, *([given.input] if given.input else [])], all_written))
    found, wrong = read(counting.chosen("cases", asked, list(all_written)), all_written)
    if wrong:
        return counting.checked("cases", len(found) + len(wrong), wrong)
    if given.input:
        sys.stdout.buffer.write(found[-1].text("stdin"))
        return 0
    if given.unproved:
        if subprocess.run([f"{repository.TOP}/tools/compile", *PROGRAMS], check=False).returncode:
            counting.refuse("cases", "the programs couldn't be compiled and kept: see above")
        Case.folder = UNPROVED
        found = [it for it in found if not it.parts.keys() & {"memory", "long"}]
    for name in sorted({it.program() for it in found}):
        if not os.access(program_of(name, Case.folder), os.X_OK):
            counting.refuse("cases", f"there is no program crates/{name}/out/{name}: tools/prove {name} builds it")
    failed = 0
    with concurrent.futures.ThreadPoolExecutor(len(os.sched_getaffinity(0))) as pool:
        for faults in pool.map(Case.faults, found):
            failed += bool(faults)
            print(*faults, sep="\n", end="\n" if faults else "")
    return counting.told("cases", len(found) - failed, failed)
