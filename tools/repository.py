#!/usr/bin/env python3
"""What the tools know of the repository: the crates, what each stands on, their functions, and the edits.

    tools/repository.py below NAME    the crates on which a crate stands, low ones first
    tools/repository.py lanes N       how much can run at a time, where each takes N GiB of memory
    tools/repository.py uses          fails where a line of crates.txt names a crate that its sources don't

The functions of a source are found by its lines, which `rt fmt` lays out: one begins in the first
column, or in the fifth within an impl or a trait.
"""
import hashlib
import functools
import importlib.machinery
import importlib.util
import os
import re
import shutil
import subprocess
import sys

TOP = os.path.realpath(os.path.join(os.path.dirname(os.path.realpath(__file__)), ".."))
EDITS = "tests/edits"
WORKBENCH = f"{TOP}/share/workbench.html"

# Into which agc_watch writes the pages of whatever a tool runs.
os.environ.setdefault("AGC_WORKBENCH", WORKBENCH)


def text_of(path):
    with open(path, encoding="utf-8") as file:
        return file.read()


def write(path, text):
    os.makedirs(os.path.dirname(path) or ".", exist_ok=True)
    with open(path, "wb") as file:
        file.write(text if isinstance(text, bytes) else text.encode("utf-8", "surrogateescape"))


def printed(words, path=os.devnull):
    """Returns what a command prints that reads a file."""
    with open(path, "rb") as file:
        return subprocess.run(words, stdin=file, stdout=subprocess.PIPE, text=True, check=True).stdout.strip()


def keep_sums(built, sources):
    """Keeps beside it its checksum and its sources', by which tools/sources knows it and its copies, and the kit."""
    with open(f"{built}.sums", "w", encoding="ascii") as file:
        file.write(f"{printed(['cksum'], built)}\n{sources}\n{printed(['rt', 'version'])}\n")


def files_below(folder, ending):
    """Yields the files of a folder, at any depth, whose names end so, in order."""
    for at, folders, names in os.walk(folder):
        folders.sort()
        yield from (os.path.join(at, it) for it in sorted(names) if it.endswith(ending))


def lanes(gigabytes):
    """How much can run at a time, one a core, where each takes so much memory."""
    with open("/proc/meminfo", encoding="ascii") as file:
        free = int(re.search(r"MemAvailable:\s+(\d+)", file.read())[1]) // 2**20
    return max(1, min(len(os.sched_getaffinity(0)), free // gigabytes))


def is_scenario(text):
    """Whether a document is a scenario: the key `seconds` stands above its tables."""
    return re.search(r"^seconds *=", re.split(r"^\[", text, maxsplit=1, flags=re.M)[0], re.M) is not None


# Crates

ROW = re.compile(r"(\w*)((?: [\w=+]+)*) ?:(.*)")


@functools.lru_cache(maxsize=None)
def rows():
    """Returns of each crate of crates.txt the words behind its name, and the libraries that it names."""
    found = {}
    for number, line in enumerate(text_of(f"{TOP}/crates.txt").split("\n"), 1):
        row = ROW.fullmatch(line.partition("#")[0].strip() or ":")
        if not row:
            sys.exit(f"crates.txt:{number}: it is no line NAME: USE ..")
        if row[1]:
            found[row[1]] = (row[2].split(), row[3].split())
    return found


@functools.lru_cache(maxsize=None)
def crates():
    """Returns the crates with those of this repository that each names."""
    return {name: [it for it in uses if it in rows()] for name, (_, uses) in rows().items()}


def below(names):
    """Returns the crates on which these stand, each after those that it uses."""
    found = []
    for name in names:
        for it in crates().get(name, []):
            found += [one for one in [*below([it]), it] if one not in found]
    return found


def is_static(crate):
    """Whether a crate becomes an archive for C."""
    return "staticlib" in rows()[crate][0]


def root_of(crate):
    """Returns the first file of a crate: a library's, or a program's."""
    return next(it for it in ("src/lib.rt", "src/main.rt") if os.path.isfile(f"{TOP}/crates/{crate}/{it}"))


def exports_of(crate):
    """Returns the names that a crate's root gives out, and its open modules; None, and none, for a program."""
    path = f"{TOP}/crates/{crate}/src/lib.rt"
    if not os.path.isfile(path):
        return None, set()
    root = text_of(path)
    names = {it.strip() for group in re.findall(r"pub use \w+::\{([^}]*)\}", root) for it in group.split(",")}
    names |= {*re.findall(r"pub use \w+::(\w+);", root), *re.findall(r"(?m)^pub fn (\w+)", root)}
    return names, set(re.findall(r"pub mod (\w+);", root))


def unnamed_uses():
    """Yields the crates that a line of crates.txt names, and no source of its crate."""
    for crate, (_, uses) in rows().items():
        texts = []
        for part, ending in (("src", ".rt"), ("specs", ".antt"), ("proofs", ".antt")):
            texts += map(text_of, files_below(f"{TOP}/crates/{crate}/{part}", ending))
        code = re.sub(r"(?m)^ *//.*|^ *--.*", "", "\n".join(texts))
        paths = set(re.findall(r"\bRattle\.(\w+)\.|(?<![\w:.])(\w+)::", code))
        named = {it for pair in paths for it in pair}
        yield from ((crate, it) for it in uses if it not in named)


def copy_crates(room, row=""):
    """Copies HANDLES and the sources of all crates to a folder, and crates.txt with one row more."""
    shutil.copy2(f"{TOP}/HANDLES", room)
    shutil.copytree(f"{TOP}/crates", f"{room}/crates", ignore=shutil.ignore_patterns("out"))
    write(f"{room}/crates.txt", text_of(f"{TOP}/crates.txt") + (f"\n{row}\n" if row else ""))


# Functions

BEGIN = re.compile(r'((?:pub(?:\([a-z]+\))? |const |unsafe |extern "C" )*)fn (\w+)')
TRAIT = re.compile(r"(?:pub(?:\([a-z]+\))? )?(?:unsafe )?trait (\w+)")
IMPL = re.compile(r"(?:unsafe )?impl\b")
ITEM = re.compile(r"[A-Za-z#/]")
GENERICS = re.compile(r"(?:unsafe )?impl(?:<(?:[^<>]|<[^<>]*>)*>)? ")
LIFETIMES = re.compile(r"&?'\w+ |&(?:mut )?")


class Begun:
    """Where a function begins in a source: `at` counts lines from 0. `words` stand before `fn`. `kind` is the type or
    trait in whose block it is, and `trait` the trait that the block is of, with its types."""

    def __init__(self, at, margin, found, block):
        self.at, self.margin = at, margin
        self.words, self.name = found.groups()
        self.kind, self.trait, self.is_in_trait = block


def walk(text):
    """Yields each line of a source with the function in which it stands, or None, and the block around."""
    block, function = ("", "", False), None
    for at, line in enumerate(text.split("\n")):
        is_block = bool(block[0])
        if ITEM.match(line):
            is_block = bool(IMPL.match(line) or TRAIT.match(line))
            block = block_of(line) if is_block else ("", "", False)
            found = BEGIN.match(line)
            function = Begun(at, "", found, block) if found else None
        elif is_block and line.startswith("    ") and ITEM.match(line[4:]):
            found = BEGIN.match(line, 4)
            function = Begun(at, "    ", found, block) if found else None
        yield line, function, block


def functions_in(text):
    """Returns where the functions of a source begin."""
    return [it for at, (_, it, _) in enumerate(walk(text)) if it and it.at == at]


def block_of(line):
    """Returns of the line that begins an impl or a trait the type, the trait, if any, and whether what
    stands there is called through one. The trait has its types: `impl<T> From<a::Lost<T>> for Fault`
    is Fault, FromLost."""
    if TRAIT.match(line):
        return TRAIT.match(line)[1], "", True
    words = GENERICS.sub("", line, count=1).partition("{")[0]
    trait, is_for, kind = words.partition(" for ")
    if not is_for:
        return last_of(words), "", False
    name, _, types = trait.partition("<")
    types = without_brackets(types.rpartition(">")[0]).split(",")
    types = [it for it in types if not it.strip().startswith("'")]
    return last_of(kind), "".join(map(last_of, [name, *types])), True


def last_of(words):
    """Returns the last name of a path, without what stands in brackets."""
    return LIFETIMES.sub("", without_brackets(words).strip()).split("::")[-1]


def without_brackets(line):
    """Drops what stands between < and >, however deep."""
    deep, found = 0, ""
    for at, letter in enumerate(line):
        deep += letter == "<"
        found += letter if not deep else ""
        deep -= letter == ">" and line[at - 1] not in "-="
    return found


def function_at(crate, text, at, path):
    """Returns the function around a place of a source, as a check names it, or "" outside one."""
    if not path.startswith("src/"):
        return ""
    line = text.count("\n", 0, at)
    _, function, _ = next(it for number, it in enumerate(walk(text)) if number == line)
    return key_of(crate, path, function) if function else ""


def key_of(crate, path, function):
    """Returns the name of a function as a check has it: its crate, module, type with trait, and name.
    The module is that of the type, or of the impl of a trait; a type parameter is Any."""
    kind, trait = function.kind, function.trait
    module = module_of(crate, "" if trait else kind, path)
    whole = "Any" if len(kind) == 1 else kind[:1].upper() + kind[1:]
    called = whole + trait if trait else kind
    return "::".join([crate, *module, *([called] if called else []), function.name])


def module_of(crate, kind, path):
    """Returns the module of a type or trait of the crate, or that of the file where it has none."""
    found = made_in(crate).get(kind, []) if kind else []
    path = path if path in found or not found else found[0]
    return [it for it in path[4 : -len(".rt")].split("/") if it not in ("lib", "main", "mod")]


@functools.lru_cache(maxsize=None)
def made_in(crate):
    """Returns of each type and trait of a crate the files of src/ that make one of its name."""
    found = {}
    for file in files_below(f"{TOP}/crates/{crate}/src", ".rt"):
        path = os.path.relpath(file, f"{TOP}/crates/{crate}")
        for name in re.findall(r"(?m)^(?:pub(?:\([a-z]+\))? )?(?:struct|enum|trait) (\w+)\b", source_of(crate, path)):
            found.setdefault(name, []).append(path)
    return found


# Edits

HEADING = re.compile(r"=== ([a-z0-9][\w-]*)( often)?")
NONE = re.compile(r"none: ([\w:]+): (.+)")


class Unfit(Exception):
    """Why an edit cannot be applied, or a source of a crate cannot be read."""


@functools.lru_cache(maxsize=None)
def source_of(crate, path):
    inside = path.startswith(("src/", "specs/", "proofs/")) and os.path.normpath(path) == path
    if not inside:
        raise Unfit(f"{path} is no file below src/, specs/ or proofs/")
    if not os.path.isfile(f"{TOP}/crates/{crate}/{path}"):
        raise Unfit(f"there is no file {path}")
    return text_of(f"{TOP}/crates/{crate}/{path}")


class Edit:
    """A wrong body: what it changes in a crate, and the place that says so."""

    def __init__(self, crate, name, is_often, place):
        self.crate, self.name, self.is_often, self.place = crate, name, is_often, place
        self.label = f"{crate}/{name}"
        self.file = ""
        self.made = []

    def add(self, line):
        """Takes one of its lines. Returns what is wrong with it, or ""."""
        kind, _, text = line.partition(":")
        text = text.removeprefix(" ")
        if kind == "file":
            self.file = text.strip()
        elif kind == "old" and self.file:
            self.made.append([self.file, text])
        elif kind == "new" and self.made and len(self.made[-1]) == 2:
            self.made[-1].append(text)
        elif kind == "and" and self.made:
            self.made[-1][-1] += f"\n{text}"
        elif kind in ("old", "new", "and"):
            return f"a '{kind}:' line stands where none can be"
        else:
            return "it is no line 'file:', 'old:', 'new:' or 'and:'"
        return ""

    def pairs(self):
        """Returns the pairs of texts, each with its file."""
        if not self.made or not all(len(it) == 3 and it[1] for it in self.made):
            raise Unfit("it has no pair of 'old:' and 'new:'")
        return [tuple(it) for it in self.made]

    def applied(self, texts=()):
        """Returns the texts that it changes, the functions, and whether all stands in these.
        It can be made beside other edits, in the texts that these have changed."""
        texts, functions, is_within = dict(texts), [], True
        for path, old, new in self.pairs():
            if path not in texts:
                texts[path] = source_of(self.crate, path)
            times = texts[path].count(old)
            if times != 1:
                raise Unfit(f"an 'old:' text stands in {path} {times} times, and not once")
            function = function_at(self.crate, texts[path], texts[path].index(old), path)
            functions += [function] if function else []
            is_within = is_within and bool(function)
            texts[path] = texts[path].replace(old, new)
        if all(text == source_of(self.crate, path) for path, text in texts.items()):
            raise Unfit("it changes nothing")
        return texts, list(dict.fromkeys(functions)), is_within


class Edits:
    """The edits of all crates, as tests/edits/CRATE.edits have them; `none` has the functions of each
    crate that no edit changes, with the reason; `wrong` a line for each that cannot be read."""

    def __init__(self):
        self.all, self.none, self.wrong = [], {}, []
        for name in sorted(os.listdir(f"{TOP}/{EDITS}")):
            crate = name.removesuffix(".edits")
            if not name.endswith(".edits") or crate not in crates():
                self.wrong.append(f"{EDITS}/{name}: it is no CRATE.edits of a crate")
        for crate in crates():
            self.none[crate] = {}
            if os.path.isfile(f"{TOP}/{EDITS}/{crate}.edits"):
                self.read(crate)
            if os.path.isdir(f"{TOP}/crates/{crate}/must-fail"):
                # (before which `rt ci` would prove the crate once more)
                self.wrong.append(f"crates/{crate}/must-fail: edits stand in {EDITS}")

    def read(self, crate):
        path, edit, names = f"{EDITS}/{crate}.edits", None, set()
        for number, line in enumerate(text_of(f"{TOP}/{path}").split("\n"), 1):
            place, heading, none = f"{path}:{number}", HEADING.fullmatch(line), NONE.fullmatch(line)
            if heading:
                edit = Edit(crate, heading[1], bool(heading[2]), place)
                if edit.name in names:
                    self.wrong.append(f"{place}: another edit is named {edit.name}")
                names.add(edit.name)
                self.all.append(edit)
            elif line.startswith("==="):
                self.wrong.append(f"{place}: it is no heading '=== NAME' or '=== NAME often'")
            elif none and not edit:
                self.none[crate][none[1]] = none[2]
            elif line:
                why = edit.add(line) if edit else "no edit has begun, and it is no line 'none: FUNCTION: REASON'"
                self.wrong += [f"{place}: {why}"] if why else []

    def of(self, crate):
        return [it for it in self.all if it.crate == crate]

    def faults(self):
        """Returns a line for each edit that cannot be read or applied."""
        found = list(self.wrong)
        for it in self.all:
            try:
                it.applied()
            except Unfit as why:
                found.append(f"{it.place}: {it.name}: {why}")
        return found


@functools.lru_cache(maxsize=None)
def edits():
    """Returns the edits of all crates, which are read once."""
    return Edits()


# Tools

def tool(name):
    """Returns a file of tools/ that is no .py as a module."""
    loader = importlib.machinery.SourceFileLoader(name, f"{TOP}/tools/{name}")
    module = importlib.util.module_from_spec(importlib.util.spec_from_loader(name, loader))
    loader.exec_module(module)
    return module


# Pages

def plain(text):
    """A text as data of a page: no `<` is in it."""
    return text.replace("\\", "\\\\").replace("<", "\\l")


def page_of(document, view=""):
    """The page that agc_watch writes of a document: the workbench with the document in it, and what of it is shown."""
    front, end = text_of(WORKBENCH).rsplit("</script>", 1)
    shown = f'\n<script type="text/plain" id="view">{view}</script>' if view else ""
    return f"{front}{plain(document)}</script>{shown}{end}"


def checksum_of_workbench(example):
    """The checksum of what a picture of the workbench shows: its sources, and an example."""
    paths = sorted(f"web/{it}" for it in os.listdir(f"{TOP}/web"))
    texts = "".join(f"{it}\n{text_of(f'{TOP}/{it}')}" for it in [*paths, example])
    return hashlib.sha256(texts.encode()).hexdigest()


def main(words):
    if len(words) == 2 and words[0] == "below" and words[1] in crates():
        print(*below([words[1]]), sep="\n")
        return 0
    if len(words) == 2 and words[0] == "lanes":
        print(lanes(int(words[1])))
        return 0
    if words == ["uses"]:
        found = [*unnamed_uses()]
        for crate, use in found:
            print(f"crates.txt: {crate} names {use}, and its sources don't")
        print(f"uses: {sum(map(len, crates().values()))} edges between {len(crates())} crates, {len(found)} of no use")
        return int(bool(found))
    print(__doc__, file=sys.stderr)
    return 2


if __name__ == "__main__":
    sys.exit(main(sys.argv[1:]))
