"""Documents for reader.test.mjs, as JSON: those of all cases and examples, those that try one rule of TOML or one end of a key each,
and 3,000 by lot, most of them damaged."""
import json
import os
import sys

sys.dont_write_bytecode = True
TOP = os.path.realpath(f"{os.path.dirname(os.path.realpath(__file__))}/../..")
sys.path[0] = f"{TOP}/tools"
sys.path.append(f"{TOP}/tests/runners")
import cases
import repository
from plain import make

# Texts of which each tries one rule of TOML: numbers, strings, keys, arrays, ends of lines, tables.
NUMBERS = ("007 0 00 +7 -7 -0 +0 1__0 _1 1_ 1_000 0x1F +0x10 -0x10 0X10 0x 0o17 0o18 0b101 0x_1 0x1_0 9223372036854775807 "
           "9223372036854775808 -9223372036854775808 -9223372036854775809 1.0 1e3 1. .1 inf nan true 1979-05-27 7a 7#").split()
STRINGS = [it.replace("~", '"""').replace("^", "'''") for it in (
    '"tick"', "'tick'", "~tick~", "^tick^", "~\ntick~", "^\ntick^", "~\r\ntick~", "~\n\ntick~", "~tick\\\n~", "~ti\\u0063k~",
    "^ti\\u0063k^", '~tick~"', "^tick^'", '"~tick~', '"tick', "'tick", '"ti\nck"', "'ti\nck'", '"tick\u0001"', "'tick\u0001'",
    '"tick\u007f"', "'tick\u007f'", "~tick\u0001~", '"tick\u0080"', '"ti\tck"', '"ti\\tck"', '"\\u0074ick"', '"\\U00000074ick"',
    '"\\U00010074ick"', '"\\ud800"', '"\\U0010ffff"', '"\\U00110000"', '"\\x74ick"', '"\\e"', '"\\/"', '"\\ "', '"\\u74"',
    '"\\"', "'\\'", '""', "''", "~rouse\n02000~", "^rouse 02000\n^", "^rouse\r\n02000^", "~rouse\\n02000~")]
ROW = 'at = "02000"\nbank = "00005"\naction = "nothing"\n'
INLINE = ROW.replace("\n", ", ")[:-2]
KEYS_TRIED = ('"sets"', "'sets'", '"se\\u0074s"', "sets.a", '"sets.a"', "sets .a", " sets\t", "", '""', "'''sets'''", "sets sets",
              "séts", "\ufeffsets", "sets\u00a0", "[sets]", "-", "1", "SETS")
BETWEEN = ("\n", "\r\n", "\r", " ", ",", ";", " # a\n", " # a\r\n", " # a\rb\n", " # a\u0001\n", " # a\u007f\n", " # a\tb\n", " # é\n",
           "\u2028", "\u0085", "\n\f\n", "\n\ufeff\n", "\nsets = 8\n", '\n"sets" = 7\n')
HEADINGS = ("[[task]]\n", "[[ task ]]\n", "[ [task] ]\n", "[task]\n", "[['task']]\n", "[[task]] # a\n", "[[task]]", "[[task.a]]\n",
            "task = []\n[[task]]\n", "task = 7\n[[task]]\n", "[[sets]]\n", "sets = 7\n[[sets]]\n", '[[task]]\nat = "02000"\n')
INLINES = (f"{{ {INLINE} }}", f"{{{INLINE}}}", f"{{ {INLINE}, }}", f"{{\n{INLINE} }}", f"{{ {INLINE} }}, ", "{}", f"{{ {INLINE}, at = 7 }}",
           f"{{ {INLINE} }} {{ }}", f"{{ {INLINE}", INLINE, f"{{ {INLINE} # a\n }}", f"{{ {INLINE} }}, {{ {INLINE} }}")
ARRAYS = ("", ",", '"nothing",', '"nothing",,', ',"nothing"', '"nothing" "nothing"', '"nothing"\n"nothing"', '\n# a\n"nothing" # b\n,\n',
          '["nothing"]', "{ }", '"nothing", 7')
FORMS = (
    *(f"limit = {it}\n" for it in NUMBERS), *(f"allowance = {it}\n" for it in NUMBERS),
    *(f"seconds = 1\ntitle = {it}\n" for it in STRINGS), *(f"script = [{it}]\n" for it in STRINGS), *(f"key = {it}\n" for it in STRINGS),
    *(f"radar = [{it}]\n" for it in ARRAYS), *(f"{it} = 8\n" for it in KEYS_TRIED), *(f"sets = 8{it}limit = 5\n" for it in BETWEEN),
    *(f"{it}{ROW}" for it in HEADINGS), *(f"task = [{it}]\n" for it in INLINES),
    "\ufeff", "\ufeffsets = 8\n", "\ufeff\ufeffsets = 8\n", "#", "# é", " \t\n", "sets = 8", "sets =\n8\n", "sets\n= 8\n", "= 8\n", "sets 8\n",
    "\ud800", "# \udfff\n", 'script = ["\ud800"]\n')

# Scenarios, and callers that never stop, at the ends of what a key may have, and beyond, each with nothing else that
# could be wrong.
STORES = ['"store 1 00001"'] * 17
THENS = ('"end"', '"sleep 04000"', '"tick"', '["end", "end"]', '["store 1 00001"]', '["store 1 00001", "tick"]', "[]",
         *(f"[{', '.join([*STORES[:count], *leaves])}]" for count in (6, 7, 8) for leaves in (['"end"'], ['"end"', '"end"'])))
COSTS = ("0", "1", "1000000", "1000001", "{ from = 3, to = 3 }", "{ from = 3, to = 4 }", "{ from = 4, to = 3 }", "{ from = 0, to = 3 }",
         "{ from = 1, to = 1000000 }", "{ from = 1, to = 1000001 }", "{ from = 1 }", "{}")
STOLEN = ("0", "100", "101", "-1", "[]", *(f"[{{ {it} }}]" for it in (
    "from = 0, to = 1, percent = 100", "from = 1, to = 1, percent = 1", "from = 0, to = 8640000, percent = 0", "from = 0, to = 8640001, percent = 0",
    "from = 0, to = 5, percent = 1, every = 5", "from = 0, to = 5, percent = 1, every = 4", "from = 0, to = 5, percent = 101",
    "from = 0, to = 5, percent = 1, every = 8640001", "from = 9, to = 10, percent = 1, every = 1, until = 0",
    "from = 0, to = 5, percent = 1 }, { from = 5, to = 6, percent = 2", "from = 0, to = 5, percent = 1 }, { from = 4, to = 6, percent = 2",
    "from = 0, to = 5, percent = 1 }, { from = 4, to = 6, percent = 2, every = 9", "from = 4, to = 6, percent = 2 }, { from = 0, to = 5, percent = 1")))
EVENTS = ("at = 8640000", "at = 8640001", "at = -1", "at = 1\nevery = 0", "at = 1\nevery = 8640000", "at = 1\nevery = 8640001", "at = 1\nuntil = 0",
          'at = 1\nname = "e"\nafter = "e"', 'at = 1\nafter = "e"', 'at = 1\nafter = "later"', 'at = 1\nname = ""\nafter = "before"', 'at = 1\nafter = ""',
          'at = 1\nafter = "1201"', 'at = 1\nafter = "1203"', 'at = 1\nafter = "1204"')
JOB = '[[job]]\nat = "04000"\n'
EDGES = (
    *(f"seconds = {it}\n" for it in (0, 1, 86401)), *(f"seconds = 1\nseed = {it}\n" for it in (0, 1, 2147483646, 2147483647)),
    *(f"seconds = 1\n{seed}{JOB}cost = {it}\n" for it in COSTS for seed in ("", "seed = 7\n")),
    *(f"seconds = 1\n{JOB}cost = 1\nthen = {it}\n" for it in THENS), *(f"seconds = 1\n{JOB}cost = 1\ndeadline = {it}\n" for it in (0, 1, 8640000, 8640001)),
    *(f"seconds = 1\nsteal = {it}\n" for it in STOLEN), *(f"seconds = 1\n{JOB}cost = 1\nname = \"{it}\"\n" for it in ("", "\u001f", "\u007f", "\u0080", "\u202e")),
    *(f'seconds = 1\n[[event]]\nname = "before"\nat = 1\ndo = "tick"\n[[event]]\n{it}\ndo = "tick"\n[[event]]\nname = "later"\nat = 1\ndo = "tick"\n' for it in EVENTS),
    *(f"seconds = 1\n[[event]]\nat = 1\ndo = [{', '.join(STORES[:count])}]\n" for count in (0, 1, 15, 16, 17)),
    *(f"[[worker]]\nscript = ['tick']\nrepeat = {it}\n" for it in ("true", "false", "1", "True", "trues", "[]")), "[[device]]\nline = 'timer'\n")

# Documents that aren't read, and in which line that is said to be.
LINES = (("\n\n# a\nfoo = 1\n", 4), ('script = ["""\na\nb"""]\nsets = x\n', 4), ('script = ["""\ntick"""]\n\nsets = "7"\n', 4), ("limit = [\n1,\n\n", 4),
         ("sets = 7\r\n\r\nsets = 8\r\n", 3), (f"[[task]]\n{ROW}[[task]]\nat = \"02000\"\nbank = 5\n", 7),
         ("seconds = 1\nsteal = 101\n", 2), (f"[[task]]\n{ROW}\n[[task]]\nat = \"02000\"\n", 6))


def of_cases_and_examples():
    for name in sorted(os.listdir(f"{TOP}/examples")):
        if name.endswith(".toml"):
            yield repository.text_of(f"{TOP}/examples/{name}")
    for case in (it for it in cases.all_read()[0] if not it.file("stdin", "from")):
        text = case.text("stdin").decode("utf-8", "replace")
        is_serial = case.program() == "agc" and case.words()[-1] in ("serial", b"serial")
        if len(text) < 100_000 and (is_serial or repository.is_scenario(text)):
            yield text


def by_lot(dice, texts):
    """A document by lot: one of these, or a random bench, most of them damaged."""
    text = dice.choice(texts) if dice.often(0.5) else make.serial(dice)
    return text if dice.often(0.4) else make.damaged(dice, text.encode()).decode("utf-8", "replace")


TEXTS, DICE = [*of_cases_and_examples()], make.Dice(11)
SMALL = [it for it in TEXTS if len(it) < 5000]
json.dump({"lines": LINES, "edges": EDGES, "others": [*FORMS, *TEXTS, *(by_lot(DICE, SMALL) for _ in range(3000))]}, sys.stdout)
