"""Documents that several topics open."""
import json

from repository import TOP, text_of

# Three alarms: at request 7 the areas are owned, at request 17 the Waitlist is full, at request 24 the areas are owned again. And
# two tasks of one address in two banks, names, a sleeper, and an alarm by a task's second action.
THREE_ALARMS, NAMED = (text_of(f"{TOP}/tests/page/{it}.toml") for it in ("three-alarms", "named"))

# A pass of two seconds, of which stolen time takes so much that each leaves a part of its job.
TIGHT = ("seconds = 60\nsteal = 40\n" + "".join((
    '[[task]]\nat = "02000"\nbank = "00005"\naction = ["novac 20 04000 00005", "list 200 02000 00005"]\n',
    '[[job]]\nat = "04000"\ncost = 190\n', '[[event]]\nat = 0\ndo = "list 1 02000 00005"\n',
    '[[event]]\nname = "a word"\nat = 100\ndo = "rouse 03000"\n')))

# Twenty idle ticks, twenty with three sets, two areas and four tasks, an alarm, and forty idle ticks.
STRIPED = "script = " + json.dumps(
    [*20 * ["tick"], *2 * ["findvac 20 04000 00007"], "novac 20 04000 00005", *4 * ["list 100 02000 00005"], *20 * ["tick"],
     *4 * ["findvac 20 04000 00007"], *40 * ["tick"]]) + "\n"
