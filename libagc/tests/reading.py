"""The scene of the library, beside the words as they are read here once more; and what `agc_explain` tells
of words that were changed at random: beside `agc_check`, beside the rules of agc.h as tools/plain/words.py has them, and
whether what would have to stand there is what stood there.
"""

import os
import sys
import unittest

from agc import Code, Machine, Scene, finding_of, library, place_name, scene_of
from agc import WORDS, c_uint16

sys.path.insert(0, f"{os.path.dirname(os.path.realpath(__file__))}/../../tools")
from plain.make import Dice
from plain.words import AREAS, FREE, MOST_POSITIVE, SETS, Seat, first_broken, task_count

SEED, COUNT = 1969, 4000


def array_of(words):
    array = (c_uint16 * WORDS)()
    array[: len(words)] = words
    return array


def tasks_of(words):
    """Each task that waits, as LST2 has it, with the time that TIME3 and the gaps of LST1 leave it."""
    left = 16384 - words[90] if words[90] else 0
    for k in range(task_count(words)):
        if k > 0:
            gap = words[90 + k]
            left += 1 - (gap if gap <= MOST_POSITIVE else gap - FREE)
        yield *words[99 + 2 * k : 101 + 2 * k], left


def job_of(words, k):
    """The job of a core set as a scene has it; None where it is free."""
    if words[SETS[k] + 11] == FREE:
        return None
    it = Seat(words, k)
    area = AREAS.index(it.area) + 1 if it.area else 0
    return it.number, it.priority, it.loc, words[it.at + 9], not it.is_awake, area, (*words[it.at + 1 : it.at + 7],)


def read(words, sets):
    """The scene of these words."""
    jobs = [job_of(words, k) for k in range(sets)]
    named = jobs[words[89] // 12] if words[89] not in (0, FREE) else None
    owners = {it[5]: it[0] for it in jobs if it}
    return Scene(
        jobs[0][0] if jobs[0] and not jobs[0][4] else 0,
        named[0] if named else 0,
        (*jobs,),
        tuple(owners.get(area, 0) for area in range(1, 6)),
        (*tasks_of(words),),
        (*words[118:130:2],),
        (*words[129:132],),
    )


def last_set_is_named(sets):
    """The job in the last core set is more urgent than that which runs, and NEWJOB names it."""
    machine = Machine(sets)
    for k in range(sets):
        machine.ask(f"novac {21 if k + 1 == sets else 20} 02000 00005")
    assert read(machine.words, sets) == scene_of(machine.words) and machine.scene().next == sets


def changed(chance, words):
    """One to three words that are others."""
    found = [*words]
    for _ in range(chance.choice([1, 1, 1, 2, 3])):
        # (the last address, and what TIME3 has of a task as far away as one may be, and one centisecond further)
        near = [0, 1, 0o77777, 0o57777, 0o40000, 0o1202, 0o1001, 0o300, 32768, 65535, 0o37777, 16384 - 16250, 16384 - 16251]
        near += [chance.randrange(32768), chance.choice(words)]
        place = chance.randrange(len(found))
        found[place] = chance.choice(near)
        # (the same word of another core set)
        if place < 84 and chance.random() < 0.3:
            found[place] = words[chance.randrange(7) * 12 + place % 12]
    return found


# Words that are read off the others, where no other is wrong: use words, NEWJOB, -PHASE, and what is behind the last task.
def is_told(words, place):
    return place in range(84, 90) or (117 <= place < 129 and place % 2 == 1) or 91 + max(0, task_count(words) - 1) <= place < 99


def first_untidy(words, sets):
    """The first word that is as no request leaves it, those of core sets before gaps: MODE or PUSHLOC of a job isn't 0, or a gap
    is minus 0."""
    jobs = [SETS[k] for k in range(sets) if words[SETS[k] + 11] != FREE]
    odd = [it for at in jobs for it in (at + 7, at + 10) if words[it] != 0]
    return next(iter([*odd, *(k for k in range(91, 99) if words[k] == FREE)]), None)


def explains(words, other, sets, chance):
    """What is told of words that are others than lawful ones."""
    told, code = finding_of(other), library.agc_check(array_of(other), sets).code
    if code == Code.OK:
        untidy, is_due = first_untidy(other, sets), other[90] == 0 and task_count(other) > 0
        odd = None if untidy is None else (Code.UNTIDY, 22 if 91 <= untidy < 99 else 21, untidy, 0)
        wanted = (Code.NOT_NOW, 20, 90, None) if is_due else odd
        assert (told and (told.code, told.rule, told.place, told.wanted)) == wanted, told
        return 0
    assert told.code == code and told.found == other[told.place], told
    assert (told.rule, told.place, told.wanted) == first_broken(other, sets), (told, first_broken(other, sets))
    assert (told.code == Code.NOT_WORDS) == (told.rule == 1) and place_name(told.place) in told.text
    apart = [k for k, pair in enumerate(zip(words, other)) if pair[0] != pair[1]]
    if len(apart) == 1 and is_told(words, apart[0]) and told.rule > 1:
        assert (told.place, told.wanted) == (apart[0], words[apart[0]]), (told, apart)
    # What is put right isn't told again.
    if told.wanted is not None:
        again = finding_of([told.wanted if k == told.place else it for k, it in enumerate(other)])
        assert again is None or (again.rule, again.place) != (told.rule, told.place), (told, again)
    return 1


class Reading(unittest.TestCase):
    def test_random_words(self):
        rules, faults = set(), 0
        for sets in (7, 8):
            last_set_is_named(sets)
            machine = Machine(sets)
            for k in range(COUNT):
                chance = Dice(f"{SEED} {k // 500}") if k % 500 == 0 else chance
                machine.ask(chance.lines(1)[0])
                words = machine.words
                if k % 40 == 0:
                    self.assertEqual(read(words, sets), scene_of(words), words)
                other = changed(chance, words)
                faults += explains(words, other, sets, chance)
                rules |= {finding_of(other).rule} if finding_of(other) else set()
        self.assertEqual(rules, set(range(1, 23)))
        self.assertGreaterEqual(faults, COUNT // 2)


if __name__ == "__main__":
    unittest.main()
