"""What machines and clocks of agc.py refuse with a sentence, how they are kept, and how threads share one.

    keeping.py              tries it
    keeping.py kept [-]     writes a machine and a clock as JSON: those of a run, or those that it reads
"""

import ast
import copy
import json
import os
import pickle
import subprocess
import sys
import threading
import unittest

import agc
from agc import AgcError, Clock, Code, Machine

HERE = os.path.dirname(os.path.abspath(__file__))

SERVICER = {
    "steal": 15,
    "job": [{"at": "04000", "cost": 170}, {"at": "04100", "cost": 12, "then": "sleep 04200"}],
    "event": [{"at": 0, "every": 200, "do": "findvac 20 04000 00005"}, {"at": 50, "do": ["novac 27 04100 00005", "prio 20"]}],
}
PLAN = {"task": [{"at": "02000", "bank": 5, "action": ["findvac 20 04000 00007", "list 2 02000 00005"]}]}


def halfway():
    """A machine and a clock, 30 seconds after they began."""
    machine, clock = Machine(8, PLAN), Clock(SERVICER)
    machine.ask("list 500 02000 00005")
    machine.run(clock, 3000)
    return machine, clock


KEPT = {
    "copy": copy.copy,
    "deepcopy": copy.deepcopy,
    "pickle": lambda it: pickle.loads(pickle.dumps(it)),
    "state": lambda it: type(it).of_state(it.state),
    "json": lambda it: type(it).of_state(json.loads(json.dumps(it.state))),
}


def module():
    with open(agc.__file__, encoding="utf-8") as file:
        return ast.parse(file.read())


class Keeping(unittest.TestCase):
    def raised(self, kind, call):
        """The sentence with which a call is refused, by a fault of just this kind."""
        with self.assertRaises(kind) as found:
            call()
        self.assertIs(type(found.exception), kind)
        return str(found.exception)

    def test_time_goes_on(self):
        """A run of less than nothing is refused at once, and nothing passes; of nothing it is no run."""
        machine, clock = Machine(), Clock()
        self.assertEqual(self.raised(AgcError, lambda: machine.run(clock, -1)), "centiseconds is -1, but must be 0 to 4294967295")
        self.raised(TypeError, lambda: machine.run(clock, 2.5))
        self.assertTrue(machine.run(clock, 0) == [] and clock.time == 0 and machine.totals.served == 0)
        self.assertTrue([str(it) for it, _ in machine.run(clock, 3)] == ["tick"] * 3 and clock.time == 3)
        one = machine.iter(clock, 3)
        self.assertTrue(clock.time == 3 and str(next(one)[0]) == "tick" and clock.time == 4)

    def test_a_day_is_the_longest(self):
        """Events come up to a day, so that a timetable that lasts longer would lose them."""
        self.assertTrue(Clock({"seconds": 86400}).lasts == Clock().lasts == 8640000 and Clock({"seconds": 0.29}).lasts == 29)
        self.assertEqual(self.raised(AgcError, lambda: Clock({"seconds": float("nan")})), "a timetable: seconds is nan, but must be 0 to 86400")

    def test_bounds_refuse(self):
        """By the rule of `agc`: the allowance is looked at first, and a full log serves what starts over."""
        for counts, lines in [
            ((0, 1, 0, 1), ("change", "tick", "restart")),
            ((2**64 - 2, 2**64 - 1, 999_999, 1_000_000), ("novac 20 02000 00005",)),
            ((9, 10, 5, 5), ("restart", "fresh")),
        ]:
            self.assertEqual([agc.refusal_of(it, agc.Bounds(*counts)) for it in lines], [Code.OK] * len(lines), counts)
        for counts, code in [((9, 10, 5, 5), Code.LOG_FULL), ((10, 10, 5, 5), Code.SPENT), ((0, 0, 0, 1), Code.SPENT), ((11, 10, 0, 5), Code.SPENT)]:
            self.assertIs(agc.refusal_of("tick", agc.Bounds(*counts)), code, counts)
        self.assertIs(agc.refusal_of("fresh", agc.Bounds(10, 10, 0, 5)), Code.SPENT)
        told = self.raised(AgcError, lambda: agc.refusal_of("tock", agc.Bounds(0, 1, 0, 1)))
        self.assertEqual(told, '"tock": its first word is unknown; did you mean "tick"?')
        self.assertEqual(self.raised(AgcError, lambda: agc.refusal_of("tick", agc.Bounds(0, 2**64, 0, 1))), "bounds: allowance is 18446744073709551616, but must be 0 to 18446744073709551615")
        self.assertEqual(self.raised(AgcError, lambda: agc.refusal_of("tick", agc.Bounds(0, 1, -1, 1))), "bounds: logged is -1, but must be 0 to 4294967295")
        self.raised(TypeError, lambda: agc.refusal_of("tick", (0, 1, 0, 1)))

    def test_pulses_ask(self):
        """A timer's pulse for a tick, the others' for what the plan has done."""
        keys = ["nothing", "novac 20 02000 00005", "rouse 02100", "nothing"]
        self.assertTrue(agc.pulse_of("timer") == ["tick"] and agc.pulse_of("timer", keys, keys) == ["tick"])
        self.assertTrue(agc.pulse_of("key", keys) == ["novac 20 02000 00005", "rouse 02100"] and agc.pulse_of("radar", keys) == [])
        self.assertEqual(agc.pulse_of("radar", radar="list 16250 37777 77777"), ["list 16250 37777 77777"])
        self.assertEqual(agc.pulse_of("key", ["findvac 01 00001 00000"] * 4), ["findvac 01 00001 00000"] * 4)
        self.assertEqual(self.raised(AgcError, lambda: agc.pulse_of("bell")), 'line is "bell", but must be timer, key or radar')

    def test_faults_are_told(self):
        """Of a document, a state and a request, with a code, a row and a key, in the words of other languages."""
        calls = {"clock": Clock, "plan": lambda it: Machine(plan=it), "machine": lambda it: Machine(**it), "pulse": lambda it: agc.pulse_of("key", it),
                 "ask": lambda it: Machine().ask(*it), "machine state": Machine.of_state, "clock state": Clock.of_state}
        with open(f"{HERE}/faults.json", encoding="utf-8") as file:
            faults = json.load(file)
        for kind, given, code, row, key, told in faults:
            with self.assertRaises(AgcError) as found:
                calls[kind](given)
            error = found.exception
            self.assertEqual((error.code.name, error.row, error.key, str(error)), (code, row, key, told))
        many = {"event": [{"at": 0, "do": "tick"}] * 1001}
        self.assertEqual(self.raised(AgcError, lambda: Clock(many)), "a timetable: event must have at most 1000 tables, but has 1001")

    def test_documents_stand_for_their_parts(self):
        """A bench or a scenario has the core sets and the power-up of its machine, and a scenario its timetable."""
        scenario = {"title": "a landing", "sets": 8, "seconds": 60, **PLAN, **SERVICER}
        self.assertTrue(Clock(scenario).lasts == 6000 and Machine(plan=scenario).sets == 8 == Machine(8, scenario).sets)
        bench = {"limit": 9, "script": ["tick"], "worker": [{"script": ["tick"], "repeat": True}], "device": [{"line": "key"}], "attends": 1}
        power = ["77777", "00000"] * 5 + ["77776", "00001"]
        self.assertEqual(Machine(plan={**bench, "power": power}).scene().phases, (0, 0, 0, 0, 0, 1))
        self.assertEqual(Machine(plan={**bench, "power": power}, words=Machine().words).scene().phases, (0,) * 6)
        for wanted in (lambda: Machine(words=Machine().words, power=power), lambda: Machine(power=[], words=[])):
            self.assertEqual(self.raised(ValueError, wanted), "a machine begins with words or with power, and not with both")

    def test_foreign_words_have_no_scene(self):
        words = [*Machine().words]
        self.assertEqual(agc.scene_of(words).running, 0)
        for place, bits in [(11, 0o1001), (89, 0o14), (129, 5), (90, 1), (3, 32768)]:
            self.assertNotIn("scene", self.raised(AgcError, lambda: agc.scene_of([*words[:place], bits, *words[place + 1:]])))
        # A number that is no word is found as others are; what is no number isn't.
        for bits, found in [(-1, "-1"), (65536, "200000")]:
            told = agc.finding_of([*words[:3], bits, *words[4:]])
            self.assertEqual((told.code, told.rule, told.place, told.found), (Code.NOT_WORDS, 1, 3, bits))
            self.assertEqual(str(told), f"MPAC+3 of core set 0 (word 3) is {found}: a word has at most fifteen bits")
        told = "words: MPAC+3 of core set 0 (word 3) must be an integer, not None"
        self.assertEqual(self.raised(AgcError, lambda: agc.finding_of([*words[:3], None, *words[4:]])), told)

    def test_a_clock_is_told_of_its_request(self):
        """What it gave is to be asked, and it is to be told of it, before it gives another."""
        machine, clock = Machine(), Clock()
        asked = clock.next(machine)
        told = "the clock was asked again, and not told by `served` what came of its request"
        for again in (lambda: clock.next(machine), lambda: clock.copy().next(machine), lambda: machine.run(clock, 1)):
            self.assertEqual(self.raised(AgcError, again), told)
        clock.served(machine, machine.ask(asked))
        self.assertEqual((str(clock.next(machine)), clock.time), ("tick", 2))

    def test_what_is_none_is_not_kept(self):
        """So that JSON of a state is JavaScript's, too."""
        clock = Clock({"event": [{"at": 0, "do": "tick", "every": None}], "seed": None})
        self.assertEqual(clock.state["timetable"], {"event": [{"at": 0, "do": "tick"}]})

    def test_machines_and_clocks_are_kept(self):
        """What is kept goes on as what was kept does, and leaves it alone."""
        machine, clock = halfway()
        was = machine.words, machine.moment, machine.totals, clock.time, clock.given
        wanted = [(str(asked), str(step)) for asked, step in machine.copy().run(clock.copy(), 700)]
        self.assertTrue(len(wanted) > 700 and machine.totals.alarms != (0, 0, 0))
        for name, kept in KEPT.items():
            other, its = kept(machine), kept(clock)
            self.assertTrue((other.words, other.moment, other.totals, its.time, its.given) == was and other.sets == 8, name)
            self.assertEqual([(str(asked), str(step)) for asked, step in other.run(its, 700)], wanted, name)
            self.assertEqual((machine.words, machine.moment, machine.totals, clock.time, clock.given), was, name)
        for change in ({"words": [0] * 144}, {"moment": [0] * 144}, {"totals": {**machine.state["totals"], "served": -1}}):
            self.raised(AgcError, lambda: Machine.of_state({**machine.state, **change}))
        many = Machine.of_state({**machine.state, "totals": {**machine.state["totals"], "served": 2**40 + 5}})
        self.assertIn("\nSERVED 1099511627781\n", many.report())
        full = Machine.of_state({**machine.state, "totals": {"served": 2**64 - 1, "alarms": [2**64 - 1] * 3, "restarts": 2**64 - 1}})
        was = full.state["totals"]
        self.assertTrue(full.ask("tick") and full.ask("restart") and Machine.of_state(full.state).totals == full.totals, "counts stay at their most")
        self.assertTrue(full.state["totals"] == was and "\nSERVED 18446744073709551615\n" in full.report())
        self.assertIs(type(pickle.loads(pickle.dumps(machine.totals))), agc.Totals)

    def test_an_alarm_moves_what_counts_from_it(self):
        """The events of a clock, and of none that was copied before."""
        key = {"name": "key", "after": "1202", "at": 10, "do": "phase 1 1"}
        machine = Machine()
        clock = Clock({"event": [{"at": 5, "do": ["novac 20 04000 00005"] * 8}, key, {"after": "key", "at": 5, "do": "phase 1 2"}]})
        self.assertEqual(len(machine.run(clock, 4)), 4)
        other, its = machine.copy(), clock.copy()
        self.assertTrue(len(machine.run(clock, 4)) == 12 and clock.state["alarms"] == {"1202": 5} and its.state["alarms"] == {})
        again = Clock.of_state(clock.state)
        self.assertEqual(clock.copy().state, clock.state)
        for one, timer in [(machine.copy(), again), (machine, clock), (other, its)]:
            found = [(timer.time, str(asked)) for asked, _ in one.iter(timer, 20) if asked.name == "phase"]
            self.assertEqual(found, [(15, "phase 1 1"), (20, "phase 1 2")])
        old = {name: it for name, it in clock.state.items() if name != "alarms"}
        self.assertEqual(Clock.of_state(old).state["alarms"], {})
        self.raised(AgcError, lambda: Clock.of_state({**old, "alarms": {"1204": 1}}))
        self.raised(AgcError, lambda: Clock({"event": [{"at": 1, "after": "1204", "do": "tick"}]}))

    def test_a_clock_is_changed(self):
        """What isn't named stays, lots go on unless a seed is named, and what counts from an alarm still does."""
        job, event = [{"at": "04000", "cost": {"from": 1, "to": 9}}], [{"at": 0, "do": "novac 20 04000 00005"}]
        machine, clock = Machine(), Clock({"seed": 5, "job": job, "event": event})
        self.assertEqual([str(it) for it, _ in machine.run(clock, 1)], ["novac 20 04000 00005", "tick"])
        lot = 48271 * 5
        clock.change({"steal": 10})
        self.assertEqual((clock.state["at"][-1], clock.time, clock.state["timetable"]["job"]), (lot, 1, job))
        clock.change({"seed": 9, "event": [{"at": 3, "do": "phase 1 1"}]})
        self.assertTrue(clock.state["at"][-1] == 9 and "phase 1 1" in [str(it) for it, _ in machine.run(clock, 5)])
        was = clock.state
        self.raised(AgcError, lambda: clock.change({"stael": 15}))
        self.raised(AgcError, lambda: clock.change({"steal": 101}))
        self.assertEqual(clock.state, was)

    def test_threads_take_turns(self):
        """Six threads ask one machine: each request is served, and counted once."""
        machine, steps = Machine(), [[] for _ in range(6)]

        def work(k):
            for _ in range(500):
                steps[k] += [machine.ask("phase 1 1" if k < 2 else "findvac 20 02000 00005"), machine.ask("tick")]

        switch = sys.getswitchinterval()
        sys.setswitchinterval(1e-6)
        threads = [threading.Thread(target=work, args=(k,)) for k in range(6)]
        for it in threads:
            it.start()
        for it in threads:
            it.join()
        sys.setswitchinterval(switch)
        told = sum(map(len, steps)), sum(it.alarm == 0o1201 for some in steps for it in some)
        self.assertTrue((machine.totals.served, machine.totals.alarms[0]) == told == (6000, 2000 // 6), machine.totals)

    def test_messages_can_be_shown(self):
        """What no line and no JSON has: invisible characters, None, and arguments of wrong types."""
        machine = Machine()
        for line, told in [
            ("tick\xa0", '"tick\\xa0": its first word is unknown; did you mean "tick"?'),
            ("\ufefftick", '"\\ufefftick": its first word is unknown; did you mean "tick"?'),
        ]:
            self.assertEqual(self.raised(AgcError, lambda: machine.ask(line)), told)
        for line in ("tick\0", "tick\ud800", "tick" + 9999 * " "):
            self.assertRaises(AgcError, machine.ask, line)
        told = "a machine: power 1 must be an integer or five octal digits, not None"
        self.assertEqual(self.raised(AgcError, lambda: Machine(power=[None] * 12)), told)
        for call, told in [
            (lambda: machine.ask("novac", 1.0, 1, 1), "priority must be an integer, not 1.0"),
            (lambda: machine.ask("store", 1, True), "word must be an integer, not True"),
            (lambda: machine.ask(None), "request must be a string, not None"),
            (lambda: Clock([]), "a timetable must be a dict, not []"),
            (lambda: Clock().next(None), "machine must be a Machine, not None"),
            (lambda: Clock().served(None, None), "machine must be a Machine, not None"),
            (lambda: machine.run(None, 5), "clock must be a Clock, not None"),
            (lambda: agc.refusal_of("tick", agc.Bounds(0, "1", 0, 1)), 'bounds: allowance must be an integer, not "1"'),
            (lambda: agc.place_name("x"), 'place must be an integer, not "x"'),
        ]:
            self.assertEqual(self.raised(TypeError, call), told)
        self.assertEqual(self.raised(AgcError, lambda: agc.place_name(-1)), "place is -1, but must be 0 to 143")
        machine.ask("findvac 20 02000 00005")
        self.assertEqual(repr(machine), "<Machine: job 1 runs; jobs: 1, tasks: 0, alarms: 0>", repr(machine))
        self.assertEqual(repr(Clock({"seconds": 2, **SERVICER})), "<Clock: 0 of 200 centiseconds; jobs: 2, events: 2>")
        other = pickle.loads(pickle.dumps(AgcError(Code.NOT_SPELLED, "'tock'", "job 1", "then")))
        self.assertTrue((other.code, str(other), other.row, other.key) == (Code.NOT_SPELLED, "'tock'", "job 1", "then") and agc.Lacking is AgcError)

    def test_a_wrong_library_is_told(self):
        for named, part in [
            ("/nowhere", "OSError: AGC_LIBRARY names /nowhere, which can't be loaded: "),
            (HERE, f"OSError: AGC_LIBRARY names {HERE}, which can't be loaded: "),
            ("libc.so.6", "OSError: AGC_LIBRARY names libc.so.6, which can't be loaded: "),
        ]:
            environment = {**os.environ, "AGC_LIBRARY": named}
            ran = subprocess.run([sys.executable, "-c", "import agc"], env=environment, capture_output=True, text=True)
            self.assertTrue(ran.returncode == 1 and part in ran.stderr, f"{named}: {ran.stderr}")

    def test_python_3_8_will_do(self):
        """It has no `list[int]` but in hints, which aren't evaluated."""
        for it in module().body:
            parts = ast.walk(it.value) if isinstance(it, (ast.Assign, ast.AnnAssign)) else []
            of = {one.value.id for one in parts if isinstance(one, ast.Subscript) and isinstance(one.value, ast.Name)}
            self.assertTrue(not of & {"dict", "list", "tuple", "type"}, f"line {it.lineno}")

    def test_each_function_is_hinted(self):
        for it in (one for one in ast.walk(module()) if isinstance(one, ast.FunctionDef)):
            arguments = [*it.args.args, *filter(None, [it.args.vararg])]
            without = [one.arg for one in arguments if one.annotation is None and one.arg not in ("self", "cls")]
            self.assertTrue(it.returns is not None and not without, f"{it.name} lacks hints")

    def test_a_star_brings_the_modules_own_names(self):
        names = {}
        exec("from agc import *", names)
        self.assertTrue({"Machine", "Clock", "Kind", "AgcError", "library"} <= set(names))
        self.assertTrue(not {"os", "ctypes", "operator", "Structure", "Any", "Iterable"} & set(names))

    def test_versions(self):
        self.assertTrue(agc.__version__.count(".") == 2 and agc.code_text(agc.Code.OK) == "the call was served")
        self.assertEqual(agc.reply_text(agc.Kind.ALARMED), "a table is full: an alarm")


def kept(whose):
    """A machine and a clock as JSON, whose text JavaScript's has to be."""
    given = json.load(sys.stdin) if whose else [it.state for it in halfway()]
    return json.dumps([Machine.of_state(given[0]).state, Clock.of_state(given[1]).state], separators=(",", ":"))


if __name__ == "__main__":
    if sys.argv[1:2] == ["kept"]:
        print(kept(sys.argv[2:]))
    else:
        unittest.main()
