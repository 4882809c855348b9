#!/usr/bin/env python3
"""Tests what decides over figures, with readings and a clock that are made up: bench/tests.py

- a measurement counts only if each processor was at full speed before and after it. Otherwise it is repeated, a bounded
  number of times and for a bounded time
- a measurement that has slices counts slice by slice, and its figure is their median
- a row does not count if a better best time shows later that its processors were slow
- a second processor of a core, as the system or the times say, comes after one of each core in the order of use
- fewer than three sets, a set that was not gated and a set that ran slower are no figures
- a row that one set lacks is no figure
- sets of short rounds are figures, and the page says that the rounds were short
- sets with the calls of felter.h or with other queues replace those that were kept apart, and sets with batches replace
  the older tables
"""
import os
import sys
import tempfile
import types
import unittest

sys.dont_write_bytecode = True
sys.path.insert(0, os.path.dirname(os.path.abspath(__file__)))
import cores
import gate
import measure
import points
from tests_of_pages import FAST, SLOW, Figures  # noqa: F401 (unittest finds the tests of Figures here)


class Machine:
    """Processors that run as a list of readings says, and a clock that only readings, calls and pauses move on."""

    def __init__(self, *readings):
        self.readings, self.now, self.calls, self.asked = list(readings), 0.0, 0, []

    def look(self, processors):
        self.asked.append(tuple(processors))
        self.now += 0.001
        reading = self.readings.pop(0) if len(self.readings) > 1 else self.readings[0]
        return list(reading) if isinstance(reading, tuple) else [reading] * len(processors)

    def clock(self):
        return self.now

    def pause(self, seconds):
        self.now += seconds

    def call(self):
        self.calls, self.now = self.calls + 1, self.now + 0.03
        return f"value {self.calls}"

    def gate(self, patience=1000.0, best=FAST, **options):
        found = gate.Gate(self.look, self.clock, self.pause, **options)
        found.best = {1: best, 2: best} if best else {}
        found.start(patience)
        return found


class Counting(unittest.TestCase):
    """Which measurements count."""

    def test_at_full_speed_the_first_one_counts(self):
        machine = Machine(FAST, FAST * 1.09)
        guard = machine.gate()
        self.assertEqual(guard.measure((3, 2), machine.call), ("value 1", FAST * 1.09))
        self.assertEqual((machine.asked, guard.repeated), ([(3, 2), (3, 2)], 0))

    def test_at_a_slow_processor_nothing_is_measured(self):
        machine = Machine(SLOW, SLOW, FAST, FAST)
        guard = machine.gate()
        self.assertEqual(guard.measure((3,), machine.call), ("value 1", FAST))
        self.assertEqual((machine.calls, guard.repeated), (1, 2))
        self.assertAlmostEqual(machine.now, 4 * 0.001 + 2 * gate.REST + 0.03)

    def test_a_value_before_a_slow_processor_is_dropped(self):
        machine = Machine(FAST, SLOW, FAST, FAST)
        guard = machine.gate()
        self.assertEqual(guard.measure((3,), machine.call), ("value 2", FAST))
        self.assertEqual(guard.repeated, 1)

    def test_one_slow_processor_of_two_is_enough(self):
        machine = Machine((FAST, FAST), (FAST, SLOW), (SLOW, FAST), (FAST, FAST))
        self.assertEqual(machine.gate().measure((3, 2), machine.call), ("value 2", FAST))

    def test_the_margin_is_part_of_full_speed_and_no_more(self):
        self.assertTrue(Machine(FAST).gate(margin=0.1).is_full(FAST * 1.1, 1))
        self.assertFalse(Machine(FAST).gate(margin=0.1).is_full(FAST * 1.11, 1))

    def test_each_number_of_processors_has_its_best_time(self):
        machine = Machine(FAST, FAST, (0.4, 0.4), (0.4, 0.41), FAST, 0.4, FAST, FAST)
        guard = machine.gate(best=None)
        self.assertEqual(guard.measure((3,), machine.call), ("value 1", FAST))
        self.assertEqual(guard.measure((3, 2), machine.call), ("value 2", 0.41))
        self.assertEqual(guard.measure((3,), machine.call), ("value 4", FAST))
        self.assertEqual(guard.best, {1: FAST, 2: 0.4})

    def test_tries_are_bounded(self):
        machine = Machine(SLOW)
        guard = machine.gate(tries=7)
        self.assertIsNone(guard.measure((3,), machine.call))
        self.assertEqual((len(machine.asked), machine.calls, guard.repeated), (7, 0, 7))

    def test_time_is_bounded(self):
        machine = Machine(SLOW)
        guard = machine.gate(patience=0.1, tries=1000)
        self.assertIsNone(guard.measure((3,), machine.call))
        self.assertLess(machine.now, 0.1 + 2 * gate.REST)
        self.assertIsNone(guard.measure((3,), machine.call))
        self.assertLess(machine.now, 0.1 + 4 * gate.REST)

    def test_without_patience_a_fast_one_still_counts(self):
        machine = Machine(SLOW, FAST)
        guard = machine.gate(patience=0)
        self.assertIsNone(guard.measure((3,), machine.call))
        self.assertEqual(guard.measure((3,), machine.call), ("value 1", FAST))

    def test_a_better_best_time_found_afterwards_makes_it_slow(self):
        machine = Machine(SLOW, SLOW, (SLOW, FAST), FAST, FAST)
        guard = machine.gate(best=None)
        self.assertEqual(guard.measure((3, 2), machine.call), ("value 1", SLOW))
        self.assertEqual(guard.measure((3, 2), machine.call), ("value 2", FAST))
        rows = [dict(workload="pair", contender=who, size=8, threads=1, metric="ns", processors=2, adds=adds)
                for who, adds in (("a", [FAST, FAST]), ("b", [FAST, SLOW]))]
        kept, refused = measure.full_speed(guard, rows)
        self.assertEqual((kept, refused), (rows[:1], [["pair", "b", 8, 1, "slow"]]))

    def test_the_best_time_is_looked_for_before_anything_is_measured(self):
        machine = Machine(SLOW, SLOW, FAST, SLOW)
        guard = machine.gate(best=None)
        guard.learn((3, 2))
        self.assertEqual((guard.best, guard.repeated, set(machine.asked)), ({1: FAST}, 0, {(3,), (2,)}))
        self.assertLess(machine.now, gate.LEARN + 0.01)

    def test_more_processors_are_not_so_much_slower(self):
        machine = Machine(FAST, FAST, (SLOW, SLOW))
        guard = machine.gate(best=None, tries=3)
        self.assertEqual(guard.measure((3,), machine.call), ("value 1", FAST))
        self.assertIsNone(guard.measure((3, 2), machine.call))

    def test_a_fault_of_the_worker_is_passed_on(self):
        def fail():
            raise EOFError
        self.assertRaises(EOFError, Machine(FAST).gate().measure, (3,), fail)

    def test_an_open_gate_lets_all_count(self):
        machine = Machine(SLOW)
        guard = gate.Gate(None, machine.clock, machine.pause)
        self.assertEqual(guard.measure((3,), machine.call), ("value 1", None))
        self.assertTrue(guard.is_quiet(4))


class Slices(unittest.TestCase):
    """What a measurement comes to whose slices count one by one."""

    def measured(self, workload, times, *readings, **options):
        """What a measurement of 14 ms came to, and the times that were asked for. The slices take these times in turn."""
        asked, times = [], list(times)

        def measure_slice(_contender, _point, ms):
            asked.append(ms)
            return {"ns": times.pop(0)} if times else {}

        worker = types.SimpleNamespace(name="w", is_pinned=True, child=types.SimpleNamespace(pid=os.getpid()),
                                       measure=measure_slice)
        setting = measure.Setting(Machine(*readings).gate(**options), [3, 2], [])
        pin, gate.pin = gate.pin, lambda *_: None
        try:
            return setting.measure(worker, "a", points.Point(workload, 8, 65536, 1, 15), 14), asked
        finally:
            gate.pin = pin

    def test_a_figure_is_the_median_of_its_slices(self):
        found, asked = self.measured("batches", [9.0, 5.0, 6.0, 9.0, 5.0, 6.0, 7.0], FAST)
        self.assertEqual((found, asked), (({"ns": 6.0}, FAST), [2.0] * 7))

    def test_only_the_slice_beside_a_slow_processor_is_repeated(self):
        readings = [FAST] * 3 + [SLOW] + [FAST]
        found, asked = self.measured("batches", [5.0, 99.0, 5.0, 5.0, 5.0, 5.0, 5.0, 5.0], *readings)
        self.assertEqual((found, len(asked)), (({"ns": 5.0}, FAST), 8))

    def test_a_slice_that_never_counts_leaves_no_figure(self):
        found, asked = self.measured("batches", [5.0] * 7, FAST, FAST, SLOW, tries=3)
        self.assertEqual((found, len(asked)), (None, 1))

    def test_a_contender_without_the_point_has_no_figure(self):
        self.assertEqual(self.measured("batches", [], FAST), (({}, FAST), [2.0]))

    def test_the_slowest_add_beside_a_slice_is_kept(self):
        found, _ = self.measured("batches", [5.0] * 7, FAST, FAST * 1.05, FAST)
        self.assertEqual(found, ({"ns": 5.0}, FAST * 1.05))

    def test_percentiles_are_measured_in_one_piece(self):
        found, asked = self.measured("trips", [5.0], FAST)
        self.assertEqual((found, asked), (({"ns": 5.0}, FAST), [14]))


class Rounds(unittest.TestCase):
    """Which rounds of a point count."""

    POINT = points.Point("pair", 8, 65536, 1, 30)

    def measured(self, others, patience=1000.0, slow=()):
        """Measures three rounds. Other programs use these processors in each of them, and the last number for ever."""
        machine = Machine(FAST)
        guard, others, began = machine.gate(patience), list(others), []

        def measure_round(of, entries, failed, *_):
            if of.guard.look is None:
                return None
            found = measure.Round()
            found.others = others.pop(0) if len(others) > 1 else others[0]
            found.values, found.adds = {("a", "ns"): 1.0}, {"a": FAST}
            failed.update({who: "slow" for who in slow})
            began.append(machine.now)
            machine.now += 0.5
            return found

        worker = types.SimpleNamespace(name="w", takes_part=lambda _: ["a", "b"])
        options = types.SimpleNamespace(contenders="", quick=False, reps=3)
        old, measure.measure_round = measure.measure_round, measure_round
        measure.time = types.SimpleNamespace(monotonic=machine.clock, sleep=machine.pause)
        try:
            rounds, failed = measure.measure_point(measure.Setting(guard, [3, 2], []), [worker], self.POINT, options)
        finally:
            measure.measure_round, measure.time = old, __import__("time")
        return len(rounds), failed, len(began)

    def test_quiet_rounds_count(self):
        self.assertEqual(self.measured([0.0, 0.1, 0.2]), (3, {}, 3))

    def test_a_round_beside_other_programs_is_repeated(self):
        self.assertEqual(self.measured([0.0, 1.0, 0.3, 0.0, 0.0]), (3, {}, 5))

    def test_a_machine_that_stays_busy_gives_no_round(self):
        self.assertEqual(self.measured([2.0], patience=2.0), (0, {"a": "others", "b": "others"}, 4))

    def test_a_contender_that_is_slow_keeps_its_reason(self):
        self.assertEqual(self.measured([2.0], patience=0, slow=["b"])[1], {"a": "others", "b": "slow"})


class Cores(unittest.TestCase):
    """Which processors are used."""

    def test_the_system_says_which_share_a_core(self):
        with tempfile.TemporaryDirectory() as room:
            for processor, text in ((0, "0,2"), (1, "1,3-4"), (2, "0,2"), (3, "1,3-4")):
                os.makedirs(f"{room}/cpu{processor}/topology")
                with open(f"{room}/cpu{processor}/topology/thread_siblings_list", "w", encoding="ascii") as file:
                    file.write(text + "\n")
            self.assertEqual(cores.said_to_share([0, 1, 2, 3], room), {(0, 2), (1, 3)})
            self.assertIsNone(cores.said_to_share([0, 7], room))

    def test_times_say_it_too(self):
        class Speed:
            def adds(self, them):
                return [SLOW if set(them) == {1, 2} else FAST for _ in them]
        times = cores.slowings(Speed(), [0, 1, 2])
        self.assertEqual([pair for pair, it in times.items() if it >= cores.SHARED], [(1, 2)])

    def test_one_of_each_core_comes_first(self):
        self.assertEqual(cores.in_order(cores.cores([0, 1, 2, 3], {(0, 2), (1, 3)})), [3, 2, 1, 0])
        self.assertEqual(cores.in_order(cores.cores([0, 1, 2, 3], {(2, 3)})), [3, 1, 0, 2])
        self.assertEqual(cores.in_order(cores.cores([0, 1, 2, 3], set())), [3, 2, 1, 0])
        self.assertEqual(cores.in_order(cores.cores([0, 1], {(0, 1)})), [1, 0])

    def test_threads_of_a_point(self):
        threads = [points.threads_of(points.Point(*it)) for it in (
            ("batches", 8, 65536, 1, 15), ("pair", 8, 65536, 1, 30), ("producers", 8, 65536, 4, 30),
            ("broadcast", 64, 65536, 2, 30), ("trips", 20, 65536, 1, 40))]
        self.assertEqual(threads, [1, 2, 5, 3, 2])


if __name__ == "__main__":
    unittest.main()
