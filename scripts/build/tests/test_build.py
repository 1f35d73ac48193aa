"""Tries what is said of a build: how far it is, and what is left."""
import contextlib
import io
import os
import unittest

from build import costs, crates
from build.progress import Progress, about, clock

TOP = os.path.dirname(os.path.dirname(os.path.dirname(os.path.dirname(os.path.abspath(__file__)))))
BELOW = {"a": [], "b": ["a"], "c": ["a"], "d": ["b", "c"]}
COSTS = {"a": 10.0, "b": 20.0, "c": 30.0, "d": 40.0}


class Plans(unittest.TestCase):
    def test_side_by_side(self):
        self.assertEqual(costs.Plan(BELOW, COSTS, 1).length, 100)
        self.assertEqual(costs.Plan(BELOW, COSTS, 2).length, 80)
        self.assertEqual(costs.Plan(BELOW, COSTS, 8).length, 80)

    def test_when_so_much_is_done(self):
        plan = costs.Plan(BELOW, COSTS, 2)
        self.assertEqual([plan.time_at(it) for it in (10, 30, 60, 100)], [10, 30, 40, 80])

    def test_a_slower_machine(self):
        estimate = costs.Estimate(BELOW, COSTS, 2)
        self.assertEqual(estimate.left(0), 80)
        estimate.is_proved("a")
        self.assertGreater(estimate.left(100), 80)
        self.assertEqual(costs.Estimate(BELOW, COSTS, 2).left(500), 0)

    def test_what_is_kept_costs_nothing(self):
        estimate = costs.Estimate(BELOW, COSTS, 2)
        for name in "abc":
            estimate.is_kept(name)
        self.assertEqual(estimate.left(0), 40)

    def test_each_crate_of_the_program_has_a_cost(self):
        rows = crates.rows_of(TOP, "mz_main")
        names = list(crates.below_of(rows))
        self.assertIn("mz_main", names)
        found = costs.costs_of(names, lambda it: crates.lines_of(TOP, it))
        self.assertTrue(all(it > 0 for it in found.values()))
        for number, name in enumerate(names):
            self.assertTrue(set(crates.below_of(rows)[name]) <= set(names[:number]), name)

    def test_a_subject_is_short(self):
        for name in crates.below_of(crates.rows_of(TOP, "mz_main")):
            said = crates.subject(TOP, name)
            self.assertTrue(0 < len(said) <= 72, f"{name}: {said}")


class Lines(unittest.TestCase):
    def told(self, *lines):
        times = [100.0]
        progress = Progress(list(BELOW), lambda it: f"what {it} is", costs.Estimate(BELOW, COSTS, 2), lambda: times[0])
        times[0] = 190.0
        said = io.StringIO()
        with contextlib.redirect_stderr(said):
            for line in lines:
                progress.line(line)
        return said.getvalue().split("\n")[:-1]

    def test_proved_and_kept(self):
        said = self.told("rt: a is kept: an earlier run on this machine proved the same files", "== b", "logic=proved functions=7 sum=1", "rt: b proved", "rt: elsewhere proved")
        self.assertEqual(len(said), 2)
        self.assertTrue(said[0].startswith("mz:  1 of 4,  1:30  a: what a is (kept from an earlier run); "), said[0])
        self.assertTrue(said[1].startswith("mz:  2 of 4,  1:30  b: what b is (7 functions proved); about "), said[1])

    def test_what_goes_wrong(self):
        self.assertEqual(self.told("rt: b NOT PROVED", "rt: c: another run on this machine is proving the same; waiting for it"),
                         ["mz: b is not proved", "mz: another run on this machine is proving c; waiting for it"])

    def test_times_in_words(self):
        self.assertEqual([clock(it) for it in (0, 61, 3599, 3661)], ["0:00", "1:01", "59:59", "1:01:01"])
        self.assertEqual([about(it) for it in (0, 29, 61, 1200)], ["less than a minute", "less than a minute", "about a minute", "about 20 minutes"])


if __name__ == "__main__":
    unittest.main()
