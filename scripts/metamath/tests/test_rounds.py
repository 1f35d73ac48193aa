"""Tests of what compares mz with metamath: that a difference is one."""
import os
import unittest

from metamath import opinion, rounds
from metamath.pairs import NO, NOTHING, TOO_LONG, YES, Pair, disagreement, metamath_says, pairs
from metamath.tests.room import EXAMPLES, Room
from metamath.tests.test_more_databases import OPERATIONS


def pair(spec, binary, line):
    return Pair(os.path.join(EXAMPLES, spec + ".mm0"), os.path.join(EXAMPLES, binary + ".mmb"), line)


FALSE = pair("other_claim", "double_negation", "refused: match declaration 5 statement 5: M8 conclusion")
RIGHT = pair("fold", "fold", "accepted: 1 sorts, 1 terms, 0 axioms, 1 definitions, 1 theorems")


class TestPairs(Room):
    def test_rules(self):
        self.assertEqual([it.rule for it in (FALSE, RIGHT)], ["M8", ""])
        self.assertTrue(FALSE.is_false())
        self.assertFalse(pair("two_sorts", "sort", "refused: match declaration 2: M1 count").is_false())
        # dummy.mmb proves nothing, double_negation.mmb does
        self.assertFalse(pair("two_dummies", "dummy", "refused: match declaration 4 statement 4: M9 body").is_false())
        self.assertTrue(pair("other_body", "double_negation", "refused: match declaration 3 statement 3: M9 body").is_false())

    def test_disagreement(self):
        self.assertEqual([disagreement(RIGHT, it) for it in (YES, TOO_LONG)], [None, None])
        self.assertEqual([disagreement(FALSE, it) for it in (NO, NOTHING, TOO_LONG)], [None, None, None])
        self.assertRegex(disagreement(RIGHT, NO), "^examples/fold.mm0 examples/fold.mmb: mz accepts it, and metamath: refused$")
        self.assertRegex(disagreement(RIGHT, NOTHING), "mz accepts it")
        self.assertRegex(disagreement(FALSE, YES), r"mz refuses it \(M8\), and metamath verifies it$")

    def test_the_pages(self):
        found = pairs()
        self.assertIn(RIGHT, found)
        self.assertIn(FALSE, found)

    @unittest.skipUnless(opinion.is_there(), "metamath isn't installed")
    def test_metamath(self):
        self.assertEqual(metamath_says(RIGHT, self.path("pair.mm")), YES)
        self.assertEqual(metamath_says(FALSE, self.path("pair.mm")), NO)
        self.assertEqual(metamath_says(pair("term", "exponential", ""), self.path("pair.mm")), TOO_LONG)
        self.assertEqual(metamath_says(pair("sort", "cut", ""), self.path("pair.mm")), NOTHING)


class TestRounds(Room):
    def test_names_of_instances(self):
        known = {"ax_12", "sort", "ax_b0"}
        self.assertEqual([rounds.bare(it, known) for it in ("ax_12", "ax_12_b00", "sort_", "ax_12_2", "ax_b0", "other")],
                         ["ax_12", "ax_12", "sort", "ax_12", "ax_b0", "other"])

    def test_chosen(self):
        place = self.path("little.mm")
        self.assertEqual(sorted(rounds.chosen(place, 9, 1)), ["sub", "two"])
        self.assertEqual(rounds.chosen(place, 1, 5), rounds.chosen(place, 1, 5))

    @unittest.skipUnless(opinion.is_there(), "metamath isn't installed")
    def test_a_round(self):
        made = rounds.round_trip(self.path("little.mm"), self.room, "two")
        self.assertEqual((made.faults, sorted(made.costs)), ([], ["export", "import"]))
        # two is df-ss alone, which is proved by way of biid; another theorem's axioms aren't its
        names = rounds.Names(self.path("pair"))
        self.assertEqual((names.reached(False), names.reached(True)), ({"df_ss"}, {"biid"}))
        self.assertEqual(rounds.other_axioms({"df-sub"}, self.path("pair")), ["axioms: here alone df_ss, there alone df_sub"])

    @unittest.skipUnless(opinion.is_there(), "metamath isn't installed")
    def test_a_database_that_is_kept(self):
        kept = rounds.Kept(self.path("little.mm"), ["two", "sub"])
        self.assertEqual(kept.axioms, {"two": {"df-ss"}, "sub": {"df-sub"}})  # each cites its definition alone
        for label in ("two", "sub", "two"):
            self.assertEqual(rounds.round_trip(self.path("little.mm"), self.room, label, kept).faults, [])
        kept.axioms["two"] = {"df-sub"}
        self.assertEqual(rounds.round_trip(self.path("little.mm"), self.room, "two", kept).faults,
                         ["axioms: here alone df_ss, there alone df_sub"])

    @unittest.skipUnless(opinion.is_there(), "metamath isn't installed")
    def test_a_whole_database_with_operators(self):
        self.put("operations.mm", OPERATIONS)
        self.assertEqual(rounds.round_trip(self.path("operations.mm"), self.room).faults, [])
        with open(self.path("pair.mm0"), encoding="ascii") as file:
            self.assertIn("( ( A + 0 ) + C ) < ", file.read())

    def test_a_round_that_fails(self):
        made = rounds.round_trip(self.path("little.mm"), self.room, "nosuch")
        self.assertEqual(len(made.faults), 1)
        self.assertIn("nosuch", made.faults[0])
