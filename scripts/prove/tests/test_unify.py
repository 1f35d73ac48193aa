"""Unification: what is filled, what is unfolded, and that nothing stays filled where it fails."""
import unittest

from prove.checker import same
from prove.logic import App, Var, walk
from prove.proofs import conversion_node
from prove.unify import Cong, Refl, Sym, Unfold, Unifier

from .test_formulas import theory


class Unified(unittest.TestCase):
    def setUp(self):
        self.terms = theory().terms
        self.unifier = Unifier()
        self.a, self.b = Var("a", "elt"), Var("b", "elt")
        self.x = Var("x", "elt", True)

    def app(self, name, *operands):
        return App(self.terms[name], operands)

    def hole(self, bound=False):
        return self.unifier.hole("elt", bound, "h", "test")

    def test_a_hole_takes_what_stands_there(self):
        hole = self.hole()
        made = self.unifier.unify(self.app("eq", hole, self.b), self.app("eq", self.a, self.b))
        self.assertIsInstance(made, Refl)
        self.assertIs(walk(hole), self.a)

    def test_a_hole_is_not_filled_with_itself_inside(self):
        hole = self.hole()
        self.assertIsNone(self.unifier.unify(hole, self.app("mul", hole, self.a)))
        self.assertIsNone(hole.value)

    def test_a_bound_hole_takes_bound_variables_alone(self):
        self.assertIsNone(self.unifier.unify(self.hole(True), self.a))
        self.assertIsNone(self.unifier.unify(self.hole(True), self.app("one")))
        self.assertIsNotNone(self.unifier.unify(self.hole(True), self.x))

    def test_sorts_differ(self):
        self.assertIsNone(self.unifier.unify(self.hole(), self.app("eq", self.a, self.b)))

    def test_nothing_stays_filled_where_it_fails(self):
        hole = self.hole()
        e, f = self.app("eq", hole, self.a), self.app("eq", self.b, self.b)
        self.assertIsNone(self.unifier.unify(e, f))
        self.assertIsNone(hole.value)
        self.assertEqual(self.unifier.holes, [hole])

    def test_a_definition_is_unfolded_on_either_side(self):
        defined, body = self.app("cancels", self.a, self.b), self.app("eq", self.app("mul", self.a, self.b), self.app("one"))
        made = self.unifier.unify(defined, body)
        self.assertIsInstance(made, Unfold)
        self.assertEqual(conversion_node(made), [":unfold", "cancels", ["a", "b"], [], [":refl", "(eq (mul a b) one)"]])
        self.assertIsInstance(self.unifier.unify(body, defined), Sym)

    def test_a_dummy_becomes_the_variable_that_stands_there(self):
        sides = [self.app("mul", self.a, self.x), self.app("mul", self.x, self.a)]
        made = self.unifier.unify(self.app("central", self.a), self.app("all", self.x, self.app("eq", *sides)))
        self.assertIs(walk(made.variables[0]), self.x)

    def test_below_a_term(self):
        defined = self.app("all", self.x, self.app("cancels", self.x, self.a))
        body = self.app("all", self.x, self.app("eq", self.app("mul", self.x, self.a), self.app("one")))
        made = self.unifier.unify(defined, body)
        self.assertIsInstance(made, Cong)
        self.assertTrue(same(made.parts[0].e, self.x))
