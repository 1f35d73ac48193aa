"""The checker accepts what is made, and refuses what is changed in it."""
import unittest

from prove.checker import Checker
from prove.elaborate import Elaborator
from prove.logic import App, Assertion, Var, walk
from prove.places import Wrong
from prove.proofs import Cited, Converted
from prove.unify import Refl

from .support import library


def nodes(proof):
    yield proof
    for part in getattr(proof, "parts", None) or [getattr(proof, it) for it in ("proof", "first", "rest") if hasattr(proof, it)]:
        yield from nodes(part)


class Checked(unittest.TestCase):
    def setUp(self):
        self.writer = library("predicate")
        own = self.writer.development.order
        self.items = [(self.writer.assertions[it.name], item) for it, item in own if isinstance(it, Assertion) and item]

    def made(self, theorem, item):
        scope = self.writer.scope
        elaborator = Elaborator(scope, theorem, scope.binders(item.dummies, {}), self.writer.printer)
        return elaborator.whole(item.proof), elaborator.dummies

    def is_refused(self, theorem, dummies, proof):
        try:
            Checker(theorem, dummies, self.writer.printer).whole(proof)
        except Wrong:
            return True
        return False

    def test_changes_are_refused(self):
        counts = {}
        for theorem, item in self.items:
            for kind, change in (("conclusion", self.other_conclusion), ("order", self.other_order),
                                 ("operand", self.other_operand), ("conversion", self.no_conversion)):
                proof, dummies = self.made(theorem, item)
                self.assertFalse(self.is_refused(theorem, dummies, proof))
                changed = change(theorem, proof)
                if changed:
                    counts[kind] = counts.get(kind, 0) + 1
                    self.assertTrue(self.is_refused(changed, dummies, proof), (theorem.name, kind))
        self.assertEqual(counts.keys(), {"conclusion", "order", "operand", "conversion"})
        self.assertGreater(min(counts.values()), 10)

    def other_conclusion(self, theorem, _):
        """The theorem states its negation."""
        negation = App(self.writer.terms["not"], [theorem.conclusion])
        return Assertion("theorem", theorem.name, theorem.binders, theorem.hypotheses, negation)

    def other_order(self, theorem, proof):
        """Two proofs of an ax_mp stand in the other order."""
        for it in nodes(proof):
            if isinstance(it, Cited) and it.theorem.name == "ax_mp":
                it.parts.reverse()
                return theorem
        return None

    def other_operand(self, theorem, proof):
        """A formula in a citation is another one."""
        for it in nodes(proof):
            for i, e in enumerate(it.operands if isinstance(it, Cited) else ()):
                if e.sort == "wff":
                    it.operands[i] = App(self.writer.terms["not"], [e])
                    return theorem
        return None

    def no_conversion(self, theorem, proof):
        for it in nodes(proof):
            if isinstance(it, Converted):
                it.conversion = Refl(it.goal)
                return theorem
        return None

    def test_variables_apart(self):
        """ax_5 for a formula that may depend on the variable."""
        ax_5 = self.writer.assertions["ax_5"]
        x = Var("x", "obj", True)
        p = Var("p", "wff", False, [x])
        conclusion = App(self.writer.terms["im"], [p, App(self.writer.terms["all"], [x, p])])
        theorem = Assertion("theorem", "t", [x, p], [], conclusion)
        self.assertTrue(self.is_refused(theorem, [], Cited(None, ax_5, [x, p], [])))
        q = Var("q", "wff")
        conclusion = App(self.writer.terms["im"], [q, App(self.writer.terms["all"], [x, q])])
        theorem = Assertion("theorem", "t", [x, q], [], conclusion)
        self.assertFalse(self.is_refused(theorem, [], Cited(None, ax_5, [x, q], [])))
        self.assertIs(walk(x), x)
