"""What is found for a goal, and what is written for it. The theorems' statements say what is right; of which proofs there are
the elaborator and the checker decide."""
import contextlib
import io
import os
import re
import unittest

from prove.command import examined, main
from prove.index import Index
from prove.search import candidates, proofs, surroundings

from .support import LOGIC, MONOID, library, room, source

LEFT = "theorem left (a b c: elt): $ a = b $ > $ a * c = b * c $;"
UNIQUE = "theorem unique (a b c: elt): $ cancels a b $ > $ cancels b c $ > $ a * b = b * c $;"


@contextlib.contextmanager
def gap(theorem, text, number=0):
    with source(theorem, text) as (writer, problems):
        assert not problems, problems
        yield writer.goals[number], surroundings(writer.goals[number])


def found(theorem, text, depth=2, number=0):
    with gap(theorem, text, number) as (it, scope):
        return proofs(it.goal, scope, depth, 20).proofs


def typed(*words):
    out = io.StringIO()
    with contextlib.redirect_stdout(out):
        status = main(list(words))
    return out.getvalue(), status


class Indexed(unittest.TestCase):
    def test_each_theorem_is_found_by_its_conclusion(self):
        theory = library("classes").development.theory
        index = Index(theory.assertions.values())
        for it in theory.assertions.values():
            self.assertIn(it, index.fitting(it.conclusion))

    def test_few_are_looked_at(self):
        """Of 43 theorems and 14 axioms of classes, one says something of a set in a union."""
        theory = library("classes").development.theory
        index = Index(theory.assertions.values())
        goal = theory.assertions["elun"].conclusion
        self.assertLess(len(index.fitting(goal)), 12)


class Candidates(unittest.TestCase):
    def test_hypotheses_first_and_then_the_best_fits(self):
        with gap(LEFT, "theorem left = mul_eq(sorry, eq_refl);") as (it, scope):
            names = [one.name for one in candidates(it.goal, scope)]
        self.assertEqual(names, ["h", "eq_symm", "eq_trans"])

    def test_what_is_left_open(self):
        with gap(LEFT, "theorem left = sorry;") as (it, scope):
            made = {one.name: scope.printer.formulas(one.open) for one in candidates(it.goal, scope)}
        self.assertEqual(made["mul_eq"], ["a = b", "c = c"])
        self.assertEqual(made["eq_trans"], ["a * c = ?b", "?b = b * c"])
        self.assertNotIn("left", made)

    def test_definitions_are_unfolded(self):
        with gap("theorem same: $ cancels 1 1 $;", "theorem same = sorry;") as (it, scope):
            made = [(one.name, one.is_unfolding) for one in candidates(it.goal, scope)]
        self.assertIn(("one_mul", True), made)

    def test_later_theorems_are_none(self):
        with gap(LEFT + "theorem later (a b c: elt): $ a * c = b * c $;", "theorem left = sorry; theorem later = sorry;") as (it, scope):
            self.assertNotIn("later", [one.name for one in candidates(it.goal, scope)])

    def test_nothing_stays_filled_or_written(self):
        with source(LEFT, "theorem left = eq_trans(sorry, $ b * c = _ $ by eq_refl);") as (writer, _):
            text = writer.text()
            it = writer.goals[0]
            candidates(it.goal, surroundings(it))
            proofs(it.goal, surroundings(it), 2, 20)
            self.assertEqual(writer.text(), text)


class Proofs(unittest.TestCase):
    def test_shortest_first(self):
        self.assertEqual(found(LEFT, "theorem left = sorry;")[0], "mul_eq(h, eq_refl)")

    def test_hypotheses_and_what_is_had(self):
        self.assertEqual(found(LEFT, "theorem left = have k: $ a * c = b * c $ = sorry; sorry;", number=1)[0], "k")

    def test_depth(self):
        self.assertEqual(found(UNIQUE, "theorem unique = sorry;", 1), [])
        self.assertIn("eq_trans(h1, eq_symm(h2))", found(UNIQUE, "theorem unique = sorry;", 2))

    def test_what_stands_for_a_parameter_is_given_where_nothing_else_says_it(self):
        two = "axiom two (a b: elt): $ a * b = 1 $ > $ a = a $; theorem t: $ 1 = 1 $;"
        with source(two, "theorem t = sorry;") as (writer, _):
            it = writer.goals[0]
            self.assertEqual(proofs(it.goal, surroundings(it), 1, 20).proofs, ["eq_refl"])

    def test_variables_that_are_not_apart_are_refused(self):
        self.assertEqual(found("theorem instance {x: elt} (p: wff x): $ A. x p $ > $ p $;", "theorem instance = sorry;"), [])

    def test_the_time(self):
        with gap(UNIQUE, "theorem unique = sorry;") as (it, scope):
            search = proofs(it.goal, scope, 9, 0)
        self.assertEqual((search.proofs, search.is_out_of_time), ([], True))

    def test_an_import_is_searched(self):
        spec = MONOID + "theorem t (a: elt): $ a = a * 1 $;"
        other = MONOID + "theorem lemma (a: elt): $ a = a * 1 $;"
        with room(a_mm0=spec, a_proofs="import b; theorem t = ?;", b_mm0=other, b_proofs="theorem lemma = eq_symm(mul_one);") as path:
            writer, _ = examined(os.path.join(path, "a.proofs"))
            it = writer.goals[0]
            self.assertEqual(proofs(it.goal, surroundings(it), 1, 20).proofs[0], "lemma")
            self.assertNotIn("lemma", writer.text())


class Filled(unittest.TestCase):
    def test_the_source_is_written(self):
        with room(a_mm0=MONOID + LEFT + UNIQUE, a_proofs="theorem left = mul_eq(?, sorry);\ntheorem unique = ? 1;\n") as path:
            file = os.path.join(path, "a.proofs")
            text, status = typed("--fill", file)
            with open(file, encoding="ascii") as it:
                self.assertEqual(it.read(), "theorem left = mul_eq(h, eq_refl);\ntheorem unique = ? 1;\n")
        *lines, last = text.splitlines()
        self.assertEqual(last, "2 of 3 gaps filled")
        lines = [line.split("a.proofs:")[1] for line in lines]
        self.assertEqual(lines[:2], ["1:23: h", "1:26: eq_refl"])
        self.assertRegex(lines[2], r"^2:18: nothing is found \(\d+ citations tried, all up to depth 1\)$")
        self.assertEqual(status, 1)

    def test_what_is_copied_is_written_where_it_is_right_everywhere(self):
        twice = "theorem twice (a b: elt): $ a * b = a * b $;"
        for proof, wanted in (("where k = ?; mul_eq(k, k)", "where k = eq_refl; mul_eq(k, k)"),):
            with room(a_mm0=MONOID + twice, a_proofs=f"theorem twice = {proof};") as path:
                file = os.path.join(path, "a.proofs")
                typed("--fill", file)
                with open(file, encoding="ascii") as it:
                    self.assertEqual(it.read(), f"theorem twice = {wanted};")

    def test_for_a_theorem(self):
        with room(a_mm0=MONOID + LEFT, a_proofs="theorem left = mul_eq(h, sorry);") as path:
            text, status = typed("--find", "--for", "left", os.path.join(path, "a.proofs"))
        self.assertTrue(text.split("a.proofs:")[1].startswith("1:26: c = c\n  eq_refl   nothing is left\n"), text)
        self.assertEqual(status, 0)


class Automatic(unittest.TestCase):
    """What `rw` and `prop` prove is found, too, where a source says what they may use."""

    def found(self, theorem, said, spec=MONOID):
        with source(f"theorem t {theorem};", f"{said}\ntheorem t = ?;", spec) as (writer, problems):
            assert not problems, problems
            it = writer.goals[0]
            return proofs(it.goal, surroundings(it), 2, 20).proofs

    def test_equations(self):
        said = "equality eq refl eq_refl symm eq_symm trans eq_trans; congruence mul_eq;"
        self.assertEqual(self.found("(a b c: elt): $ a * (b * 1) * c = a * b * c $", said), ["rw [mul_one]"])
        self.assertIn(self.found("(a b c: elt): $ a = b $ > $ c * a * 1 = c * b $", said), (["rw [h, mul_one]"], ["rw [mul_one, h]"]))

    def test_what_a_theorem_leaves_open(self):
        said = "equality eq refl eq_refl symm eq_symm trans eq_trans; congruence mul_eq;"
        idempotent = "axiom idempotent (a: elt): $ a * a = a $ > $ a = 1 $;"
        found = self.found("(a: elt): $ a * 1 * (1 * a) = a $ > $ a = 1 $", said, MONOID + idempotent)
        self.assertEqual(found[0].split("(")[0], "idempotent")
        self.assertEqual(set(re.findall(r"\w+", found[0])), {"idempotent", "rw", "h", "mul_one", "one_mul"})

    def test_logic(self):
        said = "propositional im not ax_1 ax_2 ax_3 ax_mp;"
        self.assertEqual(self.found("(a b: wff): $ ~(a -> b) -> b -> ~a $", said, LOGIC)[0], "prop")
