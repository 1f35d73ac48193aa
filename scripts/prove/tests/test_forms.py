"""What is made of each form of a source."""
import os
import unittest

from prove.command import examined, start
from prove.development import EXAMPLES, Development
from prove.find import found
from prove.places import Wrong

from .support import MONOID, room, said, source

LEFT = "theorem left (a b c: elt): $ a = b $ > $ a * c = b * c $;"
LESS = """term less (a b: elt): wff;
infixl less: $<$ prec 50;
axiom less_eq (a b c: elt): $ a < b $ > $ b = c $ > $ a < c $;
axiom eq_less (a b c: elt): $ a = b $ > $ b < c $ > $ a < c $;
theorem chain (a b c d: elt): $ a = b $ > $ b < c $ > $ c = d $ > $ a < d $;
"""
SMALL = """provable sort wff;
sort nat;
term eq (a b: nat): wff;
axiom eq_refl (a: nat): $ eq a a $;
"""


def proof(theorem, proofs):
    """The lines of the last statement that is made."""
    with source(theorem, proofs) as (writer, problems):
        assert not problems, said(problems)
        return writer.text().split("\n(")[-1].rstrip("\n")


class Forms(unittest.TestCase):
    def test_operands_are_found(self):
        self.assertEqual(proof(LEFT, "theorem left = mul_eq(h, eq_refl);").split("\n")[-1].strip(), "(mul_eq (a b c c) h (eq_refl (c))))")

    def test_a_chain_joins_to_the_left_and_by_other_theorems(self):
        made = proof(LESS, "theorem chain = calc eq_trans\n  $ a = b $ by h1\n  $ _ < c $ by h2 with eq_less\n"
                     "  $ _ = d $ by h3 with less_eq;")
        self.assertIn("(less_eq (a c d) (eq_less (a b c) h1 h2) h3)", made)

    def test_had_once_and_copied_often(self):
        had = proof(LEFT, "theorem left = have k: $ c = c $ = eq_refl; mul_eq(h, k);")
        self.assertIn("(:let k (eq_refl (c)) (mul_eq (a b c c) h k))", had.replace("\n  ", " ").replace("  ", ""))
        copied = proof("theorem twice (a b: elt): $ a * b = a * b $;", "theorem twice = where k = eq_refl; mul_eq(k, k);")
        self.assertIn("(mul_eq (a a b b) (eq_refl (a)) (eq_refl (b)))", copied)

    def test_parentheses_and_claims(self):
        self.assertEqual(proof(LEFT, "theorem left = ($ _ * c = _ $ by (mul_eq(h, eq_refl)));"),
                         proof(LEFT, "theorem left = mul_eq(h, eq_refl);"))

    def test_a_gap(self):
        self.assertTrue(proof(LEFT, "theorem left = mul_eq(sorry, eq_refl);").endswith("(mul_eq (a b c c) (:sorry (eq a b)) (eq_refl (c))))"))

    def test_a_dummy_that_nothing_names(self):
        made = proof("theorem again (a: elt): $ a = a $;", "theorem again = drop(gen(eq_refl));")
        self.assertIn("((x elt))", made)

    def test_local_statements(self):
        made = proof(LEFT, "local def same (a b: elt): wff = $ a = b $;\n"
                     "local theorem right (a b c .x: elt): $ same a b $ > $ c * a = c * b $ = mul_eq(eq_refl, h);\n"
                     "theorem left = mul_eq(h, eq_refl);")
        self.assertNotIn("same", made)

    def test_names_of_hypotheses(self):
        made = proof("theorem named (a b: elt) (k: $ a = b $): $ b = a $ > $ a = a $;", "theorem named = eq_trans(k, h1);")
        self.assertIn("(eq_trans (a b a) k h1)", made)

    def test_an_import_with_another_sort(self):
        other = SMALL.replace("nat", "elt")
        with room(a_mm0=SMALL + "theorem both (a: nat): $ eq a a $;", a_proofs="import b with elt = nat; theorem both = lemma;",
                  b_mm0=other + "theorem lemma (a: elt): $ eq a a $;", b_proofs="theorem lemma = eq_refl;") as path:
            writer, problems = examined(os.path.join(path, "a.proofs"))
        self.assertEqual(said(problems), "")
        self.assertIn("(local theorem lemma ((a nat ())) () (eq a a) () (eq_refl (a)))", writer.text())

    def test_to_start_with(self):
        with room(a_mm0=MONOID + LEFT) as path:
            self.assertEqual(start(os.path.join(path, "a.mm0")), ["-- The proofs of a.mm0.", "theorem left = sorry;"])

    def test_what_may_be_cited(self):
        arithmetic = Development(os.path.join(EXAMPLES, "arithmetic"))
        self.assertEqual(found(arithmetic, "?a <= ?a + _"), ["leadd (arithmetic): $ a <= a + b $"])
        self.assertEqual(found(arithmetic, "?a -> ?a"), ["id (propositional): $ a -> a $"])
        self.assertEqual(found(arithmetic, "?a = ?a"), ["eqid (arithmetic): $ a = a $"])
        self.assertEqual(found(arithmetic, "A. _ _ <-> A. _ _")[0], "albii (predicate): $ p <-> q $ > $ A. x p <-> A. x q $")
        self.assertEqual(found(arithmetic, "E. _ _ = _ + _ + _"), ["nothing has this form"])
        with self.assertRaises(Wrong) as caught:
            found(arithmetic, "_ e. _")
        self.assertEqual(str(caught.exception), "the form:1:3: 'e.' can't stand here")
