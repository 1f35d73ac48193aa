"""What is told of a place of a source. The formulas that are expected follow from the statements by hand."""
import contextlib
import io
import os
import unittest

from prove.command import examined, main
from prove.goals import view

from .support import MONOID, room, said

LEFT = "theorem left (a b c: elt): $ a = b $ > $ a * c = b * c $;\n"
SOURCE = "theorem left =\n  have k: $ c = c $ = eq_refl;\n  mul_eq(h, k);"


def here(proofs, find, spec=LEFT, ahead=0):
    """What is told where this begins, so many letters ahead."""
    with room(a_mm0=MONOID + spec, a_proofs=proofs) as path:
        writer, _ = examined(os.path.join(path, "a.proofs"))
        looked, offset = view(writer, proofs.index(find) + ahead)
        return looked.here(looked.seen(offset))


class Goals(unittest.TestCase):
    def test_a_step(self):
        made = here(SOURCE, "mul_eq")
        self.assertEqual((made.theorem, made.goal, made.visible), ("left", "a * c = b * c", ["h: a = b", "k: c = c"]))
        self.assertEqual((made.step, made.says), ("mul_eq", "$ a = b $ > $ c = d $ > $ a * c = b * d $"))
        self.assertEqual((made.wants, made.proves), (["a = b", "c = c"], "a * c = b * c"))
        self.assertEqual(made.parameters, ["a := a", "b := b", "c := c", "d := c"])
        self.assertEqual(made.variables, ["(a b c: elt)"])

    def test_a_hypothesis_a_have_and_the_theorem(self):
        self.assertEqual((here(SOURCE, "h, k").goal, here(SOURCE, "h, k").step), ("a = b", ""))
        self.assertEqual(here(SOURCE, "eq_refl").goal, "c = c")
        self.assertEqual(here(SOURCE, "eq_refl").visible, ["h: a = b"])
        self.assertEqual(here(SOURCE, "theorem").goal, "a * c = b * c")

    def test_what_isnt_known_yet(self):
        made = here("theorem left = eq_trans(sorry, sorry);", "sorry", ahead=len("sorry, "))
        self.assertEqual((made.goal, here("theorem left = eq_trans(sorry, sorry);", "sorry").goal), ("?b = b * c", "a * c = ?b"))

    def test_behind_what_is_wrong(self):
        for proofs in ("theorem left = mul_eq(nothing, sorry);", "theorem left = mul_eq(eq_refl, sorry);",
                       "theorem left = mul_eq(nothing, sorry, h);", "theorem left = have k: $ oops $ = h; mul_eq(h, sorry);"):
            self.assertEqual(here(proofs, "sorry").goal, "c = c", proofs)

    def test_while_it_is_written(self):
        for proofs in ("theorem left = mul_eq(", "theorem left = mul_eq(h,", "theorem left = have k = eq_refl; mul_eq(",
                       "theorem left = $ _ $ by mul_eq(\ntheorem other = h;", "theorem left = mul_eq(($ a = b $ by"):
            self.assertIn(here(proofs, "mul_eq(", ahead=7).goal, ("a = b", "c = c"), proofs)
        self.assertEqual(here("theorem left = have k: $ c = c $", "$ c").goal, "a * c = b * c")

    def test_a_dummy(self):
        made = here("theorem again = drop(gen(eq_refl));", "eq_refl", "theorem again (a: elt): $ a = a $;\n")
        self.assertEqual((made.goal, made.variables), ("a = a", ["(a: elt)"]))


class Typed(unittest.TestCase):
    def typed(self, *words):
        out = io.StringIO()
        with contextlib.redirect_stdout(out):
            status = main(list(words))
        return said([out.getvalue()]).split("\n"), status

    def test_at(self):
        with room(a_mm0=MONOID + LEFT, a_proofs=SOURCE) as path:
            lines, status = self.typed("--at", "3:10", os.path.join(path, "a.proofs"))
            self.assertEqual((lines[:3], status), (["a.proofs:3:10: in left", "  goal       a = b", "  visible    h: a = b"], 0))
            self.assertEqual(self.typed("--at", "9:1", os.path.join(path, "a.proofs")), (["a.proofs has 3 lines", ""], 1))
            self.assertEqual(self.typed("--at", "x", path)[1], 1)
