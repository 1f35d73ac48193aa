"""What is said of a source that is wrong, word for word, and of gaps."""
import os
import unittest

from prove.command import at_source, examined
from prove.memory import Memory

from .support import MONOID, room, said, source

LEFT = "theorem left (a b c: elt): $ a = b $ > $ a * c = b * c $;"
UNIQUE = "theorem unique (a b c: elt): $ cancels a b $ > $ cancels b c $ > $ a = c $;"
CASES = [
    (LEFT, "theorem left = mul_eq(eq_refl, h);", """a.proofs:1:23: in left: eq_refl proves something else than is wanted here
  found     ?a = ?a
  expected  a = b
  visible   h: a = b"""),
    (LEFT, "theorem left = mul_eq(h);", """a.proofs:1:16: in left: mul_eq has 2 hypotheses, and 1 proof is given
  wanted  a = b
          c = c"""),
    (LEFT, "theorem left = mul_ep(h, eq_refl);", """a.proofs:1:16: in left: there is no hypothesis, theorem or axiom mul_ep
  alike  mul_eq, mul_one"""),
    (LEFT, "theorem left = h(eq_refl);", "a.proofs:1:16: in left: h is a hypothesis, and takes nothing"),
    (LEFT, "theorem left = mul_eq[e := $ a $](h, eq_refl);", """a.proofs:1:23: in left: mul_eq has no variable e
  it has  a, b, c, d"""),
    (LEFT, "theorem left = mul_eq[a := $ a = b $](h, eq_refl);",
     "a.proofs:1:30: in left: this has the sort wff, and elt is wanted"),
    (LEFT, "theorem left =\n  have k: $ b = b $ = eq_refl;\n  $ b * c = b * c $ by mul_eq(k, eq_refl);",
     """a.proofs:3:3: in left: this claims something else than is wanted here
  found      b * c = b * c
  expected   a * c = b * c
  differ in  b and a
  visible    h: a = b
             k: b = b"""),
    (LEFT, "theorem left = eq_trans(sorry, sorry);", """a.proofs:1:16: in left: nothing says what these variables of eq_trans stand for: b
  to say it  eq_trans[b := $ .. $]
  open       a * c = ?b
             ?b = b * c"""),
    (LEFT, "theorem left = have k = sorry; mul_eq(h, eq_refl);", "a.proofs:1:16: in left: nothing says what stands here"),
    (LEFT, "theorem left = mul_eq(h, eq_refl)", "a.proofs:1:34: ';' belongs here, and not the end"),
    (LEFT, "theorem left = ;", "a.proofs:1:16: a proof belongs here, and not ';'"),
    (LEFT, "theorem right = sorry;", """a.proofs:1:9: right can't stand here: the specification has no theorem right
  next is  theorem left, a.mm0:23:1"""),
    (LEFT, "theorem left = sorry; theorem left = sorry;", "a.proofs:1:31: there is a proof of left already"),
    (LEFT, "import nothing_like_it; theorem left = sorry;", None),
    (LEFT, "theorem left = where w = eq_refl; mul_eq(w, eq_refl);",
     """a.proofs:1:26: in left: eq_refl proves something else than is wanted here
  found     ?a = ?a
  expected  a = b
  visible   h: a = b
  w for     a.proofs:1:42"""),
    (UNIQUE, "theorem unique = calc eq_trans\n  $ a = a * (b * c) $ by sorry\n  $ a * b * c = c $ by sorry;",
     """a.proofs:3:3: in unique: this claims something else than is wanted here
  found      a * b * c = c
  expected   a * (b * c) = c
  differ in  a * b * c and a * (b * c)
  visible    h1: cancels a b
             h2: cancels b c"""),
    ("theorem instance {x: elt} (p: wff x): $ A. x p $ > $ p $;", "theorem instance = drop(h);",
     """a.proofs:1:20: in instance: drop wants x apart from p, and x is in both
  x :=  x
  p :=  p"""),
    ("theorem move {x: elt}: $ central x $ > $ A. x x * x = x * x $;", "theorem move = h;",
     """a.proofs:1:16: in move: central can't be unfolded with x: it has this variable already
  in  central x"""),
    (LEFT, "theorem left (a: elt) = sorry;",
     "a.proofs:1:14: the specification declares parameters and hypotheses; only dummies stand here, as {.x: s}"),
    (LEFT, "theorem left {.a: elt} = sorry;", "a.proofs:1:9: in left: the variable a is declared twice"),
    ("theorem eq_refl (a: elt): $ a = a $;", "theorem eq_refl = sorry;", "a.mm0:23:1: the axiom eq_refl is declared already"),
]


SPEC = "provable sort wff;\nterm im (a b: wff): wff;\ninfixr im: $->$ prec 25;\n"
FORMS = [
    (SPEC + "theorem k (p: wff): $ im p (im p p) $;", "theorem k = sorry;", """a.mm0:4:28: '(im' is no variable, constant or term here
    parted it is ( im: write it so, with spaces
    no `delimiter` is declared, so that spaces alone part tokens. `delimiter $ ( $ $ ) $;` lets parentheses do it"""),
    (MONOID + LEFT, "theorem left = have k: $ (c * c = c $ = eq_refl; sorry;", """a.proofs:1:36: in left: a ')' is wanting
  opened  '(', a.proofs:1:26"""),
    (MONOID + LEFT, "theorem left = mul_eq(h, eq_refl;", """a.proofs:1:33: ',' belongs here, and not ';'
  opened  '(', a.proofs:1:22"""),
    (MONOID + LEFT, "theorem left =\n  have k: $ c = c = eq_refl;\n  $ b * c = b * c $ by mul_eq(k, k);",
     """a.proofs:3:19: this formula isn't closed by a $
  perhaps  a $ is missing: the formula $ c = c = eq_refl .. of a.proofs:2:11 runs on over a ;"""),
    (MONOID + LEFT, "theorem left = mul_eq(h, eq_refl);\r\n",
     "a.proofs:1:35: no file may have this character, a carriage return: the file has line ends of Windows"),
    (MONOID + LEFT, "\ufefftheorem left = mul_eq(h, eq_refl);", "a.proofs:1:1: no file may have this character, the first byte of a byte order "
     "mark: the file begins with one, and has to be saved without"),
]


class Messages(unittest.TestCase):
    def test_of_the_text_itself(self):
        for spec, proofs, wanted in FORMS:
            with room(a_mm0=spec) as path:
                source = os.path.join(path, "a.proofs")
                self.assertEqual(said(examined(source, Memory({source: proofs}))[1]), wanted)
                with open(source, "wb") as file:
                    file.write(proofs.encode())
                self.assertEqual(said(examined(source)[1]), wanted)


    def test_each(self):
        for theorem, proofs, wanted in CASES:
            with source(theorem, proofs) as (_, problems):
                found = said(problems)
            if wanted is None:
                self.assertTrue(found.startswith("a.proofs:1:8: there is no nothing_like_it to import"), found)
            else:
                self.assertEqual(found, wanted)

    def test_one_for_each_theorem(self):
        with source(LEFT + UNIQUE, "theorem left = h; theorem unique = h1;") as (_, problems):
            self.assertEqual([it.place.column for it in problems], [16, 36])

    def test_gaps(self):
        with source(UNIQUE, "theorem unique =\n  have k: $ a * b = 1 $ = h1;\n  eq_trans[b := $ b $](sorry, sorry);") as (writer, problems):
            self.assertEqual(problems, [])
            self.assertEqual(said(writer.gaps[1:]), """a.proofs:3:31: unique has a gap here
  goal     b = c
  visible  h1: cancels a b
           h2: cancels b c
           k: a * b = 1""")
            self.assertIn("(:sorry (eq b c))", writer.text())

    def test_a_theorem_that_is_left_out_is_a_gap(self):
        with source(LEFT + UNIQUE, "theorem unique = h1;") as (writer, problems):
            self.assertEqual([it.place.column for it in problems], [18])
            self.assertEqual(said(writer.gaps), """a.proofs:1:9: there is no proof of left
  goal      a * c = b * c
  visible   h: a = b
  declared  a.mm0:23:1""")

    def test_what_is_wrong_in_one_item_hides_nothing_of_others(self):
        proofs = "theorem left = mul_eq(;\ntheorem unique = h1\ntheorem other = $ a ;\ntheorem last = h;"
        spec = LEFT + UNIQUE + "theorem other (a: elt): $ a = a $; axiom odd: $ a $; theorem last (a: elt): $ a = a $;"
        with source(spec, proofs) as (_, problems):
            column = spec.index("a $; theorem last") + 1
            self.assertEqual([(os.path.basename(it.place.path), it.place.line, it.place.column) for it in problems],
                             [("a.mm0", 23, column), ("a.proofs", 1, 23), ("a.proofs", 3, 1), ("a.proofs", 3, 17), ("a.proofs", 4, 16)])

    def test_what_rests_on_something_that_cant_be_read_is_not_told(self):
        spec = MONOID.replace("axiom eq_symm (a b: elt): $ a", "axiom eq_symm (a b: elt): $ c")
        with source(LEFT + UNIQUE, "theorem left = eq_symm(h); theorem unique = h1;", spec) as (_, problems):
            self.assertEqual([it.why for it in problems][:1], ["'c' is no variable, constant or term here"])
            self.assertEqual([it.place.column for it in problems[1:]], [45])

    def test_a_difference_below_many_definitions_is_found_at_once(self):
        """Each definition is unfolded where its parts differ: without care the time doubles with each."""
        spec = ("provable sort wff; term im (a b: wff): wff; infixr im: $->$ prec 25;\n"
                "def both (a b: wff): wff = $ a -> b -> a $; infixl both: $&$ prec 30;\n")
        sides = [" & c".join([first, *[""] * 40]) for first in "ab"]
        with source(f"theorem t (a b c: wff): $ {sides[0]} $ > $ {sides[1]} $;", "theorem t = h;", spec) as (_, problems):
            self.assertIn("differ in  b and a", said(problems).replace("a and b", "b and a"))

    def test_near_names_of_imports(self):
        spec = MONOID + "theorem syl (a: elt): $ a = a $;"
        with room(a_mm0=MONOID + LEFT, b_mm0=spec, a_proofs="import b; theorem left = sil;", b_proofs="theorem syl = eq_refl;") as path:
            _, problems = examined(os.path.join(path, "a.proofs"))
        self.assertEqual(said(problems), "a.proofs:1:26: in left: there is no hypothesis, theorem or axiom sil\n  alike  syl")

    def test_imports_in_a_circle(self):
        with room(a_mm0=MONOID, b_mm0=MONOID, a_proofs="import b;", b_proofs="import a;") as path:
            _, problems = examined(os.path.join(path, "a.proofs"))
        self.assertEqual(said(problems), "b.proofs:1:8: a imports this source")


class Refusals(unittest.TestCase):
    """Refusals by the program are reported at the place of the source."""

    def told(self, find, kind="text"):
        proofs = "theorem left =\n  mul_eq(h,\n    eq_refl);\ntheorem unique = sorry;"
        with source(LEFT + "\n" + UNIQUE, proofs) as (writer, problems):
            self.assertEqual(problems, [])
            text = writer.text()
            number = text[: text.index(find) + 1].count("\n(")
            words = {"text": f"text statement {number} at byte {text.index(find)}: U10 hypothesis differs",
                     "binary": f"binary statement {number} at byte 999: K23 unify hypothesis",
                     "match": f"match declaration 99 statement {number}: M8 conclusion",
                     "specification": f"specification statement 3 at byte {MONOID.index('sort elt')}: S4 name twice"}
            return said([at_source(f"refused: {words[kind]}", writer)]).split("\n")[0]

    def test_places(self):
        cases = [("(eq_refl (c))", "text", "a.proofs:3:5"), ("(mul_eq (a b c c)", "text", "a.proofs:2:3"),
                 ("c c) h", "text", "a.proofs:2:3"), ("h (eq_refl (c))", "text", "a.proofs:2:10"),
                 ("(theorem left", "text", "a.proofs:1:9"), ("(:sorry", "text", "a.proofs:4:18"),
                 ("(theorem unique", "match", "a.proofs:4:9"), ("(theorem unique", "binary", "a.proofs:4:9"),
                 ("(def cancels", "match", "a.mm0:21:1"), ("(sort elt", "specification", "a.mm0:3:1")]
        for find, kind, wanted in cases:
            self.assertEqual(self.told(find, kind), f"{wanted}: the program refuses this", (find, kind))
