"""What `rw` and `prop` find, and what they say where they don't. That a proof is right the elaborator and the checker decide;
here stands of which goals there is one, by what the theorems say."""
import itertools
import unittest

from prove.equality import Known
from prove.kit import LEMMAS, Kit, renamed
from prove.logic import App, Assertion, Var, walk
from prove.tautology import NoTautology, Prover

from .support import LOGIC, MONOID, said, source

SAID = "equality eq refl eq_refl symm eq_symm trans eq_trans; congruence mul_eq;\n"
LOGIC_SAID = """propositional im not ax_1 ax_2 ax_3 ax_mp;
equality eq refl eqid symm eqcom trans eqtr; congruence addeq, eqeq;
equality iff refl biid symm bicom trans bitr mp bi1; congruence imeq, noteq, albii, albidv;
"""


def found(theorem, proof, spec=MONOID, before=SAID):
    """What is wrong with a proof of the theorem `t`: nothing, if it is right."""
    with source(f"theorem t {theorem};", f"{before}theorem t = {proof};", spec) as (writer, problems):
        return said(problems) or said(writer.gaps)


def logic(theorem, proof):
    return found(theorem, proof, LOGIC, LOGIC_SAID)


class Closed(unittest.TestCase):
    """Equations, with nothing but an equality."""

    def test_reflexive_and_congruent(self):
        self.assertEqual(found("(a b c: elt): $ a = b $ > $ c * a * c = c * b * c $", "rw [h]"), "")

    def test_from_right_to_left_too(self):
        self.assertEqual(found("(a b: elt): $ a = b $ > $ b * a = a * b $", "rw [h]"), "")

    def test_chains(self):
        self.assertEqual(found("(a b c d: elt): $ a * (b * c) * d = a * b * (c * d) $", "rw [mul_assoc]"), "")
        self.assertEqual(found("(a b: elt): $ a * b * 1 = 1 * (a * b) $", "rw [mul_one, one_mul]"), "")

    def test_sums_in_any_order(self):
        theorem = "(a b c d e f: nat): $ a + b + (c + d) + e + f = f + (a + c) + (d + e) + b $"
        self.assertEqual(logic(theorem, "rw [addcom, addass]"), "")

    def test_definitions(self):
        self.assertEqual(found("(a b c: elt): $ cancels a b $ > $ c * (a * b) = c * 1 $", "rw [h]"), "")
        self.assertEqual(found("(a b: elt): $ cancels a b $ > $ cancels (a * 1) b $", "rw [h, mul_one]"), "")

    def test_the_same_twice(self):
        with source("theorem t (a b c d: elt): $ a * (b * c) * d = a * b * (c * d) $;", SAID + "theorem t = rw [mul_assoc];") as (one, _):
            with source("theorem t (a b c d: elt): $ a * (b * c) * d = a * b * (c * d) $;", SAID + "theorem t = rw [mul_assoc];") as (two, _):
                self.assertEqual(one.text(), two.text())

    def test_what_is_said(self):
        text = found("(a b c: elt): $ a = b $ > $ a * c = c * b $", "rw [h]")
        self.assertEqual(text, """a.proofs:2:13: in t: these equations don't lead from one side to the other
  goal     a * c = c * b
  visible  h: a = b""")
        text = found("{x: elt}: $ A. x x = x $", "rw")
        self.assertEqual(text.split("\n")[0], "a.proofs:2:13: in t: rw without a proof in parentheses proves equations, and this is none")
        text = found("(a: elt): $ a = a $", "rw [gen(eq_refl)]")
        self.assertEqual(text.split("\n")[0], "a.proofs:2:17: in t: this proves no equation")
        text = found("(a b: elt): $ a = b $ > $ a = b $", "rw [h]", before="equality eq; congruence gen;")
        self.assertIn("gen is no congruence: from equations of variables to one of a term over them", text)
        text = found("(a b: elt): $ a = b $ > $ a = b $", "rw [h]", before="equality eq; congruence mul_eg;")
        self.assertIn("a.proofs:1:25: in t: there is no theorem or axiom mul_eg", text)
        text = found("(a: elt): $ a = a $", "rw", before="\n")
        self.assertEqual(text.split("\n")[0], "a.proofs:2:13: in t: rw wants to know what is an equality here")
        self.assertIn("nothing says that eq is reflexive", found("(a: elt): $ a = a $", "rw", before="equality eq;"))
        self.assertIn("'reff' says nothing of an equality here: refl, symm, trans, mp",
                      found("(a: elt): $ a = a $", "rw", before="equality eq reff eq_refl;"))


class Turned(unittest.TestCase):
    """A goal that is turned is shown as what is left open."""

    def goal(self, theorem, equations, spec=MONOID, before=SAID):
        text = found(theorem, f"rw [{equations}](sorry)", spec, before)
        return next(line.split("goal")[1].strip() for line in text.split("\n") if "goal" in line)

    def test_both_sides(self):
        self.assertEqual(self.goal("(a b c: elt): $ a = b $ > $ a * c = c * a $", "h"), "b * c = c * b")
        self.assertEqual(self.goal("(a b c: elt): $ a = b $ > $ a * c = c * b $", "<- h"), "a * c = c * a")
        self.assertEqual(self.goal("(a b c: elt): $ a * 1 = b * c $", "mul_one, mul_assoc[a := $ b $]"), "a = b * c")

    def test_under_antecedents(self):
        goal = self.goal("(a b c: nat): $ a = b -> c + a = 0 $", "addcom", LOGIC, LOGIC_SAID)
        self.assertEqual(goal, "a = b -> b + c = 0")

    def test_formulas(self):
        self.assertEqual(self.goal("{x: nat} (a: nat): $ A. x ~a + 0 = x $", "add0", LOGIC, LOGIC_SAID), "A. x ~a = x")
        self.assertEqual(self.goal("(a b: nat): $ a + 0 = b -> b = a $", "add0", LOGIC, LOGIC_SAID), "a = b -> b = a")

    def test_nothing_is_turned(self):
        text = found("(a b c: elt): $ a = b $ > $ c * c = c $", "rw [h](sorry)")
        self.assertEqual(text.split("\n")[0], "a.proofs:2:13: in t: nothing here is turned by these equations")


class UnderAntecedents(unittest.TestCase):
    def test_antecedents_are_equations_of_the_list(self):
        self.assertEqual(logic("(a b c: nat): $ a = b -> c + a = c + b $", "rw"), "")
        self.assertEqual(logic("(a b c d: nat): $ a = b /\\ c = d -> a + c = b + d $", "rw"), "")
        self.assertEqual(logic("(a b c d: nat): $ a = b -> c = d -> a + c = b + d $", "rw"), "")

    def test_formulas_below_binders(self):
        self.assertEqual(logic("{x: nat} (a b: nat): $ a = b -> (A. x ~a = x <-> A. x ~b = x) $", "rw"), "")
        self.assertEqual(logic("(a b c: nat): $ a = b -> (sum a c b <-> sum b c a) $", "rw"), "")

    def test_no_variable_of_the_context_is_bound(self):
        text = logic("{x: nat} (a: nat): $ x = a -> (A. x x = a <-> A. x a = a) $", "rw")
        self.assertEqual(text.split("\n")[0], "a.proofs:4:13: in t: these equations don't lead from one side to the other")

    def test_equations_with_antecedents(self):
        self.assertEqual(logic("(a b c: nat) (k: $ a + c = 0 -> a = b $): $ a + c = 0 -> b + c = 0 $", "rw [k]"), "")

    def test_what_is_not_known_is_what_comes_of_it(self):
        spec = LOGIC + "axiom at {x: nat} (t: nat) (p: wff x) (q: wff): $ x = t -> (p <-> q) $ > $ q $ > $ p $;"
        with source("theorem t {x: nat}: $ x + x = x $;", LOGIC_SAID + "theorem t = at[t := $ 0 $](rw, sorry);", spec) as (writer, problems):
            self.assertEqual(said(problems), "")
            self.assertEqual(said(writer.gaps).split("\n")[1], "  goal  0 + 0 = 0")


class Propositional(unittest.TestCase):
    def test_tautologies(self):
        for formula in ("a -> a", "((a -> b) -> a) -> a", "a \\/ ~a", "a /\\ b /\\ c <-> a /\\ (b /\\ c)", "~(a <-> ~a)",
                        "(a <-> b <-> c) <-> (a <-> (b <-> c))", "a /\\ (b \\/ c) <-> a /\\ b \\/ a /\\ c",
                        "(a -> c) -> (b -> c) -> a \\/ b -> c"):
            self.assertEqual(logic(f"(a b c: wff): $ {formula} $", "prop"), "", formula)

    def test_what_is_none(self):
        self.assertEqual(logic("(a b: wff): $ a \\/ b -> a $", "prop"), """\
a.proofs:4:13: in t: this doesn't follow by propositional logic: there is a case in which it is false
  true   b
  false  a""")

    def test_hypotheses_and_what_is_listed(self):
        self.assertEqual(logic("(a b c: wff): $ a -> b $ > $ ~a -> c $ > $ b \\/ c $", "prop"), "")
        self.assertEqual(logic("(a b c: nat): $ a = b /\\ b = c -> c = a $", "prop [eqtr, eqcom]"), "")
        self.assertEqual(logic("{x: nat} (a b: nat): $ ~E. x a = x -> A. x ~a = x $", "prop"), "")

    def test_it_is_said_once_what_is_propositional(self):
        text = found("(a: elt): $ a = a $", "prop")
        self.assertEqual(text.split("\n")[0], "a.proofs:2:13: in t: prop wants to know what is propositional here")

    def test_each_tautology_and_no_other(self):
        """Of all formulas with two atoms up to a size: a proof is found where all cases are true, and a case where not."""
        with source("theorem t (a: wff): $ a -> a $;", LOGIC_SAID + "theorem t = prop;", LOGIC) as (writer, problems):
            self.assertEqual(said(problems), "")
            known = known_behind(writer)
            im, not_ = writer.terms["im"], writer.terms["not"]
            atoms = [Var("a", "wff"), Var("b", "wff")]
            levels = [atoms]
            for _ in range(3):
                below = [e for level in levels for e in level]
                new = [App(not_, [e]) for e in levels[-1]]
                new += [App(im, [e, f]) for e in below for f in below if e in levels[-1] or f in levels[-1]]
                levels.append(new[:: max(1, len(new) // 60)])
            for e in (e for level in levels for e in level):
                is_true = all(value(e, dict(zip(atoms, bits))) for bits in itertools.product((False, True), repeat=2))
                self.assertEqual(is_proved(known, e), is_true, writer.printer.formula(e))


def known_behind(writer):
    """What may be used behind all theorems of a source."""
    return Known(writer.scope, Assertion("theorem", "behind", [], [], None))


def value(e, values):
    e = walk(e)
    if isinstance(e, Var):
        return values[e]
    parts = [value(it, values) for it in e.operands]
    return not parts[0] if e.term.name == "not" else not parts[0] or parts[1]


def is_proved(known, e):
    try:
        return Prover(known, None).proved(e, {}).level == 0
    except NoTautology:
        return False


class Lemmas(unittest.TestCase):
    def test_each_is_proved(self):
        """The lemmas, as the theorems of a source of its own."""
        lines = [line for line in LEMMAS.splitlines() if line]
        with source("theorem t (a: wff): $ a -> a $;", "\n".join([*lines, "theorem t = id;"]), LOGIC) as (writer, problems):
            self.assertEqual(said(problems), "")
            self.assertEqual([it for it in Kit.lemma_names() if it not in writer.assertions], [])

    def test_names_are_changed_as_a_whole(self):
        self.assertEqual(renamed("im (imp im) im;", {"im": "to"}), "to (imp to) to; ")

    def test_what_the_source_has_is_cited(self):
        own = "local theorem mine (a: wff): $ a -> a $ = ax_mp(ax_mp(ax_2[b := $ a -> a $], ax_1), ax_1);\n"
        with source("theorem t (a: wff): $ a -> a $;", LOGIC_SAID + own + "theorem t = prop;", LOGIC) as (writer, problems):
            self.assertEqual(said(problems), "")
            self.assertIn("(mine (a))", writer.text())
            self.assertNotIn("prop_id", writer.text())
