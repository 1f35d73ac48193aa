"""Formulas are read, and printed so that they are read back."""
import unittest

from prove.checker import same
from prove.formulas import Formula
from prove.lexemes import Math
from prove.logic import Assertion, Term
from prove.places import Source, Wrong
from prove.printer import Printer
from prove.specification import Reader, Theory

from .support import LIBRARIES, MONOID, library


def theory(text=MONOID):
    made = Theory()
    for _ in Reader(Source("spec", text), made).specification():
        pass
    return made


def read(text, known, variables):
    return Formula(Math(text, Source("formula", text), 0), known, variables).whole()


class Printed(unittest.TestCase):
    def test_every_formula_of_the_libraries_is_read_back(self):
        count = 0
        for name in LIBRARIES:
            known = library(name).development.theory
            printer = Printer(known)
            for assertion in known.assertions.values():
                variables = {it.name: it for it in assertion.binders}
                for e in (*(e for _, e in assertion.hypotheses), assertion.conclusion):
                    self.assertTrue(same(e, read(printer.formula(e), known, variables)), printer.formula(e))
                    count += 1
        self.assertGreater(count, 400)

    def test_as_in_the_specification(self):
        known = library("classes").development.theory
        printer = Printer(known)
        wanted = {"elun": "a e. A u. B <-> a e. A \\/ a e. B", "ralnex": "(each x in A,~p) <-> ~(some x in A,p)",
                  "agreeid": "A agrees A on C", "iftrue": "p -> (if p then A else B) == A", "cmplcmpl": "- - A == A"}
        for name, text in wanted.items():
            self.assertEqual(printer.formula(known.assertions[name].conclusion), text)


class Refused(unittest.TestCase):
    def test_places(self):
        known = theory()
        variables = {it.name: it for it in known.assertions["eq_trans"].binders}
        cases = {"a = ": "1:4: the formula ends too soon", "a = b b": "1:7: 'b' can't stand here",
                 "a + b": "1:3: '+' can't stand here", "a * (b": "1:7: a ')' is wanting\n  opened  '(', 1:5",
                 "x = a": "1:1: 'x' is no variable, constant or term here",
                 "= a": "1:1: '=' is no variable, constant or term here (it stands between two operands)",
                 "a * b": "1:1: this has the sort elt, and wff is wanted",
                 "A. a a = a": "1:4: all wants a bound variable here",
                 "(a = b) = c": "1:1: this has the sort wff, and eq wants elt"}
        for text, wanted in cases.items():
            with self.assertRaises(Wrong) as caught:
                read(text, known, variables)
            self.assertEqual(str(caught.exception).replace("formula:", ""), wanted, text)

    def test_specifications(self):
        cases = {"sort s": "1:7: ';' belongs here, and not the end", "sort s; term t (a: r): s;": "1:20: there is no sort r",
                 "sort s; sort s;": "1:9: the sort s is declared already", "go;": "1:1: no statement begins with 'go'",
                 "sort s; axiom a: $ x ;": "1:18: this formula isn't closed by a $"}
        for text, wanted in cases.items():
            with self.assertRaises(Wrong) as caught:
                theory(text)
            self.assertEqual(str(caught.exception).replace("spec:", ""), wanted, text)


class Kinds(unittest.TestCase):
    def test_a_specification_declares(self):
        known = theory()
        self.assertEqual([it.name for it in known.sorts.values()], ["wff", "elt"])
        self.assertTrue(all(isinstance(it, Term) for it in known.terms.values()))
        self.assertTrue(all(isinstance(it, Assertion) for it in known.assertions.values()))
        self.assertEqual(known.terms["central"].dummies[0].name, "x")
