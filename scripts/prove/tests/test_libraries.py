"""The developments: their texts are what their sources make, again and again."""
import os
import subprocess
import sys
import unittest

from prove.development import EXAMPLES
from prove.texts import laid_out, place_in

from .support import LIBRARIES, library

COUNTS = {"propositional": 92, "predicate": 63, "arithmetic": 46, "classes": 43, "primes": 25, "groups": 46}
PROVE = os.path.dirname(os.path.dirname(os.path.abspath(__file__)))


class Libraries(unittest.TestCase):
    def test_texts(self):
        for name in LIBRARIES:
            writer = library(name)
            with open(os.path.join(EXAMPLES, name, f"{name}.mmu"), encoding="ascii") as file:
                self.assertEqual(file.read(), writer.text(), name)
            self.assertEqual(writer.gaps, [])
            self.assertEqual(writer.text().count("\n(theorem "), COUNTS[name])

    def test_the_same_twice(self):
        self.assertEqual(library("primes").text(), library("primes").text())
        for seed in ("1", "2"):
            words = [sys.executable, "-B", PROVE, "--check", os.path.join(EXAMPLES, "arithmetic")]
            ran = subprocess.run(words, env={**os.environ, "PYTHONHASHSEED": seed}, stdout=subprocess.PIPE)
            self.assertEqual(ran.returncode, 0)

    def test_each_byte_of_a_proof_has_a_place(self):
        """The place of each part of a proof lies in the lines of its theorem."""
        writer = library("predicate")
        starts = [it.place.line for _, it in writer.development.order if it]
        for number, node in enumerate(writer.nodes, 1):
            if node[0] != "theorem":
                continue
            first = writer.places[number - 1].line
            last = min((it for it in starts if it > first), default=10 ** 6)
            for offset in range(0, len(laid_out(node)), 97):
                place = place_in(node, offset)
                self.assertTrue(place is None or first <= place.line < last, (node[1], offset, place))
