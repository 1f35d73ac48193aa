"""What is kept between two looks at a development: that it is the same as what a fresh look finds, and that it is fast."""
import os
import random
import time
import unittest

from prove.command import examined
from prove.development import EXAMPLES
from prove.memory import Memory
from prove.pieces import Cutter

from .support import MONOID, room, said

ROUNDS = {"propositional": 8, "arithmetic": 3}
PARTS = ("", ";", "\n", "$", "--", "(", "x", " sorry", "\ntheorem a = sorry;\n", "local theorem b: $ _ $ = sorry;", '"', "infixl eq: $#$ prec 3;")


def seen(path, memory):
    """All that is found of a source. A text is only made where all of it can be."""
    writer, problems = examined(path, memory)
    if writer is None:
        return said(problems)
    return said(problems), said(writer.gaps), [list(space) for space in (writer.terms, writer.assertions)], writer.nodes


def changed(text, chance):
    at = chance.randrange(len(text))
    return text[:at] + chance.choice(PARTS) + text[at + chance.choice((0, 0, 1, 7, 120)) :]


class Kept(unittest.TestCase):
    def test_the_same_as_a_fresh_look(self):
        for name, rounds in ROUNDS.items():
            chance, buffers = random.Random(name), {}
            memory, path = Memory(buffers), os.path.join(EXAMPLES, name, f"{name}.proofs")
            for i in range(rounds):
                ending = chance.choice((".proofs", ".proofs", ".mm0"))
                edited = path.replace(".proofs", ending)
                before = memory.source(edited).text
                buffers[edited] = changed(before, chance)
                self.assertEqual(seen(path, memory), seen(path, Memory(dict(buffers))), (name, i))
                if i % 3:
                    buffers[edited] = before

    def test_pieces(self):
        with open(os.path.join(EXAMPLES, "classes", "classes.proofs"), encoding="ascii") as file:
            text = file.read()
        chance, cutter = random.Random(1), Cutter("a.proofs", True)
        for _ in range(200):
            fresh = Cutter("a.proofs", True).cut(text)
            self.assertEqual([vars_of(it) for it in cutter.cut(text)], [vars_of(it) for it in fresh])
            text = changed(text, chance)

    def test_a_definition_whose_body_is_in_the_source(self):
        spec = MONOID + "def same (a b: elt): wff; theorem t (a b: elt): $ a = b $ > $ same a b $; theorem u (a: elt): $ same a a $;"
        with room(a_mm0=spec) as path:
            memory = Memory({})
            for body in ("$ a = b $", "$ a = b $", "$ b = a $"):
                memory.buffers[os.path.join(path, "a.proofs")] = f"def same = {body};\ntheorem t = h;\ntheorem u = eq_refl;"
                writer, problems = examined(os.path.join(path, "a.proofs"), memory)
                self.assertEqual(len(problems), body == "$ b = a $", said(problems))
                self.assertEqual(len(writer.terms), 7)


def vars_of(piece):
    return piece.text, piece.start, piece.line, piece.column, piece.after, piece.kind, piece.name


class Fast(unittest.TestCase):
    """A keystroke in a development of 3,200 theorems. Measured are 0.06 seconds; the bound is for a machine that is busy."""

    BOUND = 0.5

    def test_one_keystroke(self):
        count, theorem = 3200, "theorem t{0} (a b c: elt): $ a = b $ > $ b = c $ > $ c = a $;\n"
        proofs = "".join(f"theorem t{i} =\n  have k: $ a = c $ = eq_trans(h1, h2);\n  eq_symm(k);\n" for i in range(count))
        with room(a_mm0=MONOID + "".join(map(theorem.format, range(count)))) as path:
            path = os.path.join(path, "a.proofs")
            memory = Memory({path: proofs})
            self.assertEqual(examined(path, memory)[1], [])
            memory.buffers[path] = proofs.replace("theorem t1600 =\n", "theorem t1600 =\n\n  have l = eq_trans(h2, h1);\n")
            start = time.process_time()
            _, problems = examined(path, memory)
            taken = time.process_time() - start
        self.assertEqual([(it.place.line, it.place.column) for it in problems], [(4803, 25)])
        self.assertLess(taken, self.BOUND)
