"""The command: what it runs, what it writes, and its status. A stand-in answers for the program."""
import contextlib
import io
import os
import unittest

from prove.command import USAGE, Program, main, run
from prove.places import Wrong

from .support import MONOID, room, said

LEFT = "theorem left (a b c: elt): $ a = b $ > $ a * c = b * c $;"
RIGHT = "theorem left = mul_eq(h, eq_refl);"


class StandIn:
    """Answers with these lines, one for each command."""

    def __init__(self, **answers):
        self.answers, self.asked = answers, []

    def line(self, *words):
        self.asked.append(words[0])
        line = self.answers[words[0]]
        return line, not line.startswith("refused: ")


def done(proofs, option=None, **answers):
    """What is printed, whether it is right, what was asked, and which files there are then."""
    with room(a_mm0=MONOID + LEFT, a_proofs=proofs) as path:
        program = StandIn(**answers)
        lines, is_right = run(os.path.join(path, "a.proofs"), option, program)
        return said(lines).split("\n"), is_right, program.asked, sorted(os.listdir(path))


def typed(*words):
    out = io.StringIO()
    with contextlib.redirect_stdout(out):
        status = main(list(words))
    return out.getvalue(), status


class Run(unittest.TestCase):
    def test_compiled_and_verified(self):
        lines, is_right, asked, files = done(RIGHT, compile="compiled: 1 bytes", verify="accepted: all")
        self.assertEqual((lines, is_right, asked), (["accepted: all"], True, ["compile", "verify"]))
        self.assertEqual(files, ["a.mm0", "a.mmu", "a.proofs"])

    def test_gaps_make_a_draft(self):
        lines, is_right, asked, _ = done("theorem left = sorry;", compile_draft="compiled: 1 bytes", draft="draft: 1 of 1")
        self.assertEqual((lines[0], lines[-1]), ("a.proofs:1:16: left has a gap here", "draft: 1 of 1"))
        self.assertEqual((is_right, asked), (False, ["compile_draft", "draft"]))

    def test_nothing_is_written_where_something_is_wrong(self):
        lines, is_right, asked, files = done("theorem left = h;")
        self.assertEqual((lines[-1], is_right, asked), ("a.proofs: 1 problem, nothing is written", False, []))
        self.assertEqual(files, ["a.mm0", "a.proofs"])

    def test_the_program_decides(self):
        lines, is_right, asked, _ = done(RIGHT, compile="compiled: 1 bytes", verify="refused: binary statement 18 at byte 7: K25 disjoint")
        self.assertEqual(lines, ["a.proofs:1:9: the program refuses this", "refused: binary statement 18 at byte 7: K25 disjoint"])
        self.assertEqual((is_right, asked), (False, ["compile", "verify"]))
        self.assertEqual(done(RIGHT, compile="refused: text statement 1 at byte 1: U3 form")[1:3], (False, ["compile"]))

    def test_a_text_that_was_not_made_stays(self):
        with room(a_mm0=MONOID + LEFT, a_proofs=RIGHT, a_mmu="(sort s)\n") as path:
            source, text = os.path.join(path, "a.proofs"), os.path.join(path, "a.mmu")
            with self.assertRaises(Wrong) as caught:
                run(source, "--text", None)
            self.assertIn("a.mmu wasn't made by prove", str(caught.exception))
            self.assertTrue(run(source, "--text", None, True)[1])
            with open(text, encoding="ascii") as file:
                made = file.read()
            self.assertTrue(made.startswith("-- Made of a.proofs by mz prove.\n(sort wff provable)"))
            self.assertTrue(run(source, "--text", None)[1])
            with open(text, "w", encoding="ascii") as file:
                file.write(made.split("\n", 1)[1])
            self.assertTrue(run(source, "--text", None)[1])

    def test_checked_and_text_alone(self):
        lines, is_right, asked, files = done(RIGHT, "--check")
        self.assertEqual((lines, is_right, asked), (["a.mmu is not what a.proofs makes"], False, []))
        self.assertNotIn("a.mmu", files)
        lines, is_right, asked, files = done(RIGHT, "--text")
        self.assertEqual((lines, is_right, asked), (["a.mmu is written"], True, []))
        self.assertIn("a.mmu", files)


    def test_how_long_what_is_found_is(self):
        """mul_eq is cited twice, with h and with a reflexive equation for each of the other two."""
        spec = MONOID + "theorem left (a b c: elt): $ a = b $ > $ c * a * c = c * b * c $;"
        said = "equality eq refl eq_refl symm eq_symm trans eq_trans; congruence mul_eq;\n"
        with room(a_mm0=spec, a_proofs=said + "theorem left = rw [h];") as path:
            lines, _ = run(os.path.join(path, "a.proofs"), "--text", StandIn())
        self.assertTrue(lines[-1].startswith("1 proof is found by rw and prop, of 4 citations; the longest has 4: rw in left, "), lines[-1])
        self.assertTrue(lines[-1].endswith("a.proofs:2:16"), lines[-1])


class Folders(unittest.TestCase):
    def test_a_folder_stands_for_its_source(self):
        with room(b_mm0=MONOID + LEFT, b_proofs=RIGHT) as path:
            run(path, "--text", StandIn())
            self.assertIn("b.mmu", os.listdir(path))

    def test_the_folder_in_which_one_works(self):
        self.addCleanup(os.chdir, os.getcwd())
        with room(b_mm0=MONOID + LEFT, b_proofs=RIGHT) as path:
            os.chdir(path)
            run(".", "--text", StandIn())
            self.assertIn("b.mmu", os.listdir(path))
            os.chdir("..")

    def test_none_and_several(self):
        with room(a_mm0=MONOID) as path:
            self.assertIn("has no proof source", typed("--check", path)[0])
        with room(a_proofs="", b_proofs="") as path:
            self.assertIn("has more than one proof source\n  found  a.proofs\n         b.proofs", typed("--check", path)[0])


class Typed(unittest.TestCase):
    def test_words(self):
        for words in ((), ("--check",), ("--other", "a.proofs"), ("a.proofs", "--check"), ("--find", "_ = _")):
            self.assertEqual(typed(*words), (USAGE + "\n", 2), words)

    def test_no_such_file(self):
        with room(a_mm0=MONOID) as path:
            text, status = typed("--check", os.path.join(path, "b.proofs"))
            self.assertEqual((said([text]).split("\n")[0], status), ("b.proofs can't be read: No such file or directory", 1))
            text, status = typed("--check", os.path.join(path, "a.mm0"))
            self.assertIn("is no proof source: its name has to end with .proofs", text)
            self.assertEqual(status, 1)

    def test_bytes(self):
        with room(a_mm0=MONOID, a_proofs="-- a\n") as path:
            with open(os.path.join(path, "a.proofs"), "ab") as file:
                file.write(b"--\xc3\xa4\n")
            text, _ = typed("--check", os.path.join(path, "a.proofs"))
            self.assertEqual(said([text]).split("\n")[0], "a.proofs:2:3: no file may have this character, the first byte of the letter ä (U+00E4)")

    def test_a_program_that_is_not_there(self):
        program = Program()
        program.path = "/nowhere/mz"
        with self.assertRaises(Wrong):
            program.line("verify")
