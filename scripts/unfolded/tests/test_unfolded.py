"""Tests of what is said of unfolded definitions. What is expected was read by eye from the texts: each says `:unfold` where it does."""
import os
import subprocess
import sys
import tempfile
import unittest

TOP = os.path.dirname(os.path.dirname(os.path.dirname(os.path.dirname(os.path.abspath(__file__)))))
EXAMPLES = os.path.join(TOP, "examples")
MZ = os.environ.get("MZ", os.path.join(TOP, "mz"))

# `fold` unfolds b, and the local definition is the fourth statement. `cite` unfolds nothing and cites `fold`. `both` unfolds c,
# under a term, and cites a local theorem that unfolds the local definition. `none` does neither.
SPECIFICATION = """provable sort wff;
term not (a: wff): wff;
def b (a: wff): wff = $ not a $;
def c (a: wff): wff = $ not a $;
theorem fold (a: wff): $ not a $ > $ b a $;
theorem cite (a: wff): $ not a $ > $ b a $;
theorem both (a: wff): $ not ( not a ) $ > $ not ( c a ) $;
theorem none (a: wff): $ a $ > $ a $;
"""
TEXT = """(sort wff provable)
(term not ((a wff ())) (wff ()))
(def b ((a wff ())) (wff ()) () (not a))
(local def own ((a wff ())) (wff ()) () (not a))
(def c ((a wff ())) (wff ()) () (not a))
(theorem fold ((a wff ())) ((h (not a))) (b a) () (:conv (b a) (:unfold b (a) () (not a)) h))
(theorem cite ((a wff ())) ((h (not a))) (b a) () (fold (a) h))
(local theorem inner ((a wff ())) ((h (not a))) (not a) ()
  (:conv (not a) (:sym (:unfold own (a) () (not a))) (:conv (own a) (:unfold own (a) () (not a)) h)))
(theorem both ((a wff ())) ((h (not (not a)))) (not (c a)) ()
  (inner ((c a)) (:conv (not (c a)) (not (:unfold c (a) () (not a))) h)))
(theorem none ((a wff ())) ((h a)) a () h)
"""


class Unfolded(unittest.TestCase):
    def setUp(self):
        room = tempfile.TemporaryDirectory(prefix="unfolded-tests-")
        self.addCleanup(room.cleanup)
        self.room = room.name

    def put(self, name, text):
        path = os.path.join(self.room, name)
        with open(path, "w", encoding="ascii") as file:
            file.write(text)
        return path

    def compiled(self, text):
        out = os.path.join(self.room, "made.mmb")
        subprocess.run([MZ, "compile", self.put("made.mmu", text), out], check=True, stdout=subprocess.DEVNULL)
        return out

    def told(self, specification, binary, status=0):
        """The lines that the script prints."""
        words = [sys.executable, "-B", os.path.join(TOP, "scripts", "unfolded"), specification, binary]
        ran = subprocess.run(words, env={**os.environ, "MZ": MZ}, capture_output=True, text=True, check=False)
        self.assertEqual(ran.returncode, status, ran.stderr)
        return ran.stdout.splitlines()

    def example(self, specification, binary, status=0):
        return self.told(os.path.join(EXAMPLES, specification + ".mm0"), os.path.join(EXAMPLES, binary + ".mmb"), status)

    def test_the_accepted_line_comes_first(self):
        line = "accepted: 2 sorts, 2 terms, 0 axioms, 0 definitions, 1 theorems"
        self.assertEqual(self.example("rename", "rename"), [line, "rename: local _l5"])

    def test_directly_and_through_what_is_cited(self):
        found = self.told(self.put("made.mm0", SPECIFICATION), self.compiled(TEXT))
        self.assertEqual(found[1:], ["fold: b", "cite: b", "both: local _l4 c", "none:"])

    def test_a_saved_conversion(self):
        self.assertEqual(self.example("fold", "saved_conversion")[1:], ["fold: nn"])

    def test_a_definition_that_the_specification_leaves_abstract_is_its_own(self):
        self.assertEqual(self.example("abstract", "fold")[1:], ["fold: nn"])

    def test_names_of_local_definitions_are_none_of_the_specification(self):
        specification = SPECIFICATION.replace("none", "__none")
        found = self.told(self.put("made.mm0", specification), self.compiled(TEXT.replace("none", "__none")))
        self.assertEqual(found[3:], ["both: local ___l4 c", "__none:"])

    def test_a_refused_pair_has_its_line_alone(self):
        self.assertEqual(self.example("rename_free", "rename", 1), ["refused: match declaration 2 statement 2: M4 modifiers"])

    def test_a_file_that_is_not_there(self):
        self.assertEqual(self.example("rename", "no_such_file", 3), [])


class Words(unittest.TestCase):
    def test_the_option_of_the_command(self):
        """./mz hands the words on, and says no to others."""
        pair = [os.path.join(EXAMPLES, "fold" + it) for it in (".mm0", ".mmb")]
        environment = {**os.environ, "MZ": MZ, "MZ_PROGRAM": MZ, "MZ_EXPLAIN": "0"}
        for words, status, last in ((pair, 0, "fold: nn"), (pair[:1], 2, None)):
            ran = subprocess.run([os.path.join(TOP, "mz"), "axioms", "--definitions", *words],
                                 env=environment, capture_output=True, text=True, check=False)
            self.assertEqual((ran.returncode, ran.stdout.splitlines()[-1:]), (status, [last] if last else []))


if __name__ == "__main__":
    unittest.main()
