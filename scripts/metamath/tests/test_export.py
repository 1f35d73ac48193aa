"""Tests of `export`. Where metamath is installed it verifies what is written."""
import os
import shlex
import stat
import subprocess
import sys
import unittest

from explore.program import run
from explore.specification import read_specification

from metamath import opinion
from metamath.binaries import Binary
from metamath.database_text import letters
from metamath.export_command import names_of
from metamath.exporting import Export
from metamath.original import Database
from metamath.telling import Failed
from metamath.tests.room import EXAMPLES, TOP, Room


class TestExport(Room):
    def back(self, spec, binary, *options, name="back.mm"):
        """What is said, and the database."""
        said = self.mz("export", spec, binary, self.path(name), *options)
        if opinion.is_there():
            self.assertIn("metamath: all proofs in the database were verified\n", said)
        self.assertIn(f"the same as {name}: ", said)
        return said, self.read(name)

    def imported(self):
        self.mz("import", self.path("little.mm"), self.room)
        return self.path("little.mm0"), self.path("little.mmb")

    def example(self, spec, binary=None):
        return os.path.join(EXAMPLES, spec + ".mm0"), os.path.join(EXAMPLES, (binary or spec) + ".mmb")

    def test_all_the_way_round(self):
        _, made = self.back(*self.imported())
        self.assertIn("df-wss $a defeq-wff ( A C_ B ) := A. x ( ( x e. A ) -> ( x e. B ) ) $.", made)
        self.assertIn("$d ph x $.\n  ax-drop.1 $e |- A. x ph $.", made)

    def test_definitions_as_axioms(self):
        _, made = self.back(*self.imported(), "--definitions")
        self.assertIn("df-ss $a |- ( ( A C_ B ) <-> A. x ( ( x e. A ) -> ( x e. B ) ) ) $.", made)
        self.assertNotIn("defeq", made)

    def compiled(self, text):
        """The specification and the binary of a proof text."""
        self.put("law.mmu", text)
        for command, made in (("compile", "law.mmb"), ("spec", "law.mm0")):
            run(command, self.path("law.mmu"), self.path(made))
        return self.path("law.mm0"), self.path("law.mmb")

    def test_a_definition_that_nothing_unfolds(self):
        _, made = self.back(*self.compiled("""(sort wff provable) (term im ((a wff ()) (b wff ())) (wff ()))
            (def self ((a wff ())) (wff ()) () (im a a)) (axiom id ((a wff ())) () (self a))"""), "--definitions")
        self.assertIn("df-self $a defeq-wff self _v0 := im _v0 _v0 $.", made)

    def test_two_provable_sorts(self):
        _, made = self.back(*self.compiled("""(sort wff provable) (sort nat provable) (sort free)
            (term im ((a wff ()) (b wff ())) (wff ())) (axiom id ((a wff ())) () (im a a))
            (term zero () (nat ())) (term add ((a nat ()) (b nat ())) (nat ()))
            (axiom zero_law () () zero) (axiom both ((a nat ()) (b nat ())) (a b) (add a b))
            (theorem law () () (add zero zero) () (both (zero zero) (zero_law ()) (zero_law ())))"""))
        self.assertIn("law $p |-nat add zero zero $=", made)

    def test_a_theorem_by_a_definition_is_proved(self):
        """It is converted from an axiom's instance by one unfolding, but says more than the definition."""
        pair = self.compiled("""(sort wff provable) (term im ((a wff ()) (b wff ())) (wff ())) (axiom id ((a wff ())) () (im a a))
            (def self ((a wff ())) (wff ()) () (im a a))
            (theorem law ((a wff ())) () (self a) () (:conv (self a) (:unfold self (a) () (:refl (im a a))) (id (a))))""")
        _, made = self.back(*pair, "--definitions")
        self.assertRegex(made, r"law \$p \|- self \S+ \$=")

    def test_developments(self):
        for name in ("propositional", "predicate", "arithmetic", "classes", "primes"):
            place = os.path.join(EXAMPLES, name, name)
            with self.subTest(name):
                self.back(place + ".mm0", place + ".mmb", "--text", place + ".mmu")

    def test_small_pairs(self):
        pairs = [("sort",), ("empty",), ("term",), ("quantifier",), ("dummy",), ("fold",), ("abstract", "fold"), ("fold", "saved_conversion"),
                 ("double_negation",)]
        for pair in pairs:
            with self.subTest(pair):
                self.back(*self.example(*pair))

    def test_what_is_refused(self):
        said = self.mz("export", *self.example("other_claim", "double_negation"), self.path("back.mm"), status=1)
        self.assertEqual(said, "refused: match declaration 5 statement 5: M8 conclusion\n")
        self.assertEqual(os.listdir(self.room), ["little.mm"])

    def test_a_false_claim_that_is_written_all_the_same(self):
        """Without a verdict before it: the export judges the pair, and not the binary alone."""
        if not opinion.is_there():
            self.skipTest("metamath isn't installed")
        spec, binary = self.example("other_claim", "double_negation")
        with open(spec, encoding="ascii") as text, open(binary, "rb") as data, open(self.path("back.mm"), "w", encoding="ascii") as out:
            Export(data.read(), *read_specification(text.read())).run().text.write(out, "A false claim.")
        self.assertNotEqual(opinion.faults(self.path("back.mm")), [])

    def test_what_is_too_long(self):
        said = self.mz("export", *self.example("term", "exponential"), self.path("back.mm"), status=1)
        self.assertIn("a formula has more than 1,000,000 symbols", said)
        self.assertEqual(os.listdir(self.room), ["little.mm"])

    def test_without_metamath(self):
        said = self.mz("export", *self.example("fold"), self.path("back.mm"), environment={"PATH": "/nowhere"})
        self.assertIn("metamath: it isn't installed, so nobody has verified the database\n", said)


class TestFiles(Room):
    def setUp(self):
        super().setUp()
        self.pair = os.path.join(EXAMPLES, "fold.mm0"), os.path.join(EXAMPLES, "fold.mmb")

    def test_files_that_cannot_be_read(self):
        for words in (("nosuch.mm0", self.pair[1]), (self.pair[0], "nosuch.mmb")):
            said = self.mz("export", *words, self.path("back.mm"), status=3)
            self.assertRegex(said, r"^mz export: nosuch\.mm[0b] can't be read: No such file or directory\n$")
        said = self.mz("export", self.room, self.pair[1], self.path("back.mm"), status=3)
        self.assertEqual(said, f"mz export: {self.room} can't be read: Is a directory\n")

    def test_files_that_cannot_be_written(self):
        for out, why in ((self.room, "Is a directory"), (self.path("nosuch/back.mm"), "No such file or directory")):
            said = self.mz("export", *self.pair, out, status=5)
            self.assertIn(f"mz export: {out} can't be written: {why}\n", said)
        self.assertEqual(os.listdir(self.room), ["little.mm"])

    def test_what_is_read_is_not_written(self):
        spec = self.path("fold.mm0")
        with open(self.pair[0], encoding="ascii") as file:
            self.put("fold.mm0", file.read())
        said = self.mz("export", spec, self.pair[1], spec, status=2)
        self.assertEqual(said, f"mz export: {spec} is one of the files that are read\n")

    def test_no_file(self):
        self.assertNotIn("metamath", self.mz("export", *self.pair, os.devnull))
        self.assertTrue(stat.S_ISCHR(os.stat(os.devnull).st_mode))

    def test_a_link_and_the_mode(self):
        self.put("real.mm", "old")
        os.symlink(self.path("real.mm"), self.path("link.mm"))
        self.mz("export", *self.pair, self.path("link.mm"))
        self.assertTrue(os.path.islink(self.path("link.mm")))
        self.assertIn("$c ( ) |- ", self.read("real.mm"))
        mask = os.umask(0)
        os.umask(mask)
        self.assertEqual(stat.S_IMODE(os.stat(self.path("real.mm")).st_mode), 0o666 & ~mask)

    def test_an_output_that_fails(self):
        command = [sys.executable, "-B", os.path.join(TOP, "scripts", "metamath"), "export", *self.pair, self.path("back.mm")]
        line = " ".join(map(shlex.quote, command))
        for out, why in ((">/dev/full", "standard output can't be written: No space left on device"), (">&-", "standard output is closed")):
            ran = subprocess.run(["sh", "-c", f"{line} {out}"], stderr=subprocess.PIPE, text=True, check=False)
            self.assertEqual((ran.returncode, ran.stderr), (6, f"mz export: {why}\n"))
        with subprocess.Popen(command, stdout=subprocess.PIPE, stderr=subprocess.PIPE, text=True) as ran:
            ran.stdout.close()
            self.assertEqual(ran.stderr.read(), "mz export: standard output can't be written: Broken pipe\n")
        self.assertEqual(ran.returncode, 6)

    def test_odd_names(self):
        self.mz("export", *self.pair, self.path("a 'b\" $c.mm"))

    def test_texts(self):
        said = self.mz("export", *self.pair, self.path("back.mm"), "--text", os.path.join(EXAMPLES, "implication.mmu"), status=1)
        self.assertIn("implication.mmu isn't the text of this binary\n", said)
        for text in ("(theorem x)", "((", "nothing", "(term t () (s ()) ())", ")"):
            self.put("bad.mmu", text)
            with self.subTest(text), open(self.pair[1], "rb") as data:
                self.assertRaises(Failed, names_of, "bad.mmu", text, Binary(data.read()))

    def test_arguments(self):
        for words in ((), ("export",), ("export", "a", "b"), ("export", *self.pair, "c", "--text"), ("export", *self.pair, "c", "--odd"), ("odd",)):
            self.assertIn("usage: mz import", self.mz(*words, status=2))


class TestParts(unittest.TestCase):
    def test_letters(self):
        # as the book on Metamath counts them: A to T are 1 to 20, UA is 21, YT 120, UUA 121, YYT 620, UUUA 621
        self.assertEqual([letters(it) for it in (0, 19, 20, 119, 120, 619, 620)], ["A", "T", "UA", "YT", "UUA", "YYT", "UUUA"])

    def test_scopes(self):
        made = Database("$c |- w $. $v a b $. wa $f w a $. wb $f w b $. ${ $d a b $. h $e |- a $. x $a |- b $. $} y $a |- b $.")
        self.assertEqual([it.hypotheses for it in made.statements], [[["|-", "a"]], []])
        self.assertEqual([it.apart for it in made.statements], [{frozenset("ab")}, set()])


if __name__ == "__main__":
    unittest.main()
