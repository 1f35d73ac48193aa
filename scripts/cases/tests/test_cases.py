"""Tests of the readers of cases, and that a case which the program doesn't meet is told."""
import os
import stat
import tempfile
import unittest

from cases import formulas, reading, specifications, texts, told
from cases.command import KINDS, cases_of, paths
from cases.reading import Wrong, changed, sections, unescaped
from cases.running import try_all


class Reading(unittest.TestCase):
    def test_escapes(self):
        table = {
            r"a\nb\\c": b"a\nb\\c",
            r"\x7f\x00\t": b"\x7f\0\t",
            r"\{3:ab}": b"ababab",
            r"\{3:k\# }": b"k0 k1 k2 ",
            r"\{3..1:\#\n}": b"3\n2\n1\n",
            r"\{2..3:\#}": b"23",
            '" a "': b" a ",
            '""': b"",
            "é": "é".encode(),
        }
        for text, wanted in table.items():
            self.assertEqual(unescaped(text), wanted, text)

    def test_changes(self):
        table = {
            "-": b"abcdef",
            "put 1: 58 59": b"aXYdef",
            "put 5: 58 59": b"abcdeX",
            "leave out 1..3": b"adef",
            "first 2": b"ab",
            "first 2, then 58, put 0: 59": b"YbX",
        }
        for changes, wanted in table.items():
            self.assertEqual(changed(b"abcdef", changes), wanted, changes)
        with self.assertRaises(Wrong):
            changed(b"abc", "put 1 58")

    def test_hexadecimal(self):
        self.assertEqual(len(reading.content("one.hex")), 51)
        with self.assertRaises(Wrong):
            reading.content("no such file")

    def test_sections(self):
        with tempfile.TemporaryDirectory() as folder:
            path = os.path.join(folder, "some.cases")
            with open(path, "w", encoding="utf-8") as file:
                file.write('# a head\n\n[pairs one.mm0 "a b"]\nfirst\n  more\n# not this\nsecond | x | y | z\n')
            (section,) = sections(path)
        self.assertEqual((section.kind, section.words), ("pairs", ["one.mm0", "a b"]))
        self.assertEqual([(it.text, it.more) for it in section.rows], [("first", ["  more"]), ("second | x | y | z", [])])
        self.assertEqual(section.rows[1].parts(3), ["second", "x", "y | z"])
        with self.assertRaises(Wrong):
            section.rows[0].parts(2)

    def test_told_lines(self):
        table = {
            "S9 2 38": "refused: specification statement 2 at byte 38: S9 math token",
            "M5 4 5": "refused: match declaration 4 statement 5: M5 binders",
            "A2 3": "refused: listing line 3: A2 range",
            "L3 56": "limit: L3 bound variables 56",
            "accepted 1 2 3 4 5": "accepted: 1 sorts, 2 terms, 3 axioms, 4 definitions, 5 theorems",
        }
        for short, wanted in table.items():
            self.assertEqual(told.line(short), wanted)
        with self.assertRaises(Wrong):
            told.line("S99 1 2")

    def test_counts(self):
        self.assertEqual(specifications.statements_of(reading.content("logic.mm0")), 5)
        self.assertEqual(texts.forms_of(reading.content("typed.mmu")), 15)

    def test_binders(self):
        found = list(formulas.binders_of("{x: nat} (p q: wff x) (n: nat)"))
        self.assertEqual(found, ["(x nat)", "(p wff (x))", "(q wff (x))", "(n nat ())"])

    def test_each_file_is_read(self):
        """Each kind of cases stands in some file, and no file has another."""
        kinds = {section.kind for path in paths([]) for section in sections(path)}
        self.assertEqual(kinds, set(KINDS))


class Trying(unittest.TestCase):
    """The program is a script that prints the same whatever it is asked."""

    def differs(self, answer, status, text, name="some.cases"):
        with tempfile.TemporaryDirectory() as folder:
            program, path = os.path.join(folder, "program"), os.path.join(folder, name)
            with open(program, "w", encoding="utf-8") as file:
                file.write(f"#!/bin/sh\nprintf '%b' '{answer}'\nexit {status}\n")
            os.chmod(program, os.stat(program).st_mode | stat.S_IXUSR)
            with open(path, "w", encoding="utf-8") as file:
                file.write(text)
            return try_all(program, list(cases_of(path)), 1)

    def test_specifications(self):
        line = "refused: specification statement 1 at byte 4: S3 statement\\n"
        self.assertEqual(self.differs(line, 1, "[specifications]\nS3 1 4 sort\n"), [])
        self.assertEqual(len(self.differs(line, 0, "[specifications]\nS3 1 4 sort\n")), 1)
        self.assertEqual(len(self.differs(line, 1, "[specifications]\nS3 1 5 sort\n")), 1)
        self.assertEqual(len(self.differs(line, 1, "[specifications]\nread sort\n")), 1)
        self.assertEqual(len(self.differs(line, 1, "[specifications]\nreads sort s;\n  (sort s)\n")), 1)

    def test_statements(self):
        line = "refused: specification statement 1 at byte 4: S3 statement\\n"
        found = self.differs(line, 1, "[statements]\nsort s\n")
        self.assertTrue(any("isn't read whole" in it for it in found))

    def test_pairs(self):
        cases = "[pairs one.mm0 one.hex]\nK3 1 48 | first 49 | a command cut\n"
        self.assertEqual(self.differs("refused: binary statement 1 at byte 48: K3 command\\n", 1, cases), [])
        self.assertEqual(len(self.differs("refused: binary statement 1 at byte 48: K4 statement length\\n", 1, cases)), 1)

    def test_sessions(self):
        cases = "[run name]\nout: abc\n> show out\n  size {out} and {*}\n  ..\n  end\nonce: size .*\n"
        self.assertEqual(self.differs("size 3 and 77\\nmore\\nend\\n", 0, cases), [])
        self.assertEqual(len(self.differs("size 4 and 77\\nmore\\nend\\n", 0, cases)), 1)
        self.assertEqual(len(self.differs("size 3 and 77\\nsize 4\\nend\\n", 0, cases)), 1)
        self.assertEqual(len(self.differs("", 0, "[run name]\nout: abc\nout has one.hex\n")), 1)
        self.assertEqual(len(self.differs("", 0, "[run name]\nout: abc\nout is missing\n")), 1)

    def test_usage(self):
        self.assertEqual(len(self.differs("", 2, "[usage]\nverify\n")), 1)

    def test_what_is_no_case(self):
        for text in ("[kind]\nx\n", "[pairs one.mm0 one.hex]\n", "[run x]\nfoo\n", "[formulas logic x]\nS99 | $a$\n"):
            with self.assertRaises(Wrong, msg=text):
                self.differs("", 0, text)

    def test_files_that_are_only_read(self):
        cases = "[run name]\nspec: abc\n> verify spec\n"
        self.assertEqual(self.differs("", 0, cases), [])
        self.assertEqual(len(self.differs("' >spec; printf '", 0, cases)), 1)


if __name__ == "__main__":
    unittest.main()
