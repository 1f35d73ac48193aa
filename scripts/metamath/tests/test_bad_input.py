"""Tests of what import says of databases that it can't read or translate: one sentence with the place, and no file."""
import os

from .room import Room

GOOD = """$c ( ) -> |- wff $.
$v ph ps $.
wph $f wff ph $.
wps $f wff ps $.
wi $a wff ( ph -> ps ) $.
ax-1 $a |- ( ph -> ( ps -> ph ) ) $.
${
  maj $e |- ( ph -> ps ) $.
  min $e |- ph $.
  ax-mp $a |- ps $.
$}
${
  a1i.1 $e |- ph $.
  a1i $p |- ( ps -> ph ) $=
    wph wps wph wi wph wps ax-1 a1i.1 ax-mp $.
$}
two $p |- ( ps -> ( ph -> ( ps -> ph ) ) ) $= ( wi ax-1 a1i ) ABACCBABDE $.
"""


class TestBadInput(Room):
    def fails(self, text, said, *options, status=1, name="bad.mm"):
        """Imports a text, and looks at what is said and that nothing is written."""
        with open(self.path(name), "wb") as file:
            file.write(text if isinstance(text, bytes) else text.encode())
        folder = self.path("made")
        printed = self.mz("import", self.path(name), folder, *options, status=status).strip()
        self.assertEqual(printed, f"mz import: {said.replace('DB', self.path(name))}")
        self.assertEqual(os.listdir(folder) if os.path.isdir(folder) else [], [])

    def test_the_good_one(self):
        self.put("good.mm", GOOD)
        printed = self.mz("import", self.path("good.mm"), self.path("made"))
        self.assertIn("imported: 1 sort, 1 term, 2 axioms, 2 theorems, 0 lemmas\n", printed)
        self.assertEqual(sorted(os.listdir(self.path("made"))), ["good.mm0", "good.mmb"])

    def test_cut_off(self):
        self.fails(GOOD[: GOOD.index("wph ax-1")] if "wph ax-1" in GOOD else GOOD[:-20], "DB:17:5: the file ends in the statement that begins here")
        self.fails(GOOD[: GOOD.rindex("$}")], "DB:12:1: the scope that opens here isn't closed")

    def test_not_utf_8(self):
        self.fails(GOOD.encode() + b"$( caf\xe9 $)", "DB:18:7: this isn't UTF-8, so that it is no Metamath database")

    def test_no_database(self):
        self.fails("", "DB:1:1: there is no axiom or theorem in it, so that it is no Metamath database")
        self.fails("Dear reader", "DB:1:6: the file ends in the statement reader")

    def test_another_typecode(self):
        self.fails(GOOD, "DB:1:1: no variable and no syntax axiom has the typecode formula; --provable gives that of what is "
                   "proved, and that of formulas", "--provable", "|-=formula")
        self.fails(GOOD, "--provable wants two typecodes, as |-=wff", "--provable", "|-", status=2)

    def test_a_label_that_is_not_there(self):
        self.fails(GOOD, "DB: there is no theorem three in it", "--theorem", "three")
        self.fails(GOOD, "DB: there is no theorem wi in it", "--theorem", "wi")
        self.fails(GOOD.replace("ax-1 a1i )", "ax-1 a2i )"), "DB:17:5: the proof of two names a2i, which isn't there", "--theorem", "two")

    def test_a_wrong_proof(self):
        wrong = GOOD.replace("wph wps ax-1 a1i.1 ax-mp", "wph wps ax-1 wph wps ax-1 ax-mp")
        with open(self.path("bad.mm"), "w", encoding="ascii") as file:
            file.write(wrong)
        printed = self.mz("import", self.path("bad.mm"), self.path("made"), status=1)
        self.assertRegex(printed, rf"^mz import: {self.path('bad.mm')}:14:7: the proof of a1i is wrong \(refused: .*\)\n$")
        self.assertEqual(os.listdir(self.path("made")), [])

    def test_a_proof_of_something_else(self):
        self.fails(GOOD.replace("ABACCBABDE", "ABACCBABDEBABDE"),
                   "DB:17:5: two isn't translated: its proof ends in another formula than its own", "--theorem", "two")
        self.fails(GOOD.replace("ABACCBABDE", "ABACCE"), "DB:17:5: two isn't translated: its proof takes what isn't there", "--theorem", "two")

    def test_a_proof_that_rests_on_an_open_one(self):
        self.fails(GOOD.replace("a1i.1 ax-mp", "? ax-mp"),
                   "DB:17:5: two isn't translated: it rests on a1i: its proof isn't finished", "--theorem", "two")

    def test_what_is_left_out(self):
        self.put("open.mm", GOOD.replace("a1i.1 ax-mp", "? ax-mp"))
        printed = self.mz("import", self.path("open.mm"), self.path("made"))
        self.assertIn("left out: 1, its proof isn't finished: a1i\nleft out: 1, that cite what is left out: two\n", printed)

    def test_a_proof_by_itself(self):
        self.fails(GOOD.replace("( wi ax-1 a1i ) ABACCBABDE", "( two ) ABC"),
                   "DB:17:5: two isn't translated: its proof names two, which stands behind it", "--theorem", "two")

    def test_syntax_that_is_not_translated(self):
        self.fails(GOOD.replace("two $p", "wn $a wff ( ph ph ) $. two $p"),
                   "DB:17:4: wn: syntax with a variable twice isn't translated")
        self.fails(GOOD.replace("two $p", "wj $a wff ( ps -> ph ) $. two $p"), "DB:17:4: wj: the grammar has one production twice")
        self.fails(GOOD.replace("two $p", "${ h $e |- ph $. wh $a wff -> ph $. $} two $p"),
                   "DB:17:21: wh: syntax with hypotheses isn't translated")

    def test_two_readings(self):
        self.fails("$c + |- wff $. $v x y z $. wx $f wff x $. wy $f wff y $. wz $f wff z $. wp $a wff x + y $.\nax $a |- x + y + z $.",
                   "DB:2:4: ax isn't translated: the grammar of the database has two readings of it, and a specification says one")

    def test_a_folder_that_is_a_file(self):
        self.put("made", "")
        self.put("good.mm", GOOD)
        printed = self.mz("import", self.path("good.mm"), self.path("made"), status=5)
        self.assertEqual(printed.strip(), f"mz import: {self.path('made')} can't be written: File exists")

    def test_a_file_that_is_not_there(self):
        printed = self.mz("import", self.path("none.mm"), self.path("made"), status=3)
        self.assertEqual(printed.strip(), f"mz import: {self.path('none.mm')} can't be read: No such file or directory")

    def test_a_database_that_would_be_written_over(self):
        self.put("good.mm0", GOOD)
        printed = self.mz("import", self.path("good.mm0"), self.path("."), status=2)
        self.assertIn("is read, and would be written", printed)
        with open(self.path("good.mm0"), encoding="utf-8") as file:
            self.assertEqual(file.read(), GOOD)

    def test_a_name_that_is_a_path(self):
        self.fails(GOOD, "--name ../x is no name of a file", "--name", "../x", status=2)
