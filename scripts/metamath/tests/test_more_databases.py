"""Tests of import on databases of other shapes, and of how a specification is written for its reader."""
import os
import re
import subprocess
import sys
import unittest

from metamath.comments import about_lines
from metamath.typesetting import symbol_lines, symbols_of

from .room import TOP, Room

# Natural numbers with an operation and a relation between any two expressions, as Metamath's set theory has them.
OPERATIONS = """$( Numbers.
   $)
$( $t althtmldef "+" as " &plus; "; /* "<" as "no" */ althtmldef "x" as '<I>&#x1D465;</I>'; althtmldef "-." as "&not;" ; $)
$c ( ) |- wff setvar class -> -. A. = + < 0 { , } $.
$v ph ps x A B C F R $.
wph $f wff ph $.  wps $f wff ps $.  vx $f setvar x $.
cA $f class A $.  cB $f class B $.  cC $f class C $.  cF $f class F $.  cR $f class R $.
$(
####
  LOGIC
####
$)
wi $a wff ( ph -> ps ) $.
wn $a wff -. ph $.
wal $a wff A. x ph $.
$(
#*#*
  Numbers
#*#*
$)
cv $a class x $.
wceq $a wff A = B $.
co $a class ( A F B ) $.
wbr $a wff A R B $.
caddc $a class + $.
clt $a class < $.
cc0 $a class 0 $.
csn $a class { A } $.
cpr $a class { A , B } $.
${  mp.1 $e |- ph $.  mp.2 $e |- ( ph -> ps ) $.  ax-mp $a |- ps $.  $}
${  gen.1 $e |- ph $.  ax-gen $a |- A. x ph $.  $}
ax-0 $a |- -. x < 0 $.
${  lt.1 $e |- A < B $.  ax-lt $a |- ( A + C ) < ( B + C ) $.  $}
ax-co $a |- ( A F B ) = ( B F A ) $.
ax-pr $a |- { A , A } = { A } $.
${
  two.1 $e |- A < ( x + x ) $.
  $( Twice. $)
  two $p |- ( ( A + 0 ) + C ) < ( ( ( x + x ) + 0 ) + C ) $=
    cA cc0 caddc co vx cv vx cv caddc co cc0 caddc co cC cA vx cv vx cv caddc co cc0 two.1 ax-lt ax-lt $.
$}
four $p |- A. x ( x + 0 ) = ( 0 + x ) $= vx cv cc0 caddc co cc0 vx cv caddc co wceq vx vx cv cc0 caddc ax-co ax-gen $.
"""


class TestReading(Room):
    def one(self, text, label, *options):
        self.put("one.mm", text)
        said = self.mz("import", self.path("one.mm"), self.room, "--theorem", label, *options)
        self.assertIn("accepted: ", said)
        self.assertIn("the same as one.mm", said)
        return said, self.read(label + ".mm0")

    def test_operators(self):
        said, spec = self.one(OPERATIONS, "two")
        self.assertIn("def caddc_co (A B: class): class = $ (. A ( + ) B .) $;\ninfixl caddc_co: $+$ prec 64;", spec)
        self.assertIn("def clt_wbr (A B: class): wff = $ (: A ( < ) B :) $;\ninfixl clt_wbr: $<$ prec 50;", spec)
        self.assertIn("axiom ax_lt (A B C: class): $ A < B $ > $ ( A + C ) < ( B + C ) $;", spec)
        self.assertIn("--| Twice.\ntheorem two {x: setvar} (A C: class x): $ A < ( x + x ) $ > $ ( ( A + 0 ) + C ) "
                      "< ( ( ( x + x ) + 0 ) + C ) $;", spec)
        self.assertIn("abbreviations: 2, as caddc_co", said)

    def test_operators_that_are_cited(self):
        text = OPERATIONS + """${ h $e |- A < ( x + x ) $.
            thrice $p |- ( ( ( A + 0 ) + C ) + C ) < ( ( ( ( x + x ) + 0 ) + C ) + C ) $=
              cA cc0 caddc co cC caddc co vx cv vx cv caddc co cc0 caddc co cC caddc co cC vx cA cC h two ax-lt $. $}"""
        said, spec = self.one(text, "two", "--theorem", "thrice", "--text")
        self.assertIn("\n-- two without abbreviations, as proofs cite it.\n(local theorem two_plain ", self.read("two.mmu"))
        self.assertIn("(local theorem ax_lt_plain ", self.read("two.mmu"))
        self.assertIn("\ntheorem two {x", spec)
        self.assertIn("2 theorems, 2 lemmas", said)  # two and ax-lt as proofs cite them
        self.assertIn("$ A < ( x + x ) $ > $ ( ( ( A + 0 ) + C ) + C ) < ( ( ( ( x + x ) + 0 ) + C ) + C ) $;", spec)

    def test_a_text_with_operators(self):
        _, spec = self.one(OPERATIONS, "two", "--text")
        program = os.environ.get("MZ", os.path.join(TOP, "mz"))
        for words in (["compile", "two.mmu", "again.mmb"], ["verify", "two.mm0", "again.mmb"]):
            made = subprocess.run([program, words[0], *map(self.path, words[1:])], stdout=subprocess.PIPE, text=True, check=False)
            self.assertEqual(made.returncode, 0, made.stdout)

    def test_operators_of_a_whole_database(self):
        self.put("one.mm", OPERATIONS + """${ h $e |- A < ( x + x ) $.
            thrice $p |- ( ( ( A + 0 ) + C ) + C ) < ( ( ( ( x + x ) + 0 ) + C ) + C ) $=
              cA cc0 caddc co cC caddc co vx cv vx cv caddc co cc0 caddc co cC caddc co cC vx cA cC h two ax-lt $. $}""")
        said = self.mz("import", self.path("one.mm"), self.room, "--text")
        self.assertIn("abbreviations: 2, as ", said)
        self.assertIn("the same as one.mm", said)
        spec = self.read("one.mm0")
        self.assertIn("axiom ax_lt (A B C: class): $ A < B $ > $ ( A + C ) < ( B + C ) $;", spec)
        self.assertIn("theorem thrice {x: setvar} (A C: class x):\n  $ A < ( x + x ) $ > $ ( ( ( A + 0 ) + C ) + C ) < ", spec)
        self.assertIn("axiom ax_co (A B F: class): $ (. A F B .) = (. B F A .) $;", spec)  # F may be any expression
        # two is cited, and proofs speak of the database's formulas
        self.assertEqual(re.findall(r"theorem (\w+_plain) ", self.read("one.mmu")), ["ax_0_plain", "ax_lt_plain", "two_plain"])

    def test_a_constant_that_never_is_an_operator(self):
        """It is declared as it is: no infix of it, and no level but the highest."""
        self.put("one.mm", OPERATIONS)
        self.mz("import", self.path("one.mm"), self.room)
        self.assertIn("prefix cc0: $0$ prec max;", self.read("one.mm0"))

    def test_headings(self):
        spec = self.one(OPERATIONS, "four")[1]
        self.assertLess(spec.index("\n-- # LOGIC\n"), spec.index("term wal"))
        self.assertLess(spec.index("term wal"), spec.index("\n-- ## Numbers\n"))
        self.assertLess(spec.index("\n-- ## Numbers\n"), spec.index("term wceq"))

    def test_what_is_written_otherwise(self):
        self.put("one.mm", OPERATIONS)
        self.mz("import", self.path("one.mm"), self.room)
        self.assertIn("\n--   {, A , B }    for    { A , B }\n", self.read("one.mm0"))

    def test_symbols_on_pages(self):
        self.one(OPERATIONS, "two", "--text")
        with open(self.path("two.symbols"), encoding="utf-8") as file:
            self.assertEqual(file.read().split("\n"), ["(. (", "(: (", ".) )", ":) )", "x \U0001d465", ""])
        explore = os.path.join(TOP, "scripts", "explore")
        made = subprocess.run([sys.executable, "-B", explore, *map(self.path, ("two.mm0", "two.mmu", "pages"))],
                              stdout=subprocess.PIPE, stderr=subprocess.STDOUT, text=True, check=False)
        self.assertEqual(made.returncode, 0, made.stdout)
        with open(os.path.join(self.path("pages"), "theorems", "two.html"), encoding="utf-8") as file:
            page = file.read()
        self.assertIn('<b><span title="x">\U0001d465</span></b> +', page.replace(' class=x', ''))
        # A step has `(. A ( + ) C .)`, which is written `( A + C )` in the database.
        self.assertRegex(re.sub("<[^>]*>", "", page), r"\( A \+ 0 \)")
        self.assertNotIn("( + )", re.sub("<[^>]*>", "", page))
        self.assertIn("<p class=about>Twice.</p>", page)


class TestMoreDatabases(Room):
    def whole(self, **files):
        for name, text in files.items():
            self.put(name + ".mm", text)
        said = self.mz("import", self.path("top.mm"), self.room)
        self.assertIn("the same as top.mm", said)
        return said, self.read("top.mm0")

    def test_included_files(self):
        said, spec = self.whole(
            top="$[ part.mm $] $( Here. $) ax $a |- ph $. $[ part.mm $] one $p |- ph $= wph ax $. $[ other.mm $]",
            part="$c |- wff $. $v ph $. wph $f wff ph $. $[ top.mm $]", other="two $p |- ph $= wph one $.")
        self.assertIn("1 axiom, 2 theorems", said)
        self.assertIn("--| Here.\naxiom ax (ph: wff): $ ph $;", spec)

    def test_faults_in_included_files(self):
        self.put("top.mm", "$c |- wff $.\n$[ part.mm $]\n$}")
        self.put("part.mm", "$v ph $.\nwph $f wff ph $.\n")
        said = self.mz("import", self.path("top.mm"), self.room, status=1)
        self.assertEqual(said.strip(), f"mz import: {self.path('top.mm')}:3:1: a scope is closed here, and none is open")
        self.put("part.mm", "$v ph $.\nwph $f wff $.\n")
        said = self.mz("import", self.path("top.mm"), self.room, status=1)
        self.assertEqual(said.strip(), f"mz import: {self.path('part.mm')}:2:5: wph: a typecode and a variable belong here")
        os.unlink(self.path("part.mm"))
        said = self.mz("import", self.path("top.mm"), self.room, status=1)
        self.assertEqual(said.strip(), f"mz import: {self.path('top.mm')}:2:1: {self.path('part.mm')} can't be read: "
                         "No such file or directory")

    def test_an_empty_production(self):
        _, spec = self.whole(top="""$c I |- wff $. $v x $. wx $f wff x $.
            we $a wff $.  wI $a wff x I $.  ax $a |- $.  ${ s.1 $e |- x $. s $a |- x I $. $}
            two $p |- I I $= we wI we ax s s $.""")
        self.assertIn("term we: wff;", spec)
        self.assertIn("axiom ax: $ we $;", spec)
        self.assertIn("theorem two: $ we I I $;", spec)

    def test_indirect_left_recursion(self):
        _, spec = self.whole(top="""$c b c x |- s t $. $v p q $. vp $f s p $. vq $f t q $.
            sb $a s q b $.  tc $a t p c $.  sx $a s x $.  ax $a |- x $.  ${ h $e |- p $. go $a |- p c b $. $}
            two $p |- x c b c b $= sx tc sb sx ax go go $.""".replace("|- s t", "|- s t wff").replace("$v p q $.", "$v p q ph $. wph $f wff ph $.")
                             .replace("ax $a |- x", "wh $a wff p $. ax $a |- x"))
        self.assertIn("theorem two: $ x c b c b $;", spec)

    def test_hypotheses_of_other_typecodes(self):
        said, spec = self.whole(top="""$c ( ) -> |- wff $. $v ph ps $. wph $f wff ph $. wps $f wff ps $. wi $a wff ( ph -> ps ) $.
            ${ w $e wff ps $. h $e |- ph $. ax $a |- ( ps -> ph ) $. $}
            ${ w2 $e wff ph $. h2 $e |- ph $. one $p |- ( ph -> ph ) $= wph wph w2 h2 ax $. $}
            ${ w3 $e wff ( ph -> $. h3 $a |- ps $. $}""")
        self.assertIn("axiom ax (ph ps: wff): $ ph $ > $ ( ps -> ph ) $;", spec)
        self.assertIn("left out: 1, a hypothesis that says wff ( ph ->: h3", said)


class TestComments(unittest.TestCase):
    def test_marks(self):
        said = " If ` ph ` then ` ( F `` A ) ` , see ~ mpbi .\n  Written ~~ here.  (Contributed by NM, 5-Aug-1993.)\n\n  Next &amp; last &pi; . "
        self.assertEqual(about_lines(said), ["--| If ph then ( F ` A ) , see mpbi . Written ~ here.", "--|", "--| Next & last &pi; ."])

    def test_no_comment(self):
        self.assertEqual(about_lines(""), [])

    def test_symbols(self):
        text = 'htmldef "a" as "no"; /* althtmldef "b" as "no"; */ althtmldef "b" as " &isin; " +\n "<SUB>1</SUB>"; latexdef "b" as "no";'
        self.assertEqual(symbols_of([text]), {"b": "∈ 1"})
        self.assertEqual(list(symbol_lines(["c", "b", "b|"], {"b": "∈"}, {"b|": ["b", "|"]})), ["b ∈\n", "b| ∈\n"])


if __name__ == "__main__":
    unittest.main()
