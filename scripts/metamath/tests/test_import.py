"""Tests of import, on little databases. They want the program."""
import os
import subprocess
import sys

from .room import TOP, Room

LITTLE = """
$c ( ) |- wff setvar class -> <-> A. e. C_ RR CC $.
$v ph ps x y A B $.
wph $f wff ph $.  wps $f wff ps $.  vx $f setvar x $.  vy $f setvar y $.  cA $f class A $.  cB $f class B $.
$( Implication, ` ( ph -> ps ) ` .  (Contributed by N, 1-Jan-2000.) $)
wi $a wff ( ph -> ps ) $.
wb $a wff ( ph <-> ps ) $.
wal $a wff A. x ph $.
cv $a class x $.
wcel $a wff A e. B $.
biid $a |- ( ph <-> ph ) $.
${  bicomi.1 $e |- ( ph <-> ps ) $.  bicomi $a |- ( ps <-> ph ) $.  $}
${  mp.1 $e |- ph $.  mp.2 $e |- ( ph -> ps ) $.  ax-mp $a |- ps $.  $}
${  gen.1 $e |- ph $.  ax-gen $a |- A. x ph $.  $}
${  $d x ph $.  drop.1 $e |- A. x ph $.  ax-drop $a |- ph $.  $}
ax-9 $a |- ( x e. y -> A. x x e. y ) $.
ax-11 $a |- ( A. x A. y ph -> A. y A. x ph ) $.
wss $a wff A C_ B $.
${  $d x A $.  $d x B $.  df-ss $a |- ( A C_ B <-> A. x ( x e. A -> x e. B ) ) $.  $}
ssid $a |- A C_ A $.
cr $a class RR $.
cc $a class CC $.
ax-resscn $a |- RR C_ CC $.
same $p |- ( A. x A. x ph -> A. x A. x ph ) $= wph vx vx ax-11 $.
${  $d x y $.  $d y ph $.
  again.1 $e |- ph $.
  $( Comes there by way of a variable of its own. $)
  again $p |- A. x ph $= wph vx wal vy wph vy wal vx wal wph vx wal vy wal wph vy wal vx wph vy again.1 ax-gen ax-gen
    wph vx vy ax-11 ax-mp ax-drop $.
$}
two $p |- ( RR C_ CC <-> A. x ( x e. RR -> x e. CC ) ) $= vx cr cc df-ss $.
"""


class TestImport(Room):
    def setUp(self):
        super().setUp()
        self.put("little.mm", LITTLE)

    def whole(self, *options):
        said = self.mz("import", self.path("little.mm"), self.room, *options)
        return said, self.read("little.mm0")

    def test_whole(self):
        said, spec = self.whole()
        self.assertIn("accepted: 3 sorts, 7 terms, 10 axioms, 1 definitions, 4 theorems", said)
        self.assertIn("the same as little.mm: 8 terms", said)
        self.assertIn("term cv (x: setvar): class;\ncoercion cv: setvar > class;", spec)
        self.assertIn("--| Implication, ( ph -> ps ) .\nterm wi", spec)
        self.assertIn("def wss (A B: class) {.x: setvar}: wff = $ A. x ( x e. A -> x e. B ) $;", spec)

    def test_an_inclusion_is_no_definition(self):
        self.assertIn("axiom ax_resscn: $ RR C_ CC $;", self.whole()[1])

    def test_variables_that_are_one(self):
        _, spec = self.whole()
        self.assertIn("axiom ax_11 {x y: setvar} (ph: wff x y): $ ( A. x A. y ph -> A. y A. x ph ) $;", spec)
        self.assertIn("--| ax-11 where y is x: in the database two variables may be one, here bound ones are always different.\naxiom ax_11_b00 {x: setvar} (ph: wff x):", spec)
        self.assertIn("axiom ax_9 {x: setvar} (y: setvar x): $ ( x e. y -> A. x x e. y ) $;", spec)

    def test_conditions(self):
        self.assertIn("axiom ax_drop {x: setvar} (ph: wff): $ A. x ph $ > $ ph $;", self.whole()[1])

    def test_one_theorem(self):
        said = self.mz("import", self.path("little.mm"), self.room, "--theorem", "again")
        self.assertIn("accepted: 3 sorts, 2 terms, 4 axioms, 0 definitions, 1 theorems", said)
        self.assertIn("--| Comes there by way of a variable of its own.\ntheorem again {x: setvar} (ph: wff x): $ ph $ > $ A. x ph $;",
                      self.read("again.mm0"))

    def test_axioms_and_plain(self):
        said, spec = self.whole("--axioms", "--plain")
        self.assertIn("0 definitions", said)
        self.assertIn("axiom df_ss {x: setvar} (A B: class):", spec)
        self.assertNotIn("prec", spec)
        self.assertNotIn("coercion", spec)
        self.assertIn("$ wi (wcel (cv x) (cv y)) (wal x (wcel (cv x) (cv y))) $", spec.replace("( ", "(").replace(" )", ")"))

    def test_text(self):
        self.whole("--text")
        program = os.environ.get("MZ", os.path.join(TOP, "mz"))
        made = subprocess.run([program, "compile", self.path("little.mmu"), self.path("again.mmb")], text=True, check=False,
                              stdout=subprocess.PIPE)
        self.assertEqual(made.returncode, 0, made.stdout)

    def test_copies_are_explained_where_they_stand(self):
        self.put("little.mm", LITTLE + """swap $p |- ( A. x A. y ph -> A. y A. x ph ) $= wph vx vy ax-11 $.
            one $p |- ( A. x A. x ph -> A. x A. x ph ) $= wph vx vx swap $.""")
        self.whole("--text")
        why = "in the database two variables may be one, here bound ones are always different."
        self.assertIn(f"\n-- swap where y is x: {why}\n(local theorem swap_b00 ", self.read("little.mmu"))
        self.assertIn(f"\n-- ax-11 where y is x: {why}\n(axiom ax_11_b00 ", self.read("little.mmu"))

    def test_progress_is_for_a_terminal(self):
        words = [sys.executable, "-B", os.path.join(TOP, "scripts", "metamath"), "import", self.path("little.mm"), self.room]
        shown, terminal = os.openpty()
        subprocess.run(words, stdout=subprocess.DEVNULL, stderr=terminal, check=True)
        os.close(terminal)
        with open(shown, "rb", closefd=True, buffering=0) as file:
            said = file.read(10_000).decode()
        self.assertIn(f"reading {self.path('little.mm')}", said)
        self.assertIn("comparing with the database", said)
        self.assertEqual(subprocess.run(words, stdout=subprocess.DEVNULL, stderr=subprocess.PIPE, check=True).stderr, b"")

    def test_a_proof_that_is_open(self):
        self.put("little.mm", LITTLE.replace("$= vx cr cc df-ss $.", "$= vx cr ? df-ss $."))
        said, spec = self.whole()
        self.assertIn("left out: 1, its proof isn't finished: two", said)
        self.assertNotIn("theorem two", spec)

    def test_what_is_not_there(self):
        self.assertIn("there is no theorem nosuch", self.mz("import", self.path("little.mm"), self.room, "--theorem", "nosuch",
                                                            status=1))
