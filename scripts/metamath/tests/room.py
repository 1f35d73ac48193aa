"""What the tests of `export` and `same` share: a little database, and a folder in which the commands are run."""
import os
import subprocess
import sys
import tempfile
import unittest

TOP = os.path.dirname(os.path.dirname(os.path.dirname(os.path.dirname(os.path.abspath(__file__)))))
EXAMPLES = os.path.join(TOP, "examples")
LITTLE = """
$c ( ) |- wff setvar class -> <-> A. e. C_ RR CC { | } $.
$v ph ps x y A B $.
wph $f wff ph $.  wps $f wff ps $.  vx $f setvar x $.  vy $f setvar y $.  cA $f class A $.  cB $f class B $.
wi $a wff ( ph -> ps ) $.
wb $a wff ( ph <-> ps ) $.
wal $a wff A. x ph $.
cv $a class x $.
wcel $a wff A e. B $.
biid $a |- ( ph <-> ph ) $.
${  bicomi.1 $e |- ( ph <-> ps ) $.  bicomi $a |- ( ps <-> ph ) $.  $}
${  mp.1 $e |- ph $.  mp.2 $e |- ( ph -> ps ) $.  ax-mp $a |- ps $.  $}
${  gen.1 $e |- ph $.  ax-gen $a |- A. x ph $.  $}
${  $d x ph $.  drop.1 $e |- A. x ph $.  ax-drop $a |- ph $.  $}
ax-9 $a |- ( x e. y -> A. x x e. y ) $.
ax-11 $a |- ( A. x A. y ph -> A. y A. x ph ) $.
wss $a wff A C_ B $.
${  $d x A $.  $d x B $.  df-ss $a |- ( A C_ B <-> A. x ( x e. A -> x e. B ) ) $.  $}
wsub $a wff { x | A } ph $.
df-sub $a |- ( { x | A } ph <-> ( A e. A -> A. x ph ) ) $.
cr $a class RR $.
cc $a class CC $.
ax-resscn $a |- RR C_ CC $.
two $p |- ( RR C_ CC <-> A. x ( x e. RR -> x e. CC ) ) $= vx cr cc df-ss $.
sub $p |- ( { x | RR } ph <-> ( RR e. RR -> A. x ph ) ) $= wph vx cr df-sub $.
"""


class Room(unittest.TestCase):
    """A folder that is removed again, with the little database in it."""

    def setUp(self):
        room = tempfile.TemporaryDirectory(prefix="metamath-tests-")
        self.addCleanup(room.cleanup)
        self.room = room.name
        self.put("little.mm", LITTLE)

    def path(self, name):
        return os.path.join(self.room, name)

    def put(self, name, text):
        with open(self.path(name), "w", encoding="ascii") as file:
            file.write(text)

    def read(self, name):
        with open(self.path(name), encoding="ascii") as file:
            return file.read()

    def mz(self, *words, status=0, environment=None):
        """What a command prints."""
        made = subprocess.run([sys.executable, "-B", os.path.join(TOP, "scripts", "metamath"), *words], text=True, check=False,
                              stdout=subprocess.PIPE, stderr=subprocess.PIPE, env={**os.environ, **(environment or {})})
        self.assertEqual(made.returncode, status, made.stdout + made.stderr)
        self.assertNotIn("Traceback", made.stderr)
        return made.stdout + made.stderr
