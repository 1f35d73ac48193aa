"""Tests of `same`: what is changed in a specification is seen."""
import re
import subprocess

from explore.lexemes import Unreadable
from explore.program import program
from explore.specification import Assertion, Notation, Sort, Term, read_specification

from metamath.checking import Check
from metamath.original import Database
from metamath.tests.room import LITTLE, TOP, Room

# Written by hand as what the little database says, in the translator's form.
SPECIFICATION = """
strict provable sort wff;
pure sort setvar;
strict sort class;
term wb (ph ps: wff): wff;
infixl wb: $<->$ prec 20;
axiom biid (ph: wff): $ ( ph <-> ph ) $;
axiom bicomi (ph ps: wff): $ ( ph <-> ps ) $ > $ ( ps <-> ph ) $;
term wi (ph ps: wff): wff;
infixr wi: $->$ prec 25;
axiom ax_mp (ph ps: wff): $ ph $ > $ ( ph -> ps ) $ > $ ps $;
term wal {x: setvar} (ph: wff x): wff;
prefix wal: $A.$ prec 41;
axiom ax_gen {x: setvar} (ph: wff x): $ ph $ > $ A. x ph $;
axiom ax_drop {x: setvar} (ph: wff): $ A. x ph $ > $ ph $;
term cv (x: setvar): class;
coercion cv: setvar > class;
term wcel (A B: class): wff;
infixl wcel: $e.$ prec 50;
axiom ax_9 {x: setvar} (y: setvar x): $ ( x e. y -> A. x x e. y ) $;
axiom ax_11 {x y: setvar} (ph: wff x y): $ ( A. x A. y ph -> A. y A. x ph ) $;
axiom ax_11_b00 {x: setvar} (ph: wff x): $ ( A. x A. x ph -> A. x A. x ph ) $;
def wss (A B: class) {.x: setvar}: wff = $ A. x ( x e. A -> x e. B ) $;
infixl wss: $C_$ prec 50;
theorem df_ss {x: setvar} (A B: class): $ ( A C_ B <-> A. x ( x e. A -> x e. B ) ) $;
def wsub {x: setvar} (A: class) (ph: wff x): wff = $ ( A e. A -> A. x ph ) $;
notation wsub {x: setvar} (A: class) (ph: wff x): wff = (${$: 41) x ($|$: 0) A ($}$: 0) ph;
theorem df_sub {x: setvar} (ph: wff x) (A: class x): $ ( { x | A } ph <-> ( A e. A -> A. x ph ) ) $;
term cr: class;
prefix cr: $RR$ prec max;
term cc: class;
prefix cc: $CC$ prec max;
axiom ax_resscn: $ RR C_ CC $;
theorem two {x: setvar}: $ ( RR C_ CC <-> A. x ( x e. RR -> x e. CC ) ) $;
theorem sub {x: setvar} (ph: wff x): $ ( { x | RR } ph <-> ( RR e. RR -> A. x ph ) ) $;
"""


def compared(specification, database=LITTLE):
    return Check(Database(database)).run(specification)


class TestSame(Room):
    def changed(self, *pairs, database=LITTLE):
        """The faults of the specification with each of these changed."""
        made = SPECIFICATION
        for old, new in pairs:
            self.assertIn(old, made)
            made = made.replace(old, new)
        return compared(made, database).faults

    def test_nothing(self):
        report = compared(SPECIFICATION)
        self.assertEqual((report.faults, report.dropped, report.written), ([], [], []))
        # 9 terms, of which wss and wsub are definitions; 9 axioms of the database but the two definitions' and an instance
        self.assertEqual((report.terms, report.definitions, report.axioms, report.theorems, report.copies), (9, 2, 8, 4, 1))

    def test_a_statement(self):
        self.assertEqual(self.changed(("A. y ph -> A. y A. x ph", "A. y ph -> A. x A. y ph")), ["ax_11: the statement differs"])

    def test_a_hypothesis(self):
        self.assertEqual(self.changed(("$ ph $ > $ ( ph -> ps ) $ > $ ps $", "$ ( ph -> ps ) $ > $ ph $ > $ ps $")),
                         ["ax_mp: the statement differs"])

    def test_a_condition(self):
        self.assertEqual(self.changed(("(ph: wff): $ A. x ph $ > $ ph $", "(ph: wff x): $ A. x ph $ > $ ph $")),
                         ["ax_drop: whether ph may depend on x differs"])

    def test_a_condition_that_cannot_be_said(self):
        kept_apart = LITTLE.replace("ax-resscn", "${  $d A B $.  ax-apart $a |- ( A e. B -> B e. A ) $.  $}  ax-resscn")
        kept_apart += "${  $d ph ps $.  apart $p |- ( ph <-> ph ) $= wph biid $.  $}"
        spec = SPECIFICATION + "axiom ax_apart (A B: class): $ ( A e. B -> B e. A ) $;\n"
        self.assertEqual(compared(spec, kept_apart).faults,
                         ["ax_apart: an axiom whose regular variables the database keeps apart: it says more here"])
        proved = LITTLE + "${  $d ph ps $.  back.1 $e |- ( ph <-> ps ) $.  back $p |- ( ps <-> ph ) $= wph wps back.1 bicomi $.  $}"
        report = compared(SPECIFICATION + "theorem back (ph ps: wff): $ ( ph <-> ps ) $ > $ ( ps <-> ph ) $;", proved)
        self.assertEqual((report.faults, report.dropped), ([], [("back", ["ph ps"])]))

    def test_an_axiom_that_is_none(self):
        self.assertEqual(self.changed(("theorem two", "axiom two")), ["two: an axiom here, and a theorem there"])

    def test_an_instance(self):
        self.assertEqual(self.changed(("( A. x A. x ph -> A. x A. x ph ) $;\ndef", "( A. x A. x ph -> A. x ph ) $;\ndef")),
                         ["ax_11_b00: the statement isn't one with variables made one"])

    def test_a_definition(self):
        self.assertEqual(self.changed(("= $ A. x ( x e. A -> x e. B ) $", "= $ A. x ( x e. B -> x e. A ) $")),
                         ["wss: no axiom of the database is this definition"])

    def test_a_definition_that_is_none(self):
        faults = self.changed(("axiom ax_resscn: $ RR C_ CC $;", ""), ("term cr: class;", ""), ("prefix cr: $RR$ prec max;", ""),
                              ("prefix cc: $CC$ prec max;", "prefix cc: $CC$ prec max; def cr: class = $ CC $; prefix cr: $RR$ prec max;"))
        self.assertEqual(faults, ["cr: no axiom of the database is this definition"])

    def test_a_relation_that_is_not_symmetric(self):
        asymmetric = LITTLE.replace("bicomi $a |- ( ps <-> ph )", "bicomi $a |- ( ph <-> ps )")
        self.assertIn("wss: no axiom of the database is this definition", self.changed(database=asymmetric))

    def test_a_sign_that_only_export_gives_a_meaning(self):
        database = LITTLE + "$c := T $. wbe $a wff A := B $. ct $a class T $. df-t $a |- T := RR $."
        spec = SPECIFICATION + "term wbe (A B: class): wff; infixl wbe: $:=$ prec 50; def ct: class = $ RR $; prefix ct: $T$ prec max;"
        self.assertEqual(compared(spec, database).faults, ["ct: no axiom of the database is this definition"])

    def test_a_hypothesis_of_another_typecode(self):
        odd = LITTLE + "${  odd.1 $e wff ( ph -> $.  odd $a |- ps $.  $}"
        self.assertEqual(compared(SPECIFICATION, odd).faults, [])
        self.assertEqual(compared(SPECIFICATION + "axiom odd (ps: wff): $ ps $;", odd).faults, ["odd: a hypothesis there isn't of what is proved"])

    def test_a_dummy_that_is_not_kept_apart(self):
        self.assertIn("wss: no axiom of the database is this definition", self.changed(database=LITTLE.replace("$d x B $.", "")))

    def test_on_what_parameters_depend(self):
        self.assertEqual(self.changed(("def wsub {x: setvar} (A: class)", "def wsub {x: setvar} (A: class x)")),
                         ["wsub: A depends on x, and should on nothing"])
        self.assertEqual(self.changed(("(A: class) (ph: wff x): wff = $", "(A: class) (ph: wff): wff = $")),
                         ["wsub: ph depends on nothing, and should on x"])
        self.assertEqual(self.changed(("term wal {x: setvar} (ph: wff x): wff;", "term wal {x: setvar} (ph: wff): wff;"))[0],
                         "wal: ph depends on nothing, and should on x")
        self.assertEqual(self.changed(("term wal {x: setvar} (ph: wff x): wff;", "term wal {x: setvar} (ph: wff x): wff x;"))[0],
                         "wal: the result depends on x, and should on nothing")

    def test_notations(self):
        turned = {"->": "<->", "<->": "->"}
        made = re.sub("<->|->", lambda it: turned[it[0]], SPECIFICATION)
        self.assertEqual(compared(made).faults, ["wb: written with ->, as the database writes wi", "wi: written with <->, as the database writes wb"])
        two_orders = SPECIFICATION.replace("infixl wcel", "notation wcel (A B: class): wff = ($B.$: 50) B ($in$: 50) A; infixl wcel")
        self.assertEqual(compared(two_orders).faults[0], "wcel: written in two orders")
        report = compared(SPECIFICATION.replace("$C_$", "$C__$").replace("C_ ", "C__ "))
        self.assertEqual((report.faults, report.written), ([], [("wss", "A C_ B", "A C__ B")]))

    def test_abbreviations(self):
        database = LITTLE + "$c <_ $. $v R $. cR $f class R $. wbr $a wff A R B $. cle $a class <_ $. ax-le $a |- RR <_ CC $."
        spec = SPECIFICATION + """term wbr (A R B: class): wff; notation wbr (A R B: class): wff = ($(.$: max) A R B ($.)$: 0);
            term cle: class; prefix cle: $<_$ prec max; def cle_wbr (A B: class): wff = $ (. A ( <_ ) B .) $;
            infixl cle_wbr: $<_$ prec 50; axiom ax_le: $ RR <_ CC $;"""
        report = compared(spec, database)
        self.assertEqual((report.faults, report.short, report.written), ([], ["cle_wbr"], [("wbr", "A R B", "(. A R B .)")]))
        turned = spec.replace("(. A ( <_ ) B .)", "(. B ( <_ ) A .)")
        self.assertEqual(compared(turned, database).faults, ["cle_wbr: written otherwise than what it abbreviates", "ax_le: the statement differs"])

    def test_a_coercion(self):
        spec = SPECIFICATION + "term wif (A: class): wff; coercion wif: class > wff;"
        self.assertEqual(compared(spec, LITTLE + "$c B. $. wif $a wff B. A $.").faults, ["wif: a coercion here, and written in the database"])
        self.assertEqual(compared(spec, LITTLE + "wif $a wff A $.").faults, [])

    def test_another_name(self):
        self.assertEqual(self.changed(("axiom ax_gen", "axiom ax_gem")), ["ax_gem: the database has no such statement"])

    def test_each_change(self):
        """Each change of a symbol or of a dependency that makes another right specification is seen."""
        seen, original = 0, meaning(SPECIFICATION)
        for made in changes(SPECIFICATION):
            if meaning(made) not in (None, original) and self.is_right(made):
                seen += 1
                self.assertNotEqual(compared(made).faults, [], made)
        self.assertGreater(seen, 60)

    def is_right(self, specification):
        """Whether the program takes it, beside a binary that says nothing: then only the match refuses."""
        self.put("changed.mm0", specification)
        words = [program(), "verify", self.path("changed.mm0"), f"{TOP}/examples/empty.mmb"]
        return subprocess.run(words, stdout=subprocess.PIPE, text=True, check=False).stdout.startswith("refused: match")


class TestCommand(Room):
    def setUp(self):
        super().setUp()
        self.put("spec.mm0", SPECIFICATION)

    def same(self, *more, status=0, spec="spec.mm0", database="little.mm"):
        return self.mz("same", self.path(spec), self.path(database), *more, status=status)

    def test_what_it_says(self):
        self.assertEqual(self.same(), "the same as little.mm: 9 terms, 2 definitions, 8 axioms, 4 theorems, 1 instance\n")
        self.put("spec.mm0", SPECIFICATION.replace("ax_gen", "ax_gem"))
        self.assertEqual(self.same(status=1), "differs: ax_gem: the database has no such statement\n"
                                              "not the same as little.mm: 1 statement of the specification\n")

    def test_included_files(self):
        self.put("head.mm", LITTLE.partition("ax-9")[0])
        self.put("tail.mm", "$[ head.mm $] $( again: $) $[ head.mm $] ax-9" + LITTLE.partition("ax-9")[2])
        self.assertIn("the same as tail.mm: 9 terms", self.same(database="tail.mm"))

    def test_bad_input(self):
        self.assertIn("nosuch.mm can't be read: No such file or directory\n", self.same(database="nosuch.mm", status=3))
        self.assertIn("nosuch.mm0 can't be read: No such file or directory\n", self.same(spec="nosuch.mm0", status=3))
        self.assertIn("can't be read: Is a directory\n", self.mz("same", self.room, self.path("little.mm"), status=3))
        self.put("bad.mm0", SPECIFICATION + "axiom what: $ RR RR $;")
        lines = SPECIFICATION.count("\n") + 1
        self.assertIn(f"bad.mm0:{lines}:18: 'RR' can't stand here\n", self.same(spec="bad.mm0", status=1))
        for cut in ("${ $d x ph $.", "$}", "ax-what $a |-", "nonsense $."):
            self.put("bad.mm", LITTLE + cut)
            self.assertRegex(self.same(database="bad.mm", status=1), r"^mz same: \S+ is no Metamath database: behind sub .*\n$")
        self.put("bad.mm", "")
        self.assertIn("differs: wff: the database has no such typecode\n", self.same(database="bad.mm", status=1))
        self.assertIn("usage: mz ", self.mz("same", self.path("spec.mm0"), status=2))


def changes(text):
    """Texts with one symbol replaced by one of its kind, or with one dependency more or fewer."""
    lines = text.split("\n")
    for number, line in enumerate(lines):
        for made in (*other_symbols(line), *other_dependencies(line)):
            yield "\n".join([*lines[:number], made, *lines[number + 1 :]])


def other_symbols(line):
    if not line.startswith(("axiom", "theorem", "def")):
        return
    for kind in (("ph", "ps"), ("x", "y"), ("A", "B"), ("->", "<->"), ("e.", "C_"), ("RR", "CC")):
        for found in re.finditer(r"\S+", line):
            if found[0] in kind:
                yield line[: found.start()] + kind[1 - kind.index(found[0])] + line[found.end() :]


def other_dependencies(line):
    bound = re.findall(r"\{(\w+)(?: (\w+))?: setvar\}", line)
    for found in re.finditer(r"(wff|class|setvar)((?: \w+)*)(?=[);]| =)", line):
        for name in filter(None, sum(bound, ())):
            needs = found[2].split()
            needs = [it for it in needs if it != name] if name in needs else [*needs, name]
            yield line[: found.start()] + " ".join([found[1], *needs]) + line[found.end() :]


def meaning(text):
    """What a specification says, without names of variables and without its notations; None where it can't be read."""
    try:
        declarations, _ = read_specification(text)
    except (Unreadable, KeyError, ValueError):
        return None
    return [said(it) for it in declarations if not isinstance(it, Notation)]


def said(it):
    if isinstance(it, Sort):
        return it.name
    variables = [*it.parameters, *getattr(it, "dummies", [])]
    number = {v.name: i for i, v in enumerate(variables)}
    of = lambda tree: number.get(tree, tree) if isinstance(tree, str) else (tree[0], *map(of, tree[1:]))
    types = [(v.sort, v.bound, {number.get(x, -1) for x in v.needs}) for v in variables]
    if isinstance(it, Term):
        return it.kind, it.name, types, it.sort, {number.get(x, -1) for x in it.needs}, it.body and of(it.body)
    assert isinstance(it, Assertion)
    return it.kind, it.name, types, [of(x) for _, x in it.hypotheses], of(it.conclusion)
