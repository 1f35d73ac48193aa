"""Tests of the reader, the printer, the proofs and the pages; those of pages of whole developments want the program."""
import os
import re
import subprocess
import sys
import tempfile
import unittest
from glob import glob

sys.dont_write_bytecode = True
TOP = os.path.dirname(os.path.dirname(os.path.dirname(os.path.dirname(os.path.abspath(__file__)))))
sys.path.insert(0, os.path.join(TOP, "scripts"))

import worked  # noqa: E402
from explore.check import dead_links  # noqa: E402
from explore.development import Development, judged  # noqa: E402
from explore.lexemes import Unreadable, comment_above  # noqa: E402
from explore.names import Names  # noqa: E402
from explore.notations import Notations  # noqa: E402
from explore.printer import Page, Printer, ReadBack, plain  # noqa: E402
from explore.program import Refused, run  # noqa: E402
from explore.proofs import Proof, outline  # noqa: E402
from explore.site import Site  # noqa: E402
from explore.specification import Reader, parameter_list, read_specification  # noqa: E402
from explore.texts import Text, nodes  # noqa: E402

NUMBERS = """delimiter $ ( ~ $ $ ) $;
provable sort wff; sort nat; sort set;
term eq (a b: nat): wff; infixl eq: $=$ prec 50;
term im (a b: wff): wff; infixr im: $->$ prec 25;
term not (a: wff): wff; prefix not: $~$ prec 41;
term add (a b: nat): nat; infixl add: $+$ prec 64;
term neg (a: nat): nat; prefix neg: $-$ prec 64;
term f (a b: nat): nat;
term all {x: nat} (p: wff x): wff; notation all {x: nat} (p: wff x): wff = ($A.$:41) x p;
term fact (a: nat): nat; notation fact (a: nat): nat = a ($!$:90) : 90 lassoc;
term single (a: nat): set; coercion single: nat > set;
term holds (a: set): wff; coercion holds: set > wff;
"""
TERMS = """(sort wff provable) (sort nat) (sort set)
(term eq ((a nat ()) (b nat ())) (wff ())) (term im ((a wff ()) (b wff ())) (wff ())) (term not ((a wff ())) (wff ()))
(term add ((a nat ()) (b nat ())) (nat ())) (term neg ((a nat ())) (nat ())) (term f ((a nat ()) (b nat ())) (nat ()))
(term all ((x nat) (p wff (x))) (wff ())) (term fact ((a nat ())) (nat ())) (term single ((a nat ())) (set ()))
(term holds ((a set ())) (wff ()))
"""
WRITTEN = {
    "(im (im a b) (im a b))": "(a -> b) -> a -> b",
    "(eq (add (add s t) s) (add s (add t s)))": "s + t + s = s + (t + s)",
    "(not (im a b))": "~(a -> b)",
    "(not (not a))": "~~a",
    "(eq (neg (add s t)) (add (neg s) t))": "- s + t = (- s) + t",
    "(eq (f s (f s t)) (add (f s t) s))": "f s (f s t) = f s t + s",
    "(im (all x a) (all x (im a b)))": "A. x a -> A. x (a -> b)",
    "(eq (fact (fact s)) (fact (add s t)))": "s ! ! = (s + t) !",
    "(holds (single s))": "s",
    "(im (holds (single s)) a)": "s -> a",
}


def program_is_there():
    try:
        return bool(run("verify", os.path.join(TOP, "examples/sort.mm0"), os.path.join(TOP, "examples/sort.mmb"),
                        environment={"MZ_BUILD": "never"}))
    except (Refused, OSError):
        return False


HAS_PROGRAM = program_is_there()
sys.setrecursionlimit(50_000)


class Comments(unittest.TestCase):
    def test_above(self):
        for text, wanted in (("-- One\n-- two\nsort s;", "One two"), ("-- Title\n--| First\n--| second\n-- third\nsort s;", "First second third"),
                             ("--| One\n\nsort s;", ""), ("sort s;", "")):
            self.assertEqual(comment_above(text, text.index("sort")), wanted)


class Tokens(unittest.TestCase):
    def test_cuts(self):
        notations = Notations()
        self.assertEqual([it for it, _ in notations.tokens(" f(x) +y ")], ["f(x)", "+y"])
        notations.delimit("(", ")")
        self.assertEqual(notations.tokens("f(x)+ y"), [("f(", 0), ("x", 2), (")+", 3), ("y", 6)])
        notations.delimit("+", "+")
        self.assertEqual([it for it, _ in notations.tokens("a+b)+(c")], ["a", "+", "b", ")", "+", "(", "c"])

    def test_token(self):
        notations = Notations()
        notations.delimit("-", ">")
        self.assertFalse(notations.is_token("->"))
        self.assertTrue(notations.is_token("="))


class Specifications(unittest.TestCase):
    def test_places(self):
        text = "provable sort wff;\n-- Says if.\n-- Twice.\nterm im (a b: wff): wff;\ninfixr im: $ -> $ prec 25;\n"
        statements, _ = read_specification(text)
        self.assertEqual(statements[1].about, "Says if. Twice.")
        for it in statements:
            for start, end, space, name in it.marks:
                self.assertEqual(text[start:end], "->" if text[start] == "-" else name, (space, name))
        self.assertEqual(statements[2].text, "infixr im: $ -> $ prec 25;")

    def test_goes_on(self):
        reader = Reader("sort wff; term a: no; provable sort nat; axiom x (b: nat): $ y $;", goes_on=True)
        self.assertEqual([it.name for it in reader.read()], ["wff", "nat", "x"])
        self.assertEqual([it.at for it in reader.faults], [18, 61])
        self.assertEqual(reader.unread, [([(15, 16, "term", "a")], {})])

    def test_parameters(self):
        statements, _ = read_specification("sort s; sort t; term f {x y: s} (a b: t x) (c: t y) (d: s): t;")
        self.assertEqual(parameter_list(statements[2].parameters), "{x y: s} (a b: t x) (c: t y) (d: s)")

    def test_examples_are_read(self):
        wrong = {"infix_of_one", "input", "no_lexeme", "no_notation", "no_operator", "no_provable_sort", "no_semicolon",
                 "tab", "unknown_sort", "wrong_sort"}
        for path in glob(os.path.join(TOP, "examples/**/*.mm0"), recursive=True):
            with open(path, encoding="latin-1") as file:
                text = file.read()
            name = os.path.basename(path)[:-4]
            with self.subTest(name):
                try:
                    read_specification(text)
                    self.assertNotIn(name, wrong)
                except Unreadable:
                    self.assertIn(name, wrong)


class Formulas(unittest.TestCase):
    def setUp(self):
        self.statements, self.theory = read_specification(NUMBERS)
        self.printer = Printer(self.theory)
        self.read_back = ReadBack(self.printer)

    def assertion(self, text, is_made=False):
        statements = Text(TERMS + text, self.theory, Names(self.statements, self.theory, is_made)).statements()
        for made in statements:
            if hasattr(made, "written"):
                self.read_back.add(made)
        return made

    def printed(self, formula):
        made = self.assertion(f"(local theorem t ((a wff ()) (b wff ()) (s nat ()) (t nat ()) (x nat)) ((h {formula})) a () h)")
        number = made.trees.instance(made.hypotheses[0], range(5))
        html = Page(self.printer, made.trees).formula(number)
        self.read_back.check(made.trees, number, html)
        return made, number, plain(html)

    def test_written(self):
        for formula, wanted in WRITTEN.items():
            with self.subTest(formula):
                self.assertEqual(self.printed(formula)[2], wanted)

    def test_other_formula_is_told(self):
        made, number, _ = self.printed("(im (im a b) a)")
        for wrong in ("a -> b -> a", "(a -> b) -> b", "(a -> b", "a -> c"):
            with self.subTest(wrong), self.assertRaises(AssertionError):
                self.read_back.check(made.trees, number, wrong)

    def test_names_that_clash(self):
        made = self.assertion("(local def g ((f nat ())) (nat ()) () (f f f))(local theorem t ((g nat ()) (eq nat ())) "
                              "((h (eq (g eq) (f eq g)))) (eq g g) () h)")
        number = made.trees.instance(made.hypotheses[0], range(2))
        html = Page(self.printer, made.trees).formula(number)
        self.read_back.check(made.trees, number, html)
        self.assertEqual(plain(html), "g eq1 = f eq1 g1")

    def test_names_that_are_made(self):
        made = self.assertion("(local theorem t ((_v0 wff ()) (_v1 wff ()) (_v2 nat)) () (im _v0 _v1) () _h0)", True)
        self.assertEqual([it.name for it in made.parameters], ["a", "p", "x"])  # as the specification calls those of a sort


class Nodes(unittest.TestCase):
    def test_nodes(self):
        self.assertEqual(list(nodes("(a--b (c) -- d)\n ())(e)")), [["a--b", ["c"], []], ["e"]])

    def test_open(self):
        with self.assertRaises(ValueError):
            list(nodes("(a (b)"))


class Proofs(unittest.TestCase):
    """A proof of the theorem `one`, over NUMBERS; `h` is its hypothesis, and what it proves in the end stands behind it."""

    def proof(self, body):
        statements, theory = read_specification(NUMBERS)
        text = Text(TERMS + "(local axiom k ((a wff ()) (b wff ())) (a) (im b a))"
                    f"(local theorem one ((a wff ()) (b wff ())) ((h a)) (im b (im b a)) () {body})", theory, Names(statements, theory))
        *_, theorem = text.statements()
        return Proof(text, theorem), outline(text, theorem)

    def test_lets(self):
        """Of each: the steps, and what is cited. A let may have the name of a hypothesis, or of another let."""
        twice = "(k ((im b a) b) (k (a b) h))"
        cases = [(twice, 3), (f"(:let l (k (a b) h) (k ((im b a) b) l))", 3), (f"(:let l (k (b b) h) {twice})", 3),
                 ("(:let h (k (a b) h) (k ((im b a) b) h))", 3), ("(:let l h (:let l (k (a b) l) (k ((im b a) b) l)))", 3),
                 ("(:let l (:let m (k (a b) h) m) (:let m h (:let n (k (a b) m) (k ((im b a) b) l))))", 3)]
        for body, steps in cases:
            proof, known = self.proof(body)
            self.assertEqual(([it.kind for it in proof.steps], proof.steps[proof.last].says), (["hypothesis", "cited", "cited"][:steps], proof.conclusion), body)
            self.assertEqual((known.cited, known.unfolded, known.has_gap), (proof.cited, [], False), body)

    def test_an_outline_says_what_the_proof_says(self):
        sources = glob(os.path.join(TOP, "examples", "*", "*.proofs"))
        self.assertGreater(len(sources), 4)
        for path in sources:
            base = os.path.splitext(path)[0]
            with open(base + ".mm0", encoding="ascii") as spec, open(base + ".mmu", encoding="ascii") as source:
                statements, theory = read_specification(spec.read())
                text = Text(source.read(), theory, Names(statements, theory))
            for it in text.statements():
                if getattr(it, "node", None):
                    proof, known = Proof(text, it), outline(text, it)
                    self.assertEqual((set(known.cited), known.unfolded, known.has_gap), (set(proof.cited), proof.unfolded, proof.has_gap), it.name)


class Pages(unittest.TestCase):
    def written(self, development, check):
        with tempfile.TemporaryDirectory() as folder:
            counts = Site(development, folder).write()
            count, dead = dead_links(folder)
            self.assertEqual(dead, [])
            self.assertGreater(count, counts.pages)
            check(counts, lambda path: self.page(folder, path))

    def page(self, folder, path):
        with open(os.path.join(folder, path), encoding="utf-8") as file:
            return file.read()

    def draft(self):
        spec = ("provable sort wff; term im (a b: wff): wff; axiom one (a: wff): $ im a a $; "
                "theorem two (a: wff): $ im a a $; theorem three (a: wff): $ im a a $ > $ im a a $;")
        text = ("(sort wff provable)(term im ((a wff ()) (b wff ())) (wff ()))(axiom one ((a wff ())) () (im a a))"
                "(theorem two ((c wff ())) () (im c c) () (:sorry (im c c)))"
                "(theorem three ((a wff ())) ((h (im a a))) (im a a) () (:let k (two (a)) (:let l (one (a)) k)))")
        return Development("d", spec, text, False, "draft: 2 of 2 theorems rest on a gap", frozenset(["two", "three"]))

    def test_draft(self):
        def check(counts, page):
            self.assertEqual((counts.theorems, counts.steps), (2, 2))
            self.assertIn("This proof has a gap.", page("theorems/two.html"))
            three = page("theorems/three.html")
            self.assertIn('rests on a gap, by <a href="../theorems/two.html">two</a>', three)
            self.assertNotIn(">one<", three.partition("<h2>Proof")[2])  # a let that isn't named is no step
            self.assertIn("Cited by", page("theorems/two.html"))
            self.assertEqual(page("index.html").count("<span class=gap>gap</span>"), 2)
        self.written(self.draft(), check)

    def test_gap_that_isnt_told(self):
        development = self.draft()
        development.gaps = frozenset()
        with tempfile.TemporaryDirectory() as folder, self.assertRaises(AssertionError):
            Site(development, folder).write()

    def test_dead_link(self):
        with tempfile.TemporaryDirectory() as folder:
            for name, text in (("a.html", "<a href=b.html#c>1</a><a href=#d>2</a><a href=e.html>3</a>"), ("b.html", "<p id=f>")):
                with open(os.path.join(folder, name), "w", encoding="utf-8") as file:
                    file.write(text)
            count, dead = dead_links(folder)
            self.assertEqual((count, sorted(it for _, it in dead)), (3, ["#d", "b.html#c", "e.html"]))

    def test_a_file_where_a_folder_belongs(self):
        with tempfile.NamedTemporaryFile() as file:
            words = [sys.executable, "-B", os.path.join(TOP, "scripts", "explore"), "no.mm0", "no.mmb", file.name]
            ran = subprocess.run(words, capture_output=True, text=True, check=False)
        self.assertEqual((ran.returncode, ran.stdout, ran.stderr), (3, "", f"{file.name} is no folder\n"))

    def test_names_that_differ_by_capitals(self):
        development = self.draft()
        development.specification = development.specification.replace("three", "TWO")
        development.gaps = frozenset(["two", "TWO"])
        self.written(development, lambda counts, page: self.assertIn("TWO", page("theorems/TWO-2.html")))

    @unittest.skipUnless(HAS_PROGRAM, "mz isn't built")
    def test_developments(self):
        folders = glob(os.path.join(TOP, "examples", "*", "*.proofs"))
        self.assertGreaterEqual(len(folders), 4)
        for folder in map(os.path.dirname, folders):
            name = os.path.basename(folder)
            path = os.path.join(folder, name)
            for ending in (".mmb", ".mmu"):
                with self.subTest(name + ending):
                    self.written(judged(path + ".mm0", path + ending), self.check_development(path))

    def check_development(self, path):
        with open(path + ".mm0", encoding="ascii") as file:
            names = re.findall(r"^(?:theorem|axiom) (\w+)", file.read(), re.M)

        def check(counts, page):
            index = page("index.html")
            for name in names:
                self.assertIn(f'<a href="theorems/{name}.html">{name}</a>', index)
                self.assertIn(f"</small>{name}</h1>", page(f"theorems/{name}.html"))
            self.assertGreater(counts.formulas, counts.steps)
        return check

    @unittest.skipUnless(HAS_PROGRAM, "mz isn't built")
    def test_accepted_examples(self):
        examples = [*worked.of_file(), *worked.of_page(os.path.join(worked.FOLDER, "README.md"))]
        accepted = [it.command for it in examples if it.printed.startswith("accepted")]
        pairs = [it.split()[2:] for it in accepted if re.match(r"\./mz verify examples/\S+ examples/", it)]
        self.assertGreater(len(pairs), 10)
        for specification, binary in pairs:
            with self.subTest(binary):
                if binary.endswith("exponential.mmb"):  # written out, its text would be too long
                    with self.assertRaises(Refused):
                        judged(os.path.join(TOP, specification), os.path.join(TOP, binary))
                    continue
                development = judged(os.path.join(TOP, specification), os.path.join(TOP, binary))
                self.written(development, lambda counts, page: self.assertIn("accepted", page("index.html")))

    @unittest.skipUnless(HAS_PROGRAM, "mz isn't built")
    def test_refused(self):
        examples = os.path.join(TOP, "examples")
        with self.assertRaises(Refused) as caught:
            judged(os.path.join(examples, "other_claim.mm0"), os.path.join(examples, "double_negation.mmb"))
        self.assertIn("refused: match", str(caught.exception))


if __name__ == "__main__":
    unittest.main()
