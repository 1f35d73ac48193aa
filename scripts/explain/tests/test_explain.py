"""Tries the explanations: that they are never missing, and what they say of cases that the examples don't have."""
import contextlib
import io
import os
import tempfile
import unittest

import explain
from explain import rules, telling
from explain.lines import Refusal
from explain.source import Source

TOP = os.path.dirname(os.path.dirname(os.path.dirname(os.path.dirname(os.path.abspath(__file__)))))
EXAMPLES = os.path.join(TOP, "examples")
PROLOGUE = """delimiter $ ( $ $ ) $;
strict provable sort wff;
sort nat;
sort set;
term im (a b: wff): wff;
infixr im: $->$ prec 25;
term not (a: wff): wff;
prefix not: $~$ prec 41;
term all {x: nat} (p: wff x): wff;
notation all {x: nat} (p: wff x): wff = ($A.$:41) x p;
term eq (a b: nat): wff;
infixl eq: $=$ prec 50;
"""
TEXT = """(sort wff provable)
(sort nat)
(term im ((a wff ()) (b wff ())) (wff ()))
(term all ((x nat) (p wff (x))) (wff ()))
(def no ((a wff ())) (wff ()) ((x nat)) (im a (all x a)))
(axiom ax_mp ((a wff ()) (b wff ())) ((im a b) a) b)
(axiom ax_1 ((a wff ()) (b wff ())) () (im a (im b a)))
"""


class Folder(unittest.TestCase):
    def setUp(self):
        room = tempfile.TemporaryDirectory()
        self.addCleanup(room.cleanup)
        self.room = room.name

    def write(self, name, text):
        path = os.path.join(self.room, name)
        with open(path, "wb") as file:
            file.write(text.encode("latin-1") if isinstance(text, str) else text)
        return path


class Specifications(Folder):
    """What is said of a specification: PROLOGUE, and a statement behind it; the place is that of a piece of the text."""

    def said(self, more, code, piece=None):
        text = PROLOGUE + more
        at = text.rindex(piece) if piece else len(PROLOGUE)
        path = self.write("a.mm0", text)
        return explain.refusal(f"refused: specification statement 13 at byte {at}: {code} words", ["verify", path, path])

    def test_a_token_of_several(self):
        self.assertIn("the token is `x->x`\n  parted it is x -> x", self.said("axiom a (x: wff): $ x->x $;", "S9", "x->x"))

    def test_a_parenthesis_without_a_delimiter(self):
        path = self.write("b.mm0", "sort s;\nterm f (a: s): s;\naxiom k (p: s): $ f (f p) $;\n")
        said = explain.refusal("refused: specification statement 3 at byte 46: S9 words", ["verify", path, path])
        self.assertIn("the token is `(f`\n  parted it is ( f: write it so, with spaces\n  no `delimiter` is declared, so that spaces alone", said)

    def test_a_dollar_that_is_forgotten(self):
        said = self.said("axiom a (x: wff): $ x -> x ;\naxiom b (x: wff): $ x $;", "S3", "x $;")
        self.assertIn("a.mm0:13:19 runs on into the next statement: a $ is likely missing in `$ x -> x ;`", said)

    def test_a_token_whose_notation_comes_later(self):
        self.assertIn("declared only later, on line 14", self.said("axiom a (x: nat): $ x + x $;\ninfixl plus: $+$ prec 60;", "S9", "+ x"))

    def test_the_level_that_clashes(self):
        said = self.said("infixl im: $&$ prec 25;", "S12")
        self.assertIn("precedence 25 groups to the right since line 6", said)

    def test_the_constant_that_clashes(self):
        self.assertIn("`->` has precedence 25 since line 6, `infixr im: $->$ prec 25;`; here it is to have 30", self.said("infixr im: $->$ prec 30;", "S12"))

    def test_what_the_grammar_wants(self):
        cases = [
            ("axiom a (x: wff) $ x $;", "$ x", "{, (, :"),
            ("infixl im: $&$ 25;", "25", "prec"),
            ("term t (x wff): wff;", "wff)", "a name, :"),
            ("def d: wff $ x $;", "$ x", "a name, =, ;"),
            ("notation im (a b: wff): wff = a;;", ";;", ""),
            ("coercion c: nat wff;", "wff;", ">"),
        ]
        for text, piece, wanted in cases:
            with self.subTest(text):
                said = self.said(text, "S3", piece)
                self.assertIn("belongs: " + wanted, said)

    def test_a_keyword_that_is_near(self):
        self.assertIn("near it: theorem", self.said("theorm a: $ b $;", "S3", "theorm"))

    def test_where_reading_stops(self):
        for text, wanted in (("axiom a (x: wff): $ x -> $;", "behind the last of 2 tokens: the string ends, and an operand belongs here"), ("axiom a (x: wff): $ ( x -> x $;", "behind the last of 4 tokens: the string ends, and a `)` for the `(` of token 1 belongs here"),
                             ("axiom a (x: wff): $ -> x $;", "`->` stands between two operands"), ("axiom a (x: wff): $ x x $;", "behind `x` an infix constant or the end belongs, and not `x`"),
                             ("axiom a {x: nat} (p: wff): $ A. x ( p -> p ) ) $;", "`)` closes nothing")):
            with self.subTest(text):
                self.assertIn(wanted, self.said(text, "S10", text[text.index("$") :]))

    def test_sorts_of_operands(self):
        self.assertIn("eq wants for a the sort nat", self.said("axiom a (x: wff): $ x = x $;", "S11", "$ x"))
        self.assertIn("all binds x: a bound variable of the sort nat belongs there, and not the regular variable y", self.said("axiom a (y: nat) (p: wff): $ A. y p $;", "S11", "$ A"))

    def test_binders(self):
        self.assertIn("x is bound, and the sort wff is strict", self.said("term t {x: wff}: wff;", "S6"))
        self.assertIn("p can depend on bound variables before it alone (there are none), and x is none", self.said("term t (p: wff x) {x: nat}: wff;", "S6"))

    def test_coercions(self):
        text = "term c (a: nat): set;\nterm d (a: set): wff;\nterm e (a: nat): wff;\ncoercion c: nat > set;\ncoercion d: set > wff;\ncoercion e: nat > wff;"
        said = self.said(text, "S14", "coercion e")
        self.assertIn("there is already: nat > set by c (line 16), set > wff by d (line 17)", said)

    def test_a_byte_by_name(self):
        self.assertIn("a carriage return: the file has line ends of Windows", self.said("sort x;\r\n", "S1", "\r"))
        path = self.write("b.mm0", "sort x; -- \u00e9".encode("utf-8"))
        self.assertIn("the letter \u00e9 (U+00E9)", explain.refusal("refused: specification statement 2 at byte 11: S1 character", ["verify", path, path]))


class Kinds(Folder):
    """What is said of files of another kind than the command takes."""

    def setUp(self):
        super().setUp()
        self.spec, self.text = self.write("a.mm0", "-- A comment.\n" + PROLOGUE), self.write("a.mmu", TEXT)
        self.binary, self.source = self.write("a.mmb", b"MM0B\1\0"), self.write("a.proofs", "theorem t = h;\n")

    def said(self, *words, of="binary statement 1 at byte 0: K1"):
        line = f"refused: {of} words"
        return explain.refusal(line, list(words)).replace(self.room + os.sep, "").split("\n")

    def test_each(self):
        cases = [
            (("verify", self.binary, self.spec), ["a.mmb is a binary, and a specification belongs there",
                                                  "a.mm0 is a specification, and a binary belongs there", "meant is: ./mz verify a.mm0 a.mmb"]),
            (("verify", self.spec, self.text), ["a.mmu is a proof text, and a binary belongs there", "meant is: ./mz compile a.mmu a.mmb"]),
            (("compile", self.source, "o.mmb"), ["a.proofs is a proof source, and a proof text belongs there", "meant is: ./mz prove a.proofs"]),
            (("compile", self.binary, "o.mmb"), ["a.mmb is a binary, and a proof text belongs there", "meant is: ./mz decompile SPEC a.mmb a.mmu"]),
            (("compile", self.spec, "o.mmb"), ["a.mm0 is a specification, and a proof text belongs there", "meant is: ./mz check a.mm0"]),
            (("show", self.text), ["a.mmu is a proof text, and a binary belongs there", "meant is: ./mz compile a.mmu a.mmb"]),
            (("check", self.binary), ["a.mmb is a binary, and a specification belongs there", "meant is: ./mz check a.mm0"]),
            (("assemble", self.binary, "o.mmb"), ["a.mmb is a binary, and a listing belongs there", "meant is: ./mz show a.mmb"]),
            (("decompile", self.binary, self.text, "o.mmu"), ["a.mmb is a binary, and a specification belongs there", "a.mmu is a proof text, and a binary belongs there",
                                                              "meant is: ./mz decompile a.mm0 a.mmb o.mmu"]),
        ]
        of_spec = "specification statement 1 at byte 0: S3"
        refused = {"verify": of_spec, "check": of_spec, "decompile": of_spec, "compile": "text statement 1 at byte 0: U3", "assemble": "listing line 1: A1"}
        for words, wanted in cases:
            of = "binary statement 1 at byte 0: K1" if words[1] == self.spec and words[0] == "verify" else refused.get(words[0], "binary statement 1 at byte 0: K1")
            self.assertEqual(self.said(*words, of=of), wanted, words)

    def test_nothing_where_all_fit(self):
        self.assertTrue(self.said("verify", self.spec, self.binary)[0].startswith("K1"))


class Texts(Folder):
    """What is said of a text: TEXT, and a statement behind it; the place is that of a piece of the statement."""

    def said(self, more, code, piece):
        text = TEXT + more
        path = self.write("a.mmu", text)
        return explain.refusal(f"refused: text statement 8 at byte {len(TEXT) + more.rindex(piece)}: {code} words", ["compile", path, path + ".mmb"])

    def test_a_hypothesis_that_differs(self):
        said = self.said("(theorem t ((a wff ()) (b wff ())) ((h a) (k b)) b () (ax_mp (a b) (ax_1 (a b)) h))", "U10", "(ax_1")
        self.assertIn("ax_mp wants for its hypothesis 1 of 2: (im a b)", said)
        self.assertIn("the subproof proves: (im a (im b a))", said)

    def test_a_hypothesis_that_is_left_out(self):
        said = self.said("(theorem t ((a wff ()) (b wff ())) ((h (im a b)) (k a)) b () (ax_mp (a b) h))", "U6", "(ax_mp")
        self.assertIn("left out is a proof of hypothesis 2: a", said)

    def test_what_stands_between_statements(self):
        said = self.said("foo\n(sort x)", "U3", "foo")
        self.assertIn("found here: foo, which stands between two statements\n  a statement begins with sort", said)
        self.assertIn("near it: sort", self.said("(srot x)", "U3", "(srot"))

    def test_an_unknown_hypothesis(self):
        said = self.said("(theorem t ((a wff ())) ((hyp a)) a () (:let k hyp hyq))", "U5", "hyq")
        self.assertIn("no hypothesis or let hyq here; near it: hyp", said)
        self.assertIn("visible here: k proves a", said)

    def test_a_conversion_that_goes_the_other_way(self):
        said = self.said("(theorem t ((a wff ()) (y nat)) ((h (no a))) (im a (all y a)) () (:conv (im a (all y a)) (:unfold no (a) (y) (im a (all y a))) h))", "U12", "(:conv")
        self.assertIn("put (:sym ..) around it", said)

    def test_a_missing_conversion(self):
        said = self.said("(def id ((a wff ())) (wff ()) () a)\n(theorem t ((a wff ())) ((h a)) (id a) () h)", "U11", "(id a)")
        self.assertIn("a (:conv ..) is missing", said)

    def test_a_statement_that_is_never_closed(self):
        text = TEXT + "(theorem t ((a wff ())) ((h a)) a () h\n(axiom x () () y)\n"
        path = self.write("a.mmu", text)
        said = explain.refusal(f"refused: text statement 8 at byte {len(text)}: U2 parenthesis", ["compile", path, "b"])
        self.assertIn("the statement of line 8 is never closed", said)
        self.assertIn("a ) is likely missing at the end of line 8", said)

    def test_a_name_that_comes_later(self):
        self.assertIn("axiom of this name is declared on line 9", self.said("(theorem t ((a wff ())) ((h a)) a () (late (a) h))\n(axiom late ((a wff ())) (a) a)", "U5", "late (a) h"))

    def test_a_local_definition_that_a_specification_would_need(self):
        path = os.path.join(EXAMPLES, "local_in_axiom.mmu")
        said = explain.refusal("refused: text statement 5: local definition", ["spec", path, "a.mm0"])
        self.assertIn("is a local definition, of line ", said)
        self.assertIn("local_in_axiom.mmu:5:1: (axiom ", said)

    def test_the_notation_of_the_specification_beside(self):
        self.write("a.mm0", PROLOGUE)
        said = self.said("(theorem t ((a wff ()) (b wff ())) ((h a)) (im a (im b a)) () h)", "U11", "(im a (im b a)) ()")
        self.assertIn("wanted: (im a (im b a))   $ a -> b -> a $", said)


class Words(Folder):
    """What is said of arguments, and of files that are not there."""

    def test_files_that_cannot_be_read(self):
        here = self.write("here.mm0", "sort s;")
        near = here.replace("here", "her")
        self.assertEqual(explain.fault(3, ["verify", near, here]), f"{near}: no such file; near it is {here}")
        self.assertEqual(explain.fault(3, ["verify", here, self.room]), f"{self.room} is a directory")
        self.assertEqual(explain.fault(3, ["show", here + "/x"]), f"{here}/x: there is no directory {here}")
        self.assertIn("each file that is named can be read now", explain.fault(3, ["show", here]))

    def test_files_that_cannot_be_written(self):
        self.assertEqual(explain.fault(5, ["compile", "a", self.room]), f"{self.room} is a directory")
        self.assertIn("there is no directory", explain.fault(5, ["compile", "a", self.room + "/no/b"]))
        self.assertIn("the device takes no more", explain.fault(5, ["compile", "a", "/dev/full"]))
        self.assertIn("is on no disk", explain.fault(5, ["compile", "a", "/proc/b"]))

    def test_words(self):
        self.assertEqual(explain.usage(["verify", "a", "b"]), "")
        self.assertEqual(explain.usage(["sample", "10000"]), "")
        self.assertEqual(explain.usage(["show"]), "show takes one argument; BIN is missing; the shape is ./mz show BIN")
        self.assertIn("the nearest is compile TEXT OUT", explain.usage(["Compile", "a", "b"]))
        self.assertIn("'10001' is no number", explain.usage(["sample", "10001"]))

    def test_other_faults(self):
        for status in (2, 4, 6, 7, 99):
            self.assertIsInstance(explain.fault(status, ["verify", "a", "b"]), str)


class Everything(Folder):
    """Nothing fails, and each rule has something said of it."""

    def test_each_rule_is_explained_at_any_place(self):
        said = rules.sentences()
        self.assertEqual(len(said), 85)
        lines = {"S": "refused: specification statement {} at byte {}: {} words", "U": "refused: text statement {} at byte {}: {} words", "K": "refused: binary statement {} at byte {}: {} words",
                 "M": "refused: match declaration {0} statement {1}: {2} words", "L": "limit: {2} words {1}", "A": "refused: listing line {0}: {2} words"}
        pair, text, listing = "verify fold.mm0 fold.mmb", "compile fold.mmu none.mmb", "assemble free_dummy.list none.mmb"
        files = {"S": pair, "U": text, "K": pair, "M": pair, "L": text, "A": listing}
        for code in said:
            verb, *names = files[code[0]].split()
            for statement, byte in ((0, 0), (1, 5), (2, 41), (3, 63), (4, 100), (4, 149), (5, 10**6), (9, 3)):
                line = lines[code[0]].format(statement, byte, code)
                told = explain.refusal(line, [verb, *(os.path.join(EXAMPLES, it) for it in names)])
                self.assertIn(said[code], told, line)

    def test_files_that_are_gone_or_nothing(self):
        path = self.write("nothing", b"")
        for one in (path, path + " gone", self.room):
            for code, of in (("S9", "specification"), ("U9", "text"), ("K21", "binary")):
                self.assertTrue(explain.refusal(f"refused: {of} statement 1 at byte 0: {code} words", ["verify", one, one]).startswith((code, one)))
            self.assertTrue(explain.refusal("refused: match declaration 1 statement 1: M8 conclusion", ["verify", one, one]).startswith("M8"))

    def test_what_can_be_read_only_once_is_not_read(self):
        for code, of in (("K1", "binary"), ("U2", "text"), ("S3", "specification")):
            said = explain.refusal(f"refused: {of} statement 0 at byte 0: {code} words", ["verify", "/dev/null", "/dev/null"])
            self.assertEqual(said, f"{code} words. {rules.sentences()[code]}")

    def test_lines_that_refuse_nothing(self):
        for line in ("", "accepted: 1 sorts", "refused: something", "limit: L9"):
            self.assertEqual(explain.refusal(line, ["verify", "a", "b"]), "")
        self.assertEqual(explain.refusal("refused: text statement 5: local definition", []), "")

    def test_deep_and_large_expressions(self):
        deep = "(im a " * 4000 + "a" + ")" * 4000
        path = self.write("deep.mmu", TEXT + f"(theorem t ((a wff ())) ((h a)) {deep} () h)")
        with open(path, "rb") as file:
            at = file.read().index(b"(im a (im a (im a")
        self.assertIn("proved: a", explain.refusal(f"refused: text statement 8 at byte {at}: U11 conclusion differs", ["compile", path, "b"]))

    def test_nothing_is_printed_besides(self):
        out, err = io.StringIO(), io.StringIO()
        with contextlib.redirect_stdout(out), contextlib.redirect_stderr(err):
            telling.refusal("refused: binary statement 4 at byte 150: K27 cong", ["verify", "no", "no"])
        self.assertEqual((out.getvalue(), err.getvalue()), ("", ""))

    def test_lines_are_taken_apart(self):
        self.assertEqual(Refusal.of_line("refused: text statement 4 at byte 148: U11 conclusion differs"), Refusal("text", "U11", "conclusion differs", 4, 148))
        self.assertEqual(Refusal.of_line("refused: match declaration 3 statement 4: M9 body"), Refusal("match", "M9", "body", 4, 0, 3))
        self.assertEqual(Refusal.of_line("limit: L3 bound variables 56"), Refusal("limit", "L3", "bound variables", count=56))
        self.assertEqual(Refusal.of_line("refused: decompiled statement 3: depth"), Refusal("decompiled", "depth", "depth", 3))

    def test_places(self):
        path = self.write("text", b"one\ntwo \x00 three\n\n\n")
        self.assertEqual(Source(path).shown(8), [f"{path}:2:5:", "    two ? three", "        ^"])
        self.assertEqual(Source(path).shown(18), [f"{path}:2:12, behind which the text ends:", "    two ? three", "               ^"])


if __name__ == "__main__":
    unittest.main()
