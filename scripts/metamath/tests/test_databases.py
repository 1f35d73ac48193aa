"""Tests of how databases and formulas are read."""
import itertools
import unittest

from metamath.building import _PARTS, _numbers
from metamath.database_text import letters
from metamath.databases import Database, Faulty
from metamath.grammar import Grammar


class TestDatabases(unittest.TestCase):
    def test_scopes(self):
        made = Database("$c |- w $. $v a b $. wa $f w a $. wb $f w b $. ${ $d a b $. h $e |- a $. x $a |- b $. $} y $a |- b $.")
        self.assertEqual([len(made.frame(it).essentials) for it in (0, 1)], [1, 0])
        self.assertEqual([made.frame(it).apart("a") for it in (0, 1)], [{"b"}, set()])

    def test_comments_in_statements(self):
        made = Database("$c |- w $. $v a $. wa $f w a $. x $( why $) $a |- $( what $) a $. y $p |- a $= wa $( $) x $( so $) $.")
        self.assertEqual(made.frame(0).symbols, ["|-", "a"])
        self.assertEqual(made.proof(1), (["wa", "x"], None))

    def test_the_comment_before_a_statement(self):
        made = Database("$c |- $. $( One. $) x $a |- $. y $a |- $. $( Two, $5. $) $( $j z $) z $a |- $.")
        self.assertEqual([made.comment(it).strip() for it in range(3)], ["One.", "", "Two, $5."])

    def test_headings(self):
        rule = "=-" * 30
        made = Database(f"$c |- $. $(\n{rule}\n  First\n{rule}\n\n$) x $a |- $. $(\n{'#' * 60}\n  Second\n  part\n{'#' * 60}\n  Said. $) y $a |- $.")
        self.assertEqual([(it.level, it.title, it.before) for it in made.headings], [(3, "First", 0), (1, "Second part", 1)])

    def test_faults(self):
        for text, said in [
            ("$c a $.\n$( never", "x.mm:2:1: the comment that begins here has no end"),
            ("$c a $.\nx $a a", "x.mm:2:3: the file ends in the statement that begins here"),
            ("$c a $.\n\n${ x $a a $.", "x.mm:3:1: the scope that opens here isn't closed"),
            ("$c a $. $}", "x.mm:1:9: a scope is closed here, and none is open"),
            ("$c a $.\n$a a $.", "x.mm:2:1: a label belongs before this statement"),
            ("$c a $.\nx $a a $.\nx $a a $.", "x.mm:3:3: x: a second statement of this label"),
            ("$c a $. x $p a $.", "x.mm:1:11: x has no proof"),
            ("$c a $. $q", "x.mm:1:9: the keyword $q can't stand here"),
            ("$c a $. x", "x.mm:1:9: the file ends in the statement x"),
            ("<html>\n<body>", "x.mm:2:1: the file ends in the statement <body>"),
        ]:
            with self.subTest(text), self.assertRaises(Faulty) as found:
                Database(text, "x.mm")
            self.assertEqual(str(found.exception), said)

    def test_a_variable_without_a_type(self):
        with self.assertRaisesRegex(Faulty, "x: the variable v has no type"):
            Database("$c |- $. $v v $. x $a |- v $.").frame(0)


class TestProofs(unittest.TestCase):
    def test_letters(self):
        self.assertEqual([letters(it) for it in (0, 19, 20, 119, 120, 619, 620)], ["A", "T", "UA", "YT", "UUA", "YYT", "UUUA"])

    def test_numbers_of_letters(self):
        word = "".join(map(letters, range(650)))
        self.assertEqual(_PARTS(word + "Z"), [*itertools.islice(_numbers(), 650), "Z"])

    def test_labels_of_a_proof(self):
        made = Database("$c |- $. a $a |- $. b $p |- $= ( a ) A $. c $p |- $= a $.")
        self.assertEqual(made.proof(1), (["a"], "A"))
        self.assertEqual(made.proof(2), (["a"], None))


def variables(**codes):
    return {name: (code, i) for i, (name, code) in enumerate(codes.items())}


class TestGrammar(unittest.TestCase):
    def test_ambiguous(self):
        grammar = Grammar()
        grammar.add("w", [("code", "w"), ("constant", "+"), ("code", "w")], [0, 1])
        self.assertEqual(grammar.read("w", ["a", "+", "a"], variables(a="w")), [0, 0, ~0])
        with self.assertRaisesRegex(ValueError, "two readings"):
            grammar.read("w", ["a", "+", "a", "+", "a"], variables(a="w"))

    def test_both_readers_agree(self):
        grammar = Grammar()
        grammar.add("w", [("constant", "("), ("code", "w"), ("constant", ">"), ("code", "w"), ("constant", ")")], [0, 1])
        grammar.add("c", [("constant", "("), ("code", "c"), ("code", "c"), ("code", "c"), ("constant", ")")], [0, 1, 2])
        grammar.add("w", [("code", "c"), ("constant", "="), ("code", "c")], [0, 1])
        grammar.add("c", [("code", "v")], [0])
        grammar.add("w", [("constant", "A"), ("code", "v"), ("code", "w")], [0, 1])
        known = variables(p="w", x="v", B="c")
        for text, wanted in [
            ("( p > p )", [0, 0, ~0]),
            ("( x B x ) = B", [1, ~3, 2, 1, ~3, ~1, 2, ~2]),
            ("( ( x B x ) = B > A x x = x )", [1, ~3, 2, 1, ~3, ~1, 2, ~2, 1, 1, ~3, 1, ~3, ~2, ~4, ~0]),
        ]:
            self.assertEqual(grammar.read("w", text.split(), known), wanted)
            self.assertEqual(grammar.read_all("w", text.split(), known), wanted)

    def test_indirect_left_recursion(self):
        grammar = Grammar()
        grammar.add("s", [("code", "t"), ("constant", "b")], [0])
        grammar.add("t", [("code", "s"), ("constant", "c")], [0])
        grammar.add("s", [("constant", "x")], [])
        self.assertEqual(grammar.read("s", "x c b c b".split(), {}), [~2, ~1, ~0, ~1, ~0])

    def test_an_empty_production(self):
        grammar = Grammar()
        grammar.add("w", [], [])
        grammar.add("w", [("code", "w"), ("constant", "I")], [0])
        self.assertEqual(grammar.read("w", ["I", "I"], {}), [~0, ~1, ~1])
        self.assertEqual(grammar.read("w", [], {}), [~0])

    def test_what_has_no_reading(self):
        grammar = Grammar()
        grammar.add("w", [("constant", "I")], [])
        with self.assertRaisesRegex(ValueError, "no reading"):
            grammar.read("w", ["I", "I"], {})


if __name__ == "__main__":
    unittest.main()
