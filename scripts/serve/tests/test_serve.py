"""Tests of the language server: its reading of unfinished files, its places, and the recorded exchanges."""
import os
import shutil
import subprocess
import sys
import tempfile
import unittest

sys.dont_write_bytecode = True
HERE = os.path.dirname(os.path.abspath(__file__))
sys.path.insert(0, os.path.dirname(os.path.dirname(HERE)))
sys.path.insert(0, HERE)

from exchange import exchanges, needs_program, played  # noqa: E402
from explore.program import TOP, Refused, run  # noqa: E402
from serve import texts  # noqa: E402
from serve.answers import Answers  # noqa: E402
from serve.diagnostics import Diagnostics  # noqa: E402
from serve.documents import Document, Workspace, uri_of  # noqa: E402


def program_is_there():
    try:
        return bool(run("verify", os.path.join(TOP, "examples/sort.mm0"), os.path.join(TOP, "examples/sort.mmb"),
                        environment={"MZ_BUILD": "never"}))
    except (Refused, OSError):
        return False


HAS_PROGRAM = program_is_there()
sys.setrecursionlimit(50_000)


def example(name):
    return os.path.join(TOP, "examples", name)


class Places(unittest.TestCase):
    def test_units(self):
        document = Document("file:///a.mm0", "ab\né𝔸x\n")
        self.assertEqual(document.position(6), {"line": 1, "character": 4})  # the second line's last: 1 and 2 units before it
        self.assertEqual(document.position(5), {"line": 1, "character": 3})
        for at in range(len(document.text) + 1):
            self.assertEqual(document.offset(document.position(at)), at)
        self.assertEqual(document.byte(9), 5)
        self.assertEqual(document.offset({"line": 0, "character": 99}), 2)
        self.assertEqual(document.offset({"line": 99, "character": 0}), 7)


class Unfinished(unittest.TestCase):
    def test_statement_that_isnt_closed(self):
        made = texts.read("(sort a)\n(term t ((x a)\n(axiom k () () t)\n(theorem")
        self.assertEqual([it.name for it in made.entries], ["a", "t", "k"])
        self.assertEqual([(it.space, it.text) for it in made.names if not it.declares], [("sort", "a"), ("term", "t")])

    def test_nothing_is_raised(self):
        with open(example("classes/classes.mmu"), encoding="ascii") as file:
            text = file.read()
        with open(example("classes/classes.mm0"), encoding="ascii") as file:
            spec = file.read()
        with open(example("classes/classes.proofs"), encoding="ascii") as file:
            source = file.read()
        workspace = Workspace()
        for kind, whole in (("mmu", text), ("mm0", spec), ("proofs", source)):
            for cut in range(0, len(whole), 9001):
                uri = uri_of(example(f"classes/classes.{kind}"))
                workspace.open[uri] = document = Document(uri, whole[:cut] + whole[cut + 5 :])
                answers = Answers(workspace)
                answers.hover(document, cut)
                answers.definition(document, cut)
                answers.completion(document, cut)


class Names(unittest.TestCase):
    def setUp(self):
        self.workspace = Workspace()
        self.answers = Answers(self.workspace)

    def document(self, name):
        return self.workspace.document(uri_of(example(name)))

    def test_each_name_of_a_development_leads_somewhere(self):
        for name in ("propositional", "predicate", "arithmetic", "classes"):
            for ending in ("mm0", "mmu"):
                document = self.document(f"{name}/{name}.{ending}")
                for it in self.workspace.names(document).names[::97]:
                    with self.subTest(f"{document.path}:{it}"):
                        self.assertTrue(self.answers.hover(document, it.start))
                        self.assertTrue(self.answers.definition(document, it.start))

    def test_references_are_found_from_each(self):
        document = self.document("classes/classes.mm0")
        at = document.text.index("term el ") + 5
        found = self.answers.references(document, at, True)
        self.assertEqual({os.path.basename(it["uri"]) for it in found}, {"classes.mm0", "classes.mmu", "classes.proofs"})
        for it in found[:50]:
            where = self.workspace.document(it["uri"])
            self.assertEqual(self.answers.references(where, where.offset(it["range"]["start"]), True), found)

    def test_import(self):
        document = self.document("arithmetic/arithmetic.proofs")
        at = document.text.index("exlimiv")
        self.assertTrue(self.answers.definition(document, at)[0]["uri"].endswith("predicate/predicate.mm0"))


@unittest.skipUnless(HAS_PROGRAM, "mz isn't built")
class Judged(unittest.TestCase):
    def found(self, name):
        workspace = Workspace()
        document = workspace.document(uri_of(example(name)))
        return [(it.get("code"), document.text[document.offset(it["range"]["start"]) : document.offset(it["range"]["end"])])
                for it in Diagnostics(workspace).of(document)]

    def test_places(self):
        self.assertEqual(self.found("no_notation.mm0"), [("S9", "~~a")])
        self.assertEqual(self.found("name_twice.mm0"), [("S4", "wff")])
        self.assertEqual(self.found("other_conclusion.mmu"), [("U11", "(not a)")])
        self.assertEqual(self.found("sort.mm0") + self.found("sort.mmu"), [])

    def test_open_proofs(self):
        with tempfile.TemporaryDirectory() as room:
            path = os.path.join(room, "a.mmu")
            with open(path, "w", encoding="ascii") as file:
                file.write("(sort s provable) -- :sorry\n(term t () (s ()))\n(theorem u () () t () (:sorry t))--(:sorry\n")
            self.assertEqual(self.found(path), [("U15", ":sorry")])


@unittest.skipUnless(shutil.which("node"), "there is no node")
class Extension(unittest.TestCase):
    def test_extension(self):
        with tempfile.TemporaryDirectory() as room:
            program = os.path.join(room, "mz")
            with open(program, "w", encoding="ascii") as file:
                file.write(f"#!/bin/sh\nMZ={room}/none exec {sys.executable} {os.path.dirname(HERE)}\n")
            os.chmod(program, 0o755)
            shutil.copytree(os.path.join(HERE, "monoid"), os.path.join(room, "monoid"))
            words = ["node", os.path.join(HERE, "editor.js"), program, os.path.join(room, "monoid", "monoid.mm0")]
            ran = subprocess.run(words, capture_output=True, text=True, timeout=120)
            self.assertEqual(ran.stdout, "the extension answers\n", ran.stderr)


class Exchanges(unittest.TestCase):
    def test_exchanges(self):
        for path in exchanges():
            with self.subTest(os.path.basename(path)):
                if needs_program(path) and not HAS_PROGRAM:
                    self.skipTest("mz isn't built")
                self.assertEqual(played(path), [])


if __name__ == "__main__":
    unittest.main()
