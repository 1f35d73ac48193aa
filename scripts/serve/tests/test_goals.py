"""Goals in the editor, and that it is fast and isn't ended by what it can't read. The formulas that are expected follow from
the statements by hand."""
import io
import json
import os
import sys
import tempfile
import threading
import time
import unittest

sys.dont_write_bytecode = True
HERE = os.path.dirname(os.path.abspath(__file__))
sys.path.insert(0, os.path.dirname(os.path.dirname(HERE)))
sys.setrecursionlimit(50_000)

from prove.tests.support import MONOID  # noqa: E402
from serve.answers import Answers  # noqa: E402
from serve.diagnostics import Diagnostics  # noqa: E402
from serve.documents import Document, Workspace, uri_of  # noqa: E402
from serve.goals import Goals  # noqa: E402
from serve.protocol import Channel  # noqa: E402
from serve.server import Server  # noqa: E402

LEFT = "theorem left (a b c: elt): $ a = b $ > $ a * c = b * c $;\ntheorem later (a: elt): $ a = a $;\n"
SOURCE = "theorem left =\n  have k: $ c = c $ = eq_refl;\n  mul_eq(sorry, k);\ntheorem later = eq_refl;\n"


class Opened(unittest.TestCase):
    """A source and its specification that an editor has open, and no disk has."""

    def setUp(self):
        self.room = tempfile.TemporaryDirectory()
        self.addCleanup(self.room.cleanup)
        self.workspace = Workspace()
        self.goals, self.answers = Goals(self.workspace), Answers(self.workspace)

    def opened(self, proofs, spec=MONOID + LEFT):
        for ending, text in (("mm0", spec), ("proofs", proofs)):
            uri = uri_of(os.path.join(self.room.name, f"a.{ending}"))
            self.workspace.open[uri] = document = Document(uri, text)
        return document


class OfGoals(Opened):
    def test_what_is_told_of_a_place(self):
        document = self.opened(SOURCE)
        here = self.goals.here(document, SOURCE.index("sorry"))
        self.assertEqual((here["theorem"], here["goal"], here["visible"]), ("left", "a = b", ["h: a = b", "k: c = c"]))
        self.assertIn("goal       a = b", here["text"])
        self.assertIsNone(self.goals.here(self.opened("-- nothing\n"), 3))

    def test_lenses(self):
        document = self.opened(SOURCE)
        told = [self.goals.lens(document, it["data"]["at"]) for it in self.goals.lenses(document)]
        self.assertEqual(told, ["k: c = c", "⊢ a = b"])

    def test_the_open_specification_counts(self):
        self.assertEqual(len(self.workspace.examined(self.opened(SOURCE))[1]), 0)
        document = self.opened(SOURCE, MONOID + LEFT.replace("a * c = b * c", "a * c = b * b"))
        _, problems = self.workspace.examined(document)
        self.assertEqual([it.why for it in problems], ["in left: k proves something else than is wanted here"])

    def test_a_hover_shows_the_comment_that_documents_a_theorem(self):
        for comment in ("-- A title.\n--| Says it from the left.\n", "--| Says it\n--| from the left.\n"):
            document = self.opened(SOURCE, MONOID + comment + LEFT)
            said = self.answers.hover(document, SOURCE.index("left"))["contents"]["value"]
            self.assertIn("\nSays it from the left.\n", said + "\n")

    def test_a_fault_of_another_file_is_told_with_its_place(self):
        document = self.opened(SOURCE, MONOID.replace("one: elt", "one: elf") + LEFT)
        found = Diagnostics(self.workspace).of(document)
        self.assertEqual([it["message"].split("\n")[0] for it in found], ["a.mm0:6:11: there is no sort elf", "left has a gap here"])
        self.assertEqual(found[0]["range"]["start"], {"line": 0, "character": 0})

    def test_a_proof_that_is_found_is_written(self):
        document = self.opened(SOURCE)
        at = SOURCE.index("sorry")
        actions = self.goals.actions(document, at, at)
        self.assertEqual([it["data"]["depth"] for it in actions], [2, 3])
        edits, said = self.goals.found(document, at, at + 5, 2)
        self.assertEqual([it["newText"] for it in edits][:1], ["h"], said)
        self.assertEqual(edits[0]["range"], document.range(at, at + 5))

    def test_how_deep_a_question_goes_is_offered_and_replaced_with_it(self):
        document = self.opened(SOURCE.replace("sorry", "? 4"))
        at = document.text.index("?")
        self.assertEqual([(it["data"]["depth"], it["data"]["from"], it["data"]["to"]) for it in self.goals.actions(document, at, at)],
                         [(depth, at, at + 3) for depth in (2, 3, 4)])
        self.assertEqual(self.goals.found(document, at, at + 3, 4)[0][0]["range"], document.range(at, at + 3))

    def test_of_theorems_that_are_left_out_the_first_is_offered_on_the_line_before_too(self):
        document = self.opened("-- all\n", MONOID + LEFT)
        self.assertEqual([it["title"] for it in self.goals.actions(document, 2, 2)], [f"Look for a proof of left (depth {it})" for it in (2, 3)])
        self.assertEqual(self.goals.actions(self.opened("-- all\n-- this\n"), 2, 2), [])

    def test_a_theorem_that_is_left_out_is_written_where_it_belongs(self):
        document = self.opened("theorem left = mul_eq(h, eq_refl);\n")
        (action, *_), end = self.goals.actions(document, len(document.text), len(document.text)), len(document.text)
        self.assertEqual((action["data"]["from"], action["data"]["to"]), (end, end))
        edits, _ = self.goals.found(document, end, end, 2)
        self.assertEqual(edits[0]["newText"], "theorem later = eq_refl;\n")


class Characters(Opened):
    """What an editor says of a text that it has open is what is said of the file."""

    def test_the_same_as_on_the_disk(self):
        for text in (SOURCE.replace("\n", "\r\n"), "\ufeff" + SOURCE, SOURCE.replace("eq_refl", "\u00e9q_refl")):
            there = self.opened(text)
            found = Diagnostics(self.workspace).of(there)
            with open(there.path, "w", encoding="utf-8", newline="") as file:
                file.write(text)
            with open(f"{there.stem}.mm0", "w", encoding="ascii") as file:
                file.write(MONOID + LEFT)
            workspace = Workspace()
            self.assertEqual(Diagnostics(workspace).of(workspace.document(there.uri)), found)
            self.assertIn("no file may have this character", found[0]["message"])

    def test_bytes_that_are_no_letters(self):
        document = self.opened(SOURCE)
        with open(document.path, "wb") as file:
            file.write(b"-- \xff\n")
        document = Workspace().document(document.uri)
        self.assertEqual((document.position(4), document.offset({"line": 0, "character": 4}), document.byte(4)), ({"line": 0, "character": 4}, 4, 4))


class Completion(Opened):
    def labels(self, proofs, at):
        items = self.answers.completion(self.opened(proofs), proofs.index(at) + len(at))
        return [it["label"] for it in sorted(items, key=lambda it: it["sortText"])]

    def test_the_best_first_and_nothing_that_cant_stand_there(self):
        labels = self.labels(SOURCE.replace("sorry", "s"), "mul_eq(s")
        self.assertEqual(labels[0], "h")
        self.assertLess(labels.index("eq_symm"), labels.index("mul_eq"))
        self.assertIn("sorry", labels)
        self.assertFalse({"wff", "elt", "eq", "later", "left"} & set(labels), labels)

    def test_while_the_proof_is_open(self):
        self.assertEqual(self.labels("theorem left = mul_eq(", "mul_eq(")[0], "h")
        self.assertIn("k", self.labels("theorem left = have k: $ c = c $ = eq_refl; mul_eq(h, ", "(h, ")[:2])

    def test_in_a_formula_names_of_terms(self):
        self.assertIn("mul", [it["label"] for it in self.answers.completion(self.opened(SOURCE), SOURCE.index("c = c"))])


class Fast(Opened):
    """A development of 3,200 theorems. A keystroke was measured at 0.04 seconds of processor time, a hover behind it at less; the
    bound is for a machine that is busy."""

    BOUND, TRIES = 0.2, 3

    def test_a_keystroke_and_a_hover(self):
        count = 3200
        spec = MONOID + "".join(f"theorem t{i} (a b c: elt): $ a = b $ > $ b = c $ > $ c = a $;\n" for i in range(count))
        proofs = "".join(f"theorem t{i} = eq_symm(eq_trans(h1, h2));\n" for i in range(count))
        document = self.opened(proofs, spec)
        self.workspace.examined(document)
        self.answers.hover(document, proofs.index("h1"))
        judging, hovering = zip(*(self.typed(spec, proofs, " " * i) for i in range(1, self.TRIES + 1)))
        self.assertLess(min(judging), self.BOUND)
        self.assertLess(min(hovering), self.BOUND)

    def typed(self, spec, proofs, blanks):
        """The processor times of the judgement and of a hover, where blanks were typed."""
        document = self.opened(proofs.replace("theorem t1600 = ", f"theorem t1600 = {blanks}"), spec)
        at, start = document.text.index("theorem t1600 ") + 20, time.process_time()
        _, problems = self.workspace.examined(document)
        judged = time.process_time()
        hover = self.answers.hover(document, at)
        self.assertEqual(problems, [])
        self.assertIn("⊢ c = a", hover["contents"]["value"])
        return judged - start, time.process_time() - judged


def message(it):
    text = json.dumps(it).encode()
    return b"Content-Length: %d\r\n\r\n%s" % (len(text), text)


class Unreadable(unittest.TestCase):
    def test_the_server_lives(self):
        broken = [b"hello\r\n\r\n", b"Content-Length: five\r\n\r\n", b"Content-Length: 3\r\n\r\n{,}", b"Content-Length: 2\r\n\r\n\xff\xff",
                  b"Content-Length: -4\r\n\r\n", b"Content-Length: 4\r\n\r\nnull", b"Content-Length: 40000\r\n\r\n" + b"[" * 40000]
        odd = [[], 7, "x", {}, {"id": 1}, {"id": 2, "method": 3}, {"id": 3, "method": "x", "params": [1]}, {"id": 4, "method": []}]
        asked = [{"id": 5, "method": "initialize", "params": {}}, {"id": 6, "method": "textDocument/hover", "params": {"textDocument": 1}},
                 {"id": 7, "method": "mz/goal", "params": {}}, {"id": 8, "method": "shutdown"}, {"method": "exit"}]
        source = io.BytesIO(b"".join([*broken, *map(message, odd + asked)]))
        target, statuses = io.BytesIO(), []
        runner = threading.Thread(target=lambda: statuses.append(Server(Channel(source, target)).run()))
        runner.start()
        runner.join(60)
        self.assertEqual(statuses, [0])
        target.seek(0)
        reader, answers = Channel(target, None), []
        while (answer := reader.read()) is not None:
            answers.append((answer["id"], answer.get("error", {}).get("code")))
        self.assertEqual(answers[: len(broken)], [(None, -32700)] * len(broken))
        self.assertEqual(answers[len(broken) : -4], [(None, -32600)] * 4 + [(1, -32600), (2, -32600), (3, -32600), (4, -32600)])
        self.assertEqual([answers[-4], answers[-1]], [(5, None), (8, None)])
        self.assertTrue(all(code for _, code in answers[-3:-1]))


if __name__ == "__main__":
    unittest.main()
