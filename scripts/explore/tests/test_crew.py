"""Pages that several processes print are those that one prints."""
import os
import sys
import tempfile
import unittest

sys.dont_write_bytecode = True
TOP = os.path.dirname(os.path.dirname(os.path.dirname(os.path.dirname(os.path.abspath(__file__)))))
sys.path.insert(0, os.path.join(TOP, "scripts"))

from explore import site  # noqa: E402
from explore.crew import Crew  # noqa: E402
from explore.development import Development  # noqa: E402

from explore.tests.test_browser import SPEC, TEXT  # noqa: E402


def contents(folder):
    found = {}
    for where, _, names in os.walk(folder):
        for name in names:
            with open(os.path.join(where, name), encoding="utf-8") as file:
                found[os.path.relpath(os.path.join(where, name), folder)] = file.read()
    return found


def made(spec, text, room, processes=None):
    axioms = {"a1i": ["ax_1", "ax_mp"], "twice": ["ax_1", "ax_mp"]}
    return site.Site(Development("small", spec, text, False, "accepted", axioms=axioms), room, processes).write()


class OfACrew(unittest.TestCase):
    def test_in_the_order_in_which_it_is_handed_over(self):
        for processes in (1, 3):
            taken = []
            crew = Crew(processes, taken.append)
            for i in range(8):
                crew.hand_over([i], lambda batch: (batch[0], os.getpid() == here))
            crew.finish()
            self.assertEqual(taken, [(i, processes == 1) for i in range(8)])

    def test_what_goes_wrong_in_another_process_is_raised_here(self):
        crew = Crew(2, print)
        crew.hand_over([1], lambda _: 1 / 0)
        with self.assertRaises(AssertionError) as caught:
            crew.finish()
        self.assertEqual(str(caught.exception), "division by zero")

    def test_a_page_stays_where_nothing_of_it_has_changed(self):
        other = TEXT.replace("(a1i ((im b a) c) (a1i (a b) h))", "(ax_mp ((im b a) (im c (im b a))) (ax_1 ((im b a) c)) (a1i (a b) h))")
        moved = SPEC.replace("theorem twice", "\ntheorem twice")
        renamed = SPEC.replace("theorem a1i (a b: wff): $ a $ > $ b -> a $", "theorem a1i (a c: wff): $ a $ > $ c -> a $")
        with tempfile.TemporaryDirectory() as room:
            for spec, text, kept in ((SPEC, TEXT, 0), (SPEC, TEXT, 2), (SPEC, other, 1), (moved, other, 2), (renamed, other, 0), (SPEC, TEXT, 0)):
                counts = made(spec, text, room)
                self.assertEqual((counts.kept, counts.theorems), (kept, 2), (spec, text))
                with tempfile.TemporaryDirectory() as fresh:
                    made(spec, text, fresh)
                    self.assertEqual(contents(room), contents(fresh))

    def test_what_a_run_has_made_that_was_ended_stays(self):
        """Its list ends in the middle of a line; a list of another form is none."""
        for left, kept in ((lambda text: text[:-40], 1), (lambda text: "", 0), (lambda text: '{"theorems/a1i.html":["0","","",""]}', 0)):
            with tempfile.TemporaryDirectory() as room, tempfile.TemporaryDirectory() as fresh:
                made(SPEC, TEXT, room)
                with open(os.path.join(room, "made.json"), "r+", encoding="utf-8") as file:
                    text = file.read()
                    file.seek(0)
                    file.truncate()
                    file.write(left(text))
                self.assertEqual(made(SPEC, TEXT, room).kept, kept)
                made(SPEC, TEXT, fresh)
                self.assertEqual(contents(room), contents(fresh))

    def test_the_pages_are_the_same(self):
        written, batch = [], site.BATCH
        site.BATCH = 1
        self.addCleanup(setattr, site, "BATCH", batch)
        for processes in (1, 3):
            with tempfile.TemporaryDirectory() as room:
                counts = made(SPEC, TEXT, room, processes)
                written.append((contents(room), counts.pages, counts.theorems, counts.steps))
        self.assertEqual(written[0], written[1])
        self.assertEqual(written[0][2:], (2, 6))


here = os.getpid()

if __name__ == "__main__":
    unittest.main()
