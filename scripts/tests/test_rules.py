"""Tries what scripts/check-rules finds wrong in a page of rules; the pages are made here, with one fault each."""
import importlib.machinery
import importlib.util
import os
import sys
import tempfile
import unittest

TOP = os.path.dirname(os.path.dirname(os.path.dirname(os.path.abspath(__file__))))
sys.path.insert(0, os.path.join(TOP, "scripts"))

SAID, REPORTED = "mz_machine_theory/specs/ProofMachine.antt:k.SaveKind", "mz_machine/src/commands/heap.rt:K::SaveKind"
SHOWN = "./mz verify examples/fold.mm0 examples/saved_obligation.mmb"


def page(said=f"`{SAID}`, `{REPORTED}`", shown=SHOWN, name="save kind", sentence="It can't be saved."):
    return f"# Rules\n\n### K34 {name}\n\n{sentence}\n\n- Shown: `{shown}`\n- In: {said}\n"


def loaded():
    path = os.path.join(TOP, "scripts", "check-rules")
    loader = importlib.machinery.SourceFileLoader("check_rules", path)
    module = importlib.util.module_from_spec(importlib.util.spec_from_loader("check_rules", loader))
    loader.exec_module(module)
    return module


class Rules(unittest.TestCase):
    def faults(self, text):
        rules = loaded()
        rules.printed_words = lambda: {"K34": "save kind"}
        with tempfile.NamedTemporaryFile("w", suffix=".md", encoding="utf-8") as file:
            file.write(text)
            file.flush()
            rules.PAGE = file.name
            return [what for _, what in rules.faults()]

    def test_a_right_page(self):
        self.assertEqual(self.faults(page()), [])

    def test_what_is_wrong(self):
        for text, said in (
            (page(said=f"`{REPORTED}`, `{SAID}`"), "has to have definitions that say it, and then code"),
            (page(said=f"`{SAID}`"), "has to have definitions that say it, and then code"),
            (page(said=f"`{SAID}Other`, `{REPORTED}`"), "doesn't name k.SaveKindOther"),
            (page(said=f"`{SAID}`, `mz_machine/src/none.rt:K::SaveKind`"), "there is no crates/mz_machine/src/none.rt"),
            (page(shown="./mz verify examples/fold.mm0 examples/fold.mmb"), "no example shows K34"),
            (page(name="save"), "K34 prints 'save kind'"),
            (page(sentence="One.\n\nTwo."), "K34 has 2 lines of text"),
            ("# Rules\n", "K34 save kind is missing"),
        ):
            with self.subTest(said):
                self.assertIn(said, "\n".join(self.faults(text)))


if __name__ == "__main__":
    unittest.main()
