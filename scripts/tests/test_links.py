"""Tries how scripts/check-links reads a page; what is expected is how the web shows headings and links."""
import importlib.machinery
import importlib.util
import os
import sys
import unittest

TOP = os.path.dirname(os.path.dirname(os.path.dirname(os.path.abspath(__file__))))
sys.path.insert(0, os.path.join(TOP, "scripts"))


def loaded():
    path = os.path.join(TOP, "scripts", "check-links")
    loader = importlib.machinery.SourceFileLoader("check_links", path)
    module = importlib.util.module_from_spec(importlib.util.spec_from_loader("check_links", loader))
    loader.exec_module(module)
    return module


class Links(unittest.TestCase):
    def setUp(self):
        self.links = loaded()

    def of(self, text):
        self.links.text_of = lambda path: text
        return list(self.links.links("folder/A.md"))

    def test_names_of_headings(self):
        for heading, name in (("What isn't claimed", "what-isnt-claimed"), ("2.7 The normal layout (own)", "27-the-normal-layout-own"), ("verify SPEC BIN", "verify-spec-bin"),
                              ("`rw`, and [a link](B.md)", "rw-and-a-link")):
            self.assertEqual(self.links.anchor(heading), name)

    def test_where_links_lead(self):
        found = self.of("[a](B.md#c), [`d`](../e/), [f](#g) and [web](https://h.i/)")
        self.assertEqual(found, [("B.md#c", "folder/B.md", "c"), ("../e/", "e", ""), ("#g", "folder/A.md", "g")])

    def test_code_has_no_links(self):
        self.assertEqual(self.of("`rw [P](R)`\n\n```\n[a](b)\n```\n"), [])


if __name__ == "__main__":
    unittest.main()
