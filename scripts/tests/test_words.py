"""Tries how scripts/check-words parts a page into sentences; what is expected was counted by hand."""
import importlib.machinery
import importlib.util
import os
import tempfile
import unittest

TOP = os.path.dirname(os.path.dirname(os.path.dirname(os.path.abspath(__file__))))
PAGE = """# A heading of five words

For somebody. It has `code with words` and [a link](to/a.md).

| a table | that isn't counted |
|---|---|

- An item, whose
  text goes on. **It ends.** (So does this.)
- Another item

```
$ a command. That isn't counted.
```
"""


def loaded():
    path = os.path.join(TOP, "scripts", "check-words")
    loader = importlib.machinery.SourceFileLoader("check_words", path)
    module = importlib.util.module_from_spec(importlib.util.spec_from_loader("check_words", loader))
    loader.exec_module(module)
    return module


class Sentences(unittest.TestCase):
    def setUp(self):
        self.words = loaded()

    def test_what_is_counted(self):
        counts = [len(it.split()) for it in self.words.sentences(PAGE)]
        self.assertEqual(counts, [2, 6, 6, 2, 3, 2])

    def problems(self, text):
        with tempfile.NamedTemporaryFile("w", suffix=".md") as file:
            file.write(text)
            file.flush()
            return self.words.sentence_problems(file.name)

    def test_a_page_that_is_right(self):
        self.assertEqual(self.problems(PAGE), [])

    def test_a_long_sentence_and_mean(self):
        said = "\n".join(self.problems("# A page\n\nFor all.\n\n" + "word " * 61 + ".\n"))
        self.assertIn("a sentence of 62 words, 60 are the most", said)
        self.assertIn("32.0 words at the mean", said)

    def links(self, text):
        with tempfile.TemporaryDirectory() as folder:
            for name, content in (("a.md", text), ("b.md", "# The `first` heading: one\n")):
                with open(os.path.join(folder, name), "w", encoding="utf-8") as file:
                    file.write(content)
            return [it.split(": ", 1)[1] for it in self.words.link_problems(os.path.join(folder, "a.md"))]

    def test_links_that_lead_somewhere(self):
        self.assertEqual(self.links("# Own\n[a](b.md#the-first-heading-one), [b](#own), [c](https://example.org/x), `[d](e)`\n"), [])

    def test_links_that_lead_nowhere(self):
        said = self.links("[a](gone.md) and [b](b.md#second) and [c](#own)\n")
        self.assertEqual([it.split()[-1] for it in said], ["gone.md", "#second", "#own"])

    def test_what_two_pages_say(self):
        run = " ".join(f"word{it}" for it in range(self.words.RUN))
        texts = {"a": f"First {run}.", "b": f"Then {run}, once more.", "c": run[:-1]}
        self.words.pages, self.words.text_of = lambda: sorted(texts), texts.get
        self.assertEqual(self.words.said_twice(), {f"{run}": ["a", "b"]})

    def test_a_page_without_a_reader(self):
        self.assertIn("doesn't say for whom it is", "\n".join(self.problems("# A page\n\nIt is here.\n")))


if __name__ == "__main__":
    unittest.main()
