"""Tries how scripts/worked.py reads examples; what is expected is what stands in the text."""
import os
import sys
import tempfile
import unittest

TOP = os.path.dirname(os.path.dirname(os.path.dirname(os.path.abspath(__file__))))
sys.path.insert(0, os.path.join(TOP, "scripts"))

import worked  # noqa: E402

FILE = """# For whoever reads it.

## A section

$ ./mz show examples/cut.mmb
sort 0 4
refused: at byte 50
# Two lines
# of why.

$ ./mz verify a b
accepted

"""
PAGE = "Some text.\n\n| Command | Prints | Why |\n|---|---|---|\n| `./mz verify a b` | `accepted: c` | `d` is |\n| `./mz show e` | `end` | |\n"


class Examples(unittest.TestCase):
    def read(self, text, reader):
        with tempfile.NamedTemporaryFile("w", suffix=".txt") as file:
            file.write(text)
            file.flush()
            return [tuple(it) for it in reader(file.name)]

    def test_of_a_file(self):
        wanted = [("./mz show examples/cut.mmb", "sort 0 4\nrefused: at byte 50\n", "Two lines of why.", 5), ("./mz verify a b", "accepted\n", "", 11)]
        self.assertEqual(self.read(FILE, worked.of_file), wanted)

    def test_of_a_page(self):
        self.assertEqual(self.read(PAGE, worked.of_page), [("./mz verify a b", "accepted: c\n", "`d` is", 5), ("./mz show e", "end\n", "", 6)])

    def test_no_example_stands_twice(self):
        commands = [it.command for it in worked.everywhere() if "/tmp/" not in it.command]
        self.assertGreater(len(commands), 100)
        self.assertEqual(sorted(commands), sorted(set(commands)))


if __name__ == "__main__":
    unittest.main()
