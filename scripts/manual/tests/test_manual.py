"""Tries what help says: its examples run, and the completion knows its files."""
import os
import re
import shutil
import subprocess
import sys
import tempfile
import unittest

import manual
from manual import pages

TOP = os.path.dirname(os.path.dirname(os.path.dirname(os.path.dirname(os.path.abspath(__file__)))))
BY_SCRIPT = ("check", "version", "help")


class Examples(unittest.TestCase):
    @unittest.skipUnless("MZ" in os.environ, "MZ names no program")
    def test_each_example_runs(self):
        with tempfile.TemporaryDirectory() as room:
            for it in manual.read().commands:
                if not it.of_program and it.name not in BY_SCRIPT:
                    continue
                words = it.example.replace("/tmp/", room + "/").split()
                self.assertEqual(words[:2], ["./mz", it.name])
                ran = subprocess.run(words, cwd=TOP, capture_output=True, stdin=subprocess.DEVNULL, env={**os.environ, "MZ_PROGRAM": os.environ["MZ"]}, check=False)
                self.assertEqual((it.name, ran.returncode, ran.stderr), (it.name, 0, b""))

    def test_pages_that_are_named_are_there(self):
        """And the page's part, by its heading or by its number."""
        for it in (it for it in manual.read().commands if it.read):
            path, _, part = it.read.partition(", ")
            with open(os.path.join(TOP, path), encoding="utf-8") as file:
                text = file.read()
            number = re.match(r"sections? (\d+(?:\.\d+)?)", part)
            if part:
                self.assertRegex(text, rf"(?m)^#+ {number[1] if number else re.escape(part)}\b", it.name)


class Pages(unittest.TestCase):
    def test_a_line_for_each_command(self):
        book = manual.read()
        lines = pages.overview(book).split("\n")
        for it in book.commands:
            self.assertEqual(sum(line.startswith(f"  {it.shape()} ") for line in lines), 1, it.name)
        self.assertTrue(all(len(line) <= 100 for line in lines))

    def test_the_kinds_of_file_are_those_that_commands_take(self):
        book = manual.read()
        endings = [ending for ending, _ in book.kinds]
        self.assertEqual(endings, [".mm0", ".mmb", ".mmu", ".proofs", ".list", ".mm"])
        self.assertEqual({f".{it}" for command in book.commands for it in command.files}, set(endings))
        for ending, does in book.kinds:
            self.assertRegex(pages.overview(book), rf"(?m)^  \{ending} +{does[:20]}")

    def test_each_command_says_how_it_is_called(self):
        for it in manual.read().commands:
            self.assertTrue(pages.of_command(it).startswith(f"usage: mz {it.shape()}\n\n"))
            self.assertIn(it.example, pages.of_command(it))

    def test_each_option_of_a_script_is_named(self):
        """The options are those that the script itself names where it is given none of its words."""
        for it in manual.read().commands:
            script = os.path.join(TOP, "scripts", it.name)
            if it.of_program or not os.path.isdir(script):
                continue
            ran = subprocess.run([sys.executable, "-B", script, "--no-such-option"], capture_output=True, text=True, stdin=subprocess.DEVNULL, check=False)
            own = set(re.findall(rf"\b{it.name} +(--\w+)", ran.stdout + ran.stderr))
            self.assertEqual(sorted(own), sorted(it.flags()), it.name)

    def test_each_option_is_in_help_and_the_man_page(self):
        with open(os.path.join(TOP, "mz.1"), encoding="utf-8") as file:
            page = file.read().replace("\\", "")
        for it in manual.read().commands:
            for option in it.options:
                self.assertIn(f"{it.name} {option.shape}", pages.of_command(it))
                self.assertIn(f"{it.name} {option.shape}", page)

    @unittest.skipUnless(shutil.which("bash"), "there is no bash")
    def test_completion(self):
        asked = ["_mz_ending 1 verify", "_mz_ending 3 decompile", "_mz_ending 1 sample"]
        for typed in ("mz dec", "mz prove --ch"):
            asked.append(f'COMP_WORDS=({typed}); COMP_CWORD={typed.count(" ")}; _mz; echo "${{COMPREPLY[@]}}"')
        script = "; ".join([f'source "{TOP}/editors/bash/mz.bash"', *asked])
        ran = subprocess.run(["bash", "-c", script], capture_output=True, text=True, check=False)
        self.assertEqual((ran.stdout, ran.stderr), ("mm0\nmmu\ndecompile\n--check\n", ""))


if __name__ == "__main__":
    unittest.main()
