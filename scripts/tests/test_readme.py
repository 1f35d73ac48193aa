"""That README counts what is believed of the way to the program (the script, and what finds and builds the program), and what a first build takes;
and that lines which pages show of a source or a script stand there."""
import ast
import io
import os
import re
import sys
import tokenize
import unittest

TOP = os.path.dirname(os.path.dirname(os.path.dirname(os.path.abspath(__file__))))
sys.path.insert(0, os.path.join(TOP, "scripts"))

from manual import pages  # noqa: E402

SHELL = ["mz", "scripts/build/found", "scripts/build/sum"]
PYTHON = ["scripts/build/__main__.py", "scripts/build/program.py", "scripts/build/crates.py"]
EMPTY = (tokenize.COMMENT, tokenize.NL, tokenize.NEWLINE, tokenize.INDENT, tokenize.DEDENT, tokenize.ENDMARKER)


def text_of(path):
    with open(os.path.join(TOP, path), encoding="utf-8") as file:
        return file.read()


def lines_of_shell(path):
    return sum(bool(it.strip()) and not it.lstrip().startswith("#") for it in text_of(path).splitlines())


def lines_of_python(path):
    """The lines with code, without comments, texts that document and imports."""
    text = text_of(path)
    left_out = set()
    for node in ast.walk(ast.parse(text)):
        if isinstance(node, (ast.Module, ast.FunctionDef, ast.ClassDef)) and ast.get_docstring(node) is not None:
            node = node.body[0]
        elif not isinstance(node, (ast.Import, ast.ImportFrom)):
            continue
        left_out.update(range(node.lineno, node.end_lineno + 1))
    lines = set()
    for it in tokenize.generate_tokens(io.StringIO(text).readline):
        if it.type not in EMPTY:
            lines.update(range(it.start[0], it.end[0] + 1))
    return len(lines - left_out)


class Believed(unittest.TestCase):
    def test_the_count_of_the_script_and_the_build(self):
        said = int(re.search(r"\| the script `\./mz`.* \| some ([\d,]+) \|", text_of("README.md"))[1].replace(",", ""))
        found = sum(map(lines_of_shell, SHELL)) + sum(map(lines_of_python, PYTHON))
        self.assertLessEqual(abs(found - said), 20, f"README says {said}, and there are {found}")


class Said(unittest.TestCase):
    """What README says of the limits of an answer, of its cost, and of what one writes, whatever the words are; and other pages."""

    SAID = {
        "what a binary may bring": r"may bring .*definitions", "what is bounded": r"steps .*are .*bounded",
        "the one answer without a cause": r"memory ran out|out of memory", "a process that is killed": r"killed",
        "a real library, and its time": r"set\.mm.*seconds", "the second command's cost": r"processor minutes.*GB of memory",
        "what one writes": r"[Pp]roof source \(`\.proofs`\)",
    }

    ELSEWHERE = {
        "docs/USING.md": r"exit number is 0, with gaps too, since",  # why `draft` ends so
        "scripts/manual/commands.txt": r"With gaps, too, it ends with 0: the question is",
        "docs/FORMAT.md": r"\*\*Binaries of mm0-rs\.\*\* .*\n\n- Accepted: .*\n- Refused: ",
    }

    def test_each(self):
        lines = text_of("README.md").split("\n")
        for what, pattern in self.SAID.items():
            self.assertTrue(any(re.search(pattern, it) for it in lines), what)

    def test_elsewhere(self):
        for path, pattern in self.ELSEWHERE.items():
            self.assertRegex(text_of(path), pattern)


class FirstBuild(unittest.TestCase):
    def test_help_and_readme_say_the_same_minutes(self):
        """README has what was measured; help says it too."""
        minutes = re.search(r"that took (\d+) minutes on four processors\. .*?: (\d+) minutes more", text_of("README.md")).groups()
        self.assertEqual(re.search(r"that took (\d+) minutes, and (\d+) more", pages.FIRST.replace("\n", " ")).groups(), minutes)


class Shown(unittest.TestCase):
    def stand_in(self, lines, path):
        """The lines stand in the file, in this order."""
        rest = iter(text_of(path).splitlines())
        for line in lines:
            self.assertIn(line, rest, path)

    def test_lines_of_a_source(self):
        block = re.search(r"Six lines of .*?```\n(.*?)```", text_of("README.md"), re.S)[1].splitlines()
        self.assertEqual(len(block), 6)
        self.stand_in(block, "examples/arithmetic/arithmetic.proofs")

    def test_lines_of_a_tool(self):
        self.stand_in(re.search(r"```\n(STEP = .*?)```", text_of("docs/TOOLS.md"), re.S)[1].splitlines(), "examples/tools/sums.py")


if __name__ == "__main__":
    unittest.main()
