"""The examples, as commands with what each prints: those of examples/commands.txt, and of the tables in the pages of examples/.

A file of commands has for each a line behind "$ ", then what it prints, then lines behind "# " that say why; an empty line
ends it. "## " begins a section, and what stands before the first command is for whoever reads the file.
"""
import glob
import os
import re
from typing import NamedTuple

TOP = os.path.dirname(os.path.dirname(os.path.abspath(__file__)))
FOLDER = os.path.join(TOP, "examples")
COMMANDS = os.path.join(FOLDER, "commands.txt")
ROW = re.compile(r"\| `(\./mz [^`]*)` \| `([^`]*)` \| ?(.*?) ?\|$")


class Example(NamedTuple):
    """A command, the lines that it prints, why, and the number of its line."""

    command: str
    printed: str
    why: str
    number: int


def lines_of(path):
    with open(path, encoding="utf-8") as file:
        return file.read().split("\n")


def of_file(path=COMMANDS):
    """The examples of a file of commands."""
    lines = lines_of(path)
    for number, line in enumerate(lines, 1):
        if line.startswith("$ "):
            rest = lines[number : lines.index("", number)]
            why = [it[2:] for it in rest if it.startswith("# ")]
            yield Example(line[2:], "".join(f"{it}\n" for it in rest[: len(rest) - len(why)]), " ".join(why), number)


def of_page(path):
    """The rows of a page's tables: a command, what it prints, and why."""
    for number, line in enumerate(lines_of(path), 1):
        if row := ROW.match(line):
            yield Example(row[1], row[2] + "\n", row[3], number)


def everywhere():
    """All examples: those of the file, then those of the pages."""
    yield from of_file()
    for page in sorted(glob.glob(os.path.join(FOLDER, "**", "README.md"), recursive=True)):
        yield from of_page(page)
