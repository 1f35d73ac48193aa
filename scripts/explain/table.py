"""The text that explains each rule's example, kept in table.txt, so that whoever changes them sees what changes.

Each entry is the command that docs/RULES.md shows for a rule, the line that the program prints, and what is said of it.
"""
import os
import subprocess

from . import rules
from .telling import refusal

HERE = os.path.dirname(os.path.abspath(__file__))
TOP = os.path.dirname(os.path.dirname(HERE))
TABLE = os.path.join(HERE, "table.txt")
MOST = 220


def last_line(words):
    """The line that the program prints for these arguments."""
    program = os.environ.get("MZ_PROGRAM") or os.environ.get("MZ") or os.path.join(TOP, "mz")
    how = {"cwd": TOP, "stdout": subprocess.PIPE, "stderr": subprocess.DEVNULL, "stdin": subprocess.DEVNULL, "env": {**os.environ, "MZ_EXPLAIN": "0"}}
    ran = subprocess.run([program, *words], check=False, **how)
    return ran.stdout.decode("utf-8", "replace").rstrip("\n").rpartition("\n")[2]


def cut(line):
    return line if len(line) <= MOST else line[:MOST] + " ..."


def entries():
    """What is printed and said for each rule's example."""
    for code, words in rules.examples().items():
        line = last_line(words)
        said = refusal(line, words)
        yield code, "\n".join([f"$ ./mz {' '.join(words)}", line, *map(cut, said.split("\n"))])


def main(given):
    os.chdir(TOP)
    found = dict(entries())
    text = "\n\n".join(found.values()) + "\n"
    if given == ["--write"]:
        with open(TABLE, "w", encoding="utf-8") as file:
            file.write(text)
    with open(TABLE, encoding="utf-8") as file:
        kept = file.read()
    silent = [code for code, entry in found.items() if code not in entry.partition("\n")[2].partition("\n")[2]]
    for code in silent:
        print(f"{code}: nothing is said of its example")
    wrong = [one for one, other in zip(text.split("\n\n"), kept.split("\n\n")) if one != other] if text != kept else []
    for one in wrong:
        print(f"scripts/explain/table.txt has another text than:\n{one}")
    print(f"{len(found)} refusals are explained as scripts/explain/table.txt has them" if text == kept else "scripts/explain/table.txt isn't what is said: scripts/explain --table --write")
    return 1 if silent or text != kept else 0
