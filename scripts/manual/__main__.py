"""Prints what ./mz does.

    scripts/manual              all commands
    scripts/manual COMMAND      one command
    scripts/manual --check      whether mz.1, the completion and the README are in step with commands.txt
    scripts/manual --write      makes mz.1 and the completion's table anew
"""
import difflib
import os
import sys

TOP = os.path.dirname(os.path.dirname(os.path.dirname(os.path.abspath(__file__))))
sys.path.insert(0, os.path.join(TOP, "scripts"))

import manual  # noqa: E402
import running  # noqa: E402
from manual import completion, pages  # noqa: E402

MAN = os.path.join(TOP, "mz.1")
BASH = os.path.join(TOP, "editors", "bash", "mz.bash")
README = os.path.join(TOP, "README.md")


def text_of(path):
    with open(path, encoding="utf-8") as file:
        return file.read()


def made(book):
    """What each made file is to hold."""
    return {MAN: pages.man_page(book), BASH: completion.renewed(text_of(BASH), book)}


def check(book):
    wrong = [path for path, text in made(book).items() if not os.path.exists(path) or text_of(path) != text]
    for path in wrong:
        print(f"{os.path.relpath(path, TOP)} isn't what scripts/manual/commands.txt makes: scripts/manual --write")
    lines = text_of(README).split("\n")
    for it in book.of_program():
        shape = f"./mz {it.shape()}"
        if not any(line.startswith(shape) for line in lines):
            wrong.append(README)
            print(f"README.md has no line that begins with {shape}")
    if not wrong:
        print(f"{len(book.commands)} commands, in help, man page, completion and README alike")
    return 1 if wrong else 0


def write(book):
    for path, text in made(book).items():
        with open(path, "w", encoding="utf-8") as file:
            file.write(text)
    return 0


def explain(book, name):
    command = book.named(name)
    if command:
        print(pages.of_command(command))
        return 0
    near = difflib.get_close_matches(name, [it.name for it in book.commands], 1)
    print(f"mz: there is no command {name}" + (f"; {near[0]} is near it" if near else "") + ": mz help lists all", file=sys.stderr)
    return 2


def main():
    words = sys.argv[1:]
    book = manual.read()
    if not words:
        print(pages.overview(book))
        return 0
    if words == ["--check"]:
        return check(book)
    if words == ["--write"]:
        return write(book)
    return explain(book, words[0])


if __name__ == "__main__":
    running.whole(main)
