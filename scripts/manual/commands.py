"""Reads commands.txt."""
import os
import re
from dataclasses import dataclass, field

SOURCE = os.path.join(os.path.dirname(os.path.abspath(__file__)), "commands.txt")


@dataclass
class Option:
    """Another form of a command: the words behind its name, and what it does."""

    shape: str
    does: str


@dataclass
class Command:
    """One command: its name, the arguments behind it, and what is said of it."""

    name: str
    words: list
    of_program: bool
    does: str = ""
    files: list = field(default_factory=list)
    example: str = ""
    read: str = ""
    options: list = field(default_factory=list)
    more: list = field(default_factory=list)

    def shape(self):
        return " ".join([self.name, *self.words])

    def flags(self):
        """The words with which its other forms begin."""
        return [it.shape.split()[0] for it in self.options]


@dataclass
class Manual:
    """All of commands.txt."""

    commands: list = field(default_factory=list)
    kinds: list = field(default_factory=list)
    exits: list = field(default_factory=list)
    variables: list = field(default_factory=list)

    def of_program(self):
        return [it for it in self.commands if it.of_program]

    def named(self, name):
        return next((it for it in self.commands if it.name == name), None)


def add_to(command, line):
    key, colon, text = line.partition(": ")
    if colon and key in ("does", "example", "read"):
        setattr(command, key, text)
    elif colon and key == "files":
        command.files = text.split()
    elif colon and key == "option":
        shape, _, does = text.partition(" = ")
        command.options.append(Option(shape, does))
    else:
        command.more.append(line)


def read():
    manual, part = Manual(), ""
    with open(SOURCE, encoding="utf-8") as file:
        lines = [it.rstrip("\n") for it in file]
    for line in lines:
        heading = re.match(r"\[(\w+)\]$", line)
        if heading:
            part = heading[1]
        elif not line or line.startswith("#"):
            continue
        elif part in ("kinds", "exits", "variables"):
            getattr(manual, part).append(tuple(line.split(" ", 1)))
        elif line.startswith(" "):
            add_to(manual.commands[-1], line.strip())
        else:
            name, *words = line.split()
            manual.commands.append(Command(name, words, part == "program"))
    return manual
