"""Places in files, and what is wrong there."""
import bisect
import os
import re
from functools import cached_property

from explain import characters


class Place:
    """A place of a source. What moves with its source moves too: path, line and column are asked for when they are told."""

    __slots__ = ("source", "offset")

    def __init__(self, source, offset):
        self.source, self.offset = source, offset

    @property
    def path(self):
        return self.source.path

    @property
    def line(self):
        return self.source.position(self.offset)[0]

    @property
    def column(self):
        return self.source.position(self.offset)[1]

    @property
    def at(self):
        """The place counted in characters from the beginning of the file."""
        return self.source.start + self.offset

    def __eq__(self, other):
        return isinstance(other, Place) and (self.source, self.offset) == (other.source, other.offset)

    def __hash__(self):
        return hash((self.source, self.offset))

    def __str__(self):
        return f"{shown_path(self.path)}:{self.line}:{self.column}"


def shown_path(path):
    """The path as somebody types it: from the working folder, where the file lies below it."""
    near = os.path.relpath(path)
    return path if near.startswith("..") else near


class Source:
    """The text of a file, or a piece of it that begins at `start`, in this line and column."""

    start, line, column = 0, 1, 1
    after = ""  # what stands behind the piece, where that matters

    def __init__(self, path, text=None):
        self.path = path
        self.text = self.read() if text is None else text

    def read(self):
        try:
            with open(self.path, "rb") as file:
                found = file.read()
        except OSError as why:
            raise Wrong(f"{shown_path(self.path)} can't be read: {why.strerror}") from None
        return found.decode("utf-8", "surrogateescape")

    def odd(self):
        """What is wrong with the characters, or nothing."""
        found = characters.odd(self.text)
        return found and Wrong(f"no file may have this character, {found[1]}", self.place(found[0]))

    @cached_property
    def starts(self):
        """Where the lines begin."""
        return [0, *(found.end() for found in re.finditer("\n", self.text))]

    def place(self, offset):
        return Place(self, offset)

    def position(self, offset):
        """The line and the column in the file, both counted from 1."""
        line = bisect.bisect_right(self.starts, offset)
        column = offset - self.starts[line - 1] + 1
        return self.line + line - 1, column + (self.column - 1 if line == 1 else 0)


class Wrong(Exception):
    """What is wrong, where that is, and what a person wants to know besides: (label, lines) each."""

    def __init__(self, why, place=None, details=()):
        super().__init__(why)
        self.why, self.place, self.details = why, place, list(details)

    def __str__(self):
        return self.report()

    def report(self, with_line=False):
        return report(self.why, self.place, self.details, with_line)


def excerpt(place):
    """The line of a place, with a caret below it."""
    try:
        line = Source(place.path).text.split("\n")[place.line - 1]
    except (Wrong, IndexError):
        return []
    first = max(0, place.column - 80)
    return ["    " + line[first : first + 110], "    " + " " * (place.column - 1 - first) + "^"]


def report(why, place, details=(), with_line=False):
    """A report in lines: the place and the message, the line if that is asked for, and the details below in two columns."""
    lines = [f"{place}: {why}" if place else why, *(excerpt(place) if with_line and place else ())]
    width = max((len(label) for label, _ in details), default=0)
    for label, texts in details:
        for i, text in enumerate(texts):
            lines.append(f"  {label if i == 0 else '':{width}}  {text}")
    return "\n".join(lines)
