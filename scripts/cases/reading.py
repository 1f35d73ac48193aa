"""Reads the files of cases: sections of rows, texts with escapes, binaries in hexadecimal, and changes of them.

A file is divided by heads in brackets, `[kind word ..]`. Below a head each line is a row; a line that begins with a blank
goes on with the row above it. Empty lines and those that begin with # are skipped, but within a row's further lines.
"""
import dataclasses
import os
import re
import shlex

TOP = os.path.dirname(os.path.dirname(os.path.dirname(os.path.abspath(__file__))))
FOLDER = os.path.join(TOP, "tests")


class Wrong(Exception):
    """A file of cases isn't written as it should be."""


@dataclasses.dataclass
class Row:
    """A line, the lines that belong to it, and where it stands."""

    place: str
    text: str
    more: list = dataclasses.field(default_factory=list)

    def parts(self, count):
        """The parts between bars."""
        parts = [it.strip() for it in self.text.split(" | ", count - 1)]
        if len(parts) != count:
            raise Wrong(f"{self.place}: {count} parts are wanted, with | between them")
        return parts


@dataclasses.dataclass
class Section:
    """What stands below a head: its kind, the head's further words, and the rows."""

    place: str
    kind: str
    words: list
    rows: list = dataclasses.field(default_factory=list)


def sections(path):
    """The sections of a file."""
    found = []
    with open(path, encoding="utf-8") as file:
        lines = file.read().split("\n")
    for number, line in enumerate(lines, 1):
        place = f"{os.path.relpath(path, TOP)}:{number}"
        if line.startswith("["):
            kind, *words = shlex.split(line.strip()[1:-1])
            found.append(Section(place, kind, words))
        elif line.startswith(" ") and found and found[-1].rows:
            found[-1].rows[-1].more.append(line)
        elif line and not line.startswith("#"):
            if not found:
                raise Wrong(f"{place}: a row before the first head")
            found[-1].rows.append(Row(place, line))
    return found


ESCAPES = {"n": "\n", "t": "\t", "r": "\r", "0": "\0"}
ESCAPE = re.compile(r"\\(?:x([0-9a-f]{2})|\{(\d+)(?:\.\.(\d+))?:((?:[^\\}]|\\.)*)\}|(.))", re.S)


def unescaped(text):
    """The bytes that a text stands for: \\n, \\t, \\r, \\0, \\x7f and \\\\, and \\{12:ab}, which is ab twelve times, in which \\#
    is the number of the time, from 0; \\{9..1:ab} is ab for each number from 9 to 1. A text in quotes is what stands between
    them: one that is empty or begins or ends with a blank."""
    if len(text) > 1 and text[0] == text[-1] == '"':
        text = text[1:-1]
    parts, at = [], 0
    for found in ESCAPE.finditer(text):
        parts += [text[at : found.start()].encode(), replaced(*found.groups())]
        at = found.end()
    return b"".join([*parts, text[at:].encode()])


def replaced(byte, first, last, piece, letter):
    """The bytes of one escape."""
    if byte:
        return bytes.fromhex(byte)
    if first:
        return b"".join(unescaped(piece.replace("\\#", str(number))) for number in numbers(int(first), last))
    return ESCAPES.get(letter, letter).encode()


def numbers(first, last):
    """So many numbers from 0 on, or those from the one up or down to the other."""
    if last is None:
        return range(first)
    return range(first, int(last) + 1) if first <= int(last) else range(first, int(last) - 1, -1)


def content(name):
    """The bytes of a file of tests/files; of one in hexadecimal those that it says, without its comments."""
    path = os.path.join(FOLDER, "files", name)
    if not os.path.exists(path):
        raise Wrong(f"there is no {os.path.relpath(path, TOP)}")
    with open(path, "rb") as file:
        found = file.read()
    if not name.endswith(".hex"):
        return found
    return bytes.fromhex(re.sub(rb"#.*", b"", found).decode())


def changed(base, changes):
    """The bytes after the changes, one behind another: `put 12: 0a 0b` puts bytes in the place of others, `leave out
    12..14` takes those from 12 up to 14 away, `first 12` keeps so many, and `then 0a` adds some at the end; `-` is none."""
    found = bytearray(base)
    for change in [] if changes == "-" else [it.strip() for it in changes.split(",")]:
        put = re.fullmatch(r"put (\d+): ([0-9a-f ]+)", change)
        out = re.fullmatch(r"leave out (\d+)\.\.(\d+)", change)
        front = re.fullmatch(r"first (\d+)", change)
        then = re.fullmatch(r"then ([0-9a-f ]+)", change)
        if put:
            at, new = int(put[1]), bytes.fromhex(put[2])
            found[at : at + len(new)] = new[: max(0, len(found) - at)]
        elif out:
            del found[int(out[1]) : int(out[2])]
        elif front:
            del found[int(front[1]) :]
        elif then:
            found += bytes.fromhex(then[1])
        else:
            raise Wrong(f"no change: {change}")
    return bytes(found)
