"""A file that was refused, and the places in it. Nothing here goes over a file byte by byte: it may have 100 MB."""
import os

SHOWN = 100


def content(path):
    """The bytes of a file. What can be read only once, as a pipe, was read by the program."""
    if not os.path.isfile(path):
        raise OSError(f"{path} can't be read twice")
    with open(path, "rb") as file:
        return file.read()


class Source:
    """The bytes of a file, and the places in it."""

    def __init__(self, path):
        self.path, self.data = path, content(path)

    def line(self, at):
        """The number of the line in which a byte stands, from 1."""
        return self.data.count(b"\n", 0, at) + 1

    def bounds(self, at):
        """Where the line of a byte begins and ends."""
        start = self.data.rfind(b"\n", 0, at) + 1
        end = self.data.find(b"\n", at)
        return start, len(self.data) if end < 0 else end

    def shown(self, at):
        """Where the place is, the line itself, and a caret below the place: three lines."""
        said, at = self.settled(at)
        start, end = self.bounds(at)
        column = at - start
        first = max(0, column - 60) if column > 70 else 0
        piece = self.data[start + first : min(end, start + first + SHOWN)]
        before, behind = ".." if first else "", ".." if start + first + SHOWN < end else ""
        text = before + "".join(chr(it) if 32 <= it <= 126 else "?" for it in piece) + behind
        mark = " " * (len(before) + column - first) + "^"
        return [f"{self.named(at)}{said}:", f"    {text}", f"    {mark}"]

    def named(self, at):
        """The place as FILE:LINE:COLUMN."""
        return f"{self.path}:{self.line(at)}:{at - self.bounds(at)[0] + 1}"

    def settled(self, at):
        """The place to show: of one behind the end, after blanks, the end of the last line that says something."""
        at = min(at, len(self.data))
        if at < len(self.data):
            return "", at
        solid = len(self.data.rstrip(b" \n"))
        if 0 < solid < at and at - solid < 100:
            return ", behind which the text ends", solid
        return ", where the text ends", at

    def first_line(self, at, most=72):
        """The line of a place from there on, cut to so many letters."""
        end = self.data.find(b"\n", at, at + most + 1)
        text = self.data[at : end if end >= 0 else at + most].decode("latin-1")
        return text + (" .." if end < 0 and at + most < len(self.data) else "")


def specification_of(path):
    """The specification beside a text: of the same name, or of its folder's name; None where there is none."""
    folder = os.path.dirname(os.path.abspath(path))
    names = [os.path.splitext(os.path.basename(path))[0], os.path.basename(folder)]
    found = (os.path.join(folder, it + ".mm0") for it in names)
    return next((it for it in found if os.path.isfile(it)), None)


def many(count, one, more=None):
    """So many of something."""
    return f"{count:,} {one if count == 1 else more or one + 's'}"
