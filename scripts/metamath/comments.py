"""Comments and headings of a database as lines of a specification."""
import re
from html import unescape

WIDTH = 120
MARK = "--| "
_NOTES = re.compile(r"\s*\((?:Contributed|Revised|Proof shortened|Proof modification|New usage)[^)]*\)")
_TAG = re.compile(r"</?[A-Za-z][^<>]*>")
_ENTITY = re.compile(r"&#?\w+;")
_LABEL = re.compile(r"(?<!\S)~ +(?=\S)")
_ODD = re.compile("[^ -~]")


def filled(words, first, other=None):
    """Lines of these words; `first` and `other` stand before the first line and the others."""
    other = first if other is None else other
    lines, line, is_begun = [], first, False
    for word in words:
        if is_begun and len(line) + 1 + len(word) > WIDTH:
            lines.append(line)
            line, is_begun = other, False
        line += " " + word if is_begun else word
        is_begun = True
    return [*lines, line] if is_begun else lines


def plain(comment):
    """What a comment says, without its marks: labels and mathematics stand in it as they are, and who wrote it isn't said."""
    text = _NOTES.sub("", comment)
    if "<" in text and "<HTML>" in text.upper():
        text = _TAG.sub("", text)
    if "&" in text:
        text = _ENTITY.sub(lambda it: unescape(it[0]) if unescape(it[0]).isascii() else it[0], text)
    if "~" in text:
        text = _LABEL.sub("", text).replace("~~", "~")
    text = text.replace("``", "\0").replace("`", "").replace("\0", "`")
    if text.isascii() and text.replace("\n", "").isprintable():
        return text
    return _ODD.sub(lambda it: it[0] if it[0] == "\n" else " " if it[0].isspace() else "?", text)


def about_lines(comment):
    """The lines that say above a statement what its comment in the database says; an empty one parts paragraphs."""
    made = []
    for paragraph in re.split(r"\n\s*\n", plain(comment)):
        lines = filled(paragraph.split(), MARK)
        if lines:
            made += [MARK.rstrip()] * bool(made) + lines
    return made


class Sections:
    """The headings of a database, each to be written where its first statement stands."""

    def __init__(self, headings):
        self._headings, self._next = headings, 0
        self._open, self._written = [], []  # the headings over what is written now, the highest first

    def lines(self, number):
        """The headings that stand over an assertion, by number, and weren't over the one before."""
        while self._next < len(self._headings) and self._headings[self._next].before <= number:
            it = self._headings[self._next]
            self._open = [other for other in self._open if other.level < it.level] + [it]
            self._next += 1
        fresh = [it for it in self._open if not any(it is other for other in self._written)]
        self._written = self._open
        made = []
        for it in fresh:
            made += ["", f"-- {'#' * it.level} {_ODD.sub('?', it.title)}"]
        return made
