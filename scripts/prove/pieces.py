"""The pieces of a text: one for each statement of a specification, and for each item of a source.

A piece ends at the `;` that ends its statement. Where that is missing it ends before the line that begins the next one, so
that what is wrong in one piece hides nothing of the others.
"""
import re
from bisect import bisect_right

from .places import Source

STATEMENTS = ("pure", "strict", "provable", "free", "sort", "term", "def", "axiom", "theorem", "delimiter", "infixl", "infixr",
              "prefix", "notation", "coercion")
ITEMS = ("theorem", "def", "local", "import", "equality", "congruence", "propositional")
_SPACE = re.compile(r"(?:\s+|--[^\n]*)*")
_WORD = re.compile(r"\w+|\$[^$]*\$?|.", re.S)
_NAME = re.compile(r"(?:(?:local|pure|strict|provable|free)\s+)*([a-z]\w*)\s+([A-Za-z_]\w*)")


class Piece(Source):
    """A statement or an item, from its first letter to its `;`."""

    def __init__(self, path, text, after):
        super().__init__(path, text)
        self.after, self.readings = after, {}
        found = _NAME.match(text)
        self.kind, self.name = found.groups() if found else (None, None)

    def moved(self, start, line, column):
        self.start, self.line, self.column = start, line, column


def _pattern(words):
    """What is met on the way: comments, formulas, strings, `;`, and lines that begin a piece. A formula that isn't closed
    before such a line isn't read on."""
    head = rf"(?:{'|'.join(words)})(?=[ \t]+[A-Za-z_$])"
    return re.compile(rf'--[^\n]*|\$(?:[^$;]|;(?!\s*\n\s*{head}))*\$?|"[^"\n]*"?|(?P<end>;)|(?P<head>^{head})', re.M)


_STATEMENTS, _ITEMS = _pattern(STATEMENTS), _pattern(ITEMS)
_ITEM_HEAD = re.compile(rf"(?:{'|'.join(ITEMS)})\s+[A-Za-z_]")


class Cutter:
    """Cuts the text of a file, and again where it is changed: pieces that are still there are the same ones."""

    def __init__(self, path, is_source):
        self.path, self.is_source = path, is_source
        self.text, self.pieces = "", []

    def cut(self, text):
        """The pieces of this text."""
        front, back = common(self.text, text)
        shift = len(text) - len(self.text)
        kept = max(bisect_right(self.pieces, front, key=lambda it: it.start + len(it.text)) - 2, 0)  # a cut rests on what is behind
        made, old = self.pieces[:kept], self.pieces[kept:]
        spare = by_text([it for it in old if it.start < len(self.text) - back])
        places = {it.start + shift: i for i, it in enumerate(old) if it.start >= len(self.text) - back}
        for start, end in self.cuts(text, old[0].start if kept else None):
            if start in places:
                made += self.behind(text, old[places[start] :])
                break
            made.append(self.piece(text, start, end, made, spare))
        self.text, self.pieces = text, made
        return made

    def cuts(self, text, begin=None):
        """Where the pieces begin and end. In a source, where a `;` stands inside of proofs too, one ends its item where the
        beginning of another stands behind it."""
        begin = _SPACE.match(text).end() if begin is None else begin
        for it in (_ITEMS if self.is_source else _STATEMENTS).finditer(text, begin):
            end = it.end() if it.lastgroup == "end" else it.start()
            if it.lastgroup is None or end <= begin:
                continue
            behind = _SPACE.match(text, end).end()
            if self.is_source and it.lastgroup == "end" and behind < len(text) and not _ITEM_HEAD.match(text, behind):
                continue
            yield begin, end
            begin = behind
        if begin < len(text):
            yield begin, len(text)

    def piece(self, text, start, end, before, spare):
        after = _after(text, end)
        same = spare.get(text[start:end])
        made = same.pop() if same and same[-1].after == after else Piece(self.path, text[start:end], after)
        counted, line = (before[-1].start, before[-1].line) if before else (0, 1)
        made.moved(start, line + text.count("\n", counted, start), start - text.rfind("\n", 0, start))
        return made

    def behind(self, text, pieces):
        """The pieces behind a change, where they are now."""
        shift, lines, first = len(text) - len(self.text), text.count("\n") - self.text.count("\n"), pieces[0].line
        for it in pieces:
            start = it.start + shift
            it.moved(start, it.line + lines, start - text.rfind("\n", 0, start) if it.line == first else it.column)
        return pieces


def by_text(pieces):
    found = {}
    for it in reversed(pieces):
        found.setdefault(it.text, []).append(it)
    return found


def common(old, new):
    """How many characters two texts have in common, from the front and, without those, from the back."""
    most = min(len(old), len(new))
    front = longest(most, lambda n: old[:n] == new[:n])
    return front, longest(most - front, lambda n: old[len(old) - n :] == new[len(new) - n :])


def longest(most, fits):
    """The greatest number up to `most` that fits, where all below it do."""
    low = 0
    while low < most:
        middle = (low + most + 1) // 2
        low, most = (middle, most) if fits(middle) else (low, middle - 1)
    return low


def _after(text, end):
    if text[end - 1 : end] == ";":
        return ""
    found = _WORD.match(text, end)
    return found.group() if found else ""
