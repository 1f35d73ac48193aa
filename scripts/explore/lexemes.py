"""The lexemes of a specification, with their places."""
import re
from typing import NamedTuple

_LEXEME = re.compile(
    r"(?P<space>[ \n]+|--[^\n]*)"
    r"|(?P<name>[A-Za-z_][A-Za-z0-9_]*)"
    r"|(?P<number>0|[1-9][0-9]*)"
    r"|(?P<math>\$[^$]*\$)"
    r"|(?P<symbol>[*.:;(){}>=])"
    r"|(?P<odd>.|\n)"
)


class Unreadable(ValueError):
    """What can't be read, and where."""

    def __init__(self, at, why):
        super().__init__(why)
        self.at = at


class Lexeme(NamedTuple):
    kind: str  # name, number, math, symbol, odd (what no specification has), or end
    text: str
    at: int

    @property
    def end(self):
        return self.at + len(self.text)


def lexemes(text):
    """All lexemes of a text but whitespace and comments."""
    for found in _LEXEME.finditer(text):
        if found.lastgroup != "space":
            yield Lexeme(found.lastgroup, found.group(), found.start())


def comment_above(text, at):
    """The comment whose lines end right above this place, as one line of words: where some of them begin with `--|`, as the
    field writes what documents a statement, these and those behind them."""
    lines = []
    start = text.rfind("\n", 0, at) + 1
    while start > 0:
        above = text.rfind("\n", 0, start - 1) + 1
        line = text[above : start - 1]
        if not line.startswith("--"):
            break
        lines.insert(0, line)
        start = above
    first = next((i for i, it in enumerate(lines) if it.startswith("--|")), 0)
    return " ".join(it.lstrip("-").removeprefix("|").strip() for it in lines[first:])


class Lexer:
    """Lexemes one by one, with a look at the next."""

    def __init__(self, text):
        self._rest, self._end = lexemes(text), Lexeme("end", "", len(text))
        self.last, self.next = None, next(self._rest, self._end)  # the lexeme that was taken last, and the one behind it

    def _step(self):
        self.last, self.next = self.next, next(self._rest, self._end)
        return self.last

    def is_next(self, text):
        return self.next.text == text and self.next.kind in ("name", "symbol")

    def take(self, kind):
        """Takes the next lexeme, which has to be of this kind."""
        lexeme = self.next
        if lexeme.kind != kind:
            raise Unreadable(lexeme.at, f"a {kind} belongs here, and not {lexeme.text!r}")
        return self._step()

    def skip(self, text):
        """Takes the next lexeme if it is this."""
        if not self.is_next(text):
            return False
        self._step()
        return True

    def want(self, text):
        if not self.skip(text):
            raise Unreadable(self.next.at, f"{text!r} belongs here, and not {self.next.text!r}")

    def leave_statement(self):
        """Goes behind the next `;`."""
        while self.next.kind != "end" and not self.skip(";"):
            self._step()
