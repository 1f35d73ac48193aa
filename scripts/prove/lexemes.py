"""The lexemes of specifications and of proof sources."""
import re
from typing import NamedTuple

from .places import Wrong

LEXEME = re.compile(r"(?P<space>[ \n]+|--[^\n]*)|(?P<name>[A-Za-z_][A-Za-z0-9_]*)|(?P<number>[0-9]+)"
                    r"|\$(?P<math>[^$]*)\$|\"(?P<string>[^\"\n]*)\"|(?P<symbol><-|[*.:;(){}>=_,\[\]?])")
BRACKETS = {"(": ")", "[": "]", "{": "}"}
KINDS = {"math": "a formula between $", "string": "a string between \"", "name": "a name", "number": "a number"}


class Lexeme(NamedTuple):
    kind: str
    text: str  # of a formula or a string what stands inside
    start: int


class Math(NamedTuple):
    """A formula as it stands in a source: its text, and where that begins."""

    text: str
    source: object
    start: int

    def place(self, offset=0):
        return self.source.place(self.start + offset)


class Lexer:
    def __init__(self, source):
        self.source, self.at = source, 0
        self.lexemes = list(lexemes(source))

    def next(self, ahead=0):
        at = self.at + ahead
        return self.lexemes[at] if at < len(self.lexemes) else Lexeme("end", "", len(self.source.text))

    def is_kind(self, kind, ahead=0):
        return self.next(ahead).kind == kind

    def is_next(self, text, ahead=0):
        found = self.next(ahead)
        return found.kind in ("name", "symbol") and found.text == text

    def end(self):
        """Where the lexeme that was taken last ends."""
        found = self.lexemes[self.at - 1]
        return found.start + len(found.text) + (2 if found.kind in ("math", "string") else 0)

    def place(self):
        return self.source.place(self.next().start)

    def unexpected(self, wanted):
        found = self.next()
        end = f"'{self.source.after}'" if self.source.after else "the end"
        words = {"end": end, "math": f"${found.text}$"}.get(found.kind, f"'{found.text}'")
        details = [*(self.opened() if wanted in ("','", "')'", "']'") else ()), *self.running_on()]
        return Wrong(f"{wanted} belongs here, and not {words}", self.place(), details)

    def opened(self):
        """The bracket that is open here."""
        waiting = []
        for it in self.lexemes[: self.at]:
            if it.kind == "symbol" and it.text in BRACKETS:
                waiting.append(it)
            elif it.kind == "symbol" and it.text in BRACKETS.values() and waiting:
                waiting.pop()
        return [("opened", [f"'{waiting[-1].text}', {self.source.place(waiting[-1].start)}"])] if waiting else []

    def running_on(self):
        return running_on(self.source, self.lexemes[self.at - 1 : self.at])

    def take(self, kind):
        if not self.is_kind(kind):
            raise self.unexpected(KINDS[kind])
        self.at += 1
        return self.lexemes[self.at - 1].text

    def math(self):
        start = self.next().start + 1
        return Math(self.take("math"), self.source, start)

    def skip(self, text):
        """Takes this lexeme if it is the next."""
        if self.is_next(text):
            self.at += 1
            return True
        return False

    def want(self, text):
        if not self.skip(text):
            raise self.unexpected(f"'{text}'")


def running_on(source, found):
    """The first of these formulas that runs over a `;` and a line: its end is likely forgotten."""
    for it in found:
        if it.kind == "math" and re.search(r";\s*\n", it.text):
            begin = it.text[: it.text.index(";")].rstrip()
            return [("perhaps", [f"a $ is missing: the formula ${begin} .. of {source.place(it.start)} runs on over a ;"])]
    return []


def lexemes(source):
    at, before = 0, []
    while at < len(source.text):
        found = LEXEME.match(source.text, at)
        if not found:
            unclosed = {"$": "this formula isn't closed by a $", '"': "this string isn't closed on its line"}
            char = source.text[at]
            raise Wrong(unclosed.get(char, f"no lexeme begins with {char!r}"), source.place(at), running_on(source, before))
        if found.lastgroup != "space":
            before.append(Lexeme(found.lastgroup, found[found.lastgroup], at))
            yield before[-1]
        at = found.end()
