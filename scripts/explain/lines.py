"""The lines in which the program refuses."""
import re
from dataclasses import dataclass

FORMS = [
    re.compile(r"refused: (?P<of>specification|binary|text) statement (?P<statement>\d+) at byte (?P<byte>\d+): (?P<code>[A-Z]\d+) (?P<words>.*)$"),
    re.compile(r"refused: (?P<of>match) declaration (?P<declaration>\d+) statement (?P<statement>\d+): (?P<code>[A-Z]\d+) (?P<words>.*)$"),
    re.compile(r"refused: (?P<of>listing) line (?P<statement>\d+): (?P<code>[A-Z]\d+) (?P<words>.*)$"),
    re.compile(r"refused: (?P<of>text|decompiled) statement (?P<statement>\d+): (?P<code>(?P<words>local definition|depth))$"),
    re.compile(r"(?P<of>limit): (?P<code>L\d+) (?P<words>.*) (?P<count>\d+)$"),
]


@dataclass
class Refusal:
    """One line, taken apart. `of` is specification, binary, text, match, listing, decompiled or limit; what a line doesn't have is 0."""

    of: str
    code: str
    words: str
    statement: int = 0
    byte: int = 0
    declaration: int = 0
    count: int = 0

    @classmethod
    def of_line(cls, line):
        """The refusal that the line says, or None where it says none."""
        found = next(filter(None, (it.match(line.strip()) for it in FORMS)), None)
        if found is None:
            return None
        parts = {name: int(text) if name in ("statement", "byte", "declaration", "count") else text for name, text in found.groupdict().items()}
        return cls(**parts)
