"""Names in a document: where they stand, and what is said of what they name."""
import re
from bisect import bisect_right
from dataclasses import dataclass, field
from typing import NamedTuple, Optional


class Name(NamedTuple):
    """A name that stands somewhere. `home` is the number of the statement that alone knows it, of a variable, a hypothesis
    or a let."""

    start: int
    end: int
    space: str  # sort, term, assertion, variable, hypothesis
    text: str
    declares: bool = False
    home: Optional[int] = None

    @property
    def key(self):
        return self.space, self.text, self.home


@dataclass
class Entry:
    """A statement that declares something: where it stands, and what is shown of it."""

    kind: str
    name: str
    start: int
    end: int
    name_start: int
    home: int  # the number of the statement
    shown: str
    about: str = ""
    is_local: bool = False
    notations: list = field(default_factory=list)

    @property
    def space(self):
        return space_of(self.kind)


@dataclass
class Names:
    names: list = field(default_factory=list)
    entries: list = field(default_factory=list)
    notes: dict = field(default_factory=dict)  # the key of a variable, a hypothesis or a let: what is shown of it

    def finish(self):
        """Puts the names in order, each place once, and makes what they are looked up by."""
        self.names = sorted(set(self.names), key=lambda it: (it.start, it.end))
        self._starts = [it.start for it in self.names]
        self._by_key, self._entries = {}, {}
        for it in self.names:
            self._by_key.setdefault(it.key, []).append(it)
        for it in self.entries:
            self._entries.setdefault((it.space, it.name), it)
        return self

    def at(self, offset):
        """The name that stands here, or ends here."""
        place = bisect_right(self._starts, offset)
        near = [it for it in self.names[max(place - 2, 0) : place] if it.start <= offset <= it.end]
        return near[-1] if near else None

    def of(self, key):
        """The places of this name."""
        return self._by_key.get(key, [])

    def entry(self, space, name):
        return self._entries.get((space, name))

    def note(self, key):
        return self.notes.get(key)

    def before(self, offset):
        """The home of the statement that this is in or behind, or nothing."""
        found = next((it for it in reversed(self.entries) if it.start <= offset), None)
        return found.home if found else None

    def notes_of(self, home):
        """The notes of a statement: what is shown of a space and a name."""
        return {(space, name): note for (space, name, its_home), note in self.notes.items() if its_home == home}


@dataclass
class PieceRead:
    """The names of one piece, placed in it; `home` says there whether the piece alone knows a name. Notes are by space and name."""

    names: list = field(default_factory=list)
    notes: dict = field(default_factory=dict)


KINDS = ("sort", "term", "def", "axiom", "theorem")


class PieceNames:
    """The names of a document that is cut into pieces. A piece is read when something of it is asked for."""

    def __init__(self, text, pieces, read, about):
        self.text, self.pieces, self._read, self._about = text, pieces, read, about
        self._starts = [it.start for it in pieces]
        self._numbers = {}
        for number, it in enumerate(pieces):
            if it.kind in KINDS:
                self._numbers.setdefault((space_of(it.kind), it.name), number)

    def _names(self, number):
        it = self.pieces[number]
        return [Name(n.start + it.start, n.end + it.start, n.space, n.text, n.declares, number if n.home else None)
                for n in self._read(it).names]

    def at(self, offset):
        """The name that stands here, or ends here."""
        number = bisect_right(self._starts, offset) - 1
        near = [it for it in self._names(number) if it.start <= offset <= it.end] if number >= 0 else []
        return max(near, key=lambda it: (it.start, it.end), default=None)

    def of(self, key):
        """The places of this name."""
        numbers = range(len(self.pieces)) if key[2] is None else [key[2]]
        return [it for number in numbers for it in sorted(self._names(number)) if it.key == key]

    def entry(self, space, name):
        number = self._numbers.get((space, name))
        return None if number is None else self._entry(number)

    def _entry(self, number):
        it = self.pieces[number]
        end = it.text.find("=") if it.path.endswith(".proofs") and it.kind == "theorem" else -1
        shown = it.text[: outside(it.text)].rstrip() if end >= 0 else it.text
        name_start = it.start + re.search(rf"\b{it.kind}\s+", it.text).end()
        about, notations = self._about(self.text, it)
        return Entry(it.kind, it.name, it.start, it.start + len(it.text), name_start, number, shown, about,
                     it.text.startswith("local"), notations)

    @property
    def entries(self):
        return [self._entry(number) for number, it in enumerate(self.pieces) if it.kind in KINDS]

    def before(self, offset):
        """The number of the piece that this is in or behind, or nothing."""
        number = bisect_right(self._starts, offset) - 1
        return number if number >= 0 else None

    def notes_of(self, number):
        """The notes of a piece: what is shown of a space and a name."""
        return self._read(self.pieces[number]).notes if number is not None else {}

    def note(self, key):
        space, name, home = key
        return self.notes_of(home).get((space, name))

    @property
    def names(self):
        return [it for number in range(len(self.pieces)) for it in self._names(number)]


def outside(text):
    """Where the first `=` outside of formulas stands."""
    return next((it.start() for it in re.finditer(r"\$[^$]*\$?|=", text) if it.group() == "="), len(text))


def space_of(kind):
    return {"sort": "sort", "term": "term", "def": "term"}.get(kind, "assertion")
