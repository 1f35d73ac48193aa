"""A Metamath database as `mz same` reads it: its statements in their own symbols. Nothing of the translator is used here, so
that a fault of one isn't a fault of the other.

A statement is cut into symbols when it is asked for them, so that those of 40 MB aren't kept."""
import os
import re
from typing import NamedTuple

_COMMENT = re.compile(r"\$\([^$]*+(?:\$(?!\))[^$]*+)*+\$\)")
_INCLUDED = re.compile(r"\$\[\s+(\S+)\s+\$\]")
# A label; the mark of a scope, or a keyword and what it says; or, from what is no statement on, everything.
_STATEMENT = re.compile(r"([^$]*)(?:\$(?:([{}])|([cvdfeap])\s([^$]*)\$(?:=[^$]*\$)?\.)|(.*))", re.S)


class Statement(NamedTuple):
    """An axiom or a theorem, with the hypotheses and the `$d` under which it stands."""

    label: str
    is_axiom: bool
    code: str
    text: str  # no statement has more symbols than this has characters
    given: tuple
    distinct: tuple

    @property
    def symbols(self):
        return self.text.split()

    @property
    def hypotheses(self):
        return [it.split() for it in self.given]

    @property
    def apart(self):
        """The pairs of variables that a `$d` keeps apart."""
        return {frozenset((a, b)) for it in self.distinct for a in it.split() for b in it.split() if a != b}


class Database:
    """`statements` of a text without comments, in their order; the typecode of each variable in `codes`; and all constants."""

    def __init__(self, text):
        self.codes, self.constants, self.statements = {}, set(), []
        given, distinct, scopes = (), (), []
        for before, mark, kind, said, rest in _STATEMENT.findall(text):
            label = before.strip()
            if rest or len(label.split()) != (kind in ("f", "e", "a", "p")) or kind and not said.strip() or mark == "}" and not scopes:
                raise ValueError(f"{self._place()} stands what is no statement: {' '.join((label + mark + kind + said + rest).split())[:60]}")
            if kind == "d":
                distinct += (said,)
            elif kind == "e":
                given += (said,)
            elif kind in ("a", "p"):
                self.statements.append(Statement(label, kind == "a", said[:200].split(None, 1)[0], said, given, distinct))
            elif mark == "{":
                scopes.append((given, distinct))
            elif mark:
                given, distinct = scopes.pop()
            elif kind == "c":
                self.constants.update(said.split())
            elif kind == "f":
                self.codes.update([said.split()[::-1]])
        if scopes:
            raise ValueError(f"{self._place()} a scope isn't ended")

    def _place(self):
        return f"behind {self.statements[-1].label}" if self.statements else "at its beginning"


def read(path):
    """A database by its path, with the files that it includes."""
    seen = set()

    def included(path):
        if os.path.realpath(path) in seen:
            return ""
        seen.add(os.path.realpath(path))
        with open(path, encoding="latin-1") as file:
            text = _COMMENT.sub(" ", file.read())
        return _INCLUDED.sub(lambda it: included(os.path.join(os.path.dirname(path), it[1])), text)

    return Database(included(path))
