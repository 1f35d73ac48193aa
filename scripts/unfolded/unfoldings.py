"""Which definitions the proofs of an accepted pair unfold.

A theorem rests on a definition where a conversion in its body unfolds it, or where it cites a theorem that rests on it. Of what
may stand in the place of the other the direction doesn't matter: an application that is folded is unfolded the other way round."""
import re
from typing import NamedTuple

from explore.specification import Notation
from metamath.binaries import Binary, Body


class Definition(NamedTuple):
    name: str
    is_local: bool  # the binary's own; else the specification declares it


class Pair:
    """A specification and a binary that was accepted against it.

    A local definition has the name that `decompile` gives it: `_l` and the number of its statement, with more underscores
    where a name of the specification begins with one."""

    def __init__(self, declarations, data):
        self._public = [it for it in declarations if not isinstance(it, Notation)]
        self._binary = Binary(data)
        self._terms = []  # a Definition for each term of the binary, plain terms among them
        self._resting = []  # for each theorem of the binary the terms on which it rests, bit k for the term k
        self._told = []  # the specification's theorems, as a name and the row

    def theorems(self):
        """Each theorem of the specification, in order, with the definitions on which it rests, in the binary's order."""
        public, local = iter(self._public), self._local_prefix()
        for number, statement in enumerate(self._binary.statements(), 1):
            name = f"{local}{number}" if statement.is_local else next(public).name
            if statement.kind == "term":
                self._terms.append(Definition(name, statement.is_local))
            elif statement.kind in ("axiom", "theorem"):
                self._resting.append(self._rests(statement) if statement.kind == "theorem" else 0)
                if statement.kind == "theorem" and not statement.is_local:
                    self._told.append((name, statement.row))
        return [(name, self._named(self._resting[row])) for name, row in self._told]

    def _local_prefix(self):
        longest = max((len(re.match("_*", it.name)[0]) for it in self._public), default=0)
        return "_" * (longest + 1) + "l"

    def _rests(self, statement):
        """The terms on which a theorem of the binary rests."""
        found = 0
        for proof in Body(self._binary, statement, self._binary.theorems[statement.row].parameters).proofs:
            if proof.kind == "cited":
                found |= self._resting[proof.by]
            elif proof.kind == "converted":
                for term in unfolded(proof.by):
                    found |= 1 << term
        return found

    def _named(self, terms):
        return [it for number, it in enumerate(self._terms) if terms >> number & 1]


def unfolded(obligation):
    """The terms that a conversion unfolds, by their rows."""
    open_, seen, found = [obligation], set(), set()
    while open_:
        it = open_.pop()
        if id(it) in seen:
            continue
        seen.add(id(it))
        kind, *parts = it.how
        if kind == "unfold":
            found.add(parts[0])
        if kind == "cong":
            open_ += parts[-1]
        elif kind != "refl":
            open_.append(parts[-1])
    return found
