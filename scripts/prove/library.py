"""What may be cited in a development: its own axioms and theorems, and the theorems of its imports. To look at one of an import
doesn't write it into the text."""
from itertools import islice

from .logic import App, walk
from .sources import steps


class Library:
    """What the source of a writer may cite. The index of each development is made once."""

    def __init__(self, writer):
        self.writer, self.own = writer, writer.development
        self.looked_at = {}  # name: the statement in the terms of the writer and where it is from, or nothing
        self.scopes = {}  # development: its scope
        for scope in scopes(writer.scope):
            self.scopes.setdefault(scope.development, scope)

    def fitting(self, goal, before):
        """What may prove the goal, with the name of the development that has it: first what the source has itself, as far as
        it is among the first `before` statements."""
        for development in self.scopes:
            for it in development.index.fitting(goal):
                found = self.named(it.name, before)
                if found and found[1] == development.name:
                    yield found

    def outright(self, names, before, most):
        """The names of what may be cited and has no hypotheses, and in which at most one other term stands than these: those
        without come first, and of them those of the source."""
        them = [(len(set(terms(it.conclusion)) - names), it.name) for development in self.scopes
                for it in reversed(development.theory.assertions.values()) if not it.hypotheses]
        found = (name for many in (0, 1) for other, name in them if other == many and self.named(name, before))
        return list(dict.fromkeys(islice(found, most)))

    def named(self, name, before):
        """The theorem or axiom of this name, and the development that has it; or nothing, where it can't be cited."""
        if name in self.own.theory.assertions:
            is_before = self.writer.numbers.get(name, before) < before
            return (self.writer.assertions[name], self.own.name) if is_before else None
        if name not in self.looked_at:
            self.looked_at[name] = self.imported(name)
        return self.looked_at[name]

    def imported(self, name):
        scope = next((it for it in self.scopes.values() if it.development.proofs.get(name)), None)
        if scope is None or not self.rests_on_known(name, scope, set()):
            return None
        theorem = scope.development.theory.assertions[name]
        formulas = [theorem.conclusion, *(e for _, e in theorem.hypotheses)]
        if not all(it in self.writer.terms for e in formulas for it in terms(e)):
            return None
        return scope.translated(theorem), scope.development.name

    def rests_on_known(self, name, scope, seen):
        """Whether all axioms are declared on which the proof of an import's theorem rests."""
        if name in seen or name in self.writer.assertions:
            return True
        seen.add(name)
        owner = next((it for it in scopes(scope) if name in it.development.proofs), None)
        if owner is None:
            return True  # a hypothesis, or what is had in the proof
        item = owner.development.proofs[name]
        return item is not None and all(self.rests_on_known(it, owner, seen) for it in steps(item.proof))


def scopes(scope):
    """A scope, and those of its imports in the order in which names are looked for."""
    yield scope
    for it in scope.imports:
        yield from scopes(it)


def terms(e):
    """The names of the terms in an expression."""
    e = walk(e)
    if isinstance(e, App):
        yield e.term.name
        for it in e.operands:
            yield from terms(it)


def terms_unfolded(e):
    """The names of the terms in an expression, and of those in the bodies of definitions."""
    found, waiting = set(), [e]
    while waiting:
        e = walk(waiting.pop())
        if isinstance(e, App):
            if e.term.name not in found and e.term.body is not None:
                waiting.append(e.term.body)
            found.add(e.term.name)
            waiting += e.operands
    return found
