"""What sources say for `rw` and `prop`: equalities with the theorems that carry them, and propositional logic."""
from dataclasses import dataclass
from functools import cached_property

from .kit import Kit
from .library import scopes
from .logic import App, Assertion, Term, Var
from .places import Wrong


@dataclass
class Inference:
    """A theorem as a step from premises to a conclusion. The premises are its hypotheses, and then the antecedents of its
    conclusion. With `is_under` it is for use under a context: premises and conclusion have one variable as antecedent."""

    theorem: Assertion
    hypotheses: list
    antecedents: list
    conclusion: object
    is_under: bool

    @property
    def premises(self):
        return [*self.hypotheses, *self.antecedents]


@dataclass
class Congruence:
    """A theorem that an equality goes through a term. `places` are those of the operands that it changes, in the order of the
    premises, each with the term of the equality that it wants there."""

    inference: Inference
    equality: Term
    term: Term
    places: dict


@dataclass
class Equality:
    """The term, and what makes it an equality."""

    term: Term
    refl: list
    symm: list
    trans: list
    mp: list


def items_of(scope):
    """What a source and its imports say for `rw` and `prop`."""
    return [item for it in scopes(scope) for item in it.development.said]


def kit_of(scope):
    """The lemmas of propositional logic for the proofs of a scope; nothing where it isn't said what they are about."""
    terms = scope.writer.terms
    found = next((it for it in items_of(scope) if it.kind == "propositional" and set(it.words[:2]) <= terms.keys()), None)
    if not found:
        return None
    kits, sort = scope.writer.development.memory.kits, terms[found.words[0]].sort
    return kits.get((found, sort)) or kits.setdefault((found, sort), Kit(found.words, sort, found.place))


class Known:
    """What may be used in the proof of a theorem: what its source and the imports say, as far as the theorems stand before."""

    def __init__(self, scope, theorem):
        self.scope, self.writer, self.kit = scope, scope.writer, scope.kit
        self.scopes = {it.development: it for it in reversed(list(scopes(scope)))}
        self.end = scope.development.numbers.get(theorem.name, len(scope.development.numbers))
        self.lemmas, self.found = {}, None
        if self.kit:
            self.im, self.not_ = (self.writer.terms[it] for it in (self.kit.im, self.kit.not_))

    def lemma(self, name):
        """The name under which a lemma of the kit is cited: that of a theorem which says the same, if there is one."""
        if name in self.kit.axioms:
            return self.kit.axioms[name]
        if name not in self.lemmas:
            self.lemmas[name] = self.same_in_library(self.kit.sayings[name]) or f"prop_{name}"
        return self.lemmas[name]

    @cached_property
    def conjunction(self):
        """The term for a conjunction, as the theorem has it from which two formulas give theirs; nothing where it is spelled out."""
        theorem = self.theorem(self.lemma("ian"))
        if theorem is None:
            return None
        (a, b), both = self.peeled(theorem.conclusion)
        return both.term if both.operands == (a, b) else None

    def both(self, a, b):
        """The formula that says two."""
        if self.conjunction:
            return App(self.conjunction, [a, b])
        return App(self.not_, [App(self.im, [a, App(self.not_, [b])])])

    def same_in_library(self, form):
        return next((name for it in scopes(self.scope) for name in self.forms(it.development).get(form, ()) if self.theorem(name)), None)

    def forms(self, development):
        """The theorems of a development by what they say, as far as that is propositional logic."""
        if development.forms is None:
            development.forms = {}
            for it in development.theory.assertions.values():
                development.forms.setdefault(self.kit.known_form(it), []).append(it.name)
        return development.forms

    def theorem(self, name):
        """The theorem of this name, if it may be cited here."""
        found = self.writer.ask("assertions", name)
        if self.scope.development.numbers.get(name, -1) >= self.end:
            return None
        return found or self.imported(name)

    def imported(self, name):
        looked_at = self.writer.looked_at
        if name not in looked_at:
            found = self.writer.library.imported(name)
            if found is None:
                return None
            looked_at[name] = found[0]
        return looked_at[name]

    def inference(self, name, place):
        """A theorem that is named, as a step; nothing where it can't be cited here."""
        theorem = self.theorem(name)
        if theorem is None:
            self.want_declared(name, place)
            return None
        return self.shaped(theorem)

    def want_declared(self, name, place):
        if not any(name in it.theory.assertions for it in self.scopes):
            raise Wrong(f"there is no theorem or axiom {name}", place)

    def shaped(self, theorem):
        hypotheses = [e for _, e in theorem.hypotheses]
        antecedents, conclusion = self.peeled(theorem.conclusion)
        first = antecedents[0] if antecedents else None
        if isinstance(first, Var) and hypotheses and all(self.antecedent(e) is first for e in hypotheses):
            behind = [e.operands[1] for e in hypotheses]
            return Inference(theorem, behind, antecedents[1:], conclusion, True)
        return Inference(theorem, hypotheses, antecedents, conclusion, False)

    def antecedent(self, e):
        return e.operands[0] if self.is_implication(e) else None

    def is_implication(self, e):
        return self.kit is not None and getattr(e, "term", None) is self.im

    def peeled(self, e):
        """The antecedents of a formula, and what is behind them."""
        antecedents = []
        while self.is_implication(e):
            antecedents.append(e.operands[0])
            e = e.operands[1]
        return antecedents, e

    def rewriting(self):
        """The equalities and congruences that may be used here."""
        if self.found is None:
            equalities = self.equalities()
            self.found = equalities, self.congruences(equalities)
        return self.found

    def equalities(self):
        """The equalities by the names of their terms: what several sources say of one is joined."""
        found = {}
        for item in items_of(self.scope):
            if item.kind == "equality" and item.name in self.writer.terms:
                made = found.setdefault(item.name, Equality(self.writer.terms[item.name], [], [], [], []))
                for role, names in item.words.items():
                    getattr(made, role).extend(filter(None, (self.inference(it, item.place) for it in names)))
        return found

    def congruences(self, equalities):
        """The congruences by the names of their terms."""
        found = {}
        for item in items_of(self.scope):
            for name in item.words if item.kind == "congruence" else ():
                inference = self.inference(name, item.place)
                if inference:
                    made = self.congruence(inference, equalities, item.place)
                    found.setdefault(made.term.name, []).append(made)
        return found

    def congruence(self, inference, equalities, place):
        sides = equation(inference.conclusion, equalities)
        premises = [equation(it, equalities) for it in inference.premises]
        left, right = (sides.operands if sides else (None, None))
        if None in premises or getattr(left, "term", 0) is not getattr(right, "term", 1):
            raise self.no_congruence(inference, place)
        pairs = {(a, b): i for i, (a, b) in enumerate(zip(left.operands, right.operands)) if a is not b}
        places = {pairs.pop(it.operands, None): it.term for it in premises}
        if pairs or None in places:
            raise self.no_congruence(inference, place)
        return Congruence(inference, sides.term, left.term, places)

    @staticmethod
    def no_congruence(inference, place):
        return Wrong(f"{inference.theorem.name} is no congruence: from equations of variables to one of a term over them", place)


def equation(e, equalities):
    """The formula, if it is an equation."""
    return e if getattr(e, "term", None) and e.term.name in equalities else None
