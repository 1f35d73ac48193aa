"""Proofs under a context: the antecedents of a goal, as one formula. What is proved is spelled in the steps of a source, with
each formula claimed, and the elaborator makes whole proofs of them."""
from dataclasses import dataclass

from .kit import unfolded_connective
from .logic import App, Hole, Var, walk
from .sources import Claim, Step


@dataclass
class Proved:
    """A formula and a step that proves it: without the context, or under it."""

    formula: object
    by: object
    is_under: bool = False
    is_context: bool = False  # whether it is the context itself

    @property
    def left(self):
        return walk(self.formula.operands[0])

    @property
    def right(self):
        return walk(self.formula.operands[1])


class Context:
    """Makes steps under antecedents. Without any all is proved outright."""

    def __init__(self, known, place, antecedents):
        self.known, self.place, self.antecedents = known, place, antecedents
        self.formula, self.wholes = None, []  # all antecedents as one formula, and the first, the first two and so on
        for it in antecedents:
            self.formula = it if self.formula is None else known.both(self.formula, it)
            self.wholes.append(self.formula)

    def cite(self, name, *parts):
        return Step(self.place, name, (), parts)

    def lemma(self, name, *parts):
        return self.cite(self.known.lemma(name), *parts)

    def claim(self, formula, by):
        return Claim(self.place, formula, by)

    def implies(self, a, b):
        return App(self.known.im, [a, b])

    def proved(self, formula, by, is_under):
        """A step with its claim."""
        return Proved(formula, self.claim(self.implies(self.formula, formula) if is_under else formula, by), is_under)

    def under(self, it):
        """The same under the context."""
        return it if it.is_under else self.proved(it.formula, self.lemma("a1i", it.by), True)

    def applied(self, inference, premises, conclusion):
        """What a theorem gives for these premises; nothing where it isn't for a context that they need."""
        many = len(inference.hypotheses)
        if inference.is_under:
            if self.formula is None or not self.is_apart(inference, conclusion):
                return None
            made = self.cite(inference.theorem.name, *(self.under(it).by for it in premises[:many]))
            return self.detached(self.whole(premises[many:], conclusion), made, premises[many:], True)
        if any(it.is_under for it in premises[:many]):
            return None
        made = self.cite(inference.theorem.name, *(it.by for it in premises[:many]))
        return self.detached(self.whole(premises[many:], conclusion), made, premises[many:], False)

    def whole(self, premises, conclusion):
        for it in reversed(premises):
            conclusion = self.implies(it.formula, conclusion)
        return conclusion

    def detached(self, formula, made, premises, is_under):
        """Takes antecedents away one by one, of which these are proofs."""
        made = self.proved(formula, made, is_under)
        premises = list(premises)
        while premises:
            it = premises.pop(0)
            formula = made.formula.operands[1]
            if not made.is_under and it.is_context:
                made = Proved(formula, made.by, True)
            elif not made.is_under and it.is_under and premises and premises[0].is_under:
                second = premises.pop(0)
                made = self.proved(formula.operands[1], self.lemma("sylc", made.by, it.by, second.by), True)
            elif not made.is_under and not it.is_under:
                made = self.proved(formula, self.lemma("ax_mp", made.by, it.by), False)
            elif made.is_under:
                made = self.proved(formula, self.lemma("mpd", self.under(it).by, made.by), True)
            else:
                made = self.proved(formula, self.lemma("syl", made.by, it.by), True)
        return made

    def is_apart(self, inference, conclusion):
        """Whether no variable that a theorem binds is in the context."""
        bound = {walk(e) for side in conclusion.operands for e in variables_bound(side)}
        return not any(it.bound for it in inference.theorem.binders) or not bound & support(self.formula)

    def best(self, inferences, premises, conclusion):
        """What the first theorem gives that is for these premises; those for a context come first where they need one."""
        is_under = any(it.is_under for it in premises)
        for it in sorted(inferences, key=lambda it: (it.is_under != is_under, is_under == bool(it.hypotheses))):
            made = self.applied(it, premises, conclusion)
            if made:
                return made
        return None

    def facts(self):
        """The context and the parts of which it is made, as far as they are conjunctions."""
        if self.formula is None:
            return
        waiting = [(self.formula, ())]
        while waiting:
            e, path = waiting.pop(0)
            yield Proved(e, self.claim(self.implies(self.formula, e), self.projected(self.formula, path, e)), True, not path)
            pair = self.parts(e)
            waiting += [(part, (*path, i)) for i, part in enumerate(pair or ())]

    def parts(self, e):
        """Both parts of a conjunction; of what says two things but is no conjunction, as an equivalence, the two as well."""
        e = unfolded_connective(walk(e))
        if self.is_of(e, self.known.not_):
            inner = unfolded_connective(walk(e.operands[0]))
            if self.is_of(inner, self.known.im):
                last = unfolded_connective(walk(inner.operands[1]))
                if self.is_of(last, self.known.not_):
                    return walk(inner.operands[0]), walk(last.operands[0])
        return None

    @staticmethod
    def is_of(e, term):
        return isinstance(e, App) and e.term is term

    def projected(self, e, path, part):
        """A step that proves a part of a conjunction from it."""
        if not path:
            return self.lemma("id")
        name = ("anl", "anr")[path[0]]
        if len(path) == 1:
            return self.lemma(name)
        inner = self.parts(e)[path[0]]
        return self.lemma(("anwl", "anwr")[path[0]], self.claim(self.implies(inner, part), self.projected(inner, path[1:], part)))

    def discharged(self, it):
        """A step that proves `it` behind the antecedents, one after the other."""
        if not self.antecedents:
            return it.by
        made = self.under(it).by
        rest = it.formula
        for first, last in reversed(list(zip(self.wholes, self.antecedents[1:]))):
            rest = self.implies(last, rest)
            made = self.claim(self.implies(first, rest), self.lemma("exp", made))
        return made

    def charged(self, formula, by):
        """What a step proves of a formula behind the antecedents, as what is proved under the context."""
        if not self.antecedents:
            return self.proved(formula, by, False)
        rest = [formula]
        for it in reversed(self.antecedents):
            rest.append(self.implies(it, rest[-1]))
        made, first = self.claim(rest.pop(), by), self.antecedents[0]
        for it in self.antecedents[1:]:
            rest.pop()
            first = self.known.both(first, it)
            made = self.claim(self.implies(first, rest[-1]), self.lemma("imp", made))
        return Proved(formula, made, True)


def variables_bound(e):
    """The operands in the places of an expression's top that bind."""
    e = walk(e)
    return [it for binder, it in zip(e.term.binders, e.operands) if binder.bound] if isinstance(e, App) else []


def support(e):
    """The variables of an expression that are bound or may be, and the holes for such."""
    e = walk(e)
    if isinstance(e, Var):
        return {e} if e.bound else set(e.needs)
    if isinstance(e, Hole):
        return {e}
    return set().union(*map(support, e.operands))
