"""Propositional logic: what `prop` stands for. By what is known the truth of other formulas follows; where nothing follows, the
cases of an atom are gone through. Each step is one of a source, under the formulas that are assumed."""
from dataclasses import dataclass

from .kit import unfolded_connective
from .logic import App, blanks_of, put, walk
from .places import Wrong
from .rewrite import Terms
from .sources import Claim, Step

MOST_INSTANCES = 300


@dataclass
class Fact:
    """A formula, and a step that proves it under the first `level` of the formulas that are assumed."""

    formula: object
    by: object
    level: int
    is_assumption: bool = False  # whether it is the only formula that is assumed


class NoTautology(Exception):
    """A case in which the goal is false."""

    def __init__(self, atoms):
        super().__init__("no tautology")
        self.atoms = atoms  # pairs of an atom and whether it is true


class Logic:
    """Steps under the formulas that are assumed: of each level all of them as one formula."""

    def __init__(self, known, place):
        self.known, self.place = known, place
        self.assumed = [None]  # by level

    def lemma(self, name, *parts):
        return Step(self.place, self.known.lemma(name), (), parts)

    def implies(self, a, b):
        return App(self.known.im, [a, b])

    def negation(self, a):
        return App(self.known.not_, [a])

    def fact(self, formula, by, level):
        whole = self.implies(self.assumed[level], formula) if level else formula
        return Fact(formula, Claim(self.place, whole, by), level)

    def assume(self, e):
        """Assumes one formula more, which is a fact then."""
        before = self.assumed[-1]
        level = len(self.assumed)
        if before is None:
            self.assumed.append(e)
            made = self.fact(e, self.lemma("id"), level)
            made.is_assumption = True
            return made
        self.assumed.append(self.known.both(before, e))
        return self.fact(e, self.lemma("anr"), level)

    def lifted(self, it, level):
        """The same under more of the formulas."""
        if it.level == 0 < level:
            return self.fact(it.formula, self.lemma("a1i", it.by), level)
        while it.level < level:
            it = self.fact(it.formula, self.lemma("anl") if it.is_assumption else self.lemma("anwl", it.by), it.level + 1)
        return it

    def by_one(self, name, it, formula):
        """What follows from a fact by a theorem that is an implication."""
        if it.level == 0:
            return self.fact(formula, self.lemma("ax_mp", self.lemma(name), it.by), 0)
        return self.fact(formula, self.lemma(name) if it.is_assumption else self.lemma("syl", self.lemma(name), it.by), it.level)

    def by_two(self, name, first, second, formula):
        """What follows from two facts by a theorem that is an implication of an implication."""
        level = max(first.level, second.level)
        if level == 0:
            inner = self.lemma("ax_mp", self.lemma(name), first.by)
            return self.fact(formula, self.lemma("ax_mp", inner, second.by), 0)
        return self.fact(formula, self.lemma("sylc", self.lemma(name), self.lifted(first, level).by, self.lifted(second, level).by), level)

    def detached(self, implication, it, formula):
        level = max(implication.level, it.level)
        if level == 0:
            return self.fact(formula, self.lemma("ax_mp", implication.by, it.by), 0)
        if implication.level == 0:
            return self.fact(formula, implication.by if it.is_assumption else self.lemma("syl", implication.by, it.by), level)
        return self.fact(formula, self.lemma("mpd", self.lifted(it, level).by, self.lifted(implication, level).by), level)

    def discharged(self, it, e):
        """From what is proved under one formula more, the implication."""
        level, formula = len(self.assumed) - 1, self.implies(e, it.formula)
        self.assumed.pop()
        if it.level < level:
            return self.by_one("ax_1", it, formula)
        if level == 1:
            return Fact(formula, it.by, 0)
        return self.fact(formula, self.lemma("exp", it.by), level - 1)

    def by_cases(self, atom, first, second):
        """From what is proved under an atom more, and under its negation more."""
        level = len(self.assumed)
        for it in (first, second):
            if it.level < level:
                return it
        if level == 1:
            return self.fact(first.formula, self.lemma("cases", first.by, second.by), 0)
        parts = [self.fact(self.implies(e, it.formula), self.lemma("exp", it.by), level - 1).by
                 for e, it in ((atom, first), (self.negation(atom), second))]
        return self.fact(first.formula, self.lemma("sylc", self.lemma("pm2_61"), *parts), level - 1)


class Prover:
    """Proves formulas from facts."""

    def __init__(self, known, place):
        self.known, self.logic, self.terms = known, Logic(known, place), Terms()

    def view(self, e):
        """What a formula is made of, with definitions unfolded: its term and operands, or nothing for an atom."""
        e = unfolded_connective(walk(e))
        if isinstance(e, App) and e.term in (self.known.im, self.known.not_):
            return e.term, [walk(it) for it in e.operands]
        return None, []

    def atoms(self, e):
        term, operands = self.view(e)
        return [walk(e)] if term is None else [it for operand in operands for it in self.atoms(operand)]

    def number(self, e):
        return self.terms.number(e)

    def is_negation(self, e):
        return self.view(e)[0] is self.known.not_

    # What is known of the truth of a formula.

    def truth(self, e, facts):
        """Whether a formula is true, with a fact that says it or its negation; or nothing."""
        found = facts.get(self.number(e))
        if found:
            return True, found
        found = facts.get(self.number(self.logic.negation(e)))
        if found:
            return False, found
        term, operands = self.view(e)
        if term is self.known.not_:
            return self.truth_of_negation(operands[0], facts)
        return self.truth_of_implication(e, *operands, facts) if term is self.known.im else None

    def truth_of_negation(self, inner, facts):
        found = self.truth(inner, facts)
        if found is None or not found[0]:
            return found and (True, found[1])
        twice = self.logic.negation(self.logic.negation(inner))
        return False, self.logic.by_one("notnot1", found[1], twice)

    def truth_of_implication(self, e, a, b, facts):
        second = self.truth(b, facts)
        if second and second[0]:
            return True, self.logic.by_one("ax_1", second[1], self.logic.implies(a, b))
        first = self.truth(a, facts)
        if first and not first[0]:
            return True, self.by_absurd(first[1], self.logic.implies(a, b))
        if first and second:
            return False, self.logic.by_two("nimp", first[1], second[1], self.logic.negation(self.logic.implies(a, b)))
        return None

    def by_absurd(self, negated, implication):
        return self.logic.by_one("absurd", negated, implication)

    # What follows from facts.

    def with_fact(self, new, facts):
        """The facts with one more and what follows; a contradiction is the pair of facts under None."""
        facts, waiting = dict(facts), [new]
        while waiting and None not in facts:
            it = waiting.pop(0)
            key = self.number(it.formula)
            if key in facts:
                continue
            other = self.truth(it.formula, facts)
            facts[key] = it
            if other and not other[0]:
                facts[None] = other[1], it
                break
            waiting += self.following(it, facts)
            waiting += [new for old in list(facts.values()) for new in self.of_implication(old, facts)]
        return facts

    def following(self, it, facts):
        """What a fact says in parts."""
        term, operands = self.view(it.formula)
        if term is not self.known.not_:
            return []
        inner_term, inner = self.view(operands[0])
        if inner_term is self.known.not_:
            return [self.logic.by_one("dne", it, inner[0])]
        if inner_term is self.known.im:
            return [self.logic.by_one("nimp1", it, inner[0]), self.logic.by_one("nimp2", it, self.logic.negation(inner[1]))]
        return []

    def of_implication(self, it, facts):
        """What an implication and the truth of one side say of the other."""
        term, operands = self.view(it.formula)
        if term is not self.known.im:
            return
        a, b = operands
        first, second = self.truth(a, facts), self.truth(b, facts)
        if first and first[0] and not (second and second[0]):
            yield self.logic.detached(it, first[1], b)
        elif second and not second[0] and not first:
            yield self.logic.by_two("con3", it, second[1], self.logic.negation(a))

    def proved(self, goal, facts):
        """A fact that says the goal."""
        if None in facts:
            negated, other = facts[None]
            return self.logic.by_two("absurd", negated, other, goal)
        found = self.truth(goal, facts)
        if found and found[0]:
            return found[1]
        term, operands = self.view(goal)
        if term is self.known.im:
            a, b = operands
            made = self.proved(b, self.with_fact(self.logic.assume(a), facts))
            return self.logic.discharged(made, a)
        inner_term, inner = self.view(operands[0]) if term is self.known.not_ else (None, None)
        if inner_term is self.known.not_:
            return self.logic.by_one("notnot1", self.proved(inner[0], facts), goal)
        if inner_term is self.known.im:
            first, second = self.proved(inner[0], facts), self.proved(self.logic.negation(inner[1]), facts)
            return self.logic.by_two("nimp", first, second, goal)
        return self.by_cases(goal, facts)

    def by_cases(self, goal, facts):
        """The goal by the cases of an atom that nothing decides: one that decides most is taken."""
        undecided = {}
        for it in (*(it.formula for key, it in facts.items() if key is not None and self.view(it.formula)[0]), goal):
            for atom in self.atoms(it):
                if not self.truth(atom, facts):
                    undecided.setdefault(self.number(atom), atom)
        if not undecided:
            raise NoTautology(self.decided(facts, goal))
        atom = max(undecided.values(), key=lambda it: self.decides(it, goal, facts))
        made = []
        for e in (atom, self.logic.negation(atom)):
            made.append(self.proved(goal, self.with_fact(self.logic.assume(e), facts)))
            self.logic.assumed.pop()
        return self.logic.by_cases(atom, *made)

    def decides(self, atom, goal, facts):
        """How many of its two cases are closed at once, and how many facts they bring."""
        closed = brought = 0
        for e in (atom, self.logic.negation(atom)):
            after = self.with_fact(self.logic.assume(e), facts)
            found = None in after or self.truth(goal, after)
            closed += found is True or bool(found) and found[0]
            brought += len(after)
            self.logic.assumed.pop()
        return closed, brought

    def decided(self, facts, goal):
        atoms = {}
        for it in (*(it.formula for it in facts.values()), goal):
            for atom in self.atoms(it):
                atoms.setdefault(self.number(atom), atom)
        return [(it, self.truth(it, facts)[0]) for it in atoms.values() if self.truth(it, facts)]


def instances(prover, statement, pool):
    """What stands for the blanks of a statement such that its atoms are among those of the pool: the greatest of them decide."""
    patterns = sorted(prover.atoms(statement), key=lambda it: -sum(1 for _ in walked(it)))

    def matched(i, given):
        if not blanks_of(statement) - given.keys():
            yield given
        elif i < len(patterns):
            if not blanks_of(patterns[i]) - given.keys():
                yield from matched(i + 1, given)
                return
            for atom in pool:
                found = prover.terms.matched(patterns[i], atom, given)
                if found is not None:
                    yield from matched(i + 1, found)

    return matched(0, {})


def walked(e):
    e = walk(e)
    yield e
    for it in e.operands if isinstance(e, App) else ():
        yield from walked(it)


def followed(known, place, goal, premises):
    """A step that proves the goal by propositional logic from premises: pairs of a statement, which may have blanks, and a step."""
    prover = Prover(known, place)
    whole = [(e, by) for e, by in premises if not blanks_of(e)]
    with_blanks = [(e, by) for e, by in premises if blanks_of(e)]
    pool = {prover.number(atom): atom for e in (goal, *(e for e, _ in whole)) for atom in prover.atoms(e)}
    for _ in range(2):
        for e, by in with_blanks:
            for given in instances(prover, e, list(pool.values())):
                made = put(e, given)
                if len(whole) < MOST_INSTANCES and not any(prover.terms.same(made, old) for old, _ in whole):
                    whole.append((made, by))
        pool |= {prover.number(atom): atom for e, _ in whole for atom in prover.atoms(e)}
    facts = {}
    for e, by in whole:
        facts = prover.with_fact(prover.logic.fact(e, by, 0), facts)
    try:
        return prover.proved(goal, facts).by
    except NoTautology as no:
        raise no_tautology(known, place, no, bool(premises)) from None


def no_tautology(known, place, no, has_premises):
    printer = known.writer.printer
    cases = {True: [], False: []}
    for atom, is_true in no.atoms:
        cases[is_true].append(printer.formula(atom))
    details = [(label, [", ".join(cases[is_true])]) for label, is_true in (("true", True), ("false", False)) if cases[is_true]]
    return Wrong("this doesn't follow by propositional logic" + (" from what is listed" if has_premises else "")
                 + ": there is a case in which it is false", place, details)
