"""Equations: rules, congruence, and what follows from them at once. chains.py looks further."""
from dataclasses import dataclass, field

from .equality import equation
from .logic import App, Blank, instance, put, walk
from .places import Wrong
from .under import Context, Proved


@dataclass
class Rule:
    """An equation that may be used: a formula with blanks, and a step that proves it behind its antecedents."""

    formula: App
    by: object
    antecedents: list = field(default_factory=list)
    is_under: bool = False
    is_context: bool = False

    def sides(self, is_forward):
        left, right = self.formula.operands
        return (left, right) if is_forward else (right, left)


@dataclass
class Leaf:
    """One use of a rule at a place: the operands that lead to it, and what stands for its blanks."""

    path: tuple
    rule: Rule
    given: dict
    is_forward: bool

    def below(self):
        return Leaf(self.path[1:], self.rule, self.given, self.is_forward)

    def turned(self):
        return Leaf(self.path, self.rule, self.given, not self.is_forward)


class Terms:
    """Numbers for expressions: the same where they are the same with definitions unfolded."""

    def __init__(self):
        self.numbers = {}

    def number(self, e):
        e = walk(e)
        if not isinstance(e, App):
            return self.numbers.setdefault(e, len(self.numbers))
        key = (e.term.name, *map(self.number, e.operands))
        if key not in self.numbers:
            body = instance(e.term.body, dict(zip(e.term.binders, e.operands))) if e.term.body is not None else None
            self.numbers[key] = len(self.numbers) if body is None else self.number(body)
        return self.numbers[key]

    def same(self, e, f):
        return self.number(e) == self.number(f)

    def matched(self, pattern, e, given):
        """What stands for the blanks of a pattern that is an expression, besides what is given; or nothing."""
        pattern, e = walk(pattern), walk(e)
        if isinstance(pattern, Blank):
            if pattern in given:
                return given if self.same(given[pattern], e) else None
            if pattern.sort != e.sort or pattern.bound and not getattr(e, "bound", False):
                return None
            return {**given, pattern: e}
        if not isinstance(pattern, App) or not isinstance(e, App):
            return given if pattern is e else None
        if pattern.term is e.term:
            for a, b in zip(pattern.operands, e.operands):
                given = self.matched(a, b, given)
                if given is None:
                    return None
            return given
        first, second = later_unfolded(pattern, e)
        return self.matched(first, second, given) if first is not None else None


class Shapes(Terms):
    """Numbers for expressions as they are written."""

    def number(self, e):
        e = walk(e)
        key = (e.term.name, *map(self.number, e.operands)) if isinstance(e, App) else e
        return self.numbers.setdefault(key, len(self.numbers))


def later_unfolded(e, f):
    """Two expressions whose terms differ, where the definition is unfolded that is declared later; nothing where there is none."""
    ranks = [it.term.rank if it.term.body is not None and not it.term.dummies else -1 for it in (e, f)]
    if max(ranks) < 0:
        return None, None
    return (unfolded_once(e), f) if ranks[0] > ranks[1] else (e, unfolded_once(f))


def unfolded_once(e):
    return walk(instance(e.term.body, dict(zip(e.term.binders, e.operands))))


class Rewriter:
    """The equations of one `rw`, each with its direction, and those of the antecedents of its goal. `variable` makes a new
    variable that binds."""

    def __init__(self, known, place, antecedents, variable):
        self.known, self.place, self.variable = known, place, variable
        self.equalities, self.congruences = known.rewriting()
        self.context, self.terms, self.shapes = Context(known, place, antecedents), Terms(), Shapes()
        self.facts = list(self.context.facts())
        self.rules = []
        self.used = []  # the names of the steps by which rules are proved that were taken
        self.of_context = [Rule(it.formula, it.by, [], True, it.is_context) for it in self.facts if equation(it.formula, self.equalities)]

    def wrong(self, why, details=()):
        return Wrong(why, self.place, details)

    def add(self, statement, by, is_forward):
        """An equation of the list. In `statement` any expression may stand for a blank."""
        antecedents, e = self.known.peeled(statement)
        e = self.as_equation(e)
        if e is None:
            raise Wrong("this proves no equation", by.place)
        self.rules.append((Rule(e, by, antecedents), is_forward))

    def as_equation(self, e):
        """A formula as an equation, where definitions are unfolded for it; or nothing."""
        e = walk(e)
        while isinstance(e, App) and not equation(e, self.equalities) and e.term.body is not None and not e.term.dummies:
            e = unfolded_once(e)
        return equation(e, self.equalities)

    # Steps that prove equations.

    def equal(self, e, f, term):
        return App(term, [e, f])

    def refl(self, e, f, term):
        for it in self.equalities[term.name].refl:
            return self.context.proved(self.equal(e, f, term), self.context.cite(it.theorem.name), False)
        raise self.wrong(f"nothing says that {term.name} is reflexive")

    def symm(self, it):
        formula = self.equal(it.right, it.left, it.formula.term)
        made = self.context.best(self.equalities[it.formula.term.name].symm, [it], formula)
        if made is None:
            raise self.wrong(f"no theorem turns {it.formula.term.name} here")
        return made

    def trans(self, first, second):
        if first is None or second is None:
            return first or second
        formula = self.equal(first.left, second.right, first.formula.term)
        made = self.context.best(self.equalities[first.formula.term.name].trans, [first, second], formula)
        if made is None:
            raise self.wrong(f"no theorem joins two of {first.formula.term.name} here")
        return made

    def by_leaf(self, leaf):
        """A rule for what stands for its holes."""
        rule, given = leaf.rule, leaf.given
        self.used.append(getattr(rule.by, "name", None))
        formula = put(rule.formula, given)
        if rule.is_under:
            made = Proved(formula, rule.by, True, rule.is_context)
        else:
            premises = self.had([put(it, given) for it in rule.antecedents])
            made = self.context.detached(self.context.whole(premises, formula), rule.by, premises, False)
        return made if leaf.is_forward else self.symm(made)

    def had(self, antecedents):
        return [next(it for it in self.facts if self.terms.same(it.formula, e)) for e in antecedents]

    def through(self, e, parts, term):
        """An equation of two applications of one term by those of some of their operands: nothing where no theorem carries
        it. `parts` are the equations by the places of the operands."""
        e = walk(e)
        left, done = e, None
        waiting = dict(parts)
        while waiting:
            made = self.one_through(left, waiting, term)
            if made is None:
                return None
            congruence, proved = made
            waiting = {i: it for i, it in waiting.items() if i not in congruence.places}
            done = self.trans(done, proved)
            left = proved.right
        return done

    def one_through(self, e, parts, term):
        """The first congruence that changes some of these operands and no other: those for many come first."""
        fitting = [it for it in self.congruences.get(e.term.name, ()) if it.equality is term]
        for it in sorted(fitting, key=lambda it: (-len(set(it.places) & set(parts)), len(it.places))):
            if not set(it.places) & set(parts) or any(p.formula.term is not it.places[i] for i, p in parts.items() if i in it.places):
                continue
            premises = [parts.get(i) or self.refl(e.operands[i], e.operands[i], want) for i, want in it.places.items()]
            changed = {i: p.right for i, p in zip(it.places, premises)}
            right = App(e.term, [changed.get(i, operand) for i, operand in enumerate(e.operands)])
            proved = self.context.applied(it.inference, premises, self.equal(e, right, term))
            if proved:
                return it, proved
        return None

    # Equations that are found at once: both sides go together.

    def direct(self, e, f, term, is_unfolding=True):
        """An equation by rules and congruence alone."""
        e, f = walk(e), walk(f)
        if self.terms.same(e, f):
            return self.refl(e, f, term)
        return self.by_rule(e, f, term) or self.by_operands(e, f, term) or (self.by_unfolding(e, f, term) if is_unfolding else None)

    def all_rules(self, term):
        return [it for it in (*self.of_context, *(rule for rule, _ in self.rules)) if it.formula.term is term]

    def by_rule(self, e, f, term):
        for rule in self.all_rules(term):
            for is_forward in (True, False):
                left, right = rule.sides(is_forward)
                given = self.terms.matched(left, e, {})
                given = given if given is None else self.terms.matched(right, f, given)
                given = given if given is None else self.for_antecedents(rule, given)
                if given is not None:
                    return self.by_leaf(Leaf((), rule, given, is_forward))
        return None

    def for_antecedents(self, rule, given):
        """What stands for the holes where the antecedents of a rule are facts of the context; nothing where they aren't."""
        for it in rule.antecedents:
            found = (self.terms.matched(put(it, given), fact.formula, given) for fact in self.facts)
            given = next((it for it in found if it is not None), None)
            if given is None:
                return None
        return given

    def by_operands(self, e, f, term):
        if not isinstance(e, App) or not isinstance(f, App) or e.term is not f.term:
            return None
        wanted = {i: it.places[i] for it in self.congruences.get(e.term.name, ()) if it.equality is term for i in it.places}
        parts = {}
        for i, (a, b) in enumerate(zip(e.operands, f.operands)):
            if not self.terms.same(a, b):
                parts[i] = self.direct(a, b, wanted[i]) if i in wanted else None
                if parts[i] is None:
                    return None
        return self.through(e, parts, term)

    def by_unfolding(self, e, f, term):
        """An equation of what definitions say."""
        if not isinstance(e, App) or not isinstance(f, App):
            return None
        ranks = [it.term.rank if it.term.body is not None else -1 for it in (e, f)]
        if max(ranks) < 0:
            return None
        shared = {}
        sides = [self.unfolded_with(it, shared) if rank == max(ranks) else it for it, rank in zip((e, f), ranks)]
        made = self.direct(*sides, term)
        return made and Proved(self.equal(e, f, term), self.context.proved(self.equal(e, f, term), made.by, made.is_under).by, made.is_under)

    def unfolded_with(self, e, shared):
        """The body of a definition, with the same new variables for both sides."""
        if e.term not in shared:
            shared[e.term] = [self.variable(it) for it in e.term.dummies]
        given = dict(zip((*e.term.binders, *e.term.dummies), (*e.operands, *shared[e.term])))
        return walk(instance(e.term.body, given))
