"""Checks a whole proof by the rules of proof texts, before the program does: what is wrong is reported at the source's place.
Nothing rests on it. It shares no step with unification."""
from .logic import App, Var, walk
from .places import Wrong
from .proofs import Cited, Converted, Gap, Later, Let, Named
from .unify import Cong, Refl, Sym


class Checker:
    def __init__(self, theorem, dummies, printer):
        self.theorem, self.printer = theorem, printer
        self.variables = {*theorem.binders, *dummies}
        self.known = dict(theorem.hypotheses)

    def whole(self, proof):
        found = self.proves(proof)
        if not same(found, self.theorem.conclusion):
            raise self.differ("the proof proves something else", proof.place, found, self.theorem.conclusion)

    def differ(self, why, place, found, wanted):
        texts = self.printer.formulas([found, wanted])
        return Wrong(why, place, [("found", texts[:1]), ("expected", texts[1:])])

    def proves(self, proof):
        """What a proof proves."""
        if isinstance(proof, Named):
            return self.known[proof.name]
        if isinstance(proof, Gap):
            return proof.goal
        if isinstance(proof, Later):
            return self.proves(proof.made)
        if isinstance(proof, Cited):
            return self.cited(proof)
        if isinstance(proof, Converted):
            return self.converted(proof)
        assert isinstance(proof, Let)
        self.known[proof.name] = self.proves(proof.first)
        found = self.proves(proof.rest)
        del self.known[proof.name]
        return found

    def cited(self, proof):
        theorem = proof.theorem
        self.fit(theorem.name, theorem.binders, proof.operands, proof.place)
        self.apart(theorem.name, theorem.binders, proof.operands, proof.place)
        given = dict(zip(theorem.binders, proof.operands))
        for part, (_, hypothesis) in zip(proof.parts, theorem.hypotheses, strict=True):
            found, wanted = self.proves(part), put(hypothesis, given)
            if not same(found, wanted):
                raise self.differ(f"this proves no hypothesis of {theorem.name}", part.place, found, wanted)
        return put(theorem.conclusion, given)

    def converted(self, proof):
        left, right = self.sides(proof.conversion, proof.place)
        found = self.proves(proof.proof)
        if not same(left, proof.goal) or not same(right, found):
            raise self.differ("this conversion leads elsewhere", proof.place, found, proof.goal)
        return proof.goal

    def sides(self, it, place):
        if isinstance(it, Refl):
            return it.e, it.e
        if isinstance(it, Sym):
            left, right = self.sides(it.part, place)
            return right, left
        if isinstance(it, Cong):
            pairs = [self.sides(part, place) for part in it.parts]
            for side in zip(*pairs):
                self.fit(it.term.name, it.term.binders, side, place)
            return tuple(App(it.term, side) for side in zip(*pairs))
        return self.unfolded(it, place)

    def unfolded(self, it, place):
        self.fit(it.term.name, (*it.term.binders, *it.term.dummies), (*it.operands, *it.variables), place)
        variables = [walk(e) for e in it.variables]
        for i, variable in enumerate(variables):
            if variable in variables[:i] or any(variable in support(e) for e in it.operands):
                raise Wrong(f"{it.term.name} can't be unfolded with {variable.name}: it has this variable already", place,
                            [("in", self.printer.formulas([App(it.term, it.operands)]))])
        left, right = self.sides(it.part, place)
        given = dict(zip((*it.term.binders, *it.term.dummies), (*it.operands, *variables)))
        if not same(left, put(it.term.body, given)):
            raise self.differ(f"{it.term.name} is unfolded to something else", place, left, put(it.term.body, given))
        return App(it.term, it.operands), right

    def fit(self, name, binders, operands, place):
        """Sorts, and bound variables for bound parameters."""
        for binder, operand in zip(binders, operands, strict=True):
            e = walk(operand)
            is_variable = isinstance(e, Var) and e in self.variables
            if e.sort != binder.sort or binder.bound and not (is_variable and e.bound):
                what = f"a bound variable of sort {binder.sort}" if binder.bound else f"the sort {binder.sort}"
                raise Wrong(f"{binder.name} of {name} wants {what}", place, [("found", self.printer.formulas([e]))])

    def apart(self, name, binders, operands, place):
        """No operand of a bound parameter is among the variables of another, but where that depends on it."""
        for bound, variable in ((b, walk(e)) for b, e in zip(binders, operands) if b.bound):
            for binder, operand in zip(binders, operands):
                if binder is not bound and bound not in binder.needs and variable in support(operand):
                    raise Wrong(f"{name} wants {bound.name} apart from {binder.name}, and {variable.name} is in both", place,
                                [(f"{it.name} :=", self.printer.formulas([e])) for it, e in ((bound, variable), (binder, operand))])


def same(e, f):
    e, f = walk(e), walk(f)
    if e is f:
        return True
    return (isinstance(e, App) and isinstance(f, App) and e.term is f.term
            and all(same(a, b) for a, b in zip(e.operands, f.operands)))


def put(e, given):
    """An expression of a statement with others for its variables."""
    e = walk(e)
    if isinstance(e, Var):
        return given[e]
    return App(e.term, [put(it, given) for it in e.operands]) if e.operands else e


def support(e):
    """The bound variables of an expression, and those on which its other variables may depend."""
    e = walk(e)
    if isinstance(e, Var):
        return {e} if e.bound else set(e.needs)
    return set().union(*map(support, e.operands))
