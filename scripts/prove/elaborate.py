"""Makes the whole proof of a theorem from its short form: what variables stand for, and where definitions are unfolded."""
from functools import cached_property

from .checker import Checker
from .equality import Known
from .lexemes import Math
from .logic import App, Hole, Var, holes_of, instance, walk
from .places import Wrong
from .proofs import Cited, Converted, Gap, Later, Let, Named
from .rewriting import rewritten, tautology
from .sources import Claim, Copy, Have, Rewrite, Sorry, Tautology
from .unify import Refl, Unifier


class Elaborator:
    """One theorem. `scope` is the source that its proof stands in, and gives it what it cites."""

    def __init__(self, scope, theorem, dummies, printer):
        self.scope, self.theorem, self.dummies, self.printer = scope, theorem, list(dummies), printer
        self.variables = {it.name: it for it in (*theorem.binders, *dummies) if it.name != "_"}
        self.visible = dict(theorem.hypotheses)
        self.unifier, self.gaps = Unifier(), []
        self.later = []  # what waits until more is known of its goal: the node, the proof, the goal, and what is visible there

    @cached_property
    def known(self):
        """What `rw` and `prop` may use."""
        return Known(self.scope, self.theorem)

    def whole(self, proof):
        """The whole proof; then `dummies` are all that it takes, and `gaps` what is open."""
        names = [it.name for it in (*self.theorem.binders, *self.dummies) if it.name != "_"]
        twice = next((it for i, it in enumerate(names) if it in names[:i]), None)
        if twice:
            raise Wrong(f"the variable {twice} is declared twice")
        made = self.proved(proof, self.theorem.conclusion)
        self.make_later()
        for hole in self.unifier.holes:
            if hole.value is None and hole.bound:
                hole.value = self.new_dummy(hole)
        self.want_all_found()
        Checker(self.theorem, self.dummies, self.printer).whole(made)
        return made

    def new_dummy(self, hole):
        """A dummy for a bound variable that nothing names."""
        numbered = (f"{hole.name}{i}" for i in range(1, len(self.variables) + 2))
        name = next(it for it in (hole.name, *"xyzwvu", *numbered) if it not in self.variables)
        made = Var(name, hole.sort, True)
        self.variables[name] = made
        self.dummies.append(made)
        return made

    def want_all_found(self):
        left = [hole for hole in self.unifier.holes if hole.value is None]
        if not left:
            return
        first = left[0]
        if first.owner is None:
            raise Wrong("nothing says what stands here", first.place)
        names = ", ".join(it.name for it in left if it.owner == first.owner and it.place == first.place)
        said = f"{first.owner}[{first.name} := $ .. $]"
        goals = [("open", self.printer.formulas([gap.goal for gap in self.gaps]))] if self.gaps else []
        raise Wrong(f"nothing says what these variables of {first.owner} stand for: {names}", first.place,
                    [("to say it", [said]), *goals])

    def left_out(self, place):
        return self.unifier.hole(None, False, "_", None, place)

    def formula(self, math, sort=None):
        """A formula of the source; what is an expression already is taken as it is."""
        return math if not isinstance(math, Math) else self.scope.formula(math, self.variables, sort, self.left_out)

    def proved(self, proof, goal):
        """A proof of just this formula."""
        if isinstance(proof, Have):
            return self.had(proof, goal)
        if isinstance(proof, Sorry):
            return self.gap(proof, goal)
        if isinstance(proof, Claim):
            return self.claimed(proof, goal)
        if isinstance(proof, (Rewrite, Tautology)):
            return self.found(proof, goal)
        if isinstance(proof, Copy):
            return self.copied(proof, goal)
        if proof.name in self.visible:
            if proof.given or proof.parts:
                raise Wrong(f"{proof.name} is a hypothesis, and takes nothing", proof.place)
            return self.turned(goal, self.visible[proof.name], Named(proof.place, proof.name), proof.name)
        return self.cited(proof, goal)

    def gap(self, proof, goal):
        made = Gap(proof, goal, dict(self.visible), self, len(self.scope.writer.assertions))
        self.gaps.append(made)
        return made

    def found(self, proof, goal):
        """A proof that is looked for: at once, or where the goal isn't known yet, when all else is done."""
        if is_open(goal, isinstance(proof, Rewrite)):
            node = Later(proof.place)
            self.later.append((node, proof, goal, dict(self.visible)))
            return node
        return self.proved((rewritten if isinstance(proof, Rewrite) else tautology)(self, proof, goal), goal)

    def make_later(self):
        """Makes what waited until more is known."""
        while self.later:
            known = next((it for it in self.later if not is_open(it[2])), self.later[0])
            self.later.remove(known)
            self.made_now(*known)

    def made_now(self, node, proof, goal, visible):
        if is_open(goal):
            raise Wrong("nothing says what is to be proved here", proof.place, [("goal", self.printer.formulas([goal]))])
        self.visible, before = visible, self.visible
        node.made = self.found(proof, goal)
        self.visible = before

    def had(self, proof, goal):
        if proof.name in self.visible:
            raise Wrong(f"there is a hypothesis {proof.name} already", proof.place)
        if proof.formula is not None:
            stated = self.formula(proof.formula)
        else:
            stated = self.unifier.hole(self.theorem.conclusion.sort, False, proof.name, None, proof.place)
        first = self.proved(proof.first, stated)
        self.visible[proof.name] = stated
        made = Let(proof.place, proof.name, first, self.proved(proof.proof, goal))
        del self.visible[proof.name]
        return made

    def copied(self, copy, goal):
        try:
            return self.proved(copy.proof, goal)
        except Wrong as why:
            why.details.append((f"{copy.name} for", [str(copy.place)]))
            raise

    def claimed(self, claim, goal):
        """What is claimed is compared with the goal first: so `_` may stand for what the goal says."""
        stated = self.formula(claim.formula)
        conversion = self.conversion(goal, stated, claim.place, "this claims")
        return self.converted(goal, conversion, self.proved(claim.proof, stated))

    def cited(self, step, goal):
        cited = self.scope.assertion(step.name, step.place, self.visible)
        given = {it: self.unifier.hole(it.sort, it.bound, it.name, step.name, step.place) for it in cited.binders}
        for place, name, math in step.given:
            self.give(cited, given, place, name, math)
        conversion = self.conversion(goal, instance(cited.conclusion, given), step.place, f"{step.name} proves")
        wanted = [instance(e, given) for _, e in cited.hypotheses]
        self.noted(step, cited, given)
        parts = [self.proved(part, e) for part, e in zip(self.parts(step, wanted), wanted)]
        return self.converted(goal, conversion, Cited(step.place, cited, [given[it] for it in cited.binders], parts))

    def noted(self, step, cited, given):
        """For those who look on."""

    def parts(self, step, wanted):
        """The proofs that a step gives, as many as are wanted."""
        if len(step.parts) != len(wanted):
            raise self.other_count(step, wanted)
        return step.parts

    def give(self, cited, given, place, name, math):
        binder = next((it for it in cited.binders if it.name == name), None)
        if binder is None:
            names = ", ".join(it.name for it in cited.binders) or "none"
            raise Wrong(f"{cited.name} has no variable {name}", place, [("it has", [names])])
        e = self.formula(math, binder.sort)
        if binder.bound and not getattr(walk(e), "bound", False):
            raise Wrong(f"{name} of {cited.name} is bound, and what stands for it has to be a bound variable", math.place())
        if self.unifier.unify(given[binder], e) is None:
            raise Wrong(f"{name} of {cited.name} is given twice", place)

    def other_count(self, step, wanted):
        counts = f"{counted(len(wanted), 'hypothesis', 'hypotheses')}, and "
        given = counted(len(step.parts), "proof is given", "proofs are given")
        return Wrong(f"{step.name} has {counts}{given}", step.place, [("wanted", self.printer.formulas(wanted))] if wanted else [])

    def turned(self, goal, stated, made, what):
        return self.converted(goal, self.conversion(goal, stated, made.place, f"{what} proves"), made)

    def converted(self, goal, conversion, made):
        return made if isinstance(conversion, Refl) else Converted(made.place, goal, conversion, made)

    def conversion(self, goal, found, place, what):
        conversion = self.unifier.unify(goal, found)
        if conversion is None:
            raise Wrong(f"{what} something else than is wanted here", place, self.difference(goal, found))
        return conversion

    def difference(self, goal, found):
        texts = self.printer.formulas([found, goal, *self.visible.values()])
        details = [("found", texts[:1]), ("expected", texts[1:2])]
        inner = first_difference(found, goal)
        if inner:
            details.append(("differ in", [" and ".join(self.printer.formulas(inner))]))
        hypotheses = [f"{name}: {text}" for name, text in zip(self.visible, texts[2:])]
        return details + ([("visible", hypotheses)] if hypotheses else [])

    def goal_details(self, goal, visible):
        texts = self.printer.formulas([goal, *visible.values()])
        hypotheses = [f"{name}: {text}" for name, text in zip(visible, texts[1:])]
        return [("goal", texts[:1])] + ([("visible", hypotheses)] if hypotheses else [])


def is_open(goal, may_end_open=False):
    """Whether what is to be proved isn't known yet. A hole that binds is no matter, and where that may be the last operand."""
    goal = walk(goal)
    last = goal
    while may_end_open and isinstance(last, App) and last.operands:
        *firsts, last = map(walk, last.operands)
        if any(not it.bound for e in firsts for it in holes_of(e)):
            return True
    return isinstance(goal, Hole) or (not may_end_open or last is goal) and any(not it.bound for it in holes_of(goal))


def counted(number, one, many):
    return f"{number} {one if number == 1 else many}"


def first_difference(e, f):
    """The innermost parts in which both differ, where they are one pair inside of them."""
    inner = None
    while True:
        e, f = walk(e), walk(f)
        if not (isinstance(e, App) and isinstance(f, App) and e.term is f.term):
            return inner
        pairs = [(a, b) for a, b in zip(e.operands, f.operands) if not may_agree(a, b)]
        if len(pairs) != 1:
            return inner
        inner = e, f = pairs[0]


def may_agree(e, f):
    """Whether nothing differs at once, holes apart."""
    e, f = walk(e), walk(f)
    if e is f or any(not isinstance(it, (Var, App)) for it in (e, f)):
        return True
    if isinstance(e, App) and isinstance(f, App) and e.term is f.term:
        return all(map(may_agree, e.operands, f.operands))
    return False
