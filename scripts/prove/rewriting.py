"""What `rw` and `prop` stand for, in the steps of a source."""
from . import chains
from .logic import App, Blank, Hole, free_variables, holes_of, put, resolved, walk
from .places import Wrong
from .sources import Rewrite, Step
from .tautology import followed


def rewritten(elaborator, proof, goal):
    """A step that proves the goal by equations."""
    known = elaborator.known
    if not known.rewriting()[0]:
        raise Wrong("rw wants to know what is an equality here", proof.place,
                    [("to say it", ["equality eq refl eq_refl symm eq_symm trans eq_trans;"])])
    antecedents, core = known.peeled(resolved(goal))
    settle(elaborator.unifier, antecedents, core)
    equations = [(stated(elaborator, it), it, not is_turned) for it, is_turned in zip(proof.equations, proof.turned)]
    work = Work(elaborator, proof, equations)
    try:
        return work.turned(resolved(goal)) if proof.proof else work.closed(resolved(goal))
    except Wrong as why:
        if not why.details:
            why.details = elaborator.goal_details(goal, elaborator.visible)
        raise


def used_equations(elaborator, goal, rules, end):
    """The names of the rules that a chain for the goal takes, of steps by their names; or nothing. What is no equation is left
    out."""
    antecedents, core = elaborator.known.peeled(goal)
    work = Work(elaborator, Rewrite(None, [], [], None), [])
    made = work.chains(antecedents)
    made.end = end
    sides = made.as_equation(core)
    if not sides:
        return None
    for name, step in rules.items():
        try:
            made.add(stated(elaborator, step), step, True)
        except Wrong:
            continue
    try:
        made.equal_to(*sides.operands, sides.term)
    except Wrong:
        return None
    return [it for it in dict.fromkeys(made.used) if it in rules]


class Work:
    """One `rw`: its equations, each with its direction."""

    def __init__(self, elaborator, proof, equations):
        self.elaborator, self.proof, self.equations = elaborator, proof, equations
        self.known = elaborator.known

    def chains(self, antecedents):
        made = chains.Chains(self.known, self.proof.place, antecedents, self.variable)
        for statement, by, is_forward in self.equations:
            made.add(statement, by, is_forward)
        return made

    def variable(self, dummy):
        return self.elaborator.unifier.hole(dummy.sort, True, dummy.name, None, self.proof.place)

    def closed(self, goal):
        antecedents, core = self.known.peeled(goal)
        return chains.closed(self.chains(antecedents), core)

    def turned(self, goal):
        """The goal is turned first by the antecedents that are equations, and then by the listed ones in their order."""
        turns = []
        for stage in (self.by_first, self.by_all, *[self.by_rule(i) for i in range(len(self.equations))]):
            turn = stage(goal)
            if turn and turn.build:
                turns.append(turn)
                goal = behind(self.known, turn.chains.context.antecedents, turn.new)
        if not turns:
            raise Wrong("nothing here is turned by these equations", self.proof.place)
        by = self.proof.proof
        for it in reversed(turns):
            by = it.proved(by)
        return by

    def by_first(self, goal):
        """By the first antecedent, which turns all that stands behind it."""
        antecedents, core = self.known.peeled(goal)
        return self.by_context(antecedents[:1], behind(self.known, antecedents[1:], core)) if antecedents else None

    def by_all(self, goal):
        antecedents, core = self.known.peeled(goal)
        return self.by_context(antecedents, core) if len(antecedents) > 1 else None

    def by_context(self, antecedents, core):
        made = self.chains(antecedents)
        return chains.Turn(made, core, [(it, True) for it in made.of_context]) if made.of_context else None

    def by_rule(self, i):
        def turn(goal):
            antecedents, core = self.known.peeled(goal)
            made = self.chains(antecedents)
            rule = made.rules[i]
            if not rule[0].antecedents and any(self.is_turned(it, rule) for it in antecedents):
                made, core = self.chains([]), goal
            return chains.Turn(made, core, [made.rules[i]])

        return turn

    def is_turned(self, formula, rule):
        made = self.chains([])
        return bool(chains.Turn(made, formula, [rule]).build)


def behind(known, antecedents, core):
    for it in reversed(antecedents):
        core = App(known.im, [it, core])
    return core


def settle(unifier, antecedents, core):
    """Where an antecedent is an equation of a variable that isn't known, this is the one that binds nothing in the core, if
    there is one alone: so `x = 0 -> (p <-> _)` is known by p."""
    for it in antecedents:
        holes = [hole for hole in holes_of(it) if hole.bound]
        free = [e for e in free_variables(core) if holes and e.sort == holes[0].sort and e not in free_variables(it)]
        if len(holes) == 1 and len(free) == 1:
            unifier.unify(holes[0], free[0])


def stated(elaborator, proof):
    """What a proof proves, with blanks for what isn't known: it is elaborated, and nothing of that is kept."""
    unifier = elaborator.unifier
    mark, holes, gaps, later = len(unifier.filled), len(unifier.holes), len(elaborator.gaps), len(elaborator.later)
    statement = unifier.hole(elaborator.theorem.conclusion.sort, False, "_", None, proof.place)
    elaborator.proved(proof, statement)
    binders(unifier, statement)
    made = resolved(statement)
    own = {it for it in unifier.holes[holes:]}
    unifier.undo(mark)
    del unifier.holes[holes:], elaborator.gaps[gaps:], elaborator.later[later:]
    return put(made, {it: Blank(it.sort, it.bound, it.name, None) for it in holes_of(made) if it in own})


def binders(unifier, e):
    """What a term binds where that isn't known is the variable that is free in what it binds, if there is one alone."""
    e = walk(e)
    for it in e.operands if isinstance(e, App) else ():
        binders(unifier, it)
    holes = [walk(it) for binder, it in zip(e.term.binders, e.operands) if binder.bound] if isinstance(e, App) else []
    if len(holes) == 1 and isinstance(holes[0], Hole):
        free = [it for it in free_variables(e) if it.sort == holes[0].sort]
        if len(free) == 1:
            unifier.unify(holes[0], free[0])


def tautology(elaborator, proof, goal):
    """A step that proves the goal by propositional logic, from what is visible and what is listed."""
    known = elaborator.known
    if known.kit is None:
        raise Wrong("prop wants to know what is propositional here", proof.place, [("to say it", ["propositional im not ax_1 ax_2 ax_3 ax_mp;"])])
    visible = [(resolved(e), Step(proof.place, name)) for name, e in elaborator.visible.items() if not any(holes_of(e))]
    listed = [(stated(elaborator, it), it) for it in proof.parts]
    return followed(known, proof.place, resolved(goal), visible + listed)
