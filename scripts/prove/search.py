"""Finds proofs: what may be cited for a goal, and whole proofs of it, by unification from the goal.

    candidates(goal, scope)                     what may be cited for a goal, with what is left open; the best fits first
    proofs(goal, scope, depth, seconds)         the best proofs that are found, as they stand in a source

`scope` is a Surroundings: surroundings(gap) makes it of a gap, Surroundings(elaborator, visible, before) of any place.
Nothing that is found is believed: each proof is elaborated and checked before it is shown. Nothing is written, either: the
lemmas of an import that a search looks at don't become part of the text."""
import time
from dataclasses import dataclass, field
from itertools import chain

from .elaborate import Elaborator
from .library import terms_unfolded
from .logic import App, Assertion, Hole, Var, holes_of, instance, resolved, walk
from .places import Wrong
from .rewriting import used_equations
from .sources import DEPTH, Rewrite, Step, Tautology
from .tautology import Prover
from .unify import Refl, Unifier

SECONDS, BEST = 5.0, 3
SECONDS_FOR_PART = 0.5  # so long `rw` and `prop` are tried for a part
ENOUGH = 2  # so many proofs are looked at of a part that has no holes: one is as good as another
MOST_ATOMS, MOST_EQUATIONS = 8, 100  # so many are let in where `prop` and `rw` are tried
MOST_DIFFERING = 100_000  # so many pairs that differ are remembered
MOST_FOUND = 12  # so many are found at the least depth that has one, before the best are chosen


@dataclass
class Candidate:
    """What may be cited for a goal."""

    name: str
    origin: str  # the development that has it, or nothing for a hypothesis
    open: list = field(default_factory=list)  # the formulas that are to be proved then
    is_unfolding: bool = False  # whether it fits with definitions unfolded
    unknown: int = 0  # how many of its variables nothing says

    def rank(self):
        return self.is_unfolding, self.unknown, len(self.open)


@dataclass
class Search:
    """What a search has found, and how far it has looked."""

    proofs: list  # texts, the best first
    depth: int  # the depth up to which all was looked at
    tried: int  # how many citations were tried
    is_out_of_time: bool

    def said(self):
        how_far = f"{self.tried} citations tried, all up to depth {self.depth}"
        return how_far + (", and then the time was over" if self.is_out_of_time else "")


class Surroundings:
    """Where a goal stands: `visible` are the hypotheses and what is had there, `before` is how many statements were written.
    It gives a trial elaborator what the scope of the source gives, but what an import has is only looked at."""

    def __init__(self, elaborator, visible, before):
        self.scope, self.theorem, self.printer = elaborator.scope, elaborator.theorem, elaborator.printer
        self.dummies, self.visible, self.before = list(elaborator.dummies), dict(visible), before

    @property
    def kit(self):
        return self.scope.kit

    @property
    def development(self):
        return self.scope.development

    @property
    def imports(self):
        return self.scope.imports

    @property
    def writer(self):
        return self.scope.writer

    def formula(self, math, variables, sort, left_out):
        return self.scope.formula(math, variables, sort, left_out)

    def assertion(self, name, place, _=()):
        found = self.writer.library.named(name, self.before)
        found = found[0] if found else self.scope.lemma(name)
        if found is None:
            raise Wrong(f"{name} can't be cited here", place)
        return found

    def equations(self, goal):
        """The names of what may be cited without hypotheses and speaks of what the goal and what is visible do."""
        names = set().union(*map(terms_unfolded, (goal, *self.visible.values())))
        return self.writer.library.outright(names, self.before, MOST_EQUATIONS)

    def fitting(self, goal):
        """The theorems that may prove a goal, each with the name of its development: those of the source first."""
        return self.writer.library.fitting(goal, self.before)


def surroundings(gap):
    return Surroundings(gap.elaborator, gap.visible, gap.before)


def candidates(goal, scope):
    """What may be cited for a goal, the best fits first: hypotheses, then theorems."""
    unifier, found = Unifier(), []
    for name, formula in reversed(scope.visible.items()):
        if unifier.unify(goal, formula):
            found.append(Candidate(name, ""))
            unifier.undo(0)
    for theorem, origin in scope.fitting(goal):
        if isinstance(walk(theorem.conclusion), App):
            made = candidate(goal, theorem, origin, unifier)
            found += [made] if made else []
    return sorted(found, key=lambda it: (it.origin != "", *it.rank()))


def candidate(goal, theorem, origin, unifier):
    given = parameters(theorem, unifier)
    conversion = unifier.unify(goal, instance(theorem.conclusion, given))
    if conversion is None:
        return None
    left = [resolved(instance(e, given)) for _, e in theorem.hypotheses]
    unknown = sum(any(holes_of(it)) for it in given.values())
    unifier.undo(0)
    return Candidate(theorem.name, origin, left, not isinstance(conversion, Refl), unknown)


def parameters(theorem, unifier, place=None):
    return {it: unifier.hole(it.sort, it.bound, it.name, theorem.name, place) for it in theorem.binders}


def proofs(goal, scope, depth=DEPTH, seconds=SECONDS):
    """The best proofs of a goal by what may be cited there, up to a depth: 1 is a theorem whose hypotheses are had already.
    The least depth that has a proof is the last that is looked at."""
    searcher, done = Searcher(scope, seconds), -1
    found = {}
    try:
        for done in range(depth + 1):
            found = searcher.found(goal, done) or (done == 1 and searcher.found_by_itself(goal)) or searcher.found(goal, done, True)
            if found:
                break
        return Search(best(found), done, searcher.tried, False)
    except OutOfTime:
        return Search(best(found), done - 1, searcher.tried, True)


def best(found):
    return sorted(found, key=lambda it: (it.count("("), len(it)))[:BEST]


class OutOfTime(Exception):
    """The time of a search is over."""


class Searcher:
    """Goes through the proofs of a goal, up to a depth: hypotheses first, then what may be cited."""

    def __init__(self, scope, seconds):
        now = time.thread_time()
        self.scope, self.tried = scope, 0
        self.end, self.end_of_automatic = now + seconds, now + seconds / 2
        self.unifier = Unifier()
        self.is_by_itself = False  # whether `prop` and `rw` are tried for what theorems leave open
        self.by_itself = set()  # the goals for which they were
        self.without = {}  # a goal without holes: the depth up to which it has no proof

    def found(self, goal, depth, is_by_itself=False):
        """The texts of proofs up to a depth. From the depth 2 on `prop` and `rw` are tried for the parts, too, where that is
        said."""
        if is_by_itself:
            if depth < 2:
                return {}
            self.without.clear()
        self.is_by_itself, found = is_by_itself, {}
        for tree in self.proved(goal, depth, ()):
            text = confirmed(tree, goal, self.scope)
            if text:
                found.setdefault(text)
            if len(found) >= MOST_FOUND:
                break
        return found

    def found_by_itself(self, goal):
        return dict.fromkeys(it.name for it in automatic(goal, self.scope, self.end))

    def proved(self, goal, depth, above):
        """The trees of steps that prove a goal. Each is given while what it stands for is filled in; `above` are the goals
        for whose sake this one is wanted."""
        if time.thread_time() > self.end:
            raise OutOfTime
        if len(self.unifier.differing) > MOST_DIFFERING:
            self.unifier.differing.clear()
        key = spelled(goal)
        if key is not None and (key in above or self.without.get(key, -1) >= depth):
            return
        count = 0
        for tree in chain(self.steps(goal, depth, (*above, key)), self.automatic(goal, key, depth, above)):
            count += 1
            yield tree
            if above and key is not None and count == ENOUGH:
                return
        if key is not None and not count:
            self.without[key] = depth

    def automatic(self, goal, key, depth, above):
        """What `prop` and `rw` prove of what a theorem leaves open, where that has no holes."""
        if self.is_by_itself and key is not None and above and depth == 1 and key not in self.by_itself:
            self.by_itself.add(key)
            end = min(time.thread_time() + SECONDS_FOR_PART, self.end_of_automatic)
            if time.thread_time() < end:
                yield from automatic(goal, self.scope, end)

    def steps(self, goal, depth, above):
        mark = len(self.unifier.filled)
        for name, formula in reversed(self.scope.visible.items()):
            if self.unifier.unify(goal, formula):
                yield Tree(name)
                self.unifier.undo(mark)
        if depth == 0 or isinstance(walk(goal), Hole):
            return
        for theorem, _ in sorted(self.scope.fitting(goal), key=lambda it: len(it[0].hypotheses)):
            self.tried += 1
            count = len(self.unifier.holes)
            given = parameters(theorem, self.unifier)
            if self.unifier.unify(goal, instance(theorem.conclusion, given)):
                wanted = dict(enumerate(instance(e, given) for _, e in theorem.hypotheses))
                for parts in self.all_proved(wanted, depth - 1, above):
                    yield Tree(theorem.name, given, [parts[i] for i in sorted(parts)])
            self.unifier.undo(mark)
            del self.unifier.holes[count:]

    def all_proved(self, wanted, depth, above):
        """Proofs of several goals: first of what has the fewest holes, which may fill those of others."""
        if not wanted:
            yield {}
            return
        first = min(wanted, key=lambda it: openness(wanted[it]))
        others = {i: e for i, e in wanted.items() if i != first}
        for tree in self.proved(wanted[first], depth, above):
            for parts in self.all_proved(others, depth, above):
                yield {**parts, first: tree}


class Tree:
    """A citation that is found, with the holes of its parameters; or a step that isn't one, with its text as the name."""

    def __init__(self, name, given=None, parts=(), step=None):
        self.name, self.given, self.parts, self.step = name, given or {}, list(parts), step


def openness(e):
    return isinstance(walk(e), Hole), sum(1 for _ in holes_of(e))


def spelled(e):
    """A goal without holes as something to be looked up."""
    e = walk(e)
    if isinstance(e, Hole):
        return None
    if not isinstance(e, App):
        return e
    parts = [spelled(it) for it in e.operands]
    return None if None in parts else (e.term.name, *parts)


def confirmed(tree, goal, scope):
    """A proof that is found as it stands in a source, or nothing where it isn't right: as few parameters are given as
    suffice."""
    fixed = closed(goal)
    given = {id(node): {it.name: resolved(e) for it, e in node.given.items()} for node in nodes(tree)}
    bare = {key: {} for key in given}
    if is_right(tree, bare, fixed, scope):
        return written(tree, bare, scope.printer)
    if not is_right(tree, given, fixed, scope):
        return None
    for node in nodes(tree):
        for name in list(given[id(node)]):
            e = given[id(node)].pop(name)
            if not is_right(tree, given, fixed, scope):
                given[id(node)][name] = e
    return written(tree, given, scope.printer)


def automatic(goal, scope, end):
    """Proofs of a goal by `prop` and by `rw`."""
    goal = closed(goal)
    for make in (by_logic, by_equations):
        yield from (it for it in make(goal, scope, end) if is_made(it.step, goal, scope))


def by_logic(goal, scope, end):
    if scope.kit and len(set(map(spelled, Prover(trial(goal, scope).known, None).atoms(goal)))) <= MOST_ATOMS:
        yield Tree("prop", step=Tautology(None, []))


def by_equations(goal, scope, end):
    """`rw` by the equations of those that may be cited which a chain needs: it is looked for with all of them."""
    rules = {name: Step(None, name) for name in (*scope.visible, *scope.equations(goal))}
    names = used_equations(trial(goal, scope), goal, rules, end)
    if names is None:
        return
    for name in list(names):
        fewer = [it for it in names if it != name]
        if time.thread_time() < end and is_made(rewrite(fewer), goal, scope):
            names = fewer
    yield Tree(f"rw [{', '.join(names)}]" if names else "rw", step=rewrite(names))


def rewrite(names):
    return Rewrite(None, [Step(None, it) for it in names], [False] * len(names), None)


def closed(goal):
    """The goal, with variables for the holes that are left in it."""
    e = resolved(goal)
    names = {hole: Var(f"?{hole.name}", hole.sort, hole.bound) for hole in holes_of(e)}

    def put(it):
        it = walk(it)
        return names[it] if isinstance(it, Hole) else App(it.term, map(put, it.operands)) if isinstance(it, App) else it

    return put(e) if names else e


def nodes(tree):
    yield tree
    for part in tree.parts:
        yield from nodes(part)


def is_right(tree, given, goal, scope):
    return is_made(step(tree, given), goal, scope)


def is_made(proof, goal, scope):
    """Whether the elaborator makes a whole proof of it that the checker accepts."""
    try:
        trial(goal, scope).whole(proof)
    except Wrong:
        return False
    return True


def trial(goal, scope):
    """An elaborator for a proof that is tried: what is visible are its hypotheses."""
    theorem = Assertion("theorem", scope.theorem.name, scope.theorem.binders, list(scope.visible.items()), goal)
    return Elaborator(scope, theorem, scope.dummies, scope.printer)


def step(tree, given):
    if tree.step:
        return tree.step
    said = [(None, name, e) for name, e in given[id(tree)].items() if not any(holes_of(e))]
    return Step(None, tree.name, said, [step(it, given) for it in tree.parts])


def written(tree, given, printer):
    said = [f"{name} := $ {printer.formula(e)} $" for name, e in given[id(tree)].items() if not any(holes_of(e))]
    parts = [written(it, given, printer) for it in tree.parts]
    return tree.name + (f"[{', '.join(said)}]" if said else "") + (f"({', '.join(parts)})" if parts else "")
