"""Chains of equations: what `rw` stands for. It looks for steps of a source that prove the goal, and the elaborator makes a
whole proof of them."""
import heapq
import time

from .logic import App, Blank, Hole, blanks_of, put, walk
from .rewrite import Leaf, Rewriter, unfolded_once

MOST = 1200  # so many expressions are looked at from each side
ROOM = 12  # by so many symbols an expression may be longer than both sides


def size(e):
    e = walk(e)
    return 1 + sum(map(size, e.operands)) if isinstance(e, App) else 1


def replaced(e, path, new):
    """The expression with another at a place."""
    if not path:
        return new
    e = walk(e)
    return App(e.term, [replaced(it, path[1:], new) if i == path[0] else it for i, it in enumerate(e.operands)])


class Chains(Rewriter):
    """Finds chains of equations from one expression to another, and turns goals."""

    def equal_to(self, e, f, term):
        """A proof that both are equal: at once, or by a chain of steps from both sides until they meet."""
        made = self.direct(e, f, term)
        if made is None:
            left, right = self.opened(e), self.opened(f)
            leaves = self.met(Side(self, left, term), Side(self, right, term)) or self.met(
                Guided(self, left, term, right), Guided(self, right, term, left))
            made = leaves and self.chain(left, leaves, term)
        if made is None:
            raise self.wrong("these equations don't lead from one side to the other")
        return self.claimed(e, f, made)

    def opened(self, e):
        """The expression without the definitions through which nothing goes: they are unfolded."""
        e = walk(e)
        if not isinstance(e, App):
            return e
        if e.term.body is not None and not e.term.dummies and e.term.name not in self.congruences:
            return self.opened(unfolded_once(e))
        return App(e.term, [self.opened(it) for it in e.operands])

    def claimed(self, e, f, made):
        """The same, said of just these two expressions: definitions may be unfolded in what is proved."""
        return self.context.proved(self.equal(e, f, made.formula.term), made.by, made.is_under)

    end = float("inf")  # when the time is over for a chain

    def met(self, *sides):
        """The leaves of a chain from one side to the other."""
        limit = max(size(it.first) for it in sides) + ROOM
        while any(it.waiting for it in sides):
            side = min((it for it in sides if it.waiting), key=lambda it: len(it.waiting))
            other = sides[1 - sides.index(side)]
            if len(side.seen) > MOST or time.thread_time() > self.end:
                return None
            for number in side.grown(limit):
                if number in other.seen:
                    return [*sides[0].way(number), *(it.turned() for it in reversed(sides[1].way(number)))]
        return None

    def steps(self, e, term, path=()):
        """What one use of a rule below a place makes of an expression: the leaf, and what stands there then."""
        e = walk(e)
        for rule in self.all_rules(term):
            for is_forward in (True, False):
                found = self.use(e, rule, is_forward)
                if found:
                    yield Leaf(path, rule, found[0], is_forward), found[1]
        for i, below, may_be_under in self.places(e, term):
            for leaf, new in self.steps(e.operands[i], below, (*path, i)):
                if may_be_under or not self.is_under(leaf):
                    yield leaf, new

    def use(self, e, rule, is_forward):
        """What stands for the holes of a rule whose one side is the expression, and what the other side is then."""
        left, right = rule.sides(is_forward)
        if isinstance(walk(left), Blank):
            return None
        given = self.terms.matched(left, e, {})
        given = given if given is None else self.for_antecedents(rule, given)
        if given is None:
            return None
        new = put(right, given)
        return (given, new) if not blanks_of(new) else None

    def is_under(self, leaf):
        return leaf.rule.is_under or bool(leaf.rule.antecedents)

    def places(self, e, term):
        """The operands through which an equality goes: which, the term of the equality there, and whether what is proved
        under the context may be used."""
        found = {}
        for it in self.congruences.get(e.term.name, ()) if isinstance(e, App) else ():
            if it.equality is term:
                is_for_context = self.context.formula is not None and (
                    not it.inference.hypotheses if not it.inference.is_under else
                    self.context.is_apart(it.inference, self.equal(e, e, term)))
                for i, below in it.places.items():
                    if i not in found or is_for_context:
                        found[i] = below, is_for_context
        return [(i, *rest) for i, rest in sorted(found.items())]

    def chain(self, e, leaves, term):
        """The equation of a chain: what happens below the top of an expression is joined there first."""
        done, below, e = None, [], walk(e)
        for leaf in [*leaves, None]:
            if leaf is not None and leaf.path:
                below.append(leaf)
                continue
            if below:
                done, below = self.trans(done, self.chains_below(e, below, term)), []
                e = self.opened(done.right)
            if leaf is not None:
                done = self.trans(done, self.by_leaf(leaf))
                e = self.opened(done.right)
        return done

    def chains_below(self, e, leaves, term):
        terms = {i: below for i, below, _ in self.places(e, term)}
        parts = {}
        for i in sorted({it.path[0] for it in leaves}):
            parts[i] = self.chain(e.operands[i], [it.below() for it in leaves if it.path[0] == i], terms[i])
        made = self.through(e, parts, term)
        if made is None:
            raise self.wrong(f"no congruence goes through {e.term.name} here")
        return made

    # A goal that is turned: each equation from one side to the other, wherever its side stands.

    def turned(self, e, term, rules):
        """What rules make of an expression, one after the other, and the leaves of the chain that leads there."""
        all_leaves = []
        for rule, is_forward in rules:
            leaves = self.outermost(e, term, rule, is_forward, ())
            for leaf, new in leaves:
                e = replaced(e, leaf.path, new)
            all_leaves += [leaf for leaf, _ in leaves]
        return e, all_leaves

    def outermost(self, e, term, rule, is_forward, path):
        """The uses of a rule in an expression that don't lie in one another."""
        e = walk(e)
        found = self.use(e, rule, is_forward) if rule.formula.term is term else None
        if found:
            return [(Leaf(path, rule, found[0], is_forward), found[1])]
        is_under = rule.is_under or rule.antecedents
        return [it for i, below, may_be_under in self.places(e, term) if may_be_under or not is_under
                for it in self.outermost(e.operands[i], below, rule, is_forward, (*path, i))]


class Side:
    """The expressions that are reached from one side, each with the way to it."""

    def __init__(self, rewriter, e, term):
        self.rewriter, self.term = rewriter, term
        number = rewriter.shapes.number(e)
        self.first, self.seen = e, {number: (None, None)}
        self.waiting = [(e, number)]

    def grown(self, limit):
        """The numbers of what is reached by one step more."""
        waiting, self.waiting = self.waiting, []
        for e, number in waiting:
            yield from self.grown_from(e, number, limit)

    def grown_from(self, e, number, limit):
        if time.thread_time() > self.rewriter.end:
            return
        for leaf, new in self.rewriter.steps(e, self.term):
            made = self.rewriter.opened(replaced(e, leaf.path, new))
            reached = self.rewriter.shapes.number(made)
            if reached not in self.seen and size(made) <= limit and len(self.seen) <= MOST:
                self.seen[reached] = leaf, number
                self.wait(made, reached)
                yield reached

    def wait(self, e, number):
        self.waiting.append((e, number))

    def way(self, number):
        """The leaves from the beginning to an expression."""
        leaves = []
        while self.seen[number][0] is not None:
            leaf, number = self.seen[number]
            leaves.append(leaf)
        return leaves[::-1]


class Guided(Side):
    """Goes on with what is most like the other side: of whose parts the fewest are missing."""

    def __init__(self, rewriter, e, term, goal):
        super().__init__(rewriter, e, term)
        self.goal = self.parts(goal)
        self.waiting = [(len(self.goal - self.parts(e)), 0, e, *self.seen)]

    def parts(self, e):
        e = walk(e)
        below = set().union(*map(self.parts, e.operands)) if isinstance(e, App) else set()
        return below | {self.rewriter.shapes.number(e)}

    def grown(self, limit):
        _, _, e, number = heapq.heappop(self.waiting)
        return self.grown_from(e, number, limit)

    def wait(self, e, number):
        heapq.heappush(self.waiting, (len(self.goal - self.parts(e)), len(self.seen), e, number))


class Turn:
    """A goal that is turned: behind some of its antecedents the sides of an equation, or the whole formula."""

    def __init__(self, chains, core, rules):
        self.chains, self.core, self.rules = chains, walk(core), rules
        self.sides = chains.as_equation(core)
        if self.sides:
            self.new, self.build = self.turned_sides(self.sides.term)
        if not self.sides or self.build is None:
            self.new, self.build = self.turned_formula()

    def turned_sides(self, term):
        chains, (left, right) = self.chains, self.sides.operands
        (new_left, first), (new_right, last) = chains.turned(left, term, self.rules), chains.turned(right, term, self.rules)
        new = chains.equal(new_left, new_right, term)
        if not (first or last) or not chains.equalities[term.name].trans:
            return None, None

        def build(by):
            made = chains.context.charged(new, by)
            if first:
                made = chains.trans(chains.chain(left, first, term), made)
            return chains.trans(made, chains.chain(new_right, back(last), term)) if last else made

        return new, build

    def turned_formula(self):
        for it in self.chains.equalities.values():
            if it.mp and it.term.binders[0].sort == self.core.sort:
                new, leaves = self.chains.turned(self.core, it.term, self.rules)
                if leaves:
                    return new, self.by_mp(it, new, leaves)
        return None, None

    def by_mp(self, equality, new, leaves):
        chains = self.chains

        def build(by):
            made = chains.chain(new, back(leaves), equality.term)
            made = chains.context.best(equality.mp, [made, chains.context.charged(new, by)], self.core)
            if made is None:
                raise chains.wrong(f"no theorem leads from {equality.term.name} and one side to the other here")
            return made

        return build

    def proved(self, by):
        """A step that proves the goal, from one that proves what it is turned into."""
        return self.chains.context.discharged(self.build(by))


def back(leaves):
    """The same chain from its end to its beginning."""
    return [it.turned() for it in reversed(leaves)]


def closed(chains, core):
    """A step that proves an equation, behind the antecedents of its context. Where the right side isn't known it is what the
    left one is turned into."""
    sides = chains.as_equation(core)
    if not sides:
        raise chains.wrong("rw without a proof in parentheses proves equations, and this is none")
    left, right = sides.operands
    if not isinstance(walk(right), Hole):
        return chains.context.discharged(chains.equal_to(left, right, sides.term))
    new, leaves = chains.turned(left, sides.term, [(it, True) for it in chains.of_context] + chains.rules)
    return chains.context.discharged(chains.chain(left, leaves, sides.term) if leaves else chains.refl(left, new, sides.term))
