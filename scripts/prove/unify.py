"""Unification up to definitions: what holes stand for, and the conversion between two expressions."""
from .logic import App, Hole, Var, holes_of, instance, walk


class Refl:
    def __init__(self, e):
        self.e = e


class Cong:
    def __init__(self, term, parts):
        self.term, self.parts = term, parts


class Sym:
    def __init__(self, part):
        self.part = part


class Unfold:
    def __init__(self, term, operands, variables, part):
        self.term, self.operands, self.variables, self.part = term, operands, variables, part


class Unifier:
    """The holes of one proof, and those that are filled in the order in which they were. Pairs that were found to differ
    are kept, so that what occurs again and again where definitions are unfolded is compared once."""

    def __init__(self):
        self.holes, self.filled = [], []
        self.fills, self.state = 0, [0]  # how many fills there were, and the numbers of those that stand
        self.differing = {}

    def hole(self, sort, bound, name, owner, place=None):
        made = Hole(sort, bound, name, owner, place)
        self.holes.append(made)
        return made

    def unify(self, e, f):
        """A conversion from e to f, where holes are filled for it; or nothing, and no hole is filled."""
        mark, count = len(self.filled), len(self.holes)
        made = self.tried(e, f)
        if made is None:
            self.undo(mark)
            del self.holes[count:]
        return made

    def tried(self, e, f):
        e, f = walk(e), walk(f)
        if e is f:
            return Refl(e)
        if isinstance(e, Hole) or isinstance(f, Hole):
            return self.fill(f, e) or self.fill(e, f)
        key = id(e), id(f), self.state[-1]
        if key in self.differing or (*key[:2], None) in self.differing:
            return None
        made = self.compared(e, f)
        if made is None:
            is_open = any(any(holes_of(it)) for it in (e, f))
            self.differing[(*key[:2], key[2] if is_open else None)] = e, f
        return made

    def compared(self, e, f):
        if isinstance(e, App) and isinstance(f, App) and e.term is f.term:
            mark = len(self.filled)
            parts = self.all_tried(e.operands, f.operands)
            if parts is not None:
                return Refl(e) if all(isinstance(it, Refl) for it in parts) else Cong(e.term, parts)
            self.undo(mark)
        return self.unfolded(e, f)

    def all_tried(self, these, those):
        parts = []
        for e, f in zip(these, those):
            parts.append(self.unify(e, f))
            if parts[-1] is None:
                return None
        return parts

    def unfolded(self, e, f):
        """The later one of the definitions is unfolded."""
        mine, other = (it.term.rank if isinstance(it, App) and it.term.body is not None else -1 for it in (e, f))
        if mine < 0 and other < 0:
            return None
        if mine < other:
            turned = self.unfolded(f, e)
            return turned and Sym(turned)
        given = dict(zip(e.term.binders, e.operands))
        variables = [self.hole(it.sort, True, it.name, e.term.name) for it in e.term.dummies]
        given.update(zip(e.term.dummies, variables))
        part = self.unify(instance(e.term.body, given), f)
        return part and Unfold(e.term, e.operands, variables, part)

    def fill(self, hole, e):
        if not isinstance(hole, Hole) or hole.sort != e.sort or occurs(hole, e):
            return None
        if hole.bound and not (isinstance(e, (Var, Hole)) and e.bound):
            return None
        hole.value = e
        self.filled.append(hole)
        self.fills += 1
        self.state.append(self.fills)
        return Refl(e)

    def undo(self, mark):
        while len(self.filled) > mark:
            self.filled.pop().value = None
            self.state.pop()


def occurs(hole, e):
    e = walk(e)
    return e is hole or isinstance(e, App) and any(occurs(hole, it) for it in e.operands)
