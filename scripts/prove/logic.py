"""Sorts, terms, expressions and assertions, as a specification declares them."""


class Var:
    """A variable of a statement: a parameter or a dummy."""

    def __init__(self, name, sort, bound=False, needs=()):
        self.name, self.sort, self.bound, self.needs = name, sort, bound, tuple(needs)


class App:
    """A term over its operands."""

    def __init__(self, term, operands=()):
        self.term, self.operands = term, tuple(operands)

    @property
    def sort(self):
        return self.term.sort


class Hole:
    """An expression that is still to be found; `value` is what was found for it. What is left out in a formula, `_`, has
    no sort before its place gives it one."""

    def __init__(self, sort, bound, name, owner, place=None):
        self.sort, self.bound, self.name, self.owner, self.place = sort, bound, name, owner, place
        self.value = None


class Blank(Hole):
    """A place in a pattern, for which any expression may stand."""


class Sort:
    kind = "sort"

    def __init__(self, name, modifiers):
        self.name, self.modifiers = name, modifiers


class Term:
    """A term, or with `is_definition` a definition, whose body may be open at first."""

    def __init__(self, name, binders, sort, needs, dummies=(), body=None, is_definition=False, is_local=False):
        self.name, self.binders, self.sort, self.needs = name, binders, sort, tuple(needs)
        self.dummies, self.body, self.is_local = tuple(dummies), body, is_local
        self.is_definition = is_definition
        self.rank = 0  # how many terms stand before it

    @property
    def kind(self):
        return "def" if self.is_definition else "term"


class Assertion:
    """An axiom or a theorem. The hypotheses are pairs of a name and a formula; the dummies are those of the proof."""

    def __init__(self, kind, name, binders, hypotheses, conclusion, dummies=(), is_local=False):
        self.kind, self.name, self.binders, self.is_local = kind, name, binders, is_local
        self.hypotheses, self.conclusion, self.dummies = hypotheses, conclusion, tuple(dummies)


def walk(e):
    """The expression without the holes at its top that are filled."""
    while isinstance(e, Hole) and e.value is not None:
        e = e.value
    return e


def resolved(e):
    """The expression with what was found for its holes."""
    e = walk(e)
    return App(e.term, map(resolved, e.operands)) if isinstance(e, App) and e.operands else e


def instance(e, given):
    """The expression with others for its variables."""
    e = walk(e)
    if isinstance(e, Var):
        return given.get(e, e)
    if isinstance(e, App) and e.operands:
        return App(e.term, [instance(it, given) for it in e.operands])
    return e


def holes_of(e):
    """The holes of an expression that aren't filled, from left to right."""
    e = walk(e)
    if isinstance(e, Hole):
        yield e
    elif isinstance(e, App):
        for it in e.operands:
            yield from holes_of(it)


def blanks_of(e):
    return {it for it in holes_of(e) if isinstance(it, Blank)}


def put(e, given):
    """An expression with others for its holes."""
    e = walk(e)
    if isinstance(e, Hole):
        return given.get(e, e)
    return App(e.term, [put(it, given) for it in e.operands]) if isinstance(e, App) and e.operands else e


def free_variables(e):
    """The bound variables of an expression that don't stand in a place that binds, nor are bound there, in their order."""
    e = walk(e)
    if isinstance(e, Var):
        return [e] if e.bound else []
    if isinstance(e, Hole):
        return []
    bound = [walk(it) for binder, it in zip(e.term.binders, e.operands) if binder.bound]
    found = dict.fromkeys(v for binder, it in zip(e.term.binders, e.operands) if not binder.bound for v in free_variables(it))
    return [it for it in found if it not in bound]


def written(e):
    """The expression as a proof text has it."""
    e = walk(e)
    if isinstance(e, Var):
        return e.name
    if isinstance(e, Hole):
        return "?" + e.name
    if not e.operands:
        return e.term.name
    return "(" + " ".join([e.term.name, *map(written, e.operands)]) + ")"
