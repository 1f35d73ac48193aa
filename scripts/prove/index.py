"""Finds the assertions whose conclusion may fit a goal. They are kept by the terms at the first places of their conclusions,
where definitions are unfolded: of thousands few are looked at."""
from .logic import App, Hole, instance, walk

DEPTH = 3  # how far below the top terms are compared
ANY, BOUND, OTHER, NOTHING = "any", "bound", "other", "nothing"  # no lexeme of a name has a space, so that terms are "term NAME"


class Index:
    """The assertions of one theory, in their order."""

    def __init__(self, assertions):
        self.root = {}
        for it in assertions:
            node = self.root
            for feature in features(it.conclusion, set(it.binders), DEPTH):
                node = node.setdefault(feature, {})
            node.setdefault("", []).append(it)

    def fitting(self, goal):
        """The assertions that may prove the goal, in no order."""
        nodes = [self.root]
        for feature in features(goal, (), DEPTH):
            if feature == ANY:
                nodes = [below for node in nodes for below in node.values()]
            else:
                nodes = [node[it] for node in nodes for it in (feature, ANY) if it in node]
        return [it for node in nodes for it in node[""]]


def features(e, parameters, depth):
    """What stands at the first places, from the top down. Any expression may stand for a parameter, and any variable for
    one that is bound."""
    e = unfolded(e)
    if isinstance(e, Hole):
        feature = BOUND if e.bound else ANY
    elif isinstance(e, App):
        feature = f"term {e.term.name}"
    elif e.bound:
        feature = BOUND
    else:
        feature = ANY if e in parameters else OTHER
    yield feature
    if depth:
        operands = e.operands[:2] if isinstance(e, App) else ()
        for it in operands:
            yield from features(it, parameters, depth - 1)
        below = ANY if feature == ANY else NOTHING
        for _ in range(places(depth) - 1 - len(operands) * places(depth - 1)):
            yield below


def places(depth):
    """How many places are compared in an expression, from its top to this depth."""
    return 2 ** (depth + 1) - 1


def unfolded(e):
    """An expression whose top is no definition that can be unfolded."""
    e = walk(e)
    while isinstance(e, App) and e.term.body is not None:
        e = walk(instance(e.term.body, dict(zip(e.term.binders, e.operands))))
    return e
