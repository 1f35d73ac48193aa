"""Expressions: a variable or a term without operands is its name, an application a tuple of its term's name and its operands."""

MOST_STEPS = 400_000
MOST_LETTERS = 1_600


class TooLarge(Exception):
    """An expression has more parts than anybody wants to read."""


class Budget:
    """How many steps may still be taken."""

    def __init__(self, steps=MOST_STEPS):
        self.left = steps

    def step(self):
        self.left -= 1
        if self.left < 0:
            raise TooLarge


def instance(e, given, budget=None):
    """The expression with others for its variables."""
    budget = budget or Budget()
    budget.step()
    if isinstance(e, str):
        return given.get(e, e)
    return (e[0], *(instance(it, given, budget) for it in e[1:]))


def is_same(a, b, budget=None):
    """Whether two expressions are one; those that share their parts are compared once."""
    budget = budget or Budget()
    budget.step()
    if a is b:
        return True
    if isinstance(a, str) or isinstance(b, str):
        return a == b
    return a[0] == b[0] and len(a) == len(b) and all(is_same(x, y, budget) for x, y in zip(a[1:], b[1:]))


def prefix(e, most=MOST_LETTERS):
    """The expression as proof texts write it, cut where it is very long."""
    parts, count = [], 0

    def go(it):
        nonlocal count
        if count > most:
            return
        if isinstance(it, str):
            parts.append(it)
            count += len(it) + 1
            return
        parts.append("(" + it[0])
        count += len(it[0]) + 2
        for one in it[1:]:
            parts.append(" ")
            go(one)
        parts.append(")")

    go(e)
    text = "".join(parts)
    return text if count <= most else text[:most] + " .."


def first_difference(a, b):
    """The smallest parts at which two expressions differ, where it is at one place alone; else the two themselves."""
    while not isinstance(a, str) and not isinstance(b, str) and a[0] == b[0] and len(a) == len(b):
        other = [(x, y) for x, y in zip(a[1:], b[1:]) if not is_same(x, y)]
        if len(other) != 1:
            break
        a, b = other[0]
    return a, b
