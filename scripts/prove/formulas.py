"""Notations, and the formulas that are written in them."""
from explain import characters

from .logic import App, Hole, Var
from .places import Wrong

MAX = float("inf")
MOST_TOKENS = 4096


class Notations:
    def __init__(self):
        self.left, self.right = set(), set()
        # A literal is the number of a binder, or a constant with its level.
        self.leading = {}  # constant: (level, term, the literals behind it)
        self.infix = {}  # constant: (level, term, whether it groups to the left, the number before it, the literals behind)
        self.coercions = {}  # sort, sort: the terms on the way
        self.notes = []  # all that was noted, in order

    def note(self, what, *given):
        """Takes a notation: `what` is the name of the method that does."""
        self.notes.append((what, given))
        getattr(self, what)(*given)

    def delimit(self, left, right):
        self.left |= set(left)
        self.right |= set(right)

    def lead(self, constant, form):
        self.leading[constant] = form

    def join(self, constant, form):
        self.infix[constant] = form

    def tokens(self, text):
        """The tokens, each with where it begins."""
        found, token, start = [], "", 0
        for at, char in enumerate(text + " "):
            if char in " \n" or char in self.right:
                if token:
                    found.append((token, start))
                token = ""
                if char in " \n":
                    continue
            if not token:
                start = at
            token += char
            if char in self.left or char in self.right:
                found.append((token, start))
                token = ""
        return found

    def add_coercion(self, term, low, high):
        paths = {(low, high): (term,)}
        for (a, b), way in self.coercions.items():
            if b == low:
                paths[a, high] = (*way, term)
            if a == high:
                paths[low, b] = (term, *way)
        self.coercions.update(paths)

    def coerced(self, e, sort):
        """The expression as one of this sort, or nothing. What is left out takes the sort."""
        if isinstance(e, Hole) and e.sort is None:
            e.sort = sort
        if e.sort == sort:
            return e
        for term in self.coercions.get((e.sort, sort), ()):
            e = App(term, [e])
        return e if e.sort == sort else None


class Formula:
    """One formula, read from left to right. `left_out` makes a hole for each `_`, where that may stand."""

    def __init__(self, math, theory, variables, left_out=None):
        self.math, self.theory, self.notations, self.variables = math, theory, theory.notations, variables
        self.left_out = left_out
        self.tokens, self.at = self.notations.tokens(math.text), 0
        if len(self.tokens) > MOST_TOKENS:
            raise self.wrong(f"a formula has at most {MOST_TOKENS} tokens, and this has {len(self.tokens)}", 0)

    def whole(self, sort=None):
        """The whole formula, as an expression of this sort, or of a provable one."""
        e = self.level(0)
        if self.at < len(self.tokens):
            raise self.wrong(f"'{self.peek()}' can't stand here")
        sorts = [sort] if sort else [it.name for it in self.theory.sorts.values() if "provable" in it.modifiers]
        own = [it for it in sorts if it == e.sort]
        for it in own or sorts:
            made = self.notations.coerced(e, it)
            if made:
                return made
        wanted = sorts[0] if len(sorts) == 1 else "a provable sort"
        raise self.wrong(f"this has the sort {e.sort}, and {wanted} is wanted", 0)

    def wrong(self, why, at=None, details=()):
        at = self.at if at is None else at
        offset = self.tokens[at][1] if at < len(self.tokens) else len(self.math.text.rstrip())
        return Wrong(why, self.math.place(offset), details)

    def peek(self):
        return self.tokens[self.at][0] if self.at < len(self.tokens) else None

    def take(self):
        token = self.peek()
        if token is None:
            raise self.wrong("the formula ends too soon")
        self.at += 1
        return token

    def level(self, level):
        begin = self.at
        e = self.leading(level)
        while self.peek() in self.notations.infix:
            own, term, to_left, first, literals = self.notations.infix[self.peek()]
            if own < level:
                break
            self.at += 1
            e = self.applied(term, self.operands(own + 1 if to_left else own, term, literals, {first: (e, begin)}))
        return e

    def leading(self, level):
        begin = self.at
        token = self.take()
        if token == "(":
            e = self.level(0)
            if self.peek() != ")":
                opened = [("opened", [f"'(', {self.math.place(self.tokens[begin][1])}"])]
                raise self.wrong(f"'{self.peek()}' stands where ')' is wanted" if self.peek() else "a ')' is wanting", details=opened)
            self.at += 1
            return e
        if token in self.variables:
            return self.variables[token]
        if token in self.notations.leading:
            own, term, literals = self.notations.leading[token]
            if own < level:
                raise self.wrong(f"what begins with '{token}' wants parentheses here", begin)
            return self.applied(term, self.operands(own, term, literals, {}))
        if token in self.theory.terms:
            term = self.theory.terms[token]
            return self.applied(term, [(self.level(MAX), self.at - 1) for _ in term.binders])
        if token == "_" and self.left_out:
            return self.left_out(self.math.place(self.tokens[begin][1]))
        infix = " (it stands between two operands)" if token in self.notations.infix else ""
        known = {*self.variables, *self.notations.leading, *self.notations.infix, *self.theory.terms}
        parted = characters.parted(token, known, bool(self.notations.left or self.notations.right))
        raise self.wrong(f"'{token}' is no variable, constant or term here{infix}", begin, [("", [it]) for it in parted])

    def operands(self, last, term, literals, found):
        """The operands with where they begin; some are found; `last` is the precedence of one in the last place."""
        for i, literal in enumerate(literals):
            if isinstance(literal, int):
                behind = literals[i + 1] if i + 1 < len(literals) else None
                if behind is None:
                    level = last
                else:
                    level = MAX if isinstance(behind, int) else behind[1] + 1
                begin = self.at
                found[literal] = self.level(level), begin
            elif self.peek() != literal[0]:
                raise self.wrong(f"'{literal[0]}' is wanted here")
            else:
                self.at += 1
        return [found[i] for i in range(len(term.binders))]

    def applied(self, term, operands):
        fitting = []
        for (e, begin), binder in zip(operands, term.binders):
            made = self.notations.coerced(e, binder.sort)
            if made is None:
                raise self.wrong(f"this has the sort {e.sort}, and {term.name} wants {binder.sort}", begin)
            if binder.bound and isinstance(made, Hole):
                made.bound = True
            elif binder.bound and not (isinstance(made, Var) and made.bound):
                raise self.wrong(f"{term.name} wants a bound variable here", begin)
            fitting.append(made)
        return App(term, fitting)
