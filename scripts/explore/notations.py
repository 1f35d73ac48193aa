"""Notations: how terms are written, and how formulas are read."""
import re
from typing import NamedTuple, Optional

from .lexemes import Unreadable

MAX = float("inf")
APPLICATION = 1024  # the precedence of a term's name with its operands


class Constant(NamedTuple):
    text: str


class Operand(NamedTuple):
    index: int
    level: float
    left: Optional[float] = None  # a form of this precedence that groups to the left may stand here too


class Form(NamedTuple):
    """One way to write a term: its precedence, its literals, and whether it is an infix that groups to the left."""

    term: object
    level: float
    literals: tuple
    groups_left: bool = False

    @property
    def constants(self):
        return [it.text for it in self.literals if isinstance(it, Constant)]


def by_name(term, name):
    """A term's name with its operands, the form that needs no notation."""
    count = len(term.parameters)
    operands = [Operand(i, MAX) for i in range(count)]
    return Form(term, APPLICATION if count else MAX, (Constant(name), *operands))


def prefix(term, constant, level):
    last = len(term.parameters) - 1
    operands = [Operand(i, level if i == last else MAX) for i in range(last + 1)]
    return Form(term, level, (Constant(constant), *operands))


def infix(term, constant, level, to_left):
    first = Operand(0, level + 1, level if to_left else None)
    second = Operand(1, level + 1 if to_left else level)
    return Form(term, level, (first, Constant(constant), second), to_left)


def general(term, literals, tail):
    """A form of `notation`: literals are numbers of parameters and constants with their precedences; `tail` is the precedence and the
    side that stand behind them, or nothing."""
    level, side = tail or (literals[0][1], None)
    made = []
    for here, behind in zip(literals, [*literals[1:], None]):
        if not isinstance(here, int):
            made.append(Constant(here[0]))
        elif tail and not made:
            made.append(Operand(here, level + 1, level if side == "lassoc" else None))
        elif behind is None:
            made.append(Operand(here, level + 1 if side == "lassoc" else level))
        else:
            made.append(Operand(here, MAX if isinstance(behind, int) else behind[1] + 1))
    return Form(term, level, tuple(made), side == "lassoc")


class Notations:
    """What is declared so far of delimiters, constants and coercions."""

    def __init__(self):
        self.left, self.right = set(), set()
        self.leading, self.infix = {}, {}  # constant: its form
        self.forms = {}  # term: its forms
        self.plain = {}  # name of a term: its form without a notation
        self.paths = {}  # two sorts: the coercions on the way, the first one first
        self._pattern = None

    def delimit(self, left, right):
        self.left |= set(left)
        self.right |= set(right)
        self._pattern = None

    def tokens(self, text):
        """The tokens of a string, each with its place in it."""
        if self._pattern is None:
            left, right = (re.escape("".join(sorted(it))) for it in (self.left, self.right))
            alone = f"|[{left}]" if left else ""
            self._pattern = re.compile(rf"[^ \n{left}][^ \n{left}{right}]*[^ \n{right}]?{alone}")
        return [(it.group(), it.start()) for it in self._pattern.finditer(text)]

    def is_token(self, text):
        return [it for it, _ in self.tokens(text)] == [text]

    def add(self, form):
        table = self.leading if isinstance(form.literals[0], Constant) else self.infix
        table[form.constants[0]] = form
        self.forms.setdefault(form.term.name, []).append(form)

    def add_coercion(self, term, low, high):
        made = {(low, high): (term,)}
        for (start, end), path in self.paths.items():
            if end == low:
                made[start, high] = (*path, term)
            if start == high:
                made[low, end] = (term, *path)
        for (start, end), path in self.paths.items():
            for (first, last), other in self.paths.items():
                if end == low and first == high:
                    made[start, last] = (*path, term, *other)
        self.paths.update(made)


class Read(NamedTuple):
    """A part of a formula that is read: its tree, its sort, and the form in which it stands."""

    tree: object
    sort: str
    level: float = MAX
    groups_left: bool = False


class Formula:
    """Reads one math string. What each token stands for is noted in `marks`."""

    def __init__(self, text, at, theory, variables):
        self.theory, self.notations, self.variables = theory, theory.notations, variables
        self.at = at
        self.tokens = self.notations.tokens(text)
        self.place, self.marks = 0, []

    def statement(self):
        """The whole string as a formula of a provable sort."""
        read = self._whole()
        provable = self.theory.provable
        if read.sort in provable:
            return read.tree
        ends = [it for it in provable if (read.sort, it) in self.notations.paths]
        if len(ends) != 1:
            raise self._wrong(f"no one provable sort is reached from {read.sort}")
        return self._coerced(read, ends[0])

    def of_sort(self, sort):
        """The whole string as an expression of this sort."""
        return self._coerced(self._whole(), sort)

    def _whole(self):
        read = self._level(0)
        if self.place < len(self.tokens):
            raise self._wrong(f"{self._peek()!r} can't stand here")
        return read

    def _wrong(self, why):
        place = self.tokens[self.place][1] if self.place < len(self.tokens) else 0
        return Unreadable(self.at + place, why)

    def _peek(self):
        return self.tokens[self.place][0] if self.place < len(self.tokens) else None

    def _take(self, space=None, name=None):
        if self.place == len(self.tokens):
            raise self._wrong("the formula ends too soon")
        token, place = self.tokens[self.place]
        self.place += 1
        if space:
            self.marks.append((self.at + place, self.at + place + len(token), space, name))
        return token

    def _level(self, level):
        read = self._leading(level)
        while self._peek() in self.notations.infix:
            form = self.notations.infix[self._peek()]
            first = form.literals[0]
            takes = read.level >= first.level or read.groups_left and read.level == first.left
            if not takes or form.level < level:
                break
            read = self._form(form, form.literals[1:], {first.index: read})
        return read

    def _leading(self, level):
        token = self._peek()
        if token == "(":
            self._take()
            read = self._level(0)
            if self._take() != ")":
                raise self._wrong("a parenthesis isn't closed")
            return Read(read.tree, read.sort)
        if token in self.variables:
            self._take("variable", token)
            return Read(token, self.variables[token].sort)
        if token in self.notations.leading:
            form = self.notations.leading[token]
        elif token in self.theory.terms:
            form = self._by_name(token)
        else:
            raise self._wrong(f"{token!r} isn't known" if token else "the formula ends too soon")
        if form.level < level:
            raise self._wrong(f"{token!r} wants parentheses here")
        return self._form(form, form.literals, {})

    def _by_name(self, name):
        form = self.notations.plain.get(name)
        if form is None:
            form = self.notations.plain[name] = by_name(self.theory.terms[name], name)
        return form

    def _form(self, form, literals, found):
        for literal in literals:
            if isinstance(literal, Operand):
                found[literal.index] = self._level(literal.level)
            elif self._peek() == literal.text:
                self._take("term", form.term.name)
            else:
                raise self._wrong(f"{literal.text!r} is missing")
        return self._applied(form, found)

    def _applied(self, form, found):
        term = form.term
        operands = []
        for i, parameter in enumerate(term.parameters):
            operands.append(self._coerced(found[i], parameter.sort))
            if parameter.bound and not self._is_bound(operands[-1]):
                raise self._wrong(f"an operand of {term.name} is no bound variable")
        return Read((term.name, *operands), term.sort, form.level, form.groups_left)

    def _is_bound(self, tree):
        return isinstance(tree, str) and self.variables[tree].bound

    def _coerced(self, read, sort):
        if read.sort == sort:
            return read.tree
        if (read.sort, sort) not in self.notations.paths:
            raise self._wrong(f"no coercion leads from {read.sort} to {sort}")
        tree = read.tree
        for term in self.notations.paths[read.sort, sort]:
            tree = (term.name, tree)
        return tree
