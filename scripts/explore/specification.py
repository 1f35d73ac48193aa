"""Reads a specification: its declarations, with the place of each and of each name in it, and its notations."""
from dataclasses import dataclass, field
from typing import Optional

from . import notations
from .lexemes import Lexer, Unreadable, comment_above
from .notations import MAX, Formula, Notations

MODIFIERS = ("pure", "strict", "provable", "free")
SPACES = {"sort": "sort", "term": "term", "def": "term", "axiom": "assertion", "theorem": "assertion"}


@dataclass
class Variable:
    """A parameter or a dummy of a statement."""

    name: str
    sort: str
    bound: bool = False
    needs: tuple = ()  # the names of the variables on which it may depend
    at: int = -1
    is_dummy: bool = False


@dataclass
class Declaration:
    """One statement of a specification. A mark is (start, end, space, name) for a name that stands in it; of a variable,
    which space "variable" has, the place where it is declared stands in `variables`."""

    kind: str
    name: str
    at: int
    name_at: int
    end: int = 0
    about: str = ""
    marks: list = field(default_factory=list)
    variables: dict = field(default_factory=dict)

    @property
    def space(self):
        return SPACES.get(self.kind)

    def forget(self):
        """Drops what its page as a text alone needs. In a large specification that is most of what is known of it."""
        self.marks, self.variables = [], {}


@dataclass
class Sort(Declaration):
    modifiers: tuple = ()


@dataclass
class Term(Declaration):
    """A term or a definition."""

    parameters: list = field(default_factory=list)
    sort: str = ""
    needs: tuple = ()
    dummies: list = field(default_factory=list)
    body: object = None
    is_local: bool = False


@dataclass
class Assertion(Declaration):
    """An axiom or a theorem. A hypothesis is its name, or nothing, and its formula."""

    parameters: list = field(default_factory=list)
    hypotheses: list = field(default_factory=list)
    conclusion: object = None
    is_local: bool = False

    def forget(self):
        super().forget()
        self.hypotheses, self.conclusion = [(name, None) for name, _ in self.hypotheses], None


@dataclass
class Notation(Declaration):
    """A statement that says how something is written; its name is that of its term, or empty."""

    text: str = ""


class Theory:
    """What is declared so far, by name."""

    def __init__(self):
        self.sorts, self.terms, self.assertions = {}, {}, {}
        self.notations = Notations()

    @property
    def provable(self):
        return [it.name for it in self.sorts.values() if "provable" in it.modifiers]

    def space(self, name):
        return {"sort": self.sorts, "term": self.terms, "assertion": self.assertions}[name]

    def add(self, it):
        if it.space:
            self.space(it.space).setdefault(it.name, it)


@dataclass
class _Groups:
    """What the groups in braces and parentheses declare."""

    parameters: list = field(default_factory=list)
    dummies: list = field(default_factory=list)
    hypotheses: list = field(default_factory=list)


class Reader:
    """Reads declarations one by one. Where it is to go on, `faults` has what couldn't be read: a formula that can't be is
    none, and of a statement that can't be the marks so far stand in `unread`."""

    def __init__(self, text, goes_on=False):
        self.text, self.lexer, self.goes_on = text, Lexer(text), goes_on
        self.theory = Theory()
        self.faults, self.unread = [], []

    def read(self):
        """The statements in their order; each is known to the theory when it is given."""
        while self.lexer.next.kind != "end":
            try:
                made = self._statement()
            except Unreadable as fault:
                if not self.goes_on:
                    raise
                self.faults.append(fault)
                self.unread.append((self.marks, self.variables))
                self.lexer.leave_statement()
                continue
            self.theory.add(made)
            yield made

    def _statement(self):
        self.marks, self.variables = [], {}
        start = self.lexer.next.at
        word = self.lexer.take("name").text
        if word in ("sort", *MODIFIERS):
            made = self._sort(word, start)
        elif word in self._KINDS:
            made = self._KINDS[word](self, word, start)
        else:
            raise Unreadable(start, f"no statement begins with {word!r}")
        self.lexer.want(";")
        made.end = self.lexer.last.end
        made.about = comment_above(self.text, start)
        if isinstance(made, Notation):
            made.text = " ".join(self.text[start : made.end].split())
        made.marks, made.variables = sorted(self.marks, key=lambda it: it[:2]), self.variables
        return made

    def _declared(self, space):
        """The name that a statement declares, marked."""
        name = self.lexer.take("name")
        self._mark(name, space)
        return name

    def _mark(self, lexeme, space):
        self.marks.append((lexeme.at, lexeme.end, space, lexeme.text))

    def _known(self, space):
        """A name of something that is declared before."""
        name = self.lexer.take("name")
        if name.text not in self.theory.space(space):
            raise Unreadable(name.at, f"there is no {space} {name.text}")
        self._mark(name, space)
        return name.text

    def _sort(self, word, start):
        modifiers = []
        while word != "sort":
            modifiers.append(word)
            word = self.lexer.take("name").text
        name = self._declared("sort")
        return Sort("sort", name.text, start, name.at, modifiers=tuple(modifiers))

    def _type(self):
        """A sort, and the names of the variables on which the thing may depend."""
        sort, needs = self._known("sort"), []
        while self.lexer.next.kind == "name":
            name = self.lexer.take("name")
            self._mark(name, "variable")
            needs.append(name.text)
        return sort, tuple(needs)

    def _groups(self):
        made = _Groups()
        while self.lexer.is_next("{") or self.lexer.is_next("("):
            bound = self.lexer.skip("{")
            if not bound:
                self.lexer.want("(")
            names = []
            while not self.lexer.is_next(":"):
                dot = self.lexer.skip(".")
                names.append((self.lexer.take("name"), dot))
            self.lexer.want(":")
            if self.lexer.next.kind == "math":
                formula = self._formula()
                made.hypotheses += [(name.text, formula) for name, _ in names]
            else:
                self._bind(made, names, bound, *self._type())
            self.lexer.want("}" if bound else ")")
        return made

    def _bind(self, made, names, bound, sort, needs):
        for name, dot in names:
            variable = Variable(name.text, sort, bound or dot, needs, name.at, dot)
            (made.dummies if dot else made.parameters).append(variable)
            if name.text != "_":
                self.variables[name.text] = variable
                self._mark(name, "variable")

    def _formula(self, sort=None):
        lexeme = self.lexer.take("math")
        formula = Formula(lexeme.text[1:-1], lexeme.at + 1, self.theory, self.variables)
        try:
            return formula.of_sort(sort) if sort else formula.statement()
        except Unreadable as fault:
            if not self.goes_on:
                raise
            self.faults.append(fault)
            return None
        finally:
            self.marks += formula.marks

    def _term(self, word, start):
        name = self._declared("term")
        made = self._groups()
        self.lexer.want(":")
        sort, needs = self._type()
        while self.lexer.skip(">"):
            made.parameters.append(Variable("_", sort, False, needs))
            sort, needs = self._type()
        return Term(word, name.text, start, name.at, parameters=made.parameters, sort=sort, needs=needs)

    def _definition(self, word, start):
        name = self._declared("term")
        made = self._groups()
        self.lexer.want(":")
        sort, needs = self._type()
        body = self._formula(sort) if self.lexer.skip("=") else None
        return Term(word, name.text, start, name.at, parameters=made.parameters, sort=sort, needs=needs,
                    dummies=made.dummies, body=body)

    def _assertion(self, word, start):
        name = self._declared("assertion")
        made = self._groups()
        self.lexer.want(":")
        formulas = []
        while not formulas or self.lexer.skip(">"):
            if self.lexer.next.kind == "math":
                formulas.append(self._formula())
            else:
                made.parameters.append(Variable("_", *self._typed()))
        hypotheses = [*made.hypotheses, *((None, it) for it in formulas[:-1])]
        return Assertion(word, name.text, start, name.at, parameters=made.parameters, hypotheses=hypotheses,
                         conclusion=formulas[-1])

    def _typed(self):
        sort, needs = self._type()
        return sort, False, needs

    def _delimiter(self, word, start):
        first = self._characters()
        second = self._characters() if self.lexer.next.kind == "math" else first
        self.theory.notations.delimit(first, second)
        return Notation(word, "", start, start)

    def _characters(self):
        return self.lexer.take("math").text[1:-1].split()

    def _precedence(self):
        return MAX if self.lexer.skip("max") else int(self.lexer.take("number").text)

    def _operator(self, word, start):
        name = self._known("term")
        at = self.lexer.last.at
        self.lexer.want(":")
        constant = self._constant(name)
        self.lexer.want("prec")
        level, term = self._precedence(), self.theory.terms[name]
        if word == "prefix":
            form = notations.prefix(term, constant, level)
        else:
            if len(term.parameters) != 2:
                raise Unreadable(at, f"{name} hasn't two parameters")
            form = notations.infix(term, constant, level, word == "infixl")
        self.theory.notations.add(form)
        return Notation(word, name, start, at)

    def _constant(self, term):
        lexeme = self.lexer.take("math")
        text = lexeme.text[1:-1]
        inner = text.strip(" \n")
        at = lexeme.at + 1 + text.find(inner)
        self.marks.append((at, at + len(inner), "term", term))
        return inner

    def _notation(self, word, start):
        name = self._known("term")
        at = self.lexer.last.at
        names = [it.name for it in self._groups().parameters]
        self.lexer.want(":")
        self._type()
        self.lexer.want("=")
        literals = []
        while not self.lexer.is_next(";") and not self.lexer.is_next(":"):
            literals.append(self._literal(name, names))
        tail = None
        if self.lexer.skip(":"):
            tail = self._precedence(), self.lexer.take("name").text
        is_formed = literals and sorted(it for it in literals if isinstance(it, int)) == list(range(len(names)))
        if not is_formed or isinstance(literals[0], int) != (tail is not None):
            raise Unreadable(start, "the literals don't make a notation")
        if tail and (len(literals) < 2 or isinstance(literals[1], int)):
            raise Unreadable(start, "no constant stands behind the first parameter")
        self.theory.notations.add(notations.general(self.theory.terms[name], literals, tail))
        return Notation(word, name, start, at)

    def _literal(self, term, names):
        """The number of a parameter, or a constant and its precedence."""
        if self.lexer.skip("("):
            constant = self._constant(term)
            self.lexer.want(":")
            level = self._precedence()
            self.lexer.want(")")
            return constant, level
        name = self.lexer.take("name")
        if name.text not in names:
            raise Unreadable(name.at, f"there is no parameter {name.text}")
        self._mark(name, "variable")
        return names.index(name.text)

    def _coercion(self, word, start):
        name = self._known("term")
        at = self.lexer.last.at
        self.lexer.want(":")
        low = self._known("sort")
        self.lexer.want(">")
        self.theory.notations.add_coercion(self.theory.terms[name], low, self._known("sort"))
        return Notation(word, name, start, at)

    _KINDS = {"term": _term, "def": _definition, "axiom": _assertion, "theorem": _assertion, "delimiter": _delimiter,
              "infixl": _operator, "infixr": _operator, "prefix": _operator, "notation": _notation,
              "coercion": _coercion}


def read_specification(text) -> tuple[list, Theory]:
    """All statements of a specification, and what they declare."""
    reader = Reader(text)
    return list(reader.read()), reader.theory


def parameter_list(parameters, dummies=()) -> str:
    """Parameters as a specification writes them, neighbours of one type together."""
    groups: list[tuple[Optional[tuple], list]] = []
    for it in (*parameters, *dummies):
        type_ = (it.bound, it.sort, it.needs)
        if not groups or groups[-1][0] != type_:
            groups.append((type_, []))
        groups[-1][1].append("." + it.name if it.is_dummy else it.name)
    made = []
    for (bound, sort, needs), names in groups:
        inner = f"{' '.join(names)}: {' '.join([sort, *needs])}"
        made.append(f"{{{inner}}}" if bound else f"({inner})")
    return " ".join(made)
