"""Reads a specification (.mm0): what it declares, in order, and its notations."""
from .formulas import MAX, Formula, Notations
from .lexemes import Lexer
from .logic import Assertion, Sort, Term, Var
from .places import Wrong

MODIFIERS = ("pure", "strict", "provable", "free")


class Theory:
    """What is declared so far, by name. `state` is another number wherever something else can be written."""

    def __init__(self):
        self.sorts, self.terms, self.assertions = {}, {}, {}
        self.notations = Notations()
        self.places = {}  # what is declared: its place
        self.state = 0

    def turned(self, text):
        """Notes that a text changes what can be written."""
        self.state = hash((self.state, text))

    def meanings(self, words):
        """All that the reading of a text with these words rests on."""
        notations = self.notations
        spaces = self.sorts, self.terms, notations.leading, notations.infix
        meant = {word: tuple(space.get(word) for space in spaces) for word in words}
        provable = [it.name for it in self.sorts.values() if "provable" in it.modifiers]
        return meant, frozenset(notations.left), frozenset(notations.right), dict(notations.coercions), provable

    def space(self, it):
        return {Sort: self.sorts, Term: self.terms, Assertion: self.assertions}[type(it)]

    def add(self, it, place):
        space = self.space(it)
        if it.name in space:
            raise Wrong(f"the {space[it.name].kind} {it.name} is declared already", place)
        if isinstance(it, Term):
            it.rank = len(space)
        space[it.name] = it
        self.places[it] = place


class Reader:
    """Reads declarations."""

    def __init__(self, source, theory):
        self.lexer, self.theory = Lexer(source), theory
        self.tokens = set()  # those of the formulas that are read

    def specification(self):
        """The declarations, one after the other; each is known to the theory when it is given."""
        odd = self.lexer.source.odd()
        if odd:
            raise odd
        while not self.lexer.is_kind("end"):
            place = self.lexer.place()
            made = self.statement()
            if made:
                self.theory.add(made, place)
                yield made

    def statement(self):
        lexer, place = self.lexer, self.lexer.place()
        word = lexer.take("name")
        if word in ("sort", *MODIFIERS):
            return self.sort(word)
        if word == "term":
            return self.term()
        if word in ("axiom", "theorem"):
            return self.assertion(word)
        if word == "def":
            return self.definition()
        notation = {"delimiter": self.delimiter, "notation": self.notation, "coercion": self.coercion,
                    "infixl": self.operator, "infixr": self.operator, "prefix": self.operator}
        if word not in notation:
            raise Wrong(f"no statement begins with '{word}'", place)
        notation[word](word)
        lexer.want(";")
        return None

    def sort(self, word):
        modifiers = []
        while word != "sort":
            modifiers.append(word)
            word = self.lexer.take("name")
        made = Sort(self.lexer.take("name"), modifiers)
        self.lexer.want(";")
        return made

    def known(self, space, what):
        place = self.lexer.place()
        name = self.lexer.take("name")
        if name not in space:
            raise Wrong(f"there is no {what} {name}", place)
        return space[name]

    def type(self, variables):
        """A sort, and the variables on which the thing may depend."""
        sort, needs = self.known(self.theory.sorts, "sort").name, []
        while self.lexer.is_kind("name"):
            needs.append(self.known(variables, "variable"))
        return sort, needs

    def groups(self):
        """The binders, dummies and named hypotheses in parentheses and braces."""
        lexer, binders, dummies, hypotheses, variables = self.lexer, [], [], [], {}
        while lexer.is_next("{") or lexer.is_next("("):
            bound = lexer.skip("{")
            if not bound:
                lexer.want("(")
            names = []
            while not lexer.is_next(":"):
                dot = lexer.skip(".")
                names.append((lexer.take("name"), dot))
            lexer.want(":")
            if lexer.is_kind("math"):
                math = lexer.math()
                hypotheses += [(name, self.formula(math, variables)) for name, _ in names]
            else:
                sort, needs = self.type(variables)
                for name, dot in names:
                    made = Var(name, sort, bound or dot, needs)
                    (dummies if dot else binders).append(made)
                    if name != "_":
                        variables[name] = made
            lexer.want("}" if bound else ")")
        return binders, dummies, hypotheses, variables

    def formula(self, math, variables, sort=None):
        made = Formula(math, self.theory, variables)
        self.tokens.update(token for token, _ in made.tokens)
        return made.whole(sort)

    def term(self):
        name = self.lexer.take("name")
        binders, _, _, variables = self.groups()
        self.lexer.want(":")
        sort, needs = self.type(variables)
        while self.lexer.skip(">"):
            binders.append(Var("_", sort, False, needs))
            sort, needs = self.type(variables)
        self.lexer.want(";")
        return Term(name, binders, sort, needs)

    def assertion(self, kind, is_local=False):
        """An assertion up to its conclusion, and of the specification up to its end."""
        name = self.lexer.take("name")
        binders, dummies, hypotheses, variables = self.groups()
        variables = {name: it for name, it in variables.items() if it not in dummies}
        self.lexer.want(":")
        conclusion = None
        while conclusion is None:
            if not self.lexer.is_kind("math"):
                sort, needs = self.type(variables)
                binders.append(Var("_", sort, False, needs))
                self.lexer.want(">")
                continue
            conclusion = self.formula(self.lexer.math(), variables)
            if self.lexer.skip(">"):
                hypotheses.append(("_", conclusion))
                conclusion = None
        if not is_local:
            self.lexer.want(";")
        return Assertion(kind, name, binders, named(hypotheses), conclusion, dummies, is_local)

    def definition(self, is_local=False):
        name = self.lexer.take("name")
        binders, dummies, _, variables = self.groups()
        self.lexer.want(":")
        sort, needs = self.type(variables)
        body = None
        if is_local and not self.lexer.is_next("="):
            raise self.lexer.unexpected("'=' and the body")
        if self.lexer.skip("="):
            body = self.formula(self.lexer.math(), variables, sort)
        self.lexer.want(";")
        return Term(name, binders, sort, needs, dummies, body, True, is_local)

    def delimiter(self, _):
        first = self.lexer.take("math").split()
        second = self.lexer.take("math").split() if self.lexer.is_kind("math") else first
        self.theory.notations.note("delimit", first, second)

    def prec(self):
        return MAX if self.lexer.skip("max") else int(self.lexer.take("number"))

    def operator(self, word):
        term = self.known(self.theory.terms, "term")
        self.lexer.want(":")
        constant = self.lexer.take("math").strip()
        self.lexer.want("prec")
        level = self.prec()
        if word != "prefix" and len(term.binders) != 2:
            raise Wrong(f"{term.name} hasn't two parameters", self.lexer.place())
        if word == "prefix":
            self.theory.notations.note("lead", constant, (level, term, list(range(len(term.binders)))))
        else:
            self.theory.notations.note("join", constant, (level, term, word == "infixl", 0, [1]))

    def notation(self, _):
        term = self.known(self.theory.terms, "term")
        names = [it.name for it in self.groups()[0]]
        self.lexer.want(":")
        self.lexer.take("name")
        while self.lexer.is_kind("name"):
            self.lexer.take("name")
        self.lexer.want("=")
        literals = []
        while not self.lexer.is_next(";") and not self.lexer.is_next(":"):
            if self.lexer.skip("("):
                constant = self.lexer.take("math").strip()
                self.lexer.want(":")
                literals.append((constant, self.prec()))
                self.lexer.want(")")
            else:
                place, name = self.lexer.place(), self.lexer.take("name")
                if name not in names:
                    raise Wrong(f"there is no parameter {name}", place)
                literals.append(names.index(name))
        self.want_form(literals, names)
        if self.lexer.skip(":"):
            level, side = self.prec(), self.lexer.take("name")
            self.theory.notations.note("join", literals[1][0], (level, term, side == "lassoc", literals[0], literals[2:]))
        else:
            constant, level = literals[0]
            self.theory.notations.note("lead", constant, (level, term, literals[1:]))

    def want_form(self, literals, names):
        """Each parameter once, and a constant where one has to stand: at the first place, or behind it."""
        numbers = sorted(it for it in literals if isinstance(it, int))
        first = literals[1:2] if self.lexer.is_next(":") else literals[:1]
        if numbers != list(range(len(names))) or not first or isinstance(first[0], int):
            raise Wrong("this makes no notation: each parameter stands in it once, and a constant at its head", self.lexer.place())

    def coercion(self, _):
        term = self.known(self.theory.terms, "term")
        self.lexer.want(":")
        low = self.lexer.take("name")
        self.lexer.want(">")
        self.theory.notations.note("add_coercion", term, low, self.lexer.take("name"))


def named(hypotheses):
    """The hypotheses with names for those that have none: h, or h1, h2 and so on where there are several."""
    if [name for name, _ in hypotheses] == ["_"]:
        return [("h", hypotheses[0][1])]
    numbers = iter(range(1, len(hypotheses) + 1))
    return [(f"h{next(numbers)}" if name == "_" else name, e) for name, e in hypotheses]
