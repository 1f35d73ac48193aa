"""Axioms and theorems of a database as trees over the places of their variables.

A regular variable depends on those bound ones from which no `$d` keeps it apart. In an axiom a variable of a pure sort that
nothing binds is a regular one, so that two of them may be one."""
from .expressions import Untranslatable, compiled

MAX_BOUND = 55


class Statement:
    """A logical assertion. Patterns are formulas as the grammar reads them, over the places of its `$f`."""

    __slots__ = ("number", "floats", "sorts", "order", "labels", "essentials", "bound", "regular", "needs", "hypotheses", "syntax",
                 "conclusion", "rows", "size", "width", "shuffle", "steps", "root", "parts", "plain_row")

    def __init__(self, number, floats, sorts, order):
        self.number, self.floats, self.sorts, self.order = number, floats, sorts, order
        self.bound, self.regular, self.needs = [], [], []  # places; per regular one the bound ones on which it depends, as bits
        self.labels, self.essentials = [], []  # labels of its hypotheses, and of those that are proved
        self.hypotheses, self.conclusion = [], None
        self.syntax = {}  # hypotheses that say of a variable that it is an expression: label and pattern
        self.rows = {}  # the rows of its copies, by which bound variables are one
        self.size = self.width = None

    def prepare(self, arity):
        """What a proof that cites it needs. Registers: 0, then what it takes from the stack, variables first; then the results
        of the steps that build its conclusion."""
        size = len(self.floats)
        self.size = size + 1  # the register behind the variables
        self.width, self.shuffle, self.parts = size + len(self.labels), None, None
        if self.order:
            at = {it: i + 1 for i, it in enumerate(self.order)}
            self.shuffle = [0, *(at["f", i] for i in range(size)), *(at["e", label] for label in self.labels)]
        if self.syntax:
            self.parts = [size + 1 + i for i, label in enumerate(self.labels) if label not in self.syntax]
        # Where nothing is bound, and all hypotheses are proved, there is one row.
        self.plain_row = None if self.bound or self.syntax else self.rows.get(())
        made = compiled(self.conclusion, arity, self.width)
        self.steps, self.root = made or (None, None)


class Statements:
    """The statements of a database, each read when it is asked for."""

    def __init__(self, database, syntax):
        self.database, self.syntax = database, syntax
        self._statements, self._syntax, self._patterns = {}, {}, {}

    def of(self, number):
        made = self._statements.get(number)
        if made is None:
            made = self._statements[number] = self._statement(number)
        return made

    def syntax_of(self, number):
        """What a syntax axiom or proved syntax says, over its floats in the order of its frame."""
        made = self._syntax.get(number)
        if made is None:
            it, frame = self.database.assertions[number], self.database.frame(number)
            if frame.essentials:
                raise Untranslatable("it cites proved syntax with hypotheses")
            made = self._syntax[number] = self._read(it.at, {f: i for i, f in enumerate(frame.floats)}, it.code)
        return made

    def formula(self, number, at):
        """A formula of an assertion, over the places of its `$f`."""
        return self._read(at, {f: i for i, f in enumerate(self.database.frame(number).floats)}, self.syntax.formulas)

    def _read(self, at, places, code, is_careful=False):
        """The formula at a part, over these places. Formulas of one text are read once."""
        text = self.database.said(at)
        pattern = self._patterns.get(text)
        if pattern is None or is_careful or any(it >= 0 and it not in places for it in pattern):
            floats = self.database.floats
            variables = {floats[f].variable: (floats[f].code, f) for f in places}
            grammar = self.syntax.grammar
            symbols = self.database.symbols(at)
            pattern = (grammar.read_all if is_careful else grammar.read)(code, symbols[1:], variables)
            self._patterns[text] = pattern
        return [it if it < 0 else places[it] for it in pattern]

    def _statement(self, number):
        database, syntax = self.database, self.syntax
        assertion, frame = database.assertions[number], database.frame(number)
        floats = frame.floats
        places = {f: i for i, f in enumerate(floats)}
        labels = database.essentials
        order = frame.order and [(kind, places[it] if kind == "f" else labels[it].label) for kind, it in frame.order]
        made = Statement(number, floats, [syntax.sort_of[database.floats[it].code] for it in floats], order)
        for essential in frame.essentials:
            label, at = labels[essential]
            made.labels.append(label)
            code = database.symbols(at)[0]
            if code == syntax.proved:
                made.essentials.append(label)
                made.hypotheses.append(self._read(at, places, syntax.formulas, assertion.is_axiom))
            elif self._is_typing(database.symbols(at)):
                made.syntax[label] = self._read(at, places, code)
            else:
                raise Untranslatable(f"a hypothesis that says {' '.join(database.symbols(at))}")
        if assertion.is_axiom:
            made.conclusion = self._read(assertion.at, places, syntax.formulas, True)
        self._dependencies(made, frame, assertion.is_axiom)
        return made

    def _is_typing(self, symbols):
        """Whether a hypothesis says of a variable what its typecode says already."""
        return len(symbols) == 2 and any(it.variable == symbols[1] and it.code == symbols[0] for it in self.database.floats)

    def conclusion_of(self, made):
        """The conclusion of a statement. That of a theorem is the one that its proof made; it is read where there was none."""
        if made.conclusion is None:
            places = {f: i for i, f in enumerate(made.floats)}
            made.conclusion = self._read(self.database.assertions[made.number].at, places, self.syntax.formulas)
        return made.conclusion

    def _dependencies(self, made, frame, is_axiom):
        """Which variables are bound, and on which of them the others depend."""
        sorts, floats = self.syntax.sorts, self.database.floats
        bound = [i for i, s in enumerate(made.sorts) if sorts[s].bound]
        if len(bound) > MAX_BOUND:
            raise Untranslatable(f"more than {MAX_BOUND} bound variables")
        variable = [floats[it].variable for it in made.floats]
        if is_axiom and bound:
            loose = self._loose(bound, [*made.hypotheses, made.conclusion], variable, frame)
            bound = [i for i in bound if i not in loose]
        made.bound, made.regular = bound, [i for i in range(len(made.sorts)) if i not in bound]
        everything = (1 << len(bound)) - 1
        if not frame.groups or not bound:
            made.needs = [everything] * len(made.regular)
            return
        for r in made.regular:
            apart = frame.apart(variable[r])
            made.needs.append(sum(1 << k for k, b in enumerate(bound) if variable[b] not in apart))

    def _loose(self, bound, formulas, variable, frame):
        """Variables of a pure sort that can be regular in an axiom: nothing binds them, and the database keeps them apart from
        none but bound ones."""
        made = set(bound)
        for pattern in formulas:
            stack = []
            for it in pattern:
                if it >= 0:
                    stack.append(it)
                    continue
                kinds = self.syntax.terms[~it].kinds
                start = len(stack) - len(kinds)
                made -= {x for x, (_, is_bound) in zip(stack[start:], kinds) if is_bound}
                stack[start:] = [None]
        apart = [frame.apart(it) for it in variable]
        while True:
            near = {x for x in made for y in range(len(variable))
                    if variable[y] in apart[x] and (y in made or y not in bound)}
            if not near:
                return made
            made -= near
