"""Translates a Metamath database, whole or what chosen theorems need, into a specification and a binary."""
from dataclasses import dataclass, field

from .building import Building, Variable
from .databases import Faulty
from .definitions import Definitions, needs
from .expressions import CitesWhatIsLeftOut, Expressions
from .outputs import Output
from .statements import Statements
from .syntax import Syntax
from .writing import Names


@dataclass
class Options:
    definitions: bool = True  # else axioms
    notations: bool = True
    text: bool = False
    proved: str = "|-"  # the typecode of what is proved
    formulas: str = "wff"  # and that of formulas


@dataclass
class Counts:
    theorems: int = 0
    copies: int = 0
    axioms: int = 0
    axiom_copies: int = 0
    fillers: int = 0
    steps: int = 0
    skipped: dict = field(default_factory=dict)  # the number of what is left out: why


class Import:
    def __init__(self, database, targets=None, options=Options()):
        self.database, self.targets, self.options = database, targets, options
        self.counts = Counts()
        self.syntax = Syntax(database, options.proved, options.formulas, options.notations)
        self.statements = Statements(database, self.syntax)
        numbers = self._numbers(targets)
        self.last = len(database.assertions)
        self.chosen = None  # the numbers of all assertions that the targets need
        if targets is not None:
            needed = needs(database, numbers)
            self.last = max(needed) + 1
        self.definitions = Definitions(database, self.syntax, self.statements, self.last if options.definitions else 0)
        if targets is not None:
            # Also what proves definitions; what isn't needed in the end isn't written.
            self.chosen = needed | needs(database, self.definitions.reflexive.values())
        self.filling = [None] * len(self.syntax.sorts)  # of each sort a term of which a closed expression can be made
        self.ready = {}  # what labels of proofs do, where it is the same in each
        self.output = Output(self)

    def _numbers(self, targets):
        database, made = self.database, []
        for label in targets or ():
            kind, number = database.labels.get(label, ("", 0))
            if kind != "a" or database.assertions[number].code != self.syntax.proved:
                raise Faulty(f"{database.path}: there is no theorem {label} in it")
            made.append(number)
        return made

    def run(self, progress=None):
        database, proved = self.database, self.syntax.proved
        if self.chosen is None and self.options.notations:
            self.output.find_operators()
        for number in range(self.last):
            if progress and not number & 15:
                progress(number, self.last)
            if self.chosen is not None and number not in self.chosen:
                continue
            it = database.assertions[number]
            if it.code == proved:
                self._assertion(number, it.is_axiom)
            elif it.is_axiom:
                self._term(self.syntax.term_of[number])
        if self.chosen is None:
            for number in range(len(self.syntax.terms)):
                if not self.output.operators.parts(number):
                    self.output.term(number)
        self._look_at_skipped()
        self.output.finish()
        return self

    def _term(self, number):
        if self.chosen is None and not self.options.definitions:
            self.output.term(number)
        it = self.syntax.terms[number]
        sorts = self.syntax.sorts
        if self.filling[it.sort] is None and all(sorts[s].bound or self.filling[s] is not None for s, _ in it.kinds):
            self.filling[it.sort] = number

    def _assertion(self, number, is_axiom):
        try:
            if is_axiom and self.options.definitions:
                found = self.definitions.find(number)
                if found:
                    self._define(number, found)
            parts = tuple(range(len(self.statements.of(number).bound)))
        except ValueError as fault:
            self.counts.skipped[number] = fault
            return
        if parts not in self.statements.of(number).rows:
            self._translate(number, parts)

    def _look_at_skipped(self):
        """Fails where a chosen theorem is left out, or everything is."""
        skipped, database = self.counts.skipped, self.database
        chosen = [number for number in self._numbers(self.targets) if number in skipped]
        if not chosen and (self.output.assigned or not skipped):
            return
        number = (chosen or list(skipped))[0]
        it, fault = database.assertions[number], skipped[number]
        while isinstance(fault, CitesWhatIsLeftOut):
            number, fault = fault.number, skipped[fault.number]
        why = fault if database.assertions[number] is it else f"it rests on {database.assertions[number].label}: {fault}"
        raise database.fault(it.at, f"{it.label} isn't translated: {why}")

    def _define(self, number, found):
        """Declares the definition that an axiom is."""
        syntax, statement, expressions = self.syntax, self.statements.of(number), found.expressions
        term, operands = ~expressions.head(found.left), expressions.operands(found.left)
        it = syntax.terms[term]
        it.result_needs, it.needs = found.places
        variables, heads = expressions.spread(found.body)
        dummies = [x for x in variables if x not in operands]
        names, own = Names(syntax.taken, *(x[2] for x in it.parameters)), Expressions(syntax.arity)
        dummy_names = [names.take(syntax.base_name(statement.floats[y])) for y in dummies]
        made = {place: own.variable(i) for i, place in enumerate((*operands, *dummies))}
        variables = [Variable(s, b, statement.floats[o], n) for (s, b), o, n in zip(it.kinds, operands, it.needs)]
        variables += [Variable(statement.sorts[y], True, statement.floats[y]) for y in dummies]
        for head in heads:
            self.output.term(~head)
        self.output.definition(term, number, own, variables, dummy_names, expressions.replaced(found.body, own, made))

    # Rows

    def row(self, number, parts):
        """The row of an assertion, or of a copy of it; it is translated where it wasn't yet."""
        rows = self.statements.of(number).rows
        if parts not in rows:
            self._translate(number, parts)
        if rows[parts] is None:
            raise CitesWhatIsLeftOut(number, self.database.assertions[number].label)
        return rows[parts]

    def _translate(self, number, parts):
        rows = self.statements.of(number).rows
        try:
            rows[parts] = self.output.assertion(Building(self, number, parts).prove())
        except ValueError as fault:
            rows[parts] = None
            self.counts.skipped[number] = fault

    # What labels of proofs do

    def entry(self, number, building):
        """What the label of an assertion does in the proof of this building: a statement is cited; a tuple builds an expression
        of what lies on the stack (its head, how many operands, and where they lie), and so does a function."""
        it = self.database.assertions[number]
        if it.code == self.syntax.proved:
            made = self.statements.of(number)
            self.statements.conclusion_of(made)
            made.prepare(self.syntax.arity)
            self.ready[it.label] = made
            return made
        pattern, size = self.statements.syntax_of(number), len(self.database.frame(number).floats)
        building.heads.update(x for x in pattern if x < 0)
        if len(pattern) == size + 1 <= 4 and pattern[-1] < 0 and all(x >= 0 for x in pattern[:-1]):
            made = (pattern[-1], size, *(x - size for x in pattern[:-1]), *(0,) * (3 - size))
            self.ready[it.label] = made
            return made

        def build(stack):
            start = len(stack) - size
            given = stack[start:]
            del stack[start:]
            return building.expressions.instance(pattern, given)
        return build
