"""Writes a Metamath database of a pair that mz accepted.

A sort is a typecode. A bound variable has a typecode of its own where the sort has other expressions too (`setvar` beside
`set`), so that nothing but such a variable stands for it. An expression is written with the specification's notations, an
infix always in parentheses, so that it is read in one way. Two bound variables are always disjoint, and a bound one from
each regular one that doesn't depend on it. Conversions are in conversions.py, proofs in proof_writing.py."""
import re
from dataclasses import dataclass
from itertools import combinations

from explore.notations import Constant
from explore.specification import Notation

from .binaries import Binary, Body, Expressions, Row, Spelling, Variable
from .conversions import Conversions, Frame, in_order, says_definition
from .database_text import DatabaseText, Piece
from .proof_writing import ProofWriter

LONGEST = 1_000_000  # symbols of a formula


class TooLong(ValueError):
    """What no database can hold."""


@dataclass
class Sort:
    """A sort by its typecode, that of its bound variables and that of its proofs; `frame` makes a bound variable an expression."""

    name: str
    bound: str = None
    proved: str = None
    frame: Frame = None


@dataclass
class Term:
    row: Row
    literals: list  # constants and numbers of parameters
    frame: Frame
    definition: Frame = None  # of the axiom for its unfolding
    later: object = None  # what makes the definition's axiom, where it waits for a use


@dataclass
class Said:
    """What a statement says: its expressions, the conclusion or body, and the hypotheses."""

    expressions: Expressions
    what: int
    hypotheses: list
    dummies: list  # names


@dataclass
class Counts:
    terms: int = 0
    axioms: int = 0
    theorems: int = 0
    steps: int = 0
    conversions: int = 0


class Export:
    """`names` gives names for the rows of the binary that the specification doesn't declare: (kind, row) to a name and
    names of variables. With `plain`, a theorem that says a definition, `t left right` by reflexivity of t and one unfolding,
    is written as an axiom as Metamath's databases have it, and the axioms of conversion where something else needs them."""

    def __init__(self, data, declarations, theory, names=None, plain=False):
        self.binary, self.theory, self.local, self.plain = Binary(data), theory, names or {}, plain
        self.public = [it for it in declarations if not isinstance(it, Notation)]
        self.text, self.counts = DatabaseText(), Counts()
        self.sorts, self.terms, self.theorems, self._term_of_name = [], {}, {}, {}
        self.conversions, self._open = Conversions(self), set()
        self._coercions = {it.name for it in declarations if it.kind == "coercion"}
        self._theorem_names = {it.name for it in self.public if it.space == "assertion"}
        self._sort_of_name = {it.name: i for i, it in enumerate(it for it in self.public if it.space == "sort")}
        # Sorts that have other expressions than variables. In others a regular variable is one like a bound one.
        self._wide = {it.result.sort for it in self.binary.terms}
        # Constants of notations come before names of variables.
        notations = theory.notations
        self._reserved = {*notations.leading, *notations.infix, *(x for it in notations.forms.values() for x in it[0].constants)}
        self.text.reserve(self._reserved)

    def run(self):
        """Makes the database's statements, in the order of the binary's."""
        public = iter(self.public)
        make = {"sort": self._sort, "term": self._term, "axiom": self._assertion, "theorem": self._assertion}
        for statement in self.binary.statements():
            make[statement.kind](statement, None if statement.is_local else next(public))
        for number in sorted(self._open):  # definitions that nothing unfolds, and no theorem says
            self.definition(number)
        self.counts.terms = len(self.terms)
        return self

    def bare(self, variable):
        """Whether only a variable can stand for it."""
        return variable.bound or variable.sort not in self._wide

    # What a statement says: of a public one the specification's words, of a local one the binary's

    def _row(self, statement, declared):
        row = (self.binary.terms if statement.kind == "term" else self.binary.theorems)[statement.row]
        if declared is None:
            return row
        parameters, bits = [], {}
        for it in declared.parameters:
            needs = sum(bits[x] for x in set(it.needs))
            if it.bound:
                needs = bits[it.name] = 1 << len(bits)
            parameters.append(Variable(self._sort_of_name[it.sort], it.bound, needs))
        result = None
        if statement.kind == "term":
            result = Variable(self._sort_of_name[declared.sort], False, sum(bits[x] for x in set(declared.needs)))
        return row._replace(parameters=tuple(parameters), result=result)

    def _said(self, statement, declared, row):
        """Dummies stand in the order in which they occur."""
        if declared is None or declared.kind == "def" and declared.body is None:
            made = Spelling(row, self.binary)
            return Said(made.expressions, made.said, made.hypotheses, [])
        expressions = Expressions(row.parameters)
        place = {it.name: i for i, it in enumerate(declared.parameters)}
        dummies = {it.name: it for it in getattr(declared, "dummies", [])}

        def of(tree):
            if not isinstance(tree, str):
                return expressions.apply(self._term_of_name[tree[0]], tuple([of(it) for it in tree[1:]]))
            if tree not in place:
                place[tree] = expressions.variable(Variable(self._sort_of_name[dummies[tree].sort], True, 0))
            return place[tree]

        hypotheses = [] if statement.kind == "term" else [of(it) for _, it in declared.hypotheses]
        what = of(declared.body if statement.kind == "term" else declared.conclusion)
        return Said(expressions, what, hypotheses, [x for x in place if x in dummies])

    def _names(self, statement, declared):
        """A statement's name, its variables' names and its comment; a local one has what a proof text says."""
        if declared is not None:
            return declared.name, [it.name for it in declared.parameters], declared.about
        name, variables = self.local.get(("term" if statement.kind == "term" else "assertion", statement.row), (None, []))
        return name, variables, ""

    # Variables

    def _variable(self, variable, name):
        """The number of a variable of the database for one of a statement, by its wanted name."""
        sort, is_own = self.sorts[variable.sort], variable.bound and variable.sort in self._wide
        if is_own and sort.bound is None:
            sort.bound = self.text.constant(f"{sort.name}var", f"{sort.name}-var")
        return self.text.variable(name, sort.bound if is_own else sort.name)

    def scope(self, variables, names):
        """A variable of the database for each variable of a statement, no two the same. What has no name gets one."""
        made, used = [], set()
        for i, variable in enumerate(variables):
            name = names[i] if i < len(names) and names[i] != "_" else None
            number = self._variable(variable, name) if name else None
            first = self.sorts[variable.sort].name[0]
            first, k = first if variable.bound else first.upper(), 0
            while number is None or number in used or name is None and f"{first}{k}" in names:
                k, name = k + 1, None
                number = self._variable(variable, f"{first}{k}")
            used.add(number)
            made.append(number)
        return made

    def variable_label(self, scope, number):
        return self.text.variables[scope[number]][2]

    def _symbols(self, literals, scope):
        return [it if isinstance(it, str) else self.text.variables[scope[it]][0] for it in literals]

    def coercion(self, number):
        """The frame by which a bound variable is an expression of its sort."""
        sort = self.sorts[number]
        if sort.frame is None:
            variable = self._variable(Variable(number, True, 0), "x")
            sort.frame = Frame(self.text.labels.take(f"{sort.name}-of-{sort.bound}"), [0])
            about = f"A variable of the sort {sort.name} is an expression."
            self.text.pieces.append(Piece(about, sort.frame.label, [sort.name, self.text.variables[variable][0]]))
        return sort.frame

    # Sorts, terms and definitions

    def _sort(self, _, declared):
        made = Sort(self.text.constant(declared.name, declared.name + "-sort"))
        if "provable" in declared.modifiers:
            made.proved = self.text.constant(f"|-{made.name}") if len(self.theory.provable) > 1 else "|-"
        self.sorts.append(made)

    def _term(self, statement, declared):
        row = self._row(statement, declared)
        name, names, about = self._names(statement, declared)
        name = name or f"local{statement.row}"
        if declared is not None:
            self._term_of_name[name] = statement.row
        scope = self.scope(row.parameters, names)
        literals = self._literals(name, row, declared)
        if name in self._theorem_names or name in self.text.labels.used:
            label = self.text.labels.take(None if f"w{name}" in self._theorem_names else f"w{name}", f"syntax-{name}")
        else:
            label = self.text.labels.take(name)
        term = self.terms[statement.row] = Term(row, literals, Frame(label, in_order(range(len(row.parameters)), scope)))
        about = about or f"Syntax of {name}, {'a definition' if row.stream else 'a term'}."
        self.text.pieces.append(Piece(about, label, [self.sorts[row.result.sort].name, *self._symbols(literals, scope)]))
        if row.stream:
            term.later = lambda: self._definition(statement, name, names, declared)
            if not self.plain:
                self.definition(statement.row)
            elif declared is not None:
                self._open.add(statement.row)

    def _literals(self, name, row, declared):
        """How a term is written: as in its first notation, or by its name before its operands."""
        if name in self._coercions:
            return [0]
        forms = self.theory.notations.forms.get(name) if declared else None
        if not forms:
            return [self.text.constant(None if name in self._reserved else name, f"{name}-term"), *range(len(row.parameters))]
        literals = [it.text if isinstance(it, Constant) else it.index for it in forms[0].literals]
        self.text.constants += dict.fromkeys(it for it in literals if isinstance(it, str) and it not in self.text.constants)
        return ["(", *literals, ")"] if isinstance(literals[0], int) and len(literals) > 1 else literals

    def definition(self, number):
        """The frame of the axiom that a definition is its body."""
        term = self.terms[number]
        if term.later:
            term.later, make = None, term.later
            make()
        return term.definition

    def _definition(self, statement, name, names, declared):
        """No variable of what stands for a parameter is a dummy."""
        term = self.terms[statement.row]
        said, count = self._said(statement, declared, term.row), len(term.row.parameters)
        variables = said.expressions.variables
        scope = self.scope(variables, [*[*names, *["_"] * count][:count], *(said.dummies or names[count:])])
        whole = said.expressions.apply(statement.row, tuple(range(count)))
        about = f"Definition of {name}."
        if declared is not None and declared.body is None:
            about += "  The specification leaves it open; this is the one that was given with the proofs."
        symbols = self.conversions.says(said.expressions, scope, whole, said.what, term.row.result.sort)
        term.definition = Frame(self.text.labels.take(f"df-{name}"), in_order(range(len(variables)), scope))
        apart = self._groups([(d, i) for d in range(count, len(variables)) for i in range(d)], scope)
        self.text.pieces.append(Piece(about, term.definition.label, symbols, distinct=apart))

    # Axioms and theorems

    def _assertion(self, statement, declared):
        row = self._row(statement, declared)
        name, names, about = self._names(statement, declared)
        said = self._said(statement, declared, row)
        body = None if statement.kind == "axiom" else Body(self.binary, statement, row.parameters)
        defined = says_definition(body, name or "") if self.plain and body else None
        is_axiom = body is None or defined is not None
        label = self._label(name or f"local-{statement.row}", is_axiom, defined)
        variables = body.expressions.variables if body else row.parameters
        scope = self.scope(variables, names)
        titles = [f"{label}.{i}" for i in range(1, len(said.hypotheses) + 1)]
        stated = said.expressions.used([said.what, *said.hypotheses])
        frame = Frame(label, in_order(stated, scope), row.parameters)
        formula = lambda it: [self.sorts[self.sort_of(said.expressions, it)].proved, *self.written(said.expressions, scope, it)]
        about = about or ("Axiom." if is_axiom else "Theorem.") if declared else (
            f"A lemma that the specification doesn't have, theorem {statement.row} of the binary.")
        piece = Piece(about, label, formula(said.what), list(zip(titles, map(formula, said.hypotheses))))
        self._open.discard(defined)
        if is_axiom:
            self.counts.axioms += 1
        else:
            self.counts.theorems += 1
            writer = ProofWriter(self, body, scope, titles)
            piece.proof = writer.proof(frame)
            stated |= writer.used
        piece.distinct = self._groups(self._apart(variables, stated), scope)
        self.theorems[statement.row] = frame
        self.text.pieces.append(piece)

    def _label(self, name, is_axiom, defined):
        """As in Metamath's databases: `ax-1` for ax_1, `df-ss` for df_ss, `2p2e4` for _2p2e4."""
        wanted = re.sub("^(ax|df)_", r"\1-", name) if is_axiom else name
        if defined is not None and wanted.startswith("local-"):
            wanted = f"df-{self.terms[defined].frame.label}"
        return self.text.labels.take(re.sub(r"^_(?=\d)", "", wanted), name, f"{name}-theorem")

    @staticmethod
    def _apart(variables, used):
        """The pairs of used variables that no instance may connect."""
        made, bits = [], {i: k for k, i in enumerate(i for i, it in enumerate(variables) if it.bound)}
        for i, bit in bits.items():
            for j, it in enumerate(variables):
                is_apart = j < i if it.bound else not it.needs >> bit & 1
                if is_apart and i in used and j in used:
                    made.append((i, j))
        return made

    def _groups(self, pairs, scope):
        """Groups of variables of which each two are disjoint."""
        made, rest, around = [], {frozenset(it) for it in pairs}, {}
        for a, b in pairs:
            around.setdefault(a, set()).add(b)
            around.setdefault(b, set()).add(a)
        for a, b in pairs:
            if frozenset((a, b)) in rest:
                group = [a, b]
                for c in sorted(around[a] & around[b]):
                    if all(c in around[it] for it in group):
                        group.append(c)
                rest -= set(map(frozenset, combinations(group, 2)))
                made.append(self._symbols(in_order(group, scope), scope))
        return made

    # Formulas

    def sort_of(self, expressions, number):
        head = expressions.heads[number]
        return expressions.variables[head].sort if expressions.is_variable[number] else self.terms[head].row.result.sort

    def written(self, expressions, scope, number):
        """An expression in symbols."""
        made, open_ = [], [number]
        while open_:
            it = open_.pop()
            if isinstance(it, str):
                made.append(it)
            elif expressions.is_variable[it]:
                made.append(self.text.variables[scope[expressions.heads[it]]][0])
            else:
                operands = expressions.operands[it]
                open_ += [x if isinstance(x, str) else operands[x] for x in reversed(self.terms[expressions.heads[it]].literals)]
            if len(made) > LONGEST:
                raise TooLong(f"a formula has more than {LONGEST:,} symbols, and Metamath writes each out")
        return made
