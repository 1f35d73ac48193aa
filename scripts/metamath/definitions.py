"""Which axioms of a database become definitions.

An axiom whose label begins with `df-` and that says of a term that wasn't used before, over different variables, what a
theorem says of an expression: the term becomes a definition, the expression its body, and the axiom a theorem by unfolding.
It says `t left body`, where t is symmetric by a rule of the database and `t a a` is a theorem; or the theorem `..just` right
before says it of the body. All other variables of the body have to be bound and disjoint from all. Without the label
`RR C_ CC` could be a definition of RR, and without the symmetry `( ( ph /\\ ps ) -> ph )` one of the conjunction."""
from dataclasses import dataclass

from .expressions import Expressions
from .statements import MAX_BOUND

LONGEST = 200  # characters of a rule that says of a relation that it is reflexive or symmetric


@dataclass
class Found:
    """An axiom that could be a definition. The expressions stand over the places of its variables."""

    expressions: Expressions
    left: int
    body: int
    theorem: int  # what says of the body what the axiom says of the left side, by number
    operands: tuple  # of the theorem
    places: tuple = None  # the variables that it has free, and those on which each parameter depends


class Definitions:
    def __init__(self, database, syntax, statements, last):
        self.database, self.syntax, self.statements = database, syntax, statements
        self.reflexive = self._find_reflexive(last)  # terms: the theorem that says `t a a`
        self.unfolded = {}  # number of an axiom that is a definition: what was found
        self._last_axioms = {}

    # Which relations serve

    def _find_reflexive(self, last):
        """For each term of two parameters of one sort that is symmetric the first theorem `t a a`, by its symbols."""
        database, shapes = self.database, self._shapes()
        longest, proved = max(map(len, shapes), default=0) + 1, self.syntax.proved
        found, symmetric, variables = {}, set(), database.variables
        for number, it in enumerate(database.assertions[:last]):
            text = database.said(it.at) if it.code == proved else ""
            symbols = text.split()[1:] if len(text) < LONGEST else ()
            if not 0 < len(symbols) < longest:
                continue
            term = shapes.get(tuple("" if x in variables else x for x in symbols))
            if term is None:
                continue
            if self._turns(number, symbols):
                symmetric.add(term)
            if len(variables.intersection(symbols)) == 1 and term not in found:
                frame = database.frame(number)
                sort = self.syntax.sort_of[database.floats[frame.floats[0]].code]
                if not frame.essentials and sort == self.syntax.terms[term].kinds[0][0]:
                    found[term] = number
        return {term: number for term, number in found.items() if term in symmetric}

    def _shapes(self):
        """Terms that make formulas of two expressions of one sort, by their symbols."""
        syntax, variables = self.syntax, self.database.variables
        made = {}
        for term, it in enumerate(syntax.terms):
            if len(it.kinds) == 2 and it.kinds[0] == it.kinds[1] and not it.kinds[0][1] and syntax.sorts[it.sort].provable:
                shape = tuple("" if x in variables else x for x in self.database.frame(it.number).symbols[1:])
                made[shape] = term
        return made

    def _turns(self, number, symbols):
        """Whether an assertion has the one hypothesis `t a b` to its `t b a`."""
        database, frame = self.database, self.database.frame(number)
        names = [x for x in symbols if x in database.variables]
        if len(frame.essentials) != 1 or len(set(names)) != 2:
            return False
        turned = {names[0]: names[1], names[1]: names[0]}
        hypothesis = database.symbols(database.essentials[frame.essentials[0]].at)
        return hypothesis[1:] == [turned.get(x, x) for x in symbols]

    def _last_axiom(self, number):
        """The last axiom on which a theorem rests, by number."""
        made = self._last_axioms.get(number)
        if made is None:
            database = self.database
            made = max((it for it in needs(database, [number]) if database.assertions[it].is_axiom
                        and database.assertions[it].code == self.syntax.proved), default=-1)
            self._last_axioms[number] = made
        return made

    # Axioms

    def find(self, number):
        """What an axiom defines, and notes it; None where it is no definition."""
        label = self.database.assertions[number].label
        if not label.startswith("df-"):
            return None
        it = self.statements.of(number)
        if it.hypotheses or it.syntax:
            return None
        expressions = Expressions(self.syntax.arity)
        places = [expressions.variable(i) for i in range(len(it.floats))]
        whole = expressions.instance(it.conclusion, places)
        for found in (self._by_reflexivity(number, expressions, whole), self._by_justification(number, expressions, whole)):
            if found and self._is_definition(number, it, found):
                self.unfolded[number] = found
                return found
        return None

    def _by_reflexivity(self, number, expressions, whole):
        theorem = self.reflexive.get(~expressions.head(whole))
        if theorem is None or self._last_axiom(theorem) >= number:
            return None
        left, right = expressions.operands(whole)
        return Found(expressions, left, right, theorem, (right,))

    def _by_justification(self, number, expressions, whole):
        """By the theorem right before, if it says the same with one expression in the place of the term."""
        database, far = self.database, 1000
        theorem = next((it for it in range(number - 1, -1, -1) if database.assertions[it].code == self.syntax.proved), None)
        if theorem is None or not database.assertions[theorem].label.endswith("just"):
            return None
        other = self.statements.of(theorem)
        if other.hypotheses or other.bound:
            return None
        conclusion = self.statements.conclusion_of(other)
        places = [expressions.variable(far + i) for i in range(len(other.floats))]
        names, left, body = {}, None, None
        open_ = [(expressions.instance(conclusion, places), whole)]
        while open_:
            mine, its = open_.pop()
            my_head, head = expressions.head(mine), expressions.head(its)
            if head >= 0:
                if my_head < far or names.setdefault(mine, its) != its:
                    return None
            elif my_head == head:
                open_ += zip(expressions.operands(mine), expressions.operands(its))
            elif self.syntax.terms[~head].is_used or left not in (None, its) or body not in (None, mine):
                return None
            else:
                left, body = its, mine
        if left is None or any(it not in names for it in places):
            return None
        body = expressions.replaced(body, expressions, names)
        return Found(expressions, left, body, theorem, tuple(names[it] for it in places))

    def _is_definition(self, number, it, found):
        expressions, floats = found.expressions, self.database.floats
        head, operands = expressions.head(found.left), expressions.operands(found.left)
        if head >= 0 or self.syntax.terms[~head].is_used:
            return False
        if any(expressions.head(x) < 0 for x in operands) or len(set(operands)) != len(operands):
            return False
        variables, heads = expressions.spread(found.body)
        dummies = [x for x in variables if x not in operands]
        frame = self.database.frame(number)
        name = [floats[f].variable for f in it.floats]
        for k, y in enumerate(dummies):
            apart = frame.apart(name[y])
            if not self.syntax.sorts[it.sorts[y]].bound or any(name[x] not in apart for x in (*operands, *dummies[:k])):
                return False
        bound = sum(b for _, b in self.syntax.terms[~head].kinds)
        if head in heads or len(dummies) + bound > MAX_BOUND:
            return False
        found.places = self._free_places(found)
        return found.places is not None

    def _free_places(self, found):
        """The variables that a definition has free, as bits of its bound parameters, and of each parameter those on which it
        depends: not on one that stays free in the body where the parameter has it free, so that the result is closed. None
        where a dummy is free."""
        expressions, body = found.expressions, found.body
        term, operands = self.syntax.terms[~expressions.head(found.left)], expressions.operands(found.left)
        dummies = [x for x in expressions.spread(body)[0] if x not in operands]
        bound = [x for x, (_, is_bound) in zip(operands, term.kinds) if is_bound]
        bits = {x: 1 << k for k, x in enumerate((*bound, *dummies))}
        free = lambda given: self._free(expressions, body, {**bits, **given})
        result = free({})
        if result >> len(bound):
            return None
        needs = [0 if is_bound else sum(1 << k for k in range(len(bound)) if result >> k & 1 or not free({x: 1 << k}) >> k & 1)
                 for x, (_, is_bound) in zip(operands, term.kinds)]
        return result, needs

    def _free(self, expressions, number, known):
        """The free bound variables of an expression as bits; `known`: those of variables, and what was found."""
        if number in known:
            return known[number]
        head, made = expressions.head(number), 0
        if head < 0:
            term, operands = self.syntax.terms[~head], expressions.operands(number)
            bound = [o for o, (_, is_bound) in zip(operands, term.kinds) if is_bound]
            for operand, (_, is_bound), needs in zip(operands, term.kinds, term.needs):
                if not is_bound:
                    part = self._free(expressions, operand, known)
                    for k, b in enumerate(bound):
                        if needs >> k & 1:
                            part &= ~self._free(expressions, b, known)
                    made |= part
            for k, b in enumerate(bound):
                if term.result_needs >> k & 1:
                    made |= self._free(expressions, b, known)
        known[number] = made
        return made


def needs(database, numbers):
    """All assertions on which these rest, they among them."""
    found, open_, assertions, labels = set(), list(numbers), database.assertions, database.labels
    while open_:
        number = open_.pop()
        if number in found:
            continue
        found.add(number)
        if assertions[number].is_axiom:
            continue
        for label in database.proof_labels(number):
            if label not in labels:
                it = assertions[number]
                raise database.fault(it.at, f"the proof of {it.label} names {label}, which isn't there")
            kind, other = labels[label]
            if kind == "a" and other not in found:
                open_.append(other)
    return found
