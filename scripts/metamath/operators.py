"""Operators: `A + B` where the database writes an operation or a relation between two expressions.

In `( A F B )` and `A R B` any class can stand in the middle, and a notation needs a constant there. So each closed term that
stands there in a formula of the specification becomes an infix of its own, defined as the database's formula with it in
the middle. Proofs speak of the database's formulas; a conversion leads from these to the statement, or from an axiom."""
from .finding import operators_in
from .syntax import Term
from .writing import operator_notation

UNFOLD, CONGRUENCE, SAME = range(3)  # what a conversion does at an expression


class Conversion:
    """How an expression with abbreviations converts to one without: a list of what is done, from the left, outside first. It
    is turned where what is proved has the abbreviations."""

    def __init__(self, commands, is_turned=False):
        self.commands, self.is_turned = commands, is_turned


class Operators:
    def __init__(self, syntax):
        self.syntax = syntax
        self._frames = [i for i, it in enumerate(syntax.terms) if _is_frame(it)]  # terms without constants
        self._of, self._parts = {}, {}  # (frame, constant): operator; operator: (frame, constant)

    # Finding

    def find(self, formulas):
        """Declares the operators that these formulas, pairs of expressions and a number, have."""
        self._declare(self._pair(expressions, here) for expressions, number in formulas for here in expressions.parts(number))

    def find_in(self, database, statements):
        """Declares those of a whole database."""
        self._declare(operators_in(database, self.syntax, statements, self._frames) if self._frames else ())

    def _declare(self, pairs):
        for pair in pairs:
            if pair and pair not in self._of:
                self._of[pair] = self._declared(*pair)

    def _pair(self, expressions, number):
        """A frame and the constant in its middle."""
        frame = ~expressions.head(number)
        if frame not in self._frames:
            return None
        constant = ~expressions.head(expressions.operands(number)[1])
        return (frame, constant) if constant >= 0 and not self.syntax.arity[constant] else None

    def _declared(self, frame, constant):
        """A new term for a pair, by its number; None where its constant can't be an infix."""
        syntax = self.syntax
        outer, inner = syntax.terms[frame], syntax.terms[constant]
        if any(other == constant and number is not None for (_, other), number in self._of.items()):
            return None
        notation = operator_notation(syntax.notations, syntax.terms, outer, inner, outer.sort == syntax.provable)
        if notation is None:
            return None
        name = syntax.new_name(f"{inner.name}_{outer.name}")
        made = Term(name, inner.label, inner.number, outer.sort, [outer.kinds[0], outer.kinds[2]],
                    [outer.floats[0], outer.floats[2]], [0, 1], notation=notation)
        made.parameters = [outer.parameters[0], outer.parameters[2]]
        number = len(syntax.terms)
        self._parts[number] = frame, constant
        syntax.terms.append(made)
        syntax.arity.append(2)
        return number

    # Using

    def parts(self, operator):
        """The frame and the constant of an operator; None of another term."""
        return self._parts.get(operator)

    def shortened(self, expressions, number, known):
        """An expression with operators wherever they can stand."""
        if not self._parts:
            return number
        made = known.get(number)
        if made is None:
            head, operands = expressions.head(number), expressions.operands(number)
            made = number
            if operands:
                inner = tuple(self.shortened(expressions, it, known) for it in operands)
                operator = self._of.get(self._pair(expressions, number))
                made = expressions.apply(head, inner) if operator is None else expressions.apply(~operator, (inner[0], inner[2]))
            known[number] = made
        return made

    def body(self, expressions, number):
        """What an operator with its operands stands for; None for another expression."""
        parts = self._parts.get(~expressions.head(number))
        if parts is None:
            return None
        first, last = expressions.operands(number)
        return expressions.apply(~parts[0], (first, expressions.apply(~parts[1], ()), last))

    def conversion(self, expressions, short, long, bodies, is_turned=False):
        """How `short` converts to `long`: by unfolding operators, and those expressions that have bodies here."""
        commands, left = [], [(short, long)]
        while left:
            a, b = left.pop()
            if a == b:
                commands.append((SAME, a))
                continue
            body = bodies.get(a) or self.body(expressions, a)
            if body is None:
                commands.append((CONGRUENCE, a))
                left += [*zip(expressions.operands(a), expressions.operands(b))][::-1]
            else:
                commands.append((UNFOLD, a, body))
                left.append((body, b))
        return Conversion(commands, is_turned)


def _is_frame(term):
    """Whether a term is written by three expressions of one sort and no constant."""
    symbols = [it for it in term.literals if it not in ("(", ")")]
    return symbols == [0, 1, 2] and len({*term.kinds}) == 1 and not term.kinds[0][1]
