"""Conversion in a Metamath database: a judgement of its own, `defeq-SORT a := b`.

Metamath has no definitions, and a theory need have no equality. So conversion gets axioms of its own: it is an equivalence,
goes through each term, carries proofs along, and holds of a definition and its body."""
from dataclasses import dataclass

from .binaries import Expressions, Variable
from .database_text import Piece


@dataclass
class Frame:
    """An assertion as it is cited: its label, the parameters that its statement has, in the order of the database, and all
    of them as they are declared."""

    label: str
    order: list
    parameters: tuple = ()


@dataclass
class Rules:
    """The constant of a sort's conversions and the frames of their axioms."""

    code: str
    reflexive: Frame = None
    symmetric: Frame = None
    transitive: Frame = None
    carries: Frame = None  # from a proof to one of what converts to it


class Conversions:
    """Axioms for conversions; each is written when it is first needed."""

    def __init__(self, export):
        self.export, self.text = export, export.text
        self._rules, self._through = {}, {}

    def rules(self, sort):
        rules = self._rules.get(sort)
        if rules is None:
            if not self._rules:
                self.text.constant(":=")
            rules = self._rules[sort] = Rules(self.text.constant(f"defeq-{self.export.sorts[sort].name}"))
            self._write_rules(sort, rules)
        return rules

    def _write_rules(self, sort, rules):
        scope = self.export.scope([Variable(sort, False, 0)] * 3, [])
        a, b, c = (self.text.variables[it][0] for it in scope)
        code, proved = rules.code, self.export.sorts[sort].proved

        def rule(key, about, hypotheses, symbols, count):
            label = self.text.labels.take(f"{code}-{key}")
            given = [(f"{label}.{i}", it) for i, it in enumerate(hypotheses, 1)]
            self.text.pieces.append(Piece(about, label, symbols, given))
            return Frame(label, in_order(range(count), scope))

        one, two, both = [code, a, ":=", b], [code, b, ":=", c], [code, a, ":=", c]
        rules.reflexive = rule("refl", "Each expression converts to itself.", [], [code, a, ":=", a], 1)
        rules.symmetric = rule("symm", "Conversions go both ways.", [one], [code, b, ":=", a], 2)
        rules.transitive = rule("trans", "Conversions one after the other.", [one, two], both, 3)
        if proved:
            about = "What converts to something proved is proved."
            rules.carries = rule("mp", about, [one, [proved, b]], [proved, a], 2)

    def says(self, expressions, scope, left, right, sort):
        """That two expressions convert, in symbols."""
        write = lambda it: self.export.written(expressions, scope, it)
        return [self.rules(sort).code, *write(left), ":=", *write(right)]

    def through(self, number):
        """The frame of the axiom by which conversions go through a term. Its operands are those of the left side, then the
        regular ones of the right side."""
        if number not in self._through:
            self._through[number] = self._write_through(self.export.terms[number], number)
        return self._through[number]

    def _write_through(self, term, number):
        parameters, count = term.row.parameters, len(term.row.parameters)
        regular = [i for i, it in enumerate(parameters) if not self.export.bare(it)]
        variables = [*parameters, *(parameters[i] for i in regular)]
        scope, expressions = self.export.scope(variables, []), Expressions(variables)
        other = {i: count + k for k, i in enumerate(regular)}
        left = expressions.apply(number, tuple(range(count)))
        right = expressions.apply(number, tuple(other.get(i, i) for i in range(count)))
        symbols = self.says(expressions, scope, left, right, term.row.result.sort)
        label = self.text.labels.take(f"defeq-{term.frame.label}")
        given = [(f"{label}.{k}", self.says(expressions, scope, i, other[i], parameters[i].sort)) for k, i in enumerate(regular, 1)]
        self.text.pieces.append(Piece("Conversions go through a term.", label, symbols, given))
        return Frame(label, in_order(range(len(variables)), scope))


def in_order(used, scope):
    """Variables of a statement in the order of the database's."""
    return sorted(used, key=lambda it: scope[it])


def says_definition(body, name):
    """The definition, if a body proves by one unfolding over distinct variables that it is its body: `t left body`, by what is
    proved of `t body body`. Under a name df_.. it may be another theorem on the body, as for `df-bi`."""
    last = body.proofs[body.last]
    if last.kind != "converted" or body.proofs[last.parts[0]].kind != "cited" or body.proofs[last.parts[0]].parts:
        return None
    operands, expressions = body.expressions.operands, body.expressions
    before = operands[body.proofs[last.parts[0]].says]
    is_reflexive = len(before) == 2 and before[0] == before[1]
    unfolded = _unfolded(last.by)
    if unfolded is None or len(unfolded) != 1 or not (is_reflexive or name.startswith("df_")):
        return None
    left, term, given, dummies = unfolded.pop()
    given += dummies
    is_general = all(expressions.is_variable[it] for it in given) and len(set(given)) == len(given)
    return term if is_general and (name.startswith("df_") or operands[last.says][0] == left) else None


def _unfolded(owed):
    """The definitions that a conversion unfolds, each with its left side, operands and dummies; None where it does more."""
    found, open_ = set(), [owed]
    while open_:
        it = open_.pop().final()
        kind, *how = it.how
        if kind == "cong":
            open_ += how[1]
        elif kind == "unfold" and how[3].final().how[0] == "refl":
            found.add((it.left, *how[:3]))
        elif kind != "refl":
            return None
    return found
