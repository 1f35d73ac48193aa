"""Writes what is translated: a specification, a binary in the normal layout, and where it is asked for a proof text."""
import re
from functools import cache

from .building import Variable
from .comments import MARK, Sections, about_lines, filled
from .expressions import Expressions
from .operators import Operators
from .prooftexts import ProofText
from .streams import END, Body, Commands, statement
from .typesetting import symbol_lines, symbols_of
from .writing import Names, Printer, identifier, notation_text, written_otherwise

WIDTH = 120
_FORMULA = re.compile(r"\$([^$]*)\$")
# Why an axiom or a theorem stands there again.
ONE = "in the database two variables may be one, here bound ones are always different."
LONGEST = 4096  # tokens of a formula in a specification
SORT, AXIOM, TERM, THEOREM, LOCAL_TERM, LOCAL_THEOREM = 4, 2, 5, 6, 13, 14  # kinds of statements


@cache
def word(sort, is_bound, needs):
    """The word of a parameter or a result in a table."""
    return (is_bound << 63 | sort << 56 | needs).to_bytes(8, "little")


def words_of(variables):
    """The words of these parameters."""
    made, bound = [], 0
    for sort, is_bound, needs in variables:
        made.append(word(sort, is_bound, 1 << bound if is_bound else needs))
        bound += is_bound
    return b"".join(made)


class Output:
    def __init__(self, whole):
        self.whole, self.syntax = whole, whole.syntax
        self.operators = Operators(whole.syntax)
        self.sections = Sections(whole.database.headings)
        self.spec, self.proof_text = [], None
        if whole.options.text:
            self.proof_text = ProofText(whole.syntax, self.operators.parts)
        self.entries, self.number = [], -1  # of the specification: lines, a term, and an assertion's number
        self.uses = {}  # of each definition its body's terms
        self.asked = set()  # terms of public axioms and theorems
        self.term_rows, self.theorem_rows = [], []  # number of parameters, third byte, words and stream
        self.written = set()  # the heads of terms that have a row
        self.list = []  # kind, body, and a term
        self.labels = []  # of each statement of the list that is an axiom or theorem; else None
        self.printer = Printer(self.syntax.terms)
        self.commands = Commands(self.syntax.terms)
        self.theorem_names, self.public = Names(), 0
        self.long = []  # labels of theorems that are too long for a specification
        # Of chosen theorems nothing is written before it is known what they need.
        self.waiting, self.assigned = None if whole.targets is None else [], 0
        self.cited = set()  # the numbers of what is cited; of a whole database labels
        for it in self.syntax.sorts:
            words = [w for bit, w in ((1, "pure"), (2, "strict"), (4, "provable")) if it.modifiers & bit]
            self.spec.append(" ".join([*words, "sort", it.name]) + ";")
            self.list.append((SORT, b"", None))
        self._entry(None)

    def _entry(self, term):
        """What was written since becomes an entry."""
        self.entries.append((self.spec, term, self.number))
        self.spec = []

    # What waits

    def term(self, number):
        """Declares a term where it isn't yet."""
        it = self.syntax.terms[number]
        if not it.is_used:
            it.is_used = True
            if self.waiting is None:
                self._term(number)

    def definition(self, *what):
        self.syntax.terms[what[0]].is_used = True
        if self.waiting is None:
            self._definition(*what)
        else:
            self.waiting.append(what)

    def assertion(self, building):
        """The row of an axiom or theorem, in the end or for the time being."""
        for head in building.heads:
            self.term(~head)
        number = self._number()
        if self.waiting is None:
            self._pair(number, building, building.assertion.label in self.cited)
        else:
            self.waiting.append((number, building))
        return number

    def find_operators(self):
        """Looks for the operators of a whole database, and for the theorems that proofs cite."""
        database, definitions = self.whole.database, self.whole.definitions
        self.operators.find_in(database, self.whole.statements)
        for number, it in enumerate(database.assertions):
            if not it.is_axiom:
                self.cited.update(database.proof_labels(number))
            if it.label.endswith("just") or number in definitions.reflexive.values():
                self.cited.add(it.label)

    def finish(self):
        """Writes what waited and is needed."""
        if self.waiting is None:
            return
        waiting, self.waiting = self.waiting, None
        assertions = {it[0]: it[1] for it in waiting if len(it) == 2}
        needed, open_ = set(), [row for row, it in assertions.items() if self._is_target(it)]
        while open_:
            here = open_.pop()
            if here not in needed:
                needed.add(here)
                rows = assertions[here].cited
                self.cited |= rows
                open_ += rows
        if self.whole.options.notations:
            self.operators.find(self._formulas([it for it in waiting if len(it) > 2 or it[0] in needed]))
        del assertions
        waiting.reverse()
        while waiting:
            it = waiting.pop()
            if len(it) > 2:
                self._definition(*it)
            elif it[0] in needed:
                self._pair(*it, it[0] in self.cited)

    def _formulas(self, waiting):
        """The formulas that can stand in the specification."""
        for it in waiting:
            if len(it) > 2:
                yield it[2], it[-1]
            elif it[1].root is None or self._is_target(it[1]):
                for number in (*it[1].hypotheses, it[1].conclusion):
                    yield it[1].expressions, number

    def _is_target(self, building):
        return not building.is_copy and (self.whole.targets is None or building.assertion.label in self.whole.targets)

    def _pair(self, number, building, is_cited):
        """Writes an assertion, that others may cite by this number. Where it has abbreviations in the specification, they cite
        another one without them."""
        is_axiom, operators = building.root is None, self.operators
        is_public = is_axiom or self._is_target(building)
        said = building.shortened(operators) if is_public else (building.hypotheses, building.conclusion)
        if said == (building.hypotheses, building.conclusion):
            self._assertion(number, building, is_public)
            return
        other = self._number()
        if is_axiom:
            public = building.with_statement(*said)
            self._assertion(other, public, True)
            self._assertion(number, building.plain().citing(other, *said, operators, True), False)
        elif is_cited:
            self._assertion(number, building.plain(), False)
            public = building.with_statement(*said)
            self._assertion(other, public.citing(number, building.hypotheses, building.conclusion, operators, False), True)
        else:
            building.convert(operators)
            self._assertion(number, building.said_shortly(*said, operators), True)

    def _number(self):
        self.assigned += 1
        return self.assigned - 1

    # Terms and definitions

    def _term(self, number):
        it = self.syntax.terms[number]
        if it.row >= 0:
            return
        if self.operators.parts(number):
            self._operator(number)
            return
        variables = [(s, b, n) for (s, b, _), n in zip(it.parameters, it.needs)]
        names = [x[2] for x in it.parameters]
        binders, result = self._binders(variables, names), self._result(it)
        self._about(it.number)
        self.spec.append(f"term {it.name}{binders}: {result};")
        self._notation(it, binders, result, names)
        if self.proof_text:
            self.proof_text.term(it, variables, names, result)
        self._entry(number)
        self.asked.add(number)  # what has no body can't be local
        self.list.append((TERM, b"", number))
        it.row = len(self.term_rows)
        self.written.add(~number)
        self.term_rows.append((len(variables), it.sort, words_of(variables) + word(it.sort, False, it.result_needs) + END))

    def _notation(self, it, binders, result, names):
        if it.is_coercion:
            self.spec.append(f"coercion {it.name}: {self.syntax.sorts[it.kinds[0][0]].name} > {result};")
        elif it.notation:
            self.spec.append(notation_text(it.notation, it.name, binders, result, names))

    def _operator(self, number):
        """Declares an operator."""
        for part in self.operators.parts(number):
            self._term(part)
        it, expressions = self.syntax.terms[number], Expressions(self.syntax.arity)
        variables = [Variable(s, b, f) for (s, b), f in zip(it.kinds, it.floats)]
        left = expressions.apply(~number, tuple(map(expressions.variable, range(len(variables)))))
        self.spec.append("")
        self._write_definition(number, expressions, variables, [], self.operators.body(expressions, left))

    def _definition(self, number, axiom, expressions, variables, dummy_names, body):
        """Declares the definition that an axiom is."""
        body = self.operators.shortened(expressions, body, {})
        for head in sorted(expressions.spread(body)[1]):
            self._term(~head)
        self._about(axiom)
        self._write_definition(number, expressions, variables, dummy_names, body)

    def _write_definition(self, number, expressions, variables, dummy_names, body):
        it, count = self.syntax.terms[number], len(self.syntax.terms[number].kinds)
        heads = expressions.spread(body)[1]
        names = [x[2] for x in it.parameters] + dummy_names
        own = [(v.sort, v.bound, v.needs) for v in variables]
        binders, result = self._binders(own, names, count), self._result(it)
        tokens = self.printer.tokens(expressions, names, body)
        self._line(f"def {it.name}{binders}: {result} =", f"$ {' '.join(tokens)} $;")
        self._notation(it, self._binders(own[:count], names), result, names)
        if self.proof_text:
            self.proof_text.definition(number, own[:count], names, result, variables[count:], expressions, body)
        self._entry(number)
        self.uses[number] = {~h for h in heads}
        writer = Body(self.commands, expressions, variables, count)
        writer.count_expressions([body])
        writer.count_operands()
        writer.expression(body)
        self.list.append((TERM, bytes(writer.out + END), number))
        it.row = len(self.term_rows)
        self.written.add(~number)
        data = words_of(own[:count]) + word(it.sort, False, it.result_needs) + writer.stream([body])
        self.term_rows.append((count, it.sort | 128, data))

    def _result(self, it):
        bound = [n for _, b, n in it.parameters if b]
        return " ".join([self.syntax.sorts[it.sort].name, *(n for k, n in enumerate(bound) if it.result_needs >> k & 1)])

    # Axioms and theorems

    def _assertion(self, number, building, is_public):
        """Writes an axiom or theorem that is cited by this number."""
        building.convert(self.operators)
        expressions, variables, count = building.expressions, building.variables, building.count
        is_axiom = building.root is None
        writer = Body(self.commands, expressions, variables, count)
        writer.count_expressions([*building.hypotheses, *([building.conclusion] if is_axiom else [])])
        if not is_axiom:
            writer.count_steps(building.steps, building.uses)
        writer.count_operands()
        if not building.heads <= self.written:
            for head in sorted(writer.heads()):
                self._term(~head)
        own = [(it.sort, it.bound, it.needs) for it in variables[:count]]
        if is_public or self.proof_text:
            name, names = self._name(building), self.syntax.names([it.float for it in variables])
            is_public = is_public and self._state(building, name, names, own)
        if self.proof_text:
            self.proof_text.assertion(number, building, writer, name, names, own, is_public, self._about_lemma(building, is_public))
        writer.hypotheses(building.hypotheses)
        if is_axiom:
            writer.expression(building.conclusion)
        else:
            writer.proof(building.steps, building.root)
        self.list.append((AXIOM if is_axiom else THEOREM if is_public else LOCAL_THEOREM, bytes(writer.out + END), None))
        self.labels.append((len(self.list), building.number))
        self._count(building, is_public)
        stream = writer.stream([building.conclusion, *reversed(building.hypotheses)])
        self.commands.rows[number] = len(self.theorem_rows)
        self.theorem_rows.append((count, 0, words_of(own) + stream))

    def _about_lemma(self, building, is_public):
        """What a proof text says of a statement that the database doesn't have as it stands there."""
        if building.is_copy:
            return self._why_again(building)
        return f"{building.assertion.label} without abbreviations, as proofs cite it." if building.suffix and not is_public else ""

    def _name(self, building):
        name = identifier(building.assertion.label) + building.suffix
        if building.is_copy:
            name += "_b" + "".join(str(p) if p < 10 else f"_{p}_" for p in building.parts)
        return self.theorem_names.take(name)

    def _count(self, building, is_public):
        counts = self.whole.counts
        counts.steps += len(building.steps)
        if building.root is None:
            counts.axioms += not building.is_copy
            counts.axiom_copies += building.is_copy
        else:
            counts.theorems += not building.is_copy
            counts.copies += building.is_copy
            self.public += is_public

    def _state(self, building, name, names, own):
        """Writes a statement in the specification; whether it could."""
        is_axiom, formulas, printer = building.root is None, [], self.printer
        for it in (*building.hypotheses, building.conclusion):
            tokens = printer.tokens(building.expressions, names, it)
            if len(tokens) > LONGEST:
                if is_axiom or self.whole.targets:
                    why = f"{building.assertion.label} isn't translated: a formula of more than {LONGEST:,} tokens"
                    raise self.whole.database.fault(building.assertion.at, why)
                self.long.append(building.assertion.label)
                return False
            formulas.append(f"$ {' '.join(tokens)} $")
        if building.is_copy:
            self.spec += ["", *filled(self._why_again(building).split(), MARK)]
        else:
            self._about(building.number)
        kind = "axiom" if is_axiom else "theorem"
        self._line(f"{kind} {name}{self._binders(own, names)}:", " > ".join(formulas) + ";")
        self._entry(None)
        if self.whole.targets is not None:
            for it in (*building.hypotheses, building.conclusion):
                self.asked.update(~head for head in building.expressions.spread(it)[1])
        return True

    def _why_again(self, building):
        """Why an axiom or a theorem stands there again."""
        it, floats, first, same = building.statement, self.whole.database.floats, {}, []
        for at, part in zip(it.bound, building.parts):
            variable = floats[it.floats[at]].variable
            if first.setdefault(part, variable) != variable:
                same.append(f"{variable} is {first[part]}")
        return f"{building.assertion.label} where {', '.join(same)}: {ONE}"

    # Lines

    def _line(self, head, rest):
        if len(head) + 1 + len(rest) <= WIDTH:
            self.spec.append(f"{head} {rest}")
        else:
            self.spec.append(head)
            self.spec += filled(rest.split(), "  ", "    ")

    def _about(self, number):
        """The comment of the database."""
        self.spec += ["", *about_lines(self.whole.database.comment(number))]
        self.number = number

    def _binders(self, variables, names, count=None):
        """Binders of a specification; those from `count` on are dummies."""
        bound = [n for (_, b, _), n in zip(variables, names) if b]
        made, last = [], None
        for i, ((sort, b, needs), name) in enumerate(zip(variables, names)):
            is_dummy = count is not None and i >= count
            type_ = self.syntax.sorts[sort].name
            if not b and needs:
                type_ = " ".join([type_, *(n for k, n in enumerate(bound) if needs >> k & 1)])
            if last != (b, type_, is_dummy):
                made.append((b, [], type_))
                last = b, type_, is_dummy
            made[-1][1].append("." + name if is_dummy else name)
        return "".join(f" {{{' '.join(n)}: {t}}}" if b else f" ({' '.join(n)}: {t})" for b, n, t in made)

    # Files

    def public_terms(self):
        """Of chosen theorems, the terms that are needed to read what is public; all others are local definitions."""
        if self.whole.targets is None:
            return {it for _, it, _ in self.entries if it is not None}
        found, open_ = set(), list(self.asked)
        while open_:
            here = open_.pop()
            if here not in found:
                found.add(here)
                open_ += self.uses.get(here, ())
        return found

    def specification(self):
        """The lines of the specification, under the database's headings."""
        public = self.public_terms()
        terms = [it for i, it in enumerate(self.syntax.terms) if i in public and not self.operators.parts(i)]
        others = list(written_otherwise(terms))
        if others:
            yield from ("-- What is written otherwise than there:", *(f"--   {mine}    for    {theirs}" for mine, theirs in others), "")
        for lines, term, number in self.entries:
            if term is None or term in public:
                yield from self.sections.lines(number)
                yield from lines

    def symbols(self, lines):
        """The lines of a file of symbols: those that the database gives for the tokens of these lines."""
        symbols = symbols_of(self.whole.database.typesetting)
        tokens = {it for formula in _FORMULA.findall("\n".join(lines)) for it in formula.split()} if symbols else ()
        return list(symbol_lines(tokens, symbols, self.syntax.notations.made_of if self.syntax.notations else {}))

    def binary(self):
        """The parts of the binary, one behind the other."""
        up = lambda n: (n + 7) // 8 * 8
        sorts, public = bytes(it.modifiers for it in self.syntax.sorts), self.public_terms()
        term_table = up(40 + len(sorts))
        theorem_table = term_table + 8 * len(self.term_rows)
        at = theorem_table + 8 * len(self.theorem_rows)
        tables, rows = bytearray(), []
        for count, third, data in (*self.term_rows, *self.theorem_rows):
            tables += count.to_bytes(2, "little") + bytes((third, 0)) + at.to_bytes(4, "little")
            rows.append(data.ljust(up(len(data)), b"\0"))
            at += len(rows[-1])
        four = lambda n: n.to_bytes(4, "little")
        header = b"MM0B" + bytes((1, len(sorts), 0, 0)) + four(len(self.term_rows)) + four(len(self.theorem_rows))
        header += four(term_table) + four(theorem_table) + four(at) + four(0) + bytes(8) + sorts
        yield header.ljust(term_table, b"\0")
        yield tables
        yield from rows
        for kind, body, term in self.list:
            yield statement(kind if term is None or term in public else LOCAL_TERM, body)
        yield END
