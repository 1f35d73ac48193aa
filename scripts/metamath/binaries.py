"""Reads a binary that mz has accepted, and runs its bodies as a record of what they prove. Nothing is judged here: what
isn't right was refused before, or fails here in some way, or is refused by the reader of what is written."""
from typing import NamedTuple, Optional

(TERM, TERM_SAVE, REF, DUMMY, THM, THM_SAVE, HYP, CONV, REFL, SYMM, CONG, UNFOLD, CONV_CUT, CONV_REF, CONV_SAVE, SAVE,
 SORRY) = range(0x10, 0x21)
U_TERM, U_TERM_SAVE, U_REF, U_DUMMY, U_HYP = 0x30, 0x31, 0x32, 0x33, 0x36
KINDS = {2: "axiom", 4: "sort", 5: "term", 6: "theorem", 13: "term", 14: "theorem"}
TABLES = {"sort": "sort", "term": "term", "axiom": "theorem", "theorem": "theorem"}
SIZES = (0, 1, 2, 4)  # of a command's number, by the two bits above its code


class Variable(NamedTuple):
    sort: int
    bound: bool
    needs: int  # bit k: it may depend on the k-th bound variable; of a bound one its own bit


class Row(NamedTuple):
    """A term, definition, axiom or theorem as its row says it."""

    parameters: tuple
    result: Optional[Variable]  # of a term
    stream: Optional[int]  # the place of its commands; a plain term has none
    hypotheses: int = 0


class Statement(NamedTuple):
    kind: str
    is_local: bool
    row: int
    body: int  # the place where its commands begin


class Binary:
    """A binary's tables, and its statements in their order."""

    def __init__(self, data):
        self.data = data
        self.terms = [self._row(self._number(16, 4) + 8 * i, True) for i in range(self._number(8, 4))]
        self.theorems = [self._row(self._number(20, 4) + 8 * i, False) for i in range(self._number(12, 4))]

    def _number(self, at, size):
        return int.from_bytes(self.data[at : at + size], "little")

    def _variable(self, at):
        word = self._number(at, 8)
        return Variable(word >> 56 & 127, word >> 63 == 1, word & (1 << 56) - 1)

    def _row(self, record, is_term):
        count, words = self._number(record, 2), self._number(record + 4, 4)
        made = tuple(self._variable(words + 8 * i) for i in range(count + is_term))
        stream = words + 8 * len(made)
        if is_term:
            return Row(made[:count], made[count], None if self.data[record + 2] < 128 else stream)
        return Row(made, None, stream, sum(code == U_HYP for code, _ in self.commands(stream)))

    def commands(self, at):
        """The commands from a place on, each a code and a number, up to the END."""
        data = self.data
        while data[at] & 63:
            size = SIZES[data[at] >> 6]
            yield data[at] & 63, int.from_bytes(data[at + 1 : at + 1 + size], "little")
            at += 1 + size

    def statements(self):
        at, rows = self._number(24, 4), {"sort": 0, "term": 0, "theorem": 0}
        while self.data[at] & 63:
            size, code = SIZES[self.data[at] >> 6], self.data[at] & 63
            table = TABLES[KINDS[code]]
            yield Statement(KINDS[code], code > 8, rows[table], at + 1 + size)
            rows[table] += 1
            at += self._number(at + 1, size)


class Expressions:
    """The expressions of one statement, each kept once. The first ones are its variables."""

    def __init__(self, variables):
        self.variables = list(variables)
        self.heads = list(range(len(self.variables)))
        self.operands = [()] * len(self.variables)
        self.is_variable = [True] * len(self.variables)
        self._numbers = {}

    def variable(self, variable):
        self.variables.append(variable)
        self.heads.append(len(self.variables) - 1)
        self.operands.append(())
        self.is_variable.append(True)
        return len(self.heads) - 1

    def apply(self, term, operands):
        key = (term, operands)
        number = self._numbers.get(key)
        if number is None:
            number = self._numbers[key] = len(self.heads)
            self.heads.append(term)
            self.operands.append(operands)
            self.is_variable.append(False)
        return number

    def used(self, roots):
        """The variables of these expressions, as their numbers in `variables`."""
        seen, open_, found = set(), list(roots), set()
        while open_:
            here = open_.pop()
            if here not in seen:
                seen.add(here)
                if self.is_variable[here]:
                    found.add(self.heads[here])
                open_ += self.operands[here]
        return found


class Spelling:
    """What a row's stream spells: `said`, the conclusion or the body, and `hypotheses` in their order. Dummies become
    variables behind the parameters."""

    def __init__(self, row, binary):
        self.expressions, self._terms = Expressions(row.parameters), binary.terms
        self._heap = list(range(len(row.parameters)))
        self._commands = binary.commands(row.stream)
        self.said = self._one()
        self.hypotheses = []
        for code, _ in self._commands:
            assert code == U_HYP
            self.hypotheses.insert(0, self._one())

    def _one(self):
        """The next expression. `open_` has the terms whose operands aren't all there: term, operands, place on the heap."""
        open_ = []
        while True:
            code, value = next(self._commands)
            if code in (U_TERM, U_TERM_SAVE):
                open_.append((value, [], len(self._heap) if code == U_TERM_SAVE else None))
                if code == U_TERM_SAVE:
                    self._heap.append(None)
            elif not open_:
                return self._leaf(code, value)
            else:
                open_[-1][1].append(self._leaf(code, value))
            while len(open_[-1][1]) == len(self._terms[open_[-1][0]].parameters):
                made = self._close(*open_.pop())
                if not open_:
                    return made
                open_[-1][1].append(made)

    def _leaf(self, code, value):
        if code == U_REF:
            return self._heap[value]
        self._heap.append(self.expressions.variable(Variable(value, True, 0)))
        return self._heap[-1]

    def _close(self, term, operands, place):
        made = self.expressions.apply(term, tuple(operands))
        if place is not None:
            self._heap[place] = made
        return made


class Obligation:
    """That `left` converts to `right`; how is filled in later: (kind, ..parts)."""

    __slots__ = ("left", "right", "how")

    def __init__(self, left, right):
        self.left, self.right, self.how = left, right, None

    def final(self):
        it = self
        while it.how[0] == "same":
            it = it.how[1]
        return it


class Proof(NamedTuple):
    """A proof of an expression: by a hypothesis's number, a theorem's row or a conversion."""

    says: int
    kind: str  # hypothesis, cited, converted
    by: object  # the number, the row, or the obligation
    operands: tuple
    parts: tuple


class Body:
    """A theorem's body run over its parameters. `proofs` has each step once; `last` is the number of the final one.

    On the stack and the heap an expression is its number, a proof ~number, an obligation itself, and a conversion that is
    shown a list of its obligation."""

    def __init__(self, binary, statement, parameters):
        self.binary = binary
        self.expressions = Expressions(parameters)
        self.hypotheses, self.proofs, self._numbers = [], [], {}
        self._stack, self._heap = [], list(range(len(parameters)))
        for code, value in binary.commands(statement.body):
            self._DO[code](self, value)
        (it,) = self._stack
        self.last = ~it if it < 0 else it

    def _add(self, proof):
        """The place of a proof as it stands on the stack."""
        key = proof if proof.kind != "converted" else id(proof.by)
        number = self._numbers.get(key)
        if number is None:
            number = self._numbers[key] = len(self.proofs)
            self.proofs.append(proof)
        return ~number

    def _taken(self, count):
        """The uppermost things of the stack, which leave it."""
        start = len(self._stack) - count
        made = tuple(self._stack[start:])
        del self._stack[start:]
        return made

    def _ref(self, value):
        it = self._heap[value]
        if isinstance(it, list):
            self._stack.pop().how = ("same", it[0])
        else:
            self._stack.append(it)

    def _term(self, value):
        self._stack.append(self.expressions.apply(value, self._taken(len(self.binary.terms[value].parameters))))

    def _save(self, _):
        self._heap.append(self._stack[-1])

    def _term_save(self, value):
        self._term(value)
        self._save(value)

    def _theorem(self, value):
        row, says = self.binary.theorems[value], self._stack.pop()
        operands = self._taken(len(row.parameters))
        parts = tuple(~it for it in self._taken(row.hypotheses))
        self._stack.append(self._add(Proof(says, "cited", value, operands, parts)))

    def _theorem_save(self, value):
        self._theorem(value)
        self._save(value)

    def _dummy(self, value):
        self._stack.append(self.expressions.variable(Variable(value, True, 0)))
        self._save(value)

    def _hypothesis(self, _):
        says = self._stack.pop()
        self._heap.append(self._add(Proof(says, "hypothesis", len(self.hypotheses), (), ())))
        self.hypotheses.append(says)

    def _convert(self, _):
        part, says = ~self._stack.pop(), self._stack.pop()
        owed = Obligation(says, self.proofs[part].says)
        self._stack += [self._add(Proof(says, "converted", owed, (), (part,))), owed]

    def _reflexive(self, _):
        self._stack.pop().how = ("refl",)

    def _symmetric(self, _):
        owed = self._stack.pop()
        made = Obligation(owed.right, owed.left)
        owed.how = ("symm", made)
        self._stack.append(made)

    def _congruent(self, _):
        owed, operands = self._stack.pop(), self.expressions.operands
        made = [Obligation(*it) for it in zip(operands[owed.left], operands[owed.right])]
        owed.how = ("cong", self.expressions.heads[owed.left], made)
        self._stack += reversed(made)

    def _unfold(self, _):
        body = self._stack.pop()
        if not isinstance(self._stack[-1], Obligation):
            self._stack.pop()
        owed = self._stack.pop()
        made = Obligation(body, owed.right)
        term, operands = self.expressions.heads[owed.left], self.expressions.operands[owed.left]
        owed.how = ("unfold", term, operands, self._dummies(term, operands, body), made)
        self._stack.append(made)

    def _cut(self, _):
        owed = self._stack.pop()
        made = Obligation(owed.left, owed.right)
        owed.how = ("same", made)
        self._stack += [[made], made]

    def _save_conversion(self, _):
        self._heap.append(self._stack.pop())

    def _gap(self, _):
        raise ValueError("a proof has a gap, and a gap can't be written")

    _DO = {TERM: _term, TERM_SAVE: _term_save, REF: _ref, DUMMY: _dummy, THM: _theorem, THM_SAVE: _theorem_save,
           HYP: _hypothesis, CONV: _convert, REFL: _reflexive, SYMM: _symmetric, CONG: _congruent, UNFOLD: _unfold,
           CONV_CUT: _cut, CONV_REF: _ref, CONV_SAVE: _save_conversion, SAVE: _save, SORRY: _gap}

    def _dummies(self, term, operands, body):
        """What stands in an instance of a definition's body for its dummies, in the order of its stream."""
        heap, targets, found = list(operands), [body], []
        for code, value in self.binary.commands(self.binary.terms[term].stream):
            it = targets.pop()
            if code in (U_TERM, U_TERM_SAVE):
                if code == U_TERM_SAVE:
                    heap.append(it)
                targets += reversed(self.expressions.operands[it])
            elif code == U_DUMMY:
                heap.append(it)
                found.append(it)
        return tuple(found)
