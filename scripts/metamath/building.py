"""One axiom or theorem as it is translated: its variables, its statement, and the steps of its proof.

In Metamath two variables without `$d` may be given the same variable, here bound ones are always different: where a proof
makes bound variables one, a copy of what it cites is made in which they are one.

Of a proof's steps nothing is looked at but what they conclude. Whether hypotheses fit is said by the verifier."""
import copy
import itertools
import re
from dataclasses import dataclass

from .expressions import Expressions, Untranslatable
from .statements import Statement

_PARTS = re.compile("[U-Y]*+[A-T]|Z").findall  # the numbers of a compressed proof, and Z, that saves a step


def _numbers():
    """The numbers of compressed proofs, from 1 on."""
    begun = [""]
    while True:
        yield from (it + last for it in begun for last in "ABCDEFGHIJKLMNOPQRST")
        begun = [it + more for it in begun for more in "UVWXY"]


_SMALL = list(itertools.islice(_numbers(), 3120))


class _Table(dict):
    """What the numbers of a proof name; None for Z."""

    def __missing__(self, number):
        raise IndexError


@dataclass
class Variable:
    sort: int
    bound: bool
    float: int
    needs: int = 0


class Building:
    """One axiom or theorem, or a copy of it in which bound variables are one as `parts` says.

    A step is a tuple: what it concludes; by what (the number of what is cited, ~ of a hypothesis's number, or a
    conversion); the operands, or the dummies of what is unfolded; and ~ of the steps that it rests on."""

    def __init__(self, whole, number, parts):
        self.whole, self.number, self.parts = whole, number, parts
        self.is_copy = parts != tuple(range(len(parts)))
        self.assertion = whole.database.assertions[number]
        self.statement = whole.statements.of(number)
        if self.is_copy:
            whole.statements.conclusion_of(self.statement)
        self.expressions, self.variables, self._spare = Expressions(whole.syntax.arity), [], {}
        self.suffix = ""  # of its name
        self.steps = []
        self.root = None  # the last step, of a theorem
        self.uses = ()  # how often each step is used
        self.cited = frozenset()  # the rows of what its proof cites
        self._unfolded = None  # of a definition's axiom the term with its operands, and its body
        self.heads = set()  # of terms that weren't in what is cited
        self._bound = {}  # variables that are bound, by their expressions
        self._state()

    def prove(self):
        """Makes the steps of a theorem's proof."""
        whole = self.whole
        definition = whole.definitions.unfolded.get(self.number)
        if definition is not None:
            self._unfold(definition)
        elif not self.assertion.is_axiom:
            self._proof()
        if self.root is not None:
            self._count()
        return self

    def _count(self):
        """Counts how often each step is used, from the last one to the first, and notes the rows that they cite."""
        steps, uses, rows = self.steps, [0] * len(self.steps), set()
        uses[self.root] = 1
        for number in range(self.root, -1, -1):
            if uses[number]:
                _, by, _, parts = steps[number]
                if by.__class__ is int and by >= 0:
                    rows.add(by)
                for it in parts:
                    uses[~it] += 1
        self.uses, self.cited = uses, rows

    def _state(self):
        it, expressions = self.statement, self.expressions
        bound = max(self.parts, default=-1) + 1
        places = self.places = [None] * len(it.floats)
        for k in range(bound):
            at = it.bound[self.parts.index(k)]
            self.variables.append(Variable(it.sorts[at], True, it.floats[at]))
            self._bound[expressions.variable(k)] = k
        for k, at in enumerate(it.bound):
            places[at] = self.parts[k]
        is_copy = self.is_copy
        for k, at in enumerate(it.regular):
            needs = it.needs[k]
            if is_copy:
                needs = (1 << bound) - 1
                for b, part in enumerate(self.parts):
                    if not it.needs[k] >> b & 1:
                        needs &= ~(1 << part)
            places[at] = expressions.variable(bound + k)
            self.variables.append(Variable(it.sorts[at], False, it.floats[at], needs))
        self.count = len(self.variables)
        self.hypotheses = [expressions.instance(x, places) for x in it.hypotheses]
        self.conclusion = None if it.conclusion is None else expressions.instance(it.conclusion, places)
        for pattern in (*it.hypotheses, it.conclusion or ()):
            self.heads.update([x for x in pattern if x < 0])

    # By unfolding

    def _unfold(self, found):
        """A defining axiom, by the theorem that says the same of the body, and unfolding. What was found stands over the
        places of the statement, whose variables these are."""
        expressions, made = self.expressions, dict(enumerate(self.places))
        move = lambda it: found.expressions.replaced(it, expressions, made)
        row = self.whole.row(found.theorem, ())
        left, body = self._unfolded = move(found.left), move(found.body)
        opened = self._opened(self.conclusion, left, body)
        self.steps.append((opened, row, tuple(move(it) for it in found.operands), ()))
        operands = expressions.operands(left)
        dummies = tuple(it for it in expressions.spread(body)[0] if it not in operands)
        self.steps.append((self.conclusion, None, dummies, (~0,)))
        self.root = 1

    def _opened(self, number, left, body):
        """An expression with the body for the left side."""
        if number == left:
            return body
        operands = self.expressions.operands(number)
        if not operands:
            return number
        return self.expressions.apply(self.expressions.head(number), tuple(self._opened(it, left, body) for it in operands))

    # Abbreviations

    def convert(self, operators):
        """Makes the conversion of a step by unfolding, now that it is known how the definition is written."""
        if self._unfolded:
            left, body = self._unfolded
            short = operators.shortened(self.expressions, body, {})
            says, _, dummies, parts = self.steps[1]
            by = operators.conversion(self.expressions, says, self.steps[0][0], {left: short})
            self.steps[1] = says, by, dummies, parts

    def shortened(self, operators):
        """The hypotheses and the conclusion as the specification has them."""
        known = {}
        short = lambda it: operators.shortened(self.expressions, it, known)
        return [short(it) for it in self.hypotheses], short(self.conclusion)

    def plain(self):
        """The same under another name: a lemma that says without abbreviations what the specification says with them."""
        made = copy.copy(self)
        made.suffix = "_plain"
        return made

    def with_statement(self, hypotheses, conclusion):
        """The same with another statement, and no proof."""
        made = copy.copy(self)
        made.hypotheses, made.conclusion, made.steps, made.root, made._unfolded = hypotheses, conclusion, [], None, None
        made._note_heads()
        return made

    def _note_heads(self):
        """Notes the terms of a statement that isn't the database's."""
        expressions = self.expressions
        self.heads = self.heads.union(*(expressions.spread(it)[1] for it in (*self.hypotheses, self.conclusion)))

    def citing(self, number, hypotheses, conclusion, operators, is_turned):
        """Proves this statement by the one that is cited by a number and says these, which are this one's with abbreviations or,
        turned, those of which this one's are the abbreviations."""
        made, expressions = copy.copy(self), self.expressions
        steps = made.steps = [(says, ~i, (), ()) for i, says in enumerate(self.hypotheses)]
        made._unfolded, parts = None, []

        def converted(says, proved, part, is_turned):
            if says == proved:
                return part
            short, long = (proved, says) if is_turned else (says, proved)
            steps.append((says, operators.conversion(expressions, short, long, {}, is_turned), (), (part,)))
            return ~(len(steps) - 1)

        for i, (mine, other) in enumerate(zip(self.hypotheses, hypotheses)):
            parts.append(converted(other, mine, ~i, not is_turned))
        steps.append((conclusion, number, tuple(range(self.count)), tuple(parts)))
        made.root = ~converted(self.conclusion, conclusion, ~(len(steps) - 1), is_turned)
        made._count()
        return made

    def said_shortly(self, hypotheses, conclusion, operators):
        """The same theorem with this statement, which is its own with abbreviations; the proof begins and ends by conversions."""
        made, expressions = copy.copy(self), self.expressions
        steps = made.steps = list(self.steps)
        for i, (long, short) in enumerate(zip(self.hypotheses, hypotheses)):
            if long != short:
                steps[i] = long, operators.conversion(expressions, short, long, {}, True), (), (~len(steps),)
                steps.append((short, ~i, (), ()))
        if conclusion != self.conclusion:
            by = operators.conversion(expressions, conclusion, self.conclusion, {})
            steps.append((conclusion, by, (), (~self.root,)))
            made.root = len(steps) - 1
        made.hypotheses, made.conclusion = hypotheses, conclusion
        made._note_heads()
        made._count()
        return made

    # By the database's proof

    def _proof(self):
        labels, letters = self.whole.database.proof(self.number)
        for i, says in enumerate(self.hypotheses):
            self.steps.append((says, ~i, (), ()))
        self._proof_of = {}
        for i, says in enumerate(self.hypotheses):
            self._proof_of.setdefault(says, ~i)
        self._hypothesis = {label: ~i for i, label in enumerate(self.statement.essentials)}
        for label, pattern in self.statement.syntax.items():
            self._hypothesis[label] = self.expressions.instance(pattern, self.places)
        self._place_of, self._own = dict(zip(self.statement.floats, self.places)), {}
        ready, entry = self.whole.ready, self._entry
        try:
            items = [ready.get(it) or entry(it) for it in labels]
            self.heads.update([it[0] for it in items if it.__class__ is tuple])
            if letters is None:
                stack = self._run({}, iter(()), items)
            else:
                numbers = itertools.chain(_SMALL, itertools.islice(_numbers(), len(_SMALL), None))
                table = _Table({"Z": None, **{number: it for it, number in zip([*self._frame(), *items], numbers)}})
                stack = self._run(table, numbers, map(table.__getitem__, _PARTS(letters)))
        except IndexError:
            raise Untranslatable("its proof takes what isn't there") from None
        if len(stack) != 2 or stack[1] >= 0 or not self._concludes(self.steps[~stack[1]][0]):
            raise Untranslatable("its proof ends in another formula than its own")
        self.root = ~stack[1]
        del self._proof_of, self._hypothesis, self._place_of, self._own

    def _concludes(self, says):
        """Whether an expression is the statement's conclusion. Where that wasn't read it is compared symbol by symbol, so that
        it is read as the proof made it."""
        if self.conclusion is None:
            symbols, pattern, floats = [], [], self.whole.database.floats
            place = {n: i for i, n in enumerate(self.places)}
            name = [floats[it.float].variable for it in self.variables]
            spell = self._speller(place, name, symbols)
            spell(says, pattern, spell)
            if symbols != self.whole.database.symbols(self.assertion.at)[1:]:
                return False
            self.statement.conclusion, self.conclusion = pattern, says
        return says == self.conclusion

    def _speller(self, place, name, symbols):
        """A function that gathers the symbols of an expression, and the expression as the grammar reads it. It is given itself."""
        keys, arity, terms = self.expressions.keys, self.expressions.arity, self.whole.syntax.terms

        def spell(number, pattern, spell):
            key = keys[number]
            if key.__class__ is int:
                symbols.append(name[key])
                pattern.append(place.get(number))
                return
            head = key[0]
            operands = key[1] if arity[~head] > 3 else key[1:]
            term = terms[~head]
            parts = None if term.is_in_order else [[] for _ in operands]
            for it in term.literals:
                if it.__class__ is str:
                    symbols.append(it)
                else:
                    spell(operands[it], parts[it] if parts else pattern, spell)
            for it in parts or ():
                pattern += it
            pattern.append(head)

        return spell

    def _frame(self):
        """The expressions and hypotheses that the letters of a proof begin with."""
        it = self.statement
        if it.order is None:
            return [*self.places, *(self._hypothesis[label] for label in it.labels)]
        return [self.places[what] if kind == "f" else self._hypothesis[what] for kind, what in it.order]

    def _entry(self, label):
        """What a label of a proof does, if that isn't the same in all proofs: a number is laid on the stack."""
        whole = self.whole
        kind, number = whole.database.labels.get(label, (None, 0))
        if kind == "f":
            made = self._place_of.get(number)
            return self._variable(number) if made is None else made
        if kind == "e":
            if label not in self._hypothesis:
                raise Untranslatable(f"its proof names {label}, which isn't its hypothesis")
            return self._hypothesis[label]
        if kind is None:
            raise Untranslatable(f"its proof names {label}, which isn't there")
        if number >= self.number:
            raise Untranslatable(f"its proof names {label}, which stands behind it")
        return whole.entry(number, self)

    def _run(self, table, numbers, items):
        """Runs a proof: what lies on the stack in the end, above a 0. Where `items` have None, what lies on top is saved in the
        table under the next one of the numbers."""
        stack, made, steps, proof_of = [0], self.expressions.numbers, self.steps, self._proof_of
        push, pop = stack.append, stack.pop
        for it in items:
            if it.__class__ is int:
                push(it)
            elif it.__class__ is tuple:
                head, size, a, b, c = it
                if size == 1:
                    stack[-1] = made[head, stack[-1], 0, 0]
                elif size == 2:
                    key = head, stack[a], stack[b], 0
                    pop()
                    stack[-1] = made[key]
                elif size:
                    stack[-size:] = (made[head, stack[a], stack[b], stack[c]],)
                else:
                    push(made[head, 0, 0, 0])
            elif it is None:
                table[next(numbers)] = stack[-1]
            elif it.__class__ is Statement:
                width = it.width
                if len(stack) <= width:
                    raise IndexError
                if width:
                    registers = [0, *stack[-width:]]
                    del stack[-width:]
                else:
                    registers = [0]
                if it.shuffle:
                    registers = [registers[i] for i in it.shuffle]
                if it.steps is None:
                    says = self.expressions.instance(it.conclusion, registers[1:])
                else:
                    add = registers.append
                    for head, a, b, c in it.steps:
                        add(made[head, registers[a], registers[b], registers[c]])
                    says = registers[it.root]
                known = proof_of.get(says)
                if known is None:
                    known = proof_of[says] = ~len(steps)
                    size, row = it.size, it.plain_row
                    if row is None:
                        steps.append(self._cited(it, says, registers))
                    else:
                        steps.append((says, row, registers[1:size], registers[size : width + 1]))
                push(known)
            else:
                push(it(stack))
        return stack

    def _cited(self, it, says, registers):
        """The step that cites a statement."""
        size = it.size
        parts = registers[size : it.width + 1] if it.parts is None else [registers[i] for i in it.parts]
        if it.bound:
            first, partition = [], []
            for at in it.bound:
                operand = registers[at + 1]
                if operand not in self._bound:
                    raise Untranslatable("an expression that is no variable stands for a bound one")
                if operand not in first:
                    first.append(operand)
                partition.append(first.index(operand))
            key, operands = tuple(partition), [*first, *(registers[i + 1] for i in it.regular)]
        else:
            key, operands = (), registers[1:size]
        row = it.rows.get(key)
        if row is None:
            row = self.whole.row(it.number, key)
        return says, row, operands, parts

    # Variables of the proof alone

    def _variable(self, number):
        """What stands for the variable of a `$f` that the statement doesn't have."""
        made = self._own.get(number)
        if made is None:
            whole = self.whole
            sort = whole.syntax.sort_of[whole.database.floats[number].code]
            made = self._own[number] = self._new(sort, number) if whole.syntax.sorts[sort].bound else self._closed(sort)
        return made

    def _new(self, sort, number):
        """A bound variable of the proof."""
        made = self.expressions.variable(len(self.variables))
        self._bound[made] = len(self.variables)
        self.variables.append(Variable(sort, True, number))
        return made

    def _closed(self, sort):
        """An expression without free variables for one that isn't bound; or a variable of the statement."""
        self.whole.counts.fillers += 1
        made = self._filler(sort)
        if made is None:
            made = next((place for place, s in zip(self.places, self.statement.sorts) if s == sort), None)
        if made is None:
            raise Untranslatable("a variable of the proof alone that nothing can stand for")
        return made

    def _filler(self, sort):
        term = self.whole.filling[sort]
        if term is None:
            return None
        syntax = self.whole.syntax
        self.heads.add(~term)
        operands = tuple(self._spare_variable(s) if syntax.sorts[s].bound else self._filler(s) for s, _ in syntax.terms[term].kinds)
        return self.expressions.apply(~term, operands)

    def _spare_variable(self, sort):
        """A bound variable that stands in closed expressions alone."""
        if sort not in self._spare:
            code = self.whole.syntax.sorts[sort].code
            number = next(i for i, it in enumerate(self.whole.database.floats) if it.code == code)
            self._spare[sort] = self._new(sort, number)
        return self._spare[sort]
