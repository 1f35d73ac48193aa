"""The proof machine, as far as it went: what stands on the stack where a command is refused, with names."""
from .binaries import Speller, Word, command, named
from .trees import Budget, instance, is_same

PROOF, EXPRESSION, OBLIGATION, CONVERSION = "proof", "expression", "obligation", "conversion"


class Refused(Exception):
    """The command can't be executed; what is wrong in words."""


class Item(tuple):
    """An item of the stack or the heap: its kind and its one or two expressions."""

    @property
    def kind(self):
        return self[0]


def item(kind, *expressions):
    return Item((kind, *expressions))


class Machine:
    """One body, run up to a place. Nothing is checked but what says why a command is refused."""

    def __init__(self, binary, names, statement, parameters, words):
        self.binary, self.names, self.statement = binary, names, statement
        self.words = dict(zip(parameters, words))
        self.bound = [name for name, word in zip(parameters, words) if word.bound]
        self.heap = [item(EXPRESSION, it) for it in parameters]
        self.stack, self.hypotheses, self.dummies = [], [], 0
        self.speller = Speller(binary, names)

    # what is executed

    def run(self, until):
        """Executes the commands before a place."""
        at = self.statement.body
        while at < until:
            found = command(self.binary.data, at, self.statement.end)
            if found is None:
                return
            self.execute(found[0], found[1])
            at = found[2]

    def pop(self):
        return self.stack.pop()

    def execute(self, code, value):
        name = named(code, value).split()[0]
        getattr(self, "do_" + name)(value)

    def applied(self, term):
        count = len(self.binary.term(term)[0])
        operands = [self.pop()[1] for _ in range(count)][::-1]
        return item(EXPRESSION, (self.names.term(term), *operands) if operands else self.names.term(term))

    def do_term(self, term):
        self.stack.append(self.applied(term))

    def do_term_save(self, term):
        self.do_term(term)
        self.heap.append(self.stack[-1])

    def do_ref(self, place):
        found = self.heap[place]
        if found.kind == CONVERSION:
            self.pop()
        else:
            self.stack.append(found)

    do_conv_ref = do_ref

    def do_dummy(self, sort):
        name = f"d{self.dummies}"
        self.dummies += 1
        self.words[name] = self.dummy_word(sort)
        self.bound.append(name)
        self.heap.append(item(EXPRESSION, name))
        self.stack.append(self.heap[-1])

    def dummy_word(self, sort):
        return Word(1 << 63 | sort << 56 | 1 << len(self.bound))

    def do_thm(self, row):
        conclusion = self.pop()
        count = len(self.binary.theorem(row)[0])
        for _ in range(count + self.binary.hypotheses_of(row)):
            self.pop()
        self.stack.append(item(PROOF, conclusion[1]))

    def do_thm_save(self, row):
        self.do_thm(row)
        self.heap.append(self.stack[-1])

    def do_hyp(self, _):
        e = self.pop()[1]
        self.hypotheses.append(e)
        self.heap.append(item(PROOF, e))

    def do_conv(self, _):
        proof, e = self.pop(), self.pop()
        self.stack += [item(PROOF, e[1]), item(OBLIGATION, e[1], proof[1])]

    def do_refl(self, _):
        self.pop()

    def do_symm(self, _):
        _, e, f = self.pop()
        self.stack.append(item(OBLIGATION, f, e))

    def do_cong(self, _):
        _, e, f = self.pop()
        parts = [] if isinstance(e, str) else list(zip(e[1:], f[1:]))
        self.stack += [item(OBLIGATION, a, b) for a, b in reversed(parts)]

    def do_unfold(self, _):
        body, below = self.pop(), self.pop()
        if below.kind == EXPRESSION:
            below = self.pop()
        self.stack.append(item(OBLIGATION, body[1], below[2]))

    def do_conv_cut(self, _):
        _, e, f = self.pop()
        self.stack += [item(CONVERSION, e, f), item(OBLIGATION, e, f)]

    def do_conv_save(self, _):
        self.heap.append(self.pop())

    def do_save(self, _):
        self.heap.append(self.stack[-1])

    def do_sorry(self, _):
        found = self.pop()
        if found.kind == EXPRESSION:
            self.stack.append(item(PROOF, found[1]))

    # what is asked

    def sort(self, e):
        if isinstance(e, str) and e in self.words:
            return self.words[e].sort
        name = e if isinstance(e, str) else e[0]
        row = self.names.row_of(name)
        return self.binary.term(row)[1] if row is not None else -1

    def is_bound(self, e):
        return isinstance(e, str) and e in self.words and self.words[e].bound

    def variables(self, e):
        """The bound variables of an expression, all of them."""
        if isinstance(e, str):
            word = self.words.get(e)
            if word is None:
                return set()
            return {e} if word.bound else {it for k, it in enumerate(self.bound) if word.bits >> k & 1}
        return set().union(*map(self.variables, e[1:]))

    def free(self, e):
        """The variables that are free in an expression."""
        if isinstance(e, str):
            return self.variables(e)
        row = self.names.row_of(e[0])
        words, _, result, _, _ = self.binary.term(row)
        bound = [operand for word, operand in zip(words, e[1:]) if word.bound]
        found = {it for k, it in enumerate(bound) if result.bits >> k & 1 and isinstance(it, str)}
        for word, operand in zip(words, e[1:]):
            if not word.bound:
                found |= self.free(operand) - {it for k, it in enumerate(bound) if word.bits >> k & 1 and isinstance(it, str)}
        return found

    # unify streams

    def unify(self, place, operands, target, take):
        """Runs a stream on a target as the machine does, and raises what stops it. `take` gives the next hypothesis, or None."""
        heap, targets, budget = list(operands), [target], Budget()
        used = set().union(*map(self.variables, operands)) if operands else set()
        for code, value, at in self.binary.stream(place):
            budget.step()
            where = f"its stream's command {named(code, value)} at byte {at}"
            if code == 0x36 or code == 0:
                if targets:
                    raise Refused((where, "nothing is left to be compared here", targets[-1]))
                if code == 0:
                    return
                found = take()
                if found is None:
                    raise Refused((where, "a hypothesis is to be compared, and none is left", None))
                targets.append(found)
                continue
            if not targets:
                raise Refused((where, "something is to be compared here, and nothing is left", None))
            top = targets.pop()
            if code in (0x30, 0x31):
                name, count = self.names.term(value), len(self.binary.term(value)[0])
                if (top if isinstance(top, str) else top[0]) != name or isinstance(top, str) and (top in self.words or count):
                    raise Refused((where, f"an application of {name} is wanted", top))
                if code == 0x31:
                    heap.append(top)
                targets += [] if isinstance(top, str) else list(top[1:])[::-1]
            elif code == 0x32:
                if value >= len(heap):
                    raise Refused((where, f"its heap has {len(heap)} places", top))
                if not is_same(heap[value], top):
                    raise Refused((where, ("the same as", heap[value]), top))
            elif code == 0x33:
                if not self.is_bound(top) or self.sort(top) != value:
                    raise Refused((where, f"a bound variable of the sort {self.names.sort(value)} is wanted", top))
                if top in used:
                    raise Refused((where, "a bound variable is wanted that is in no operand and stands for no dummy before", top))
                used.add(top)
                heap.append(top)
            else:
                return

    def instance_of(self, row, operands):
        """What an assertion says with its operands put in: its hypotheses and its conclusion."""
        words, place = self.binary.theorem(row)
        names = [f"v{i}" for i in range(len(words))]
        conclusion, *hypotheses = self.speller.spelled(place, names)
        given, budget = dict(zip(names, operands)), Budget(50_000)
        return [instance(it, given, budget) for it in reversed(hypotheses)], instance(conclusion, given, budget)
