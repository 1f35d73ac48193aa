"""Writes the commands of a binary: unify streams, and bodies.

In a body each expression and each step that is used twice is built once, and named from then on."""
import itertools

from .operators import CONGRUENCE, SAME, UNFOLD


def command(code, value=0):
    """A command with its operand in the fewest bytes."""
    if value == 0:
        return bytes((code,))
    if value < 1 << 8:
        return bytes((code | 0x40, value))
    if value < 1 << 16:
        return bytes((code | 0x80,)) + value.to_bytes(2, "little")
    return bytes((code | 0xC0,)) + value.to_bytes(4, "little")


def statement(code, body):
    """A statement's command with the least operand in which the distance fits, and its body."""
    for mask, size in ((0x40, 1), (0x80, 2), (0xC0, 4)):
        distance = 1 + size + len(body)
        if distance < 1 << 8 * size:
            return bytes((code | mask,)) + distance.to_bytes(size, "little") + body
    raise ValueError("a body of more than 4 GB")


class _Commands(dict):
    """The commands of a code by their operands."""

    def __init__(self, code):
        super().__init__()
        self.code = code

    def __missing__(self, value):
        self[value] = made = command(self.code, value)
        return made


TERM, TERM_SAVE, REF, DUMMY, THEOREM, THEOREM_SAVE = map(_Commands, (0x10, 0x11, 0x12, 0x13, 0x14, 0x15))
HYPOTHESIS, CONVERTED, TURNED = b"\x16", b"\x17", b"\x19"
CONVERSIONS = {SAME: b"\x18", CONGRUENCE: b"\x1a", UNFOLD: b"\x1b"}
U_TERM, U_TERM_SAVE, U_REF, U_DUMMY, U_HYPOTHESIS = *map(_Commands, (0x30, 0x31, 0x32, 0x33)), b"\x36"
END = b"\0"


class _Later(dict):
    """Commands by what gives their operands, each made when it is needed first."""

    def __init__(self, row_of, commands):
        super().__init__()
        self.row_of, self.commands = row_of, commands

    def __missing__(self, key):
        self[key] = made = self.commands[self.row_of(key)]
        return made


class Commands:
    """The commands of terms by their heads, and of theorems by the numbers by which they are cited."""

    def __init__(self, terms):
        self.terms, self.rows = terms, {}
        self.term, self.term_save = (_Later(lambda head: terms[~head].row, it) for it in (TERM, TERM_SAVE))
        self.theorem, self.theorem_save = (_Later(self.rows.__getitem__, it) for it in (THEOREM, THEOREM_SAVE))
        self.matched, self.matched_save = (_Later(lambda head: terms[~head].row, it) for it in (U_TERM, U_TERM_SAVE))


class Body:
    """The body of an axiom, a theorem or a definition over these expressions. Variables from `count` on are dummies."""

    def __init__(self, commands, expressions, variables, count):
        self.commands, self.expressions, self.variables, self.count = commands, expressions, variables, count
        self.keys, self.arity = expressions.keys, expressions.arity
        self.uses = [0] * len(self.keys)
        # How an expression is named, once it is built.
        self.refs = [*map(REF.__getitem__, range(count)), *[None] * (len(self.keys) - count)]
        self.out, self.next_ref = bytearray(), map(REF.__getitem__, itertools.count(count)).__next__
        self._write = self._writer()
        self.step_uses = self.step_refs = ()
        self.has_dummies = len(variables) > count

    # Counting

    def count_expressions(self, roots):
        for it in roots:
            self.uses[it] += 1

    def count_steps(self, steps, uses):
        """Counts the expressions of a proof's steps; `uses`: how often each step is used."""
        counts = self.uses
        for (says, by, operands, _), used in zip(steps, uses):
            if not used:
                continue
            if by.__class__ is int:
                if by < 0:
                    continue
                for it in operands:
                    counts[it] += 1
            else:
                for what, *given in by.commands:
                    if what == UNFOLD:
                        for it in given:
                            counts[it] += 1
            counts[says] += 1
        self.step_uses, self.step_refs = uses, [None] * len(steps)

    def count_operands(self):
        """Counts the operands of what is used, once for each application."""
        uses, arity = self.uses, self.arity
        for key, used in zip(reversed(self.keys), reversed(uses)):  # what is counted lies before, and is seen when it is reached
            if used and key.__class__ is tuple:
                size = arity[~key[0]]
                if size == 2:
                    uses[key[1]] += 1
                    uses[key[2]] += 1
                elif size:
                    for it in key[1] if size > 3 else key[1 : size + 1]:
                        uses[it] += 1

    def heads(self):
        """The heads of the terms that are used."""
        return {key[0] for key, uses in zip(self.keys, self.uses) if uses and key.__class__ is tuple}

    def dummies(self):
        """The dummies that are used."""
        return {key for key, uses in zip(self.keys, self.uses) if uses and key.__class__ is int and key >= self.count}

    # Writing

    def expression(self, number):
        """Writes an expression: its reference, or what builds it."""
        self._write(number, self._write)

    def _writer(self):
        """The function behind `expression`. It is given itself, and doesn't hold itself, so that it goes when the body does."""
        out, refs, keys, uses, arity, next_ref = self.out, self.refs, self.keys, self.uses, self.arity, self.next_ref
        build, save, variables = self.commands.term, self.commands.term_save, self.variables

        def write(number, write):
            nonlocal out
            ref = refs[number]
            if ref is not None:
                out += ref
                return
            key = keys[number]
            if key.__class__ is int:
                out += DUMMY[variables[key].sort]
            else:
                head = key[0]
                size = arity[~head]
                for it in key[1] if size > 3 else key[1 : size + 1]:
                    ref = refs[it]
                    if ref is None:
                        write(it, write)
                    else:
                        out += ref
                if uses[number] < 2:
                    out += build[head]
                    return
                out += save[head]
            refs[number] = next_ref()

        return write

    def hypotheses(self, expressions):
        self.given = []
        for it in expressions:
            self.expression(it)
            self.out += HYPOTHESIS
            self.given.append(self.next_ref())

    def proof(self, steps, root):
        """Writes a proof. On the list of what is left, ~ of a step stands where its parts aren't written yet."""
        out, refs, step_refs, uses, write = self.out, self.refs, self.step_refs, self.step_uses, self._write
        cite, cite_save = self.commands.theorem, self.commands.theorem_save
        left = [~root]
        while left:
            number = left.pop()
            if number < 0:
                ref = step_refs[~number]
                if ref is not None:
                    out += ref
                    continue
                says, by, _, parts = steps[~number]
                if by.__class__ is not int:
                    write(says, write)
                elif by < 0:
                    out += self.given[~by]
                    continue
                left.append(~number)
                left += parts[::-1]
                continue
            says, by, operands, _ = steps[number]
            if by.__class__ is not int:
                self._convert(by)
                continue
            for it in operands:
                ref = refs[it]
                if ref is None:
                    write(it, write)
                else:
                    out += ref
            write(says, write)
            if uses[number] < 2:
                out += cite[by]
            else:
                out += cite_save[by]
                step_refs[number] = self.next_ref()

    def _convert(self, by):
        """Pays the obligation that an expression converts to what was proved."""
        self.out += CONVERTED + (TURNED if by.is_turned else b"")
        for what, *given in by.commands:
            for it in given if what == UNFOLD else ():
                self.expression(it)
            self.out += CONVERSIONS[what]

    # Unify streams

    def stream(self, roots):
        """The unify stream of these expressions."""
        keys, arity, once, again, open_ = self.keys, self.arity, set(), set(), list(roots)
        while open_:
            it = open_.pop()
            if it in once:
                again.add(it)
            else:
                once.add(it)
                key = keys[it]
                if key.__class__ is tuple:
                    size = arity[~key[0]]
                    open_ += key[1] if size > 3 else key[1 : size + 1]
        match, match_save = self.commands.matched, self.commands.matched_save
        out, refs, heap = bytearray(), {}, self.count
        for i, root in enumerate(roots):
            if i:
                out += U_HYPOTHESIS
            open_ = [root]
            while open_:
                it = open_.pop()
                if it in refs:
                    out += refs[it]
                    continue
                key = keys[it]
                if key.__class__ is int:
                    if key < self.count:
                        out += U_REF[key]
                        continue
                    out += U_DUMMY[self.variables[key].sort]
                else:
                    head = key[0]
                    size = arity[~head]
                    operands = key[1] if size > 3 else key[1 : size + 1]
                    open_ += operands[::-1]
                    if it not in again or not operands or self.has_dummies and self._has_dummy(it):
                        out += match[head]
                        continue
                    out += match_save[head]
                refs[it] = U_REF[heap]
                heap += 1
        return bytes(out + END)

    def _has_dummy(self, number):
        """Whether a dummy stands in an expression. Of a definition such a one isn't marked: verifiers that compare by identity
        take no dummy that is in what they have marked."""
        key = self.keys[number]
        if key.__class__ is int:
            return key >= self.count
        return any(self._has_dummy(it) for it in self.expressions.operands(number))
