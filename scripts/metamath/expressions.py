"""Expressions, each once: two that are the same have the same number.

An expression is a variable, or a term with operands. A head is a variable's number, or ~ of a term's. What stands for an
expression in the table is the variable's number alone, or the head and three operands, 0 where there are fewer; the operands
of a term that has more than three are one tuple. So the time that a proof takes goes into a dictionary, and little else."""
from collections import defaultdict
from itertools import count

NARROW = 3  # operands that stand in a key one by one


class Untranslatable(ValueError):
    """Why something is left out."""


class CitesWhatIsLeftOut(Untranslatable):
    """It cites an assertion, given by its number, that is left out."""

    def __init__(self, number, label):
        super().__init__(f"cites {label}, which is left out")
        self.number = number


def key_of(head, operands):
    if len(operands) > NARROW:
        return head, operands, 0, 0
    return (head, *operands, *(0,) * (NARROW - len(operands)))


class Expressions:
    def __init__(self, arity):
        self.arity = arity  # of each term by its number
        self.numbers = defaultdict(count().__next__)  # a key's number is made where it is asked for first
        self._keys = []

    @property
    def keys(self):
        """The keys by their numbers."""
        if len(self._keys) < len(self.numbers):
            self._keys = list(self.numbers)
        return self._keys

    def variable(self, number):
        return self.numbers[number]

    def apply(self, head, operands):
        return self.numbers[key_of(head, operands)]

    def head(self, number):
        key = self.keys[number]
        return key[0] if isinstance(key, tuple) else key

    def operands(self, number):
        key = self.keys[number]
        if not isinstance(key, tuple):
            return ()
        size = self.arity[~key[0]]
        return key[1] if size > NARROW else key[1 : size + 1]

    def instance(self, pattern, given):
        """A formula as the grammar reads it, with these expressions for its variables."""
        stack, arity, numbers = [], self.arity, self.numbers
        for it in pattern:
            if it >= 0:
                stack.append(given[it])
                continue
            size = arity[~it]
            if size == 2:
                last = stack.pop()
                stack[-1] = numbers[it, stack[-1], last, 0]
            elif size == 1:
                stack[-1] = numbers[it, stack[-1], 0, 0]
            else:
                operands = tuple(stack[len(stack) - size :])
                del stack[len(stack) - size :]
                stack.append(numbers[key_of(it, operands)])
        return stack[0]

    def parts(self, number):
        """All applications in an expression, each once."""
        open_, seen = [number], set()
        while open_:
            here = open_.pop()
            if here not in seen and self.head(here) < 0:
                seen.add(here)
                yield here
                open_ += self.operands(here)

    def spread(self, number):
        """The variables of an expression in the order in which they occur, and the heads of its terms."""
        variables, terms, open_, seen = [], {}, [number], set()
        while open_:
            here = open_.pop()
            if here not in seen:
                seen.add(here)
                if self.head(here) < 0:
                    terms.setdefault(self.head(here))
                    open_ += reversed(self.operands(here))
                else:
                    variables.append(here)
        return variables, list(terms)

    def replaced(self, number, to, made):
        """An expression among others, `to`; `made` gives what stands for variables, or for other parts."""
        if number in made:
            return made[number]
        if self.head(number) >= 0:
            raise Untranslatable("a variable that nothing stands for")
        operands = tuple(self.replaced(it, to, made) for it in self.operands(number))
        return to.apply(self.head(number), operands)


def compiled(pattern, arity, size):
    """A formula as steps that build an instance: each step gives a key's head and the registers of its operands. Register 0
    holds 0, the next ones what stands for `size` variables, and each step's result comes behind. The steps and the register
    of the whole; None where a term has too many operands for that."""
    steps, known, stack = [], {}, []
    for it in pattern:
        if it >= 0:
            stack.append(it + 1)
            continue
        operands = arity[~it]
        if operands == 2:
            last = stack.pop()
            step = it, stack.pop(), last, 0
        elif operands > NARROW:
            return None
        else:
            step = key_of(it, tuple(stack[len(stack) - operands :]))
            del stack[len(stack) - operands :]
        register = known.get(step)
        if register is None:
            register = known[step] = size + 1 + len(steps)
            steps.append(step)
        stack.append(register)
    return steps, stack[0]
