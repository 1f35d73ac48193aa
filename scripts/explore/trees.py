"""Expressions of one statement, each kept once: an expression is a number, and equal expressions are one number."""


class Trees:
    """The expressions over a statement's variables. A variable's head is its number there, an application's its term."""

    def __init__(self, variables):
        self.variables = variables  # in order; the first expressions are these
        self.heads = list(range(len(variables)))
        self.operands = [()] * len(variables)
        self.sizes = [1] * len(variables)
        self._numbers = {}

    def apply(self, term, operands):
        key = (term, operands)
        number = self._numbers.get(key)
        if number is None:
            number = self._numbers[key] = len(self.heads)
            self.heads.append(term)
            self.operands.append(operands)
            sizes = self.sizes
            sizes.append(1 + sum(sizes[it] for it in operands))
        return number

    def is_variable(self, number):
        return number < len(self.variables)

    def sort(self, number):
        head = self.heads[number]
        return self.variables[head].sort if number < len(self.variables) else head.sort

    def instance(self, pattern, given):
        """What a pattern says of these expressions. A pattern is a list of numbers of variables and of terms, operands
        before their term (`pattern_of` makes it)."""
        stack = []
        for it in pattern:
            if isinstance(it, int):
                stack.append(given[it])
            else:
                count = len(it.parameters)
                if count:
                    operands = tuple(stack[-count:])
                    del stack[-count:]
                else:
                    operands = ()
                stack.append(self.apply(it, operands))
        return stack[0]

    def pattern(self, number):
        """An expression as a pattern over the variables' numbers."""
        made, open_ = [], [(number, False)]
        while open_:
            here, is_done = open_.pop()
            if is_done or here < len(self.variables):
                made.append(self.heads[here])
            else:
                open_.append((here, True))
                open_ += [(it, False) for it in reversed(self.operands[here])]
        return made

    def terms_of(self, numbers):
        """The terms that stand in these expressions."""
        seen, open_, found = set(), list(numbers), {}
        while open_:
            here = open_.pop()
            if here not in seen and here >= len(self.variables):
                seen.add(here)
                found.setdefault(self.heads[here])
                open_ += self.operands[here]
        return list(found)
