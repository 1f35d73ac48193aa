"""Writes expressions in the notations of a specification."""
from .formulas import MAX
from .logic import Hole, Var, holes_of, walk


class Printer:
    def __init__(self, theory):
        self.notations = theory.notations
        self.leading = {term.name: (constant, level, literals)
                        for constant, (level, term, literals) in reversed(self.notations.leading.items())}
        self.infix = {term.name: (constant, *rest)
                      for constant, (level, term, *others) in reversed(self.notations.infix.items())
                      for rest in [(level, *others)]}
        self.coercions = {it.name for way in self.notations.coercions.values() for it in way}

    def formula(self, e, names=None):
        return self.spaced(self.tokens(e, 0, names if names is not None else {}))

    def formulas(self, them):
        """Several of them; what isn't found yet has the same name in all."""
        names = hole_names(them)
        return [self.formula(it, names) for it in them]

    def spaced(self, tokens):
        """One line: no space behind what needs none, or before it."""
        text = ""
        for token in tokens:
            is_tight = not text or text[-1] in self.notations.left or token[0] in self.notations.right
            text += token if is_tight else " " + token
        return text

    def tokens(self, e, level, names):
        e = walk(e)
        if isinstance(e, Var):
            return [e.name]
        if isinstance(e, Hole):
            return [names.get(e, f"?{e.name}")]
        if e.term.name in self.coercions:
            return self.tokens(e.operands[0], level, names)
        own, tokens = self.whole(e, names)
        return ["(", *tokens, ")"] if own < level else tokens

    def whole(self, e, names):
        """The precedence of an application, and its tokens."""
        if e.term.name in self.infix:
            constant, level, to_left, first, literals = self.infix[e.term.name]
            head = self.tokens(e.operands[first], level if to_left else level + 1, names)
            rest = self.behind(e, literals, level + 1 if to_left else level, names)
            return level, [*head, constant, *rest]
        if e.term.name in self.leading:
            constant, level, literals = self.leading[e.term.name]
            return level, [constant, *self.behind(e, literals, level, names)]
        operands = [self.tokens(it, MAX, names) for it in e.operands]
        return 1024 if operands else MAX, [e.term.name, *sum(operands, [])]

    def behind(self, e, literals, last, names):
        tokens = []
        for i, literal in enumerate(literals):
            if not isinstance(literal, int):
                tokens.append(literal[0])
                continue
            behind = literals[i + 1] if i + 1 < len(literals) else None
            if behind is None:
                level = last
            else:
                level = MAX if isinstance(behind, int) else behind[1] + 1
            tokens += self.tokens(e.operands[literal], level, names)
        return tokens


def hole_names(them):
    """A name of its own for each that isn't found yet."""
    names, taken = {}, set()
    for hole in (hole for e in them for hole in holes_of(e)):
        if hole in names:
            continue
        numbered = (f"?{hole.name}{i or ''}" for i in range(len(taken) + 1))
        names[hole] = next(it for it in numbered if it not in taken)
        taken.add(names[hole])
    return names
