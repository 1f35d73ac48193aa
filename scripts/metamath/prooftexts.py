"""Proof texts of what is translated: the same statements as in the binary, under the database's labels."""
from .operators import CONGRUENCE, SAME
from .writing import Names, identifier


class ProofText:
    """Gathers the statements of a proof text."""

    def __init__(self, syntax, is_operator):
        self.syntax, self.is_operator = syntax, is_operator
        self.lines = []  # texts; of a term its number too, since it may be a local one
        self.names = {}  # of axioms and theorems, by the numbers by which they are cited
        for it in syntax.sorts:
            words = [w for bit, w in ((1, "pure"), (2, "strict"), (4, "provable")) if it.modifiers & bit]
            self.lines.append(f"(sort {' '.join([it.name, *words])})\n")

    def text(self, public):
        """The lines; terms that aren't public are local."""
        for it in self.lines:
            if isinstance(it, tuple):
                yield it[1] if it[0] in public else "(local " + it[1][1:]
            else:
                yield it

    def term(self, it, variables, names, result):
        self.lines.append(f"(term {it.name} {self._binders(variables, names)} {self._type(result)})\n")

    def definition(self, number, variables, names, result, dummies, expressions, body):
        it, count = self.syntax.terms[number], len(variables)
        given = " ".join(f"({n} {self.syntax.sorts[v.sort].name})" for n, v in zip(names[count:], dummies))
        said = self._spelled(expressions, names, body, {})
        self.lines.append((number, f"(def {it.name} {self._binders(variables, names)} {self._type(result)} ({given}) {said})\n"))

    @staticmethod
    def _type(result):
        sort, *needs = result.split()
        return f"({sort} ({' '.join(needs)}))"

    def _binders(self, variables, names):
        bound = [n for (_, b, _), n in zip(variables, names) if b]
        made = []
        for (sort, b, needs), name in zip(variables, names):
            inner = "" if b else f" ({' '.join(n for k, n in enumerate(bound) if needs >> k & 1)})"
            made.append(f"({name} {self.syntax.sorts[sort].name}{inner})")
        return f"({' '.join(made)})"

    def _spelled(self, expressions, names, number, known):
        made = known.get(number)
        if made is None:
            head, operands = expressions.head(number), expressions.operands(number)
            made = names[head] if head >= 0 else self.syntax.terms[~head].name
            if operands:
                made = f"({made} {' '.join(self._spelled(expressions, names, it, known) for it in operands)})"
            known[number] = made
        return made

    def assertion(self, number, building, body, name, names, variables, is_public, about=""):
        """An axiom or theorem. `body` counted what its proof uses; `about` is said above it."""
        known = {}
        spelled = lambda it: self._spelled(building.expressions, names, it, known)
        binders = self._binders(variables, names)
        self.names[number] = name
        if about:
            self.lines.append(f"-- {about}\n")
        if building.root is None:
            given = " ".join(map(spelled, building.hypotheses))
            self.lines.append(f"(axiom {name} {binders} ({given}) {spelled(building.conclusion)})\n")
            return
        proof = _Proof(self, building, body, spelled)
        given = " ".join(f"({t} {spelled(it)})" for t, it in zip(proof.titles, building.hypotheses))
        dummies = " ".join(f"({names[i]} {self.syntax.sorts[building.variables[i].sort].name})" for i in sorted(body.dummies()))
        start = "(theorem" if is_public else "(local theorem"
        self.lines.append(f"{start} {name} {binders} ({given}) {spelled(building.conclusion)} ({dummies})\n {proof.text()})\n")


class _Proof:
    """The text of one proof. A step that is used twice is a `:let`."""

    def __init__(self, whole, building, body, spelled):
        self.whole, self.building, self.body, self.spelled = whole, building, body, spelled
        self.taken = Names()
        self.titles = [self.taken.take(identifier(it)) for it in building.statement.essentials]
        self.lets = {}

    def text(self):
        steps, uses, root = self.building.steps, self.body.step_uses, self.building.root
        made = []
        for number in self._order(root):
            by = steps[number][1]
            if number != root and uses[number] > 1 and not (isinstance(by, int) and by < 0):
                value = self._said(number, True)
                self.lets[number] = self.taken.take(f"l{len(self.lets)}")
                made.append(f"(:let {self.lets[number]} {value}\n ")
        return f"{''.join(made)}{self._said(root, True)}{')' * len(made)}"

    def _order(self, root):
        """The steps, parts before what rests on them."""
        steps, done, open_ = self.building.steps, set(), [~root]
        while open_:
            it = open_.pop()
            if it >= 0:
                yield it
            elif ~it not in done:
                done.add(~it)
                open_.append(~it)
                open_ += steps[~it][3][::-1]

    def _said(self, number, is_let=False):
        says, by, operands, parts = self.building.steps[number]
        if not isinstance(by, int):
            return f"(:conv {self.spelled(says)} {self._conversion(by, operands)} {self._said(~parts[0])})"
        if by < 0:
            return self.titles[~by]
        if number in self.lets and not is_let:
            return self.lets[number]
        inner = " ".join([f"({' '.join(map(self.spelled, operands))})", *(self._said(~it) for it in parts)])
        return f"({self.whole.names[by]} {inner})"

    def _conversion(self, by, dummies):
        """The text of a conversion. Only what isn't an operator, the definition of a theorem by unfolding, has dummies."""
        expressions, terms, commands = self.building.expressions, self.whole.syntax.terms, iter(by.commands)

        def said():
            what, number, *_ = next(commands)
            if what == SAME:
                return f"(:refl {self.spelled(number)})"
            head, operands = expressions.head(number), expressions.operands(number)
            if what == CONGRUENCE:
                return f"({terms[~head].name} {' '.join([said() for _ in operands])})"
            is_operator = self.whole.is_operator(~head)
            given = "" if is_operator else " ".join(map(self.spelled, dummies))
            return f"(:unfold {terms[~head].name} ({' '.join(map(self.spelled, operands))}) ({given}) {said()})"

        return f"(:sym {said()})" if by.is_turned else said()
