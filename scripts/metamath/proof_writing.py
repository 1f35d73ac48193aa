"""Writes a proof in Metamath's compressed form."""
from .binaries import Variable
from .database_text import letters


class ProofWriter:
    """Writes the proof of one theorem. A node of it is a pair of a kind and a thing:
    variable: a bound or regular one as it stands; expression: as one of its sort; proof: a step of the body;
    conversion: an obligation that is met; opened: one that is met by a definition alone."""

    def __init__(self, export, body, scope, titles):
        self.export, self.body, self.scope, self.titles = export, body, scope, titles
        self.expressions = body.expressions
        self.used = set()  # the variables that stand in the proof
        self._nodes, self._uses = {}, {}

    def proof(self, frame):
        """The labels behind those of the frame, and the steps in letters."""
        root = ("proof", self.body.last)
        self._count(root)
        given = [self.export.variable_label(self.scope, i) for i in frame.order] + self.titles
        place = {label: i for i, label in enumerate(given)}
        steps, made = list(self._steps(root)), []
        for label, _ in steps:
            place.setdefault(label, len(place))
        labels, saved = list(place)[len(given) :], {}
        for label, node in steps:
            if node in saved:
                made.append(letters(len(place) + saved[node]))
                continue
            made.append(letters(place[label]))
            if self._nodes[node][1] and self._uses[node] > 1:
                saved[node] = len(saved)
                made.append("Z")
        self.export.counts.steps += len(made)
        return labels, "".join(made)

    def _count(self, root):
        """How often each node is used."""
        open_ = [root]
        while open_:
            node = open_.pop()
            self._uses[node] = self._uses.get(node, 0) + 1
            if self._uses[node] == 1:
                self._nodes[node] = self._node(node)
                open_ += self._nodes[node][1]

    def _steps(self, root):
        """Labels with their nodes, parts before what they are parts of; of a node that is saved only the first time its parts."""
        open_, done = [(root, False)], set()
        while open_:
            node, are_parts_done = open_.pop()
            label, parts = self._nodes[node]
            if are_parts_done or not parts or node in done:
                done.add(node)
                yield label, node
            else:
                open_.append((node, True))
                open_ += [(it, False) for it in reversed(parts)]

    def _node(self, node):
        """The label of a node, and the nodes of its parts."""
        kind, it = node
        return getattr(self, f"_{kind}")(it)

    def _variable(self, it):
        number = self.expressions.heads[it]
        self.used.add(number)
        return self.export.variable_label(self.scope, number), ()

    def _expression(self, it):
        expressions, export = self.expressions, self.export
        if expressions.is_variable[it]:
            variable = expressions.variables[expressions.heads[it]]
            if not variable.bound or export.bare(variable._replace(bound=False)):
                return self._variable(it)
            return self._cite(export.coercion(variable.sort), [("variable", it)])
        term = export.terms[expressions.heads[it]]
        return self._cite(term.frame, self._operands(term.row.parameters, expressions.operands[it]))

    def _proof(self, it):
        proof = self.body.proofs[it]
        if proof.kind == "hypothesis":
            return self.titles[proof.by], ()
        parts = [("proof", x) for x in proof.parts]
        if proof.kind == "cited":
            frame = self.export.theorems[proof.by]
            return self._cite(frame, self._operands(frame.parameters, proof.operands), parts)
        self.export.counts.conversions += 1
        rules = self.export.conversions.rules(self.export.sort_of(self.expressions, proof.says))
        sides = [("expression", proof.says), ("expression", self.body.proofs[proof.parts[0]].says)]
        return self._cite(rules.carries, sides, [self._met(proof.by), *parts])

    def _opened(self, owed):
        term = self.export.terms[self.expressions.heads[owed.left]]
        _, _, operands, dummies, _ = owed.how
        variables = [*term.row.parameters, *(Variable(0, True, 0) for _ in dummies)]
        frame = self.export.definition(self.expressions.heads[owed.left])
        return self._cite(frame, self._operands(variables, [*operands, *dummies]))

    def _conversion(self, owed):
        rules = self.export.conversions.rules(self.export.sort_of(self.expressions, owed.left))
        left, right = ("expression", owed.left), ("expression", owed.right)
        kind, *how = owed.how
        if kind == "refl":
            return self._cite(rules.reflexive, [left])
        if kind == "symm":
            return self._cite(rules.symmetric, [right, left], [self._met(how[0])])
        if kind == "cong":
            return self._through(owed, *how)
        made = how[3]
        return self._cite(rules.transitive, [left, ("expression", made.left), right], [("opened", owed), self._met(made)])

    def _through(self, owed, number, made):
        parameters, operands = self.export.terms[number].row.parameters, self.expressions.operands
        regular = [i for i, x in enumerate(parameters) if not self.export.bare(x)]
        sides = self._operands(parameters, operands[owed.left]) + [("expression", operands[owed.right][i]) for i in regular]
        return self._cite(self.export.conversions.through(number), sides, [self._met(made[i]) for i in regular])

    @staticmethod
    def _met(owed):
        """The node of an obligation."""
        owed = owed.final()
        is_opened = owed.how[0] == "unfold" and owed.how[4].final().how[0] == "refl"
        return ("opened" if is_opened else "conversion"), owed

    def _operands(self, parameters, operands):
        return [("variable" if self.export.bare(p) else "expression", it) for p, it in zip(parameters, operands)]

    @staticmethod
    def _cite(frame, operands, parts=()):
        return frame.label, [*(operands[i] for i in frame.order), *parts]
