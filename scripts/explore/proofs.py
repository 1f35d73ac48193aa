"""A proof as a list of steps, each with what it rests on and what it says."""
from dataclasses import dataclass
from typing import NamedTuple


class Step(NamedTuple):
    kind: str  # hypothesis, cited, unfolded or gap
    by: object  # the hypothesis's number, the assertion, the definitions that are unfolded, or nothing
    parts: tuple  # the steps that it uses, by number
    says: int  # the expression


@dataclass
class Outline:
    """What others have to know of a proof: what it cites and unfolds, and whether it has a gap."""

    cited: list
    unfolded: list
    has_gap: bool


def outline(text, theorem):
    """The outline of a theorem's proof. No expression is made for it, but where there is a conversion: whether this is a step
    its expressions say."""
    hypotheses = {it[0] for it in theorem.node[3]}
    cited, has_gap, open_ = {}, False, [(theorem.node[6], {})]
    while open_:
        node, lets = below_lets(*open_.pop(), hypotheses)
        if isinstance(node, str):
            let = lets.get(node)
            if let and let[2] is None:
                let[2] = True
                open_.append(let[:2])
        elif node[0] == ":conv":
            proof = Proof(text, theorem)
            return Outline(proof.cited, proof.unfolded, proof.has_gap)
        elif node[0] == ":sorry":
            has_gap = True
        else:
            cited.setdefault(text.assertions[node[0]])
            open_ += [(it, lets) for it in node[2:]]
    return Outline(list(cited), [], has_gap)


def below_lets(node, lets, hypotheses):
    """The proof below the lets with which a node begins, and what is named there: a name's proof, what is named in that, and
    its step, once it is needed. Lets of other names are put in where they stand, since no proof names what isn't in its reach."""
    while not isinstance(node, str) and node[0] == ":let":
        outer = lets
        if node[1] in outer or node[1] in hypotheses:
            lets = dict(outer)
        lets[node[1]] = [node[2], outer, None]
        node = node[3]
    return node, lets


class Proof:
    """The steps of a theorem's proof, in an order in which each stands behind those that it uses; equal steps are one."""

    def __init__(self, text, theorem):
        self.text, self.theorem = text, theorem
        self.scope = text.scope(theorem)
        self.trees = self.scope.trees
        self.steps, self._numbers = [], {}
        self.operands = {}  # a step that cites: what stands for the variables there
        self.lets = {}  # a let's name, where it is named: its step
        given = list(range(len(theorem.parameters)))
        self.hypotheses = [self.trees.instance(it, given) for it in theorem.hypotheses]
        self.conclusion = self.trees.instance(theorem.conclusion, given)
        words = [it[0] for it in theorem.node[3]]
        self._named = dict(zip(words, range(len(words))))
        self.last = self._proof(theorem.node[6], {})

    @property
    def cited(self):
        """The assertions that are cited, in the order of their steps."""
        return list(dict.fromkeys(it.by for it in self.steps if it.kind == "cited"))

    @property
    def unfolded(self):
        return list(dict.fromkeys(term for it in self.steps if it.kind == "unfolded" for term in it.by))

    @property
    def has_gap(self):
        return any(it.kind == "gap" for it in self.steps)

    def expressions(self):
        return [self.conclusion, *self.hypotheses, *(it.says for it in self.steps)]

    def _add(self, step):
        number = self._numbers.get(step)
        if number is None:
            number = self._numbers[step] = len(self.steps)
            self.steps.append(step)
        return number

    def _proof(self, node, lets):
        """The number of the step that a node proves. What isn't named is no step."""
        node, lets = below_lets(node, lets, self._named)
        if isinstance(node, str):
            return self._name(node, lets)
        if node[0] == ":sorry":
            return self._add(Step("gap", None, (), self.scope.expression(node[1])))
        if node[0] == ":conv":
            return self._conversion(node, lets)
        cited = self.text.assertions[node[0]]
        operands = [self.scope.expression(it) for it in node[1]]
        parts = tuple([self._proof(it, lets) for it in node[2:]])
        step = Step("cited", cited, parts, self.trees.instance(cited.conclusion, operands))
        self.operands.setdefault(step, operands)
        return self._add(step)

    def _name(self, word, lets):
        if word not in lets:
            number = self._named[word]
            return self._add(Step("hypothesis", number, (), self.hypotheses[number]))
        let = lets[word]
        if let[2] is None:
            let[2] = self.lets[word] = self._proof(let[0], let[1])
        return let[2]

    def _conversion(self, node, lets):
        part = self._proof(node[3], lets)
        says = self.scope.expression(node[1])
        terms, is_open = self._unfoldings(node[2])
        if is_open:
            return self._add(Step("gap", None, (part,), says))
        if says == self.steps[part].says:
            return part
        return self._add(Step("unfolded", tuple(terms), (part,), says))

    def _unfoldings(self, node):
        """The definitions that a conversion unfolds, and whether it is left open somewhere."""
        found, is_open, open_ = {}, False, [node]
        while open_:
            here = open_.pop()
            if isinstance(here, str) or here[0] == ":refl":
                continue
            if here[0] == ":sorry":
                is_open = True
            elif here[0] == ":unfold":
                found.setdefault(self.text.terms[here[1]])
                open_.append(here[4])
            else:
                open_ += reversed(here[1:])
        return list(found), is_open
