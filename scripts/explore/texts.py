"""Reads proof texts: nodes, and the statements that they say."""
import re
from dataclasses import dataclass, field

from .specification import Variable
from .trees import Trees

_PART = re.compile(r"--[^\n]*|[()]|[^\s()]+")


def nodes(text):
    """The top nodes, one after another. A node is an atom or a list of nodes."""
    return (node for node, _, _ in spans(text))


def spans(text):
    """The top nodes, each with the places where it begins and ends."""
    stack, here, start = [], None, 0
    for found in _PART.finditer(text):
        word = found.group()
        if word == "(":
            if here is not None:
                stack.append(here)
            else:
                start = found.start()
            here = []
        elif word == ")":
            if here is None:
                raise ValueError("a parenthesis is closed that isn't open")
            if stack:
                stack[-1].append(here)
                here = stack.pop()
            else:
                yield here, start, found.end()
                here = None
        elif here is not None and not word.startswith("--"):
            here.append(word)
    if here is not None:
        raise ValueError("a parenthesis isn't closed")


@dataclass(eq=False)
class Term:
    """A term or a definition. `declared` is the specification's; a local one has none. Where it has no notation it is
    written by the name `written`."""

    name: str
    kind: str
    parameters: list
    sort: str
    needs: tuple
    written: str
    declared: object = None
    dummies: list = field(default_factory=list)
    trees: object = None
    body: object = None


@dataclass(eq=False)
class Assertion:
    """An axiom or a theorem: its parameters, and its formulas over them as patterns. A theorem's node has its proof."""

    name: str
    kind: str
    parameters: list
    hypotheses: list
    conclusion: list
    names: list
    trees: object
    declared: object = None
    node: object = None
    span: tuple = (0, 0)  # where it stands in the text


class Scope:
    """The variables of a statement by their tokens in the text, and its expressions."""

    def __init__(self, text, variables, words):
        self.text, self.trees = text, Trees(variables)
        self._numbers = {word: i for i, word in enumerate(words) if word != "_"}

    def expression(self, node):
        if isinstance(node, str):
            number = self._numbers.get(node)
            return number if number is not None else self.trees.apply(self.text.terms[node], ())
        return self.trees.apply(self.text.terms[node[0]], tuple([self.expression(it) for it in node[1:]]))


class Text:
    """The statements of a text that is right. Public ones get the specification's names for theirs, in order."""

    def __init__(self, source, theory, names):
        self.source, self.names = source, names
        self.sorts, self.terms, self.assertions = {}, {}, {}
        self._declared = {space: iter(theory.space(space).values()) for space in ("sort", "term", "assertion")}

    def statements(self):
        """The terms and assertions, in order."""
        for node, start, end in spans(self.source):
            is_local = node[0] == "local"
            made = self._statement(node[1:] if is_local else node, is_local)
            if isinstance(made, Assertion):
                made.span = start, end
            if made:
                yield made

    def _statement(self, node, is_local):
        kind, name = node[0], node[1]
        if kind == "sort":
            self.sorts[name] = next(self._declared["sort"]).name
            return None
        if kind in ("term", "def"):
            made = self.terms[name] = self._term(node, None if is_local else next(self._declared["term"]))
        else:
            made = self.assertions[name] = self._assertion(node, None if is_local else next(self._declared["assertion"]))
        return made

    def _variables(self, binders, dummies, declared):
        """The variables of a statement, and the text's tokens for them."""
        known = declared.parameters if declared else []
        binders = [*binders, *dummies]
        words = [it[0] for it in binders]
        wished = []
        for i, (word, sort, *needs) in enumerate(binders):
            name = known[i].name if i < len(known) else None if self.names.is_made else word
            wished.append((name, self.sorts[sort], not needs))
        shown = self.names.variables(wished)
        by_word = dict(zip(words, shown))
        made = []
        for i, (binder, name, (_, sort, bound)) in enumerate(zip(binders, shown, wished)):
            needs = () if bound else tuple(by_word[it] for it in dict.fromkeys(binder[2]))
            made.append(Variable(name, sort, bound, needs, is_dummy=i >= len(binders) - len(dummies)))
        return made, words

    def _term(self, node, declared):
        kind, name, binders, (sort, needs) = node[:4]
        dummies = node[4] if kind == "def" else []
        made, words = self._variables(binders, dummies, declared)
        by_word = dict(zip(words, (it.name for it in made)))
        own = declared.name if declared else name
        term = Term(own, kind, made[: len(binders)], self.sorts[sort], tuple(by_word[it] for it in dict.fromkeys(needs)),
                    self.names.term(own, not declared), declared, made[len(binders):])
        if kind == "def":
            scope = Scope(self, made, words)
            term.trees, term.body = scope.trees, scope.expression(node[5])
        return term

    def _assertion(self, node, declared):
        made, words = self._variables(node[2], [], declared)
        scope = Scope(self, made, words)
        given = [it[1] if node[0] == "theorem" else it for it in node[3]]
        formulas = [scope.trees.pattern(scope.expression(it)) for it in [*given, node[4]]]
        return Assertion(declared.name if declared else node[1], node[0], made, formulas[:-1], formulas[-1],
                         hypothesis_names(node, declared, self.names.is_made), scope.trees, declared,
                         node if node[0] == "theorem" else None)

    def scope(self, theorem):
        """The scope of a theorem's proof: its parameters and its dummies."""
        binders, dummies = theorem.node[2], theorem.node[5]
        wished = [(None if self.names.is_made else word, self.sorts[sort], True) for word, sort in dummies]
        shown = self.names.variables(wished, {it.name for it in theorem.parameters})
        made = [Variable(name, sort, True, is_dummy=True) for name, (_, sort, _) in zip(shown, wished)]
        return Scope(self, [*theorem.parameters, *made], [it[0] for it in (*binders, *dummies)])


def hypothesis_names(node, declared, is_made):
    """What hypotheses are called: as in the specification, else as in the text."""
    count = len(node[3])
    usual = ["h"] if count == 1 else [f"h{i + 1}" for i in range(count)]
    if node[0] == "theorem" and not is_made:
        usual = [it[0] for it in node[3]]
    said = [name for name, _ in declared.hypotheses] if declared else usual
    return [a if a and a != "_" else b for a, b in zip(said, usual)]
