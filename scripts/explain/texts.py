"""Proof texts: one statement is read, and of what stands before it what it names."""
import itertools
import re

from .trees import Budget, instance

WORD = re.compile(r"--[^\n]*|[()]|[^\s()]+")
HEAD = rb"\(\s*(?:local\s+)?(?:sort|term|axiom|def|theorem)\s"
AT_MARGIN = re.compile(rb"^" + HEAD, re.M)
TOP = re.compile(rb"--[^\n]*|[()]")
SMALL = 2_000_000
WINDOW = 1 << 20


class Node(list):
    """A list of the text, with its place."""

    at = 0


class Atom(str):
    """An atom of the text, with its place."""

    at = 0


def read_one(data, start):
    """The form that begins at a place, as far as the text goes; and whether it is whole."""
    end = start + WINDOW
    while True:
        piece = data[start:end].decode("latin-1")
        found = parsed(piece, start)
        if found[1] or end >= len(data):
            return found
        end += (end - start) * 3


def parsed(text, offset):
    stack = []
    for found in WORD.finditer(text):
        word = found.group()
        if word.startswith("--"):
            continue
        if word == "(":
            node = Node()
            node.at = offset + found.start()
            if stack:
                stack[-1].append(node)
            stack.append(node)
        elif word == ")":
            node = stack.pop()
            if not stack:
                return node, True
        elif stack:
            atom = Atom(word)
            atom.at = offset + found.start()
            stack[-1].append(atom)
        else:
            return None, False
    return (stack[0] if stack else None), False


def tree(node):
    """The expression that a node spells; (c) and c are the same."""
    if isinstance(node, str):
        return str(node)
    return str(node[0]) if len(node) == 1 else (str(node[0]), *map(tree, node[1:]))


def written(node):
    return str(node) if isinstance(node, str) else "(" + " ".join(map(written, node)) + ")"


def start_of(data, at):
    """Where the statement begins in which a place stands."""
    if at <= SMALL:
        return exact_start(data, at)
    found = None
    for found in AT_MARGIN.finditer(data, max(0, at - WINDOW), at + 1):
        pass
    return found.start() if found else exact_start(data, at)


def exact_start(data, at):
    depth, start = 0, 0
    for found in TOP.finditer(data, 0, at + 1):
        byte = found.group()
        if byte == b"(":
            if depth == 0:
                start = found.start()
            depth += 1
        elif byte == b")":
            depth -= 1
    return start


def start_of_number(data, number):
    """Where the statement of a number begins, from 1; of a large text those at the margin are counted."""
    if len(data) > SMALL:
        found = next(itertools.islice(AT_MARGIN.finditer(data), number - 1, None), None)
        return found.start() if found else None
    depth, count = 0, 0
    for found in TOP.finditer(data):
        if found.group() == b"(":
            count += depth == 0
            if count == number:
                return found.start()
            depth += 1
        elif found.group() == b")":
            depth -= 1
    return None


def is_comment(data, at):
    """Whether a place stands in a comment."""
    line = data.rfind(b"\n", 0, at) + 1
    found = data.find(b"--", line, at)
    return found >= 0 and (found == line or data[found - 1 : found] in (b" ", b"(", b")"))


class Names(dict):
    """The declarations of one kind before a place, each looked for when it is asked for."""

    def __init__(self, data, end, kinds, make):
        super().__init__()
        self.data, self.end, self.make = data, end, make
        self.kinds = [before + it for it in kinds.split(b"|") for before in (b"", b"local ") if not before or it in (b"def", b"theorem")]
        self.head = re.compile(rb"\(\s*(?:local\s+)?(?:" + kinds + rb")\s+$")

    def __missing__(self, name):
        node = self.find(name)
        if node is None:
            raise KeyError(name)
        self[name] = self.make(node)
        return self[name]

    def __contains__(self, name):
        try:
            return bool(self[name])
        except KeyError:
            return False

    def find(self, name):
        """The declaration of the name, or None. In a large file it begins with its words and single blanks."""
        word = name.encode("latin-1")
        for kind in self.kinds if word else ():
            at = self.place(b"(" + kind + b" " + word, 0)
            if at is not None:
                return read_one(self.data, at)[0]
        return self.find_anywhere(word) if word and self.end < SMALL else None

    def place(self, text, at):
        """Where a text stands as whole words, and in no comment."""
        at = self.data.find(text, at, self.end)
        while at >= 0:
            if self.data[at + len(text) : at + len(text) + 1] in (b" ", b"\n", b"(", b")") and not is_comment(self.data, at):
                return at
            at = self.data.find(text, at + len(text), self.end)
        return None

    def find_anywhere(self, word):
        at = -1
        while (at := self.place(word, at + 1)) is not None:
            head = self.head.search(self.data[max(0, at - 60) : at])
            if head:
                return read_one(self.data, max(0, at - 60) + head.start())[0]
        return None

    def all(self, most=20_000):
        """Names of this kind before the place, as far back as a window goes."""
        start = max(0, self.end - WINDOW * 4)
        found = re.findall(self.head.pattern[:-1] + rb"([A-Za-z_][A-Za-z0-9_]*)", self.data[start : self.end])
        return [it.decode() for it in found[-most:]]


class Term:
    """A term or a definition."""

    def __init__(self, node):
        self.at, self.node = node.at, node[1:] if node[0] == "local" else node
        self.is_local = node[0] == "local"
        self.binders, self.result = self.node[2], str(self.node[3][0])
        is_definition = self.node[0] == "def"
        self.dummies, self.body = (self.node[4], tree(self.node[5])) if is_definition else ([], None)


class Assertion:
    """An axiom or a theorem."""

    def __init__(self, node):
        self.at, self.node = node.at, node[1:] if node[0] == "local" else node
        self.binders, hypotheses = self.node[2], self.node[3]
        self.is_theorem = self.node[0] == "theorem"
        self.hypotheses = [tree(it[1] if self.is_theorem else it) for it in hypotheses]
        self.conclusion = tree(self.node[4])


class Theory:
    """What is declared before a place."""

    def __init__(self, data, end):
        self.sorts = Names(data, end, rb"sort", lambda node: node)
        self.terms = Names(data, end, rb"term|def", Term)
        self.assertions = Names(data, end, rb"axiom|theorem", Assertion)


def given_by(binders, operands):
    """What stands for each parameter."""
    return {str(binder[0]): tree(it) for binder, it in zip(binders, operands) if str(binder[0]) != "_"}


class Statement:
    """The statement that is refused, with its variables and hypotheses."""

    def __init__(self, theory, node):
        self.theory, self.node = theory, node[1:] if node and node[0] == "local" else node
        self.kind = str(self.node[0])
        self.binders = self.node[2] if len(self.node) > 2 and isinstance(self.node[2], list) else []
        dummies = self.node[5] if self.kind == "theorem" and len(self.node) > 5 else self.node[4] if self.kind == "def" and len(self.node) > 4 else []
        self.variables = {str(it[0]): it for it in [*self.binders, *dummies] if isinstance(it, list) and it}
        self.hypotheses = {}
        if self.kind == "theorem":
            self.hypotheses = {str(it[0]): tree(it[1]) for it in self.node[3] if isinstance(it, list) and len(it) == 2}

    def sort(self, e):
        if isinstance(e, str) and e in self.variables:
            return str(self.variables[e][1])
        return self.theory.terms[e if isinstance(e, str) else e[0]].result

    def variables_of(self, e):
        """The bound variables of an expression: all, and not the free ones alone."""
        if isinstance(e, str):
            binder = self.variables.get(e)
            if binder is None:
                return set()
            return {e} if len(binder) == 2 else set(map(str, binder[2]))
        return set().union(*map(self.variables_of, e[1:]))

    def proves(self, proof, named):
        """What a proof proves, where `named` says what hypotheses and lets do."""
        while not isinstance(proof, str) and proof[0] == ":let":
            named = {**named, str(proof[1]): self.proves(proof[2], named)}
            proof = proof[3]
        if isinstance(proof, str):
            return named.get(str(proof), f"?{proof}")
        if proof[0] in (":conv", ":sorry"):
            return tree(proof[1])
        cited = self.theory.assertions[str(proof[0])]
        return instance(cited.conclusion, given_by(cited.binders, proof[1]))

    def sides(self, conv):
        """The left and the right side of a conversion."""
        if isinstance(conv, str):
            return str(conv), str(conv)
        if conv[0] == ":refl":
            return tree(conv[1]), tree(conv[1])
        if conv[0] == ":sorry":
            return tree(conv[1]), tree(conv[2])
        if conv[0] == ":sym":
            return self.sides(conv[1])[::-1]
        if conv[0] == ":unfold":
            left = (str(conv[1]), *map(tree, conv[2])) if len(conv[2]) else str(conv[1])
            return left, self.sides(conv[4])[1]
        parts = [self.sides(it) for it in conv[1:]]
        if not parts:
            return str(conv[0]), str(conv[0])
        return (str(conv[0]), *(it for it, _ in parts)), (str(conv[0]), *(it for _, it in parts))

    def unfolded(self, conv):
        """The body of the definition that an unfolding names, with its operands and variables put in."""
        term = self.theory.terms[str(conv[1])]
        dummies = {str(it[0]): str(var) for it, var in zip(term.dummies, conv[3])}
        return instance(term.body, {**given_by(term.binders, conv[2]), **dummies})

    def normal(self, e, budget=None):
        """The expression with every definition unfolded; dummies keep the names of their definitions."""
        budget = budget or Budget(100_000)
        budget.step()
        name = e if isinstance(e, str) else e[0]
        term = self.theory.terms[name] if (not isinstance(e, str) or e not in self.variables) and name in self.theory.terms else None
        operands = [] if isinstance(e, str) else [self.normal(it, budget) for it in e[1:]]
        if term is None or term.body is None:
            return (name, *operands) if operands else name
        given = dict(zip((str(it[0]) for it in term.binders), operands))
        return instance(self.normal_body(name, term, budget), given, budget)

    def normal_body(self, name, term, budget):
        """The body of a definition with every definition in it unfolded."""
        known = self.__dict__.setdefault("bodies", {})
        if name not in known:
            variables, self.variables = self.variables, {str(it[0]): it for it in [*term.binders, *term.dummies]}
            try:
                known[name] = self.normal(term.body, budget)
            finally:
                self.variables = variables
        return known[name]
