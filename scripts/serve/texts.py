"""Names in a proof text, which may be unfinished."""
import re

from .names import Entry, Name, Names

_PART = re.compile(r"--[^\n]*|[()]|[^\s()]+")
_TOP = re.compile(r"\((?:local\s+)?(?:sort|term|axiom|def|theorem)\s")
_NAME = re.compile(r"[A-Za-z_][A-Za-z0-9_]*\Z")


class Word(str):
    """An atom and where it begins."""

    start = 0

    @property
    def end(self):
        return self.start + len(self)


class Node(list):
    start = end = 0


def nodes(text):
    """The top nodes. Where a line begins a statement, those before it are over, whatever is still open."""
    stack, tops = [], []
    for found in _PART.finditer(text):
        word, start = found.group(), found.start()
        if word.startswith("--"):
            continue
        if word == "(":
            if stack and text[start - 1] == "\n" and _TOP.match(text, start):
                for open_ in stack:
                    open_.end = start
                stack.clear()
            node = Node()
            node.start, node.end = start, len(text)
            (stack[-1] if stack else tops).append(node)
            stack.append(node)
        elif word == ")":
            if stack:
                stack.pop().end = start + 1
        elif stack:
            made = Word(word)
            made.start = start
            stack[-1].append(made)
    return tops


def read(text, _=None):
    made = Names()
    for number, node in enumerate(nodes(text)):
        Statement(text, node, number, made).read()
    return made.finish()


class Statement:
    """One statement: notes the names in it, as far as it is of its form."""

    def __init__(self, text, node, number, names):
        self.text, self.whole, self.number, self.names = text, node, number, names
        self.is_local = bool(node) and node[0] == "local"
        self.node = node[1:] if self.is_local else node
        self.variables, self.named = set(), set()

    def read(self):
        if len(self.node) < 2 or not all(isinstance(it, Word) for it in self.node[:2]):
            return
        kind, name = self.node[0], self.node[1]
        part = {"sort": lambda: None, "term": self._term, "def": self._definition, "axiom": self._axiom,
                "theorem": self._theorem}.get(kind)
        if part is None or not _NAME.match(name):
            return
        end = self.node[6].start if kind == "theorem" and len(self.node) > 6 else self.whole.end
        shown = self.text[self.whole.start : end].rstrip() + (" ..)" if end != self.whole.end else "")
        self.names.entries.append(Entry(str(kind), str(name), self.whole.start, self.whole.end, name.start,
                                        self.number, shown, is_local=self.is_local))
        self._note(name, {"sort": "sort", "term": "term", "def": "term"}.get(kind, "assertion"), True)
        part()

    def _note(self, word, space, declares=False):
        home = self.number if space in ("variable", "hypothesis") else None
        self.names.names.append(Name(word.start, word.end, space, str(word), declares, home))

    def _part(self, place):
        """The list at this place, or an empty one."""
        found = self.node[place] if place < len(self.node) else []
        return found if isinstance(found, Node) else []

    def _words(self, nodes_, space):
        for it in nodes_:
            if isinstance(it, Word):
                self._note(it, space)

    def _binders(self, list_):
        for it in list_:
            if isinstance(it, Node) and len(it) > 1 and isinstance(it[0], Word) and isinstance(it[1], Word):
                self.variables.add(str(it[0]))
                self._note(it[0], "variable", True)
                self._note(it[1], "sort")
                self.names.notes["variable", str(it[0]), self.number] = self.text[it.start : it.end]
                self._words(it[2] if len(it) > 2 and isinstance(it[2], Node) else [], "variable")

    def _type(self, list_):
        self._words(list_[:1], "sort")
        self._words(list_[1] if len(list_) > 1 and isinstance(list_[1], Node) else [], "variable")

    def _term(self):
        self._binders(self._part(2))
        self._type(self._part(3))

    def _definition(self):
        self._term()
        self._binders(self._part(4))
        self._expressions(self.node[5:6])

    def _axiom(self):
        self._binders(self._part(2))
        self._expressions(self._part(3))
        self._expressions(self.node[4:5])

    def _theorem(self):
        self._binders(self._part(2))
        for it in self._part(3):
            if isinstance(it, Node) and len(it) == 2 and isinstance(it[0], Word):
                self._hypothesis(it[0], self._source(it[1]))
                self._expressions(it[1:])
        self._expressions(self.node[4:5])
        self._binders(self._part(5))
        self._proofs(self.node[6:7])

    def _source(self, node):
        return " ".join(self.text[node.start : node.end].split())

    def _hypothesis(self, word, shown):
        self.named.add(str(word))
        self._note(word, "hypothesis", True)
        self.names.notes["hypothesis", str(word), self.number] = f"{word}: {shown}"

    def _expressions(self, nodes_):
        open_ = list(nodes_)
        while open_:
            it = open_.pop()
            if isinstance(it, Word):
                self._note(it, "variable" if str(it) in self.variables else "term")
            elif it:
                self._words(it[:1], "term")
                open_ += it[1:]

    def _proofs(self, nodes_):
        open_ = list(reversed(nodes_))
        while open_:
            it = open_.pop()
            if isinstance(it, Word):
                self._note(it, "hypothesis")
            elif it and it[0] == ":let" and len(it) > 2 and isinstance(it[1], Word):
                self._hypothesis(it[1], self._source(it[2]))
                open_ += reversed(it[2:])
            elif it and it[0] == ":conv":
                self._expressions(it[1:2])
                self._conversions(it[2:3])
                open_ += it[3:]
            elif it and it[0] == ":sorry":
                self._expressions(it[1:])
            elif it:
                self._words(it[:1], "assertion")
                self._expressions(it[1] if len(it) > 1 and isinstance(it[1], Node) else [])
                open_ += reversed(it[2:])

    def _conversions(self, nodes_):
        open_ = list(nodes_)
        while open_:
            it = open_.pop()
            if isinstance(it, Word) or it and it[0] in (":refl", ":sorry"):
                self._expressions([it] if isinstance(it, Word) else it[1:])
            elif it and it[0] == ":sym":
                open_ += it[1:]
            elif it and it[0] == ":unfold":
                self._words(it[1:2], "term")
                for part in it[2:4]:
                    self._expressions(part if isinstance(part, Node) else [])
                open_ += it[4:]
            elif it:
                self._words(it[:1], "term")
                open_ += it[1:]
