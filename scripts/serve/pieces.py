"""Names in the pieces of specifications and sources, which may be unfinished: lexeme by lexeme, with what the specification
declares. Places are those in the piece."""
import re

from prove.formulas import Notations
from prove.logic import Assertion, Sort
from prove.memory import Memory
from prove.places import Wrong
from prove.specification import MODIFIERS, Theory

from .names import Name, PieceRead

LEXEME = re.compile(r"(?P<space>\s+|--[^\n]*)|(?P<name>[A-Za-z_][A-Za-z0-9_]*)|(?P<math>\$[^$]*\$?)"
                    r"|(?P<string>\"[^\"\n]*\"?)|(?P<other>.)")
WORDS = {"have", "where", "calc", "sorry", "by", "with", "of", "rw", "prop"}
OPERATORS = {"infixl", "infixr", "prefix", "notation", "coercion"}
STATEMENTS = {"sort", "term", "def", "axiom", "theorem", "delimiter", "prec", "max", "lassoc", "rassoc", *OPERATORS, *MODIFIERS}
ASSERTIONS = ("axiom", "theorem")


class Grammar:
    """What a specification declares but for its assertions: sorts, terms and notations; read again where they are changed."""

    def __init__(self):
        self.memory = Memory()
        self.theory, self.assertions, self.forms = Theory(), {}, {}

    def read(self, pieces):
        self.theory, self.assertions, self.forms = Theory(), {}, {}
        for it in pieces:
            if it.kind in ASSERTIONS:
                self.assertions.setdefault(it.name, it)
                continue
            if it.kind in OPERATORS:
                self.forms.setdefault(it.name, []).append(it)
            try:
                made = self.memory.statement(it, self.theory)
                if made:
                    self.theory.add(made, it.place(0))
            except Wrong:
                pass
            self.theory.turned(it.text)
        return self

    def term(self, token):
        """The name of the term for which a token of a formula stands, or nothing."""
        notations = self.theory.notations
        form = notations.leading.get(token) or notations.infix.get(token)
        name = form[1].name if form else token
        return name if name in self.theory.terms else None

    @property
    def state(self):
        return self.theory.state


def lexemes(text):
    return [it for it in LEXEME.finditer(text) if it.lastgroup != "space"]


class PieceReader:
    """Reads the names of one piece."""

    def __init__(self, piece, grammar, is_source, local_terms=()):
        self.piece, self.grammar, self.is_source, self.local_terms = piece, grammar, is_source, local_terms
        self.made, self.variables, self.named = PieceRead(), set(), set()
        self.lexemes = lexemes(piece.text)
        self.words = [it.group() for it in self.lexemes]

    def read(self):
        if not self.is_source or self.words[:1] == ["local"]:
            self.is_declared = True
        else:
            self.is_declared = False
            self.parameters()
        declared = self.declared()
        groups = self.groups()
        if self.is_source:
            self.named |= {name for word, name in zip(self.words, self.words[1:]) if word in ("have", "where")}
        for i, it in enumerate(self.lexemes):
            if it.lastgroup == "math":
                self.math(it)
            elif it.start() in groups:
                self.note(it, groups[it.start()], True)
            elif it.lastgroup == "name" and i != declared and self.words[i + 1 : i + 3] != [":", "="]:
                self.word(i, it)
        return self.made

    def note(self, it, space, declares=False, text=None):
        self.made.names.append(Name(it.start(), it.end(), space, text or it.group(), declares, space in ("variable", "hypothesis")))

    def declared(self):
        """The number of the lexeme that is the declared name, which is noted; nothing where there is none."""
        kind = self.piece.kind
        if kind not in ("sort", "term", "def", *ASSERTIONS) or kind not in self.words:
            return None
        at = self.words.index(kind) + 1
        if at < len(self.words) and self.words[at] == self.piece.name:
            self.note(self.lexemes[at], {"sort": "sort", "term": "term", "def": "term"}.get(kind, "assertion"), True)
            return at
        return None

    def groups(self):
        """What the groups in braces and parentheses declare, by the places of the names; and their notes."""
        places = {}
        for space, names, texts in groups_of(self.lexemes):
            for it, text in zip(names, texts):
                (self.variables if space == "variable" else self.named).add(it.group())
                places[it.start()] = space
                self.made.notes[space, it.group()] = text
        return places

    def parameters(self):
        """The parameters and hypotheses of the theorem of the specification that a source proves."""
        spec = self.grammar.assertions.get(self.piece.name) if self.piece.kind == "theorem" else None
        if spec is None:
            return
        found, shown = lexemes(spec.text), spec.text
        for space, names, texts in groups_of(found):
            for it, text in zip(names, texts):
                (self.variables if space == "variable" else self.named).add(it.group())
                self.made.notes[space, it.group()] = shown
        count = sum(it.lastgroup == "math" for it in found) - 1
        given = sum(len(names) for space, names, _ in groups_of(found) if space == "hypothesis")
        inner = sum(1 for space, _, _ in groups_of(found) if space == "hypothesis")
        numbered = range(1, count - inner + 1)
        for name in ["h"] if len(numbered) == 1 and not given else [f"h{i}" for i in numbered]:
            self.named.add(name)
            self.made.notes["hypothesis", name] = shown

    def word(self, i, it):
        word, before = it.group(), self.words[i - 1] if i else ""
        if self.is_source and before in ("have", "where"):
            self.made.notes["hypothesis", word] = self.had(it)
            self.note(it, "hypothesis", True)
        elif word in self.named:
            self.note(it, "hypothesis")
        elif before in (":", ">") and word in self.grammar.theory.sorts:
            self.note(it, "sort")
        elif word in self.variables and not self.is_source:
            self.note(it, "variable")
        elif self.piece.kind in OPERATORS and word == self.piece.name:
            self.note(it, "term")
        elif self.is_source and word not in WORDS and i and self.piece.kind != "import":
            self.note(it, "assertion")

    def had(self, it):
        """What is had under a name: the name, and the formula where one is stated."""
        found = re.compile(r"\w+(?:\s*:\s*\$[^$]*\$)?").match(self.piece.text, it.start())
        return " ".join(found.group().split())

    def math(self, it):
        inner = it.group().strip("$")
        if self.piece.kind in OPERATORS:
            start = it.start() + 1 + len(inner) - len(inner.lstrip())
            self.made.names.append(Name(start, start + len(inner.strip()), "term", self.piece.name))
        elif self.piece.kind != "delimiter":
            for token, at in self.grammar.theory.notations.tokens(inner):
                self.token(token, it.start() + 1 + at)

    def token(self, token, start):
        name = self.grammar.term(token) or (token if token in self.local_terms else None)
        if token in self.variables:
            self.made.names.append(Name(start, start + len(token), "variable", token, False, True))
        elif name:
            self.made.names.append(Name(start, start + len(token), "term", name))


def groups_of(found):
    """The groups in braces and parentheses before the `=` of a statement: what each declares, its names, and how each is shown."""
    words = [it.group() for it in found]
    end = words.index("=") if "=" in words else len(words)
    for i in (i for i in range(end) if words[i] in ("(", "{")):
        j, names, dots = i + 1, [], []
        while j < end and (found[j].lastgroup == "name" or words[j] == "."):
            if words[j] != ".":
                names.append(found[j])
                dots.append("." if words[j - 1] == "." else "")
            j += 1
        if names and words[j : j + 1] == [":"] and j + 1 < end:
            space = "hypothesis" if found[j + 1].lastgroup == "math" else "variable"
            k = next((k for k in range(j, end) if words[k] in (")", "}")), end - 1)
            text = found[0].string
            inner = " ".join(text[found[j].end() : found[k].start()].split())
            yield space, names, [f"{words[i]}{dot}{it.group()}: {inner}{'}' if words[i] == '{' else ')'}" for dot, it in zip(dots, names)]
