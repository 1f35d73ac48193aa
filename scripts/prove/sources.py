"""Reads a proof source (.proofs); docs/USING.md has its grammar."""
from functools import wraps

from .places import Wrong
from .specification import Reader

ROLES = ("refl", "symm", "trans", "mp")  # what theorems say of an equality
DEPTH = 2  # so far is looked for a `?` without a number


class Step:
    """A citation of a theorem or an axiom, or the name of a hypothesis."""

    def __init__(self, place, name, given=(), parts=()):
        self.place, self.name, self.given, self.parts = place, name, tuple(given), tuple(parts)


class Claim:
    """A proof of a formula that is stated."""

    def __init__(self, place, formula, proof):
        self.place, self.formula, self.proof = place, formula, proof


class Have:
    """A proof that is had under a name in another."""

    def __init__(self, place, name, formula, first, proof):
        self.place, self.name, self.formula, self.first, self.proof = place, name, formula, first, proof


class Copy:
    """A proof that stands for a name, and is made anew here."""

    def __init__(self, place, name, proof):
        self.place, self.name, self.proof = place, name, proof


class Sorry:
    """A proof that is left open. Where it is a `?`, proofs are looked for up to a depth. `span` is where it begins and ends in
    the text."""

    def __init__(self, place, span, depth=None):
        self.place, self.span, self.depth = place, span, depth


class Rewrite:
    """`rw`: a proof by equations. Each is a proof, taken from left to right, or from right to left where `turned` says so; with
    `proof` the goal is turned by them into what this proves."""

    def __init__(self, place, equations, turned, proof):
        self.place, self.equations, self.turned, self.proof = place, equations, turned, proof

    @property
    def parts(self):
        return [*self.equations, *([self.proof] if self.proof else [])]


class Tautology:
    """`prop`: a proof of what follows by propositional logic from others."""

    def __init__(self, place, parts):
        self.place, self.parts = place, parts


class Missing(Sorry):
    """The proof of a theorem that the source leaves out."""


class Item:
    """One statement of a source."""

    def __init__(self, kind, name, place, **parts):
        self.kind, self.name, self.place = kind, name, place
        self.made, self.dummies, self.proof, self.body, self.words = None, (), None, None, ()
        self.made_of = {}  # of a body: a definition that is left open, and what it is with this body
        self.__dict__.update(parts)


def steps(proof):
    """The names that a proof cites, of hypotheses too."""
    if isinstance(proof, Step):
        yield proof.name
    for part in parts_of(proof):
        yield from steps(part)


def parts_of(proof):
    """The proofs in a proof."""
    inner = [getattr(proof, it) for it in ("first", "proof") if getattr(proof, it, None) and not isinstance(proof, Rewrite)]
    return [*getattr(proof, "parts", ()), *inner]


def marked(read):
    """A reader of proofs that notes from where to where in its piece each stands."""

    @wraps(read)
    def reads(reader, *given):
        start = reader.lexer.next().start
        made = read(reader, *given)
        made.extent = start, reader.lexer.end()
        return made

    return reads


class SourceReader(Reader):
    """Reads a source item by item. A caller that gives another theory to know has to give it before the next is read."""

    def items(self):
        while not self.lexer.is_kind("end"):
            yield self.item()

    def item(self):
        lexer, place = self.lexer, self.lexer.place()
        word = lexer.take("name")
        if word == "local":
            return self.local(place)
        readers = {"import": self.import_, "theorem": self.theorem, "def": self.body, "equality": self.equality, "congruence": self.congruence, "propositional": self.propositional}
        if word not in readers:
            raise Wrong(f"'{word}' begins no item: import, theorem, def, local theorem, local def, equality, congruence, propositional",
                        place)
        name_place, name = lexer.place(), lexer.take("name")
        made = readers[word](name, name_place)
        lexer.want(";")
        return made

    def import_(self, name, place):
        if not self.lexer.skip("with"):
            return Item("import", name, place)
        low = self.lexer.take("name")
        self.lexer.want("=")
        return Item("import", name, place, words=((low, self.lexer.take("name")),))

    def dummies(self):
        """The dummies of a proof or of a body; all else is declared in the specification."""
        place = self.lexer.place()
        binders, dummies, hypotheses, _ = self.groups()
        if binders or hypotheses:
            raise Wrong("the specification declares parameters and hypotheses; only dummies stand here, as {.x: s}", place)
        return dummies

    def theorem(self, name, place):
        dummies = self.dummies()
        self.lexer.want("=")
        return Item("theorem", name, place, dummies=dummies, proof=self.proof({}))

    def body(self, name, place):
        dummies = self.dummies()
        self.lexer.want("=")
        return Item("def", name, place, dummies=dummies, body=self.lexer.math())

    def equality(self, term, place):
        """An equality, and the theorems that make it one."""
        roles = {}
        while not self.lexer.is_next(";"):
            role_place, role = self.lexer.place(), self.lexer.take("name")
            if role not in ROLES or role in roles:
                raise Wrong(f"'{role}' says nothing of an equality here: {', '.join(it for it in ROLES if it not in roles)}", role_place)
            roles[role] = self.names(self.lexer.take("name"))
        return Item("equality", term, place, words=roles)

    def congruence(self, name, place):
        return Item("congruence", name, place, words=self.names(name))

    def names(self, first):
        """A list of names, whose first one is taken."""
        found = [first]
        while self.lexer.skip(","):
            found.append(self.lexer.take("name"))
        return found

    def propositional(self, name, place):
        """Implication, negation, three axioms, and modus ponens."""
        return Item("propositional", name, place, words=[name, *(self.lexer.take("name") for _ in range(5))])

    def local(self, place):
        word_place, word = self.lexer.place(), self.lexer.take("name")
        if word == "def":
            made = self.definition(is_local=True)
            return Item("local def", made.name, place, made=made)
        if word != "theorem":
            raise Wrong(f"'local {word}' begins no item", word_place)
        made = self.assertion(word, is_local=True)
        self.lexer.want("=")
        item = Item("local theorem", made.name, place, made=made, dummies=made.dummies, proof=self.proof({}))
        self.lexer.want(";")
        return item

    def is_word(self, word, kind):
        """Whether this word begins a form here: a theorem may have its name."""
        return self.lexer.is_next(word) and self.lexer.is_kind(kind, 1)

    @marked
    def proof(self, copied):
        lexer, place = self.lexer, self.lexer.place()
        if self.is_word("where", "name"):
            lexer.want("where")
            name = lexer.take("name")
            lexer.want("=")
            first = self.proof(copied)
            lexer.want(";")
            return self.proof({**copied, name: first})
        if self.is_word("have", "name"):
            lexer.want("have")
            name = lexer.take("name")
            formula = lexer.math() if lexer.skip(":") else None
            lexer.want("=")
            first = self.proof(copied)
            lexer.want(";")
            return Have(place, name, formula, first, self.proof(copied))
        return self.step(copied)

    @marked
    def step(self, copied):
        lexer, place = self.lexer, self.lexer.place()
        if lexer.is_kind("math"):
            return self.claim(copied)
        if self.is_word("calc", "name"):
            return self.chain(copied)
        if lexer.skip("("):
            proof = self.proof(copied)
            lexer.want(")")
            return proof
        start = lexer.next().start
        if lexer.skip("?"):
            depth = int(lexer.take("number")) if lexer.is_kind("number") else DEPTH
            return Sorry(place, (start, lexer.end()), depth)
        name = self.name()
        if name == "sorry":
            return Sorry(place, (start, lexer.end()))
        if name == "rw":
            return self.rewrite(place, copied)
        if name == "prop":
            return Tautology(place, self.listed(copied))
        if name in copied:
            return Copy(place, name, copied[name])
        return Step(place, name, self.given(), self.parts(copied))

    def rewrite(self, place, copied):
        """`rw`, with the equations in brackets, and the proof of what the goal is turned into in parentheses."""
        turned = []
        equations = self.listed(copied, turned)
        proof = None
        if self.lexer.skip("("):
            proof = self.proof(copied)
            self.lexer.want(")")
        return Rewrite(place, equations, turned, proof)

    def listed(self, copied, turned=None):
        """Proofs in brackets. Where `<-` may stand before them, `turned` takes whether it does."""
        found = []
        if self.lexer.skip("["):
            while not self.lexer.skip("]"):
                if turned is not None:
                    turned.append(self.lexer.skip("<-"))
                found.append(self.proof(copied))
                if not self.lexer.is_next("]"):
                    self.lexer.want(",")
        return found

    def name(self):
        if not self.lexer.is_kind("name"):
            raise self.lexer.unexpected("a proof")
        return self.lexer.take("name")

    def given(self):
        found = []
        if self.lexer.skip("["):
            while not self.lexer.skip("]"):
                place, name = self.lexer.place(), self.lexer.take("name")
                self.lexer.want(":")
                self.lexer.want("=")
                found.append((place, name, self.lexer.math()))
                if not self.lexer.is_next("]"):
                    self.lexer.want(",")
        return found

    def parts(self, copied):
        found = []
        if self.lexer.skip("("):
            while not self.lexer.skip(")"):
                found.append(self.proof(copied))
                if not self.lexer.is_next(")"):
                    self.lexer.want(",")
        return found

    @marked
    def claim(self, copied):
        place, formula = self.lexer.place(), self.lexer.math()
        self.lexer.want("by")
        return Claim(place, formula, self.step(copied))

    def chain(self, copied):
        """A chain of claims: each is joined to those before it by the theorem that the chain names, or by its own."""
        lexer = self.lexer
        lexer.want("calc")
        theorem = lexer.take("name")
        if not lexer.is_kind("math"):
            raise lexer.unexpected("the first formula of the chain")
        whole = self.claim(copied)
        while lexer.is_kind("math"):
            link = self.claim(copied)
            own = lexer.take("name") if lexer.skip("with") else theorem
            whole = Step(link.place, own, (), (whole, link))
        return whole
