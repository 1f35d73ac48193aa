"""A development: a proof source and its specification, with what it imports; and the proof text that they give."""
import difflib
import os
import re
from collections import Counter
from functools import cached_property

from .elaborate import Elaborator
from .equality import kit_of
from .formulas import Formula
from .index import Index
from .library import Library
from .logic import App, Assertion, Hole, Term, Var, walk
from .memory import Memory, Record
from .places import Wrong, shown_path
from .printer import Printer
from .progress import Progress
from .sources import Item, Missing
from .specification import Theory
from .texts import atoms, laid_out, place_in, statement, statement_name

EXAMPLES = os.path.join(os.path.dirname(os.path.dirname(os.path.dirname(os.path.abspath(__file__)))), "examples")


def source_path(path):
    """The proof source that a path names: itself, or that of a folder: the one of its name, or the only one."""
    path = os.path.abspath(path)
    if not os.path.isdir(path):
        return path
    found = sorted(it for it in os.listdir(path) if it.endswith(".proofs"))
    own = f"{os.path.basename(path)}.proofs"
    if own in found or len(found) == 1:
        return os.path.join(path, own if own in found else found[0])
    raise Wrong(f"{shown_path(path)} has {'no' if not found else 'more than one'} proof source", None, [("found", found)] if found else [])


class Development:
    """A source beside its specification, and what both declare. `problems` are those of its own text and of the specification's;
    what is wrong in one piece of them hides nothing of the others. `importers` are the paths of the sources that import this one."""

    def __init__(self, path, memory=None, importers=()):
        self.path, self.importers = source_path(path), importers
        self.memory = memory or Memory()
        self.base = self.path.removesuffix(".proofs")
        self.folder, self.name = os.path.dirname(self.path), os.path.basename(self.base)
        self.theory, self.problems = Theory(), []
        self.proofs = {}  # theorem: its item in the source
        self.order = []  # all declarations, and the theorems with their items
        self.imports = []
        self.forms = None  # its theorems by what they say, where that was looked for
        self.said = []  # its equalities, congruences, and propositional logic
        if self.base == self.path:
            raise Wrong(f"{shown_path(path)} is no proof source: its name has to end with .proofs")
        source, self.pieces, odd = self.memory.pieces(self.path, True)
        _, statements, odd_there = self.memory.pieces(self.file(".mm0"), False)
        self.text, self.end = source.text, source.place(len(source.text))
        self.problems += filter(None, (odd, odd_there))
        self.read(self.pieces, statements)
        self.proofs = {it.name: item for it, item in self.order if isinstance(it, Assertion)}

    @cached_property
    def numbers(self):
        """Which statement each axiom and theorem is."""
        return {it.name: i for i, (it, _) in enumerate(self.order) if isinstance(it, Assertion)}

    @cached_property
    def index(self):
        """The assertions by their conclusions; the same while these are."""
        them = list(self.theory.assertions.values())
        known = self.memory.indexes.get(self.path)
        if known is None or known[0] != them:
            known = self.memory.indexes[self.path] = them, Index(them)
        return known[1]

    def file(self, ending, name=None):
        return (os.path.join(self.folder, name) if name else self.base) + ending

    def read(self, items, statements):
        """Reads both files side by side: what the source says stands where the specification has its theorem."""
        self.unread = set()  # names of what can't be read, or stands at a wrong place: of that nothing more is said
        self.lost = set()  # what would be declared there
        self.later = {it.name for it in items if it.kind in ("theorem", "def")}
        self.statements, self.waiting = iter(statements), None
        self.ahead = Counter(it.name for it in statements if it.kind in ("theorem", "def"))
        self.go_on()
        for piece in items:
            item = self.tried(piece, self.memory.item)
            self.later.discard(piece.name)
            if item:
                try:
                    self.take(item, piece)
                except Wrong as why:
                    self.problems.append(why)
        while self.waiting is not None:
            self.leave_open(self.end)

    def tried(self, piece, read):
        """What a piece is read to; where it can't be, that is a problem."""
        try:
            return read(piece, self.theory)
        except Wrong as why:
            self.noted(piece, why)
            return None

    def noted(self, piece, why):
        """Notes what is wrong with a piece; not where it rests on what is lost already."""
        if not self.is_follow_up(piece):
            self.problems.append(why)
        self.unread.add(piece.name)
        if piece.text.startswith("local") or not piece.path.endswith(".proofs"):
            self.lost |= {piece.name, *re.findall(r"\$\s*(\S+)\s*\$", piece.text if piece.kind not in ("axiom", "theorem") else "")}

    def is_follow_up(self, piece):
        return bool(self.lost) and not self.lost.isdisjoint(re.findall(r"\w+|[^\s\w]+", piece.text))

    def take(self, item, piece):
        """Takes an item of the source."""
        if self.is_other(item):
            return
        if item.made:
            self.theory.add(item.made, item.place)
            self.order.append((item.made, item))
            if item.kind == "local def":
                self.theory.turned(piece.text)
            return
        while self.waiting is not None and self.waiting.name != item.name and self.is_passed(item):
            self.leave_open(item.place)
        if self.waiting is not None and item.name == self.waiting.name:
            self.finish(self.waiting, item)
            self.go_on()
        elif item.name not in self.unread:
            raise self.out_of_order(item)

    def go_on(self):
        """Reads on to the next declaration that waits for the source: a theorem, or a definition that is left open."""
        self.waiting = None
        for piece in self.statements:
            if piece.kind in ("theorem", "def"):
                self.ahead[piece.name] -= 1
            made = self.tried(piece, self.memory.statement)
            try:
                if made:
                    self.theory.add(made, piece.place(0))
            except Wrong as why:
                self.noted(piece, why)
                continue
            if made is None or made.kind not in ("axiom", "theorem"):
                self.theory.turned(piece.text)
            if made and (made.kind == "theorem" or made.kind == "def" and made.body is None):
                self.waiting = made
                return
            if made:
                self.order.append((made, None))

    def is_passed(self, item):
        """Whether what waits has no item at all, and that for which this one stands comes behind it."""
        return self.waiting.name not in self.later and (self.ahead[item.name] > 0 or self.waiting.name in self.unread)

    def leave_open(self, place):
        """Goes on behind what the source has no item for: a theorem without a proof is a gap."""
        waiting = self.waiting
        if waiting.name in self.unread:
            self.order.append((waiting, None))
        elif waiting.kind == "theorem":
            self.order.append((waiting, Item("theorem", waiting.name, place, proof=Missing(place, None))))
        else:
            self.problems.append(Wrong(f"there is no body of {waiting.name}", place, self.declared(waiting)))
            self.order.append((waiting, None))
        self.go_on()

    def declared(self, it):
        return [("declared", [self.theory.places[it]])]

    def out_of_order(self, item):
        if any(item.name == it.name for it, done in self.order if done):
            return Wrong(f"there is a proof of {item.name} already", item.place)
        if self.waiting is None:
            return Wrong(f"the specification has no {item.kind} {item.name}", item.place)
        where = [("next is", [f"{self.waiting.kind} {self.waiting.name}, {self.theory.places[self.waiting]}"])]
        why = "the specification has this later" if self.ahead[item.name] > 0 else f"the specification has no {item.kind} {item.name}"
        self.unread.add(item.name)
        return Wrong(f"{item.name} can't stand here: {why}", item.place, where)

    def is_other(self, item):
        """Imports, and what is said for `rw` and `prop`: these stand for no declaration."""
        if item.kind == "import":
            path = self.imported(item)
            self.imports.append((self.memory.development(path, (*self.importers, self.path)), dict(item.words)))
        elif item.kind in ("equality", "congruence", "propositional"):
            self.said.append(item)
        else:
            return False
        return True

    def imported(self, item):
        """Where an import is: beside the source, in the folder of its name beside that of the source, or in examples/."""
        upper, name = os.path.dirname(self.folder), item.name
        paths = [os.path.join(it, f"{name}.proofs") for it in (self.folder, os.path.join(upper, name), os.path.join(EXAMPLES, name))]
        path = next(filter(os.path.exists, paths), None)
        if path is None:
            raise Wrong(f"there is no {name} to import", item.place, [("looked for", [shown_path(it) for it in paths])])
        if path in (*self.importers, self.path):
            raise Wrong(f"{name} imports this source", item.place)
        return path

    def finish(self, waiting, item):
        """Takes what waits together with what the source says of it."""
        if item.kind != waiting.kind:
            raise Wrong(f"{item.name} is a {waiting.kind} in the specification", item.place)
        if item.kind == "def":
            waiting = self.with_body(waiting, item)
            self.theory.turned(item.body.text)
        self.order.append((waiting, item))

    def with_body(self, waiting, item):
        """A definition that is left open, with the body that the source gives it. The same body makes the same definition."""
        known = item.made_of.get(waiting)
        if known and self.theory.meanings(known[1]) == known[2]:
            made = known[0]
        else:
            made = Term(waiting.name, waiting.binders, waiting.sort, waiting.needs, item.dummies, None, True)
            formula = Formula(item.body, self.theory, {it.name: it for it in (*made.binders, *item.dummies)})
            made.body, words = formula.whole(made.sort), {token for token, _ in formula.tokens}
            item.made_of = {waiting: (made, words, self.theory.meanings(words))}
        made.rank = waiting.rank
        self.theory.terms[made.name] = made
        self.theory.places[made] = self.theory.places[waiting]
        return made


class Scope:
    """Where a proof stands: a development, whose declarations are translated into those of the one that is written."""

    def __init__(self, writer, development, sorts):
        self.writer, self.development, self.sorts = writer, development, sorts
        self.renamed = frozenset(sorts.items())
        self.known_kit = None
        self.imports = [Scope(writer, it, {low: sorts.get(high, high) for low, high in renamed.items()} | sorts)
                        for it, renamed in development.imports]

    @property
    def kit(self):
        """The lemmas of propositional logic for the proofs of this scope, where it is said what that is."""
        self.known_kit = self.known_kit or kit_of(self)
        return self.known_kit

    def lemma(self, name):
        """What a lemma of propositional logic says, which isn't written for that; nothing where there is none."""
        if not self.kit or not self.kit.proofs.get(name):
            return None
        return Scope(self.writer, self.kit, {}).translated(self.kit.theory.assertions[name])

    def formula(self, math, variables, sort, left_out):
        """A formula of the source, over the variables of the written one."""
        mine = {name: Var(name, self.back(it.sort), it.bound) for name, it in variables.items()}
        formula = Formula(math, self.development.theory, mine, left_out)
        self.writer.record.words.update(token for token, _ in formula.tokens)
        e = formula.whole(sort and self.back(sort))
        return self.expression(e, {mine[name]: it for name, it in variables.items()})

    def back(self, sort):
        return next((low for low, high in self.sorts.items() if high == sort), sort)

    def expression(self, e, variables):
        e = walk(e)
        if isinstance(e, Var):
            return variables[e]
        if isinstance(e, Hole):
            e.sort = self.sorts.get(e.sort, e.sort)
            return e
        return App(self.writer.term(e.term.name, self), [self.expression(it, variables) for it in e.operands])

    def assertion(self, name, place, visible=()):
        """What is cited by this name: what is written already, or what an import has, which is written now."""
        if self.writer.ask("assertions", name):
            return self.writer.assertions[name]
        for scope in (self, *self.imports):
            found = scope.assertion_of_own(name)
            if found:
                return found
        if self.kit and self.kit.proofs.get(name):
            return Scope(self.writer, self.kit, {}).assertion_of_own(name)
        self.writer.record.is_kept = False  # what is said here rests on much
        if name in self.development.theory.assertions:
            declared = self.development.declared(self.development.theory.assertions[name])
            why = "stands later, and can't be cited here" if self is self.writer.scope else "is wanted by an import, and isn't declared before"
            raise Wrong(f"{name} {why}", place, declared)
        near = difflib.get_close_matches(name, dict.fromkeys([*visible, *self.writer.assertions, *self.names()]), 4, 0.65)
        raise Wrong(f"there is no hypothesis, theorem or axiom {name}", place, [("alike", [", ".join(near)])] if near else [])

    def names(self):
        for scope in self.imports:
            yield from scope.development.proofs
            yield from scope.names()

    def assertion_of_own(self, name):
        item = self.development.proofs.get(name)
        if item is not None and self is not self.writer.scope:
            theorem = self.development.theory.assertions[name]
            self.writer.recorded((theorem, item, self.renamed), lambda: self.writer.theorem(theorem, item, self, True))
            return self.writer.assertions[name]
        for scope in self.imports:
            found = scope.assertion_of_own(name)
            if found:
                return found
        return None

    def binders(self, them, variables):
        for it in them:
            needs = [variables[need] for need in it.needs]
            variables[it] = Var(it.name, self.sorts.get(it.sort, it.sort), it.bound, needs)
        return [variables[it] for it in them]

    def translated(self, theorem):
        """An assertion in the terms of the written text: the same one while these are the same."""
        return self.writer.same((theorem, self.renamed), lambda: self.translated_anew(theorem))

    def translated_anew(self, theorem):
        variables = {}
        binders = self.binders(theorem.binders, variables)
        hypotheses = [(name, self.expression(e, variables)) for name, e in theorem.hypotheses]
        conclusion = self.expression(theorem.conclusion, variables)
        return Assertion(theorem.kind, theorem.name, binders, hypotheses, conclusion, (), theorem.is_local)

    def definition(self, term):
        return self.writer.same((term, self.renamed), lambda: self.definition_anew(term))

    def definition_anew(self, term):
        variables = {}
        binders = self.binders(term.binders, variables)
        dummies = self.binders(term.dummies, variables)
        body = self.expression(term.body, variables) if term.body is not None else None
        sort, needs = self.sorts.get(term.sort, term.sort), [variables[it] for it in term.needs]
        return Term(term.name, binders, sort, needs, dummies, body, term.is_definition, term.is_local)


class Writer:
    """Writes the proof text of a development: its statements, and local ones from imports where they are needed. What is
    wrong is gathered in `problems`, one for a theorem, and what is open in `gaps`, as reports with their places. What was
    written before and rests on the same is taken as it was."""

    def __init__(self, development):
        self.development, self.printer = development, Printer(development.theory)
        self.terms, self.assertions, self.nodes = {}, {}, []
        self.problems, self.gaps, self.places = [], [], []
        self.looked_at = {}  # theorems of imports that `rw` and `prop` have looked at
        self.goals = []  # what is open, as Gaps; the reports in `gaps` are of these
        self.records = development.memory.records_for(development)
        self.record = self.whole = Record()
        self.scope = Scope(self, development, {})
        progress = Progress(len(development.order), "statements")
        for it, item in development.order:
            self.recorded((it, item, frozenset()), lambda: self.tried(it, item))
            progress.step()
        progress.finish()

    @cached_property
    def library(self):
        """What may be cited; to be asked for when all is written."""
        return Library(self)

    @cached_property
    def numbers(self):
        return {name: i for i, name in enumerate(self.assertions)}

    def ask(self, space, name):
        """What is written under this name, or nothing. The record says that this was asked for."""
        found = getattr(self, space).get(name)
        self.record.asked.setdefault((space, name), found)
        return found

    def recorded(self, key, write):
        """Writes something, or takes what was written, where all is the same on which that rests."""
        outer, known = self.record, self.records.get(key)
        if known and known.holds(self):
            known.put(self)
            if outer is not self.whole:  # nobody asks on what the whole rests
                outer.absorb(known)
            return
        self.record = Record()
        try:
            write()
            if self.record.is_kept:
                self.records[key] = self.record.finished(self.development.theory)
        finally:
            outer.absorb(self.record)
            self.record = outer

    def same(self, key, make):
        """What is made of a declaration of a source: the same thing while it is made of the same terms."""
        known = self.development.memory.translations.get(key)
        if known and all(self.ask("terms", name) is term for name, term in known[1].items()):
            return known[0]
        outer, self.record = self.record, Record()
        try:
            made = make()
            asked = {name: self.terms[name] for space, name in self.record.asked if space == "terms"}
            self.development.memory.translations[key] = made, asked
            return made
        finally:
            outer.absorb(self.record)
            self.record = outer

    def tried(self, it, item):
        try:
            self.written(it, item)
        except Wrong as why:
            if item and self.development.is_follow_up(item.place.source):
                self.record.is_kept = False
            else:
                self.record.problems.append(why)
                self.problems.append(why)
            if isinstance(it, Assertion) and not self.ask("assertions", it.name):
                self.put("assertions", self.scope.translated(it))

    def written(self, it, item):
        place = item.place if item else self.development.theory.places[it]
        if isinstance(it, Assertion) and item is not None:
            self.theorem(it, item, self.scope, it.is_local)
        elif isinstance(it, Assertion):
            made = self.scope.translated(it)
            self.add("assertions", made, statement(made) if it.kind == "axiom" else None, place)
        elif isinstance(it, Term):
            self.add("terms", self.scope.definition(it), None, place)
        else:
            self.put(None, it, statement(it), place)

    def add(self, space, it, node, place):
        if self.ask(space, it.name):
            raise Wrong(f"{it.name} comes from an import before it is declared", place)
        self.put(space, it, node, place)

    def put(self, space, it, node=None, place=None):
        """Takes what is written, and its node in the text, where it has one."""
        self.record.added.append((space, it, node, place))
        self.take(space, it, node, place)

    def take(self, space, it, node, place):
        if space == "terms":
            it.rank = len(self.terms)
            node = None if it.is_definition and it.body is None else statement(it)
        if space:
            getattr(self, space)[it.name] = it
        if node is not None:
            self.nodes.append(node)
            self.places.append(place)

    def term(self, name, scope):
        """The term of this name; a definition of an import is written where it is needed first."""
        if not self.ask("terms", name):
            theory = scope.development.theory
            term = theory.terms[name]
            if not term.is_definition:
                raise Wrong(f"the import {scope.development.name} needs the term {name}, which isn't declared before", theory.places[term])
            made = scope.definition(term)
            made.is_local = True
            self.add("terms", made, None, theory.places[term])
        return self.terms[name]

    def theorem(self, it, item, scope, is_local):
        theorem = scope.translated(it)
        theorem.is_local = is_local
        elaborator = Elaborator(scope, theorem, scope.binders(item.dummies, {}), self.printer)
        try:
            proof = elaborator.whole(item.proof)
        except Wrong as why:
            raise Wrong(f"in {theorem.name}: {why.why}", why.place or item.place, why.details) from None
        for gap in elaborator.gaps:
            self.record.goals.append(gap)
            self.goals.append(gap)
            details = elaborator.goal_details(gap.goal, gap.visible)
            if isinstance(item.proof, Missing):
                details += self.development.declared(it)
            said = f"there is no proof of {it.name}" if isinstance(item.proof, Missing) else f"{theorem.name} has a gap here"
            self.record.gaps.append(Wrong(said, gap.place, details))
            self.gaps.append(self.record.gaps[-1])
        self.add("assertions", theorem, statement(theorem, proof, elaborator.dummies), item.place)

    @property
    def head(self):
        """The first line of a text, by which it is known that it was made."""
        return f"-- Made of {self.development.name}.proofs by mz prove.\n"

    def text(self):
        return self.head + "".join(laid_out(it) + "\n" for it in self.nodes)

    def place_at(self, number, offset=None):
        """The place of the source for a statement of the text, counted from 1, or for what stands at a byte of it."""
        if not 1 <= number <= len(self.nodes):
            return None
        begin = len(self.head) + sum(len(laid_out(it)) + 1 for it in self.nodes[: number - 1])
        inner = place_in(self.nodes[number - 1], offset - begin) if offset is not None else None
        return inner or self.places[number - 1]

    def ending_with(self, name):
        """The statements on which a theorem rests, and this one, laid out."""
        last = next(i for i, node in enumerate(self.nodes) if statement_name(node) == name)
        needed, kept = {name}, []
        for node in reversed(self.nodes[: last + 1]):
            if statement_name(node) in needed:
                kept.append(node)
                needed |= atoms(node)
        return [laid_out(it) for it in reversed(kept)]
