"""What was read of texts before, so that a change costs what it changes: a piece whose text and whose words mean the same is
read once."""
import os

from explain import characters

from .pieces import Cutter
from .places import Source, Wrong
from .sources import SourceReader
from .specification import Reader


class Reading:
    """What a piece was read to, what it told the notations, and what its words meant then."""

    def __init__(self, made, notes, words, meanings):
        self.made, self.notes, self.words, self.meanings = made, notes, words, meanings


class Record:
    """What was written for a declaration of a source, and what that rests on."""

    def __init__(self):
        self.asked = {}  # space, name: what was there under that name when it was asked for first, or nothing
        self.added, self.problems, self.gaps, self.goals = [], [], [], []
        self.words = set()  # those of formulas that were read
        self.state, self.meanings, self.is_kept = None, None, True

    def absorb(self, inner):
        """Takes what was written on the way."""
        for key, found in inner.asked.items():
            self.asked.setdefault(key, found)
        self.added += inner.added
        self.problems += inner.problems
        self.gaps += inner.gaps
        self.goals += inner.goals
        self.words |= inner.words
        self.is_kept &= inner.is_kept

    def finished(self, theory):
        self.state, self.meanings = theory.state, theory.meanings(self.words) if self.words else None
        return self

    def holds(self, writer):
        """Whether all is still so on which this rests. What was said is said in the notations of then."""
        spaces = {"terms": writer.terms, "assertions": writer.assertions}
        for (space, name), found in self.asked.items():
            if spaces[space].get(name) is not found:
                return False
        theory = writer.development.theory
        if self.state == theory.state:
            return True
        if self.problems or self.gaps or self.words and theory.meanings(self.words) != self.meanings:
            return False
        self.state = theory.state
        return True

    def put(self, writer):
        for it in self.goals:
            if it.elaborator.scope.development.path == writer.development.path:
                it.elaborator.scope = writer.scope
            it.before = len(writer.assertions)
        for it in self.added:
            writer.take(*it)
        writer.problems += self.problems
        writer.gaps += self.gaps
        writer.goals += self.goals


class Memory:
    """`buffers` are the texts of files that aren't read from the disk: those that an editor has open."""

    def __init__(self, buffers=None):
        self.buffers = {} if buffers is None else buffers
        self.cutters, self.imports, self.indexes, self.kits = {}, {}, {}, {}
        self.records, self.translations = {}, {}
        self.surroundings = None  # what all records rest on

    def source(self, path):
        return Source(path, self.buffers.get(path))

    def pieces(self, path, is_source):
        """The file, its pieces, and what is wrong with its characters, or nothing: it is read as if others stood there."""
        source = self.source(path)
        odd = source.odd()
        cutter = self.cutters.setdefault(path, Cutter(path, is_source))
        return source, cutter.cut(characters.without(source.text) if odd else source.text), odd

    def development(self, path, importers):
        """A development that is imported: the same one while no file of it has changed."""
        from .development import Development  # which has a memory
        known = self.imports.get(path)
        if known is None or known[1] != self.stamps(known[0]):
            made = Development(path, self, importers)
            if made.problems:
                raise made.problems[0]
            known = self.imports[path] = made, self.stamps(made)
        return known[0]

    def stamps(self, development):
        """What tells whether a development has changed."""
        files = [self.stamp(development.file(it)) for it in (".proofs", ".mm0")]
        return [*files, *(it for below, _ in development.imports for it in self.stamps(below))]

    def stamp(self, path):
        text = self.buffers.get(path)
        if text is not None:
            return text
        try:
            found = os.stat(path)
        except OSError:
            return None
        return found.st_mtime_ns, found.st_size

    def records_for(self, development):
        """What was written before, where imports and all that isn't a declaration are the same."""
        surroundings = [*development.imports, *development.said]
        if surroundings != self.surroundings:
            self.surroundings, self.records = surroundings, {}
        return self.records

    def statement(self, piece, theory):
        """What a piece of a specification declares, or nothing."""
        return self.read(piece, theory, lambda reader: reader.statement(), Reader)

    def item(self, piece, theory):
        return self.read(piece, theory, lambda reader: reader.item(), SourceReader)

    def read(self, piece, theory, read, reader_class):
        same = piece.readings.get(theory.state)
        known = same or fitting(piece, theory)
        if known is None:
            known = self.anew(piece, theory, read, reader_class)
        else:
            for what, given in known.notes:
                theory.notations.note(what, *given)
        if known is not same:
            piece.readings = {theory.state: known}
        return known.made

    def anew(self, piece, theory, read, reader_class):
        reader = reader_class(piece, theory)
        words = {it.text for it in reader.lexer.lexemes if it.kind == "name"}
        before, many = theory.meanings(words), len(theory.notations.notes)
        made = read(reader)
        if not reader.lexer.is_kind("end"):
            raise reader.lexer.unexpected("the next statement")
        meant, *rest = before
        meant.update(theory.meanings(reader.tokens - words)[0])
        return Reading(made, theory.notations.notes[many:], words | reader.tokens, (meant, *rest))


def fitting(piece, theory):
    """What a piece was read to last, where its words still mean the same."""
    for known in piece.readings.values():
        if theory.meanings(known.words) == known.meanings:
            return known
    return None
