"""Documents that an editor has open, and those beside them on the disk."""
import os
from bisect import bisect_right
from urllib.parse import quote, unquote, urlsplit

from explore.lexemes import comment_above
from prove.command import examined
from prove.memory import Memory
from prove.pieces import Cutter

from . import texts
from .names import PieceNames
from .pieces import Grammar, PieceReader

ENDINGS = ("mm0", "mmu", "proofs")


def path_of(uri):
    return unquote(urlsplit(uri).path)


def uri_of(path):
    return "file://" + quote(os.path.abspath(path))


def utf_16_units(text):
    return len(text.encode("utf-16-le", "surrogatepass")) // 2


class Document:
    """One text, with places as editors count them: lines, and in a line UTF-16 units. `version` is the editor's number for it."""

    def __init__(self, uri, text, version=None):
        self.uri, self.text, self.version = uri, text, version
        self.path = path_of(uri)
        self.stem, ending = os.path.splitext(self.path)
        self.kind = ending[1:]
        self._units = len if text.isascii() else utf_16_units
        self._starts = [0]
        for line in self.text.split("\n"):
            self._starts.append(self._starts[-1] + len(line) + 1)

    def position(self, at):
        line = bisect_right(self._starts, at) - 1
        line = min(line, len(self._starts) - 2)
        return {"line": line, "character": self._units(self.text[self._starts[line] : at])}

    def range(self, start, end):
        return {"start": self.position(start), "end": self.position(end)}

    def offset(self, position):
        line = min(position["line"], len(self._starts) - 2)
        text = self.text[self._starts[line] : self._starts[line + 1] - 1]
        units = text.encode("utf-16-le", "surrogatepass")[: 2 * position["character"]]
        return self._starts[line] + len(units.decode("utf-16-le", "surrogatepass"))

    def byte(self, at):
        """The place of a byte of the file."""
        return len(self.text.encode("utf-8", "surrogateescape")[:at].decode("utf-8", "surrogateescape"))


class Buffers:
    """The texts of the open documents, by their paths."""

    def __init__(self, documents):
        self._documents = documents

    def get(self, path):
        found = self._documents.get(uri_of(path))
        return found.text if found else None


class Workspace:
    """The documents: those that are open, else as they stand on the disk. What is found of them is kept while they are the
    same."""

    def __init__(self):
        self.open = {}
        self.memory = Memory(Buffers(self.open))
        self._names, self._read, self._cutters, self._grammars, self._examined = {}, {}, {}, {}, {}

    def document(self, uri):
        """A document, or nothing where there is none."""
        if uri in self.open:
            return self.open[uri]
        path = path_of(uri)
        try:
            changed = os.stat(path).st_mtime_ns
            if self._read.get(uri, (None,))[0] != changed:
                with open(path, encoding="utf-8", errors="surrogateescape", newline="") as file:
                    self._read[uri] = changed, Document(uri, file.read())
            return self._read[uri][1]
        except OSError:
            return None

    def beside(self, document, ending):
        """The document of the same name with another ending."""
        return self.document(uri_of(f"{document.stem}.{ending}"))

    def family(self, document):
        """The document and those of its name: specification, text and source."""
        found = [document if it == document.kind else self.beside(document, it) for it in ENDINGS]
        return [it for it in found if it is not None]

    def examined(self, document):
        """What a source gives: its writer, or nothing, and the problems."""
        known = self._examined.get(document.uri)
        stamp = document.text, self.memory.stamp(f"{document.stem}.mm0")
        if known is None or known[0] != stamp or known[1] != self._imported(known[2]):
            made = examined(document.path, self.memory)
            known = self._examined[document.uri] = stamp, self._imported(made), made
        return known[2]

    def _imported(self, made):
        """What tells whether an import has changed."""
        writer, _ = made
        return [self.memory.stamps(it) for it, _ in writer.development.imports] if writer else None

    def names(self, document):
        """The names in a document; those of a source are read with its specification."""
        if document.kind not in ENDINGS:
            return None
        spec = self.beside(document, "mm0") if document.kind == "proofs" else None
        known = self._names.get(document.uri)
        if known is None or known[0] is not document or known[1] is not spec:
            made = texts.read(document.text) if document.kind == "mmu" else self._cut(document, spec)
            known = self._names[document.uri] = document, spec, made
        return known[2]

    def _cut(self, document, spec):
        """The names of a specification or a source, piece by piece."""
        is_source = document.kind == "proofs"
        cutter = self._cutters.setdefault(document.uri, Cutter(document.path, is_source))
        pieces = list(cutter.cut(document.text))
        if is_source:
            grammar = self._grammar(spec)
        else:
            grammar = self._grammars.setdefault(document.uri, Grammar()).read(pieces)
        local_terms = frozenset(it.name for it in pieces if is_source and it.kind == "def")

        def read(piece):
            spec_piece = grammar.assertions.get(piece.name) if is_source else None
            key = grammar.state, local_terms, spec_piece and spec_piece.text
            if getattr(piece, "named", (None,))[0] != key:
                piece.named = key, PieceReader(piece, grammar, is_source, local_terms).read()
            return piece.named[1]

        def about(text, piece):
            notations = [" ".join(it.text.split()) for it in grammar.forms.get(piece.name, ()) if piece.kind in ("term", "def")]
            return comment_above(text, piece.start), [] if is_source else notations

        return PieceNames(document.text, pieces, read, about)

    def _grammar(self, spec):
        if spec is None:
            return Grammar()
        self.names(spec)
        return self._grammars[spec.uri]
