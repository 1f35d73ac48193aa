"""What is answered about a place in a document: what a name is, where it is declared and where else it stands."""
import os
import re

from .documents import uri_of
from .goals import Goals
from .wordings import wording

SYMBOLS = {"sort": 5, "term": 12, "def": 12, "axiom": 14, "theorem": 12}  # as the protocol counts kinds of symbols
ITEMS = {"sort": 7, "term": 3, "def": 3, "axiom": 21, "theorem": 21, "variable": 6, "hypothesis": 6, "word": 14}
WORDS = {
    "mm0": ("sort term def axiom theorem pure strict provable free delimiter infixl infixr prefix notation coercion "
            "prec max").split(),
    "mmu": "sort term def axiom theorem local :conv :let :refl :sym :unfold :sorry".split(),
    "proofs": "theorem def local import equality congruence propositional have where by calc rw prop sorry".split(),
}


class Answers:
    def __init__(self, workspace):
        self.workspace, self.goals = workspace, Goals(workspace)

    def _name(self, document, offset):
        names = self.workspace.names(document)
        return names.at(offset) if names else None

    def _documents(self, document):
        """Where a name of this document may be declared: its family, and what its source imports. A text that is made of a
        source comes last."""
        family = self.workspace.family(document)
        made = [it for it in family if it.kind == "mmu" and document.kind == "proofs"]
        yield from (it for it in family if it not in made)
        yield from self._imported(document, {document.stem})
        yield from made

    def _imported(self, document, seen):
        source = document if document.kind == "proofs" else self.workspace.beside(document, "proofs")
        for name in re.findall(r"^\s*import\s+(\w+)", source.text, re.M) if source else ():
            folder = os.path.join(os.path.dirname(os.path.dirname(source.path)), name)
            stem = os.path.join(folder, name)
            found = [self.workspace.document(uri_of(f"{stem}.{ending}")) for ending in ("mm0", "proofs")]
            if stem not in seen:
                seen.add(stem)
                yield from (it for it in found if it)
                for it in found[1:]:
                    yield from self._imported(it, seen) if it else ()

    def _entries(self, document, name):
        """The declarations of a name, with their documents, one by one; the specification's first."""
        for it in self._documents(document):
            names = self.workspace.names(it)
            entry = names.entry(name.space, name.text) if names else None
            if entry:
                yield it, entry

    def hover(self, document, offset):
        """What a name stands for, in the specification's words where it has some; in a proof with the goal there."""
        made = self._named(document, offset)
        goal = self.goals.hover(document, offset) if document.kind == "proofs" else None
        if goal is None:
            return made
        made = made or {"contents": {"kind": "markdown", "value": ""}, "range": document.range(offset, offset)}
        parts = [goal, made["contents"]["value"]]
        made["contents"]["value"] = "\n\n".join(filter(None, parts))
        return made

    def _named(self, document, offset):
        name = self._name(document, offset)
        if name is None:
            return None
        if name.home is not None:
            shown = self._worded(document, name) or self.workspace.names(document).note(name.key)
            return _hover(document, name, [_code(document.kind, shown)]) if shown else None
        found = next(self._entries(document, name), None)
        if not found:
            return None
        where, entry = found
        parts = [_code(where.kind, "\n".join([entry.shown, *entry.notations]))]
        if entry.about:
            parts.append(entry.about)
        if where.stem != document.stem or where.kind != document.kind:
            at = where.position(entry.start)
            parts.append(f"{os.path.basename(where.path)}:{at['line'] + 1}:{at['character'] + 1}")
        return _hover(document, name, parts)

    def _worded(self, document, name):
        """A hypothesis or a let of a text in the specification's notation, where there is one."""
        spec = self.workspace.beside(document, "mm0")
        if name.space != "hypothesis" or document.kind != "mmu" or spec is None:
            return None
        entries = self.workspace.names(document).entries
        statement = next((it for it in entries if it.home == name.home), None)
        said = wording(document.text, spec.text, statement.name, name.text) if statement else None
        return f"{name.text}: $ {said} $" if said else None

    def definition(self, document, offset):
        """Where a name is declared: in this document, else in the specification, else where it is imported from. From the
        declaration itself the way leads to that of the other documents."""
        name = self._name(document, offset)
        if name is None:
            return None
        if name.home is not None:
            return [_location(document, it.start, it.end) for it in self.workspace.names(document).of(name.key) if it.declares]
        found = list(self._entries(document, name))
        others = [it for it in found if it[0] is not document]
        chosen = others if name.declares and others else [it for it in found if it[0] is document] or found
        return [_location(where, it.name_start, it.name_start + len(it.name)) for where, it in chosen[:1]]

    def references(self, document, offset, with_declarations):
        name = self._name(document, offset)
        if name is None:
            return None
        documents = [document] if name.home is not None else self.workspace.family(document)
        return [_location(where, it.start, it.end) for where in documents for it in self.workspace.names(where).of(name.key)
                if with_declarations or not it.declares]

    def symbols(self, document):
        names = self.workspace.names(document)
        return [{"name": it.name, "detail": f"local {it.kind}" if it.is_local else it.kind, "kind": SYMBOLS[it.kind],
                 "range": document.range(it.start, it.end),
                 "selectionRange": document.range(it.name_start, it.name_start + len(it.name))}
                for it in (names.entries if names else ())]

    def completion(self, document, offset):
        """The names that may stand here, by what stands around."""
        names = self.workspace.names(document)
        if names is None:
            return []
        if document.kind == "proofs" and not self._is_formula(document, offset):
            steps = self.goals.steps(document, offset)
            if steps is not None:
                return steps
        spaces = self._spaces(document, offset)
        items = {}
        for where in self._documents(document):
            for it in self.workspace.names(where).entries:
                is_behind = where is document and it.start >= offset
                if it.space in spaces and not is_behind:
                    items.setdefault(it.name, _item(it.name, ITEMS[it.kind], it.shown, it.about))
        for (space, word), note in names.notes_of(names.before(offset)).items():
            if space in spaces:
                items.setdefault(word, _item(word, ITEMS[space], note))
        if not self._is_formula(document, offset):
            items |= {word: _item(word, ITEMS["word"], "") for word in WORDS[document.kind]}
        return list(items.values())

    def _is_formula(self, document, offset):
        return document.kind != "mmu" and document.text.count("$", 0, offset) % 2 == 1

    def _spaces(self, document, offset):
        if self._is_formula(document, offset):
            return {"term", "variable"}
        if document.kind == "mm0":
            return {"sort", "term", "variable"}
        return {"sort", "term", "assertion", "variable", "hypothesis"}


def _code(kind, text):
    return f"```{kind}\n{text}\n```"


def _hover(document, name, parts):
    return {"contents": {"kind": "markdown", "value": "\n\n".join(parts)}, "range": document.range(name.start, name.end)}


def _location(document, start, end):
    return {"uri": document.uri, "range": document.range(start, end)}


def _item(label, kind, detail, about=""):
    made = {"label": label, "kind": kind}
    if detail:
        made["detail"] = " ".join(detail.split())
    if about:
        made["documentation"] = about
    return made
