"""Goals in proof sources: what is told of a place, the lenses behind `sorry` and `have`, what may be cited, and proofs that are
found."""
import re

from prove.goals import statement, view
from prove.places import Wrong
from prove.search import SECONDS, candidates, proofs, surroundings
from prove.sources import Have, Missing

DEPTHS = (2, 3)
METHOD, FUNCTION, KEYWORD, FIELD = 2, 3, 14, 5  # as the protocol counts kinds of items
PROOF_WORDS = ("have", "where", "calc", "rw", "prop", "sorry")
_OPEN = re.compile(r"--[^\n]*|\$[^$]*\$?|(?P<what>\b(?:sorry|have)\b|\?(?:\s*(?P<depth>\d+))?)")


class Goals:
    def __init__(self, workspace):
        self.workspace = workspace
        self.writer, self.known = None, {}  # what was looked at last, and the looks at its theorems

    def _view(self, document, offset, is_word_left_out=False):
        """A look at the theorem here, and where in its piece; or nothing."""
        if document.kind != "proofs":
            return None
        writer, _ = self.workspace.examined(document)
        if writer is not self.writer:
            self.writer, self.known = writer, {}
        try:
            return writer and view(writer, offset, is_word_left_out, self.known)
        except (Wrong, LookupError):
            return None

    def here(self, document, offset):
        """What there is at a place: its parts, and all of them as a text; or nothing."""
        looked = self._view(document, offset)
        if looked is None:
            return None
        found = looked[0].here(looked[0].seen(looked[1]))
        return {**vars(found), "text": found.text(None)}

    def hover(self, document, offset):
        looked = self._view(document, offset)
        seen = looked and looked[0].seen(looked[1])
        if not seen:
            return None
        here = looked[0].here(seen)
        lines = [f"⊢ {here.goal}", *here.visible]
        if here.parameters:
            lines += ["", *here.parameters]
        return "```mm0\n" + "\n".join(lines) + "\n```"

    def lenses(self, document):
        """Where a lens may stand: at each `sorry`, `?` and `have`. What it says is asked for when it is seen."""
        return [{"range": document.range(it.start(), it.end()), "data": {"uri": document.uri, "at": it.start()}}
                for it in _OPEN.finditer(document.text) if it["what"]] if document.kind == "proofs" else []

    def lens(self, document, offset):
        """What a lens says: the goal, or what is had."""
        looked = self._view(document, offset)
        seen = looked and looked[0].seen(looked[1])
        if not seen:
            return ""
        if isinstance(seen.proof, Have):
            return f"{seen.proof.name}: {looked[0].had(seen)}"
        return f"⊢ {looked[0].here(seen).goal}"

    def steps(self, document, offset):
        """What may stand as a step here, the best fits for the goal first; nothing where no step can."""
        looked = self._view(document, offset, True)
        seen = looked and looked[0].seen(looked[1])
        if not seen:
            return None
        look, scope = looked[0], looked[0].surroundings(seen)
        items = {}
        for it in candidates(seen.goal, scope):
            left = look.writer.printer.formulas(it.open)
            said = " > ".join(f"$ {one} $" for one in left) if left else "nothing is left to prove"
            items.setdefault(it.name, item(it.name, FIELD if not it.origin else METHOD, said, f"0{len(items):05}"))
        for name, formula in zip(seen.visible, look.writer.printer.formulas(seen.visible.values())):
            items.setdefault(name, item(name, FIELD, f"$ {formula} $", "1"))
        for name, number in look.writer.numbers.items():
            if number < scope.before:
                items.setdefault(name, {**item(name, FUNCTION, "", "2"), "data": document.uri})
        for word in PROOF_WORDS:
            items.setdefault(word, item(word, KEYWORD, "", "3"))
        return list(items.values())

    def detail(self, document, name):
        """What a theorem says, for a completion that is looked at."""
        writer, _ = self.workspace.examined(document)
        found = writer and writer.assertions.get(name)
        return statement(found, writer.printer) if found else ""

    def actions(self, document, start, end):
        """What can be done for the open goals in a range, or where none is for a theorem that is left out: to look for a proof."""
        if document.kind != "proofs":
            return []
        here = [it for it in self._open(document) if it[0] <= end and start <= it[1]] or list(self._left_out(document, start, end))
        return [{"title": f"Look for a proof{of} (depth {depth})", "kind": "quickfix",
                 "data": {"uri": document.uri, "from": where, "to": there, "depth": depth}} for where, there, of, depths in here for depth in depths]

    @staticmethod
    def _open(document):
        """Each `sorry` and `?`: from where to where it stands, what it is called, and how deep proofs may be looked for."""
        for it in _OPEN.finditer(document.text):
            if it["what"] and it["what"] != "have":
                yield it.start(), it.end(), "", sorted({*DEPTHS, int(it["depth"] or DEPTHS[0])})

    def _left_out(self, document, start, end):
        """The same of theorems that are left out. Where one belongs is near on the line before, too."""
        for at, goal in self._missing(document).items():
            line = document.text.rfind("\n", 0, max(document.text.rfind("\n", 0, at), 0)) + 1
            if line <= end and start <= at:
                yield at, at, f" of {goal.elaborator.theorem.name}", DEPTHS

    def _missing(self, document):
        """The goals of theorems that are left out, by their places: at each place the first."""
        writer, _ = self.workspace.examined(document)
        found = {}
        for goal in writer.goals if writer else ():
            if isinstance(goal.sorry, Missing):
                found.setdefault(goal.sorry.place.at, goal)
        return found

    def found(self, document, start, end, depth, seconds=SECONDS):
        """The edits that write proofs which are found for an open goal, the best first; and how far was looked."""
        missing = self._missing(document).get(start) if start == end else None
        if missing:
            goal, scope, text = missing.goal, surroundings(missing), f"theorem {missing.elaborator.theorem.name} = {{}};\n"
        else:
            looked = self._view(document, start)
            seen = looked and looked[0].seen(looked[1])
            if not seen:
                return [], "there is no goal here"
            goal, scope, text = seen.goal, looked[0].surroundings(seen), "{}"
        search = proofs(goal, scope, depth, seconds)
        return [{"range": document.range(start, end), "newText": text.format(it)} for it in search.proofs], search.said()


def item(label, kind, detail, sort):
    made = {"label": label, "kind": kind, "sortText": sort}
    return {**made, "detail": detail} if detail else made
