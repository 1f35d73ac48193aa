"""What is to be proved at a place of a source, what is visible there, and what the step there does. Text that is unfinished is
looked at as far as it goes."""
from dataclasses import dataclass, field
from itertools import groupby

from .elaborate import Elaborator
from .lexemes import lexemes
from .logic import Assertion, instance
from .pieces import Piece
from .places import Wrong, report
from .proofs import Gap
from .search import Surroundings
from .sources import Sorry, SourceReader
from .texts import names as names_of

FILLERS = (" sorry", "", " = sorry", " by sorry")
TAILS = ("", "; sorry", "; sorry; sorry")
OPEN = {"(": ")", "[": "]", "{": "}"}


class Onlooker(Elaborator):
    """Elaborates as far as it can: where something is wrong, that proof is left open, and the others are looked at."""

    def __init__(self, *given):
        super().__init__(*given)
        self.seen, self.cites = [], {}

    def proved(self, proof, goal):
        self.seen.append(Seen(proof, goal, dict(self.visible)))
        try:
            return super().proved(proof, goal)
        except Wrong:
            return Gap(Sorry(proof.place, None), goal, dict(self.visible), self, 0)

    def formula(self, math, sort=None):
        try:
            return super().formula(math, sort)
        except Wrong:
            return self.unifier.hole(sort or self.theorem.conclusion.sort, False, "_", None, None)

    def conversion(self, goal, found, place, what):
        try:
            return super().conversion(goal, found, place, what)
        except Wrong:
            return None

    def converted(self, goal, conversion, made):
        return super().converted(goal, conversion, made) if conversion else made

    def made_now(self, node, proof, goal, visible):
        try:
            super().made_now(node, proof, goal, visible)
        except Wrong:
            pass

    def parts(self, step, wanted):
        return [*step.parts, *(Sorry(step.place, None) for _ in wanted)][: len(wanted)]

    def noted(self, step, cited, given):
        self.cites[step] = cited, given


@dataclass
class Seen:
    """A proof that was looked at: what it had to prove, and what was visible."""

    proof: object
    goal: object
    visible: dict

    @property
    def extent(self):
        return getattr(self.proof, "extent", None)


@dataclass
class Here:
    """What there is at a place: of which theorem, and texts: the goal, what is visible, the variables, and of the step what it
    cites, says, proves and wants, with what stands for the parameters of what it cites."""

    theorem: str
    goal: str
    visible: list = field(default_factory=list)
    variables: list = field(default_factory=list)
    step: str = ""
    says: str = ""
    proves: str = ""
    wants: list = field(default_factory=list)
    parameters: list = field(default_factory=list)

    def details(self):
        """All of it, as reports have it."""
        parts = [("goal", [self.goal]), ("visible", self.visible), ("variables", self.variables), ("step", [self.step]),
                 ("says", [self.says]), ("proves", [self.proves]), ("wants", self.wants), ("with", self.parameters)]
        return [(label, texts) for label, texts in parts if any(texts)]

    def text(self, place):
        return report(f"in {self.theorem}", place, self.details())


class View:
    """A theorem of a source, looked at with its proof as it stands in an item, which may be unfinished."""

    def __init__(self, writer, item):
        self.writer, self.text = writer, item.place.source.text
        self.theorem = writer.assertions[item.name]
        self.onlooker = Onlooker(writer.scope, self.theorem, writer.scope.binders(item.dummies, {}), writer.printer)
        try:
            self.onlooker.proved(item.proof, self.theorem.conclusion)
            self.onlooker.make_later()
        except RecursionError:
            pass

    def seen(self, offset):
        """The innermost proof at an offset of the piece, or nothing. A cursor behind a proof is still at it; one in a space
        behind something else is at what follows."""
        while 0 < offset < len(self.text) and self.text[offset].isspace() and not self.text[offset - 1].isalnum():
            offset += 1
        around = [it for it in reversed(self.onlooker.seen) if it.extent and it.extent[0] <= offset <= it.extent[1]]
        return min(around, key=lambda it: it.extent[1] - it.extent[0], default=None)

    def here(self, seen):
        """What is told of a proof; of the theorem itself, where there is none."""
        seen = seen or Seen(None, self.theorem.conclusion, dict(self.theorem.hypotheses))
        cited, given = self.onlooker.cites.get(seen.proof, (None, {}))
        proves = [instance(it, given) for it in ([*(e for _, e in cited.hypotheses), cited.conclusion] if cited else [])]
        texts = self.writer.printer.formulas([seen.goal, *seen.visible.values(), *given.values(), *proves])
        goal, visible, rest = texts[0], texts[1 : len(seen.visible) + 1], texts[len(seen.visible) + 1 :]
        made = Here(self.theorem.name, goal, [f"{name}: {text}" for name, text in zip(seen.visible, visible)], self.variables())
        if cited:
            made.step, made.says = cited.name, statement(cited, self.writer.printer)
            made.parameters = [f"{it.name} := {text}" for it, text in zip(given, rest)]
            *made.wants, made.proves = rest[len(given) :]
        return made

    def variables(self):
        """The variables, neighbours of one kind together."""
        them = [it for it in (*self.theorem.binders, *self.onlooker.dummies) if it.name != "_"]
        return [group(bound, type_, list(some)) for (bound, *type_), some in groupby(them, lambda it: (it.bound, it.sort, *names_of(it.needs)))]

    def had(self, seen):
        """What a `have` has."""
        formulas = [it.visible[seen.proof.name] for it in self.onlooker.seen if it.proof is seen.proof.proof]
        return self.writer.printer.formula(formulas[-1]) if formulas else "?"

    def surroundings(self, seen):
        """What a search for this goal rests on."""
        return Surroundings(self.onlooker, seen.visible, self.writer.numbers[self.theorem.name])


def group(bound, type_, them):
    inner = f"{' '.join(names_of(them))}: {' '.join(type_)}"
    return f"{{{inner}}}" if bound else f"({inner})"


def statement(assertion: Assertion, printer):
    """What an assertion says, in one line."""
    return " > ".join(f"$ {it} $" for it in printer.formulas([*(e for _, e in assertion.hypotheses), assertion.conclusion]))


def view(writer, offset, is_word_left_out=False, known=None):
    """A look at the theorem at an offset of the source, and where in its piece that is; or nothing. With `is_word_left_out` the
    word at the offset is taken as open. `known` keeps the looks at whole theorems."""
    piece = piece_at(writer.development.pieces, offset)
    if piece is None or piece.name not in writer.assertions or piece.kind != "theorem":
        return None
    at, text = offset - piece.start, piece.text
    known = {} if known is None or is_word_left_out else known
    if piece in known:
        return known[piece], at
    if is_word_left_out:
        start, end = word_at(text, at)
        text, at = f"{text[:start]}sorry{text[end:]}", start
    item = unfinished(Piece(piece.path, text, ""), writer.development.theory)
    if item is None or item.name != piece.name:
        return None
    known[piece] = View(writer, item)
    return known[piece], at


def piece_at(pieces, offset):
    return next((it for it in reversed(pieces) if it.start <= offset), None)


def word_at(text, at):
    """From where to where the word at an offset stands."""
    start = end = at
    while start and (text[start - 1].isalnum() or text[start - 1] == "_"):
        start -= 1
    while end < len(text) and (text[end].isalnum() or text[end] == "_"):
        end += 1
    return start, end


def unfinished(piece, theory):
    """The item of a piece; where it can't be read, as much of it as can, with gaps for what is missing; or nothing."""
    try:
        return SourceReader(piece, theory).item()
    except Wrong as why:
        front = piece.text[: why.place.offset]
    for filler in FILLERS:
        for tail in TAILS:
            try:
                return SourceReader(Piece(piece.path, closed(front + filler) + tail + ";", ""), theory).item()
            except Wrong:
                continue
    return None


def closed(text):
    """A text with its open brackets closed."""
    waiting = []
    try:
        for it in lexemes(Piece("", text, "")):
            if it.kind == "symbol" and it.text in OPEN:
                waiting.append(OPEN[it.text])
            elif it.kind == "symbol" and waiting and it.text == waiting[-1]:
                waiting.pop()
    except Wrong:
        return text
    return text + "".join(reversed(waiting))
