"""What is said where a binary doesn't state what the specification declares: both side by side, carets below the difference."""
from . import specs
from .binaries import Binary, Names, Speller
from .notations import Writer
from .reading import Reading, Stopped
from .source import Source, many


class Pair:
    """The declaration of the specification, and the statement of the binary."""

    def __init__(self, spec_path, binary_path, refusal):
        self.source, self.refusal = Source(spec_path), refusal
        self.spec = specs.Spec(self.source.data)
        self.declared = self.spec.numbered(refusal.declaration)
        self.binary = Binary(binary_path)
        listing = self.binary.statements(refusal.statement)
        self.statement = listing.last if len(listing) == refusal.statement else None
        self.names = Names(listing, self.spec.name_of)
        self.notations = self.spec.notations
        hidden = [name for name, _, _, _ in self.notations.coercions]
        self.writer = Writer(self.notations, hidden)

    # the specification's side

    def spec_text(self):
        made = self.declared
        if made.kind == "sort":
            return " ".join([*made.modifiers, "sort", made.name])
        head = " ".join([made.kind, made.name, *(binder_text(it.name, it.bound, it.sort, it.needs) for it in made.binders)])
        if made.kind in ("axiom", "theorem"):
            return f"{head}: {' > '.join(self.rewritten(it) for it in made.formulas)}"
        result = f"{head}: {' '.join([made.sort, *made.needs])}"
        return f"{result} = {self.rewritten(made.body)}" if made.body is not None else result

    def rewritten(self, text):
        """A formula, written as the binary's is."""
        try:
            e, _ = Reading(self.notations.tokens(text), specs.Spec(self.source.data, self.declared.at), self.declared.variables()).whole()
        except (Stopped, KeyError):
            return f"$ {' '.join(text.split())} $"
        return self.formula(e)

    def formula(self, e):
        shown = self.writer.write(e)
        return f"$ {shown} $" if shown else "$ .. $"

    # the binary's side

    def own_names(self, words):
        """What the statement's parameters are called: as in the specification where it declares as many."""
        given = [it.name for it in self.declared.binders] if self.declared else []
        return [given[i] if i < len(given) and given[i] != "_" else f"v{i}" for i in range(len(words))]

    def binders(self, words, names):
        bound, shown = [], []
        for word, name in zip(words, names):
            needs = [] if word.bound else [it for k, it in enumerate(bound) if word.bits >> k & 1]
            if word.bound:
                bound.append(name)
            shown.append(binder_text(name, word.bound, self.names.sort(word.sort), needs))
        return shown, bound

    def binary_text(self):
        it = self.statement
        name = self.declared.name if self.declared else f"_p{it.number}"
        if it.code == 0x04:
            return " ".join([*self.binary.modifiers(it.row), "sort", name])
        return self.binary_term(it, name) if it.is_term else self.binary_assertion(it, name)

    def binary_term(self, it, name):
        words, sort, result, is_definition, place = self.binary.term(it.row)
        names = self.own_names(words)
        shown, bound = self.binders(words, names)
        needs = [one for k, one in enumerate(bound) if result.bits >> k & 1]
        text = f"{' '.join(['def' if is_definition else 'term', name, *shown])}: {' '.join([self.names.sort(sort), *needs])}"
        if not is_definition or not self.declared or self.declared.body is None:
            return text
        body = Speller(self.binary, self.names).spelled(place, names)[0]
        return f"{text} = {self.formula(self.with_dummies(body))}"

    def with_dummies(self, body):
        """The body with the specification's names for dummies, in the order in which they are met, where there are as many."""
        dummies = [it.name for it in self.declared.dummies]
        used = sorted({it for it in leaves(body) if it.startswith("d") and it[1:].isdigit() and it not in self.declared.variables()})
        return renamed(body, dict(zip(used, dummies))) if len(dummies) == len(used) else body

    def binary_assertion(self, it, name):
        words, place = self.binary.theorem(it.row)
        names = self.own_names(words)
        conclusion, *hypotheses = Speller(self.binary, self.names).spelled(place, names)
        kind = "axiom" if it.code == 0x02 else "theorem"
        formulas = [self.formula(one) for one in [*reversed(hypotheses), conclusion]]
        return f"{' '.join([kind, name, *self.binders(words, names)[0]])}: {' > '.join(formulas)}"

    # both

    def lines(self):
        code = self.refusal.code
        if code == "M1":
            said = [f"the binary's list ends after {many(self.refusal.statement - 1, 'statement')}; none is left for declaration {self.refusal.declaration}:"]
            return [*said, f"{self.where()}: {self.spec_text()}"]
        if code == "M2":
            said = f"the specification has {many(self.refusal.declaration - 1, 'declaration')}; the binary's statement {self.refusal.statement} is public too:"
            return [said, f"binary: {self.binary_text()}"]
        left, right = f"{self.where()}: ", "binary: "
        width = max(len(left), len(right))
        return [left.ljust(width) + self.spec_text(), right.ljust(width) + self.binary_text(), *marked(self.spec_text(), self.binary_text(), width), *self.more()]

    def where(self):
        return self.source.named(self.declared.at)

    def more(self):
        code, made = self.refusal.code, self.declared
        if code == "M9":
            return ["dummies may have other names; each stands for one of its sort, and no two for one"]
        if code == "M7":
            ours, theirs = len(made.formulas) - 1, self.binary.hypotheses_of(self.statement.row)
            return [f"the specification has {many(ours, 'hypothesis', 'hypotheses')}, the binary {theirs}"] if ours != theirs else []
        if code == "M5" and self.statement.code != 0x04:
            words = self.binary.term(self.statement.row)[0] if self.statement.is_term else self.binary.theorem(self.statement.row)[0]
            return [f"the specification has {many(len(made.binders), 'parameter')}, the binary {len(words)}"] if len(words) != len(made.binders) else []
        return []


def binder_text(name, bound, sort, needs):
    text = " ".join([f"{name}: {sort}", *needs])
    return f"{{{text}}}" if bound else f"({text})"


def leaves(e):
    return {e} if isinstance(e, str) else set().union(*map(leaves, e[1:]))


def renamed(e, names):
    return names.get(e, e) if isinstance(e, str) else (e[0], *(renamed(it, names) for it in e[1:]))


def marked(one, other, width):
    """A line with carets below the part in which two texts differ, if they do."""
    if one == other:
        return ["both are written alike: they differ in what isn't shown, as the sorts of dummies or coercions"]
    first = next((i for i, (a, b) in enumerate(zip(one, other)) if a != b), min(len(one), len(other)))
    last = 0
    while last < min(len(one), len(other)) - first and one[-1 - last] == other[-1 - last]:
        last += 1
    length = max(len(one), len(other)) - first - last
    return [" " * (width + first) + "^" * max(1, length)]


def explain(spec_path, binary_path, refusal):
    """Lines on a pair that doesn't match."""
    return Pair(spec_path, binary_path, refusal).lines()
