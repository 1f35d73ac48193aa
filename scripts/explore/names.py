"""Names under which terms and variables are written, so that a formula's tokens are read as what they stand for."""
from collections import Counter, defaultdict


class Names:
    """Chooses names beside those of a specification. Where the text's names are made by a program (`is_made`), variables get
    such as the specification uses for their sort."""

    def __init__(self, statements, theory, is_made=False):
        self.theory, self.is_made = theory, is_made
        self._written = {}  # name that stands for a term: the term's name
        counts = defaultdict(Counter)
        for it in statements:
            for variable in it.variables.values():
                counts[variable.sort, variable.bound][variable.name] += 1
        self._usual = {key: [name for name, _ in found.most_common()] for key, found in counts.items()}

    def usual(self):
        """The names that are usual for each sort, in order."""
        return sorted(self._usual.items())

    def term(self, name, is_local):
        """The name by which a term is written: its own, or where that would be read as something else, a longer one."""
        written = name
        while self._is_taken(written) or written in self._written or written in self.theory.terms and \
                (is_local or written != name):
            written += "_"
        if is_local or written != name:
            self._written[written] = name
        return written

    def variables(self, wished, taken=()):
        """Names for variables, each given by its wished name or nothing, its sort and whether it is bound."""
        taken, made = set(taken), []
        for name, sort, bound in wished:
            options = self._options(name if name != "_" else None, sort, bound)
            made.append(next(it for it in options if it not in taken and not self._is_clash(it)))
            taken.add(made[-1])
        return made

    def _options(self, name, sort, bound):
        if name:
            yield name
        usual = self._usual.get((sort, bound), ["x" if bound else "a"])
        if not name:
            yield from usual
            yield from self._letters(usual, sort, bound)
        base = name or usual[0]
        for word in (base, sort, "v", "V"):
            yield word
            yield from (f"{word}{'' if word[-1].isalpha() else '_'}{i}" for i in range(1, 10000))

    def _letters(self, usual, sort, bound):
        """Letters behind those that are usual, but for those that are usual for something else."""
        first = next((it for it in reversed(usual) if len(it) == 1), None)
        others = {name for key, names in self._usual.items() if key != (sort, bound) for name in names}
        if first:
            behind = [chr(code) for code in range(ord(first) + 1, ord("z" if first.islower() else "Z") + 1)]
            yield from (it for it in behind if it not in others)

    def _is_taken(self, name):
        """Whether this token would be read as another thing's constant, or as several tokens."""
        return name in self.theory.notations.leading or not self.theory.notations.is_token(name)

    def _is_clash(self, name):
        return self._is_taken(name) or name in self.theory.terms or name in self._written
