"""A Metamath database in the making: its symbols and labels, each given once, and its statements as text."""
from dataclasses import dataclass, field

WIDTH, LETTERS = 79, 75  # of a line, and of a line of a proof


class Names:
    """Symbols or labels that are each given once."""

    def __init__(self):
        self.used = set()

    def take(self, *wanted):
        """The first of these that is free, or the last with a number behind it."""
        name = next((it for it in wanted if it and it not in self.used), None)
        if name is None:
            base, count = next(it for it in reversed(wanted) if it), 2
            while f"{base}{count}" in self.used:
                count += 1
            name = f"{base}{count}"
        self.used.add(name)
        return name


@dataclass
class Piece:
    """A statement of the database. A hypothesis is a label and symbols; a proof is labels and letters, and none is an axiom."""

    about: str
    label: str
    symbols: list
    hypotheses: list = field(default_factory=list)
    distinct: list = field(default_factory=list)  # groups of variables
    proof: object = None


class DatabaseText:
    """`variables` has a symbol, a typecode and a label of each, in their order."""

    def __init__(self):
        self.symbols, self.labels = Names(), Names()
        self.symbols.used |= {"(", ")", "|-"}
        self.constants, self.variables, self.pieces = ["(", ")", "|-"], [], []
        self._variable_of = {}

    def reserve(self, symbols):
        """Keeps symbols for constants that come later."""
        self.symbols.used |= symbols
        self.labels.used |= symbols

    def constant(self, *wanted):
        name = self.symbols.take(*wanted)
        self.labels.used.add(name)
        self.constants.append(name)
        return name

    def variable(self, name, code):
        """The number of the variable of this typecode that stands for this name."""
        number = self._variable_of.get((name, code))
        if number is None:
            symbol = self.symbols.take(name if name not in self.labels.used else None, f"{name}-{code}")
            number = self._variable_of[name, code] = len(self.variables)
            self.labels.used.add(symbol)
            self.variables.append((symbol, code, self.labels.take(f"v{symbol}", f"v.{symbol}", f"v.{symbol}.")))
        return number

    def write(self, file, title):
        lines = [_wrapped(f"$( {title} $)"), "", _wrapped("$c " + " ".join(self.constants) + " $.")]
        if self.variables:
            lines.append(_wrapped("$v " + " ".join(it[0] for it in self.variables) + " $."))
        lines += [f"{label} $f {code} {symbol} $." for symbol, code, label in self.variables]
        file.writelines(it + "\n" for it in lines)
        for piece in self.pieces:
            file.write("\n" + "\n".join(_lines(piece)) + "\n")


def _lines(it):
    """A statement with its scope, where it has one."""
    is_scoped = bool(it.distinct or it.hypotheses)
    inner = "  " if is_scoped else ""
    if is_scoped:
        yield "${"
    for group in it.distinct:
        yield _wrapped(f"{inner}$d {' '.join(group)} $.")
    for label, symbols in it.hypotheses:
        yield _wrapped(f"{inner}{label} $e {' '.join(symbols)} $.")
    yield _wrapped(f"{inner}$( {it.about.replace('$', 'dollar ')} $)")
    if it.proof is None:
        yield _wrapped(f"{inner}{it.label} $a {' '.join(it.symbols)} $.")
    else:
        labels, steps = it.proof
        yield _wrapped(f"{inner}{it.label} $p {' '.join(it.symbols)} $=")
        yield _wrapped(f"{inner}  ( {' '.join(labels)} )")
        yield "\n".join(f"{inner}  {steps[at : at + LETTERS]}" for at in range(0, len(steps), LETTERS)) + " $."
    if is_scoped:
        yield "$}"


def _wrapped(text):
    """A line cut at spaces; tokens stay whole."""
    if len(text) <= WIDTH:
        return text
    words = text.split()
    indent = " " * (len(text) - len(text.lstrip(" ")))
    lines, here, room = [], [indent + words[0]], WIDTH - len(indent) - len(words[0])
    for word in words[1:]:
        room -= len(word) + 1
        if room < 0:
            lines.append(" ".join(here))
            here, room = [f"{indent}  {word}"], WIDTH - len(indent) - 2 - len(word)
        else:
            here.append(word)
    return "\n".join([*lines, " ".join(here)])


def letters(number):
    """A number in the letters of a compressed proof."""
    made = chr(ord("A") + number % 20)
    number //= 20
    while number:
        number -= 1
        made = chr(ord("U") + number % 5) + made
        number //= 5
    return made
