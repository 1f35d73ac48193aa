"""How a database's syntax is written in a specification: names, and notations that keep the database's symbols.

No delimiter is declared, so that tokens are cut at spaces alone, as in Metamath. Where a syntax axiom has parentheses around
it they are written always; others stand only where a level asks for them. A specification has one notation for a leading
constant and one for an infix one: where a constant is taken, the first constant of the notation is the axiom's constants
joined, as many as are needed, as in `{|` for `{ x | ph }` where `{` is taken."""
import itertools
import re
from typing import NamedTuple, Optional

KEYWORDS = set("""sort term def axiom theorem pure strict provable free delimiter infixl infixr prefix notation coercion input
output prec max lassoc rassoc local""".split())
KNOWN = {"->": (25, "r"), "<->": (20, "l"), "\\/": (30, "l"), "/\\": (34, "l"), "=": (50, "l"), "e.": (50, "l"), "C_": (50, "l")}
# Of operations and relations that stand between two expressions, where they aren't those of all others.
OPERATORS = {"+": (64, "l"), "-": (64, "l"), "x.": (70, "l"), "/": (70, "l"), "^": (75, "r"), "...": (60, "l"), "..^": (60, "l")}
BRACKETS = [("(.", ".)"), ("(:", ":)"), ("(;", ";)"), ("(,", ",)")]  # for syntax that has variables alone
RELATION, CONNECTIVE, OPERATION, WFF_PREFIX, PREFIX, POSTFIX, MAX = 50, 28, 64, 41, 90, 95, float("inf")


def identifier(label):
    made = re.sub(r"[^A-Za-z0-9_]", "_", label)
    made = "_" + made if made[:1].isdigit() else made
    return made + "_" if made in KEYWORDS or made == "_" else made


class Names:
    """Names that are each given once; `taken`, which isn't copied, are others."""

    def __init__(self, taken=(), *others):
        self.taken, self.used = taken, {*others}

    def take(self, wanted):
        name, k = wanted, 2
        while name in self.used or name in self.taken:
            name, k = f"{wanted}_{k}", k + 1
        self.used.add(name)
        return name


class Notation(NamedTuple):
    kind: str  # infixl, infixr, prefix, notation
    level: float
    literals: tuple  # (constant, level) or numbers of parameters
    parenthesised: bool
    tail: Optional[str] = None


class Notations:
    """Gives notations to terms in their order."""

    def __init__(self, provable, names):
        self.provable, self.names = provable, names
        self.levels, self.leading, self.infix = {}, set(), set()
        self.sides, self.juxtaposed = {}, 0
        self.made_of = {}  # constants that are joined of others, or stand for parentheses: these

    @staticmethod
    def joined(items):
        """The literals without parentheses, and the constants that make a name where the first one is taken."""
        items = [it for it in items if it not in ("(", ")")]
        constants = [it for it in items if isinstance(it, str)]
        closes = len(constants) > 1 and isinstance(items[0], str) and isinstance(items[-1], str)
        return items, constants[:-1] if closes else constants

    def give(self, items, parameters, sort):
        """`items`: symbols, or numbers of parameters; `parameters`: (sort, whether bound). None where there is none."""
        parenthesised = len(items) > 1 and items[0] == "(" and items[-1] == ")"
        items, name = self.joined(items)
        if len(items) > 1 and not any(isinstance(it, str) for it in items):
            parenthesised = False
            first, last = BRACKETS[self.juxtaposed % len(BRACKETS)]
            self.juxtaposed += 1
            items, name = [first, *items, last], [first]
            self.made_of.update({first: ["("], last: [")"]})
        constants = [it for it in items if isinstance(it, str)]
        if not constants or any("$" in it or it in self.names for it in constants):
            return None
        is_infix = not isinstance(items[0], str)
        table = self.infix if is_infix else self.leading
        if is_infix and (len(items) < 2 or not isinstance(items[1], str)):
            return None
        first = items.index(constants[0])
        if constants[0] in table:
            items[first] = self._joined(name, table)
            if items[first] is None:
                return None
        head = items[first]
        level, side = self._level(items, is_infix, parameters, sort, parenthesised)
        if head in self.levels:
            if self.levels[head] == MAX and is_infix:
                return None
            level = self.levels[head]
        if is_infix:
            side = self.sides.setdefault(level, side)
        table.add(head)
        self.levels[head] = level
        if is_infix and len(items) == 3 and items[0] == 0 and items[2] == 1:
            return Notation("infix" + side, level, (0, (head, level), 1), parenthesised)
        if not is_infix and items[1:] == list(range(len(items) - 1)):
            return Notation("prefix", level, ((head, level), *items[1:]), parenthesised)
        literals = []
        for it in items:
            literals.append(it if isinstance(it, int) else (it, self.levels.setdefault(it, 0)))
        return Notation("notation", level, tuple(literals), parenthesised, side if is_infix else None)

    def _joined(self, name, table):
        """The first constants of a name, joined, as many as are needed for a constant of its own."""
        for count, made in enumerate(itertools.accumulate(name), 1):
            if made not in table and made not in self.levels and made not in self.names:
                self.made_of[made] = name[:count]
                return made
        return None

    def _level(self, items, is_infix, parameters, sort, parenthesised):
        if is_infix:
            if items[1] in KNOWN:
                return KNOWN[items[1]]
            if isinstance(items[-1], str) and not parenthesised:
                return POSTFIX, "l"
            if sort == self.provable:
                return (CONNECTIVE if parenthesised else RELATION), "l"
            return OPERATION, "l"
        if isinstance(items[-1], str):
            return MAX, None
        return (WFF_PREFIX if parameters[items[-1]][0] == self.provable else PREFIX), None


def operator_notation(notations, terms, outer, inner, is_relation):
    """The notation of an infix that stands for `outer` with the constant `inner` in its middle; None where there can be none.
    A constant has one precedence, so that of the constant alone, and where it stands in other notations, becomes this one."""
    alone = inner.notation
    if notations is None or alone is None or alone.kind != "prefix" or len(alone.literals) > 1:
        return None
    constant = alone.literals[0][0]
    if constant in notations.infix or notations.levels[constant] != MAX:
        return None
    level, side = OPERATORS.get(constant, (RELATION if is_relation else OPERATION, "l"))
    if notations.sides.setdefault(level, side) != side:
        return None
    notations.infix.add(constant)
    notations.levels[constant] = level
    for it in terms:
        note = it.notation
        if note and any(x[0] == constant for x in note.literals if isinstance(x, tuple)):
            literals = tuple((constant, level) if isinstance(x, tuple) and x[0] == constant else x for x in note.literals)
            it.notation = note._replace(literals=literals, level=level if it is inner else note.level)
    return Notation("infix" + side, level, (0, (constant, level), 1), "(" in outer.literals)


def level_text(level):
    return "max" if level == MAX else str(level)


def notation_text(it, name, binders, result, names):
    """The statement that declares a notation."""
    if it.kind != "notation":
        constant = next(x[0] for x in it.literals if isinstance(x, tuple))
        return f"{it.kind} {name}: ${constant}$ prec {level_text(it.level)};"
    literals = [f"(${x[0]}$: {level_text(x[1])})" if isinstance(x, tuple) else names[x] for x in it.literals]
    tail = f": {level_text(it.level)} {it.tail}assoc" if it.tail else ""
    return f"notation {name}{binders}: {result} = {' '.join(literals)}{tail};"


def written_otherwise(terms):
    """Of terms that are written otherwise than by their database: how here, and how there."""
    for it in terms:
        names = [x[2] for x in it.parameters]
        theirs = [x if isinstance(x, str) else names[x] for x in it.literals]
        if it.notation is None:
            if not it.is_coercion:
                yield " ".join([it.name, *names]), " ".join(theirs)
            continue
        mine = [x[0] if isinstance(x, tuple) else names[x] for x in it.notation.literals]
        mine = ["(", *mine, ")"] if it.notation.parenthesised else mine
        if mine != theirs:
            yield " ".join(mine), " ".join(theirs)


class Operand(NamedTuple):
    """A place for an operand in what is written: the precedence asked for there; `left`: a form of this precedence that groups
    to the left may stand there too."""

    index: int
    level: float
    left: Optional[float] = None


class Form:
    """How a term is written: its precedence, whether it has parentheses always, and tokens and operands."""

    def __init__(self, term):
        note, count = term.notation, len(term.kinds)
        self.is_coercion = term.is_coercion
        if note is None:
            self.level, self.is_inside, self.groups_left = (1024 if count else MAX), False, False
            self.items = [term.name, *(Operand(i, MAX) for i in range(count))]
        else:
            self.level, self.is_inside = note.level, note.parenthesised
            self.groups_left = note.kind == "infixl" or note.tail == "l"
            self.items = _items(note)


def _items(note):
    literals, level, made = note.literals, note.level, []
    is_left = note.kind == "infixl" or note.tail == "l"
    for i, it in enumerate(literals):
        behind = literals[i + 1] if i + 1 < len(literals) else None
        if isinstance(it, tuple):
            made.append(it[0])
        elif i == 0:
            made.append(Operand(it, level + 1, level if is_left else None))
        elif behind is None:
            made.append(Operand(it, level + 1 if is_left else level))
        else:
            made.append(Operand(it, MAX if isinstance(behind, int) or note.kind == "prefix" else behind[1] + 1))
    return made


class Printer:
    """Writes expressions: `terms` gives for a term's number its name and its notation."""

    def __init__(self, terms):
        self.terms, self._forms = terms, {}

    def tokens(self, expressions, names, number):
        out = []
        self._write(expressions.keys, names, number, 0, None, out)
        return out

    def _write(self, keys, names, number, level, left, out):
        key = keys[number]
        if key.__class__ is int:
            out.append(names[key])
            return
        head = key[0]
        form = self._forms.get(head)
        if form is None:
            form = self._forms[head] = Form(self.terms[~head])
        operands = key[1] if key[1].__class__ is tuple else key[1:]
        if form.is_coercion:
            self._write(keys, names, operands[0], level, left, out)
            return
        inside = form.is_inside or form.level < level and not (form.groups_left and left == form.level)
        if inside:
            out.append("(")
        for it in form.items:
            if it.__class__ is str:
                out.append(it)
            else:
                self._write(keys, names, operands[it.index], it.level, it.left, out)
        if inside:
            out.append(")")
