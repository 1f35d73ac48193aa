"""Notations of a specification: how math strings are cut and read, and how expressions are written in them."""
from dataclasses import dataclass

MAX = float("inf")
OF_TERM = 1024


@dataclass
class Form:
    """How a term is written: literals are numbers of operands, or a constant with its precedence."""

    term: str
    level: float
    literals: list
    at: int
    kind: str
    is_left: bool = False
    names: tuple = ()


def level_of(text):
    return MAX if text == "max" else int(text) if text.isdigit() else 0


class Notations:
    def __init__(self):
        self.left, self.right = set(), set()
        self.leading, self.infix, self.by_term = {}, {}, {}
        self.coercions, self.forms, self.delimiters = [], [], []

    def add(self, found, spec):
        """Adds what a statement declares."""
        words = [it.text for it in found]
        kind = words[0] if words else ""
        if kind == "delimiter":
            self.delimiters.append(found[0].at)
            strings = [it.text.split() for it in found if it.kind == "math"]
            if strings:
                self.left |= set(strings[0])
                self.right |= set(strings[-1])
        elif kind == "coercion" and len(words) >= 6:
            self.coercions.append((words[1], words[3], words[5], found[0].at))
        elif kind in ("infixl", "infixr", "prefix") and len(words) >= 6:
            self.operator(kind, words, found[0].at, spec)
        elif kind == "notation" and len(words) > 2:
            self.notation(words, found, spec)

    def operator(self, kind, words, at, spec):
        term, constant, level = words[1], words[3].strip(), level_of(words[5])
        if kind == "prefix":
            count = len(spec.terms[term].binders) if term in spec.terms else 1
            self.put(Form(term, level, [(constant, level), *range(count)], at, kind))
        else:
            self.put(Form(term, level, [0, (constant, level), 1], at, kind, kind == "infixl"))

    def notation(self, words, found, spec):
        term = words[1]
        equals = next((i for i, it in enumerate(found) if it.kind == "symbol" and it.text == "="), None)
        if equals is None:
            return
        names = binder_names(found[2:equals])
        literals, at, tail = [], equals + 1, None
        while at < len(found) and found[at].text != ";":
            if found[at].kind == "symbol" and found[at].text == "(" and at + 3 < len(found):
                literals.append((found[at + 1].text.strip(), level_of(found[at + 3].text)))
                at += 5
            elif found[at].kind == "symbol" and found[at].text == ":":
                tail = (level_of(found[at + 1].text), found[at + 2].text == "lassoc") if at + 2 < len(found) else (0, False)
                break
            else:
                literals.append(names.index(found[at].text) if found[at].text in names else 0)
                at += 1
        if literals:
            first = literals[0][1] if isinstance(literals[0], tuple) else 0
            level, is_left = tail or (first, False)
            self.put(Form(term, level, literals, found[0].at, "notation", is_left, tuple(names)))

    def put(self, form):
        self.forms.append(form)
        self.by_term.setdefault(form.term, form)
        if isinstance(form.literals[0], tuple):
            self.leading.setdefault(form.literals[0][0], form)
        elif len(form.literals) > 1 and isinstance(form.literals[1], tuple):
            self.infix.setdefault(form.literals[1][0], form)

    def tokens(self, text):
        """The tokens of a math string."""
        return [it for it, _ in self.placed_tokens(text)]

    def placed_tokens(self, text):
        """The tokens, each with its place in the string."""
        found, token, start = [], "", 0
        for at, char in enumerate(text + " "):
            if char in " \n" or char in self.right:
                if token:
                    found.append((token, start))
                token = ""
                if char in " \n":
                    continue
            if not token:
                start = at
            token += char
            if char in self.left or char in self.right:
                found.append((token, start))
                token = ""
        return found

    def levels(self, form):
        """The literals of a form, each operand with the precedence that it has."""
        for at, it in enumerate(form.literals):
            behind = form.literals[at + 1] if at + 1 < len(form.literals) else None
            if isinstance(it, tuple):
                yield it[0]
            elif at == 0:
                yield it, form.level if form.is_left else form.level + 1
            elif behind is None:
                is_infix = not isinstance(form.literals[0], tuple)
                yield it, form.level + 1 if is_infix and form.is_left else form.level
            elif isinstance(behind, int):
                yield it, MAX
            else:
                yield it, behind[1] if behind[1] == MAX else behind[1] + 1


class Writer:
    """Writes expressions in notations, cut where they are very long."""

    MOST = 1_600

    def __init__(self, notations=None, hidden=()):
        self.notations, self.hidden = notations or Notations(), set(hidden)

    def write(self, e):
        """The expression, or None where it is too long to be read."""
        self.left = self.MOST
        try:
            return self.show(e, 0)
        except (OverflowError, RecursionError):
            return None

    def show(self, e, level):
        self.left -= 1
        if self.left < 0:
            raise OverflowError
        name, operands = (e, ()) if isinstance(e, str) else (e[0], e[1:])
        form = self.notations.by_term.get(name)
        if name in self.hidden and len(operands) == 1:
            return self.show(operands[0], level)
        if form is None or sum(isinstance(it, int) for it in form.literals) != len(operands):
            own = OF_TERM if operands else MAX
            text = " ".join([name, *(self.show(it, MAX) for it in operands)])
        else:
            own = form.level
            text = " ".join(it if isinstance(it, str) else self.show(operands[it[0]], it[1]) for it in self.notations.levels(form))
        return f"({text})" if own < level else text


def binder_names(found):
    """The names of a notation's binders."""
    names, is_names = [], False
    for it in found:
        if it.kind == "symbol" and it.text in "({":
            is_names = True
        elif it.kind == "symbol" and it.text == ":":
            is_names = False
        elif is_names and it.kind == "name":
            names.append(it.text)
    return names
