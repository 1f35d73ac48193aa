"""Specifications: one statement is read, and of what stands before it what it names."""
import itertools
import re
from dataclasses import dataclass, field

from .notations import MAX, Notations

LEXEME = re.compile(r"(?P<skip>[ \n]+|--[^\n]*)|(?P<name>[A-Za-z_][A-Za-z0-9_]*)|(?P<number>0|[1-9][0-9]*)|\$(?P<math>[^$]*)\$|(?P<symbol>[*.:;(){}>=_])")
ENDS = re.compile(rb"--[^\n]*|\$[^$]*\$|;")
BLANKS = re.compile(rb"(?:[ \n]+|--[^\n]*)*")
DECLARES = re.compile(rb"(?:(?:pure|strict|provable|free)\s+)*(sort|term|axiom|theorem|def)\s+([A-Za-z_][A-Za-z0-9_]*)")
AT_LINE = re.compile(rb"\n(?:(?:pure|strict|provable|free)\s+)*(?:sort|term|axiom|theorem|def)\s")
NOTATING = (b"delimiter", b"infixl", b"infixr", b"prefix", b"notation", b"coercion")
SMALL = 4_000_000
WINDOW = 1 << 18


@dataclass
class Lexeme:
    kind: str
    text: str
    at: int


@dataclass
class Binder:
    """A parameter or a dummy."""

    name: str
    sort: str
    bound: bool
    needs: list
    at: int


@dataclass
class Declaration:
    """What a statement of a specification declares, as far as it could be read."""

    kind: str
    name: str
    at: int
    binders: list = field(default_factory=list)
    dummies: list = field(default_factory=list)
    hypotheses: list = field(default_factory=list)
    sort: str = ""
    needs: list = field(default_factory=list)
    body: str = None
    modifiers: list = field(default_factory=list)

    @property
    def formulas(self):
        """An assertion's hypotheses and its conclusion."""
        return self.hypotheses

    def variables(self):
        return {it.name: it for it in [*self.binders, *self.dummies] if it.name != "_"}


def lexemes(data, start, end=None):
    """The lexemes of the statement that begins at a place, up to its `;` or to the end of what can be read."""
    text = data[start : end if end is not None else statement_end(data, start)].decode("latin-1")
    found, at = [], 0
    while at < len(text):
        match = LEXEME.match(text, at)
        if not match:
            break
        if match.lastgroup != "skip":
            found.append(Lexeme(match.lastgroup, match[match.lastgroup], start + at))
        at = match.end()
    return found


def statement_end(data, start):
    """The place behind the `;` of the statement that begins at a place, or the end of the file."""
    return next((it.end() for it in ENDS.finditer(data, start) if it.group() == b";"), len(data))


def starts(data, begin=0):
    """Where each statement begins, from one that begins at a place or behind blanks there."""
    at = BLANKS.match(data, begin).end()
    for found in ENDS.finditer(data, begin):
        if found.group() == b";":
            yield at
            at = BLANKS.match(data, found.end()).end()
    if at < len(data):
        yield at


def start_of(data, at):
    """Where the statement begins in which a place stands, or behind whose blanks it does."""
    begin = 0
    if at > SMALL:
        found = data.rfind(b";\n", at - WINDOW, at)
        # (a `;` at a line's end is almost surely a statement's, and the one before it begins a whole one)
        found = data.rfind(b";\n", found - WINDOW, found) if found >= 0 else -1
        begin = found + 2 if found >= 0 else 0
    last = BLANKS.match(data, begin).end()
    for start in starts(data, begin):
        if start > at:
            break
        last = start
    return last


class Cursor:
    """The lexemes of one statement, read from left to right; what is missing is read as an empty text."""

    def __init__(self, found):
        self.found, self.at = found, 0

    def peek(self):
        return self.found[self.at].text if self.at < len(self.found) and self.found[self.at].kind != "math" else ""

    def kind(self):
        return self.found[self.at].kind if self.at < len(self.found) else "end"

    def place(self):
        return self.found[min(self.at, len(self.found) - 1)].at if self.found else 0

    def take(self):
        self.at += 1
        return self.found[self.at - 1].text if self.at <= len(self.found) else ""

    def skip(self, text):
        if self.peek() == text and self.kind() != "math":
            self.at += 1
            return True
        return False


def declaration(data, start):
    """What the statement at a place declares, or None where it declares nothing."""
    cursor = Cursor(lexemes(data, start))
    modifiers = []
    while cursor.peek() in ("pure", "strict", "provable", "free"):
        modifiers.append(cursor.take())
    kind = cursor.take()
    if kind not in ("sort", "term", "axiom", "theorem", "def"):
        return None
    made = Declaration(kind, cursor.take(), start, modifiers=modifiers)
    if kind != "sort":
        groups(cursor, made)
        cursor.skip(":")
        tail(cursor, made)
    return made


def groups(cursor, made):
    while cursor.peek() in ("{", "("):
        bound = cursor.take() == "{"
        names = []
        while cursor.kind() in ("name", "symbol") and cursor.peek() not in (":", ""):
            place, dot = cursor.place(), cursor.skip(".")
            names.append((cursor.take(), dot, place))
        cursor.skip(":")
        if cursor.kind() == "math":
            made.hypotheses += [cursor.take()] * len(names)
        else:
            sort, needs = type_of(cursor)
            for name, dot, place in names:
                (made.dummies if dot else made.binders).append(Binder(name, sort, bound or dot, needs, place))
        while cursor.kind() != "end" and cursor.take() not in ("}", ")"):
            pass


def type_of(cursor):
    sort, needs = cursor.take() if cursor.kind() == "name" else "", []
    while cursor.kind() == "name":
        needs.append(cursor.take())
    return sort, needs


def tail(cursor, made):
    if made.kind in ("axiom", "theorem"):
        while cursor.kind() not in ("end",) and cursor.peek() != ";":
            if cursor.kind() == "math":
                made.hypotheses.append(cursor.take())
            else:
                place = cursor.place()
                sort, needs = type_of(cursor)
                made.binders.append(Binder("_", sort, False, needs, place))
            if not cursor.skip(">"):
                break
        return
    made.sort, made.needs = type_of(cursor)
    while made.kind == "term" and cursor.skip(">"):
        made.binders.append(Binder("_", made.sort, False, made.needs, made.at))
        made.sort, made.needs = type_of(cursor)
    if cursor.skip("=") and cursor.kind() == "math":
        made.body = cursor.take()


def is_comment(data, at):
    line = data.rfind(b"\n", 0, at) + 1
    found = data.find(b"--", line, at)
    return found >= 0 and data.count(b"$", line, found) % 2 == 0


def places(data, word, end):
    """Where a word stands before a place."""
    at = data.find(word, 0, end)
    while at >= 0:
        if not re.match(rb"\w", data[at - 1 : at]) and not re.match(rb"\w", data[at + len(word) : at + len(word) + 1]):
            yield at
        at = data.find(word, at + len(word), end)


class Names(dict):
    """The declarations of one kind before a place, each looked for when it is asked for."""

    def __init__(self, data, end, kinds):
        super().__init__()
        self.data, self.end = data, end
        self.head = re.compile(rb"\b(?:" + kinds + rb")\s+$")
        self.kinds = kinds

    def __missing__(self, name):
        at = self.find(name)
        if at is None:
            raise KeyError(name)
        self[name] = declaration(self.data, start_of(self.data, at))
        return self[name]

    def __contains__(self, name):
        try:
            return self[name] is not None
        except KeyError:
            return False

    def find(self, name):
        """Where a declaration has the name, or None. In a large file one blank stands between the two words."""
        word = name.encode("latin-1")
        if not re.fullmatch(rb"[A-Za-z_]\w*", word):
            return None
        for kind in self.kinds.split(b"|"):
            for at in places(self.data, kind + b" " + word, self.end):
                if not is_comment(self.data, at):
                    return at + len(kind) + 1
        return self.find_anywhere(word) if self.end < SMALL else None

    def find_anywhere(self, word):
        for at in places(self.data, word, self.end):
            if self.head.search(self.data[max(0, at - 40) : at]) and not is_comment(self.data, at):
                return at
        return None

    def all(self):
        """The names of this kind before the place, as far back as a window goes."""
        start = max(0, self.end - SMALL)
        return [it[1].decode() for it in re.finditer(rb"\b(?:" + self.kinds + rb")\s+([A-Za-z_]\w*)", self.data[start : self.end])]


class Spec:
    """What a specification declares before a place."""

    def __init__(self, data, end=None):
        self.data, self.end = data, len(data) if end is None else end
        self.sorts = Names(data, self.end, rb"sort")
        self.terms = Names(data, self.end, rb"term|def")
        self.assertions = Names(data, self.end, rb"axiom|theorem")
        self.made, self.begins, self.is_read = None, [], False

    @property
    def notations(self):
        if self.made is None:
            self.made = Notations()
            for start in self.notating():
                self.made.add(lexemes(self.data, start), self)
        return self.made

    def notating(self):
        """Where the statements before the place begin that declare notations."""
        found = sorted(at for word in NOTATING for at in places(self.data, word, self.end))
        for at in found:
            before = self.data[max(0, at - 200) : at].rstrip(b" \n")
            if not is_comment(self.data, at) and (not before or before.endswith(b";") or start_of(self.data, at) == at):
                yield at

    def declarations(self, most):
        """Where the first declarations begin. Of a large file those at the beginning of a line are taken."""
        if len(self.begins) < most and not self.is_read:
            found = self.at_lines() if len(self.data) > SMALL else (it for it in starts(self.data) if DECLARES.match(self.data, it))
            self.begins = list(itertools.islice(found, most))
            self.is_read = len(self.begins) < most
        return self.begins

    def at_lines(self):
        first = BLANKS.match(self.data).end()
        if first == 0 and DECLARES.match(self.data):
            yield 0
        yield from (it.start() + 1 for it in AT_LINE.finditer(self.data))

    def numbered(self, number):
        """The declaration with this number, from 1, or None."""
        begins = self.declarations(number)
        return declaration(self.data, begins[number - 1]) if 0 < number <= len(begins) else None

    def name_of(self, number):
        """The name of the declaration with this number, from 1, or None."""
        begins = self.declarations(number)
        found = DECLARES.match(self.data, begins[number - 1]) if 0 < number <= len(begins) else None
        return found[2].decode() if found else None
