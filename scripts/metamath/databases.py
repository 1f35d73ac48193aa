"""Reads a Metamath database: its statements and their scopes. Frames and proofs are made when they are asked for.

One regular expression cuts the whole text into parts: a comment, the mark of a scope, or a statement, each with the label
before it. A statement keeps the number of its part; its line is counted when a fault has to be told."""
import os
import re
from typing import NamedTuple

_COMMENT = r"\$\([^$]*+(?:\$(?!\))[^$]*+)*+\$\)"
_SAID = rf"[^$]*+(?:{_COMMENT}[^$]*+)*+"
# What stands before; then a comment, the mark of a scope, or a keyword with what it says and `=` with a proof; or, from what
# can't be read on, everything.
_PART = re.compile(rf"([^$]*+)(?:\$(?:\(([^$]*+(?:\$(?!\))[^$]*+)*+)\$\)|([{{}}])|([cvdfeap])({_SAID})\$(?:(={_SAID})\$)?\.)|(.*))", re.S)
_COMMENTS = re.compile(_COMMENT)
_INCLUDED = re.compile(rf"{_COMMENT}|\$\[(?P<path>[^$]*)(?P<end>\$\])?")
_HEADING = re.compile(r"\s*(?P<rule>####|#\*#\*|=-=-|-\.-\.)\S*\s*\n(?P<title>.*?)\n\s*(?P=rule)", re.S)
_NEW = tuple.__new__  # of a named tuple; faster than its class
_LEVELS = {"####": 1, "#*#*": 2, "=-=-": 3, "-.-.": 4}


class Faulty(ValueError):
    """What is wrong with a database; the words begin with the file, the line and the column."""


class Float(NamedTuple):
    label: str
    code: str
    variable: str
    at: int  # its part


class Essential(NamedTuple):
    label: str
    at: int


class Assertion(NamedTuple):
    label: str
    is_axiom: bool
    code: str  # its typecode
    at: int
    floats: object  # chains of what is active: (chain before, number), or (chain before, words)
    essentials: object
    distinct: object
    comment: int  # the part that is the comment right before it, or -1


class Heading(NamedTuple):
    level: int  # 1 is the highest
    title: str
    before: int  # the assertion that follows, by number


class Segment(NamedTuple):
    """Lines of a file, as they stand in the text that is read."""

    start: int
    path: str
    line: int
    column: int


class Frame(NamedTuple):
    """What an assertion asks of a proof that cites it."""

    symbols: list
    floats: list  # the mandatory ones, by number
    essentials: list
    order: object  # of both, as a proof has them: ("f", number) or ("e", number); None where the `$f` are the first
    groups: list  # sets of variables that have to be distinct

    def apart(self, variable):
        """The variables from which this one is distinct."""
        made = set()
        for group in self.groups:
            if variable in group:
                made |= group
        made.discard(variable)
        return made


def line_and_column(text, at):
    """Which line and column of a text a place is in, both from 1."""
    return text.count("\n", 0, at) + 1, len(text[:at]) - text.rfind("\n", 0, at)


def read_file(path):
    """The text of a file."""
    with open(path, "rb") as file:
        data = file.read()
    try:
        return data.decode("utf-8")
    except UnicodeDecodeError as fault:
        line, column = line_and_column(data[: fault.start].decode("utf-8"), fault.start)
        raise Faulty(f"{path}:{line}:{column}: this isn't UTF-8, so that it is no Metamath database") from None


def read_database(path):
    return Database(read_file(path), path)


class Included:
    """A text with the files that it includes, each where it is named first."""

    def __init__(self, text, path):
        self.path, self.texts, self.segments, self._length = path, [], [], 0
        self._seen = {os.path.realpath(path)}
        self._add(text, path)

    def _add(self, text, path):
        done = 0
        for found in _INCLUDED.finditer(text) if "$[" in text else ():
            if found["path"] is not None:
                self._put(text, path, done, found.start())
                done = found.end()
                self._include(found, ":".join(map(str, (path, *line_and_column(text, found.start())))))
        self._put(text, path, done, len(text))

    def _put(self, text, path, start, end):
        self.segments.append(Segment(self._length, path, *line_and_column(text, start)))
        self.texts.append(text[start:end] if end - start < len(text) else text)
        self._length += end - start

    def _include(self, found, place):
        if not found["end"]:
            raise Faulty(f"{place}: $[ isn't closed by $]")
        path = os.path.join(os.path.dirname(self.path), found["path"].strip())
        if os.path.realpath(path) not in self._seen:
            self._seen.add(os.path.realpath(path))
            try:
                self._add(read_file(path), path)
            except OSError as fault:
                raise Faulty(f"{place}: {path} can't be read: {fault.strerror}") from None


class Database:
    def __init__(self, text, path="the database"):
        self.path = path
        included = Included(text, path)
        self._text, self._segments = "".join(included.texts), included.segments
        self._parts = _PART.findall(self._text)
        self.variables = set()
        self.floats, self.essentials, self.assertions, self.headings = [], [], [], []
        self.typesetting = []  # the text of comments that begin with $t
        self.labels = {}  # label: (kind, number)
        self._floats_of, self._symbols_of, self._frames = {}, {}, {}
        self._read()

    # Reading

    def _read(self):
        active, scopes, pending, about = (None, None, None), [], "", -1
        for at, (before, comment, mark, kind, said, proof, rest) in enumerate(self._parts):
            label = before.strip() or pending
            if kind == "d" and not label:
                active = active[0], active[1], (active[2], said)
            elif kind == "e":
                pending, active = "", self._essential(at, label, active)
            elif kind in ("p", "a"):
                self._assertion(at, label, kind == "a", said, active, about)
                pending, about = "", -1
            elif kind == "f":
                pending, active = "", self._float(at, label, active)
            elif comment:
                pending, about = label, self._comment(at, comment, about)
            elif rest:
                raise self._unread(at, rest)
            elif label and (kind or mark):
                raise self.fault(at, f"{label.split()[0]} isn't a statement")
            elif mark == "{":
                scopes.append((active, at))
            elif mark:
                if not scopes:
                    raise self.fault(at, "a scope is closed here, and none is open")
                active, _ = scopes.pop()
            elif kind == "v":
                self.variables.update(self.symbols(at))
            elif not kind:
                pending = label
            if proof and kind != "p":
                raise self.fault(at, f"{label}, an axiom, has a proof" if kind == "a" else f"the keyword $= stands in a statement ${kind}")
        if scopes:
            raise self.fault(scopes[-1][1], "the scope that opens here isn't closed")
        if pending:
            raise self._fault(self._text.rfind(pending.split()[-1]), f"the file ends in the statement {pending.split()[-1]}")

    def _assertion(self, at, label, is_axiom, said, active, about):
        self._named("a", len(self.assertions), at, label)
        code = said[:60].split(None, 1)
        if not code or not (is_axiom or self._parts[at][5]):
            raise self.fault(at, f"{label} has no {'typecode' if not code else 'proof'}")
        self.assertions.append(_NEW(Assertion, (label, is_axiom, code[0], at, *active, about)))

    def _essential(self, at, label, active):
        number = len(self.essentials)
        self._named("e", number, at, label)
        self.essentials.append(_NEW(Essential, (label, at)))
        return active[0], (active[1], number), active[2]

    def _float(self, at, label, active):
        number, words = len(self.floats), self.symbols(at)
        self._named("f", number, at, label)
        if len(words) != 2 or words[1] not in self.variables:
            raise self.fault(at, f"{label}: a typecode and a variable belong here")
        self.floats.append(Float(label, *words, at))
        return (active[0], number), *active[1:]

    def _named(self, kind, number, at, label):
        """Notes the label of a statement."""
        if not label or label in self.labels or len(label.split()) > 1:
            why = f"{label}: a second statement of this label" if label in self.labels else "a label belongs before this statement"
            raise self.fault(at, why if len(label.split()) < 2 else f"{label.split()[0]} isn't a statement")
        self.labels[label] = kind, number

    def _comment(self, at, comment, about):
        """Looks at a comment; gives the part of the comment that speaks of the next assertion."""
        start = comment.lstrip()[:4]
        if start[:1] == "$" and start[1:2] in ("t", "j") and start[2:3].isspace():
            if start[1] == "t":
                self.typesetting.append(comment.lstrip()[2:])
            return about
        found = _HEADING.match(comment) if start in _LEVELS else None
        if not found:
            return at
        self.headings.append(Heading(_LEVELS[found["rule"]], " ".join(found["title"].split()), len(self.assertions)))
        return -1

    # Faults

    def _unread(self, at, rest):
        """What is wrong with a text that begins with no part."""
        start, kind = self._start(at), rest[1:2]
        plain = _COMMENTS.sub(lambda it: " " * len(it[0]), rest[2:])
        plain = plain.replace("$=", "  ", 1) if kind in ("a", "p") else plain
        other = plain.find("$") + 2 if "$" in plain else 0
        if kind not in list("(cvdfeap"):
            return self._fault(start, f"the keyword ${kind} can't stand here")
        if kind == "(" or other and rest[other + 1 : other + 2] == "(":
            return self._fault(start + other * (kind != "("), "the comment that begins here has no end")
        if not other:
            return self._fault(start, "the file ends in the statement that begins here")
        return self._fault(start + other, f"the keyword ${rest[other + 1 : other + 2]} stands in a statement")

    def _start(self, at):
        """Where a part begins: at its `$`."""
        return next(found.end(1) for number, found in enumerate(_PART.finditer(self._text)) if number == at)

    def fault(self, at, why):
        """A fault at a part."""
        return self._fault(self._start(at), why)

    def _fault(self, start, why):
        it = [it for it in self._segments if it.start <= start][-1]
        line, column = line_and_column(self._text[it.start :], start - it.start)
        behind = it.column - 1 if line == 1 else 0
        return Faulty(f"{it.path}:{it.line + line - 1}:{column + behind}: {why}")

    # What is asked of it

    def said(self, at):
        """What the statement at a part says, as it is written."""
        text = self._parts[at][4]
        return _COMMENTS.sub(" ", text) if "$" in text else text

    def symbols(self, at):
        """The symbols of the statement at a part."""
        made = self._symbols_of.get(at)
        if made is None:
            made = self._symbols_of[at] = self.said(at).split()
        return made

    def comment(self, number):
        """The comment right before an assertion."""
        at = self.assertions[number].comment
        return "" if at < 0 else self._parts[at][1]

    def float_of(self, chain):
        """The active `$f` of each variable."""
        made = self._floats_of.get(id(chain))
        if made is None:
            numbers, here = [], chain
            while here:
                here, number = here
                numbers.append(number)
            made = self._floats_of[id(chain)] = {self.floats[it].variable: it for it in reversed(numbers)}
        return made

    def frame(self, number):
        made = self._frames.get(number)
        if made is None:
            made = self._frames[number] = self._frame(self.assertions[number])
        return made

    def _frame(self, it):
        symbols, essentials, here = self.symbols(it.at), [], it.essentials
        used = self.variables.intersection(symbols)
        while here:
            here, essential = here
            essentials.append(essential)
            used |= self.variables.intersection(self.symbols(self.essentials[essential].at))
        essentials.reverse()
        of = self.float_of(it.floats)
        try:
            floats = sorted([of[x] for x in used])
        except KeyError as fault:
            raise self.fault(it.at, f"{it.label}: the variable {fault.args[0]} has no type") from None
        groups, here = [], it.distinct
        while here:
            here, words = here
            group = used.intersection(_COMMENTS.sub(" ", words).split() if "$" in words else words.split())
            if len(group) > 1:
                groups.append(group)
        order = None
        if floats and essentials and self.floats[floats[-1]].at > self.essentials[essentials[0]].at:
            order = [("f", x) for x in floats] + [("e", x) for x in essentials]
            order.sort(key=lambda x: (self.floats if x[0] == "f" else self.essentials)[x[1]].at)
        return Frame(symbols, floats, essentials, order, groups)

    def _proof_text(self, number):
        text = self._parts[self.assertions[number].at][5][1:]
        return _COMMENTS.sub(" ", text) if "$" in text else text

    def proof_labels(self, number):
        """The labels that a proof names."""
        words = self._proof_text(number)
        if words.lstrip()[:1] != "(":
            return {label for label in words.split() if label != "?"}
        return words[: words.find(")")].split()[1:]

    def proof(self, number):
        """A proof: the labels that it names, and its letters; or its labels in order, and None."""
        words = self._proof_text(number)
        if "?" in words:
            raise ValueError("its proof isn't finished")
        if words.lstrip()[:1] != "(":
            return words.split(), None
        table, closed, letters = words.partition(")")
        if not closed:
            raise ValueError("its proof has no end to its labels")
        return table.split()[1:], "".join(letters.split())
