"""A binary part by part: each byte stands in one part, with what it says in words and what a body's command leaves on the stack.

Nothing is checked here. Of a binary that the program refuses, parts are named as far as they can be read.
"""
from dataclasses import dataclass

from . import specs
from .binaries import ASSERTIONS, COMMANDS, KIND_OF, SORTS, STATEMENTS, TERMS, Binary, Names, Speller, Statement, command, number
from .machine import EXPRESSION, Machine
from .source import content, many
from .trees import prefix

KINDS = {0x02: "axiom", 0x04: "sort", 0x05: "term", 0x06: "theorem", 0x0D: "local definition", 0x0E: "local theorem"}
SIGNS = {"expression": "{}", "proof": "⊢ {}", "obligation": "{} =?= {}", "conversion": "{} = {}"}
STREAM = 0x30
UNREADABLE = (LookupError, ValueError, AttributeError, TypeError, StopIteration, RuntimeError)  # what reading wrong bytes comes to
LETTERS = 60  # of an expression
ITEMS = 6  # of a stack


@dataclass
class Part:
    """Some bytes, from a place to an end, and what they say."""

    at: int
    end: int
    meaning: str
    stack: str = ""


def written(e):
    """An expression in the prefix form, without its outer parentheses."""
    text = prefix(e, LETTERS)
    return text[1:-1] if text.startswith("(") and text.endswith(")") else text


def item(one):
    return SIGNS[one.kind].format(*map(written, one[1:]))


def stack(items):
    """A stack from the bottom to the top; of a deep one its top."""
    shown = [".."] * (len(items) > ITEMS) + [item(it) for it in items[-ITEMS:]]
    return "; ".join(shown) or "empty"


def spoken(code, value, names):
    """A command of a body or a stream in the words of docs/FORMAT.md, its number as the name that it stands for."""
    name = COMMANDS.get(code)
    if name is None:
        return f"no command: code {code:02X}"
    said = "END" if code == 0 else "U" * (code >= STREAM) + "".join(it.capitalize() for it in name.split("_"))
    if name in ("term", "term_save"):
        return f"{said} {names.term(value)}"
    if name in ("thm", "thm_save"):
        return f"{said} {names.theorem(value)}"
    if name == "dummy":
        return f"{said} of sort {names.sort(value)}"
    return f"{said} {value}" if name in ("ref", "conv_ref") else said


class Parts:
    """The parts of a binary, named by its specification where there is one."""

    def __init__(self, path, specification=None):
        self.binary = Binary(path)
        self.data = self.binary.data
        self.spec = specs.Spec(content(specification)) if specification else None
        self.listing = self.binary.statements(len(self.data))
        self.names = Names(self.listing, self.spec.name_of if self.spec else lambda number: None)
        self.speller = Speller(self.binary, self.names)

    def all(self):
        """All parts in their order; bytes of none are gaps."""
        found = {}
        for part in [*self.header(), *self.sorts(), *self.rows(), *self.list()]:
            if part.at < part.end <= len(self.data):
                found.setdefault(part.at, part)
        at = 0
        for part in sorted(found.values(), key=lambda it: it.at):
            if at < part.at:
                yield Part(at, part.at, "gap")
            if at <= part.at:
                yield part
                at = part.end
        if at < len(self.data):
            yield Part(at, len(self.data), "behind the end; not looked at")

    def header(self):
        binary = self.binary
        yield Part(0, 8, f"MM0B, version {number(self.data, 4, 1)}, {many(binary.sorts, 'sort')}, reserved")
        yield Part(8, 16, f"{many(binary.terms, 'term')}, {many(binary.theorems, 'theorem')}")
        yield Part(16, 24, f"term table at {binary.term_table}, theorem table at {binary.theorem_table}")
        yield Part(24, 32, f"list at {binary.list}, reserved")
        yield Part(32, 40, "place of the index; not looked at")

    def sorts(self):
        for sort in range(self.binary.sorts):
            yield Part(40 + sort, 41 + sort, f"sort {self.names.sort(sort)}: {', '.join(self.binary.modifiers(sort)) or 'no modifier'}")

    def rows_in(self, table, count):
        """The rows of a table that lie in the file."""
        return range(min(count, max(0, len(self.data) - table) // 8))

    def rows(self):
        for row in self.rows_in(self.binary.term_table, self.binary.terms):
            yield from self.term(row)
        for row in self.rows_in(self.binary.theorem_table, self.binary.theorems):
            yield from self.theorem(row)

    def parameters(self, kind, row, count):
        """The names of a row's parameters: those of the specification, or v0, v1 .."""
        statement = self.listing.number_of(kind, row)
        public = statement and self.listing.public_number(statement)
        declared = self.spec.numbered(public) if self.spec and public else None
        names = [it.name for it in declared.binders] if declared else []
        return [name if name != "_" else f"v{at}" for at, name in enumerate(names)] if len(names) == count else [f"v{at}" for at in range(count)]

    def term(self, row):
        words, sort, result, is_definition, stream = self.binary.term(row)
        at, name, names = self.binary.term_table + 8 * row, self.names.term(row), self.parameters(TERMS, row, len(words))
        place = stream - 8 * (len(words) + 1)
        kind = "definition" if is_definition else "term"
        yield Part(at, at + 8, f"{kind} {name}: {many(len(words), 'parameter')}, result of sort {self.names.sort(sort)}, words at {place}")
        yield from self.words(place, words, names, name)
        yield Part(stream - 8, stream, f"{name}, result: {self.type_of(result, self.bound(words, names))}")
        if is_definition:
            yield self.stream(stream, name, names)

    def theorem(self, row):
        words, stream = self.binary.theorem(row)
        at, name, names = self.binary.theorem_table + 8 * row, self.names.theorem(row), self.parameters(ASSERTIONS, row, len(words))
        place = stream - 8 * len(words)
        yield Part(at, at + 8, f"theorem or axiom {name}: {many(len(words), 'parameter')}, words at {place}")
        yield from self.words(place, words, names, name)
        yield self.stream(stream, name, names)

    def bound(self, words, names):
        return [name for word, name in zip(words, names) if word.bound]

    def words(self, place, words, names, owner):
        for at, (word, name) in enumerate(zip(words, names)):
            said = f"bound, sort {self.names.sort(word.sort)}" if word.bound else f"regular, {self.type_of(word, self.bound(words[:at], names))}"
            yield Part(place + 8 * at, place + 8 * at + 8, f"{owner}, parameter {name}: {said}")

    def type_of(self, word, bound):
        """The sort of a word, and the bound parameters on which it depends."""
        needs = [name for bit, name in enumerate(bound) if word.bits >> bit & 1]
        return f"sort {self.names.sort(word.sort)}, depends on {', '.join(needs) or 'nothing'}"

    def stream(self, at, name, names):
        commands = self.binary.stream(at)
        end = (commands and commands[-1][2] or at) + 1
        said = f"stream of {name}: {', '.join(spoken(code, value, self.names) for code, value, _ in commands)}"
        try:
            conclusion, *hypotheses = map(written, self.speller.spelled(at, names))
        except UNREADABLE:
            return Part(at, end, said)
        return Part(at, end, f"{said}. It spells {conclusion}" + "".join(f", then the hypothesis {it}" for it in hypotheses))

    def statements(self):
        """The statements of the list, and where it ends."""
        rows, at, count = {}, self.binary.list, 0
        while (found := command(self.data, at, len(self.data))) and found[0] in STATEMENTS and found[1] >= found[2] - at:
            kind = KIND_OF[found[0]]
            count += 1
            yield Statement(count, at, found[0], found[2], at + found[1], rows.setdefault(kind, 0))
            rows[kind] += 1
            at += found[1]

    def list(self):
        at = self.binary.list
        for it in self.statements():
            yield from self.statement(it)
            at = it.end
        if self.data[at : at + 1] == b"\0":
            yield Part(at, at + 1, "END of the list")

    def statement(self, it):
        kind = KIND_OF[it.code]
        name = {SORTS: self.names.sort, TERMS: self.names.term, ASSERTIONS: self.names.theorem}[kind](it.row)
        word = "definition" if it.code == 0x05 and self.binary.term(it.row)[3] else KINDS[it.code]
        head = f"statement {it.number}: {word} {name}, the next stands at {it.end}"
        if kind == SORTS or word == "term":
            yield Part(it.at, it.end, head)
            return
        words = self.binary.term(it.row)[0] if kind == TERMS else self.binary.theorem(it.row)[0]
        names = self.parameters(kind, it.row, len(words))
        yield Part(it.at, it.body, head, "H: " + (", ".join(f"{place} {name}" for place, name in enumerate(names)) or "empty"))
        yield from self.body(it, Machine(self.binary, self.names, it, names, words))

    def body(self, it, machine):
        """The commands of a body, each with the stack behind it, as far as they can be executed."""
        at = it.body
        while at < it.end and (found := command(self.data, at, it.end)):
            code, value, end = found
            try:
                said, left = self.executed(code, value, machine) if machine else (spoken(code, value, self.names), "")
            except UNREADABLE:
                machine, said, left = None, f"{spoken(code, value, self.names)}: can't be executed", ""
            yield Part(at, end, said, left)
            at = end

    def executed(self, code, value, machine):
        """What a command is and does, and the stack behind it."""
        before, kept = list(machine.stack), len(machine.heap)
        said = spoken(code, value, self.names)
        if not code:
            return f"{said}: {stack(before)} is left", ""
        machine.execute(code, value)
        saved = "".join(f"; H {place} is {item(machine.heap[place])}" for place in range(kept, len(machine.heap)))
        return said + self.operands(code, value, before) + saved, stack(machine.stack)

    def operands(self, code, value, before):
        """The arguments that a citation takes from the stack."""
        if COMMANDS.get(code) not in ("thm", "thm_save"):
            return ""
        count = len(self.binary.theorem(value)[0])
        found = [written(it[1]) for it in before[-1 - count : -1] if it.kind == EXPRESSION]
        return f" with {', '.join(found)}" if found else ""


def lines(parts, data):
    """The parts as lines of text: place, bytes, meaning, and the stack behind it. Long bytes go on below."""
    for part in parts:
        shown = [data[at : min(at + 8, part.end)].hex(" ").upper() for at in range(part.at, part.end, 8)]
        behind = f"  | {part.stack}" if part.stack else ""
        yield f"{part.at:6}  {shown[0]:23}  {part.meaning}{behind}"
        yield from (f"{'':6}  {it}" for it in shown[1:])
