"""Binaries, read in place as far as they can be."""
from dataclasses import dataclass

from .source import content

COMMANDS = {0x00: "end", 0x02: "axiom", 0x04: "sort", 0x05: "term", 0x06: "theorem", 0x0D: "local def", 0x0E: "local theorem",
            0x10: "term", 0x11: "term_save", 0x12: "ref", 0x13: "dummy", 0x14: "thm", 0x15: "thm_save", 0x16: "hyp", 0x17: "conv", 0x18: "refl", 0x19: "symm", 0x1A: "cong",
            0x1B: "unfold", 0x1C: "conv_cut", 0x1D: "conv_ref", 0x1E: "conv_save", 0x1F: "save", 0x20: "sorry",
            0x30: "term", 0x31: "term_save", 0x32: "ref", 0x33: "dummy", 0x36: "hyp"}
WITH_VALUE = {0x10, 0x11, 0x12, 0x13, 0x14, 0x15, 0x1D, 0x30, 0x31, 0x32, 0x33}
STATEMENTS = {0x02, 0x04, 0x05, 0x06, 0x0D, 0x0E}
SORTS, TERMS, ASSERTIONS, LOCAL = (0x04,), (0x05, 0x0D), (0x02, 0x06, 0x0E), (0x0D, 0x0E)
KIND_OF = {code: kind for kind in (SORTS, TERMS, ASSERTIONS) for code in kind}
MODIFIERS = ("pure", "strict", "provable", "free")


def number(data, at, size):
    return int.from_bytes(data[at : at + size], "little")


def command(data, at, end):
    """The code, the value and the end of the command at a place, or None where it is cut."""
    if at >= end:
        return None
    code, size = data[at] & 0x3F, (0, 1, 2, 4)[data[at] >> 6]
    if at + 1 + size > end:
        return None
    return code, number(data, at + 1, size), at + 1 + size


def named(code, value):
    """A command as listings have it."""
    name = COMMANDS.get(code)
    if name is None:
        return f"code {code:02X}"
    return f"{name} {value}" if code in WITH_VALUE else name


@dataclass
class Word:
    """A parameter's or a result's word."""

    value: int

    @property
    def bound(self):
        return bool(self.value >> 63)

    @property
    def sort(self):
        return self.value >> 56 & 127

    @property
    def bits(self):
        return self.value & (1 << 56) - 1


@dataclass
class Statement:
    """One statement of the list."""

    number: int
    at: int
    code: int
    body: int
    end: int
    row: int

    @property
    def is_local(self):
        return self.code in (0x0D, 0x0E)

    @property
    def is_term(self):
        return self.code in (0x05, 0x0D)

    @property
    def is_assertion(self):
        return self.code in (0x02, 0x06, 0x0E)


class Binary:
    def __init__(self, path):
        self.path, self.data = path, content(path)
        data = self.data
        self.sorts = number(data, 5, 1)
        self.terms, self.theorems = number(data, 8, 4), number(data, 12, 4)
        self.term_table, self.theorem_table, self.list = (number(data, it, 4) for it in (16, 20, 24))
        self.streams = {}

    def modifiers(self, sort):
        return [word for bit, word in enumerate(MODIFIERS) if number(self.data, 40 + sort, 1) >> bit & 1]

    def words(self, at, count):
        return [Word(number(self.data, at + 8 * it, 8)) for it in range(count)]

    def term(self, row):
        """The parameters, the result's sort and word, whether it is a definition, and where its stream stands."""
        at = self.term_table + 8 * row
        count, byte, place = number(self.data, at, 2), number(self.data, at + 2, 1), number(self.data, at + 4, 4)
        words = self.words(place, count + 1)
        return words[:-1], byte & 127, words[-1], bool(byte & 128), place + 8 * (count + 1)

    def theorem(self, row):
        """The parameters, and where the stream stands."""
        at = self.theorem_table + 8 * row
        count, place = number(self.data, at, 2), number(self.data, at + 4, 4)
        return self.words(place, count), place + 8 * count

    def stream(self, at):
        """The commands of the unify stream at a place, up to its END."""
        if at not in self.streams:
            found, place = [], at
            while (one := command(self.data, place, len(self.data))) is not None:
                found.append((one[0], one[1], place))
                place = one[2]
                if one[0] == 0:
                    break
            self.streams[at] = found
        return self.streams[at]

    def hypotheses_of(self, row):
        return sum(code == 0x36 for code, _, _ in self.stream(self.theorem(row)[1]))

    def statements(self, most):
        """The first statements of the list, as far as they can be read."""
        return Listing(self, most)


class Listing:
    """The first statements of a list: the code of each, and the last one whole. There may be a million, so no more is kept."""

    def __init__(self, binary, most):
        data, at, codes, start = binary.data, binary.list, bytearray(), None
        while len(codes) < most:
            found = command(data, at, len(data))
            if found is None or found[0] not in STATEMENTS:
                break
            codes.append(found[0])
            start, distance = at, found[1]
            if distance < found[2] - at:
                break
            at += distance
        self.codes, self.last = bytes(codes), None
        if start is not None:
            code, distance, body = command(data, start, len(data))
            self.last = Statement(len(codes), start, code, body, start + distance, self.count(KIND_OF[code], len(codes) - 1))

    def __len__(self):
        return len(self.codes)

    def count(self, kind, before=None):
        """How many statements of a kind there are, among the first ones."""
        return sum(self.codes.count(it, 0, len(self.codes) if before is None else before) for it in kind)

    def number_of(self, kind, row):
        """The number of the statement that takes the row, from 1, or None."""
        if row >= self.count(kind):
            return None
        low, high = 0, len(self.codes)
        while high - low > 1:
            middle = (low + high) // 2
            low, high = (low, middle) if self.count(kind, middle) > row else (middle, high)
        return high

    def public_number(self, number):
        """The number of a public statement among the public ones, or None of a local one."""
        is_local = self.codes[number - 1 : number] in (b"\x0d", b"\x0e")
        return None if is_local else number - self.count(LOCAL, number)


class Names:
    """What the rows of a binary are called: public ones as in the specification, others by their statement's number."""

    def __init__(self, listing, name_of):
        self.listing, self.name_of, self.rows, self.terms = listing, name_of, {}, {}

    def named(self, kind, row, what):
        number = self.listing.number_of(kind, row)
        if number is None:
            return f"{what}_{row}"
        public = self.listing.public_number(number)
        return f"_l{number}" if public is None else self.name_of(public) or f"_p{number}"

    def sort(self, row):
        return self.named(SORTS, row, "sort")

    def theorem(self, row):
        return self.named(ASSERTIONS, row, "theorem")

    def term(self, row):
        if row not in self.terms:
            self.terms[row] = self.named(TERMS, row, "term")
            self.rows[self.terms[row]] = row
        return self.terms[row]

    def row_of(self, name):
        """The row of a term that was named before, or None."""
        return self.rows.get(name)


class Speller:
    """Spells what unify streams say."""

    def __init__(self, binary, names):
        self.binary, self.names = binary, names

    def spelled(self, place, marks):
        """The expressions of a stream over the parameters' names: conclusion or body first, then the hypotheses from the last."""
        commands = iter(self.binary.stream(place))
        marks, found, dummies = list(marks), [], 0

        def one():
            nonlocal dummies
            code, value, _ = next(commands)
            if code == 0x32:
                return marks[value] if value < len(marks) else f"?{value}"
            if code == 0x33:
                marks.append(f"d{dummies}")
                dummies += 1
                return marks[-1]
            at = len(marks)
            if code == 0x31:
                marks.append(None)
            count = len(self.binary.term(value)[0])
            made = (self.names.term(value), *(one() for _ in range(count))) if count else self.names.term(value)
            if code == 0x31:
                marks[at] = made
            return made

        found.append(one())
        for code, _, _ in commands:
            if code != 0x36:
                break
            found.append(one())
        return found
