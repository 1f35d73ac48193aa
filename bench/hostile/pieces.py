"""What the shapes share: the pieces of bench/shapes, rows that share their words, trees, and the lines of a specification."""
import importlib.machinery
import importlib.util
import os
import struct
import sys

sys.dont_write_bytecode = True
SCRIPT = os.path.join(os.path.dirname(os.path.dirname(os.path.abspath(__file__))), "shapes")


def loaded(path):
    """A script, whose name has no ending, as a module."""
    loader = importlib.machinery.SourceFileLoader("bench_shapes", path)
    module = importlib.util.module_from_spec(importlib.util.spec_from_loader("bench_shapes", loader))
    loader.exec_module(module)
    return module


S = loaded(SCRIPT)
command, ref, spell, build, axiom_of, prelude = S.cmd, S.ref, S.spell, S.build, S.axiom_of, S.prelude
Binary, PRELUDE = S.Binary, S.PRELUDE
TERM, TERM_SAVE, THM, HYP, CONV, REFL, SYMM = S.TERM, S.TERM_SAVE, S.THM, S.HYP, S.CONV, S.REFL, S.SYMM
CONG, UNFOLD, SAVE = S.CONG, S.UNFOLD, S.SAVE
U_TERM, U_TERM_SAVE, U_REF, U_HYP = S.U_TERM, S.U_TERM_SAVE, S.U_REF, S.U_HYP
BOUND = S.BOUND
# Rows of what `prelude` declares: a term, and two axioms.
IM, A1I, FST = S.IM, S.A1I, S.FST
PROVABLE = 4  # a sort's byte
WORDS = 65535  # a row's most parameters

DELIMITERS = "delimiter $ ( $ $ ) $;\n"
WFF = DELIMITERS + "provable sort wff;\n"
TOP = WFF + "term top: wff;\n"
TOP_HOLDS = TOP + "axiom t: $ top $;\n"
FIRST = "axiom fst (a b: wff): $ a $ > $ b $ > $ a $;\n"
UNARY = WFF + "term not (a: wff): wff;\n"

SHAPES = {}


def shape(function):
    """Makes a function one of the shapes, under its name: of a size in bytes it makes a binary and the specification's parts."""
    SHAPES[function.__name__] = function
    return function


def lines_until(size, line, done=0):
    """The lines line(0), line(1), .. until there are so many bytes, of which some are there."""
    number = 0
    while done < size:
        text = line(number)
        yield text
        done += len(text)
        number += 1


def with_top(kind=Binary, *more):
    """A binary with a sort (and more), a term `top` of number 0, and an axiom of number 0 that says it."""
    binary = kind([PROVABLE, *more])
    top = binary.term([], 0)
    binary.axiom([], command(U_TERM, top), command(TERM, top))
    return binary, top


class SharedRows(Binary):
    """A binary whose rows may share words and streams: those to which the same list of words is given, with an equal stream."""

    def bytes(self):
        up = lambda n: (n + 7) & ~7
        terms_at = up(40 + len(self.sorts))
        theorems_at = terms_at + 8 * len(self.terms)
        at = theorems_at + 8 * len(self.thms)
        data, seen, rows = [], {}, []

        def place(words, stream):
            nonlocal at
            key = (id(words), stream)
            if key not in seen:
                seen[key] = at
                part = struct.pack("<%dQ" % len(words), *words) + stream
                part += b"\0" * (up(len(part)) - len(part))
                data.append(part)
                at += len(part)
            return seen[key]

        for definition, sort, words, stream in self.terms:
            rows.append(struct.pack("<HBBI", len(words) - 1, definition | sort, 0, place(words, stream)))
        for words, stream in self.thms:
            rows.append(struct.pack("<HHI", len(words), 0, place(words, stream)))
        places = (len(self.terms), len(self.thms), terms_at, theorems_at, at, 0, 0)
        head = b"MM0B" + struct.pack("<BBHIIIIIIQ", 1, len(self.sorts), 0, *places) + bytes(self.sorts)
        head += b"\0" * (terms_at - len(head))
        return b"".join([head, *rows, *data, *self.list, b"\0"])


# ---- The full tree of `im` over parameter 0, of a depth: 2^depth leaves, and with sharing depth nodes

def tree_depth(size):
    """The depth of a tree whose stream without sharing has half of the bytes."""
    depth = 1
    while 3 * 2 ** (depth + 1) <= size // 2:
        depth += 1
    return depth


def tree_stream(depth):
    """Its unify commands without sharing."""
    stream = command(U_REF, 0)
    for _ in range(depth):
        stream = command(U_TERM, IM) + stream + stream
    return stream


def shared_stream(depth):
    """Its unify commands with sharing, for a row of one parameter; the tree's mark is 1."""
    marks = command(U_TERM_SAVE, IM) * depth + command(U_REF, 0) * 2
    return marks + b"".join(command(U_REF, 1 + k) for k in range(depth - 1, 0, -1))


def shared_body(depth):
    """Builds it with sharing and leaves it on the stack; in the heap of a row of one parameter it has place `depth`."""
    return ref(0) + ref(0) + command(TERM_SAVE, IM) + b"".join(ref(k) + command(TERM_SAVE, IM) for k in range(1, depth))


# ---- A chain of coercions s0 > s1 > .. > wff

def chain_sort(number, length):
    return "s%d" % number if number < length else "wff"


def chain_lines(length):
    """The specification's lines: the sorts, and behind them each term and its coercion."""
    lines = [DELIMITERS + "".join("sort s%d;\n" % k for k in range(length)) + "provable sort wff;\n"]
    for k in range(length):
        lines.append(coercion_line("c%d" % k, chain_sort(k, length), chain_sort(k + 1, length)))
    return lines


def coercion_line(name, source, target):
    return "term %s (a: %s): %s; coercion %s: %s > %s;\n" % (name, source, target, name, source, target)


def chain_terms(binary, length):
    """The rows of these terms, which are the binary's first."""
    return [binary.term([k << 56], k + 1 << 56) for k in range(length)]
