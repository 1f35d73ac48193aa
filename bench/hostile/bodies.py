"""Shapes of one body: expressions, stacks, open equations, operands."""
from .pieces import (
    A1I, CONG, CONV, HYP, IM, PRELUDE, PROVABLE, TERM, TERM_SAVE, THM, TOP_HOLDS, UNARY, U_HYP, U_REF, U_TERM, WORDS,
    Binary, axiom_of, command, prelude, ref, shape, shared_stream, with_top,
)


def unary():
    """A binary with a term of one parameter, of number 0: its command takes a byte."""
    binary = Binary([PROVABLE])
    binary.term([0], 0)
    return binary


def nested(size, term):
    """A local theorem that makes an expression with each byte, by a command."""
    binary = unary()
    axiom_of(binary, [0, 0], [0], 0)
    body = ref(0) + command(HYP) + ref(1) + ref(0) + ref(0) + command(term, 0) * size + ref(0) + command(THM, 0)
    binary.theorem([0], command(U_REF, 0) + command(U_HYP) + command(U_REF, 0), body, local=True)
    return binary, [UNARY + "axiom drop (a b: wff): $ a $ > $ a $;\n"]


@shape
def distinct(size):
    """a local theorem that makes an expression with each byte: what an expression takes in memory"""
    return nested(size, TERM)


@shape
def distinctsave(size):
    """as distinct, and each expression is kept in the heap"""
    return nested(size, TERM_SAVE)


@shape
def longstack(size):
    """a body that pushes a variable with each byte, and is refused at its end: what an item of the stack takes"""
    binary = unary()
    binary.theorem([0], command(U_REF, 0), ref(0) * size, local=True)
    return binary, [UNARY]


@shape
def congbomb(size):
    """a local definition of many parameters (half the bytes); a body opens one equation between two of its applications again and
    again, and pays none of the operands' (refused at its end, or out of memory): an obligation for each operand, each time"""
    wide = max(2, min(WORDS, size // 2 // 10))
    binary, top = with_top()
    definition = binary.define([0] * wide, 0, command(U_TERM, top), command(TERM, top), local=True)
    # heap: 0 a, 1 the application to a, 2 the proof of it
    body = ref(0) * wide + command(TERM_SAVE, definition) + command(HYP)
    one = ref(1) + ref(2) + command(CONV) + command(CONG)
    body += one * max(1, (size - 9 * wide) // len(one))
    binary.theorem([0], command(U_REF, 0), body, local=True)
    return binary, [TOP_HOLDS]


@shape
def dag(depth):
    """a local theorem with an expression of a depth, shared: as a tree it has 2^depth leaves, and a text has no sharing
    (`decompile`)"""
    binary = prelude()
    # h: a |- tree -> a by a1i: the proof of a, the operands a and tree, and the target
    body = ref(0) + command(HYP) + ref(1) + ref(0) + ref(0) + ref(0) + command(TERM_SAVE, IM)
    place, heap = 2, 3
    for _ in range(depth - 1):
        body += ref(place) + command(TERM_SAVE, IM)
        place, heap = heap, heap + 1
    body += ref(place) + ref(0) + command(TERM, IM) + command(THM, A1I)
    stream = command(U_TERM, IM) + shared_stream(depth) + command(U_REF, 0) + command(U_HYP) + command(U_REF, 0)
    binary.theorem([0], stream, body, local=True)
    return binary, [PRELUDE]


@shape
def apptwice(size):
    """a term of many parameters, and a local theorem's rows of its operands, of a byte each"""
    wide = min(WORDS, max(10, size // 8 // 8))
    binary, _ = with_top()
    binary.term([0] * wide, 0)
    return binary, [TOP_HOLDS + "term f: %swff;\n" % ("wff > " * wide)]
