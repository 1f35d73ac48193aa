"""Shapes of a binary's rows: many statements, rows that share, streams that are run again and again."""
from .pieces import (
    A1I, BOUND, CONV, FIRST, FST, HYP, IM, PRELUDE, PROVABLE, REFL, SAVE, SYMM, TERM, TERM_SAVE, THM, TOP_HOLDS, UNFOLD, U_HYP, U_REF,
    U_TERM, U_TERM_SAVE, WFF, WORDS, Binary, SharedRows, axiom_of, command, prelude, ref, shape, shared_body, shared_stream,
    tree_depth, tree_stream, with_top,
)

TINY_STREAM = command(U_REF, 0) + command(U_HYP) + command(U_REF, 0)
TINY_BODY = ref(0) + command(HYP) + ref(1)


@shape
def longcite(size):
    """half the bytes one local theorem whose stream is a tree without sharing, half citations of it: each runs the stream"""
    depth = tree_depth(size)
    binary = prelude()
    tree = tree_stream(depth)
    body = shared_body(depth) + command(HYP) + ref(depth + 1)
    row = binary.theorem([0], tree + command(U_HYP) + tree, body, local=True)
    # the tree is proved from itself, again and again
    cite = ref(0) + ref(depth) + command(THM, row)
    stream = shared_stream(depth) + command(U_HYP) + command(U_REF, 1)
    binary.theorem([0], stream, body + cite * max(1, (size // 2) // len(cite)), local=True)
    return binary, [PRELUDE]


@shape
def sharedstream(size):
    """local theorems that share one row of words and one stream, a tree without sharing of half the bytes, which is run at the end of
    each"""
    depth = tree_depth(size)
    binary = SharedRows([PROVABLE])
    binary.term([0, 0], 0)
    axiom_of(binary, [0], [0], (0, 0, 0))
    stream = tree_stream(depth) + command(U_HYP) + command(U_REF, 0)
    # the first one is proved by the axiom, level by level, the others by the first
    body, place, heap = TINY_BODY, 0, 2
    for _ in range(depth):
        body += ref(place) * 3 + command(TERM_SAVE, 0) + command(THM, 0)
        place, heap = heap, heap + 1
    binary.theorem([0], stream, body, local=True)
    row = len(binary.thms) - 1
    words = binary.thms[row][0]
    tree, place, heap = b"", 0, 2
    for level in range(depth):
        tree += (ref(place) if level == 0 else b"") + ref(place) + command(TERM_SAVE, 0)
        place, heap = heap, heap + 1
    short = TINY_BODY + ref(0) + tree + command(THM, row)
    done = len(stream) + len(body)
    while done < size:
        binary.theorem(words, stream, short, local=True)
        done += len(short) + 8 + 3
    parts = [WFF + "term im (a b: wff): wff;\n", "axiom dup (a: wff): $ a $ > $ im a a $;\n"]
    return binary, parts


@shape
def unfoldlong(size):
    """a local definition whose stream is a tree without sharing of half the bytes, unfolded again and again: each runs the stream"""
    depth = tree_depth(size)
    binary = prelude()
    tree = shared_body(depth)
    definition = binary.define([0], 0, tree_stream(depth), tree, local=True)
    # heap: 0 a, up to `depth` trees, then the hypothesis, then the definition's application
    hypothesis, applied = depth + 1, depth + 2
    unfolded = ref(hypothesis) + command(CONV) + ref(applied) + ref(depth) + command(UNFOLD) + command(REFL)
    head = tree + command(HYP) + ref(0) + command(TERM_SAVE, definition) + unfolded
    one = ref(applied) + unfolded + ref(applied) * 3 + command(THM, FST)
    stream = command(U_TERM, definition) + command(U_REF, 0) + command(U_HYP) + shared_stream(depth)
    binary.theorem([0], stream, head + one * max(1, (size - size // 2) // len(one)), local=True)
    return binary, [PRELUDE]


@shape
def sharedwords(size):
    """local theorems that share one row of words (half the bytes, 65,535 words at most): each takes some 20 bytes, and its words are
    gone through again (and listed, by `show`)"""
    words = [0] * min(WORDS, size // 2 // 8)
    binary, top = with_top(SharedRows)
    stream = command(U_TERM, top)
    body = command(TERM, top) + command(THM, 0)
    one = 8 + len(binary.stmt(0xE, body + b"\0"))
    for _ in range((size - 8 * len(words)) // one):
        binary.theorem(words, stream, body, local=True)
    return binary, [TOP_HOLDS]


@shape
def wideunfold(size):
    """a local definition of many parameters (half the bytes), unfolded again and again: each time its operands are gone through"""
    wide = min(WORDS, size // 2 // 9)
    binary, top = with_top()
    definition = binary.define([0] * wide, 0, command(U_TERM, top), command(TERM, top), local=True)
    fst = axiom_of(binary, [0, 0], [0, 1], 0)
    # heap: 0 top, 1 the definition's application to it; then top is proved, and from it the application (heap: 2)
    start = command(TERM_SAVE, top) + ref(0) * (wide - 1) + command(TERM_SAVE, definition)
    start += ref(0) + command(THM, 0) + command(CONV) + ref(0) + command(UNFOLD) + command(REFL) + command(SAVE)
    # a turn proves top from the application, and by fst the application again
    one = ref(0) + ref(2) + command(CONV) + command(SYMM) + ref(0) + command(UNFOLD) + command(REFL)
    one += ref(1) + ref(0) + ref(1) + command(THM, fst)
    body = start + one * max(1, (size - 9 * wide) // len(one)) + command(SAVE)
    stream = command(U_TERM, definition) + command(U_TERM_SAVE, top) + command(U_REF, 0) * (wide - 1)
    binary.theorem([], stream, body, local=True)
    return binary, [TOP_HOLDS, FIRST]


@shape
def citewide(size):
    """citations of a theorem of many parameters, of which 55 are bound and the others depend on them: what each may mention"""
    wide = min(WORDS, max(60, size // 4 // 8))
    binary, top = with_top(Binary, 0)
    words = [BOUND | 1 << 56 | 1 << k for k in range(55)] + [(1 << 55) - 1] * (wide - 55)
    stream = command(U_TERM, top)
    row = binary.theorem(words, stream, command(TERM, top) + command(THM, 0), local=True)
    cite = b"".join(ref(k) for k in range(55)) + ref(55) * (wide - 55) + command(TERM, top) + command(THM, row)
    many = max(1, (size - 8 * wide * 2) // len(cite))
    # an axiom of as many hypotheses takes the proofs away
    taking = command(U_TERM_SAVE, top) + (command(U_HYP) + command(U_REF, 0)) * many
    last = binary.axiom([], taking, command(TERM_SAVE, top) + command(HYP) + (ref(0) + command(HYP)) * (many - 1) + ref(0))
    binary.theorem(words, stream, cite * many + command(TERM, top) + command(THM, last), local=True)
    names = " ".join("h%d" % k for k in range(many))
    return binary, ["provable sort wff; sort nat;\nterm top: wff;\naxiom t: $ top $;\n", "axiom k (%s: $ top $): $ top $;\n" % names]


def expressions(count):
    """A local theorem's stream and body that make so many expressions on the way: of a it proves e -> a by a1i."""
    made = ref(0) + command(HYP) + ref(1) + ref(0) + ref(0) + (ref(0) + command(TERM, IM)) * count + command(SAVE)
    body = made + ref(2) + ref(0) + command(TERM_SAVE, IM) + command(THM, A1I)
    spelt = command(U_TERM, IM) * count + command(U_REF, 0) + command(U_REF, 0) * count
    return command(U_TERM, IM) + spelt + TINY_STREAM, body


@shape
def bigthentiny(size):
    """a local theorem with 990 expressions, then many tiny ones: room that is kept, and cleared for each"""
    binary = prelude()
    binary.theorem([0], *expressions(990), local=True)
    while len(binary.list) * 24 < size:
        binary.theorem([0], TINY_STREAM, TINY_BODY, local=True)
    return binary, [PRELUDE]


@shape
def tiny(size):
    """many tiny local theorems: what each statement costs by itself"""
    binary = prelude()
    while len(binary.list) * 31 < size:
        binary.theorem([0], TINY_STREAM, TINY_BODY, local=True)
    return binary, [PRELUDE]


@shape
def abovekept(size):
    """local theorems with 1,001 expressions each: room that is given back each time"""
    binary = prelude()
    stream, body = expressions(1001)
    done = 0
    while done < size:
        binary.theorem([0], stream, body, local=True)
        done += len(stream) + len(body) + 16
    return binary, [PRELUDE]
