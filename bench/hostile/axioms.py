"""Shapes for `axioms`, which writes for each theorem the axioms on which it rests, and for what is written as names."""
from .pieces import FIRST, PROVABLE, TERM, TERM_SAVE, THM, TOP, U_TERM, WFF, Binary, axiom_of, command, ref, shape, with_top


def many_axioms(size, each):
    """Axioms that say `top`, until there are so many bytes, of which each has some in the binary; behind them fst. The binary, their
    number, the row of fst, the specification's parts, the bytes."""
    binary = Binary([PROVABLE])
    top = binary.term([], 0)
    parts, done = [TOP], 0
    while done < size:
        binary.axiom([], command(U_TERM, top), command(TERM, top))
        parts.append("axiom a%d: $top$;\n" % (len(parts) - 1))
        done += len(parts[-1]) + each
    many = len(parts) - 1
    fst = axiom_of(binary, [0, 0], [0, 1], 0)
    parts.append(FIRST)
    return binary, many, fst, parts, done


def cited(row, fst):
    """Proves top, and keeps one of two proofs of it (heap: 0 top)."""
    return ref(0) + command(THM, row) + ref(0) + ref(0) + ref(0) + command(THM, fst)


def all_cited(binary, many, fst, parts):
    """A public theorem that rests on all axioms: its row, and its body's length."""
    body = command(TERM_SAVE, 0) + command(THM, 0) + b"".join(cited(k, fst) for k in range(1, many))
    parts.append("theorem all: $top$;\n")
    return binary.theorem([], command(U_TERM, 0), body), len(body)


@shape
def axiomgrid(size):
    """axioms (a third), and a public theorem that cites one that rests on all of them, many times: sets that are joined each time"""
    binary, many, fst, parts, done = many_axioms(size // 3, 24)
    row, length = all_cited(binary, many, fst, parts)
    one = cited(row, fst)
    body = command(TERM_SAVE, 0) + command(THM, row) + one * max(1, (size - done - length) // len(one))
    binary.theorem([], command(U_TERM, 0), body)
    return binary, [*parts, "theorem last: $top$;\n"]


@shape
def axiomout(size):
    """axioms (a half), and public theorems (a half) that each rest on all of them: what is written, by nature their product"""
    binary, many, fst, parts, done = many_axioms(size // 2, 34)
    row, _ = all_cited(binary, many, fst, parts)
    number = 0
    while done < size:
        binary.theorem([], command(U_TERM, 0), command(TERM, 0) + command(THM, row))
        parts.append("theorem t%d: $top$;\n" % number)
        done += len(parts[-1]) + 24
        number += 1
    return binary, parts


@shape
def axiomchain(size):
    """axioms (a half), and local theorems of which each rests on one axiom more, with one public theorem at the end: a set that
    is kept for each"""
    binary, many, fst, parts, _ = many_axioms(size, 58)
    before = 0
    for k in range(1, many):
        body = command(TERM_SAVE, 0) + command(THM, before) + cited(k, fst)
        before = binary.theorem([], command(U_TERM, 0), body, local=k < many - 1)
    return binary, [*parts, *(["theorem last: $top$;\n"] if many > 1 else [])]


@shape
def axiomnames(size):
    """an axiom with a name of half the bytes, and public theorems that rest on it: the name is written for each"""
    parts = [TOP + "axiom %s: $ top $;\n" % ("t" * (size // 2))]
    binary, top = with_top()
    done, number = size // 2, 0
    while done < size:
        binary.theorem([], command(U_TERM, top), command(TERM, top) + command(THM, 0))
        parts.append("theorem x%d: $top$;\n" % number)
        done += 24 + len(parts[-1])
        number += 1
    return binary, parts


@shape
def underscores(size):
    """a sort whose name begins with half the bytes of underscores, and local theorems of one parameter: made names begin with one
    more (`decompile`)"""
    parts = [WFF[:-1] + " sort %sx;\nterm top: wff;\naxiom t: $ top $;\n" % ("_" * (size // 2))]
    binary, top = with_top(Binary, 0)
    for _ in range(-(-(size - size // 2) // 32)):
        binary.theorem([0], command(U_TERM, top), command(TERM, top) + command(THM, 0), local=True)
    return binary, parts
