"""Shapes of a pair's match: formulas that the binary spells by marks, coercions that a formula doesn't show, names."""
import random

from .pieces import (
    DELIMITERS, HYP, IM, PRELUDE, PROVABLE, TERM, TERM_SAVE, U_HYP, U_REF, U_TERM, U_TERM_SAVE, WFF, WORDS, Binary, axiom_of, build,
    chain_lines, chain_terms, coercion_line, command, lines_until, prelude, ref, shape, spell,
)

CHAIN = 126
STEPS = 2000


def implications():
    """a -> b -> .. -> a of 2,000 arrows as a tree, and as a text: 4,001 tokens."""
    tree = 0
    for step in range(STEPS):
        tree = (IM, step % 2, tree)
    return tree, " -> ".join("ab"[step % 2] for step in reversed(range(STEPS))) + " -> a"


def with_hypotheses(text, many):
    names = " ".join("h%d" % k for k in range(many))
    return [PRELUDE, "axiom big (a b: wff) (%s: $ %s $): $ a $;\n" % (names, text)]


@shape
def grouphyps(size):
    """an axiom with many hypotheses of one formula of 4,001 tokens, which the binary makes twice and refers to in turn: the
    formula is compared for each"""
    tree, text = implications()
    binary = prelude()
    # a name of some 6 bytes for each hypothesis, and 3 and 3 bytes in the binary
    many = max(4, (size - 12 * STEPS) // 13)
    made = command(U_HYP) + command(U_TERM_SAVE, IM) + spell(tree)[1:]
    referred = b"".join(command(U_HYP) + command(U_REF, 2 + (k & 1)) for k in range(many - 2))
    body = build(tree)[:-1] + command(TERM_SAVE, IM) + command(HYP) + (ref(2) + command(HYP)) * (many - 1) + ref(0)
    binary.axiom([0, 0], command(U_REF, 0) + made * 2 + referred, body)
    return binary, with_hypotheses(text, many)


@shape
def freshmarks(size):
    """as grouphyps, but that each hypothesis is made anew of the two operands of its formula, which have marks"""
    tree, text = implications()
    binary = prelude()
    many = max(4, (size - 12 * STEPS) // 15)
    # the last hypothesis makes the inner formula once, with a mark
    first = command(U_TERM, IM) + command(U_REF, tree[1]) + command(U_TERM_SAVE, IM) + spell(tree[2])[1:]
    again = command(U_TERM_SAVE, IM) + command(U_REF, tree[1]) + command(U_REF, 2)
    stream = command(U_REF, 0) + command(U_HYP) + first + (command(U_HYP) + again) * (many - 1)
    body = build(tree)[:-1] + command(TERM_SAVE, IM) + command(HYP) + (ref(2) + command(HYP)) * (many - 1) + ref(0)
    binary.axiom([0, 0], stream, body)
    return binary, with_hypotheses(text, many)


def chained(wide):
    """A pair with a chain of 126 coercions to the sort of the many operands of a term: the binary, the chain's rows, the term's row,
    and the specification's lines."""
    binary = Binary([0] * CHAIN + [PROVABLE])
    chain = chain_terms(binary, CHAIN)
    term = binary.term([CHAIN << 56] * wide, CHAIN << 56)
    return binary, chain, term, chain_lines(CHAIN) + ["term t: %swff;\n" % ("wff > " * wide)]


@shape
def coercebomb(size):
    """a chain of 126 coercions, and formulas of 4,000 tokens, each of which needs all of it: the paths, written out"""
    wide = 4000
    binary, chain, term, parts = chained(wide)
    # one operand is made with a mark, the others refer
    stream = command(U_TERM, term) + command(U_TERM_SAVE, chain[-1]) + b"".join(command(U_TERM, k) for k in reversed(chain[:-1]))
    stream += command(U_REF, 0) + command(U_REF, 1) * (wide - 1)
    body = ref(0) + b"".join(command(TERM, k) for k in chain[:-1]) + command(TERM_SAVE, chain[-1])
    body += ref(1) * (wide - 1) + command(TERM, term)
    done, number = sum(map(len, parts)), 0
    while done < size:
        line = "axiom x_%d (a: s0): $ t %s$;\n" % (number, "a " * wide)
        parts.append(line)
        binary.axiom([0], stream, body)
        done += len(line) + len(stream) + len(body)
        number += 1
    return binary, parts


@shape
def coercefresh(size):
    """the formula of coercebomb as two hypotheses of a group, of which the binary makes the second anew: both are compared by numbers,
    which each step of each path has"""
    wide = 4000
    binary, chain, term, parts = chained(wide)
    made = command(U_TERM_SAVE, term) + command(U_REF, 1) * wide
    stream = command(U_TERM_SAVE, chain[-1]) + b"".join(command(U_TERM, k) for k in reversed(chain[:-1])) + command(U_REF, 0)
    stream += (command(U_HYP) + made) * 2
    body = ref(0) + b"".join(command(TERM, k) for k in chain[:-1]) + command(TERM_SAVE, chain[-1])
    body += ref(1) * (wide - 1) + command(TERM_SAVE, term) + command(HYP) + ref(2) + command(HYP) + ref(1)
    done, number = sum(map(len, parts)), 0
    while done < size:
        line = "axiom x_%d (a: s0) (_ _: $ t %s$): $ a $;\n" % (number, "a " * wide)
        parts.append(line)
        binary.axiom([0], stream, body)
        done += len(line) + len(stream) + len(body)
        number += 1
    return binary, parts


@shape
def coerceleaves(size):
    """a chain of 126 coercions and formulas of 2,000 different variables, each of which needs all of it; the binary makes each
    chain, so that it is much the longer (the size is the specification's)"""
    wide = 2000
    binary, chain, term, parts = chained(wide)
    names = ["v%d" % k for k in range(wide)]
    down, up = b"".join(command(U_TERM, k) for k in reversed(chain)), b"".join(command(TERM, k) for k in chain)
    stream = command(U_TERM, term) + b"".join(down + command(U_REF, k) for k in range(wide))
    body = b"".join(ref(k) + up for k in range(wide)) + command(TERM, term)
    formula = "(%s: s0): $ t %s$;\n" % (" ".join(names), "".join(name + " " for name in names))
    done = sum(map(len, parts))
    # one at least
    for line in lines_until(max(size, done + 1), lambda number: "axiom x_%d %s" % (number, formula), done):
        parts.append(line)
        binary.axiom([0] * wide, stream, body)
    return binary, parts


@shape
def fangoal(size):
    """coercions from each of 62 sorts to each of 62 others, and from those to none; formulas of a sort that needs one coercion
    more: each looks at all coercions"""
    many = 62
    binary = Binary([0] * (2 * many) + [PROVABLE])
    parts = [DELIMITERS + "".join("sort s%d;\n" % k for k in range(2 * many)) + "provable sort wff;\n"]
    for i in range(many):
        for j in range(many):
            binary.term([i << 56], many + j << 56)
            parts.append(coercion_line("c%d_%d" % (i, j), "s%d" % i, "s%d" % (many + j)))
    last = 2 * many - 1
    goal = binary.term([last << 56], 2 * many << 56)
    parts.append(coercion_line("w", "s%d" % last, "wff"))
    done, number = sum(map(len, parts)) + 70000, 0
    while done < size:
        line = "axiom x%d (a: s%d): $a$;\n" % (number, last)
        parts.append(line)
        axiom_of(binary, [last << 56], [], (goal, 0))
        done += len(line) + 34
        number += 1
    return binary, parts


@shape
def manyprefix(size):
    """a term with many parameters (half the bytes), and prefix notations of it: a literal for each parameter, each time"""
    wide = size // 2 // 6
    binary = Binary([PROVABLE])
    parts = [WFF + "term f: %swff;\n" % ("wff > " * wide)]
    parts += lines_until(size, lambda number: "prefix f: $p%d$ prec 1;\n" % number, len(parts[0]))
    binary.term([0] * min(wide, WORDS), 0)
    return binary, parts


@shape
def longprefix(size):
    """names and constants of 200 bytes that begin alike, mentioned in formulas: look-ups that compare names"""
    chance = random.Random(1)
    binary = Binary([PROVABLE])
    name, constant = "x" * 200, "+" * 200
    term_line = lambda k: "term %s%d: wff;\nprefix %s%d: $%s%d$ prec max;\n" % (name, k, name, k, constant, k)
    terms = list(lines_until(size // 2, term_line))
    for _ in terms:
        binary.term([], 0)
    parts, done, number = [WFF, *terms], sum(map(len, terms)), 0
    while done < size:
        term = chance.randrange(len(terms))
        line = "axiom a%d: $%s%d$;\n" % (number, constant, term)
        binary.axiom([], command(U_TERM, term), command(TERM, term))
        parts.append(line)
        done += len(line) + 20
        number += 1
    return binary, parts


@shape
def manyvars(size):
    """axioms of 40 named variables each, with a formula of one token"""
    binary = prelude()
    parts, done, number = [PRELUDE], 0, 0
    names = " ".join("v%d" % k for k in range(40))
    while done < size:
        line = "axiom a%d (%s: wff): $v1$;\n" % (number, names)
        binary.axiom([0] * 40, command(U_REF, 1), ref(1))
        parts.append(line)
        done += len(line) + 40 * 8 + 20
        number += 1
    return binary, parts
