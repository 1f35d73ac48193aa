"""Shapes of a specification alone: coercions, notations, groups of variables. The binary is short, and doesn't fit."""
from .pieces import DELIMITERS, PRELUDE, PROVABLE, WFF, Binary, chain_lines, coercion_line, lines_until, shape

NATURALS = "provable sort wff; sort nat;\n"


def alone(parts, *more):
    return Binary([PROVABLE, *more]), list(parts)


def numbered(prefix, many):
    return " ".join("%s%d" % (prefix, k) for k in range(many))


@shape
def specchain(size):
    """a chain of coercions: a path for every two sorts"""
    line = lambda k: "sort s%d; %s" % (k + 1, coercion_line("c%d" % k, "s%d" % k, "s%d" % (k + 1)))
    return alone(["sort s0;\n", *lines_until(size, line)])


@shape
def specpairs(size):
    """coercions between sorts of their own: a new one is compared with all sorts met"""
    return alone(lines_until(size, lambda k: "sort a%d; sort b%d; %s" % (k, k, coercion_line("c%d" % k, "a%d" % k, "b%d" % k))))


@shape
def specgrid(size):
    """coercions from each of many sorts to each of as many others: the search for a second path"""
    many = max(2, int((size / 58) ** 0.5))
    parts = ["".join("sort s%d;\n" % k for k in range(2 * many))]
    for i in range(many):
        for j in range(many):
            parts.append(coercion_line("c%d_%d" % (i, j), "s%d" % i, "s%d" % (many + j)))
    return alone(parts)


@shape
def spectree(size):
    """a chain of coercions (half), and further ones from its last sort to sorts that a sort beside it reaches too: a coercion within
    what is joined already, with a search for a second path"""
    parts, done, many = ["sort t;\n"], 0, 0
    while done < size // 2:
        parts.append("sort s%d;\n" % many)
        if many:
            parts.append(coercion_line("c%d" % many, "s%d" % (many - 1), "s%d" % many))
        done += sum(map(len, parts[-2:]))
        many += 1
    last = "s%d" % (many - 1)
    to = lambda name, source, k: coercion_line("%s%d" % (name, k), source, "v%d" % k)
    line = lambda k: "sort v%d; %s %s" % (k, to("d", "t", k)[:-1], to("e", last, k))
    return alone([*parts, *lines_until(size, line, done)])


@shape
def specfan(size):
    """coercions from many sorts to a provable one (half the bytes), then formulas of the last sort: each looks for its coercion"""
    fan = list(lines_until(size // 2, lambda k: "sort s%d; %s" % (k, coercion_line("c%d" % k, "s%d" % k, "wff"))))
    line = lambda k: "axiom x%d (a: s%d): $a$;\n" % (k, len(fan) - 1)
    return alone([WFF, *fan, *lines_until(size, line, sum(map(len, fan)))])


@shape
def speccoercebomb(size):
    """a chain of 1,000 coercions, and formulas of 4,000 tokens of which each needs all of it: the paths, written out"""
    parts = chain_lines(1000) + ["term t: %swff;\n" % ("wff > " * 4000)]
    done = sum(map(len, parts))
    # one formula at least
    formula = "(a: s0): $ t %s$;\n" % ("a " * 4000)
    return alone([*parts, *lines_until(max(size, done + 1), lambda k: "axiom x_%d %s" % (k, formula), done)])


@shape
def pairpaths(size):
    """a chain of 126 coercions, and formulas of 4,000 one-byte variables of its 45 first sorts under parameters of its 45 last ones: for
    each formula 2,025 paths of some 80 terms"""
    wide, many, length = 4000, 45, 126
    letters = "abcdefghijklmnopqrstuvwxyzABCDEFGHIJKLMNOPQRS"
    sorts = ["s%d" % (length - many + (k // many + k) % many) for k in range(wide)]
    parts = ["delimiter $ %s $;\n" % " ".join(letters), *chain_lines(length), "term ZZ: %s > wff;\n" % " > ".join(sorts)]
    binders = "".join("(%s: s%d)" % (letter, k) for k, letter in enumerate(letters))
    formula = "".join(letters[k % many] for k in range(wide))
    done = sum(map(len, parts))
    # one formula at least
    return alone([*parts, *lines_until(max(size, done + 1), lambda k: "axiom x%d %s: $ ZZ %s $;\n" % (k, binders, formula), done)])


@shape
def specnots(size):
    """formulas of 4,000 one-byte prefix signs, one in another"""
    return alone([PRELUDE, *lines_until(size, lambda k: "axiom n%d (a: wff): $%s a$;\n" % (k, "~" * 4000))])


@shape
def longmath(size):
    """one math string of one-byte tokens, which is refused by their number: what a token takes"""
    return alone([WFF + "axiom x (a: wff): $%s$;\n" % ("(" * size)])


@shape
def defregular(size):
    """definitions whose body mentions a regular variable that depends on 2,000 bound ones: they are gone through for each mention"""
    names = numbered("x", 2000)
    body = "&".join([" y "] * 2040)
    line = lambda k: "def d%d {%s: nat} (y: wff %s): wff %s = $%s$;\n" % (k, names, names, names, body)
    head = DELIMITERS + NATURALS + "term and (a b: wff): wff;\ninfixl and: $&$ prec 10;\n"
    return alone([head, *lines_until(size, line)], 0)


@shape
def defgroup(size):
    """a term with 1,000 bound and 1,000 regular parameters, of which each depends on all bound ones (one group), over and over in the
    body of definitions: the group's dependencies, for each operand"""
    bound = numbered("x", 1000)
    head = NATURALS + "term f {%s: nat} (%s: wff %s): wff;\n" % (bound, numbered("a", 1000), bound)
    own = numbered("y", 1000)
    line = lambda k: "def d%d {%s: nat} (a: wff): wff = $f %s %s$;\n" % (k, own, own, "a " * 1000)
    return alone([head, *lines_until(size, line, len(head))], 0)


@shape
def groupnotation(size):
    """a term with a group that depends on as many bound variables, and its notation: dependencies, compared for each binder"""
    many = size // 34
    bound, group = numbered("x", many), numbered("y", many)
    binders = "{%s: nat} (%s: wff %s)" % (bound, group, bound)
    return alone([NATURALS + "term f %s: wff;\nnotation f %s: wff = ($<<$: 5) %s %s;\n" % (binders, binders, bound, group)], 0)
