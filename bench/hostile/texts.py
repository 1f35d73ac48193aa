"""Shapes of proof texts: long formulas that are compared at each citation, dependencies, names."""
import random

from .pieces import SHAPES

SORT = "(sort wff provable)"
BOTH = [SORT, "(sort nat)"]
IM = "(term im ((a wff ()) (b wff ())) (wff ()))"
DEEP = 3900  # how deep citations and lets nest here; a text may by 4,096


def text(function):
    """Makes a function one of the shapes, as text:NAME: of a size in bytes it makes a proof text."""
    SHAPES["text:" + function.__name__[5:]] = function
    return function


def whole(lines):
    return "\n".join(lines) + "\n"


def doubled(size):
    """A formula of less than so many bytes, a full tree over a."""
    formula = "a"
    while 2 * len(formula) + 6 < size:
        formula = "(im %s %s)" % (formula, formula)
    return formula


def parted(many):
    """The numbers below many in runs of so many as may nest."""
    return [range(first, min(first + DEEP, many)) for first in range(0, many, DEEP)]


def in_lets(parts, innermost):
    """A proof by lets of parts, each a name with what stands before the last one's name and behind it."""
    lets, last = [], innermost
    for name, before, behind in parts:
        lets.append((name, before + last + behind))
        last = name
    proof = last
    for name, part in reversed(lets):
        proof = "(:let %s %s %s)" % (name, part, proof)
    return proof


def repeated(many, before, behind, innermost):
    """A citation within a citation so many times, by lets."""
    return in_lets([("l%d" % k, before * len(run), behind * len(run)) for k, run in enumerate(parted(many))], innermost)


def bound(many):
    return ["x%d" % k for k in range(many)]


def of_sort(names, sort):
    return " ".join("(%s %s)" % (name, sort) for name in names)


@text
def text_longhyp(size):
    """a theorem with a hypothesis of a quarter of the bytes, which is cited again and again: a tree walked each time"""
    formula = doubled(size // 4)
    many = max(1, (size - 2 * len(formula)) // len("(big (a b) h )"))
    proof = repeated(many, "(big (a b) h ", ")", "k")
    axiom = "(axiom big ((a wff ()) (b wff ())) (%s b) b)" % formula
    return whole([SORT, IM, axiom, "(theorem t ((a wff ()) (b wff ())) ((h %s) (k b)) b () %s)" % (formula, proof)])


@text
def text_longhyptwo(size):
    """as longhyp, but that the hypothesis has two variables, of which the second is another one at each citation"""
    formula = "(im a b)"
    while 2 * len(formula) + 6 < size // 6:
        formula = "(im %s %s)" % (formula, formula)
    names = 500
    many = max(1, (size - 3 * len(formula)) // len("(big (a v000 c) (gen (a v000)) )"))
    cite = lambda k: "(big (a v%03d c) (gen (a v%03d)) " % (k % names, k % names)
    proof = in_lets([("l%d" % k, "".join(map(cite, run)), ")" * len(run)) for k, run in enumerate(parted(many))], "k")
    gen = "(axiom gen ((a wff ()) (b wff ())) () %s)" % formula
    big = "(axiom big ((a wff ()) (b wff ()) (c wff ())) (%s c) c)" % formula
    variables = of_sort(["v%03d" % k for k in range(names)], "wff ()")
    theorem = "(theorem t ((a wff ()) (c wff ()) %s) ((k c)) c () %s)" % (variables, proof)
    return whole([SORT, IM, "(term not ((a wff ())) (wff ()))", gen, big, theorem])


@text
def text_letnames(size):
    """as longhyp, but that each citation has a name of its own for the hypothesis, a let that stands for the one before"""
    formula = doubled(size // 4)
    many = max(1, (size - 2 * len(formula)) // len("(:let n00000 n00000 (big (a b) n00000 ))"))
    parts = []
    for number, run in enumerate(parted(2 * many)):
        names = ["n%05d" % k for k in run[::2]]
        lets = ["(:let %s %s (big (a b) %s " % (name, stated, name) for name, stated in zip(names, ["h", *names])]
        parts.append(("l%d" % number, "".join(lets), "))" * len(names)))
    axiom = "(axiom big ((a wff ()) (b wff ())) (%s b) b)" % formula
    return whole([SORT, IM, axiom, "(theorem t ((a wff ()) (b wff ())) ((h %s) (k b)) b () %s)" % (formula, in_lets(parts, "k"))])


@text
def text_letsubproofs(size):
    """as longhyp, but that the subproof is a let of a let at each citation"""
    formula = doubled(size // 4)
    before = "(big (a b) (:let n (:let m h m) n) "
    proof = repeated(max(1, (size - 2 * len(formula)) // (len(before) + 1)), before, ")", "k")
    axiom = "(axiom big ((a wff ()) (b wff ())) (%s b) b)" % formula
    return whole([SORT, IM, axiom, "(theorem t ((a wff ()) (b wff ())) ((h %s) (k b)) b () %s)" % (formula, proof)])


@text
def text_longconcl(size):
    """an axiom with a conclusion of a third of the bytes, cited again and again (as often as the binary's limit allows)"""
    formula = doubled(size // 3)
    nodes = formula.count("im") * 2 + 1
    many = max(1, (size - 2 * len(formula)) // len("(fst (a b) h (big2 (a)))"))
    proof = repeated(min(many, 134000000 // (nodes + 20)), "(drop (a a) ", " (big (a)))", "h")
    big = "(axiom big ((a wff ())) () %s)" % formula
    drop = "(axiom drop ((a wff ()) (b wff ())) (a %s) a)" % formula.replace("a", "b")
    others = ["(axiom fst ((a wff ()) (b wff ())) (a b) a)", "(axiom use ((a wff ()) (b wff ())) (b) b)"]
    return whole([SORT, IM, big, drop, *others, "(theorem t ((a wff ())) ((h a)) a () %s)" % proof])


@text
def text_manydeps(size):
    """a theorem with many bound parameters and a regular one that depends on all, cited in many places: they are gone through each
    time"""
    names = bound(size // 4 // 16)
    many = max(1, (size - 2 * sum(map(len, names)) - 12 * len(names)) // len("(ap (p y) )"))
    proof = repeated(many, "(ap (p y) ", ")", "h")
    axioms = ["(axiom ap ((a wff ()) (y nat)) (a) a)", "(axiom id ((a wff ())) (a) a)"]
    theorem = "(theorem t (%s (y nat) (p wff (%s))) ((h p)) p () %s)" % (of_sort(names, "nat"), " ".join(names), proof)
    return whole([*BOTH, *axioms, theorem])


@text
def text_depgrid(size):
    """an axiom with bound parameters and as many regular ones that depend on all of them (a third), cited again and again"""
    side = max(2, int((size / 3 / 5) ** 0.5))
    names = bound(side)
    regular = " ".join("(p%d wff (%s))" % (k, " ".join(names)) for k in range(side))
    axiom = "(axiom ax (%s %s) (p0) p0)" % (of_sort(names, "nat"), regular)
    cite = "(ax (%s %s) " % (" ".join(names), " ".join("a" * side))
    many = min(DEEP, max(1, (size - len(axiom)) // (len(cite) + 1)))
    theorem = "(theorem t (%s (a wff ())) ((h a)) a () %s)" % (of_sort(names, "nat"), cite * many + "h" + ")" * many)
    return whole([*BOTH, axiom, theorem])


@text
def text_regulargrid(size):
    """an axiom with bound parameters and as many regular ones, cited once: each regular operand is one variable that depends on as many
    other bound ones, gone through for each operand"""
    side = size // 66
    xs, zs = bound(side), ["z%d" % k for k in range(side)]
    regular = " ".join("(p%d wff ())" % k for k in range(side))
    axiom = "(axiom ax (%s %s) (p0) p0)" % (of_sort(zs, "nat"), regular)
    cite = "(ax (%s %s) h)" % (" ".join(zs), " ".join(["p"] * side))
    theorem = "(theorem t (%s %s (p wff (%s))) ((h p)) p () %s)" % (of_sort(xs, "nat"), of_sort(zs, "nat"), " ".join(xs), cite)
    return whole([*BOTH, axiom, theorem])


@text
def text_defdeps(size):
    """a definition whose body mentions a regular variable, which depends on many bound ones, again and again"""
    names = bound(size // 4 // 14)
    body = balanced(["p"] * max(2, (size // 2) // 7), "(im %s %s)")
    dependencies = " ".join(names)
    binders = "%s (p wff (%s))" % (of_sort(names, "nat"), dependencies)
    return whole([*BOTH, IM, "(def d (%s) (wff (%s)) () %s)" % (binders, dependencies, body)])


def balanced(leaves, pair):
    """A balanced tree over the leaves."""
    while len(leaves) > 1:
        rest = [leaves[-1]] if len(leaves) % 2 else []
        leaves = [pair % (leaves[k], leaves[k + 1]) for k in range(0, len(leaves) - 1, 2)] + rest
    return leaves[0]


@text
def text_underscores(size):
    """a sort whose name begins with half the bytes of underscores, and axioms of one variable: made names begin with one more
    (`spec`)"""
    lines = [SORT, "(sort %sx)" % ("_" * (size // 2))]
    done = size // 2
    while done < size:
        lines.append("(axiom a%d ((a wff ())) () a)" % (len(lines) - 2))
        done += len(lines[-1]) + 1
    return whole(lines)


ODD = 0x9e3779b97f4a7c15
WORD = (1 << 64) - 1


def in_table(hash_of_term):
    """The hash in the table, of a term's hash, where the seed is the fixed one (`Seed::FIXED`)."""
    product = ((0x243f6a8885a308d3 ^ hash_of_term) & WORD) * (ODD ^ 16)
    folded = (product & WORD) ^ (product >> 64)
    return (folded ^ (folded >> 32)) & 0xffffffff


def mixed(before, number):
    total = (before * ODD + number) & WORD
    return (total + (total >> 32)) & WORD


def colliding(many):
    """Pairs of variables for which the hashes of `f` of them end alike, and how many variables there are."""
    bits = max(1, (many // 9).bit_length())
    variables = int((many << bits) ** 0.5) + 1
    found = []
    for left in range(variables):
        found += [(left, right) for right in range(variables) if in_table(mixed(mixed(0, left), right)) & (1 << bits) - 1 == 0]
        if len(found) >= many:
            break
    return found, variables


@text
def text_collide(size):
    """expressions whose hashes fall into one group of a store's table where its seed is the fixed one, and `compile` draws one: look-ups
    of terms"""
    found, variables = colliding(size // 40)
    cite = lambda k: "(ap (x0 (f x%d x%d)) " % found[k]
    proof = in_lets([("l%d" % run[0], "".join(map(cite, run)), ")" * len(run)) for run in parted(len(found))], "h")
    term, axiom = "(term f ((a wff ()) (b wff ())) (wff ()))", "(axiom ap ((a wff ()) (b wff ())) (a) a)"
    return whole([SORT, term, axiom, "(theorem t (%s) ((h x0)) x0 () %s)" % (of_sort(bound(variables), "wff ()"), proof)])


@text
def text_lets(size):
    """3,900 lets, of which a balanced proof mentions as many as fit: look-ups of names in scope"""
    chance = random.Random(1)
    many = max(1, (size - 20 * DEEP) // len("(fst (a a) l1 l1 )"))
    leaves = ["(fst (a a) l%d l%d)" % (chance.randrange(DEEP), chance.randrange(DEEP)) for _ in range(max(1, many // 2))]
    proof = balanced(leaves, "(fst (a a) %s %s)")
    for k in reversed(range(DEEP)):
        proof = "(:let l%d h %s)" % (k, proof)
    return whole([SORT, "(axiom fst ((a wff ()) (b wff ())) (a b) a)", "(theorem t ((a wff ())) ((h a)) a () %s)" % proof])


@text
def text_tiny(size):
    """many tiny theorems: what each statement costs by itself"""
    lines, done = [SORT], 0
    while done < size:
        lines.append("(theorem t%d ((a wff ())) ((h a)) a () h)" % (len(lines) - 1))
        done += len(lines[-1]) + 1
    return whole(lines)


@text
def text_longname(size):
    """one variable with a name of a quarter of the bytes"""
    name = "x" * (size // 4)
    return whole([SORT, "(theorem t ((%s wff ())) ((h %s)) %s () h)" % (name, name, name)])
