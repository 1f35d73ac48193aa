"""What is measured of each shape, and what is expected of it."""

IN_PROPORTION = "in proportion"
# What is called in proportion: an exponent, and bytes of memory for each byte beyond what is there for any file.
EXPONENT, EACH, BASE = 1.15, 64, 8_000_000
# A distinct expression of a few bytes takes a node, its operands and a place in the store's table.
DISTINCT = 100
STREAMS = "inherent: a citation, an unfolding and an end run their stream, within the square of the binary's bytes"
PATHS = "a formula has a path for each two sorts between which it wraps operands, and each is spelled out once"
JOINED = "a coercion within what is joined already goes over what it could reach; users have 128 sorts at most"

# A shape, a command, the size of the largest file (or three depths), and what is expected.
ROWS = [
    ("specchain", "verify", 400_000, IN_PROPORTION),
    ("specpairs", "verify", 400_000, IN_PROPORTION),
    ("specfan", "verify", 400_000, IN_PROPORTION),
    ("spectree", "verify", 160_000, JOINED),
    ("specgrid", "verify", 1_000_000, JOINED),
    ("fangoal", "verify", 2_000_000, IN_PROPORTION),
    ("speccoercebomb", "verify", 4_000_000, IN_PROPORTION),  # its chain and its term alone have 95 KB
    ("pairpaths", "verify", 400_000, PATHS),
    ("coercebomb", "verify", 1_000_000, IN_PROPORTION),
    ("coercefresh", "verify", 1_000_000, IN_PROPORTION),
    ("coerceleaves", "verify", 200_000, IN_PROPORTION),
    ("congbomb", "verify", 200_000, IN_PROPORTION),
    ("congbomb", "portable", 200_000, IN_PROPORTION),
    ("manyprefix", "verify", 500_000, IN_PROPORTION),
    ("grouphyps", "verify", 800_000, IN_PROPORTION),
    ("freshmarks", "verify", 800_000, IN_PROPORTION),
    ("sharedwords", "verify", 200_000, IN_PROPORTION),
    ("wideunfold", "verify", 1_000_000, IN_PROPORTION),
    ("citewide", "verify", 1_000_000, IN_PROPORTION),
    ("defgroup", "verify", 500_000, IN_PROPORTION),
    ("defregular", "verify", 500_000, IN_PROPORTION),
    ("groupnotation", "verify", 2_000_000, IN_PROPORTION),
    ("distinct", "verify", 1_000_000, IN_PROPORTION),
    ("distinct", "portable", 1_000_000, IN_PROPORTION),
    ("distinctsave", "verify", 1_000_000, IN_PROPORTION),
    ("distinctsave", "portable", 1_000_000, IN_PROPORTION),
    ("longstack", "verify", 2_000_000, IN_PROPORTION),
    ("longmath", "verify", 8_000_000, IN_PROPORTION),
    ("specnots", "verify", 1_000_000, IN_PROPORTION),
    ("longprefix", "verify", 1_000_000, IN_PROPORTION),
    ("manyvars", "verify", 1_000_000, IN_PROPORTION),
    ("apptwice", "verify", 1_000_000, IN_PROPORTION),
    ("bigthentiny", "verify", 1_000_000, IN_PROPORTION),
    ("abovekept", "verify", 1_000_000, IN_PROPORTION),
    ("tiny", "verify", 1_000_000, IN_PROPORTION),
    # A stream has half of the bytes at these sizes.
    ("longcite", "verify", 49_152, STREAMS),
    ("sharedstream", "verify", 49_152, STREAMS),
    ("unfoldlong", "verify", 49_152, STREAMS),
    ("sharedwords", "show", 40_000, "inherent: the listing spells each row"),
    ("axiomgrid", "axioms", 400_000, IN_PROPORTION),
    ("axiomchain", "axioms", 1_000_000, IN_PROPORTION),
    ("axiomout", "axioms", 400_000, "inherent: for each theorem the names of its axioms are written"),
    ("axiomnames", "axioms", 100_000, "inherent: for each theorem the names of its axioms are written"),
    ("dag", "decompile", (15, 16, 17), "inherent: a text has no sharing, so that a level more is a text twice as long"),
    ("underscores", "decompile", 120_000, "inherent: made names are longer than any run of underscores, at each mention"),
    ("text:underscores", "spec", 120_000, "inherent: made names are longer than any run of underscores, at each mention"),
    ("text:longhyp", "compile", 250_000, IN_PROPORTION),
    ("text:longhyptwo", "compile", 250_000, IN_PROPORTION),
    ("text:letnames", "compile", 250_000, IN_PROPORTION),
    ("text:letsubproofs", "compile", 250_000, IN_PROPORTION),
    ("text:longconcl", "compile", 250_000, IN_PROPORTION),
    ("text:manydeps", "compile", 500_000, IN_PROPORTION),
    ("text:defdeps", "compile", 500_000, IN_PROPORTION),
    ("text:depgrid", "compile", 500_000, IN_PROPORTION),
    ("text:regulargrid", "compile", 500_000, IN_PROPORTION),
    ("text:collide", "compile", 400_000, IN_PROPORTION),
    ("text:lets", "compile", 1_000_000, IN_PROPORTION),
    ("text:tiny", "compile", 1_000_000, IN_PROPORTION),
    ("text:longname", "compile", 1_000_000, IN_PROPORTION),
]


def memory_of(shape):
    """Bytes of memory for each byte up to which a shape is in proportion."""
    return DISTINCT if shape in ("distinct", "distinctsave") else EACH


# Pairs that are refused, the part of the program that does so, and the rule; the others are accepted.
REFUSED = {
    "longstack": ("binary", "K31"), "congbomb": ("binary", "K31"), "longmath": ("specification", "S17"),
    "specchain": ("match", "M4"), "specpairs": ("match", "M4"), "specgrid": ("match", "M4"), "spectree": ("match", "M4"),
    "speccoercebomb": ("match", "M4"), "pairpaths": ("match", "M4"), "specfan": ("match", "M1"), "specnots": ("match", "M1"), "defregular": ("match", "M1"),
    "defgroup": ("match", "M1"), "groupnotation": ("match", "M1"),
}


def refusal_of(shape):
    """The part and the rule by which `verify` refuses it, or None."""
    return REFUSED.get(shape)


def sizes(largest):
    """The three sizes that are measured: a quarter, a half and the whole, or those that stand there."""
    return largest if isinstance(largest, tuple) else (largest // 4, largest // 2, largest)
