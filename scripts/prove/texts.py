"""Lays out proof texts, and finds what of the source stands at a byte of them."""
from .logic import Sort, Term, written
from .proofs import proof_node

WIDTH = 118
DEEPEST = 76


def flat(node):
    return node if isinstance(node, str) else "(" + " ".join(map(flat, node)) + ")"


def length(node, most):
    """The length of a node in one line; where that is more than `most`, some number above it."""
    if isinstance(node, str):
        return len(node)
    total = len(node) + 1 if node else 2
    for part in node:
        if total > most:
            break
        total += length(part, most - total)
    return total


def laid_out(node):
    """A node in lines: where it is too long, its first parts fill lines with its head, and each other has its own."""
    out = []
    put(node, 0, out)
    return "".join(out)


def put(node, indent, out):
    if isinstance(node, str) or length(node, WIDTH - indent) <= WIDTH - indent:
        out.append(flat(node))
        return
    head = flat(node[0])
    out.append("(" + head)
    width, next_indent = indent + 1 + len(head), min(indent, DEEPEST)  # what is nested deeper isn't indented more
    for part in node[1 : 1 + staying(node)]:
        for piece in pieces(part):
            if width + 1 + len(piece) > WIDTH:
                out.append("\n" + " " * (next_indent + 3))
                width = next_indent + 3
            out.append(" " + piece)
            width += 1 + len(piece)
    for part in node[1 + staying(node) :]:
        out.append("\n" + " " * (next_indent + 2))
        put(part, next_indent + 2, out)
    out.append(")")


def pieces(node):
    """A node cut where a line may end: between the parts of a long list."""
    if isinstance(node, str) or length(node, WIDTH) < WIDTH // 2:
        return [flat(node)]
    parts = [flat(it) for it in node]
    return ["(" + parts[0], *parts[1:-1], parts[-1] + ")"]


def staying(node):
    """How many parts may stay with the head: of a theorem all but its proof, of a citation the operands."""
    counts = {"theorem": len(node) - 2, "local": len(node) - 2, ":unfold": 3}
    if node[0] in ("sort", "term", "axiom", "def"):
        return len(node) - 1
    return counts.get(node[0], 1)


def names(them):
    return [it.name for it in them]


def binder(it):
    return [it.name, it.sort] if it.bound else [it.name, it.sort, names(it.needs)]


def statement(it, proof=None, dummies=()):
    """The node of a statement."""
    if isinstance(it, Sort):
        return ["sort", it.name, *it.modifiers]
    made = [it.kind, it.name, [binder(b) for b in it.binders]]
    if isinstance(it, Term):
        made.append([it.sort, names(it.needs)])
        if it.is_definition:
            made += [[binder(b) for b in it.dummies], written(it.body)]
    elif it.kind == "axiom":
        made += [[written(e) for _, e in it.hypotheses], written(it.conclusion)]
    else:
        made += [[[name, written(e)] for name, e in it.hypotheses], written(it.conclusion)]
        made += [[binder(b) for b in dummies], proof_node(proof)]
    return ["local", *made] if it.is_local else made


def statement_name(node):
    return node[2] if node[0] == "local" else node[1]


def atoms(node):
    """The tokens of a node."""
    if isinstance(node, str):
        return set(node.replace("(", " ").replace(")", " ").split())
    return set().union(*map(atoms, node)) if node else set()


def place_in(node, offset):
    """The place of the source for what stands at an offset in the lines of a node: that of the innermost part with one."""
    text, found = laid_out(node), None

    def end_of(part, at, place):
        """Goes over a part that stands behind an offset, and gives where it ends."""
        nonlocal found
        while text[at] in " \n":
            at += 1
        begin, place = at, getattr(part, "place", None) or place
        if isinstance(part, str):
            at += len(part)
        else:
            at += 1
            for it in part:
                at = end_of(it, at, place)
            at = text.index(")", at) + 1
        if begin <= offset < at and found is None:
            found = place
        return at

    end_of(node, 0, None)
    return found
