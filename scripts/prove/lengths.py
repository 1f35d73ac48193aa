"""How long the proofs are that `rw` and `prop` stand for."""
from .sources import Rewrite, Tautology, parts_of


def told(writer):
    """A line about them, where the source has any."""
    found = {place: (theorem, word) for it, item in writer.development.order if item and item.proof
             for place, theorem, word in searched(item.proof, it.name)}
    if not found:
        return []
    counts = dict.fromkeys(found, 0)
    for node in writer.nodes:
        count(node, counts)
    longest = max(counts, key=counts.get)
    theorem, word = found[longest]
    many = f"{len(found)} {'proof is' if len(found) == 1 else 'proofs are'} found by rw and prop, of {sum(counts.values())} citations"
    return [f"{many}; the longest has {counts[longest]}: {word} in {theorem}, {longest}"]


def searched(proof, theorem):
    """The places where `rw` and `prop` stand."""
    if isinstance(proof, (Rewrite, Tautology)):
        yield proof.place, theorem, "rw" if isinstance(proof, Rewrite) else "prop"
    for part in parts_of(proof):
        yield from searched(part, theorem)


def count(node, counts):
    """Counts the citations in a node of a proof text by the places for which they stand."""
    if isinstance(node, str):
        return
    place = getattr(node, "place", None)
    if place in counts and not node[0].startswith(":"):
        counts[place] += 1
    for part in node:
        count(part, counts)
