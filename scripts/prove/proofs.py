"""Whole proofs: what a proof text has. Each node knows the place of the source for which it stands."""
from .logic import walk, written
from .unify import Cong, Refl, Sym


class Named:
    """The name of a hypothesis or of a let."""

    def __init__(self, place, name):
        self.place, self.name = place, name


class Cited:
    def __init__(self, place, theorem, operands, parts):
        self.place, self.theorem, self.operands, self.parts = place, theorem, operands, parts


class Converted:
    def __init__(self, place, goal, conversion, proof):
        self.place, self.goal, self.conversion, self.proof = place, goal, conversion, proof


class Let:
    def __init__(self, place, name, first, rest):
        self.place, self.name, self.first, self.rest = place, name, first, rest


class Later:
    """A proof that is made when more is known of its goal."""

    def __init__(self, place):
        self.place, self.made = place, None


class Gap:
    """A proof that is left open by a Sorry of the source, with what was visible there. `elaborator` makes the proof in which it
    stands, and `before` is how many statements were written then."""

    def __init__(self, sorry, goal, visible, elaborator, before):
        self.sorry, self.place = sorry, sorry.place
        self.goal, self.visible = goal, visible
        self.elaborator, self.before = elaborator, before


class Node(list):
    """A list of a proof text, with the place of the source for which it stands."""

    def __init__(self, place, parts):
        super().__init__(parts)
        self.place = place


class Atom(str):
    """An atom of a proof text, with its place."""

    def __new__(cls, place, text):
        made = super().__new__(cls, text)
        made.place = place
        return made


def proof_node(proof):
    """A proof as a node of a proof text: an atom, or a list of nodes."""
    place = proof.place
    if isinstance(proof, Named):
        return Atom(place, proof.name)
    if isinstance(proof, Later):
        return proof_node(proof.made)
    if isinstance(proof, Cited):
        return Node(place, [proof.theorem.name, [written(it) for it in proof.operands], *map(proof_node, proof.parts)])
    if isinstance(proof, Converted):
        return Node(place, [":conv", written(proof.goal), conversion_node(proof.conversion), proof_node(proof.proof)])
    if isinstance(proof, Gap):
        return Node(place, [":sorry", written(proof.goal)])
    return Node(place, [":let", proof.name, proof_node(proof.first), proof_node(proof.rest)])


def conversion_node(it):
    if isinstance(it, Refl):
        return [":refl", written(it.e)] if getattr(walk(it.e), "operands", ()) else written(it.e)
    if isinstance(it, Cong):
        return [it.term.name, *map(conversion_node, it.parts)]
    if isinstance(it, Sym):
        return [":sym", conversion_node(it.part)]
    operands, variables = [[written(e) for e in them] for them in (it.operands, it.variables)]
    return [":unfold", it.term.name, operands, variables, conversion_node(it.part)]
