"""Hypotheses and lets of a proof text in the specification's notation."""
from explore.names import Names
from explore.printer import Page, Printer, plain
from explore.proofs import Proof
from explore.specification import read_specification
from explore.texts import Text

LONGEST = 2_000_000  # characters of a text that is read for one name
UNFINISHED = (LookupError, ValueError, RuntimeError, TypeError, AttributeError, SyntaxError)


def wording(text, specification, theorem, word):
    """What a hypothesis or a let of a theorem says, as a specification has it; nothing where that can't be found out."""
    if len(text) > LONGEST:
        return None
    try:
        return _wording(text, specification, theorem, word)
    except UNFINISHED:
        return None


def _wording(text, specification, theorem, word):
    statements, theory = read_specification(specification)
    read = Text(text, theory, Names(statements, theory))
    for it in read.statements():
        node = getattr(it, "node", None)
        if node and node[1] == theorem:
            proof = Proof(read, it)
            said = dict(zip((given[0] for given in node[3]), proof.hypotheses))
            said.update((let, proof.steps[number].says) for let, number in proof.lets.items())
            return plain(Page(Printer(theory), proof.trees).formula(said[word]))
    return None
