"""./mz export: makes a Metamath database of an accepted pair, and has metamath verify it."""
import os

from explore import texts
from explore.program import run
from explore.specification import read_specification

from . import opinion
from .exporting import Export, TooLong
from .same_command import same
from .telling import WRONG_WORDS, Failed, plural, read_bytes, read_text, written

KINDS = {"term": "term", "def": "term", "axiom": "assertion", "theorem": "assertion"}
DUMMIES = {"def": 2, "theorem": 3}  # where they stand behind the name


def export(spec, binary, out, text=None, has_definitions=False):
    """Makes, tells, and gives the exit number."""
    for path in (spec, binary, *([text] if text else [])):
        if os.path.exists(out) and os.path.exists(path) and os.path.samefile(out, path):
            raise Failed(f"{out} is one of the files that are read", WRONG_WORDS)
    source, data = read_text(spec), read_bytes(binary)
    known = read_text(text) if text else None
    print(run("verify", spec, binary).strip(), flush=True)
    try:
        made = Export(data, *read_specification(source), plain=has_definitions)
        made.local = names_of(text, known, made.binary) if text else {}
        made.run()
    except TooLong as fault:
        raise Failed(f"{spec} and {binary} can't be written: {fault}") from None
    with written(out) as file:
        made.text.write(file, f"Made by mz export of {os.path.basename(spec)} and {os.path.basename(binary)}.")
    it = made.counts
    print(f"exported: {plural(it.terms, 'term')}, {plural(it.axioms, 'axiom')}, {plural(it.theorems, 'theorem')}, "
          f"{plural(it.steps, 'step')}, {plural(it.conversions, 'conversion')}")
    return judged(spec, out)


def judged(spec, out):
    """What metamath says of the database that was made, and whether it says what the specification does."""
    if not os.path.isfile(out):
        return 0
    status = 0
    if not opinion.is_there():
        print("metamath: it isn't installed, so nobody has verified the database")
    elif found := opinion.faults(out):
        print("metamath: not all proofs in the database are right", *found, sep="\n    ")
        status = 1
    else:
        print("metamath: all proofs in the database were verified")
    return same(spec, out, is_exported=True) or status


def names_of(path, source, binary):
    """Names of the statements of a proof text and of their variables, by kind and row of the binary."""
    made, rows = {}, {"term": 0, "assertion": 0}
    try:
        for node in texts.nodes(source):
            kind, name, *rest = node[1:] if node[0] == "local" else node
            if kind not in KINDS:
                continue
            dummies = rest[DUMMIES[kind]] if kind in DUMMIES else []
            made[KINDS[kind], rows[KINDS[kind]]] = name, [it[0] for it in (*rest[0], *dummies)]
            rows[KINDS[kind]] += 1
    except (ValueError, IndexError, TypeError):
        raise Failed(f"{path} is no proof text") from None
    if rows != {"term": len(binary.terms), "assertion": len(binary.theorems)}:
        raise Failed(f"{path} isn't the text of this binary")
    return made
