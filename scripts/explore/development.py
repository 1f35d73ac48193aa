"""A development that the program has judged: its specification, its text, its verdict, and what its theorems rest on."""
import os
import sys
import tempfile
from dataclasses import dataclass, field

from .program import Refused, run


@dataclass
class Development:
    title: str
    specification: str
    text: str
    is_made: bool  # whether the text is made of a binary, so that names in it are a program's
    verdict: str
    gaps: frozenset = frozenset()
    axioms: dict = field(default_factory=dict)  # theorem: the names of the axioms on which it rests
    symbols: dict = field(default_factory=dict)  # token: how pages show it


def _read(path):
    with open(path, encoding="latin-1") as file:
        return file.read()


def is_binary(path):
    with open(path, "rb") as file:
        return file.read(4) == b"MM0B"


def _symbols(specification):
    """The file of symbols that lies beside a specification: each line is a token and how pages show it."""
    path = os.path.splitext(specification)[0] + ".symbols"
    if not os.path.isfile(path):
        return {}
    with open(path, encoding="utf-8") as file:
        return {token: shown.strip() for token, _, shown in (line.partition(" ") for line in file) if shown.strip()}


def judged(specification, other):
    """Has the program judge a specification with a binary or a proof text."""
    made = _judged(specification, other)
    made.symbols = _symbols(specification)
    return made


def _judged(specification, other):
    title = os.path.splitext(os.path.basename(specification))[0]
    with tempfile.TemporaryDirectory(prefix="mz-explore-") as room:
        if is_binary(other):
            text = os.path.join(room, "made.mmu")
            verdict = run("verify", specification, other)
            run("decompile", specification, other, text)
            made = Development(title, _read(specification), _read(text), True, verdict.strip())
            made.axioms = _axioms(specification, other)
            return made
        binary = os.path.join(room, "made.mmb")
        made = Development(title, _read(specification), _read(other), False, "")
        if _is_draft(other, binary):
            lines = run("draft", specification, binary).splitlines()
            made.verdict, made.gaps = lines[0], frozenset(it.split()[1] for it in lines[1:])
        else:
            made.verdict = run("verify", specification, binary).strip()
            made.axioms = _axioms(specification, binary)
        return made


def _is_draft(text, binary):
    """Compiles a text, and says whether it has open proofs."""
    try:
        run("compile", text, binary)
        return False
    except Refused as refused:
        if not refused.line.endswith(": U15 sorry"):
            raise
    run("compile_draft", text, binary)
    return True


def _axioms(specification, binary):
    lines = run("axioms", specification, binary).splitlines()
    return {name: list(map(sys.intern, axioms.split())) for name, _, axioms in (it.partition(":") for it in lines)}
