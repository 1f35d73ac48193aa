"""All the way round: of a database, whole or one theorem, into a specification and a binary, and back.

import has the pair verified and compares it with the database; `mz axioms`, and the definitions that the proof unfolds, are
compared with the axioms that metamath names; export makes a database again, that metamath verifies and that says what the
specification says."""
import gc
import os
import random
import re
import sys
import tempfile
from dataclasses import dataclass, field

from explore.program import run

from . import opinion, original
from .binaries import Binary, Body
from .checking import Check, identifier
from .command import on_deep_stack
from .databases import read_database
from .export_command import names_of

INSTANCE = re.compile(r"_b(?:\d|_\d+_)+(?:_\d+)?$")


class Kept:
    """A database that is read once for many theorems: by the translator, by `same`, and by metamath. Each command is a child
    of the process that has read it, so that none sees what another one did with it."""

    def __init__(self, path, labels):
        self.database, self.check = read_database(path), Check(original.read(path))
        self.axioms = opinion.axioms(path, labels)
        gc.freeze()


@dataclass
class Round:
    """What came of one theorem, or of a whole database: its faults, and the processor seconds and kilobytes of each step."""

    name: str
    faults: list = field(default_factory=list)
    costs: dict = field(default_factory=dict)


class Step:
    """One command of a round, in a child of this process, with what it said and cost."""

    def __init__(self, made, key, *words, kept=None):
        with tempfile.TemporaryFile("w+") as said:
            child = os.fork()
            if not child:
                self._command(said.fileno(), words, kept)
            _, status, usage = os.wait4(child, 0)
            said.seek(0)
            self.said = said.read()
        made.costs[key] = usage.ru_utime + usage.ru_stime, usage.ru_maxrss
        self.is_right = status == 0
        if not self.is_right:
            made.faults.append(f"{key}: {self.said.strip()}")

    @staticmethod
    def _command(said, words, kept):
        """What the child does; it ends with the exit number of the command."""
        status = 1
        try:
            for it in (1, 2):
                os.dup2(said, it)
            sys.stdout, sys.stderr = (open(it, "w", buffering=1, closefd=False) for it in (1, 2))
            status = on_deep_stack(words, kept)
            sys.stdout.flush()
        finally:
            os._exit(status)


def round_trip(database, folder, label=None, kept=None):
    """One theorem of a database, or all of it, there and back; `kept`: the database, where it was read before."""
    name = label or os.path.splitext(os.path.basename(database))[0]
    made, place = Round(name), os.path.join(folder, "pair")
    words = ["--theorem", label] if label else []
    if not Step(made, "import", "import", database, folder, "--name", "pair", "--text", *words, kept=kept).is_right:
        return made
    if label:
        axioms = kept.axioms if kept else opinion.axioms(database, [label])
        made.faults += other_axioms(axioms[label], place)
    step = Step(made, "export", "export", f"{place}.mm0", f"{place}.mmb", f"{place}.mm", "--text", f"{place}.mmu", "--definitions")
    if step.is_right and "metamath: all proofs in the database were verified" not in step.said:
        made.faults.append(f"export: {step.said}")
    return made


def other_axioms(named, place):
    """How the axioms of a theorem differ from those that metamath named. Where a proof unfolds a definition as the axiom of the
    database that gives it, `mz axioms` names, too, on what its reflexive relation rests."""
    theirs = {identifier(it) for it in named}
    line = run("axioms", f"{place}.mm0", f"{place}.mmb").splitlines()[-1]
    made = Names(place)
    return [*difference("axioms", {bare(it, theirs) for it in made.reached(False)}, theirs),
            *difference("mz axioms", set(line.partition(":")[2].split()), made.reached(True))]


def difference(title, mine, theirs):
    if mine == theirs:
        return []
    return [f"{title}: here alone {' '.join(sorted(mine - theirs))}, there alone {' '.join(sorted(theirs - mine))}"]


def bare(name, known):
    """The name of an axiom without what the translator puts behind it for an instance or a keyword."""
    return next((it for it in (name, name[:-1], INSTANCE.sub("", name), re.sub(r"_\d+$", "", name)) if it in known), name)


class Names:
    """On what the last theorem of a pair rests, by the names of its text."""

    def __init__(self, place):
        with open(f"{place}.mmb", "rb") as data, open(f"{place}.mmu", encoding="latin-1") as text:
            self.binary = Binary(data.read())
            self.names = names_of(f"{place}.mmu", text.read(), self.binary)
        self.statements = {it.row: it for it in self.binary.statements() if it.kind in ("axiom", "theorem")}

    def reached(self, through_definitions):
        """Axioms; and the lemmas df_.., if it isn't to go through them: they are axioms of the database that became definitions."""
        found, seen, open_ = set(), set(), [max(row for row, it in self.statements.items() if not it.is_local)]
        while open_:
            row = open_.pop()
            if row in seen:
                continue
            seen.add(row)
            statement, name = self.statements[row], self.names["assertion", row][0]
            if statement.kind == "axiom" or not through_definitions and name.startswith("df_"):
                found.add(name)
            else:
                body = Body(self.binary, statement, self.binary.theorems[row].parameters)
                open_ += [it.by for it in body.proofs if it.kind == "cited"]
        return found


def chosen(path, count, seed, proved="|-"):
    """Random theorems of a database."""
    labels = [it.label for it in original.read(path).statements if it.code == proved and not it.is_axiom]
    return random.Random(f"{seed} {os.path.basename(path)}").sample(labels, min(count, len(labels)))
