"""Leaves out of proof files the answers that no longer fit a changed body, so that a goal decides and not an answer."""
import os
import re

MISFIT = re.compile(r"^(?:\./)?(proofs/\S*/Answers\.antt):(\d+):\d+: error: ", re.M)
DECLARED = re.compile(r"(?:pub )?([^\s:]+) : ")


def misfits(said):
    """The places at which the prover refuses answers: for each file the numbers of the lines."""
    found = {}
    for file, line in MISFIT.findall(said):
        found.setdefault(file, set()).add(int(line))
    return found


def name_at(lines, number):
    """The name of the answer within which a line stands, the first line being 1; None above the first answer."""
    for line in reversed(lines[:number]):
        declared = DECLARED.match(line)
        if declared:
            return declared[1]
    return None


def without(text, numbers):
    """The text without the answers within which the lines stand, and the names of these."""
    lines = text.split("\n")
    names = {name_at(lines, it) for it in numbers} - {None}
    kept, owner = [], None
    for line in lines:
        if line and not line.startswith((" ", "\t")):
            owner = re.sub(r"^pub ", "", line).split()[0]
        if owner not in names:
            kept.append(line)
    return "\n".join(kept), sorted(names)


def leave_out(said, folder):
    """Leaves out of the crate in the folder what the prover refuses; returns the names."""
    gone = []
    for file, numbers in misfits(said).items():
        path = os.path.join(folder, file)
        with open(path, encoding="utf-8") as it:
            text, names = without(it.read(), numbers)
        with open(path, "w", encoding="utf-8") as it:
            it.write(text)
        gone += names
    return gone
