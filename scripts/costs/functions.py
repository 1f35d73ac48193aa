"""What the functions of a checked crate cost, by the files that a check keeps in out/incremental.

A check keeps a file for each module that it checks, when it has checked it. So a module took the time from the file before to its
own, if the crate was checked from nothing with one job: `rm -r out`, and `rt check --jobs 1`. Its size is that of its file.
"""
import glob
import os
import re
from dataclasses import dataclass, field

LONGEST = 600  # seconds: what is longer lies between two checks
PARTS = ("derivation", "declarations", "goals")
OF_GOALS = ("Goals", "Given", "Answers", "Invariants", "Proof")
MODULE = re.compile(r"Rattle-(?P<crate>\w+)[-.](?:proofs|specs)\.(?P<path>.+)\.oantt$")


@dataclass
class Cost:
    """Seconds and bytes, part by part."""

    seconds: dict = field(default_factory=lambda: dict.fromkeys(PARTS, 0.0))
    sizes: dict = field(default_factory=lambda: dict.fromkeys(PARTS, 0))

    def add(self, part, seconds, size):
        self.seconds[part] += seconds
        self.sizes[part] += size

    def whole(self):
        return sum(self.seconds.values())


def modules(folder):
    """Of each module that the last check kept its path, the seconds and the bytes, in the order of the check."""
    found = []
    for path in glob.glob(os.path.join(glob.escape(folder), "out", "incremental", "*", "*.oantt")):
        module = MODULE.match(os.path.basename(path))
        if module:
            kept = os.stat(path)
            found.append((kept.st_mtime_ns, module["path"], kept.st_size))
    found.sort()
    before = found[0][0] if found else 0
    for at, path, size in found:
        seconds = (at - before) / 1e9
        yield path, seconds if seconds < LONGEST else 0.0, size
        before = at


def part_of(module, function):
    """The part of a function's cost to which a module of it belongs."""
    first = module[len(function) + 1 :].split(".")[0]
    return "derivation" if first == "Lts" else "goals" if first in OF_GOALS else "declarations"


def costs(folder):
    """The cost of each function, and the seconds of all other modules: lemmas, definitions, links."""
    kept = list(modules(folder))
    names = {path[: -len(".Lts")] for path, _, _ in kept if path.endswith(".Lts")}
    found, others = {it: Cost() for it in names}, 0.0
    for path, seconds, size in kept:
        parts = path.removeprefix("contracts.").split(".")
        owner = next((it for it in (".".join(parts[:end]) for end in range(len(parts), 0, -1)) if it in names), None)
        if owner:
            found[owner].add(part_of(".".join(parts), owner), seconds, size)
        else:
            others += seconds
    return found, others
