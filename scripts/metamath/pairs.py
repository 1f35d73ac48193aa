"""The pairs of the examples, as metamath judges them: a second opinion on the verdicts of mz.

Each pair is exported without asking mz first, and metamath verifies the database. Where mz says yes it has to say yes, but
for what is too long to be written out. Where mz refuses what is claimed or proved, metamath has to refuse it too, or nothing
can be written. Of what is refused for another thing, as the layout of a file or a rule of specifications, nothing is asked."""
import os
import re
from typing import NamedTuple

import worked
from explore.specification import read_specification

from . import opinion
from .binaries import Binary
from .exporting import Export, TooLong

TOP = os.path.dirname(os.path.dirname(os.path.dirname(os.path.abspath(__file__))))
VERIFY = re.compile(r"\./mz verify (\S+) (\S+)$")
YES, NO, NOTHING, TOO_LONG = "verified", "refused", "can't be written", "too long"
CLAIMS = {"M7", "M8", "K21", "K25", "K29"}  # hypotheses, conclusion, what is cited, disjointness, conversion


class Pair(NamedTuple):
    specification: str
    binary: str
    line: str  # what mz prints

    @property
    def rule(self):
        """The rule that is broken; empty where mz says yes."""
        found = re.match(r"refused: .*: ([A-Z]\d+) ", self.line)
        return found[1] if found else ""

    def texts(self):
        """The specification, and the binary."""
        with open(self.specification, encoding="latin-1") as text, open(self.binary, "rb") as data:
            return text.read(), data.read()

    def is_false(self):
        """Whether mz refuses what is claimed or proved: so too a body (M9) where something is proved."""
        return self.rule in CLAIMS or self.rule == "M9" and bool(Binary(self.texts()[1]).theorems)


def pairs():
    """Each pair once, but for those whose files are only made there."""
    found = {}
    for it in worked.everywhere():
        if names := VERIFY.match(it.command):
            specification, binary = (os.path.join(TOP, name) for name in names.groups())
            if os.path.exists(specification) and os.path.exists(binary):
                found[specification, binary] = Pair(specification, binary, it.printed.rstrip("\n"))
    return list(found.values())


def metamath_says(pair, place):
    """What comes of a pair, whose database is written at this place."""
    text, data = pair.texts()
    try:
        made = Export(data, *read_specification(text)).run()
    except TooLong:
        return TOO_LONG
    except Exception:  # what isn't well-formed fails somewhere
        return NOTHING
    with open(place, "w", encoding="ascii") as out:
        made.text.write(out, "Of a pair that mz wasn't asked about.")
    return NO if opinion.faults(place) else YES


def disagreement(pair, says):
    """What is wrong with that, or nothing."""
    name = " ".join(os.path.relpath(it, TOP) for it in pair[:2])
    if not pair.rule and says not in (YES, TOO_LONG):
        return f"{name}: mz accepts it, and metamath: {says}"
    if pair.rule and pair.is_false() and says == YES:
        return f"{name}: mz refuses it ({pair.rule}), and metamath verifies it"
    return None
