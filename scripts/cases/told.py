"""The lines that the program prints, from the short form in which cases say them.

`S9 2 38` is the refusal by the rule S9 in the specification's second statement, at byte 38; so are `K21 5 234` of a binary
and `U6 3 78` of a text. `M5 4 4` is that of the fourth declaration and the fourth statement, `A2 3` of a listing's third
line, `L3 56` the limit that 56 passes, and `accepted 1 1 2 0 1` a yes with its five numbers. The words of a rule are those
of its heading in docs/RULES.md.
"""
import functools
import os
import re

from .reading import TOP, Wrong

COUNTED = ("sorts", "terms", "axioms", "definitions", "theorems")


@functools.lru_cache(None)
def words_of_rules():
    with open(os.path.join(TOP, "docs", "RULES.md"), encoding="utf-8") as file:
        return dict(re.findall(r"^### ([A-Z]\d+) (.+)$", file.read(), re.M))


FORMS = {
    "S": "refused: specification statement {0} at byte {1}: {2}",
    "K": "refused: binary statement {0} at byte {1}: {2}",
    "U": "refused: text statement {0} at byte {1}: {2}",
    "M": "refused: match declaration {0} statement {1}: {2}",
    "A": "refused: listing line {0}: {1}",
    "L": "limit: {1} {0}",
}


def line(told):
    """The line, without its end."""
    first, *numbers = told.split()
    if first == "accepted":
        return "accepted: " + ", ".join(f"{number} {what}" for number, what in zip(numbers, COUNTED, strict=True))
    if first not in words_of_rules():
        raise Wrong(f"no rule: {told}")
    return FORMS[first[0]].format(*numbers, f"{first} {words_of_rules()[first]}")


def is_yes(told):
    return told.startswith("accepted ")


def status(text):
    """The exit number of a run that prints this: 1 where its last line is a refusal or a limit."""
    lines = text.rstrip("\n").split("\n")
    return 1 if lines[-1].startswith(("refused: ", "limit: ")) else 0
