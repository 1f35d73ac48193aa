"""Writes a large development: copies of the theorems of examples/arithmetic, each under names of its own.

    python3 scripts/explore/tests/copies.py N DIR    DIR/copies.mm0 and DIR/copies.mmu, of N times 142 theorems
"""
import os
import re
import sys

TOP = os.path.dirname(os.path.dirname(os.path.dirname(os.path.dirname(os.path.abspath(__file__)))))


def parted(text, end, is_theorem):
    """The statements of a text, those that are no theorems and those that are."""
    whole = [it + end for it in text.split(end) if it.strip()]
    return [it for it in whole if not is_theorem(it)], [it for it in whole if is_theorem(it)]


def main(count, folder):
    stem = os.path.join(TOP, "examples", "arithmetic", "arithmetic")
    with open(stem + ".mm0", encoding="ascii") as file:
        spec = re.sub(r"--[^\n]*\n", "", file.read())
    with open(stem + ".mmu", encoding="ascii") as file:
        text = re.sub(r"\n\(", "\f(", file.read()).replace("\n", " ")
    declared, claims = parted(spec, ";", lambda it: it.strip().startswith("theorem"))
    below, proofs = parted(text, "\f", lambda it: re.match(r"\((local )?theorem ", it))
    names = {re.match(r"\((?:local )?theorem (\w+)", it)[1] for it in proofs}
    cited = re.compile(r"(?<=\()\w+(?= \()|(?<=theorem )\w+")
    os.makedirs(folder, exist_ok=True)
    with open(os.path.join(folder, "copies.mm0"), "w", encoding="ascii") as file:
        file.write("".join(declared))
        for i in range(count):
            file.write("".join(re.sub(r"theorem (\w+)", rf"theorem \1_{i}", it) for it in claims))
        file.write("\n")
    with open(os.path.join(folder, "copies.mmu"), "w", encoding="ascii") as file:
        file.write("".join(below).replace("\f", "\n"))
        for i in range(count):
            file.write("".join(cited.sub(lambda it: f"{it[0]}_{i}" if it[0] in names else it[0], it) for it in proofs)
                       .replace("\f", "\n"))


if __name__ == "__main__":
    if len(sys.argv) != 3:
        sys.exit(__doc__.strip())
    main(int(sys.argv[1]), sys.argv[2])
