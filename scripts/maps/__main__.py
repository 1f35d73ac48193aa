"""Finds locals that hold an IndexMap or IndexSet and are dropped at an exit: at a `?`, a `return`, or the end of their block.

    scripts/check-maps           compares with the list of those that stand, scripts/maps/allowed.txt; ends with 1 if they differ
    scripts/check-maps --list    prints each, with its exits

Such a drop is derived anew at each exit, through all that the map has. One that is handed to `drop(..)` is derived once for the
crate (docs/GATE.md). The list may only get shorter. The sources are read by their layout: what a `match` binds isn't seen.
"""
import os
import sys

TOP = os.path.dirname(os.path.dirname(os.path.dirname(os.path.abspath(__file__))))
sys.path.insert(0, os.path.join(TOP, "scripts"))

from maps import locals as found_in
from maps.sources import Sources

ALLOWED = os.path.join(TOP, "scripts", "maps", "allowed.txt")


def allowed():
    with open(ALLOWED, encoding="utf-8") as file:
        return {it.strip() for it in file if it.strip() and not it.startswith("#")}


def compare(found, may):
    """What is wrong: locals that the list doesn't have, and those that it has in vain."""
    new = [f"{it}: alive at an exit ({', '.join(it.exits)}): hand it to drop(..) before" for it in found if it.key() not in may]
    gone = sorted(may - {it.key() for it in found})
    return new + [f"{it}: isn't found any more: take it from scripts/maps/allowed.txt" for it in gone]


def main(words):
    found = list(found_in.findings(Sources(TOP)))
    if words == ["--list"]:
        for it in found:
            print(it, *it.exits)
        return 0
    if words:
        sys.exit(__doc__.strip())
    wrong = compare(found, allowed())
    for line in wrong:
        print(line)
    print(f"{len(found)} locals that hold a map are dropped at an exit; {len(wrong)} faults")
    return 1 if wrong else 0


if __name__ == "__main__":
    sys.exit(main(sys.argv[1:]))
