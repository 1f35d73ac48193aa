"""Says of each theorem of a specification which definitions its proof unfolds: ./mz axioms --definitions SPEC BIN.

The program judges the pair first, by `verify`, and its line stands before all else. A refused pair has that line alone, and the
program's exit number. What follows the line is read from the binary by this script and isn't proved: a line for each theorem, in
declared order, with the definitions that its proof unfolds, directly or through what it cites. `local` stands before a definition
that the binary brings. The environment's MZ names the program.
"""
import os
import sys

sys.dont_write_bytecode = True
sys.path.insert(0, os.path.dirname(os.path.dirname(os.path.abspath(__file__))))

import running  # noqa: E402
from explore.program import Refused, run  # noqa: E402
from explore.specification import read_specification  # noqa: E402
from metamath.telling import Failed, read_bytes, read_text  # noqa: E402
from unfolded.unfoldings import Pair  # noqa: E402


def line(name, definitions):
    return " ".join([f"{name}:", *(f"local {it.name}" if it.is_local else it.name for it in definitions)])


def tell(specification, binary):
    source, data = read_text(specification), read_bytes(binary)
    print(run("verify", specification, binary).strip(), flush=True)
    declarations, _ = read_specification(source)
    for theorem in Pair(declarations, data).theorems():
        print(line(*theorem))
    return 0


def main(words):
    if len(words) != 2:
        print("usage: mz axioms --definitions SPEC BIN", file=sys.stderr)
        return 2
    try:
        return tell(*words)
    except Refused as refused:
        print(refused)
        return refused.status
    except Failed as failed:
        print(f"mz axioms: {failed}", file=sys.stderr)
        return failed.status


if __name__ == "__main__":
    running.whole(lambda: running.deep(lambda: main(sys.argv[1:])))
