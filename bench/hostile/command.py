"""The command: python3 bench/hostile."""
import os

from . import axioms, binaries, bodies, matching, specifications, texts  # noqa: F401 (each adds its shapes)
from .pieces import SHAPES

USAGE = """python3 bench/hostile SHAPE BYTES FOLDER    writes a pair FOLDER/s.mm0, FOLDER/b.mmb, or for a text FOLDER/s.mmu

The files have about so many bytes together (but of `dag`: there it is a depth). The shapes, of which each says what it is,
and what it tries to make dear:
"""


def make(shape, size, folder):
    """Writes the files of a shape."""
    made = SHAPES[shape](size)
    os.makedirs(folder, exist_ok=True)
    if shape.startswith("text:"):
        write(folder, "s.mmu", made.encode())
    else:
        binary, parts = made
        write(folder, "s.mm0", "".join(parts).encode())
        write(folder, "b.mmb", binary.bytes())


def write(folder, name, content):
    with open(os.path.join(folder, name), "wb") as file:
        file.write(content)


def main(given):
    if len(given) != 3 or given[0] not in SHAPES or not given[1].isdigit():
        print(USAGE)
        for name, function in SHAPES.items():
            print("  %-16s %s" % (name, " ".join(function.__doc__.split())))
        return 2
    make(given[0], int(given[1]), given[2])
    return 0
