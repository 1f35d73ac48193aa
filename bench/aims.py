"""Pairs of 10 to 30 MB beside the verifier in C, those that stand for a library first; bench/measure PROGRAM WORK aims [SHAPE ..]."""
import os
import sys

from running import bytes_of, instructions, pair, timed

LIBRARY = {"mixed": 103000, "late": 118600, "defs": 102000, "notations": 170000, "formulas": 56000}
SIZES = {**LIBRARY, "publics": 100000, "locals": 400000, "deep": 1400000, "again": 960000, "convs": 740000}


def measured(work, program, shape):
    """Of the program and of the verifier in C: seconds, instructions and bytes of memory."""
    paths = pair(work, shape, SIZES[shape])
    found = []
    for words in ([program, "verify", *paths], [os.path.join(work, "verifier"), *paths]):
        seconds, memory, _ = timed(work, words)
        found.append((seconds, instructions(words), memory))
    print(shape, SIZES[shape], *found, file=sys.stderr, flush=True)
    return bytes_of(paths), *found


def line(shape, read, mine, other):
    times, counts, memory = zip(mine, other)
    counted = (counts[0] / 1e6, counts[1] / 1e6, counts[0] / counts[1])
    return "| %s | %d | %d | %.2f | %.2f | %.0f | %.0f | %.1f | %.0f | %.0f |" % (shape, SIZES[shape], read, *times, *counted, *(it / 1e6 for it in memory))


def table(work, program, shapes):
    yield "| Shape | N | Bytes | Time, s | In C, s | Instructions, millions | In C, millions | Times those in C | Memory, MB | In C, MB |"
    yield "|%s" % ("---|" * 10)
    for shape in shapes:
        yield line(shape, *measured(work, program, shape))
