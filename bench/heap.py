"""By which functions the heap was asked for, where it is largest; bench/measure PROGRAM WORK heap [SHAPE or COMMAND ..]."""
import collections
import os
import re
import subprocess
import sys

from profiling import readable

MOST, LEAST = 8, 0.02  # functions of a row, and the share from which they are named
GENERIC = re.compile(r"(std_alloc|std_collections|indexmap|arrayvec|core)::|allocator$")
PUSHING = re.compile(r"(?:.*::)?(\w+)::push$")


def named(chain):
    """Who asked for a block: the first function that isn't a list's, and behind it the list's type, if that has a name."""
    lists = None
    for name in chain:
        pushing = PUSHING.match(name)
        if pushing and not GENERIC.match(name):
            lists = pushing[1]
        elif not GENERIC.match(name):
            return "`%s`%s" % (name, " (%s)" % lists if lists else "")
    return "the C library"


def measured(work, words):
    """The bytes of the heap where it is largest, and those of each who asked; None where the program ended otherwise than with 0."""
    out = os.path.join(work, "heap.out")
    env = dict(os.environ, LD_PRELOAD=os.path.join(work, "heap.so"), HEAP_OUT=out)
    if subprocess.run(words, env=env, stdout=subprocess.DEVNULL, stderr=subprocess.DEVNULL, check=False).returncode:
        return None
    found = collections.Counter()
    with open(out) as file:
        whole = int(file.readline())
        for line in file:
            count, _, *chain = line.rstrip("\n").split("\t")
            found[named([readable(name) for name in chain])] += int(count)
    return whole, found


def table(runs, work):
    """The table's lines, of runs: a name, a size, the program's arguments and the bytes that it reads."""
    yield "| Command and files | N | Bytes read | Heap at its largest, MB | The %d functions that asked for most of it, and their shares |" % MOST
    yield "|---|---|---|---|---|"
    for name, n, words, read in runs:
        found = measured(work, words)
        print(name, n, found and found[0], file=sys.stderr, flush=True)
        if found:
            whole, asked = found
            shares = ["%s %.0f %%" % (who, 100 * count / whole) for who, count in asked.most_common(MOST) if count >= LEAST * whole]
            yield "| %s | %d | %d | %.1f | %s |" % (name, n, read, whole / 1e6, ", ".join(shares))
