"""What another allocator would give, or other settings of it; bench/measure PROGRAM WORK tried [SHAPE or COMMAND ..]."""
import os
import sys

from running import instructions, timed

# Those that stand for a library, and the others that take more than is aimed at.
SHAPES = ("publics", "mixed", "late", "defs", "formulas", "notations")
OTHERS = ("terms", "locals", "deep", "again", "convs", "widebound", "variables", "marks", "chains", "nots", "rights", "defdeps", "prefixwide", "defwide", "delimiters", "coercions", "coercefan", "sharing")
SETTINGS = {
    "As it is": "",
    "Blocks from 16 KB apart": "glibc.malloc.mmap_threshold=16384",
    "None apart": "glibc.malloc.mmap_threshold=1073741824",
    "Without its cache": "glibc.malloc.tcache_count=0",
}


def row_of(work, name, n, words, peer):
    """A line of the table: the instructions with the C library's allocator, and with one that counts up alone (bump.c)."""
    usual, bumped = instructions(words), instructions(words, {"LD_PRELOAD": os.path.join(work, "bump.so")})
    other = instructions(peer) if peer else None
    print(name, n, usual, bumped, other, file=sys.stderr, flush=True)
    times = ["%.1f" % (count / other) if other else "-" for count in (usual, bumped)]
    return "| %s | %d | %.1f | %.1f | %.0f %% | %s | %s |" % (name, n, usual / 1e6, bumped / 1e6, 100 * (usual - bumped) / usual, *times)


def table(runs, work):
    """The table's lines, of runs: a name, a size, the program's arguments and those of the verifier in C, if it has such."""
    yield "| Command and files | N | Instructions, millions | With an allocator that only counts up, millions | Less | Times those in C | With that allocator |"
    yield "|---|---|---|---|---|---|---|"
    for run in runs:
        yield row_of(work, *run)


def memory_row(work, name, n, words):
    found = [timed(work, words, {"GLIBC_TUNABLES": setting})[1] for setting in SETTINGS.values()]
    print(name, n, found, file=sys.stderr, flush=True)
    return "| %s | %d | %s |" % (name, n, " | ".join("%.1f" % (it / 1e6) for it in found))


def memory_table(runs, work):
    """The most memory of each run in MB, by settings of the C library's allocator."""
    yield "| Command and files | N | %s |" % " | ".join(SETTINGS)
    yield "|%s" % ("---|" * (2 + len(SETTINGS)))
    for name, n, words, _ in runs:
        yield memory_row(work, name, n, words)
