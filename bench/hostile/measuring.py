"""Measures a program over the shapes; bench/measure PROGRAM WORK hostile."""
import math
import os
import resource
import subprocess
import sys

from pages import put
from running import instructions, shown

from .command import make
from .expected import BASE, EXPONENT, IN_PROPORTION, ROWS, memory_of, sizes

SECONDS = 10
KILOBYTES = 2_000_000  # of address space
COUNTED = 1  # second up to which instructions are counted, which takes some forty times as long
FILES = ("s.mm0", "b.mmb", "s.mmu")
USAGE, MEMORY = 2, 4  # exit numbers


def words_of(command, folder):
    """The program's arguments for the files of a folder."""
    spec, binary, text = (os.path.join(folder, name) for name in FILES)
    if command in ("compile", "spec"):
        return [command, text, os.path.join(folder, "out")]
    if command == "show":
        return [command, binary]
    return [command, spec, binary, *([os.path.join(folder, "out")] if command == "decompile" else [])]


def once(timed, words):
    """The exit number (below 0 for a signal), seconds and bytes of memory of a run under the limits."""
    limit = lambda: resource.setrlimit(resource.RLIMIT_AS, (KILOBYTES * 1024,) * 2)
    ran = subprocess.run([timed, str(SECONDS), *words], stdout=subprocess.PIPE, check=True, preexec_fn=limit)
    status, user, system, kilobytes = map(int, ran.stdout.split())
    return status, (user + system) / 1e6, kilobytes * 1024


def measure(program, work, timed, shape, command, size):
    """One cell of each column: bytes, the exit number, seconds, memory, instructions where they are counted."""
    folder = os.path.join(work, "hostile.%s.%d" % (shape.replace(":", "."), size))
    if not any(os.path.exists(os.path.join(folder, name)) for name in FILES[1:]):
        make(shape, size, folder)
    words = words_of(command, folder)
    runs = [once(timed, [program, *words])]
    while len(runs) < 3 and runs[0][1] < 1:
        runs.append(once(timed, [program, *words]))
    read = sum(os.path.getsize(path) for path in words[1:] if os.path.basename(path) in FILES)
    fewest = min(it[1] for it in runs)
    counted = instructions([program, *words]) if fewest <= COUNTED else None
    return {"bytes": read, "status": runs[0][0], "seconds": fewest, "memory": max(it[2] for it in runs), "instructions": counted}


def has_ended(cell):
    """Whether the run ended under its limits."""
    return cell["status"] >= 0 and cell["status"] != MEMORY


def row_of(program, work, timed, shape, command, largest, expected):
    """The cells of a row; none where the program doesn't have the command, which it says before it looks for files."""
    cells = []
    has_command = once(timed, [program, *words_of(command, work)])[0] != USAGE
    for size in sizes(largest) if has_command else ():
        cells.append(measure(program, work, timed, shape, command, size))
        print(shape, command, cells[-1], file=sys.stderr, flush=True)
    return {"shape": shape, "command": command, "expected": expected, "cells": cells}


def exponent(row, key):
    """Of seconds or instructions over bytes, from the smallest to the largest file for which the run ended."""
    ended = [it for it in row["cells"] if has_ended(it) and it["seconds"]]
    if len(ended) < 2 or row["shape"] == "dag" or not ended[0][key] or not ended[-1][key]:
        return None
    return math.log(ended[-1][key] / ended[0][key]) / math.log(ended[-1]["bytes"] / ended[0]["bytes"])


def growth(row):
    """The exponent that is judged: of instructions where they were counted, which other work doesn't change, else of seconds."""
    counted = exponent(row, "instructions")
    return exponent(row, "seconds") if counted is None else counted


def each(row):
    """Bytes of memory for each byte of the largest file, beyond those that are there for any."""
    last = row["cells"][-1]
    return max(0, last["memory"] - BASE) / last["bytes"]


def is_more(row):
    """Whether it took more than in proportion, or did not end."""
    return not all(map(has_ended, row["cells"])) or (growth(row) or 0) > EXPONENT or each(row) > memory_of(row["shape"])


def seconds(cell):
    if cell["status"] == MEMORY:
        return "no memory"
    return "%.3f" % cell["seconds"] if has_ended(cell) else "stopped"


def line(row):
    cells = row["cells"]
    joined = lambda form: " / ".join(map(form, cells)) or "-"
    grown = lambda key: shown(exponent(row, key), "%.2f")
    memory = "%.0f" % each(row) if cells else "-"
    columns = [
        row["shape"], row["command"], joined(lambda it: "%d" % it["bytes"]), joined(seconds),
        joined(lambda it: "%.0f" % (it["memory"] / 1e6)), memory, grown("seconds"), grown("instructions"), row["expected"],
    ]
    return "| %s |" % " | ".join(columns)


def table(rows):
    yield "| Shape | Command | Bytes | Seconds | Memory, MB | Memory, bytes each byte | Exponent of seconds | of instructions | Expected |"
    yield "|---|---|---|---|---|---|---|---|---|"
    yield from map(line, rows)


def summary(rows):
    """Which rows took more than is expected of them."""
    asked = [row for row in rows if row["expected"] == IN_PROPORTION]
    more = ["%s (%s)" % (row["shape"], row["command"]) for row in asked if is_more(row)]
    bounds = "an exponent over %.2f, more memory than is said in expected.py, or a limit" % EXPONENT
    return "More than in proportion (%s): %s." % (bounds, ", ".join(more) if more else "none")


def hostile(program, work, chosen=()):
    """Measures all rows, or those of the shapes that are chosen; a row stays as it is where the program doesn't have its command."""
    rows = [row_of(program, work, os.path.join(work, "timed"), *it) for it in ROWS if not chosen or it[0] in chosen]
    measured = [row for row in rows if row["cells"]]
    put("hostile", table(measured), keys=2)
    print("", summary(measured), sep="\n")
