"""What the commands over proof texts cost; bench/measure PROGRAM WORK texts."""
import os
import subprocess
import sys

from running import HERE, bytes_of, growth, instructions, shown, sizes, timed

FIRST, LAST, PROFILED = 1000, 8000, 4000
USAGE = 2  # the exit number where the arguments are no command
COMMANDS = ("compile", "spec", "decompile", "show", "assemble")


def prepared(work, program, n):
    """A text of a size, its specification, its binary and the binary's listing."""
    folder = os.path.join(work, "texts.%d" % n)
    path = lambda name: os.path.join(folder, name)
    if not os.path.exists(path("s.mmu")):
        subprocess.run([os.path.join(HERE, "texts"), str(n), folder], check=True)
    subprocess.run([program, "compile", path("s.mmu"), path("b.mmb")], stdout=subprocess.DEVNULL, check=False)
    if os.path.exists(path("b.mmb")):
        with open(path("b.list"), "wb") as file:
            subprocess.run([program, "show", path("b.mmb")], stdout=file, check=False)
    return path


def words_of(program, command, path):
    """The program's arguments for a command over what was prepared, the files that it reads, and the one that it makes."""
    read = {"compile": ["s.mmu"], "spec": ["s.mmu"], "decompile": ["s.mm0", "b.mmb"], "show": ["b.mmb"], "assemble": ["b.list"]}[command]
    out = path("out." + command)
    paths = list(map(path, read))
    return [program, command, *paths, *([] if command == "show" else [out])], paths, path("b.list") if command == "show" else out


def can_run(program, command, path):
    """Whether the program has the command, and there are files for it: it may have none that compiles."""
    words, paths, _ = words_of(program, command, path)
    return all(map(os.path.exists, paths)) and subprocess.run(words, stdout=subprocess.DEVNULL, stderr=subprocess.DEVNULL, check=False).returncode != USAGE


def runs(work, program, chosen=COMMANDS, n=PROFILED):
    """Each command, its size, the program's arguments and the bytes that it reads."""
    path = prepared(work, program, n)
    for command in chosen:
        words, paths, _ = words_of(program, command, path)
        if can_run(program, command, path):
            yield command, n, words, bytes_of(paths)


def rows_of(work, program, command):
    rows = []
    for n in sizes(FIRST, LAST):
        words, paths, out = words_of(program, command, prepared(work, program, n))
        seconds, memory, status = timed(work, words)
        row = {"n": n, "bytes": bytes_of(paths), "seconds": seconds, "memory": memory, "status": status, "count": instructions(words)}
        rows.append({**row, "out": bytes_of([out])})
        print(command, rows[-1], file=sys.stderr, flush=True)
    return rows


def line(command, rows):
    first, last = rows[0], rows[-1]
    each = [row["memory"] / row["bytes"] for row in (first, last)]
    columns = (command, last["n"], last["bytes"], last["out"], last["seconds"], last["count"] / 1e6, shown(growth(rows, "count"), "%.2f"), last["memory"] / 1e6)
    return "| %s | %d | %d | %d | %.2f | %.0f | %s | %.1f | %.1f / %.1f |" % (*columns, *each)


def table(found):
    sides = "N = %d / %d" % (FIRST, LAST)
    yield "| Command | N | Bytes read | Bytes written | Time, s | Instructions, millions | Growth of instructions | Memory, MB | Memory, bytes each byte read, %s |" % sides
    yield "|---|---|---|---|---|---|---|---|---|"
    for command, rows in found.items():
        yield line(command, rows)


def measured(work, program):
    """The rows of each command that the program has."""
    path = prepared(work, program, FIRST)
    return {command: rows_of(work, program, command) for command in COMMANDS if can_run(program, command, path)}
