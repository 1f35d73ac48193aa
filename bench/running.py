"""How programs are run and counted, and where the files lie that they are run over."""
import math
import os
import re
import subprocess

HERE = os.path.dirname(os.path.abspath(__file__))
LIMIT = 40  # seconds of one run
COUNTING = ["valgrind", "--tool=cachegrind", "--cache-sim=no", "--cachegrind-out-file=/dev/null"]


def build(work, *names):
    """Compiles programs of this folder; one that is to be preloaded ends in .so."""
    for name in names:
        plain = name.removesuffix(".so")
        flags = ["-shared", "-fPIC", "-fno-omit-frame-pointer"] if name != plain else ["-march=x86-64"]
        words = [os.environ.get("CC", "cc"), "-O2", "-std=gnu11", *flags, "-o", os.path.join(work, name), os.path.join(HERE, plain + ".c")]
        subprocess.run(words, check=True)


def timed(work, words, environment=None):
    """The lowest time of three runs in seconds, the most memory in bytes and the exit number; None where one takes more than LIMIT."""
    found = []
    for _ in range(3):
        limited = [os.path.join(work, "timed"), str(LIMIT), *words]
        out = subprocess.run(limited, env={**os.environ, **(environment or {})}, stdout=subprocess.PIPE, check=True).stdout.split()
        status, user, system, kilobytes = map(int, out)
        if status < 0:
            return None
        found.append((user + system, kilobytes * 1024, status))
    return min(it[0] for it in found) / 1e6, max(it[1] for it in found), found[0][2]


def instructions(words, environment=None):
    """How many instructions a run takes; None where it isn't counted."""
    said = subprocess.run([*COUNTING, *words], env={**os.environ, **(environment or {})}, stdout=subprocess.DEVNULL, stderr=subprocess.PIPE, check=False).stderr
    found = re.search(rb"I\s+refs:\s*([\d,]+)", said)
    return int(found[1].replace(b",", b"")) if found else None


def sizes(first, last):
    """first, doubled until last."""
    n = first
    while n < last:
        yield n
        n *= 2
    yield last


def pair(work, shape, n):
    """A pair of a shape and a size."""
    folder = os.path.join(work, "%s.%d" % (shape, n))
    if not os.path.exists(os.path.join(folder, "b.mmb")):
        subprocess.run([os.path.join(HERE, "shapes"), shape, str(n), folder], check=True)
    return os.path.join(folder, "s.mm0"), os.path.join(folder, "b.mmb")


def bytes_of(paths):
    return sum(map(os.path.getsize, paths))


def growth(rows, key):
    """The exponent between the first and the last row."""
    first, last = rows[0], rows[-1]
    if len(rows) < 2 or not first[key] or not last[key]:
        return None
    return math.log(last[key] / first[key]) / math.log(last["bytes"] / first["bytes"])


def shown(value, form):
    return form % value if value is not None else "-"
