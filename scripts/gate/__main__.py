"""Proves, builds and tries everything.

    ./mz test            all of it
    ./mz test --quick    what needs no proof

All of it is `rt ci`, which proves each crate and builds the programs; then the wrong bodies (scripts/wrong-bodies), over the
libraries that `rt ci` has built; then the cases and the side checks (scripts/check), over the program. Where `rt ci` fails, what
needs its results is skipped. The last line adds up what these parts say: `N passed, M failed`, with `, K skipped` where some
are. The exit number is 0 where none failed.
"""
import os
import re
import signal
import subprocess
import sys
from dataclasses import dataclass

TOP = os.path.dirname(os.path.dirname(os.path.dirname(os.path.abspath(__file__))))
PROGRAM = os.path.join(TOP, "crates", "mz_main", "out", "mz_main")
SUMMARY = re.compile(r"(\d+) passed, (\d+) failed(?:, (\d+) skipped)?")


@dataclass
class Count:
    """How many passed, failed and were skipped."""

    passed: int = 0
    failed: int = 0
    skipped: int = 0

    def __add__(self, other):
        return Count(self.passed + other.passed, self.failed + other.failed, self.skipped + other.skipped)

    def __str__(self):
        return f"{self.passed} passed, {self.failed} failed" + (f", {self.skipped} skipped" if self.skipped else "")


def counted(lines, status):
    """What the last lines of a part say of it. A part that fails and tells of no failure counts as one."""
    found = next(filter(None, map(SUMMARY.search, reversed(lines))), None)
    count = Count(*(int(it or 0) for it in found.groups())) if found else Count()
    if status and not count.failed:
        count.failed = 1
    return count


class Stopped(Exception):
    """A signal asked to end."""


class Parts:
    """Runs part after part. Where a signal comes, the part that runs is ended."""

    def __init__(self):
        self.running, self.is_stopped = None, False

    def stop(self, *_):
        self.is_stopped = True
        if self.running:
            self.running.terminate()

    def run(self, words, **environment):
        """Runs a part, shows what it prints, and counts."""
        print(f"== {' '.join(os.path.relpath(it, TOP) if os.path.isabs(it) else it for it in words)}", flush=True)
        how = {"cwd": TOP, "env": {**os.environ, **environment}, "stdin": subprocess.DEVNULL, "stdout": subprocess.PIPE, "stderr": subprocess.STDOUT}
        try:
            self.running = subprocess.Popen(words, text=True, errors="replace", **how)
        except OSError as error:
            print(f"{words[0]} can't be started: {error.strerror}", flush=True)
            return Count(failed=1)
        if self.is_stopped:
            # (the signal came while it was started)
            self.running.terminate()
        last = []
        for line in self.running.stdout:
            print(line, end="", flush=True)
            last = [*last[-9:], line]
        status, self.running = self.running.wait(), None
        if self.is_stopped:
            raise Stopped
        return counted(last, status)


def bodies():
    """How many wrong bodies there are."""
    crates = os.path.join(TOP, "crates")
    folders = [os.path.join(crates, it, "wrong") for it in os.listdir(crates)]
    return sum(len(os.listdir(it)) for it in folders if os.path.isdir(it))


def whole(parts):
    """The gate, and all that stands on what it builds."""
    gate = parts.run(["rt", "ci"])
    # (where the gate fails nothing is built a second time)
    program = {} if gate.failed else {"MZ": PROGRAM}
    wrong = Count(skipped=bodies()) if gate.failed else parts.run([os.path.join(TOP, "scripts", "wrong-bodies")])
    return gate + wrong + quick(parts, **program)


def quick(parts, **program):
    """What needs no proof, over the program where it is built."""
    return parts.run([os.path.join(TOP, "scripts", "check")], MZ_BUILD="never", **program)


def main(words):
    if words not in ([], ["--quick"]):
        print(__doc__.strip(), file=sys.stderr)
        return 2
    parts = Parts()
    for number in (signal.SIGINT, signal.SIGTERM):
        signal.signal(number, parts.stop)
    try:
        count = quick(parts) if words else whole(parts)
    except Stopped:
        print("interrupted", flush=True)
        return 130
    print(count, flush=True)
    return 1 if count.failed else 0


if __name__ == "__main__":
    sys.exit(main(sys.argv[1:]))
