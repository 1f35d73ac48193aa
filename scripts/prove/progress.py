"""Says on a terminal how far long work is."""
import contextlib
import sys
import time

PATIENCE = 2.0  # seconds before anything is said


@contextlib.contextmanager
def shown(what):
    """Shows what is done meanwhile, where nobody knows how much of it there is."""
    is_terminal = sys.stderr.isatty()
    if is_terminal:
        print(f"{what} ..", end="", file=sys.stderr, flush=True)
    try:
        yield
    finally:
        if is_terminal:
            print("\r\x1b[K", end="", file=sys.stderr, flush=True)


class Progress:
    """So many of a whole are done. Nothing is said where standard error is no terminal."""

    def __init__(self, total, what):
        self.total, self.what, self.done, self.has_said = total, what, 0, False
        self.begun = self.said = time.monotonic()

    def step(self, many=1):
        self.done += many
        now = time.monotonic()
        if now - self.begun > PATIENCE and now - self.said > 0.2 and sys.stderr.isatty():
            print(f"\r{self.done:,} of {self.total:,} {self.what}", end="", file=sys.stderr, flush=True)
            self.said, self.has_said = now, True

    def finish(self):
        if self.has_said:
            print("\r\x1b[K", end="", file=sys.stderr, flush=True)
