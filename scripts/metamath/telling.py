"""What the commands tell: a line on a terminal while they work, and their faults as one sentence."""
import os
import stat
import sys
import tempfile
import time
from contextlib import contextmanager

WRONG_WORDS, CANT_READ, CANT_WRITE, OUT_FAULT = 2, 3, 5, 6  # exit numbers, as the program has them


class Failed(Exception):
    """Why there is no answer, in one sentence, and the exit number."""

    def __init__(self, why, status=1):
        super().__init__(why)
        self.status = status


class Progress:
    """A line on a terminal."""

    def __init__(self):
        self.is_shown, self.next, self.length = sys.stderr.isatty(), 0, 0

    def say(self, what):
        if self.is_shown:
            print("\r" + what.ljust(self.length), end="", file=sys.stderr, flush=True)
            self.length = len(what)

    def part(self, number, last):
        if self.is_shown and time.monotonic() > self.next:
            self.next = time.monotonic() + 0.5
            self.say(f"translating: {100 * number // max(last, 1)}%")

    def done(self):
        self.say("")
        if self.is_shown:
            print("\r", end="", file=sys.stderr, flush=True)
        self.length = 0


def plural(number, word):
    """A number of things."""
    return f"{number:,} {word}{'' if number == 1 else 's'}"


def read_bytes(path):
    try:
        with open(path, "rb") as file:
            return file.read()
    except OSError as fault:
        raise Failed(f"{path} can't be read: {fault.strerror}", CANT_READ) from None


def read_text(path):
    """A file of ASCII; another byte is a character of its own, so that it stays a fault at its place."""
    return read_bytes(path).decode("latin-1")


@contextmanager
def written(path):
    """A file to write, that takes the place of the one of this path when all is written, and not before. What is no file,
    as /dev/null or a pipe, is written to as it is."""
    path = os.path.realpath(path)
    try:
        if os.path.exists(path) and not stat.S_ISREG(os.stat(path).st_mode):
            with open(path, "w", encoding="ascii") as file:
                yield file
            return
        handle, beside = tempfile.mkstemp(prefix=os.path.basename(path) + ".", dir=os.path.dirname(path))
        try:
            with open(handle, "w", encoding="ascii") as file:
                yield file
            os.chmod(beside, 0o666 & ~_mask())
            os.replace(beside, path)
        except BaseException:
            os.unlink(beside)
            raise
    except OSError as fault:
        raise Failed(f"{path} can't be written: {fault.strerror}", CANT_WRITE) from None


def _mask():
    mask = os.umask(0)
    os.umask(mask)
    return mask
