"""How far long work is, on a terminal alone and not at once."""
import contextlib
import io
import unittest
from unittest import mock

from prove import progress


class Terminal(io.StringIO):
    def isatty(self):
        return True


def said(stream, seconds):
    """What is said of three steps of ten, so many seconds apart."""
    with contextlib.redirect_stderr(stream), mock.patch.object(progress.time, "monotonic", side_effect=[seconds * i for i in range(9)]):
        it = progress.Progress(10, "things")
        for _ in range(3):
            it.step()
        it.finish()
    return stream.getvalue()


class Said(unittest.TestCase):
    def test_what_is_done_meanwhile(self):
        for stream, wanted in ((Terminal(), "reading ..\r\x1b[K"), (io.StringIO(), "")):
            with contextlib.redirect_stderr(stream), contextlib.suppress(ValueError), progress.shown("reading"):
                raise ValueError
            self.assertEqual(stream.getvalue(), wanted)

    def test_each(self):
        self.assertEqual(said(Terminal(), 0.1), "")
        self.assertEqual(said(io.StringIO(), 1.5), "")
        self.assertEqual(said(Terminal(), 1.5), "\r2 of 10 things\r3 of 10 things\r\x1b[K")
