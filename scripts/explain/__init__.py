"""Explains what the program says: a refusal, arguments that are none of its, a file that could not be read.

    refusal(line, words)    of a line that the program wrote for these words: the place, the rule, what was expected and found
    fault(status, words)    of an exit number from 3 to 7
    usage(words)            of words that the program doesn't take, or an empty text where it does
    Refusal.of_line(line)   the parts of a line, or None

None of these raises: where nothing more can be said, what the rule says stands alone.
"""
from .lines import Refusal
from .telling import fault, refusal
from .words import usage

__all__ = ["Refusal", "fault", "refusal", "usage"]
