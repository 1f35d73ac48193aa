"""Builds the program of a crate, and prints where it is; or runs it unproved, and keeps nothing.

    scripts/build CRATE
    scripts/build --unproved CRATE WORD..

Where it is built of the sources as they stand nothing is done. Progress is reported on standard error. Two builds at once wait
for one another; one that is interrupted leaves nothing but what `rt` keeps of what it has proved. The exit number is 125
where the program could not be built, and where it runs unproved.
"""
import os
import sys

TOP = os.path.dirname(os.path.dirname(os.path.dirname(os.path.abspath(__file__))))
sys.path.insert(0, os.path.join(TOP, "scripts"))

import running  # noqa: E402
from build import program, unproved  # noqa: E402


def main():
    given = sys.argv[1:]
    if given[:1] == ["--unproved"] and len(given) > 2:
        return unproved.main(TOP, given[1], given[2:])
    if len(given) != 1:
        sys.exit(__doc__.strip())
    return program.main(TOP, given[0])


if __name__ == "__main__":
    running.whole(main)
