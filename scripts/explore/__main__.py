"""Writes pages that show a development: a page a theorem, a definition, a sort, and the specification with links.

    ./mz explore SPEC BIN DIR     of a binary, whose text mz decompile makes
    ./mz explore SPEC TEXT DIR    of a proof text, which may have open proofs
    ./mz explore --check DIR      checks that every link of the pages in DIR leads somewhere

The program mz judges first, and where it says no, no page is written. DIR/index.html is the first page; pages need no server.
Each formula is read back by the specification's rules before its page is written. The environment's MZ names the program.
"""
import gc
import os
import sys

sys.dont_write_bytecode = True
sys.path.insert(0, os.path.dirname(os.path.dirname(os.path.abspath(__file__))))

import running  # noqa: E402
from explore.check import dead_links  # noqa: E402
from explore.development import judged  # noqa: E402
from explore.lexemes import Unreadable  # noqa: E402
from explore.program import Refused  # noqa: E402
from explore.site import Site  # noqa: E402
from prove.progress import shown  # noqa: E402


def check(folder):
    if not os.path.isdir(folder):
        print(f"{folder} is no folder", file=sys.stderr)
        return 3
    count, dead = dead_links(folder)
    for page, address in dead:
        print(f"{page}: {address} leads nowhere")
    print(f"{count - len(dead)} of {count} links lead somewhere")
    return 1 if dead else 0


def write(specification, other, folder):
    gc.disable()  # what is kept lives long, and processes share what nobody goes through
    if os.path.exists(folder) and not os.path.isdir(folder):
        print(f"{folder} is no folder", file=sys.stderr)
        return 3
    with shown("the program judges"):
        development = judged(specification, other)
    with shown("the specification is read"):
        site = Site(development, folder)
    counts = site.write()
    print(f"{counts.pages} pages: {counts.theorems} theorems in {counts.steps} steps; {counts.formulas} formulas, "
          "each read back" + (f"; {counts.kept} pages stay as they were" if counts.kept else ""))
    return 0


def main(words):
    if len(words) == 2 and words[0] == "--check":
        return check(words[1])
    if len(words) != 3 or words[0].startswith("-"):
        print(__doc__.strip(), file=sys.stderr)
        return 2
    try:
        return write(*words)
    except Refused as refused:
        print(refused)
        return refused.status
    except (AssertionError, Unreadable) as wrong:
        print(f"this can't be shown: {wrong}", file=sys.stderr)
        return 1


if __name__ == "__main__":
    running.whole(lambda: running.deep(lambda: main(sys.argv[1:])))
