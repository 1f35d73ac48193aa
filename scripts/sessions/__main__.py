"""Plays sessions of an author in Neovim, with the files of editors/vim as they are installed.

    python3 scripts/sessions [SESSION..]            plays them, and writes down what is seen
    python3 scripts/sessions --check [SESSION..]    plays them, and says where something else is seen

Without names it plays each examples/*/*.session. In a session a line behind "> " is what the author types, in Neovim's
notation for keys, or the number of a choice; a line behind "-- " is a remark. All else is what is seen then: behind a number the
lines that others have written, or that have something behind them (in « »); behind : what is said, behind + what completion
offers, behind | what another window shows.

A session has a folder of its own, with the specification of its name. What it leaves there has to be what stands beside the
session, file by file. The environment's MZ is the program.
"""
import os
import sys

sys.dont_write_bytecode = True
sys.path.insert(0, os.path.dirname(os.path.dirname(os.path.abspath(__file__))))

import running  # noqa: E402
from sessions.playing import play, sessions  # noqa: E402


def main():
    words = sys.argv[1:]
    is_check = words[:1] == ["--check"]
    paths = words[1:] if is_check else words
    if any(it.startswith("-") for it in paths):
        print(__doc__.strip(), file=sys.stderr)
        return 2
    paths = paths or sessions()
    different = [line for it in paths for line in play(it, is_check)]
    print(*different, f"{len(paths)} sessions, {'another' if different else 'the same'} as written", sep="\n")
    return 1 if different else 0


if __name__ == "__main__":
    running.whole(main)
